//! `wontirje count`: clears a table or loads a listing into it, adds each file in order, withdraws files in
//! order and prints the listing.

use crate::arguments::{Arguments, Options, Takes};
use crate::failure::{reason, status, Failure, Outcome};
use crate::fault::Fault;
use crate::listing;
use crate::output;
use crate::progress::Progress;
use crate::report;
use crate::survey::Given;
use crate::table::Table;
use crate::task::Task;
use crate::{input, survey};
use std::ffi::OsStr;
use wontirje::Kind;

pub const OPTIONS: Options = &[
    ("letters", Takes::Value),
    ("k", Takes::Value),
    ("mirror", Takes::Value),
    ("kind", Takes::Value),
    ("from", Takes::Value),
    ("withdraw", Takes::Values),
    ("output", Takes::Value),
    ("strict", Takes::Nothing),
    ("no-listing", Takes::Nothing),
];

/// The table of a run, the kind that its files are given as, and the one buffer that they are read into, and
/// the listing before them.
struct Run {
    table: Table,
    kind: Option<Kind>,
    buffer: Vec<u8>,
}

impl Run {
    /// Adds or withdraws a file and says its numbers, or why that was not done. Gives whether it was. Where
    /// no kind is given, the file's first byte tells it.
    fn handle(&mut self, task: Task, file: &OsStr) -> bool {
        let name = report::name(file);
        let mut progress = Progress::new(&name);
        let read = input::read(file, &mut self.buffer, &mut progress);
        let kind = self.kind.unwrap_or(Kind::of(&self.buffer));
        let answer = read.map(|()| {
            progress.working(task.doing(), self.buffer.len());
            let (settings, counts) = self.table.parts();
            match task {
                Task::Add => settings.add(counts, kind, &self.buffer),
                Task::Withdraw => settings.withdraw(counts, kind, &self.buffer),
            }
        });
        progress.done();
        let said = match &answer {
            Ok(Ok(numbers)) => format!("{}{}", task.done(), report::counted(numbers)),
            Ok(Err(refusal)) => {
                format!("{}{}", task.refused(), Fault::new(task, refusal, kind, &self.buffer))
            }
            Err(error) => task.unread(&reason(error)),
        };
        report::line(format_args!("{name}: {said}"));
        matches!(answer, Ok(Ok(_)))
    }
}

/// The table that a run starts from: that of the listing of --from, or one in which nothing is counted.
fn start(arguments: &Arguments, given: Given, buffer: &mut Vec<u8>) -> Result<Table, Failure> {
    let Some(operand) = arguments.value("from") else {
        let settings = given.or(survey::by_default());
        return Table::new(&settings, |refusal| survey::advised(&settings, refusal)).map_err(Failure::Said);
    };
    let table = listing::load(operand, given, buffer)?;
    listing::say_loaded(operand, &table);
    Ok(table)
}

/// The files and what to do with each: those to be counted come first, wherever the options stand. Without a
/// listing to start from, nothing can be withdrawn where no file is counted.
fn tasks(arguments: &Arguments) -> Result<Vec<(Task, &OsStr)>, Failure> {
    let adds = arguments.operands.iter().map(|file| (Task::Add, file.as_os_str()));
    let withdrawals = arguments.values("withdraw").map(|file| (Task::Withdraw, file));
    let tasks: Vec<(Task, &OsStr)> = adds.chain(withdrawals).collect();
    let from = arguments.value("from");
    if tasks.is_empty() || from.is_none() && arguments.operands.is_empty() {
        return Err(Failure::said(
            "no file given; name files, or - for standard input; see wontirje count --help",
        ));
    }
    input::check_once(tasks.iter().map(|(_, file)| *file).chain(from))?;
    Ok(tasks)
}

/// The kind that --kind gives to all files; none where it is not given.
fn kind(arguments: &Arguments) -> Result<Option<Kind>, Failure> {
    let Some(name) = arguments.value("kind") else { return Ok(None) };
    match name.to_str().and_then(Kind::from_name) {
        None => Err(Failure::said(format!("--kind {} is neither fasta nor fastq", report::shown(name)))),
        kind => Ok(kind),
    }
}

pub fn run(arguments: &Arguments) -> Outcome {
    let given = survey::given(arguments)?;
    let kind = kind(arguments)?;
    let tasks = tasks(arguments)?;
    if arguments.has("output") && arguments.has("no-listing") {
        return Err(Failure::said("--output and --no-listing exclude each other"));
    }
    let to = output::new_file(arguments, "output", "leave --output out to print the listing")?;
    let mut buffer = Vec::new();
    let mut run = Run { table: start(arguments, given, &mut buffer)?, kind, buffer };
    let mut refused = false;
    for (task, file) in tasks {
        if !run.handle(task, file) {
            refused = true;
            if arguments.has("strict") {
                return Ok(status(refused));
            }
        }
    }
    if !arguments.has("no-listing") {
        run.table.list(to, status(refused))?;
    }
    Ok(status(refused))
}

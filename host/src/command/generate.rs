//! `wontirje generate`: writes a test load, which the library makes from a start, a number of records and a
//! number of letters in each.

use crate::arguments::{Arguments, Options, Takes};
use crate::failure::{Failure, Outcome};
use crate::output;
use crate::report::shown;
use crate::survey;
use std::io::Write;
use std::process::ExitCode;
use wontirje::{Refusal, Settings};

pub const OPTIONS: Options = &[
    ("letters", Takes::Value),
    ("k", Takes::Value),
    ("mirror", Takes::Value),
    ("start", Takes::Value),
    ("records", Takes::Value),
    ("length", Takes::Value),
    ("output", Takes::Value),
];

/// The number given with an option. There is none by default: what a file is made from is to stand in the
/// command that makes it, so that others can make it too.
fn needed(arguments: &Arguments, option: &str) -> Result<usize, Failure> {
    arguments.number(option).map_err(Failure::Said)?.ok_or_else(|| {
        Failure::said(format!(
            "--{option} is not given; give --start, --records and --length; see wontirje generate --help"
        ))
    })
}

/// Why there is no file. Ground 6 is about its length, since no table is made here.
fn refused(settings: &Settings, records: usize, each: usize, refusal: Refusal) -> Failure {
    match refusal.number {
        6 => Failure::said(format!(
            "refused 6: the file of --records {records} and --length {each} would have more than 16,777,216 bytes; \
             give fewer records or letters, or make several files, each with another --start"
        )),
        _ => survey::refused(settings, refusal),
    }
}

/// The whole file, in a buffer of just its length.
fn made(settings: &Settings, start: u64, records: usize, each: usize) -> Result<Vec<u8>, Failure> {
    let refused = |refusal| refused(settings, records, each, refusal);
    let length = settings.generated_length(records, each).map_err(refused)?;
    let mut file = Vec::new();
    file.try_reserve_exact(length)
        .map_err(|_| Failure::said(format!("no file: out of memory ({length} bytes)")))?;
    file.resize(length, 0);
    settings.generate(start, records, each, &mut file).map_err(refused)?;
    Ok(file)
}

pub fn run(arguments: &Arguments) -> Outcome {
    if let Some(operand) = arguments.operands.first() {
        let name = shown(operand);
        let reason = format!("{name} is no option, and no file is read; see wontirje generate --help");
        return Err(Failure::Said(reason));
    }
    let settings = survey::settings(arguments)?;
    let start = needed(arguments, "start")? as u64;
    let (records, each) = (needed(arguments, "records")?, needed(arguments, "length")?);
    let to = output::new_file(arguments, "output", "leave --output out to print the file")?;
    let file = made(&settings, start, records, each)?;
    match to {
        None => output::to_stdout(ExitCode::SUCCESS, &mut |to| to.write_all(&file))?,
        Some(path) => output::to_new_file(path, &mut |to| to.write_all(&file))?,
    }
    Ok(ExitCode::SUCCESS)
}

//! A list of files for `wontirje count`, beside the library's answers to the same calls.

use crate::run::{run, whole_listing};
use kmer_tests::tables::Call;
use std::ffi::OsString;
use std::path::Path;
use wontirje::{Kind, Numbers, Refusal, Settings};

/// The arguments of a run; the library's table after the same calls, and how the line of each file must begin. The
/// settings are those of DNA, since of these only k is given to the command.
pub struct List {
    settings: Settings<'static>,
    table: Vec<u32>,
    arguments: Vec<OsString>,
    lines: Vec<String>,
}

/// The start of a file's line.
fn said(call: Call, path: &Path, answer: Result<Numbers, Refusal>) -> String {
    let name = path.display();
    let [done, not_done] = match call {
        Call::Add => ["", ""],
        Call::Withdraw => ["withdrawn: ", "not withdrawn: "],
    };
    match answer {
        Ok(Numbers { records, letters, .. }) => {
            format!("{name}: {done}records {records}, letters {letters}, ")
        }
        Err(Refusal { number: 18, .. }) => format!("{name}: {not_done}refused 18: "),
        Err(Refusal { number, place }) => format!("{name}: {not_done}refused {number} at offset {place} ("),
    }
}

impl List {
    pub fn new(k: usize) -> List {
        let settings = Settings::dna(k);
        let table = vec![0; settings.table_places().expect("a table")];
        List {
            settings,
            table,
            arguments: vec!["count".into(), format!("--k={k}").into()],
            lines: Vec::new(),
        }
    }

    /// Makes a call of the library with a file's bytes, which stand under this path, and puts it into the arguments.
    /// The command withdraws after it added, so that adds must come first.
    pub fn call(&mut self, call: Call, path: &Path, file: &[u8]) -> Result<Numbers, Refusal> {
        let (settings, table, kind) = (self.settings, &mut self.table, Kind::of(file));
        let answer = match call {
            Call::Add => settings.add(table, kind, file),
            Call::Withdraw => {
                self.arguments.push("--withdraw".into());
                settings.withdraw(table, kind, file)
            }
        };
        self.arguments.push(path.into());
        self.lines.push(said(call, path, answer));
        answer
    }

    /// Runs the command: the listing is that of the library, and each line has the library's answer. Gives whether
    /// some file was refused.
    pub fn check(&self) -> bool {
        let run = run(&self.arguments);
        let refused = self.lines.iter().any(|line| line.contains("refused "));
        assert_eq!(run.status, refused as i32, "{}", run.err);
        assert!(run.out == whole_listing(&self.settings, &self.table), "the listings differ: {}", run.err);
        let (told, lines) = (run.complaints(), &self.lines);
        assert_eq!(told.len(), lines.len(), "{}", run.err);
        assert!(told.iter().zip(lines).all(|(told, line)| told.starts_with(line)), "{told:?}: {lines:?}");
        refused
    }
}

//! Why a command ended before its end.

use std::io::{self, ErrorKind};
use std::process::ExitCode;

/// What a command ends with.
pub type Outcome = Result<ExitCode, Failure>;

pub enum Failure {
    /// The reason, in one line.
    Said(String),
    /// Standard output was closed by its reader: the command ends quietly, with this status.
    PipeClosed(ExitCode),
}

impl Failure {
    pub fn said(reason: impl Into<String>) -> Failure {
        Failure::Said(reason.into())
    }

    /// From an error in writing to standard output.
    pub fn of_printing(error: io::Error, status: ExitCode) -> Failure {
        match error.kind() {
            ErrorKind::BrokenPipe => Failure::PipeClosed(status),
            _ => Failure::said(format!("standard output: not written: {}", reason(&error))),
        }
    }
}

/// What the system says of an error, without its number there.
pub fn reason(error: &io::Error) -> String {
    let text = error.to_string();
    text.split(" (os error ").next().unwrap_or(&text).to_string()
}

/// The status of a run in which something was refused, or nothing.
pub fn status(refused: bool) -> ExitCode {
    ExitCode::from(u8::from(refused))
}

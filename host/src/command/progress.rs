//! Progress on standard error, for files above 1 MB and only where it is a terminal. It stays in one line, for
//! which a long name is cut, and is wiped before anything else is written.

use crate::report;
use std::io::{self, IsTerminal, Write};

/// Files up to so many bytes are done before a line could be read.
const QUIET: usize = 1_000_000;

pub struct Progress {
    name: String,
    terminal: bool,
    shown: bool,
}

impl Progress {
    pub fn new(name: &str) -> Progress {
        Progress { name: report::shortened(name), terminal: io::stderr().is_terminal(), shown: false }
    }

    fn show(&mut self, text: &str) {
        // Back to the line's start, and what stood there is wiped.
        let _ = write!(io::stderr(), "\r\x1b[K{}: {text}", self.name);
        self.shown = true;
    }

    /// So many bytes were read.
    pub fn reading(&mut self, bytes: usize) {
        if self.terminal && bytes > QUIET {
            self.show(&format!("{} MB read", bytes / 1_000_000));
        }
    }

    /// All bytes were read, and this is being done with them.
    pub fn working(&mut self, doing: &str, bytes: usize) {
        if self.terminal && bytes > QUIET {
            self.show(&format!("{doing} {} MB", bytes / 1_000_000));
        }
    }

    /// Wipes the line.
    pub fn done(self) {
        if self.shown {
            let _ = write!(io::stderr(), "\r\x1b[K");
        }
    }
}

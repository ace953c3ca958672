//! A table of counts with its settings, and its listing.

use crate::failure::Failure;
use crate::output;
use crate::survey::described;
use std::path::Path;
use std::process::ExitCode;
use wontirje::{Mirror, Refusal, Settings};

pub struct Table {
    letters: Vec<u8>,
    k: usize,
    mirror: Mirror,
    /// One for each class.
    counts: Vec<u32>,
}

impl Table {
    /// A table in which nothing is counted; else why there is none. What is said of settings that the library
    /// refuses depends on where they are from.
    pub fn new(settings: &Settings, refused: impl Fn(Refusal) -> String) -> Result<Table, String> {
        let places = settings.table_places().map_err(&refused)?;
        let mut counts = Vec::new();
        counts.try_reserve_exact(places).map_err(|_| {
            format!("no table: out of memory ({} bytes for {})", 4 * places, described(settings))
        })?;
        counts.resize(places, 0);
        settings.clear(&mut counts).map_err(&refused)?;
        let Settings { letters, k, mirror } = *settings;
        Ok(Table { letters: letters.to_vec(), k, mirror, counts })
    }

    pub fn settings(&self) -> Settings<'_> {
        Settings { letters: &self.letters, k: self.k, mirror: self.mirror }
    }

    pub fn counts(&self) -> &[u32] {
        &self.counts
    }

    /// The settings and the counts, for what writes to these.
    pub fn parts(&mut self) -> (Settings<'_>, &mut [u32]) {
        (Settings { letters: &self.letters, k: self.k, mirror: self.mirror }, &mut self.counts)
    }

    /// How many classes have a count, and the sum of the counts.
    pub fn summary(&self) -> String {
        let listed = self.counts.iter().filter(|&&count| count > 0).count();
        let total: u64 = self.counts.iter().map(|&count| u64::from(count)).sum();
        format!("{listed} of {} classes have a count, total {total}", self.counts.len())
    }

    /// The listing goes to a new file or to standard output; the status is what a run ends with whose reader
    /// closed the pipe.
    pub fn list(&self, to: Option<&Path>, status: ExitCode) -> Result<(), Failure> {
        let (settings, counts) = (self.settings(), self.counts());
        match to {
            None => output::to_stdout(status, &mut |to| settings.write_listing(counts, to).map(drop)),
            Some(path) => output::to_new_file(path, &mut |to| settings.write_listing(counts, to).map(drop)),
        }
    }
}

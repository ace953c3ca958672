//! The tally book of document 01 ("Table"), which keeps withdrawals too (document 02, K4), as a map from canonical
//! words to tallies, fed by a reader of sequence files that goes line by line; and the grounds that refuse a table
//! call.

use crate::expected::{coder, settings_ground, Refusal};
use crate::files::{fastq_sequences, lines, Kind};
use crate::second_coder::Coder;
use crate::sequences::MOST_BYTES;
use crate::settings::{rank, Settings};
use std::collections::HashMap;

/// The most classes that a table may have.
pub const MOST_CLASSES: u128 = 16_777_216;

/// The most that a place may hold.
pub const TOP: u64 = u32::MAX as u64;

/// Records, letters, foreign, edge and windows of a file, in this order.
pub type Numbers = [u64; 5];

/// What a sequence file holds: its records and letters, and the ranks of its runs. A run may be empty here,
/// which has no edge letters and no windows.
pub struct Contents {
    records: u64,
    letters: u64,
    foreign: u64,
    pub runs: Vec<Vec<u8>>,
}

impl Contents {
    fn new() -> Contents {
        Contents { records: 0, letters: 0, foreign: 0, runs: vec![Vec::new()] }
    }

    fn open_record(&mut self) {
        self.records += 1;
        self.runs.push(Vec::new());
    }

    /// A letter goes to the last run, and a foreign one ends it.
    fn take_letter(&mut self, letters: &[u8], letter: u8) {
        self.letters += 1;
        match rank(letters, letter) {
            Some(rank) => self.runs.last_mut().expect("a run").push(rank),
            None => {
                self.foreign += 1;
                self.runs.push(Vec::new());
            }
        }
    }

    /// The five numbers: edge and windows run by run, as "Sequence file (FASTA)" defines them.
    pub fn numbers(&self, k: usize) -> Numbers {
        let edge: usize = self.runs.iter().map(|run| run.len().min(k - 1)).sum();
        let windows: usize = self.runs.iter().map(|run| run.windows(k).len()).sum();
        [self.records, self.letters, self.foreign, edge as u64, windows as u64]
    }
}

/// What a file of either kind holds, or its ground of 10, 11, 15, 16 and 17.
pub fn read(kind: Kind, letters: &[u8], file: &[u8]) -> Result<Contents, Refusal> {
    match kind {
        Kind::Fasta => read_fasta(letters, file),
        Kind::Fastq => read_fastq(letters, file),
    }
}

/// Reads a file line by line, up to the first byte that ground 10 or 11 names.
fn read_fasta(letters: &[u8], file: &[u8]) -> Result<Contents, Refusal> {
    let mut found = Contents::new();
    for (offset, line) in lines(file) {
        if line.first() == Some(&b'>') {
            found.open_record();
            continue;
        }
        for (place, &byte) in line.iter().enumerate() {
            let p = (offset + place) as u64;
            if !byte.is_ascii_alphabetic() {
                return Err(Refusal { number: 10, p });
            }
            if found.records == 0 {
                return Err(Refusal { number: 11, p });
            }
            found.take_letter(letters, byte);
        }
    }
    Ok(found)
}

/// "Only the sequence counts" (document 02, K1).
fn read_fastq(letters: &[u8], file: &[u8]) -> Result<Contents, Refusal> {
    let mut found = Contents::new();
    for sequence in fastq_sequences(file)? {
        found.open_record();
        sequence.iter().for_each(|&letter| found.take_letter(letters, letter));
    }
    Ok(found)
}

/// The number of classes under settings that no ground refuses.
pub fn class_count(settings: &Settings) -> u128 {
    coder(settings).classes()
}

/// Grounds 1, 2, 4, 6 and 7 for a table of so many places; else the number of classes.
pub fn table_ground(settings: &Settings, long: bool, places: usize) -> Result<usize, Refusal> {
    settings_ground(settings)?;
    let classes = class_count(settings);
    if long || classes > MOST_CLASSES {
        return Err(Refusal { number: 6, p: 0 });
    }
    if (places as u128) < classes {
        return Err(Refusal { number: 7, p: classes as u64 });
    }
    Ok(classes as usize)
}

/// A class's place by the second coder, and its windows over the calls accepted.
struct Tally {
    place: usize,
    added: u64,
    withdrawn: u64,
}

impl Tally {
    fn new(place: usize, added: u64) -> Tally {
        Tally { place, added, withdrawn: 0 }
    }

    /// "Each class's count is its windows added less its windows withdrawn" (document 02, K4).
    fn count(&self) -> u64 {
        self.added - self.withdrawn
    }
}

/// The tally book of documents 01 and 02. Classes that are not in the map have tally 0.
pub struct Book {
    pub settings: Settings,
    coder: Option<Coder>,
    tallies: HashMap<Vec<u8>, Tally>,
    /// The five numbers, each added up over the files taken in.
    pub taken: Numbers,
    /// The same over the files withdrawn.
    pub withdrawn: Numbers,
}

impl Book {
    /// As clearing leaves it. Settings that a ground refuses have no coder.
    pub fn new(settings: &Settings) -> Book {
        let coder = settings_ground(settings).is_ok().then(|| coder(settings));
        Book { settings: settings.clone(), coder, tallies: HashMap::new(), taken: [0; 5], withdrawn: [0; 5] }
    }

    /// With the counts of a table, as if they had been added: for ground 12, which no list of short files reaches
    /// from 0, and for tables that allow the withdrawal of files that were never added.
    pub fn starting(settings: &Settings, counts: &[u32]) -> Book {
        let mut book = Book::new(settings);
        for (place, &count) in counts.iter().enumerate().filter(|(_, &count)| count > 0) {
            let word = coder(settings).word(place as u128).expect("a place below the number of classes");
            book.tallies.insert(word, Tally::new(place, count as u64));
        }
        book
    }

    /// The grounds of an add and of a withdrawal that come before those of the counts, in their order; else what
    /// the file holds.
    fn contents(&self, places: usize, kind: Kind, file: &[u8], room: usize) -> Result<Contents, Refusal> {
        table_ground(&self.settings, file.len() > MOST_BYTES, places)?;
        if room < 5 {
            return Err(Refusal { number: 7, p: 5 });
        }
        read(kind, &self.settings.letters, file)
    }

    /// The file's windows of each class, by canonical word.
    fn windows(&self, found: &Contents) -> HashMap<Vec<u8>, u64> {
        let coder = self.coder.as_ref().expect("no ground applied");
        let mut windows = HashMap::new();
        for window in found.runs.iter().flat_map(|run| run.windows(self.settings.k)) {
            *windows.entry(coder.canonical(window)).or_default() += 1;
        }
        windows
    }

    fn tally(&mut self, word: Vec<u8>) -> &mut Tally {
        let coder = self.coder.as_ref().expect("no ground applied");
        self.tallies.entry(word).or_insert_with_key(|word| Tally::new(coder.code(word) as usize, 0))
    }

    /// An add with a table of so many places and an answer list of so much room.
    pub fn add(&mut self, places: usize, kind: Kind, file: &[u8], room: usize) -> Result<Numbers, Refusal> {
        let found = self.contents(places, kind, file, room)?;
        let numbers = found.numbers(self.settings.k);
        if self.tallies.values().any(|tally| tally.count() + numbers[4] > TOP) {
            return Err(Refusal { number: 12, p: 0 });
        }
        for (word, windows) in self.windows(&found) {
            self.tally(word).added += windows;
        }
        add_up(&mut self.taken, numbers);
        Ok(numbers)
    }

    /// A withdrawal, likewise. "18 when some class has a smaller count than the file has windows of it, checked
    /// after 11, in place of 12" (document 02, K4).
    pub fn withdraw(
        &mut self,
        places: usize,
        kind: Kind,
        file: &[u8],
        room: usize,
    ) -> Result<Numbers, Refusal> {
        let found = self.contents(places, kind, file, room)?;
        let windows = self.windows(&found);
        let count = |word: &Vec<u8>| self.tallies.get(word).map_or(0, Tally::count);
        if windows.iter().any(|(word, &windows)| count(word) < windows) {
            return Err(Refusal { number: 18, p: 0 });
        }
        for (word, windows) in windows {
            self.tally(word).withdrawn += windows;
        }
        let numbers = found.numbers(self.settings.k);
        add_up(&mut self.withdrawn, numbers);
        Ok(numbers)
    }

    /// Writes each class's tally at its place.
    pub fn write_counts(&self, places: &mut [u32]) {
        let classes = table_ground(&self.settings, false, places.len()).expect("a table that fits");
        places[..classes].fill(0);
        for tally in self.tallies.values() {
            places[tally.place] = tally.count() as u32;
        }
    }
}

fn add_up(sums: &mut Numbers, numbers: Numbers) {
    for (sum, number) in sums.iter_mut().zip(numbers) {
        *sum += number;
    }
}

/// The places of the windows of a file that no ground refuses, window by window in the file's order.
pub fn window_places(settings: &Settings, kind: Kind, file: &[u8]) -> Vec<usize> {
    let found = read(kind, &settings.letters, file).expect("a file without damage");
    let coder = coder(settings);
    let windows = found.runs.iter().flat_map(|run| run.windows(settings.k));
    windows.map(|window| coder.code(window) as usize).collect()
}

/// How many windows of each class such a file has, by the class's place.
pub fn windows_by_place(settings: &Settings, kind: Kind, file: &[u8]) -> Vec<u32> {
    let mut windows = vec![0; class_count(settings) as usize];
    for place in window_places(settings, kind, file) {
        windows[place] += 1;
    }
    windows
}

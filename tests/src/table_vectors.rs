//! Reads the stored answers of independent reference implementations for clearing, adding, withdrawing and
//! loading: vectors/tables.txt, those to document 01 alone, vectors/k10_tables.txt, those to document 01 with
//! document 02, K10, vectors/k01_tables.txt, those with K1 too, whose files are FASTQ, vectors/k02_tables.txt
//! and vectors/k02_fastq_tables.txt, those with K2 too, vectors/k04_tables.txt and
//! vectors/k04_fastq_tables.txt, those with K4 too, and vectors/k07_loads.txt, those with K7 too, which load
//! listings; the heads of these files say what their columns are. Holds the calls and the book against them.

use crate::book::{table_ground, Book};
use crate::expected::Refusal;
use crate::files::{FASTA, FASTQ};
use crate::settings::Settings;
use crate::tables::{check_call, Call, Table};
use crate::vectors::{bytes, number, places, rows, StoredFile};

/// The files of stored calls, each with the number that names the kind of its sequence files.
const TABLES: [(StoredFile, u64); 7] = [
    (("tables.txt", include_str!("../vectors/tables.txt")), FASTA),
    (("k10_tables.txt", include_str!("../vectors/k10_tables.txt")), FASTA),
    (("k01_tables.txt", include_str!("../vectors/k01_tables.txt")), FASTQ),
    (("k02_tables.txt", include_str!("../vectors/k02_tables.txt")), FASTA),
    (("k02_fastq_tables.txt", include_str!("../vectors/k02_fastq_tables.txt")), FASTQ),
    (("k04_tables.txt", include_str!("../vectors/k04_tables.txt")), FASTA),
    (("k04_fastq_tables.txt", include_str!("../vectors/k04_fastq_tables.txt")), FASTQ),
];

/// The stored loads.
const LOADS: StoredFile = ("k07_loads.txt", include_str!("../vectors/k07_loads.txt"));

/// A stored call.
pub struct Stored {
    /// The file and the line in it.
    pub line: String,
    pub settings: Settings,
    /// The number that names the kind of the sequence file; none where a listing is loaded.
    pub fastq: Option<u64>,
    /// The sequence file, or the listing.
    pub file: Vec<u8>,
    pub table: Vec<u32>,
    pub outcome: Result<Vec<u64>, Refusal>,
    pub after: Vec<u32>,
}

fn stored_outcome(text: &str) -> Result<Vec<u64>, Refusal> {
    match text.split('/').collect::<Vec<&str>>()[..] {
        ["refused", ground, p] => Err(Refusal { number: number(ground), p: number(p) }),
        _ => Ok(text.split(',').map(number).collect()),
    }
}

fn parsed(fastq: Option<u64>, (line, columns): (String, Vec<&str>)) -> Stored {
    Stored {
        line,
        settings: Settings::new(&bytes(columns[1]), number(columns[2]), number(columns[3])),
        fastq,
        file: bytes(columns[4]),
        table: places(columns[5]),
        outcome: stored_outcome(columns[6]),
        after: places(columns[7]),
    }
}

/// The stored calls of one kind: so many of each file in turn, so that a cut file does not pass.
pub fn stored(call: &str, counts: [usize; 7]) -> Vec<Stored> {
    let mut found = Vec::new();
    for ((file, fastq), count) in TABLES.into_iter().zip(counts) {
        found.extend(rows(file, call, count).into_iter().map(|row| parsed(Some(fastq), row)));
    }
    found
}

/// The stored loads, so many of them.
pub fn stored_loads(count: usize) -> Vec<Stored> {
    rows(LOADS, "load", count).into_iter().map(|row| parsed(None, row)).collect()
}

impl Stored {
    /// The reference answers as stored, and leaves the stored table: these counts at its start, all else as it was.
    pub fn check_second(&self, answer: Result<Vec<u64>, Refusal>, counts: &[u32]) {
        assert_eq!(answer, self.outcome, "{}: the reference", self.line);
        let mut table = self.table.clone();
        table[..counts.len()].copy_from_slice(counts);
        assert_eq!(table, self.after, "{}: the reference", self.line);
    }
}

/// The call and the book answer as stored, and leave the stored table. Stored calls have no answer list: it is long
/// enough here.
pub fn check_stored_call(call: Call, stored: &Stored) {
    let mut table = Table::new(&stored.table);
    let ground = table_ground(&stored.settings, false, stored.table.len());
    let counts = ground.map_or(&[][..], |classes| &stored.table[..classes]);
    let mut book = Book::starting(&stored.settings, counts);
    let fastq = stored.fastq.expect("a sequence file");
    let answer = check_call(call, &mut book, &mut table, fastq, &stored.file, 5);
    assert_eq!(table.slice(), stored.after, "{}", stored.line);
    let mut counts = counts.to_vec();
    if answer.is_ok() {
        book.write_counts(&mut counts);
    }
    stored.check_second(answer.map(|numbers| numbers.to_vec()), &counts);
}

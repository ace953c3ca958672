//! Adding a sequence file to a count table, in nanoseconds a letter: libkmer.a beside a plain Rust counter of
//! the same shape (one pass that judges the bytes and counts the letters, then one in batches: codes, then
//! increments), but for FASTQ, which the library reads once more to judge its records; and the same reads as
//! FASTQ beside FASTA.

use crate::baseline::{general, rank_table, Strands, TwoBit};
use crate::{drawn, median, print_ratio, test_load};
use std::hint::black_box;
use std::time::Instant;
use wontirje::{Kind, Mirror, Numbers, Settings};

pub const RUNS: usize = 7;
pub const LETTERS: usize = 16_500_000;

/// Letters of a read, and as many reads as a FASTQ file within the library's limit has room for, nearly.
pub const READ: usize = 150;
pub const READS: usize = 52_000;

/// Letters in a batch, and codes that wait for their increments.
const BATCH: usize = 1024;
const WAITING: usize = 256;

/// What the first pass makes of a byte that is no settings letter, after the ranks.
const FOREIGN: u8 = 16;
const STRAY: u8 = 17;

/// What each byte of a sequence line is.
fn byte_table(letters: &[u8]) -> [u8; 256] {
    let ranks = rank_table(letters);
    std::array::from_fn(|byte| match ranks[byte] {
        255 if (byte as u8).is_ascii_alphabetic() => FOREIGN,
        255 => STRAY,
        rank => rank,
    })
}

/// What a line is for.
enum Line {
    Opens,
    Letters,
    /// The third and fourth lines of FASTQ.
    Plus,
    Qualities,
}

impl Line {
    /// The line with this number, from 0.
    fn of(kind: Kind, number: usize, line: &[u8]) -> Line {
        match (kind, number % 4) {
            (Kind::Fasta, _) if line.first() == Some(&b'>') => Line::Opens,
            (Kind::Fasta, _) | (_, 1) => Line::Letters,
            (_, 0) => Line::Opens,
            (_, 2) => Line::Plus,
            _ => Line::Qualities,
        }
    }
}

/// Hands the lines of a file to the caller without their ends, with what they are for and their offsets.
fn for_lines(kind: Kind, file: &[u8], mut line: impl FnMut(Line, usize, &[u8])) {
    let mut offset = 0;
    for (number, whole) in file.split_inclusive(|&byte| byte == b'\n').enumerate() {
        let bare = whole.strip_suffix(b"\n").map_or(whole, |cut| cut.strip_suffix(b"\r").unwrap_or(cut));
        line(Line::of(kind, number, bare), offset, bare);
        offset += whole.len();
    }
}

/// Where a line of FASTQ that holds no letters is at fault, the sequence line being so long.
fn fault_of(what: &Line, letters: usize, line: &[u8]) -> Option<usize> {
    match what {
        Line::Opens => (line.first() != Some(&b'@')).then_some(0),
        Line::Plus => (line.first() != Some(&b'+')).then_some(0),
        _ if line.len() != letters => Some(0),
        _ => line.iter().position(|byte| !(33..=126).contains(byte)),
    }
}

/// First pass: the five numbers, or the offset of a byte that may not stand there. That all four lines of the
/// last record of FASTQ are there is not judged.
fn judged(kind: Kind, file: &[u8], bytes: &[u8; 256], k: usize) -> Result<Numbers, usize> {
    let [mut records, mut letters, mut foreign, mut edge] = [0u64; 4];
    let (mut run, mut fault, mut length) = (0, None, 0);
    for_lines(kind, file, |what, offset, line| {
        if !matches!(what, Line::Letters) {
            if kind == Kind::Fastq {
                fault = fault.or(fault_of(&what, length, line).map(|place| offset + place));
            }
            if matches!(what, Line::Opens) {
                records += 1;
                edge += run.min(k as u64 - 1);
                run = 0;
            }
            return;
        }
        length = line.len();
        for (place, &byte) in line.iter().enumerate() {
            let what = bytes[byte as usize];
            if what == STRAY || records == 0 {
                fault = fault.or(Some(offset + place));
            }
            letters += 1;
            run += 1;
            if what == FOREIGN {
                foreign += 1;
                edge += (run - 1).min(k as u64 - 1);
                run = 0;
            }
        }
    });
    edge += run.min(k as u64 - 1);
    let windows = letters - foreign - edge;
    fault.map_or(Ok(Numbers { records, letters, foreign, edge, windows }), Err)
}

/// The second pass for any alphabet: letters of a run wait in a batch; each batch but a run's first begins with the
/// last k - 1 letters of the one before.
struct Adding<'a> {
    settings: &'a Settings<'a>,
    batch: [u8; BATCH],
    waiting: usize,
    codes: [u64; BATCH],
}

impl Adding<'_> {
    /// Codes of the batch, then increments.
    fn increment(&mut self, table: &mut [u32]) {
        let filled = general(self.settings, &self.batch[..self.waiting], &mut self.codes);
        for &code in &self.codes[..filled] {
            table[code as usize] += 1;
        }
    }
}

/// What a second pass does with a letter of the settings, by its byte and its rank, and where a run ends.
trait SecondPass {
    fn push(&mut self, byte: u8, rank: u8, table: &mut [u32]);
    fn end_run(&mut self, table: &mut [u32]);
}

impl SecondPass for Adding<'_> {
    fn push(&mut self, byte: u8, _: u8, table: &mut [u32]) {
        self.batch[self.waiting] = byte;
        self.waiting += 1;
        if self.waiting == BATCH {
            self.increment(table);
            let kept = self.settings.k - 1;
            self.batch.copy_within(BATCH - kept.., 0);
            self.waiting = kept;
        }
    }

    fn end_run(&mut self, table: &mut [u32]) {
        self.increment(table);
        self.waiting = 0;
    }
}

/// The second pass for ACGT under complement: each letter gives its window's code, and codes wait for their
/// increments, so that these do not hold up the next code.
struct AddingDna {
    tables: TwoBit,
    strands: Strands,
    k: usize,
    run: usize,
    codes: [u32; WAITING],
    waiting: usize,
}

impl AddingDna {
    fn new(k: usize) -> AddingDna {
        let (tables, strands) = (TwoBit::new(k), Strands::new(k));
        AddingDna { tables, strands, k, run: 0, codes: [0; WAITING], waiting: 0 }
    }

    fn increment(&mut self, table: &mut [u32]) {
        for &code in &self.codes[..self.waiting] {
            table[code as usize] += 1;
        }
        self.waiting = 0;
    }
}

impl SecondPass for AddingDna {
    fn push(&mut self, _: u8, rank: u8, table: &mut [u32]) {
        self.strands.push(rank as u64);
        self.run += 1;
        if self.run >= self.k {
            self.codes[self.waiting] = self.tables.code(self.strands.forward, self.strands.back) as u32;
            self.waiting += 1;
            if self.waiting == WAITING {
                self.increment(table);
            }
        }
    }

    fn end_run(&mut self, _: &mut [u32]) {
        self.run = 0;
    }
}

/// The second pass over the letters of a file without damage.
fn add_letters(kind: Kind, file: &[u8], bytes: &[u8; 256], pass: &mut impl SecondPass, table: &mut [u32]) {
    for_lines(kind, file, |what, _, line| {
        match what {
            Line::Letters => (),
            Line::Opens => return pass.end_run(table),
            _ => return,
        }
        for &byte in line {
            match bytes[byte as usize] {
                FOREIGN => pass.end_run(table),
                rank => pass.push(byte, rank, table),
            }
        }
    });
    pass.end_run(table);
}

/// The plain counter: judges the whole file, looks for a place that is too full, then adds.
fn plain_add(settings: &Settings, table: &mut [u32], kind: Kind, file: &[u8]) -> Numbers {
    let bytes = byte_table(settings.letters);
    let numbers = judged(kind, file, &bytes, settings.k).expect("a file without damage");
    let fullest = table.iter().fold(0, |most, &count| count.max(most));
    assert!(fullest as u64 + numbers.windows <= u32::MAX as u64, "a place is too full");
    match settings.mirror {
        Mirror::Complement => {
            let mut pass = AddingDna::new(settings.k);
            add_letters(kind, file, &bytes, &mut pass, table);
            pass.increment(table);
        }
        Mirror::Reversal => {
            let mut pass = Adding { settings, batch: [0; BATCH], waiting: 0, codes: [0; BATCH] };
            add_letters(kind, file, &bytes, &mut pass, table);
        }
    }
    numbers
}

/// A test load of one record, nearly as long as the library takes, with some foreign letters put in.
pub fn drawn_file(letters: &[u8], foreign: u8) -> Vec<u8> {
    let mut file = test_load(&Settings { letters, k: 1, mirror: Mirror::Reversal }, 1, LETTERS);
    let sequence = file.iter_mut().filter(|byte| byte.is_ascii_uppercase());
    sequence.step_by(9973).for_each(|byte| *byte = foreign);
    file
}

/// The same drawn reads with names, as FASTQ and as FASTA.
pub fn drawn_reads() -> [(Kind, Vec<u8>); 2] {
    let (mut fastq, mut fasta) = (Vec::new(), Vec::new());
    let sequence = drawn(b"ACGT", READ * READS);
    let mut qualities = drawn(b"ABCDEFG", READ * READS);
    // Each letter stands for a quality.
    qualities.iter_mut().for_each(|byte| *byte = b"#,:FFFF"[usize::from(*byte - b'A')]);
    for (number, (read, quality)) in sequence.chunks(READ).zip(qualities.chunks(READ)).enumerate() {
        let name = format!("read.{number}\n");
        fastq.extend([b"@", name.as_bytes(), read, b"\n+\n", quality, b"\n"].concat());
        fasta.extend([b">", name.as_bytes(), read, b"\n"].concat());
    }
    [(Kind::Fastq, fastq), (Kind::Fasta, fasta)]
}

/// Adds reads as FASTQ and as FASTA, in turns; both must leave the same. Prints the medians and the ratio.
fn print_kinds(k: usize, reads: &[(Kind, Vec<u8>); 2]) {
    let settings = black_box(Settings::dna(k));
    let mut tables = [0, 1].map(|_| vec![0; settings.table_places().expect("settings of a table")]);
    let mut times = [Vec::new(), Vec::new()];
    for _ in 0..RUNS {
        for ((kind, file), (table, times)) in reads.iter().zip(tables.iter_mut().zip(&mut times)) {
            let start = Instant::now();
            let numbers = settings.add(table, *kind, file).expect("a file without damage");
            times.push(start.elapsed().as_nanos() as f64 / numbers.letters as f64);
        }
        assert!(tables[0] == tables[1], "the two kinds leave different counts");
    }
    let [fastq, fasta] = times.map(median);
    let ratio = fastq / fasta;
    println!("FASTQ beside FASTA, ACGT complement k {k}: {fastq:.2}, FASTA {fasta:.2}, ratio {ratio:.2}");
}

/// Adds a file several times with the library and with the plain counter, in turns; both must leave the same.
/// Prints the medians. The compiler must not make a counter for just these settings, which a caller gives at
/// run time.
fn print_adding(what: &str, settings: Settings, kind: Kind, file: &[u8]) {
    let settings = black_box(settings);
    let mut table = vec![0; settings.table_places().expect("settings of a table")];
    let mut other = table.clone();
    let mut times = [Vec::new(), Vec::new()];
    for _ in 0..RUNS {
        let start = Instant::now();
        let numbers = settings.add(&mut table, kind, file).expect("a file without damage");
        times[0].push(start.elapsed().as_nanos() as f64 / numbers.letters as f64);
        let start = Instant::now();
        let plain = plain_add(&settings, &mut other, kind, file);
        times[1].push(start.elapsed().as_nanos() as f64 / numbers.letters as f64);
        assert!(numbers == plain && table == other, "the library and the plain counter differ");
    }
    let [ours, plain] = times.map(median);
    print_ratio(what, ours, plain);
}

pub fn print() {
    println!("ns a letter, median of {RUNS} runs, files of {LETTERS} random letters");
    let dna = drawn_file(b"ACGT", b'N');
    for k in [12, 8] {
        print_adding(&format!("adding, ACGT complement k {k}:"), Settings::dna(k), Kind::Fasta, &dna);
    }
    let letters = b"ACDEFGHIKL";
    let groups = Settings { letters, k: 6, mirror: Mirror::Reversal };
    print_adding("adding, 10 letters reversal k 6:", groups, Kind::Fasta, &drawn_file(letters, b'X'));
    println!("ns a letter of sequence, median of {RUNS} runs, {READS} reads of {READ} random letters");
    let reads = drawn_reads();
    for k in [12, 8] {
        print_adding(
            &format!("adding FASTQ, ACGT complement k {k}:"),
            Settings::dna(k),
            Kind::Fastq,
            &reads[0].1,
        );
        print_kinds(k, &reads);
    }
}

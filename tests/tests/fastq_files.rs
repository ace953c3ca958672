//! Adding FASTQ files to a table (document 02, K1) beside the tally book: drawn files, whole and damaged; what
//! each byte of a file is; lines about the library's batches and blocks; and the same letters as FASTA.

use kmer_tests::book::*;
use kmer_tests::draw::*;
use kmer_tests::draw_fastq::*;
use kmer_tests::expected::Refusal;
use kmer_tests::files::{as_fasta, FASTA, FASTQ};
use kmer_tests::sequences::two_bit_settings;
use kmer_tests::settings::*;
use kmer_tests::tables::*;

#[test]
fn drawn_files_whole_and_damaged() {
    let mut random = Random::new(72);
    let (mut taken, mut turned_away) = (0, [0; 18]);
    for (s, mirror, k) in sizes_up_to(5000) {
        let settings = Settings::new(&drawn_capitals(&mut random, s), k, mirror);
        let (mut book, mut table) = cleared(&settings, random.below(3) as usize);
        for _ in 0..25 {
            let length = [5, 40, 300][random.below(3) as usize];
            let mut file = drawn_fastq(&mut random, &settings, length);
            check_add(&mut book, &mut table, FASTQ, &file, 5).expect("a file without damage");
            for _ in 0..3 {
                file = damaged_fastq(&mut random, file);
                match check_add(&mut book, &mut table, FASTQ, &file, 6) {
                    Ok(_) => taken += 1,
                    Err(refusal) => turned_away[refusal.number as usize] += 1,
                }
            }
            check_sum(&book, &table);
        }
    }
    // The comparison is worth something only where all kinds of damage are in it.
    assert!(taken > 500, "{taken} damaged files taken in");
    assert!([10, 15, 16, 17].iter().all(|&number| turned_away[number] > 100), "{turned_away:?}");
}

/// One byte at each kind of place: at the start, middle and end of each of the four lines, before each kind of
/// line end, at the file's start and end, in place of a line end.
#[test]
fn every_byte_at_every_kind_of_place() {
    let frames: [(&[u8], &[u8]); 20] = [
        (b"", b""),
        (b"", b"a\nAC\n+\nII\n"),
        (b"", b"@a\nAC\n+\nII\n"),
        (b"@", b"\nAC\n+\nII\n"),
        (b"@a", b"\r\nAC\r\n+\r\nII\r\n"),
        (b"@a\n", b"\n+\nI\n"),
        (b"@a\nA", b"C\n+\nIII\n"),
        (b"@a\nAC", b"\n+\nIII\n"),
        (b"@a\nAC", b"\r\n+\nII\n"),
        (b"@a\nAC", b"+\nII\n"),
        (b"@a\nAC\n", b"\nII\n"),
        (b"@a\nAC\n", b"b\r\nII"),
        (b"@a\nAC\n+", b"II\n"),
        (b"@a\nAC\n+\n", b""),
        (b"@a\nAC\n+\n", b"I"),
        (b"@a\nAC\n+\nI", b"\n"),
        (b"@a\nAC\n+\nI", b"\r\n"),
        (b"@a\nAC\n+\nII", b""),
        (b"@a\nAC\n+\nII", b"@b\n\n+\n\n"),
        (b"@a\n\n+\n\n", b""),
    ];
    let protein = Settings::new(b"TGCABDEFHI", 2, REVERSAL);
    for settings in [two_bit_settings(1), two_bit_settings(2), protein] {
        for (before, after) in frames {
            for byte in 0..=255 {
                // The comparison with the book is within.
                let _ = check_file(&settings, FASTQ, &[before, &[byte], after].concat());
            }
        }
    }
}

/// Runs of lengths about the library's batches, with a foreign letter, in two records, with either line end; and
/// the same with the last quality byte at fault, which leaves no letter counted.
#[test]
fn sequences_about_a_batch() {
    check_about_batches(73, |random, book, table, [run, other, two]| {
        for sequences in [&[run][..], &[two], &[run, other, run]] {
            let mut file = drawn_fastq_of(random, sequences);
            check_add(book, table, FASTQ, &file, 5).expect("a file without damage");
            let last = file.iter().rposition(|byte| !byte.is_ascii_whitespace()).expect("a quality byte");
            file[last] = 127;
            let right = refused(17, last as u64);
            assert_eq!(check_add(book, table, FASTQ, &file, 5), right, "a run of {}", run.len());
        }
    });
}

/// A first line pushes the others forward byte by byte, over multiples of 1,024 and 4,096: a whole file and one
/// for each ground, in both kinds of line end.
#[test]
fn lines_at_every_offset_about_a_batch() {
    let settings = two_bit_settings(3);
    let (mut book, mut table) = cleared(&settings, 0);
    for base in [BATCH, 4 * BATCH] {
        for (header, end) in (base - 32..base + 3).flat_map(|header| [(header, "\n"), (header, "\r\n")]) {
            let first = format!("@{}{end}", "@".repeat(header - 1 - end.len()));
            // The offsets of the third line and of the quality line.
            let (third, quality) = (header + 8 + end.len(), header + 9 + 2 * end.len());
            let mut check = |sequence: &str, mark: &str, bytes: &str, right: Result<Numbers, Refusal>| {
                let file = [&first, sequence, end, mark, end, bytes, end].concat();
                assert_eq!(check_add(&mut book, &mut table, FASTQ, file.as_bytes(), 5), right, "{file}");
            };
            check("ACGTNacg", "+", "!!~~@@++", Ok([1, 8, 1, 4, 3]));
            check("ACGTNa\rc", "+", "!!~~@@++", refused(10, header as u64 + 6));
            check("ACGTNacg", "@", "!!~~@@++", refused(15, third as u64));
            check("ACGTNacg", "+", "!!~~@@+", refused(16, quality as u64));
            check("ACGTNacg", "+", "!!~~@@+\x7f", refused(17, quality as u64 + 7));
        }
    }
}

/// A record of 20 letters, longer than a block.
const SECOND: &str = "@second\nGATTACAGATTACAGATTAC\n+\nIIIIIIIIIIIIIIIIIIII\n";

/// A file whose first record has so many letters, and the offsets of that record's sequence and quality line.
struct Placed {
    file: Vec<u8>,
    length: usize,
    sequence: usize,
    quality: usize,
}

impl Placed {
    /// The first line has `header` bytes, and `after` follows the record.
    fn new(header: usize, length: usize, end: &str, after: &str) -> Placed {
        let letters = "ACGTacgt".repeat(7);
        let bytes = "!I~@+".repeat(11);
        let first = format!("@{}", " ".repeat(header - 1));
        let file = [&first, end, &letters[..length], end, "+", end, &bytes[..length], end, after].concat();
        let sequence = header + end.len();
        let quality = sequence + length + end.len() + 1 + end.len();
        Placed { file: file.into_bytes(), length, sequence, quality }
    }

    /// Adds the file with some bytes in place of `lost` bytes at an offset, beside the book.
    fn check(&self, at: usize, lost: usize, put: &[u8], right: Result<Numbers, Refusal>) {
        let mut file = self.file.clone();
        file.splice(at..at + lost, put.iter().copied());
        let found = check_file(&two_bit_settings(1), FASTQ, &file);
        assert_eq!(found, right, "{}", shown_file(&file));
    }

    fn check_stray(&self, at: usize, lost: usize, byte: u8) {
        self.check(at, lost, &[byte], refused(10, at as u64));
    }

    fn check_outside(&self, at: usize, byte: u8) {
        self.check(at, 1, &[byte], refused(17, at as u64));
    }

    /// Faults at one place of the sequence line and of the quality line; `turn` chooses among like bytes.
    fn check_place(&self, place: usize, end: &str, turn: usize) {
        let (letter, byte, other_length) =
            (self.sequence + place, self.quality + place, refused(16, self.quality as u64));
        self.check_stray(letter, 1, b"@[`{\xc1\xfa\0"[turn % 7]);
        self.check_stray(letter, 0, b'\r');
        self.check(letter, 1, b"\n", refused(15, letter as u64 + 1));
        self.check(letter, 1, b"", refused(16, self.quality as u64 - 1));
        self.check_outside(byte, b"\0\x1f "[turn % 3]);
        self.check_outside(byte, b"\x7f\xa1\xff"[turn % 3]);
        self.check(byte, 1, b"", other_length);
        self.check(byte, 0, b"I", other_length);
        self.check(byte, 1, b"\n", other_length);
        if end == "\n" && place + 1 == self.length {
            // The CR is before LF: it ends the line, which is one byte shorter.
            self.check(letter, 1, b"\r", other_length);
            self.check(byte, 1, b"\r", other_length);
        } else {
            self.check_stray(letter, 1, b'\r');
            self.check_outside(byte, b'\r');
        }
    }

    /// One more CR before the end of each line, one more quality byte, and the quality line's end lost.
    fn check_ends(&self, end: &str, after: &str) {
        let (sequence_end, quality_end) = (self.sequence + self.length, self.quality + self.length);
        let other_length = refused(16, self.quality as u64);
        // What `after` adds: nothing or SECOND.
        let more = if after.is_empty() { 0 } else { 1 };
        let letters = self.length as u64 + 20 * more;
        let whole = Ok([1 + more, letters, 0, 0, letters]);
        self.check(0, 0, b"", whole);
        self.check(self.sequence - end.len(), 0, b"\r", whole);
        self.check(self.quality - end.len(), 0, b"\r", whole);
        let (long_sequence, long_quality) =
            if end == "\n" { (whole, whole) } else { (refused(10, sequence_end as u64), other_length) };
        self.check(sequence_end, 0, b"\r", long_sequence);
        self.check(quality_end, 0, b"\r", long_quality);
        self.check(quality_end, 0, b"~", other_length);
        let without_end = match (more, self.length) {
            (0, 0) => refused(15, quality_end as u64),
            (0, _) => whole,
            _ => other_length,
        };
        self.check(quality_end, end.len(), b"", without_end);
    }
}

/// The library searches blocks of 16 bytes: lines of 0 to 50 bytes that start at every offset within a block,
/// at the file's end and before another record, with one fault at every place. The offsets are written out.
#[test]
fn faults_at_every_place_about_a_block_of_16() {
    for (end, after) in ["\n", "\r\n"].into_iter().flat_map(|end| [(end, ""), (end, SECOND)]) {
        for (header, length) in (1..=16).flat_map(|header| (0..=50).map(move |length| (header, length))) {
            let placed = Placed::new(header, length, end, after);
            placed.check_ends(end, after);
            (0..length).for_each(|place| placed.check_place(place, end, header + place));
        }
    }
}

/// The same records as FASTA, on one line and on lines of 7 letters, and as FASTQ leave equal tables and answer
/// the same five numbers.
#[test]
fn the_same_letters_in_both_kinds() {
    let mut random = Random::new(74);
    for (s, mirror, k) in sizes_up_to(20_000) {
        let settings = Settings::new(&drawn_capitals(&mut random, s), k, mirror);
        let sequences = drawn_sequences(&mut random, &settings, 400);
        let lines = |letters: &Vec<u8>| letters.chunks(7).collect::<Vec<&[u8]>>().join(&b'\n');
        let wrapped: Vec<Vec<u8>> = sequences.iter().map(lines).collect();
        let files = [
            (FASTA, as_fasta(&sequences)),
            (FASTA, as_fasta(&wrapped)),
            (FASTQ, drawn_fastq_of(&mut random, &sequences)),
        ];
        let results = files.map(|(fastq, file)| {
            let (mut book, mut table) = cleared(&settings, 1);
            let numbers = check_add(&mut book, &mut table, fastq, &file, 5).expect("a file without damage");
            (numbers, table.slice().to_vec())
        });
        assert_eq!(results[0].0[0], sequences.len() as u64, "{settings}: records");
        assert!(results.iter().all(|result| *result == results[0]), "{settings}: {sequences:?}");
    }
}

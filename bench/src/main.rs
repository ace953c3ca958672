//! Prints nanoseconds a letter, the median of several runs, of both paths of libkmer.a along random sequences
//! and of adding a file to a table, beside plain Rust versions (baseline.rs says where they differ) in the
//! same run, with ratios, of adding reads as FASTQ beside FASTA, of withdrawing a file beside adding it, of
//! loading a listing beside writing it, and of writing a test load beside adding it; before that, the whole
//! command `wontirje count` beside other counters. All that is random here is drawn by the library, as test
//! loads, so that anyone can measure with the same input.

mod adding;
mod baseline;
mod command;
mod generating;
mod loading;
mod once;
// A file of the tests by its path: what a process took.
#[path = "../../host/tests/run/usage.rs"]
mod usage;
mod withdrawing;

use std::time::Instant;
use wontirje::{codes_two_bit, Mirror, Settings};

const LETTERS: usize = 16_000_000;
const RUNS: usize = 11;

/// What every test load here starts from.
const START: u64 = 1;

/// The parts that can be asked for alone.
const PARTS: [(&str, fn()); 4] = [
    ("adding", adding::print),
    ("withdrawing", withdrawing::print),
    ("loading", loading::print),
    ("generating", generating::print),
];

/// A test load: a FASTA file of random letters.
fn test_load(settings: &Settings, records: usize, each: usize) -> Vec<u8> {
    let mut file = vec![0; settings.generated_length(records, each).expect("a file that is not too large")];
    settings.generate(START, records, each, &mut file).expect("room for the file");
    file
}

/// A random sequence over some letters: a test load of one record without its header and its line ends.
fn drawn(letters: &[u8], length: usize) -> Vec<u8> {
    // The file has the same letters for every k and mirror.
    let settings = Settings { letters, k: 1, mirror: Mirror::Reversal };
    let mut file = test_load(&settings, 1, length);
    // A header has no capital.
    file.retain(u8::is_ascii_uppercase);
    file
}

/// Fills codes along a sequence and tells how many.
type Version<'a> = &'a dyn Fn(&mut [u64]) -> usize;

/// The one in the middle.
fn median(mut numbers: Vec<f64>) -> f64 {
    numbers.sort_by(f64::total_cmp);
    numbers[numbers.len() / 2]
}

/// The medians of several versions in nanoseconds a letter; their runs take turns, and all must fill the same
/// codes.
fn medians(sequence: &[u8], versions: &[Version]) -> Vec<f64> {
    let mut first = vec![0; sequence.len()];
    let filled = versions[0](&mut first);
    let mut codes = vec![0; sequence.len()];
    let mut times = vec![Vec::new(); versions.len()];
    for _ in 0..RUNS {
        for (version, times) in versions.iter().zip(&mut times) {
            let start = Instant::now();
            let count = version(&mut codes);
            times.push(start.elapsed().as_nanos() as f64 / sequence.len() as f64);
            assert!(count == filled && codes[..count] == first[..count], "two versions differ");
        }
    }
    times.into_iter().map(median).collect()
}

/// A line with the nanoseconds of the library, those of the plain version and their ratio.
fn print_ratio(what: &str, ours: f64, plain: f64) {
    println!("{what} {ours:.2}, plain Rust {plain:.2}, ratio {:.2}", ours / plain);
}

/// Both paths for a sequence of DNA under complement, each beside its plain version: the medians of the
/// two-bit path and of the general path.
fn print_paths(what: &str, k: usize, dna: &[u8]) -> [f64; 2] {
    let settings = Settings::dna(k);
    let versions: [Version; 4] = [
        &|codes| codes_two_bit(k, dna, codes).expect("room for all codes"),
        &|codes| baseline::two_bit(k, dna, codes),
        &|codes| settings.codes(dna, codes).expect("room for all codes"),
        &|codes| baseline::general(&settings, dna, codes),
    ];
    let ns = medians(dna, &versions);
    print_ratio(&format!("{what} k {k}: two-bit"), ns[0], ns[1]);
    print_ratio(&format!("{what} k {k}: general"), ns[2], ns[3]);
    [ns[0], ns[2]]
}

fn print_dna() {
    let mut dna = drawn(b"ACGT", LETTERS);
    let [short, long] = [12, 31].map(|k| {
        let ns = print_paths("ACGT complement", k, &dna);
        println!("ACGT complement k {k}: general / two-bit {:.2}", ns[1] / ns[0]);
        ns
    });
    for (path, name) in ["two-bit", "general"].iter().enumerate() {
        println!("{name}: k 31 / k 12 {:.2}", long[path] / short[path]);
    }
    // Every batch has some bytes that are no letters, so that none is spared the search for the windows to
    // blank.
    dna.iter_mut().step_by(997).for_each(|byte| *byte = b'N');
    for k in [12, 31] {
        print_paths("ACGT and N,", k, &dna);
    }
}

/// The general path for alphabets of other sizes, under both mirrors.
fn print_alphabets() {
    let capitals: Vec<u8> = (b'A'..=b'P').collect();
    for (s, k) in [(2, 31), (5, 13), (6, 12), (10, 12), (16, 12)] {
        let letters = &capitals[..s];
        let sequence = drawn(letters, LETTERS);
        for mirror in [Mirror::Reversal, Mirror::Complement] {
            let settings = Settings { letters, k, mirror };
            let versions: [Version; 2] =
                [&|codes| settings.codes(&sequence, codes).expect("room for all codes"), &|codes| {
                    baseline::general(&settings, &sequence, codes)
                }];
            let ns = medians(&sequence, &versions);
            print_ratio(&format!("{s} letters, {}, k {k}: general", mirror.name()), ns[0], ns[1]);
        }
    }
}

fn main() {
    // The name of a part, or `command`, as an argument leaves out the rest, which takes longer. The command
    // comes first, while this process is small.
    let arguments: Vec<String> = std::env::args().skip(1).collect();
    if arguments.first().is_some_and(|argument| argument == "once") {
        return once::run(&arguments[1..]);
    }
    let asked = |part: &str| arguments.iter().any(|argument| argument == part);
    if let Some((_, print)) = PARTS.iter().find(|(part, _)| asked(part)) {
        return print();
    }
    command::print();
    if asked("command") {
        return;
    }
    println!("ns a letter, median of {RUNS} runs, {LETTERS} random letters");
    print_dna();
    print_alphabets();
    PARTS.iter().for_each(|(_, print)| print());
}

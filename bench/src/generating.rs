//! Writing a test load, in nanoseconds a letter, beside adding the file that is written.

use crate::adding::RUNS;
use crate::{median, test_load, LETTERS, START};
use std::hint::black_box;
use std::time::Instant;
use wontirje::{Kind, Mirror, Settings};

/// Writes a test load and adds it to a table, in turns; every time it must be the same file, with the records
/// and letters that were asked for and no foreign ones. Prints the medians and the ratio.
fn print_generating(what: &str, settings: Settings, records: usize, each: usize) {
    let (settings, letters) = (black_box(settings), (records * each) as f64);
    let first = test_load(&settings, records, each);
    let mut file = vec![0; first.len()];
    let mut table = vec![0; settings.table_places().expect("settings of a table")];
    let mut times = [Vec::new(), Vec::new()];
    for _ in 0..RUNS {
        file.fill(0);
        let start = Instant::now();
        settings.generate(START, records, each, &mut file).expect("room for the file");
        times[0].push(start.elapsed().as_nanos() as f64 / letters);
        assert!(file == first, "two test loads from the same numbers differ");
        let start = Instant::now();
        let numbers = settings.add(&mut table, Kind::Fasta, &file).expect("a file without damage");
        times[1].push(start.elapsed().as_nanos() as f64 / letters);
        let right = (records as u64, (records * each) as u64, 0);
        assert_eq!((numbers.records, numbers.letters, numbers.foreign), right, "not what was asked for");
    }
    let [generating, adding] = times.map(median);
    let ratio = generating / adding;
    println!("{what} {generating:.2}, adding {adding:.2}, ratio {ratio:.2} (at most 1.0)");
}

pub fn print() {
    println!("ns a letter, median of {RUNS} runs, writing a test load beside adding it");
    let dna = Settings::dna(11);
    print_generating("generating, ACGT complement k 11, one record:", dna, 1, LETTERS);
    print_generating("generating, ACGT complement k 11, 100000 records of 150:", dna, 100_000, 150);
    let letters = b"ABCDEFGHIJKLMNOP";
    let groups = Settings { letters, k: 5, mirror: Mirror::Reversal };
    print_generating("generating, 16 letters reversal k 5, one record:", groups, 1, LETTERS);
}

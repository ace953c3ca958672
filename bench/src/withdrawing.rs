//! Withdrawing a sequence file from a count table, in nanoseconds a letter, beside adding the same file; and a
//! withdrawal that is refused as late as can be, at the file's last window.

use crate::adding::{drawn_file, drawn_reads, LETTERS, READ, READS, RUNS};
use crate::median;
use std::hint::black_box;
use std::time::Instant;
use wontirje::{Kind, Mirror, Refusal, Settings};

/// The place of the last window's class. Headers stand before the letters, in FASTA.
fn last_place(settings: &Settings, fasta: &[u8]) -> usize {
    let letters = fasta.iter().rev().filter(|byte| byte.is_ascii_alphabetic());
    let mut word: Vec<u8> = letters.take(settings.k).copied().collect();
    word.reverse();
    settings.code(&word).expect("a word of the settings").0 as usize
}

/// Adds a file, withdraws it, and tries the same where the count of its last window's class is one short, in turns; the
/// table must come back. The file is given as FASTA too, by which that class is found.
fn print_withdrawing(what: &str, settings: Settings, (kind, file): (Kind, &[u8]), fasta: &[u8]) {
    let settings = black_box(settings);
    let last = last_place(&settings, fasta);
    let mut table = vec![0; settings.table_places().expect("settings of a table")];
    settings.clear(&mut table).expect("a table");
    let cleared = table.clone();
    let mut times = [Vec::new(), Vec::new(), Vec::new()];
    for _ in 0..RUNS {
        let start = Instant::now();
        let letters = settings.add(&mut table, kind, file).expect("a file without damage").letters as f64;
        times[0].push(start.elapsed().as_nanos() as f64 / letters);
        let added = table.clone();
        let start = Instant::now();
        settings.withdraw(&mut table, kind, file).expect("a file that was added");
        times[1].push(start.elapsed().as_nanos() as f64 / letters);
        assert!(table == cleared, "the table does not come back");
        table.copy_from_slice(&added);
        table[last] -= 1;
        let start = Instant::now();
        let refused = settings.withdraw(&mut table, kind, file);
        times[2].push(start.elapsed().as_nanos() as f64 / letters);
        assert_eq!(refused, Err(Refusal { number: 18, place: 0 }));
        table[last] += 1;
        assert!(table == added, "a refused withdrawal changed a count");
        table.copy_from_slice(&cleared);
    }
    let [adding, withdrawing, refused] = times.map(median);
    println!("{what} {withdrawing:.2}, adding {adding:.2}, ratio {:.2} (at most 1.3)", withdrawing / adding);
    let ratio = refused / adding;
    println!("{what} refused at the last window {refused:.2}, ratio to adding {ratio:.2} (at most 2.6)");
}

pub fn print() {
    println!(
        "ns a letter, median of {RUNS} runs, files of {LETTERS} random letters, withdrawing beside adding"
    );
    let dna = drawn_file(b"ACGT", b'N');
    for k in [12, 8] {
        let what = format!("withdrawing, ACGT complement k {k}:");
        print_withdrawing(&what, Settings::dna(k), (Kind::Fasta, &dna), &dna);
    }
    let letters = b"ACDEFGHIKL";
    let groups = Settings { letters, k: 6, mirror: Mirror::Reversal };
    let file = drawn_file(letters, b'X');
    print_withdrawing("withdrawing, 10 letters reversal k 6:", groups, (Kind::Fasta, &file), &file);
    println!("ns a letter of sequence, median of {RUNS} runs, {READS} reads of {READ} random letters");
    let [(_, fastq), (_, fasta)] = drawn_reads();
    for k in [12, 8] {
        let what = format!("withdrawing FASTQ, ACGT complement k {k}:");
        print_withdrawing(&what, Settings::dna(k), (Kind::Fastq, &fastq), &fasta);
    }
}

//! Lists of adds that mix FASTA and FASTQ files (document 02, K1: "All of demand 3 must hold for lists mixing
//! both kinds of file"), beside the tally book, with every count and every answer after every call.

use kmer_tests::draw::*;
use kmer_tests::draw_fastq::*;
use kmer_tests::files::{Kind, FASTA, FASTQ};
use kmer_tests::sequences::MOST_BYTES;
use kmer_tests::settings::*;
use kmer_tests::tables::*;

/// A file for a list: mostly whole or damaged ones, now and then the last one again, one called by the other
/// kind or one that is too long.
fn next_file(random: &mut Random, settings: &Settings, last: &(u64, Vec<u8>), long: &[u8]) -> (u64, Vec<u8>) {
    let (fastq, file) = whole_file(random, settings, 300);
    match random.below(16) {
        0..=5 => (fastq, damaged_of(random, Kind::named(fastq), settings, file)),
        6 => last.clone(),
        7 => (if fastq == FASTA { FASTQ } else { FASTA }, file),
        8 if random.below(4) == 0 => (fastq, long.to_vec()),
        _ => (fastq, file),
    }
}

#[test]
fn lists_of_both_kinds_over_every_size() {
    let mut random = Random::new(75);
    let long = vec![b'@'; MOST_BYTES + 1];
    let (mut taken, mut turned_away) = ([0; 2], [0; 18]);
    for (s, mirror, k) in sizes_up_to(100_000) {
        let settings = Settings::new(&drawn_capitals(&mut random, s), k, mirror);
        let (mut book, mut table) = cleared(&settings, random.below(4) as usize);
        let mut given = (FASTA, Vec::new());
        for _ in 0..20 {
            given = next_file(&mut random, &settings, &given, &long);
            let (fastq, file) = &given;
            let room = if random.below(16) == 0 { random.below(5) } else { 5 + random.below(3) };
            match check_add(&mut book, &mut table, *fastq, file, room as usize) {
                Ok(_) => taken[(*fastq != FASTA) as usize] += 1,
                Err(refusal) => turned_away[refusal.number as usize] += 1,
            }
            check_sum(&book, &table);
        }
        check_clear(&settings, &mut table);
    }
    // The lists are worth their name only where all kinds of calls are in them.
    assert!(taken.iter().all(|&count| count > 1000), "{taken:?} files taken in");
    assert!([6, 7, 10, 11, 15, 16, 17].iter().all(|&number| turned_away[number] > 15), "{turned_away:?}");
}

#[test]
fn longer_files_of_both_kinds_in_a_row() {
    let mut random = Random::new(76);
    let sizes = [(4, 1, 8), (4, 1, 3), (4, 0, 7), (2, 1, 13), (3, 0, 9), (10, 0, 4), (16, 1, 3), (5, 1, 5)];
    for (s, mirror, k) in sizes {
        let settings = Settings::new(&drawn_capitals(&mut random, s), k, mirror);
        let (mut book, mut table) = cleared(&settings, 1);
        for _ in 0..6 {
            let (fastq, file) = whole_file(&mut random, &settings, 9000);
            check_add(&mut book, &mut table, fastq, &file, 5).expect("a file without damage");
        }
        check_sum(&book, &table);
    }
}

/// Lists with the same files leave the same counts, whatever their order.
#[test]
fn the_order_of_files_of_both_kinds_makes_no_difference() {
    let mut random = Random::new(77);
    for (s, mirror, k) in [(4, 1, 5), (6, 1, 3), (10, 0, 3), (2, 0, 9), (3, 1, 7)] {
        let settings = Settings::new(&drawn_capitals(&mut random, s), k, mirror);
        let files: Vec<(u64, Vec<u8>)> = (0..8).map(|_| whole_file(&mut random, &settings, 200)).collect();
        let mut tables = Vec::new();
        for order in [[0, 1, 2, 3, 4, 5, 6, 7], [7, 6, 5, 4, 3, 2, 1, 0], [3, 0, 6, 1, 7, 2, 5, 4]] {
            let (mut book, mut table) = cleared(&settings, 0);
            for place in order {
                let (fastq, file) = &files[place];
                check_add(&mut book, &mut table, *fastq, file, 5).expect("a file without damage");
            }
            tables.push(table.slice().to_vec());
        }
        assert!(tables.iter().all(|table| *table == tables[0]), "{settings}");
        assert!(tables[0].iter().any(|&count| count > 0), "{settings}");
    }
}

/// A list with its counts written out, ACGT under complement, k 2: a refused file of either kind between those
/// taken in changes no count.
#[test]
fn a_list_with_its_counts_written_out() {
    let (mut book, mut table) = cleared(&Settings::new(b"ACGT", 2, COMPLEMENT), 1);
    let mut check = |fastq: u64, file: &[u8], answer, counts: [u32; 10]| {
        assert_eq!(check_add(&mut book, &mut table, fastq, file, 5), answer, "{}", shown_file(file));
        // AT CG GC TA AG AC AA CC CA GA
        assert_eq!(table.slice()[..10], counts, "{}", shown_file(file));
    };
    check(FASTA, b">a\nACGTN\n>b\nAG\nCT\n", Ok([2, 9, 1, 2, 6]), [0, 1, 1, 0, 2, 2, 0, 0, 0, 0]);
    check(FASTQ, b"@a\nTTA\n+\nIII\n", Ok([1, 3, 0, 1, 2]), [0, 1, 1, 1, 2, 2, 1, 0, 0, 0]);
    check(FASTQ, b"@a\nTTA\n+\nIII\n@b\nTT", refused(15, 18), [0, 1, 1, 1, 2, 2, 1, 0, 0, 0]);
    check(FASTQ, b"@a\nTTA\n+\nIII\n@b\nT*\n+\nII", refused(10, 17), [0, 1, 1, 1, 2, 2, 1, 0, 0, 0]);
    check(FASTQ, b"@a\nTTA\n+\nII\n", refused(16, 9), [0, 1, 1, 1, 2, 2, 1, 0, 0, 0]);
    check(FASTQ, b"@a\nTTA\n+\nII \n", refused(17, 11), [0, 1, 1, 1, 2, 2, 1, 0, 0, 0]);
    check(FASTA, b"@a\nTTA\n+\nIII\n", refused(10, 0), [0, 1, 1, 1, 2, 2, 1, 0, 0, 0]);
    check(FASTQ, b"@a\nTTA\n+\nIII\n", Ok([1, 3, 0, 1, 2]), [0, 1, 1, 2, 2, 2, 2, 0, 0, 0]);
    check(FASTA, b">\nGA\n", Ok([1, 2, 0, 1, 1]), [0, 1, 1, 2, 2, 2, 2, 0, 0, 1]);
    check(FASTQ, b"@\r\nTC\r\n+\r\n!~", Ok([1, 2, 0, 1, 1]), [0, 1, 1, 2, 2, 2, 2, 0, 0, 2]);
}

//! Clearing a table and adding sequence files to it: lists of files beside the tally book, with every count
//! and every answer after every call; every class at its place; the example of document 01; the stored
//! answers.

use kmer_tests::book::*;
use kmer_tests::draw::*;
use kmer_tests::draw_files::*;
use kmer_tests::files::FASTA;
use kmer_tests::lent::*;
use kmer_tests::sequences::{two_bit_settings, MOST_BYTES};
use kmer_tests::settings::*;
use kmer_tests::table_vectors::*;
use kmer_tests::tables::*;

/// A file for a list: mostly good or damaged ones, now and then the last one again or one that is too long.
fn next_file(random: &mut Random, settings: &Settings, last: &[u8], long: &[u8]) -> Vec<u8> {
    let good = drawn_file(random, settings, 300);
    match random.below(16) {
        0..=5 => damaged(random, settings, good),
        6 => last.to_vec(),
        7 if random.below(4) == 0 => long.to_vec(),
        _ => good,
    }
}

#[test]
fn lists_of_files_over_every_size() {
    let mut random = Random::new(31);
    let long = record(&vec![b'A'; MOST_BYTES - 2]);
    let (mut taken, mut turned_away) = (0, [0; 15]);
    for (s, mirror, k) in sizes_up_to(100_000) {
        let settings = Settings::new(&drawn_capitals(&mut random, s), k, mirror);
        let (mut book, mut table) = cleared(&settings, random.below(4) as usize);
        let mut file = Vec::new();
        for _ in 0..16 {
            file = next_file(&mut random, &settings, &file, &long);
            let room = if random.below(16) == 0 { random.below(5) } else { 5 + random.below(3) };
            match check_add(&mut book, &mut table, FASTA, &file, room as usize) {
                Ok(_) => taken += 1,
                Err(refusal) => turned_away[refusal.number as usize] += 1,
            }
            check_sum(&book, &table);
        }
        check_clear(&settings, &mut table);
    }
    // The lists are worth their name only where all kinds of calls are in them.
    assert!(taken > 1000, "{taken} files taken in");
    assert!([6, 7, 10, 11].iter().all(|&number| turned_away[number] > 15), "{turned_away:?}");
}

#[test]
fn longer_files_in_a_row() {
    let mut random = Random::new(32);
    let sizes = [(4, 1, 8), (4, 1, 3), (4, 0, 7), (2, 1, 13), (3, 0, 9), (10, 0, 4), (16, 1, 3)];
    for (s, mirror, k) in sizes.into_iter().chain([(3, 1, 9), (5, 1, 5), (15, 1, 3)]) {
        let settings = Settings::new(&drawn_capitals(&mut random, s), k, mirror);
        let (mut book, mut table) = cleared(&settings, 1);
        for _ in 0..4 {
            let file = drawn_file(&mut random, &settings, 9000);
            check_add(&mut book, &mut table, FASTA, &file, 5).expect("a file without damage");
        }
        check_sum(&book, &table);
    }
}

/// Lists with the same files leave the same counts, whatever their order.
#[test]
fn the_order_of_files_makes_no_difference() {
    let mut random = Random::new(33);
    for (s, mirror, k) in [(4, 1, 5), (6, 1, 3), (10, 0, 3), (2, 0, 9), (3, 1, 7)] {
        let settings = Settings::new(&drawn_capitals(&mut random, s), k, mirror);
        let good: Vec<Vec<u8>> = (0..8).map(|_| drawn_file(&mut random, &settings, 200)).collect();
        let files: Vec<Vec<u8>> = good.into_iter().map(|file| [&file[..], b"\n>\n"].concat()).collect();
        let whole = files.concat();
        let mut tables = Vec::new();
        for order in [[0, 1, 2, 3, 4, 5, 6, 7], [7, 6, 5, 4, 3, 2, 1, 0], [3, 0, 6, 1, 7, 2, 5, 4]] {
            let (mut book, mut table) = cleared(&settings, 0);
            for place in order {
                check_add(&mut book, &mut table, FASTA, &files[place], 5).expect("a file without damage");
            }
            tables.push(table.slice().to_vec());
        }
        let (mut book, mut table) = cleared(&settings, 0);
        check_add(&mut book, &mut table, FASTA, &whole, 5).expect("all files in one");
        assert!(tables.iter().all(|other| other == table.slice()), "{settings}: {}", shown_file(&whole));
    }
}

/// The example of document 01, "Listing and counter program", with its counts.
#[test]
fn the_example_of_document_01() {
    let settings = two_bit_settings(2);
    let (mut book, mut table) = cleared(&settings, 1);
    let numbers = check_add(&mut book, &mut table, FASTA, b">a\nACGTN\n>b\nAG\nCT\n", 7);
    assert_eq!(numbers, Ok([2, 9, 1, 2, 6]));
    // AT CG GC TA AG AC AA CC CA GA
    assert_eq!(table.slice()[..10], [0, 1, 1, 0, 2, 2, 0, 0, 0, 0]);
}

/// Every class at its own place, with no reader.
#[test]
fn every_class_counts_at_its_place() {
    for (s, mirror, k) in sizes_up_to(2500) {
        let settings = Settings::new(&drawn_capitals(&mut Random::new(40), s), k, mirror);
        let (file, classes) = (file_of_all_classes(&settings), class_count(&settings) as usize);
        let mut table = Table::filled(classes);
        clear(&settings, &mut table);
        assert_eq!(add(&settings, &mut table, FASTA, &file, &mut Lent::filled(5)), 5, "{settings}");
        let right: Vec<u32> = (0..classes as u32).map(|code| code % 5 + 1).collect();
        assert_eq!(table.slice(), right, "{settings}");
    }
}

#[test]
fn empty_files_are_taken_in() {
    for (s, mirror, k) in sizes_up_to(300) {
        let settings = Settings::new(&first_capitals(s), k, mirror);
        let (mut book, mut table) = cleared(&settings, 0);
        for file in [&b""[..], &record(&vec![b'A'; k]), b""] {
            check_add(&mut book, &mut table, FASTA, file, 5).expect("no ground");
        }
        assert_eq!(check_add(&mut book, &mut table, FASTA, b"", 5), Ok([0; 5]), "{settings}");
    }
}

/// The stored answers against the grounds and the call.
#[test]
fn stored_clears() {
    for stored in stored("clear", [54, 14, 0, 0, 0, 0, 0]) {
        let classes = table_ground(&stored.settings, false, stored.table.len());
        let zeros = vec![0; classes.unwrap_or(0)];
        stored.check_second(classes.map(|classes| vec![classes as u64]), &zeros);
        let mut table = Table::new(&stored.table);
        check_clear(&stored.settings, &mut table);
        assert_eq!(table.slice(), stored.after, "{}", stored.line);
        let right = stored.outcome.map_or_else(|refusal| refusal.packed(), |answer| answer[0]);
        assert_eq!(clear(&stored.settings, &mut table), right, "{}", stored.line);
    }
}

/// The stored answers against the book and the call.
#[test]
fn stored_adds() {
    stored("add", [48, 19, 234, 20, 12, 0, 0]).iter().for_each(|stored| check_stored_call(Call::Add, stored));
}

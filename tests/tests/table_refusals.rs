//! Table calls that are refused: full places (12), short buffers (7), the order of the grounds and all
//! combinations of faults; a refused call changes nothing.

use kmer_tests::book::*;
use kmer_tests::draw::*;
use kmer_tests::draw_files::*;
use kmer_tests::expected::coder;
use kmer_tests::files::FASTA;
use kmer_tests::sequences::{two_bit_settings, MOST_BYTES};
use kmer_tests::settings::*;
use kmer_tests::table_faults::*;
use kmer_tests::tables::*;

#[test]
fn a_place_too_full_is_refused_12() {
    check_full_places(37, FASTA, |random, settings| record(&drawn_letters(random, settings, 25, 0)));
}

/// The windows of all classes together count, not those of the full class; a file without windows fits.
#[test]
fn ground_12_takes_all_windows_and_no_fewer() {
    let settings = two_bit_settings(2);
    let class = |word: &[u8]| coder(&settings).code(word) as usize;
    // AAAAC: three windows AA, one AC.
    let file = b">\nAAAAC";
    for place in [class(&[0, 0]), class(&[0, 1]), class(&[2, 0])] {
        let (mut book, mut table) = table_with(&settings, place, TOP - 4);
        assert_eq!(check_add(&mut book, &mut table, FASTA, file, 5), Ok([1, 5, 0, 1, 4]));
        let (mut book, mut table) = table_with(&settings, place, TOP - 3);
        assert_eq!(check_add(&mut book, &mut table, FASTA, file, 5), refused(12, 0));
    }
    let mut full = Table::new(&[u32::MAX; 10]);
    let mut book = Book::starting(&settings, full.slice());
    assert_eq!(check_add(&mut book, &mut full, FASTA, b">\nANCNG\n>\nA", 5), Ok([2, 6, 2, 4, 0]));
    assert_eq!(check_add(&mut book, &mut full, FASTA, b">\nAC", 5), refused(12, 0));
}

/// A list that fills a table, with the number of each refusal: once a file is refused, shorter ones are still
/// taken in, until no window fits.
#[test]
fn a_list_up_to_ground_12() {
    // TT is at place 3, and n letters T in a row are n - 1 windows.
    let settings = Settings::new(b"ACGT", 2, REVERSAL);
    let (mut book, mut table) = table_with(&settings, 3, TOP - 700);
    let list =
        [(201, 0), (301, 0), (202, 12), (301, 12), (101, 0), (0, 0), (102, 12), (101, 0), (1, 0), (2, 12)];
    for (length, number) in list {
        let answer = check_add(&mut book, &mut table, FASTA, &record(&vec![b'T'; length]), 6);
        assert_eq!(answer.map_or_else(|refusal| refusal.number, |_| 0), number, "{length} letters T");
    }
    assert_eq!(table.slice()[3], u32::MAX);
}

/// Ground 7 for every short table, with the number of classes as P, before a short answer list with 5 as P.
#[test]
fn short_tables_and_answer_lists_are_refused_7() {
    for (s, mirror, k) in sizes_up_to(150) {
        let settings = Settings::new(&first_capitals(s), k, mirror);
        let classes = class_count(&settings);
        let file = record(&vec![b'A'; k]);
        for places in 0..classes as usize {
            let mut table = Table::filled(places);
            check_clear(&settings, &mut table);
            let room = places % 7;
            let answer = check_add(&mut Book::new(&settings), &mut table, FASTA, &file, room);
            assert_eq!(answer, refused(7, classes as u64), "{settings}: {places} places, room {room}");
        }
        let (mut book, mut table) = cleared(&settings, 2);
        for room in 0..5 {
            for file in [&file[..], b"A*", b""] {
                assert_eq!(
                    check_add(&mut book, &mut table, FASTA, file, room),
                    refused(7, 5),
                    "{settings}: room {room}"
                );
            }
        }
    }
}

/// Where several grounds apply the lowest number wins, of 10 and 11 the earlier byte: written out, with no
/// reference.
#[test]
fn grounds_go_in_number_order() {
    let long = vec![b'*'; MOST_BYTES + 1];
    let full = u32::MAX;
    let cases: [Faulty; 20] = [
        (b"AcG", 0, 2, 0, 0, &long, 0, (1, 0)),
        (b"ACG", 0, 2, 0, 0, &long, 0, (2, 0)),
        (b"ACG", 0, 1, 0, 0, &long, 0, (4, 0)),
        (b"ACGT", 0, 1, 0, 0, &long, 0, (4, 0)),
        (b"ACGT", 32, 1, 0, 0, &long, 0, (4, 0)),
        (b"ACG", 16, 1, 0, 0, b"*", 0, (6, 0)),
        (b"ACGT", 31, 1, 0, 0, b"*", 0, (6, 0)),
        (b"ACGT", 13, 1, 0, 0, b"*", 0, (6, 0)),
        (b"ACGT", 2, 1, 0, 0, &long, 0, (6, 0)),
        (b"ACG", 1, 1, 1, full, b"*", 0, (7, 2)),
        (b"ACGT", 2, 1, 9, full, b"*", 0, (7, 10)),
        (b"ACGT", 2, 1, 9, full, b">\nAC", 5, (7, 10)),
        (b"ACGT", 2, 1, 10, full, b"*", 4, (7, 5)),
        (b"ACGT", 2, 1, 10, full, b">\nAC", 4, (7, 5)),
        (b"ACGT", 2, 1, 10, full, b">\nAC*", 5, (10, 4)),
        (b"ACGT", 2, 1, 10, full, b"A*\n>\nAC", 5, (11, 0)),
        (b"ACGT", 2, 1, 10, full, b"*A\n>\nAC", 5, (10, 0)),
        (b"ACGT", 2, 1, 10, full, b"\nN\n>\nAC", 5, (11, 1)),
        (b"ACG", 1, 1, 2, full, b">\nC", 5, (12, 0)),
        (b"ACGT", 2, 1, 10, full, b">\nAC", 5, (12, 0)),
    ];
    cases.into_iter().for_each(|case| check_refused(Call::Add, FASTA, case));
}

/// Every combination of good and bad arguments, beside the book.
#[test]
fn combinations_of_faults_answer_as_the_book() {
    let files: [&[u8]; 6] = [b"", b">\nACGTBT", b"A", b"*", b">\nA*", b">\nTT\r"];
    check_combinations(&[Call::Add], &[FASTA], &files, &[0, 1, 2, 3, 6, 9, 10, 40, 1000], &[0, 4, 5, 6]);
}

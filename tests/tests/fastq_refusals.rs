//! FASTQ files in kmer_add among the other grounds (document 02, K1): 15, 10, 16 and 17 stand after 7 and before
//! 12; ground 12 itself; every number but 0 means FASTQ; all combinations of faults. A refused call changes
//! nothing.

use kmer_tests::book::Book;
use kmer_tests::draw_fastq::drawn_fastq_of;
use kmer_tests::draw_files::drawn_letters;
use kmer_tests::files::{FASTA, FASTQ};
use kmer_tests::sequences::{two_bit_settings, MOST_BYTES};
use kmer_tests::table_faults::*;
use kmer_tests::tables::*;

/// Numbers that name FASTQ, some of which a call might cut to 0.
const FASTQ_NUMBERS: [u64; 9] = [1, 2, 255, 256, 1 << 31, 1 << 32, (1 << 32) + 1, 1 << 63, u64::MAX];

#[test]
fn every_number_but_0_means_fastq() {
    let settings = two_bit_settings(2);
    let (fasta, fastq) = (b">a\nACGT\n", b"@a\nACGT\n+\nIIII\n");
    for number in FASTQ_NUMBERS {
        assert_eq!(check_file(&settings, number, fastq), Ok([1, 4, 0, 1, 3]), "{number}");
        assert_eq!(check_file(&settings, number, fasta), refused(15, 0), "{number}");
        assert_eq!(check_file(&settings, number, b""), Ok([0; 5]), "{number}");
        assert_eq!(check_file(&settings, number, b"\n"), refused(15, 0), "{number}");
    }
    assert_eq!(check_file(&settings, 0, fastq), refused(10, 0));
    assert_eq!(check_file(&settings, 0, fasta), Ok([1, 4, 0, 1, 3]));
}

/// Written out, with no reference.
#[test]
fn the_grounds_of_a_fastq_file_stand_after_7_and_before_12() {
    let long = vec![b'*'; MOST_BYTES + 1];
    let full = u32::MAX;
    let good = b"@\nAC\n+\nII\n";
    let cases: [Faulty; 23] = [
        (b"AcG", 0, 2, 0, 0, &long, 0, (1, 0)),
        (b"AcG", 0, 2, 0, 0, b"@", 0, (1, 0)),
        (b"ACG", 0, 2, 0, 0, b"@", 0, (2, 0)),
        (b"ACG", 0, 1, 0, 0, b"@\n*\n+\nI", 0, (4, 0)),
        (b"ACGT", 32, 1, 0, 0, b"@\nA\n+\n\n", 0, (4, 0)),
        (b"ACGT", 2, 1, 0, 0, &long, 0, (6, 0)),
        (b"ACGT", 13, 1, 0, 0, b"@\nA\n+\n ", 0, (6, 0)),
        (b"ACGT", 31, 1, 10, full, b"@", 5, (6, 0)),
        (b"ACGT", 2, 1, 9, full, b"@", 0, (7, 10)),
        (b"ACGT", 2, 1, 9, full, b"@\n*\n+\nI", 5, (7, 10)),
        (b"ACGT", 2, 1, 9, full, good, 4, (7, 10)),
        (b"ACGT", 2, 1, 10, full, b">", 4, (7, 5)),
        (b"ACGT", 2, 1, 10, full, b"@\nA\n+\n\n", 0, (7, 5)),
        (b"ACGT", 2, 1, 10, full, b"@\nA\n+\n ", 4, (7, 5)),
        (b"ACGT", 2, 1, 10, full, good, 4, (7, 5)),
        (b"ACGT", 2, 1, 10, full, b"@\nAC\n+\nII\n\n", 5, (15, 10)),
        (b"ACGT", 2, 1, 10, full, b"@\nAC\n+\n", 5, (15, 7)),
        (b"ACGT", 2, 1, 10, full, b"@\nAC*\n+\nIII\n", 5, (10, 4)),
        (b"ACGT", 2, 1, 10, full, b"@\nAC\n+\nIII\n", 5, (16, 7)),
        (b"ACGT", 2, 1, 10, full, b"@\nAC\n+\nI\x7f\n", 5, (17, 8)),
        (b"ACGT", 2, 1, 10, full, good, 5, (12, 0)),
        (b"ACGT", 2, 1, 10, full, b"@\nN\n+\nI\n@\nAC\n+\nII", 6, (12, 0)),
        (b"ACG", 1, 1, 2, full, b"@\nC\n+\n!", 5, (12, 0)),
    ];
    cases.into_iter().for_each(|case| check_refused(Call::Add, FASTQ, case));
}

#[test]
fn a_place_too_full_is_refused_12() {
    check_full_places(71, FASTQ, |random, settings| {
        let sequences = [25, 0, 2, 9].map(|length| drawn_letters(random, settings, length, 0));
        drawn_fastq_of(random, &sequences)
    });
}

/// A table whose counts are all the highest takes in FASTQ files without windows, and no other.
#[test]
fn a_full_table_takes_in_files_without_windows() {
    let settings = two_bit_settings(2);
    let mut full = Table::new(&[u32::MAX; 10]);
    let mut book = Book::starting(&settings, full.slice());
    let without = b"@\nANCNG\n+\nIIIII\n@\nA\n+\nI\n@\nC\n+\nI\n@\n\n+\n\n";
    assert_eq!(check_add(&mut book, &mut full, FASTQ, without, 5), Ok([4, 7, 2, 5, 0]));
    assert_eq!(check_add(&mut book, &mut full, FASTQ, b"", 5), Ok([0; 5]));
    assert_eq!(check_add(&mut book, &mut full, FASTQ, b"@\nAC\n+\nII", 5), refused(12, 0));
}

/// Every combination of good and bad arguments, beside the book.
#[test]
fn combinations_of_faults_answer_as_the_book() {
    let files: [&[u8]; 7] = [
        b"",
        b"@\nACGTBT\n+\nIIIIII",
        b"@\nTT\n+\nII\r",
        b"@\nA*\n+\nII\n",
        b"@\nA\n+\n\x7f\n",
        b"@\nA",
        b">\nACGTBT",
    ];
    check_combinations(&[Call::Add], &[FASTA, FASTQ], &files, &[0, 2, 3, 9, 10, 1000], &[4, 5, 6]);
}

//! Adding FASTA files, and in one test FASTQ files, to a table, byte by byte: what each byte of a file is, line
//! ends, runs and cuts about the library's batches, beside the tally book and with numbers written out.

use kmer_tests::book::*;
use kmer_tests::draw::*;
use kmer_tests::draw_files::*;
use kmer_tests::expected::Refusal;
use kmer_tests::files::{FASTA, FASTQ};
use kmer_tests::sequences::{all_fours, two_bit_settings};
use kmer_tests::settings::*;
use kmer_tests::tables::*;

#[test]
fn runs_about_a_batch() {
    check_about_batches(34, |_, book, table, [run, other, two]| {
        let lines: Vec<&[u8]> = run.chunks(64).collect();
        let records = [run, b"\n>\n", other, b"\r\n>second\r\n", run].concat();
        for sequence in [run, &lines.join(&b"\r\n"[..]), two, &records] {
            check_add(book, table, FASTA, &record(sequence), 5).expect("a file without damage");
        }
    });
}

/// The same windows as in sequences.rs, for every k of a table that can be had, as FASTA and as FASTQ.
#[test]
fn every_four_letters_at_every_place_of_a_window() {
    let sequence = all_fours();
    for k in 1..=12 {
        let (letters, edge) = (sequence.len() as u64, k as u64 - 1);
        let numbers = Ok([1, letters, 0, edge, letters - edge]);
        assert_eq!(check_file(&two_bit_settings(k), FASTA, &record(&sequence)), numbers, "k {k}");
        let read = [b"@\n", &sequence[..], b"\n+\n", &vec![b'!'; sequence.len()]].concat();
        assert_eq!(check_file(&two_bit_settings(k), FASTQ, &read), numbers, "k {k}");
    }
}

/// Header lines are passed over in blocks of 16 bytes: headers of every length over three of them, from every
/// offset in a block, with either line end and cut off by the file's end. ACGT under complement, k 2.
#[test]
fn headers_of_every_length_about_a_block_of_16() {
    let settings = two_bit_settings(2);
    for (before, length) in (0..16).flat_map(|before| (0..=50).map(move |length| (before, length))) {
        let header = [&vec![b'\n'; before][..], b">", &vec![b'>'; length]].concat();
        assert_eq!(check_file(&settings, FASTA, &header), Ok([1, 0, 0, 0, 0]), "{before}, {length}");
        for end in [&b"\n"[..], b"\r\n"] {
            let file = [&header[..], end, b"ACGT"].concat();
            assert_eq!(
                check_file(&settings, FASTA, &file),
                Ok([1, 4, 0, 1, 3]),
                "{before}, {length}, {end:?}"
            );
            let stray = [&header[..], end, b"AC*"].concat();
            let place = (header.len() + end.len() + 2) as u64;
            assert_eq!(
                check_file(&settings, FASTA, &stray),
                refused(10, place),
                "{before}, {length}, {end:?}"
            );
        }
    }
}

/// What may stand at a batch's end: a foreign letter, a record's end, a line's end.
#[test]
fn cuts_at_every_place_about_a_batch() {
    let mut random = Random::new(35);
    for settings in some_settings() {
        let k = settings.k;
        let foreign = foreign_letters(&settings.letters)[1];
        let (mut book, mut table) = cleared(&settings, 0);
        let run = drawn_letters(&mut random, &settings, BATCH + 300, 0);
        for place in BATCH - k - 3..=BATCH + k + 3 {
            for cut in [&[foreign][..], b"\n>\n", b"\n", b"\r\n", b"\n\r\n\n"] {
                let file = record(&[&run[..place], cut, &run[place..]].concat());
                check_add(&mut book, &mut table, FASTA, &file, 5).expect("a file without damage");
            }
        }
    }
}

/// The same for bytes of the file instead of letters: a header pushes the sequence forward byte by byte, over
/// multiples of 1,024 and 4,096, with a good and with a stray CR.
#[test]
fn line_ends_at_every_offset_about_a_batch() {
    let mut random = Random::new(36);
    for settings in [two_bit_settings(3), Settings::new(b"XYZ", 2, REVERSAL)] {
        let (mut book, mut table) = cleared(&settings, 0);
        for base in [BATCH, 4 * BATCH] {
            for length in base - 12..base + 3 {
                let header = [&b">"[..], &vec![b'>'; length - 3], b"\r\n"].concat();
                let letters = drawn_letters(&mut random, &settings, 8, 5);
                let good = [&header[..], &letters[..4], b"\r\n", &letters[4..], b"\r\n"].concat();
                check_add(&mut book, &mut table, FASTA, &good, 5).expect("a file without damage");
                let stray = [&header[..], &letters[..4], b"\r", &letters[4..], b"\n"].concat();
                let right = refused(10, header.len() as u64 + 4);
                assert_eq!(
                    check_add(&mut book, &mut table, FASTA, &stray, 5),
                    right,
                    "header of {length} bytes"
                );
            }
        }
    }
}

/// One byte at each kind of place: before the first header, at a line's start, middle and end, in a header,
/// before each kind of line end, at the file's end.
#[test]
fn every_byte_at_every_kind_of_place() {
    let frames: [(&[u8], &[u8]); 12] = [
        (b"", b""),
        (b"", b"\n>a\nACGT"),
        (b"\n", b"\r\n>a\nACGT"),
        (b">", b""),
        (b">", b"\nACGT"),
        (b">a", b">b\r\nACGT"),
        (b">a\n", b""),
        (b">a\n", b"AC\nGT"),
        (b">a\nAC", b"GT\n"),
        (b">a\nAC", b"\nGT"),
        (b">a\nAC", b"\r\nGT"),
        (b">a\nACGT\r\n", b"\n"),
    ];
    let protein = Settings::new(b"TGCABDEFHI", 2, REVERSAL);
    for settings in [two_bit_settings(1), two_bit_settings(2), protein, Settings::new(b"XA", 3, COMPLEMENT)] {
        for (before, after) in frames {
            for byte in 0..=255 {
                // The comparison with the book is within.
                let _ = check_file(&settings, FASTA, &[before, &[byte], after].concat());
            }
        }
    }
}

/// Files and their numbers by hand, with no reader: ACGT under complement, k 3.
#[test]
fn files_with_numbers_written_out() {
    let files: [(&[u8], Result<Numbers, Refusal>); 24] = [
        (b"", Ok([0, 0, 0, 0, 0])),
        (b"\n\r\n\n", Ok([0, 0, 0, 0, 0])),
        (b">", Ok([1, 0, 0, 0, 0])),
        (b">\r", Ok([1, 0, 0, 0, 0])),
        (b">a\rACGT", Ok([1, 0, 0, 0, 0])),
        (b">\n>\n>\n", Ok([3, 0, 0, 0, 0])),
        (b">a\nAC\nGT\n", Ok([1, 4, 0, 2, 2])),
        (b">a\r\nAC\r\nGT", Ok([1, 4, 0, 2, 2])),
        (b">a\nA\n\n\r\nC\nG", Ok([1, 3, 0, 2, 1])),
        (b">a\nAC\n>b\nGT", Ok([2, 4, 0, 4, 0])),
        (b">a\nACNGT", Ok([1, 5, 1, 4, 0])),
        (b">a\nNNACGTNAN", Ok([1, 9, 4, 3, 2])),
        (b">a\nacgtn", Ok([1, 5, 1, 2, 2])),
        (b"A", refused(11, 0)),
        (b"\r\nn\n>a", refused(11, 2)),
        (b"*A", refused(10, 0)),
        (b"A*", refused(11, 0)),
        (b" >a\n", refused(10, 0)),
        (b"\r", refused(10, 0)),
        (b"\r\r\n", refused(10, 0)),
        (b">a\nA\r", refused(10, 4)),
        (b">a\nA\rC\n", refused(10, 4)),
        (b">a\nA>C\n", refused(10, 4)),
        (b">a\nAC\r\r\n*", refused(10, 5)),
    ];
    for (file, numbers) in files {
        assert_eq!(check_file(&two_bit_settings(3), FASTA, file), numbers, "{}", shown_file(file));
    }
}

//! The listing that kmer_listing writes, beside the second counter's: given and drawn tables, tables that
//! files were added to, the number of classes in the first line (document 02, K6) for every size, every length of the
//! buffer, the largest tables, and the grounds with their order. Bytes after the listing, the table, and all of a
//! refused call's buffer must stay as they were.

use kmer_tests::book::{class_count, table_ground, MOST_CLASSES};
use kmer_tests::calls::{self, REFUSED};
use kmer_tests::draw::*;
use kmer_tests::draw_inputs::Inputs;
use kmer_tests::expected::{coder, Refusal};
use kmer_tests::files::{Kind, FASTA};
use kmer_tests::lent::{check_places, filled, Lent};
use kmer_tests::second_counter::{answer, first_line, listing_of};
use kmer_tests::sequences::two_bit_settings;
use kmer_tests::settings::*;
use kmer_tests::tables::{add, clear, cleared, drawn_table, listed, listed_into, sizes_up_to, Table};
use kmer_tests::vectors::{places, vectors};
use std::collections::BTreeSet;

/// Grounds 1, 2, 4, 6 and 7 of the table, then 7 of the text; else the listing.
fn expected(settings: &Settings, table: &[u32], room: usize) -> Result<Vec<u8>, Refusal> {
    let classes = table_ground(settings, false, table.len())?;
    let text = listing_of(settings, &table[..classes]);
    if room < text.len() {
        return Err(Refusal { number: 7, p: text.len() as u64 });
    }
    Ok(text)
}

/// The answer and every byte of the buffer are as expected.
fn check_right(settings: &Settings, table: &[u32], room: usize, right: &Result<Vec<u8>, Refusal>) {
    let (answer, left) = listed(settings, table, room);
    let due = right.as_ref().map_or_else(Refusal::packed, |text| text.len() as u64);
    let what = format!("{settings}: kmer_listing of {} places with room {room}", table.len());
    assert!(answer == due, "{what} is {answer:#x}, expected {due:#x}");
    let mut buffer = filled(room);
    if let Ok(text) = right {
        buffer[..text.len()].copy_from_slice(text);
    }
    check_places(&what, &left, &buffer);
}

/// With just the room that is needed, with more, and with one byte less. Gives the length of the listing.
fn check_rooms(settings: &Settings, table: &[u32]) -> usize {
    let text = expected(settings, table, usize::MAX).expect("a table that fits");
    let length = text.len();
    let short = Err(Refusal { number: 7, p: length as u64 });
    let right = Ok(text);
    check_right(settings, table, length, &right);
    check_right(settings, table, length + 29, &right);
    check_right(settings, table, length - 1, &short);
    check_right(settings, table, 0, &short);
    length
}

/// The listing of document 01's example, as it is printed there, with document 02, K6: "a last inner form,
/// `(classes 10)` in the document 01 case". The place after the last class is not listed.
#[test]
fn the_example_of_document_01() {
    // AT CG GC TA AG AC AA CC CA GA
    let table = [0, 1, 1, 0, 2, 2, 0, 0, 0, 0, 7];
    let text = b"(survey (letters ACGT) (k 2) (mirror complement) (classes 10))\n\
        (count CG 1)\n(count GC 1)\n(count AG 2)\n(count AC 2)\n(total 6)\n";
    for room in [text.len(), text.len() + 1, 4096] {
        check_right(&two_bit_settings(2), &table, room, &Ok(text.to_vec()));
    }
    for room in 0..text.len() {
        let right = Err(Refusal { number: 7, p: text.len() as u64 });
        check_right(&two_bit_settings(2), &table, room, &right);
    }
}

/// Counts of every number of digits, up to the highest, and their sum: written out.
#[test]
fn counts_of_all_lengths() {
    let table = [4_294_967_295, 10, 999_999_999, 1, 4_294_967_295, 1_000_000_000];
    let text = b"(survey (letters ABC) (k 2) (mirror reversal) (classes 6))\n(count AA 4294967295)\n\
        (count BB 10)\n(count CC 999999999)\n(count AB 1)\n(count AC 4294967295)\n\
        (count BC 1000000000)\n(total 10589934600)\n";
    let settings = Settings::new(b"ABC", 2, REVERSAL);
    check_right(&settings, &table, 300, &Ok(text.to_vec()));
    check_rooms(&settings, &table);
    for digits in 0..10 {
        let count = 10u32.pow(digits);
        check_rooms(&settings, &[count - 1, count, 0, 0, count / 10 * 9, count.saturating_mul(9)]);
    }
}

/// The stored answers of independent references, held against the call, in a buffer that holds what theirs held
/// before, and against the second counter's listing: the answer and every byte that is left.
#[test]
fn stored_listings() {
    let mut refused = 0;
    for vector in vectors("listing", [0, 28, 0, 0, 240]) {
        let table: Vec<u32> = places(vector.given);
        let stored = vector.stored_bytes();
        let due = stored.as_ref().map_or_else(Refusal::packed, |text| text.len() as u64);
        let (before, after) = vector.buffers();
        let (answer, left) = listed_into(&vector.settings, &table, &before);
        assert!(answer == due, "{}: kmer_listing is {answer:#x}, stored {due:#x}", vector.line);
        check_places(&vector.line, &left, &after);
        vector.check_second_bytes(expected(&vector.settings, &table, vector.room));
        refused += stored.is_err() as usize;
    }
    // 20 of those to K10 and 105 of those to K6; the others are written.
    assert_eq!(refused, 20 + 105);
}

/// The listing of a table in which no class has a count, written out; the number of classes is as given.
fn empty_listing(settings: &Settings, classes: u64) -> Vec<u8> {
    let (letters, k) = (settings.letters.escape_ascii(), settings.k);
    let mirror = if settings.mirror == COMPLEMENT { "complement" } else { "reversal" };
    let line = format!("(survey (letters {letters}) (k {k}) (mirror {mirror}) (classes {classes}))");
    format!("{line}\n(total 0)\n").into_bytes()
}

/// The number of classes with no formula: the length of a table that kmer_clear asks for; the lowest code that
/// kmer_word refuses 8; and where there are few words, the number of canonical ones, counted one by one.
fn check_number_of_classes(settings: &Settings, classes: u64) {
    let needed = clear(settings, &mut Table::new(&[]));
    assert_eq!(needed, Refusal { number: 7, p: classes }.packed(), "{settings}: kmer_clear");
    let k = settings.k;
    assert_eq!(calls::word(settings, classes - 1, k).0, k as u64, "{settings}: the last code");
    assert_eq!(calls::word(settings, classes, k).0, REFUSED + 8, "{settings}: the code after the last");
    if settings.letters.len().pow(k as u32) <= 20_000 {
        assert_eq!(coder(settings).words_in_order().len() as u64, classes, "{settings}: canonical words");
    }
}

/// Every size that a table may have. The number in the first line is the number of classes, which has 1 to 8 digits
/// here, also where none of them is counted.
#[test]
fn cleared_tables_of_every_size() {
    let mut digits = BTreeSet::new();
    for (s, mirror, k) in sizes_up_to(MOST_CLASSES) {
        let settings = Settings::new(&first_capitals(s), k, mirror);
        let classes = class_count(&settings) as usize;
        let text = empty_listing(&settings, classes as u64);
        let mut table = vec![0; classes + 2];
        table[classes..].fill(5);
        check_right(&settings, &table, text.len() + 3, &Ok(text));
        check_number_of_classes(&settings, classes as u64);
        digits.insert(classes.to_string().len());
    }
    assert_eq!(digits, (1..=8).collect());
}

/// Letters, k, mirror, the number of classes, and the length of an empty listing without its form and with it.
type Measured<'a> = (&'a [u8], usize, u64, u64, [usize; 2]);

/// The number of classes with 1 to 8 digits; all by hand.
const LENGTHS: [Measured; 8] = [
    (b"ACGT", 1, COMPLEMENT, 2, [60, 72]),
    (b"ACGT", 2, COMPLEMENT, 10, [60, 73]),
    (b"ACGT", 4, COMPLEMENT, 136, [60, 74]),
    (b"ACGT", 6, REVERSAL, 2080, [58, 73]),
    (b"AB", 15, COMPLEMENT, 16_384, [59, 75]),
    (b"ACGT", 10, COMPLEMENT, 524_800, [61, 78]),
    (b"ACGT", 11, COMPLEMENT, 2_097_152, [61, 79]),
    (b"AB", 25, COMPLEMENT, 16_777_216, [59, 78]),
];

/// 7: "a lent buffer too short; P is the length needed": a buffer with the length that was enough before document 02, K6,
/// is too short, and so is one that lacks a byte of the new length. With just the new length the listing is written.
#[test]
fn rooms_about_the_old_and_the_new_length() {
    for (letters, k, mirror, classes, [old, new]) in LENGTHS {
        let settings = Settings::new(letters, k, mirror);
        let table = vec![0; classes as usize];
        let text = Ok(empty_listing(&settings, classes));
        for room in [0, old - 1, old, old + 1, new - 1] {
            check_right(&settings, &table, room, &Err(Refusal { number: 7, p: new as u64 }));
        }
        check_right(&settings, &table, new, &text);
        check_right(&settings, &table, new + 1, &text);
    }
}

/// Tables with few and with many counts above 0, small and large ones, over every size.
#[test]
fn drawn_tables_of_every_size() {
    let mut random = Random::new(61);
    let mut bytes = 0;
    for (s, mirror, k) in sizes_up_to(20_000) {
        let settings = Settings::new(&drawn_capitals(&mut random, s), k, mirror);
        for sparse in [1, 2, 50] {
            bytes += check_rooms(&settings, &drawn_table(&mut random, &settings, sparse));
        }
    }
    assert!(bytes > 5_000_000, "{bytes} bytes listed");
}

/// One class at a time, so that each has its own word.
#[test]
fn every_class_alone() {
    for (s, mirror, k) in sizes_up_to(300) {
        let settings = Settings::new(&drawn_capitals(&mut Random::new(62), s), k, mirror);
        let mut table = vec![0; class_count(&settings) as usize];
        for place in 0..table.len() {
            table[place] = place as u32 + 1;
            check_rooms(&settings, &table);
            table[place] = 0;
        }
    }
}

/// Files through kmer_clear, kmer_add and kmer_listing give the listing that the second counter prints for
/// them.
#[test]
fn tables_that_files_were_added_to() {
    let mut inputs = Inputs::new(63, Kind::Fasta);
    let mut with_counts = 0;
    for _ in 0..1000 {
        let (settings, input) = inputs.good(500);
        let (_, mut table) = cleared(&settings, 1);
        let file = first_line(&input).1;
        assert_eq!(add(&settings, &mut table, FASTA, file, &mut Lent::filled(5)), 5, "{settings}");
        let printed = answer(&input);
        let file_line =
            printed[..printed.len() - 1].iter().rposition(|&byte| byte == b'\n').expect("two lines");
        check_right(&settings, table.slice(), printed.len(), &Ok(printed[..=file_line].to_vec()));
        with_counts += table.slice()[..table.len() - 1].iter().any(|&count| count > 0) as usize;
    }
    assert!(with_counts > 600, "{with_counts} tables with counts");
}

/// AB, k 25 has just as many classes as a table may have under complement, and some more under reversal.
#[test]
fn the_largest_tables() {
    for (letters, k) in [(&b"AB"[..], 25), (b"ACGT", 12)] {
        let settings = Settings::new(letters, k, COMPLEMENT);
        let mut table = vec![0; class_count(&settings) as usize];
        let last = table.len() - 1;
        for place in (0..last).step_by(1_000_003).chain([last]) {
            table[place] = u32::MAX - place as u32;
        }
        check_rooms(&settings, &table);
        let right = Err(Refusal { number: 7, p: table.len() as u64 });
        check_right(&settings, &table[..last], 9, &right);
    }
    let table = vec![1; 16_777_216];
    for settings in [Settings::new(b"AB", 25, REVERSAL), two_bit_settings(13), two_bit_settings(31)] {
        check_right(&settings, &table, 100, &Err(Refusal { number: 6, p: 0 }));
        check_right(&settings, &[], 0, &Err(Refusal { number: 6, p: 0 }));
    }
}

/// A listing of some megabytes, with a line for each class.
#[test]
fn a_long_listing() {
    let settings = two_bit_settings(9);
    let table: Vec<u32> =
        (0..class_count(&settings) as u32).map(|place| place.wrapping_mul(0x9e37_79b9) | 1).collect();
    assert!(check_rooms(&settings, &table) > 3_000_000);
}

/// Letters, k, mirror, places, room; the number and P of the refusal.
type Faulty<'a> = (&'a [u8], usize, u64, usize, usize, (u64, u64));

/// Where several grounds apply the lowest number wins, and the table comes before the text: written out, with
/// no reference. An empty listing of ACGT, k 2 has 63 bytes for the survey line and 10 for the total.
#[test]
fn grounds_go_in_number_order() {
    let cases: [Faulty; 16] = [
        (b"AcG", 0, 2, 0, 0, (1, 0)),
        (b"", 2, 1, 10, 90, (1, 0)),
        (b"ACG", 0, 2, 0, 0, (2, 0)),
        (b"ACGT", 2, u64::MAX, 10, 90, (2, 0)),
        (b"ACG", 0, 1, 0, 0, (4, 0)),
        (b"ACGT", 0, 1, 0, 0, (4, 0)),
        (b"ACGT", 32, 1, 0, 0, (4, 0)),
        (b"ACGT", usize::MAX, 1, 10, 90, (4, 0)),
        (b"ACG", 16, 1, 0, 0, (6, 0)),
        (b"ACGT", 31, 1, 0, 0, (6, 0)),
        (b"ACGT", 13, 1, 10, 90, (6, 0)),
        (b"ACG", 3, 1, 14, 0, (7, 15)),
        (b"ACGT", 2, 1, 9, 0, (7, 10)),
        (b"ACGT", 2, 1, 0, 90, (7, 10)),
        (b"ACGT", 2, 1, 10, 72, (7, 73)),
        (b"ACGT", 2, 1, 12, 0, (7, 73)),
    ];
    for (letters, k, mirror, places, room, (number, p)) in cases {
        let settings = Settings::new(letters, k, mirror);
        check_right(&settings, &vec![0; places], room, &Err(Refusal { number, p }));
    }
}

/// Every combination of good and bad arguments, beside the reference of the grounds.
#[test]
fn combinations_of_faults_answer_as_the_reference() {
    for settings in good_and_bad_settings() {
        for places in [0, 1, 2, 3, 6, 9, 10, 40, 1000] {
            let table: Vec<u32> = (0..places as u32).map(|place| place % 3 * 50).collect();
            for room in [0, 1, 60, 72, 73, 80, 100, 1000, 20_000] {
                check_right(&settings, &table, room, &expected(&settings, &table, room));
            }
        }
    }
}

//! Listings that are loaded (document 02, K7: "A listing is read into a table, under the settings of the
//! call, and its counts replace the old ones, 0 for a class not listed"): stored answers, listings written
//! out, what the listing call and the counter program wrote, drawn tables of every size, and the largest.
//! Every load is also written again, which gives the same bytes. The listings that are refused are in
//! load_refusals.rs, load_survey_lines.rs and load_damages.rs, lists of loads and other calls in
//! load_lists.rs.

use kmer_tests::book::{class_count, MOST_CLASSES};
use kmer_tests::draw::*;
use kmer_tests::draw_listings::drawn_listing;
use kmer_tests::expected::Refusal;
use kmer_tests::loads::*;
use kmer_tests::program_cases;
use kmer_tests::second_counter::{first_line, listing_of, survey, taken_apart};
use kmer_tests::second_loader::loading;
use kmer_tests::sequences::{two_bit_settings, MOST_BYTES};
use kmer_tests::settings::*;
use kmer_tests::table_vectors::stored_loads;
use kmer_tests::tables::{listed, sizes_up_to, Table};
use kmer_tests::vectors::{places, vectors};
use std::collections::BTreeMap;

/// Document 01's example, with the number of classes. Whatever the table held, its first ten places have the
/// counts then, and later ones what they had.
#[test]
fn the_example_of_document_01() {
    let text = b"(survey (letters ACGT) (k 2) (mirror complement) (classes 10))\n\
        (count CG 1)\n(count GC 1)\n(count AG 2)\n(count AC 2)\n(total 6)\n";
    // AT CG GC TA AG AC AA CC CA GA
    let counts = [0, 1, 1, 0, 2, 2, 0, 0, 0, 0];
    for before in [vec![0; 10], vec![9; 11], vec![u32::MAX; 13], (0..4096).collect()] {
        let mut table = Table::new(&before);
        assert_eq!(load(&two_bit_settings(2), &mut table, text), 10);
        assert_eq!(table.slice(), [&counts, &before[10..]].concat());
        assert_eq!(check_load(&two_bit_settings(2), &mut table, text), Ok(counts.to_vec()));
    }
}

/// Counts of every number of digits, up to the highest, and their sum: written out. And no count at all.
#[test]
fn counts_of_all_lengths() {
    let settings = Settings::new(b"ABC", 2, REVERSAL);
    let line = "(survey (letters ABC) (k 2) (mirror reversal) (classes 6))\n";
    let text = format!(
        "{line}(count AA 4294967295)\n(count BB 10)\n(count CC 999999999)\n(count AB 1)\n\
        (count AC 4294967295)\n(count BC 1000000000)\n(total 10589934600)\n"
    );
    let mut table = Table::filled(8);
    let counts = vec![4_294_967_295, 10, 999_999_999, 1, 4_294_967_295, 1_000_000_000];
    check_load_as(&settings, &mut table, text.as_bytes(), &Ok(counts));
    for digits in 0..10 {
        let count = 10u32.pow(digits);
        for count in [count, count.saturating_mul(9), (count - 1).max(1), count.saturating_mul(5)] {
            let text = format!("{line}(count CC {count})\n(total {count})\n");
            check_load_as(&settings, &mut table, text.as_bytes(), &Ok(vec![0, 0, count, 0, 0, 0]));
        }
    }
    check_load_as(&settings, &mut table, format!("{line}(total 0)\n").as_bytes(), &Ok(vec![0; 6]));
}

/// The stored answers of an independent reference against the call and the second loader: the answer and
/// every place of the table. How many there are of each, 0 for an answer and else the number of the ground.
#[test]
fn stored_answers_to_loads() {
    let mut outcomes = BTreeMap::new();
    for stored in stored_loads(240) {
        let classes = |counts: Vec<u32>| vec![counts.len() as u64];
        let second = loading(&stored.settings, stored.table.len(), &stored.file);
        let counts = second.clone().unwrap_or_default();
        stored.check_second(second.map(classes), &counts);
        let mut table = Table::new(&stored.table);
        let right = stored.outcome.as_ref().map_or_else(Refusal::packed, |answer| answer[0]);
        assert_eq!(load(&stored.settings, &mut table, &stored.file), right, "{}", stored.line);
        assert_eq!(table.slice(), stored.after, "{}", stored.line);
        let mut again = Table::new(&stored.table);
        // The comparison with the second loader is within.
        let _ = check_load(&stored.settings, &mut again, &stored.file);
        assert_eq!(again.slice(), stored.after, "{}: beside the second loader", stored.line);
        *outcomes.entry(stored.outcome.map_or_else(|refusal| refusal.number, |_| 0)).or_insert(0) += 1;
    }
    let right = [(0, 87), (1, 10), (2, 3), (4, 2), (6, 6), (7, 39), (20, 57), (21, 21), (22, 15)];
    assert_eq!(outcomes, BTreeMap::from(right));
}

/// "Writing and then loading gives the same counts", with the listings that independent references wrote:
/// those to K10 and to K6 that are not refused.
#[test]
fn stored_listings_are_loaded() {
    let mut loaded = 0;
    for vector in vectors("listing", [0, 28, 0, 0, 240]) {
        let Ok(text) = vector.stored_bytes() else { continue };
        let before: Vec<u32> = places(vector.given);
        let classes = class_count(&vector.settings) as usize;
        let mut table = Table::filled(before.len());
        let right = Ok(before[..classes].to_vec());
        assert_eq!(check_load(&vector.settings, &mut table, &text), right, "{}", vector.line);
        loaded += 1;
    }
    assert_eq!(loaded, 8 + 135);
}

/// What the counter program prints is a listing and one line more, with the file's numbers: without that line
/// it is loaded, with it the line is one too many.
#[test]
fn stored_outputs_of_the_program() {
    let mut loaded = 0;
    for case in program_cases::vectors([199, 153, 154, 162, 34, 30, 200, 200, 40, 40]) {
        let Some((line, classes)) = taken_apart(first_line(&case.output).0) else { continue };
        let settings = survey(&line).expect("a survey line");
        let without_end = &case.output[..case.output.len() - 1];
        let file_line = without_end.iter().rposition(|&byte| byte == b'\n').expect("two lines") + 1;
        let listing = &case.output[..file_line];
        for more in [0, 2] {
            let places = classes as usize + more;
            assert_eq!(check_fresh_load(&settings, places, listing), (0, 0), "{}", case.name);
            let refused = (20, file_line as u64);
            assert_eq!(check_fresh_load(&settings, places, &case.output), refused, "{}", case.name);
        }
        loaded += 1;
    }
    // All outputs that are no refusals, by file in the order of the list.
    assert_eq!(loaded, 82 + 83 + 68 + 150 + 16 + 19 + 13 + 160 + 8 + 18);
}

/// Tables with few and with many counts above 0, small and large ones, over every size, each loaded over the
/// one before.
#[test]
fn drawn_tables_of_every_size() {
    let mut random = Random::new(71);
    let mut bytes = 0;
    for (s, mirror, k) in sizes_up_to(20_000) {
        let settings = Settings::new(&drawn_capitals(&mut random, s), k, mirror);
        let mut table = Table::filled(class_count(&settings) as usize + random.below(3) as usize);
        for sparse in [1, 50, 3] {
            let (counts, text) = drawn_listing(&mut random, &settings, sparse);
            assert!(check_load(&settings, &mut table, &text) == Ok(counts), "{settings}: other counts");
            bytes += text.len();
        }
    }
    assert!(bytes > 5_000_000, "{bytes} bytes loaded");
}

/// No class, and then one class at a time, so that each has its own place.
#[test]
fn every_class_alone() {
    for (s, mirror, k) in sizes_up_to(300) {
        let settings = Settings::new(&drawn_capitals(&mut Random::new(72), s), k, mirror);
        let mut counts = vec![0; class_count(&settings) as usize];
        let mut table = Table::filled(counts.len() + 1);
        for place in 0..=counts.len() {
            let text = listing_of(&settings, &counts);
            assert_eq!(check_load(&settings, &mut table, &text), Ok(counts.clone()), "{settings}");
            counts.fill(0);
            counts.iter_mut().skip(place).take(1).for_each(|count| *count = place as u32 + 1);
        }
    }
}

/// AB, k 25 has just as many classes as a table may have under complement, and some more under reversal.
#[test]
fn the_largest_table() {
    let settings = Settings::new(b"AB", 25, COMPLEMENT);
    let mut counts = vec![0; MOST_CLASSES as usize];
    let last = counts.len() - 1;
    for place in (0..last).step_by(1_000_003).chain([last]) {
        counts[place] = u32::MAX - place as u32;
    }
    let text = listing_of(&settings, &counts);
    let short = Err(Refusal { number: 7, p: MOST_CLASSES as u64 });
    check_load_as(&settings, &mut Table::filled(last), &text, &short);
    let mut table = Table::filled(last + 2);
    assert!(check_load(&settings, &mut table, &text) == Ok(counts), "other counts");
    for above in
        [Settings::new(b"AB", 25, REVERSAL), two_bit_settings(13), Settings::new(b"AB", 62, COMPLEMENT)]
    {
        for text in [&text[..], b"", b"(total 0)\n"] {
            check_load_as(&above, &mut table, text, &Err(Refusal { number: 6, p: 0 }));
        }
    }
}

/// A listing of some megabytes, with a line for each class.
#[test]
fn a_long_listing() {
    let settings = two_bit_settings(9);
    let count = |place: u32| place.wrapping_mul(0x9e37_79b9) | 1;
    let counts: Vec<u32> = (0..class_count(&settings) as u32).map(count).collect();
    let text = listing_of(&settings, &counts);
    assert!(text.len() > 3_000_000, "{} bytes", text.len());
    let mut table = Table::filled(counts.len() + 1);
    assert!(check_load(&settings, &mut table, &text) == Ok(counts), "other counts");
}

/// "No other text is bounded by this" (document 01, ground 6): a listing of more bytes than a sequence file
/// may have is loaded, and faults at its end have their offsets.
#[test]
fn a_listing_longer_than_any_sequence_file() {
    let settings = Settings::new(b"AB", 20, COMPLEMENT);
    let counts: Vec<u32> = (0..class_count(&settings) as u32).map(|place| u32::MAX - place).collect();
    let Refusal { p: length, .. } = needed(&settings, &counts);
    let (answer, mut text) = listed(&settings, &counts, length as usize);
    assert!(answer == length && text.len() > MOST_BYTES + 4_000_000, "{length} bytes");
    let mut table = Table::filled(counts.len() + 1);
    check_load_as(&settings, &mut table, &text, &Ok(counts));
    let total = text[..text.len() - 1].iter().rposition(|&byte| byte == b'\n').expect("lines") + 1;
    let refused = |number: u64, p: usize| Err(Refusal { number, p: p as u64 });
    check_load_as(&settings, &mut table, &text[..total], &refused(20, total));
    check_load_as(&settings, &mut table, &text[..text.len() - 1], &refused(20, total));
    text[total + 7] ^= 1;
    check_load_as(&settings, &mut table, &text, &refused(22, total));
    text[total + 7] ^= 1;
    text.push(b'\n');
    check_load_as(&settings, &mut table, &text, &refused(20, text.len() - 1));
}

/// What kmer_listing answers to a buffer of no bytes.
fn needed(settings: &Settings, counts: &[u32]) -> Refusal {
    let (answer, _) = listed(settings, counts, 0);
    Refusal { number: answer & 0xff, p: (answer - (1 << 63)) >> 8 }
}

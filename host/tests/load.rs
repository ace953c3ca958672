//! `Settings::load` (document 02, K7) beside `Settings::listing` and the second loader of tests/: counts that
//! come back, texts that come back, adds and withdrawals that start from what was loaded, and every refusal
//! with its number and place.

mod run;

use kmer_tests::book::class_count;
use kmer_tests::draw::*;
use kmer_tests::draw_listings::{damaged_listing, drawn_listing};
use kmer_tests::lent::filled;
use kmer_tests::second_loader::loading;
use kmer_tests::settings::*;
use kmer_tests::tables::{drawn_table, sizes_up_to, some_settings};
use run::{drawn_of_either_kind, lent, lent_kind, whole_listing, LISTING};
use wontirje::Refusal;

/// "Writing and then loading gives the same counts": tables of every size with few and many counts, into
/// tables that hold other counts and have some places more, which keep what they held.
#[test]
fn writing_and_loading_gives_the_counts_back() {
    let mut random = Random::new(191);
    let (mut tables, mut bytes) = (0, 0);
    for (s, mirror, k) in sizes_up_to(40_000) {
        let settings = Settings::new(&drawn_capitals(&mut random, s), k, mirror);
        let places = class_count(&settings) as usize;
        for sparse in [1, 50, 5000] {
            let table = drawn_table(&mut random, &settings, sparse);
            let text = whole_listing(&lent(&settings), &table);
            let mut loaded: Vec<u32> = filled(places + 3);
            let right = [&table[..places], &loaded[places..]].concat();
            assert_eq!(lent(&settings).load(&mut loaded, &text), Ok(places), "{settings}");
            assert!(loaded == right, "{settings}: a count differs");
            tables += 1;
            bytes += text.len();
        }
    }
    assert!(tables > 400 && bytes > 10_000_000, "{tables} tables, {bytes} bytes");
}

/// Loads a text beside the second loader: the same answer; "loading and then writing gives the same bytes"; a
/// refused text changes no place. Gives the number of the refusal, 0 where there is none.
fn check(settings: &Settings, text: &[u8]) -> usize {
    let places = class_count(settings) as usize;
    let mut table: Vec<u32> = filled(places + 1);
    let before = table.clone();
    let answer = lent(settings).load(&mut table, text);
    let due = loading(settings, places + 1, text);
    let shown = || format!("{settings}: {}", shown_file(text));
    match due {
        Ok(counts) => {
            assert_eq!(answer, Ok(places), "{}", shown());
            assert!(table == [&counts[..], &before[places..]].concat(), "{}: a count differs", shown());
            assert!(whole_listing(&lent(settings), &table) == text, "{}: another text", shown());
            0
        }
        Err(refusal) => {
            let right = Refusal { number: refusal.number, place: refusal.p };
            assert_eq!(answer, Err(right), "{}", shown());
            assert!(table == before, "{}: a refused listing changed a place", shown());
            refusal.number as usize
        }
    }
}

/// Each byte of a listing lost, doubled, and with each byte that there is in its place.
#[test]
fn every_byte_of_a_listing() {
    let settings = Settings::new(b"ACGT", 2, COMPLEMENT);
    let whole = LISTING.as_bytes();
    assert_eq!(check(&settings, whole), 0);
    let mut found = [0; 23];
    for at in 0..whole.len() {
        let (before, after) = (&whole[..at], &whole[at + 1..]);
        found[check(&settings, &[before, after].concat())] += 1;
        found[check(&settings, &[before, &whole[at..=at], &whole[at..]].concat())] += 1;
        for byte in 0..=255 {
            found[check(&settings, &[before, &[byte], after].concat())] += 1;
        }
    }
    assert!([20, 21, 22].iter().all(|&number| found[number] > 50), "{found:?}");
    // Each byte in its own place; and the last class, AC, made AA or CC, whose codes rise too.
    assert_eq!(found[0], whole.len() + 2, "{found:?}");
}

#[test]
fn drawn_listings_with_damages() {
    let mut random = Random::new(192);
    let mut found = [0; 23];
    for settings in some_settings() {
        for _ in 0..300 {
            let sparse = 1 + random.below(class_count(&settings) as u64);
            let (_, text) = drawn_listing(&mut random, &settings, sparse);
            found[check(&settings, &damaged_listing(&mut random, &settings, &text))] += 1;
        }
    }
    assert!([0, 20, 21, 22].iter().all(|&number| found[number] > 50), "{found:?}");
}

/// The grounds before those of a line, and the first lines at fault, by hand.
#[test]
fn refusals_by_hand() {
    let text = LISTING.as_bytes();
    let dna = wontirje::Settings::dna(2);
    let refused = |settings: wontirje::Settings, places: usize, text: &[u8], number: u64, place: u64| {
        let mut table: Vec<u32> = filled(places);
        let answer = settings.load(&mut table, text);
        assert_eq!(answer, Err(Refusal { number, place }), "{settings:?}: {}", text.escape_ascii());
        assert!(table == filled::<u32>(places), "a refused listing changed a place");
    };
    refused(wontirje::Settings { letters: b"ACGA", ..dna }, 10, text, 1, 0);
    refused(wontirje::Settings::dna(32), 10, text, 4, 0);
    refused(wontirje::Settings::dna(13), 10, text, 6, 0);
    refused(dna, 9, b"", 7, 10);
    refused(dna, 0, text, 7, 10);
    refused(dna, 10, b"", 20, 0);
    refused(dna, 10, &text[..63], 20, 63);
    refused(dna, 10, &text[..124], 20, 115);
    refused(dna, 10, &[text, b"\n"].concat(), 20, 125);
    refused(wontirje::Settings::dna(3), 40, text, 21, 0);
    refused(wontirje::Settings { letters: b"ACGU", ..dna }, 10, text, 21, 0);
    refused(dna, 10, LISTING.replace("(total 6)", "(total 7)").as_bytes(), 22, 115);
    // Words that are not of this k have no shape here, but the survey line comes first.
    refused(dna, 10, LISTING.replace("AG", "AGA").as_bytes(), 20, 89);
    refused(wontirje::Settings::dna(3), 40, LISTING.replace("AG", "AGA").as_bytes(), 21, 0);
}

/// "After a load, every list of adds and withdrawals starts from the loaded counts": the same calls on the
/// table that was listed and on the one that was loaded are answered alike and leave the same.
#[test]
fn files_are_added_to_and_withdrawn_from_loaded_counts() {
    let mut random = Random::new(193);
    let (mut windows, mut lacking) = (0, 0);
    for (s, mirror, k) in sizes_up_to(5000) {
        let settings = Settings::new(&drawn_capitals(&mut random, s), k, mirror);
        let lent_settings = lent(&settings);
        let mut table = vec![0; class_count(&settings) as usize];
        let mut files = Vec::new();
        for _ in 0..4 {
            files.push(drawn_of_either_kind(&mut random, &settings, 300));
            let (kind, file) = &files[files.len() - 1];
            // Refused or not, the counts are some.
            let _ = lent_settings.add(&mut table, lent_kind(*kind), file);
            let mut loaded = vec![1; table.len()];
            let answer = lent_settings.load(&mut loaded, &whole_listing(&lent_settings, &table));
            assert_eq!(answer, Ok(table.len()), "{settings}");
            for _ in 0..4 {
                let (kind, file) = &files[random.below(files.len() as u64) as usize];
                let added = random.below(2) == 0;
                let [first, second] = [&mut table, &mut loaded].map(|table| match added {
                    true => lent_settings.add(table, lent_kind(*kind), file),
                    false => lent_settings.withdraw(table, lent_kind(*kind), file),
                });
                assert_eq!(first, second, "{settings}");
                assert!(table == loaded, "{settings}: a count differs");
                windows += first.map_or(0, |numbers| numbers.windows);
                lacking += (first == Err(Refusal { number: 18, place: 0 })) as usize;
            }
        }
    }
    assert!(windows > 10_000 && lacking > 10, "{windows} windows, {lacking} refused 18");
}

/// All classes of a table have a count of all lengths in turn; the largest table there is, nearly empty.
#[test]
fn large_tables() {
    let dna = wontirje::Settings::dna(11);
    let places = dna.table_places().expect("a table");
    let table: Vec<u32> = (0..places as u32).map(|place| u32::MAX >> (place % 32)).collect();
    let mut loaded = vec![1; places];
    assert_eq!(dna.load(&mut loaded, &whole_listing(&dna, &table)), Ok(places));
    assert!(loaded == table, "a count differs");
    let largest = wontirje::Settings { letters: b"AB", k: 25, mirror: wontirje::Mirror::Complement };
    let mut table = vec![0; 16_777_216];
    table[0] = 1;
    table[16_777_215] = u32::MAX;
    let mut loaded = vec![1; 16_777_216];
    assert_eq!(largest.load(&mut loaded, &whole_listing(&largest, &table)), Ok(16_777_216));
    assert!(loaded == table, "a count differs");
}

//! Damaged listings beside the second loader (document 02, K7): small listings with every damage of one byte
//! and with lines lost, doubled or moved, drawn listings with drawn damages, and bytes with no plan. Compared
//! are the answer and every place of the table, which is longer than the classes and filled with a pattern.
//! Each loop tells which outcomes it reached, and how often at least.

use kmer_tests::book::class_count;
use kmer_tests::draw::*;
use kmer_tests::draw_listings::*;
use kmer_tests::loads::*;
use kmer_tests::settings::*;
use kmer_tests::tables::sizes_up_to;
use std::collections::BTreeMap;

/// How often each ground was answered, by number; 0 where the text was loaded.
#[derive(Debug, Default)]
struct Outcomes(BTreeMap<u64, usize>);

impl Outcomes {
    /// Loads a text into a table of three places more than needed, beside the second loader.
    fn load(&mut self, settings: &Settings, text: &[u8]) {
        let places = class_count(settings) as usize + 3;
        *self.0.entry(check_fresh_load(settings, places, text).0).or_default() += 1;
    }

    /// Just these numbers were answered, each at least so often.
    fn check(&self, least: &[(u64, usize)]) {
        let numbers: Vec<u64> = least.iter().map(|(number, _)| *number).collect();
        assert_eq!(self.0.keys().copied().collect::<Vec<u64>>(), numbers, "{self:?}");
        assert!(least.iter().all(|(number, times)| self.0[number] >= *times), "{self:?}");
    }
}

/// Small listings with palindromes, words of both kinds and counts of several digits, each under its
/// settings.
fn small_listings() -> [(Settings, &'static [u8]); 3] {
    [
        (
            Settings::new(b"ACGT", 2, COMPLEMENT),
            b"(survey (letters ACGT) (k 2) (mirror complement) (classes 10))\n\
            (count CG 1)\n(count GC 10)\n(count AG 2)\n(count GA 4294967295)\n(total 4294967308)\n",
        ),
        (
            Settings::new(b"TUA", 1, REVERSAL),
            b"(survey (letters TUA) (k 1) (mirror reversal) (classes 3))\n\
            (count T 5)\n(count U 6)\n(total 11)\n",
        ),
        (
            Settings::new(b"ABC", 3, COMPLEMENT),
            b"(survey (letters ABC) (k 3) (mirror complement) (classes 15))\n\
            (count BBB 9)\n(count CAA 9)\n(count AAB 20)\n(total 38)\n",
        ),
    ]
}

/// Every byte lost, changed to every other, and every byte put in at every place; the text cut at every
/// place.
#[test]
fn one_byte_damaged() {
    let mut outcomes = Outcomes::default();
    for (settings, text) in small_listings() {
        assert_eq!(check_fresh_load(&settings, 16, text), (0, 0), "{settings}");
        for place in 0..=text.len() {
            let (before, after) = text.split_at(place);
            for byte in 0..=255 {
                outcomes.load(&settings, &[before, &[byte], after].concat());
                if !after.is_empty() && after[0] != byte {
                    outcomes.load(&settings, &[before, &[byte], &after[1..]].concat());
                }
            }
            outcomes.load(&settings, &[before, after.get(1..).unwrap_or_default()].concat());
            outcomes.load(&settings, before);
            outcomes.load(&settings, after);
        }
    }
    // Three times each text is whole.
    outcomes.check(&[(0, 9 + 5), (20, 100_000), (21, 5_000), (22, 500)]);
}

/// Every line lost, and put in once more before every line; every two lines lost or swapped; stretches of
/// lines lost or doubled.
#[test]
fn lines_moved() {
    let mut outcomes = Outcomes::default();
    for (settings, text) in small_listings() {
        let lines: Vec<&[u8]> = text.split_inclusive(|&byte| byte == b'\n').collect();
        for (one, other) in (0..lines.len()).flat_map(|one| (0..lines.len()).map(move |other| (one, other))) {
            let mut swapped = lines.clone();
            swapped.swap(one, other);
            outcomes.load(&settings, &swapped.concat());
            let mut more = lines.clone();
            more.insert(other, lines[one]);
            outcomes.load(&settings, &more.concat());
            let mut fewer = lines.clone();
            fewer.remove(one);
            outcomes.load(&settings, &fewer.concat());
            fewer.remove(other.min(fewer.len() - 1));
            outcomes.load(&settings, &fewer.concat());
            outcomes.load(&settings, &[&lines[..one], &lines[other..]].concat().concat());
        }
    }
    outcomes.check(&[(0, 10), (20, 100), (22, 50)]);
}

/// Drawn damages over every size: the same listing damaged in several ways.
#[test]
fn drawn_damages_of_every_size() {
    let mut random = Random::new(74);
    let mut outcomes = Outcomes::default();
    for (s, mirror, k) in sizes_up_to(2000) {
        let settings = Settings::new(&drawn_capitals(&mut random, s), k, mirror);
        for _ in 0..8 {
            // A few lines in most listings, so that many damages are not in a line of a class.
            let sparse = (class_count(&settings) as u64 / 6).max(2);
            let (_, text) = drawn_listing(&mut random, &settings, sparse);
            for _ in 0..25 {
                outcomes.load(&settings, &damaged_listing(&mut random, &settings, &text));
            }
        }
    }
    outcomes.check(&[(0, 1500), (20, 8000), (21, 1500), (22, 6000)]);
}

/// The same for DNA and RNA, whose words may have U where T is due, and for letters with both.
#[test]
fn drawn_damages_of_dna_and_rna() {
    let mut random = Random::new(75);
    let mut outcomes = Outcomes::default();
    for letters in [&b"ACGT"[..], b"ACGU", b"TUAC", b"UT"] {
        for (k, mirror) in (1..=5).flat_map(|k| [(k, REVERSAL), (k, COMPLEMENT)]) {
            let settings = Settings::new(letters, k, mirror);
            for _ in 0..20 {
                let (_, text) = drawn_listing(&mut random, &settings, 4);
                for _ in 0..20 {
                    outcomes.load(&settings, &damaged_listing(&mut random, &settings, &text));
                }
            }
        }
    }
    outcomes.check(&[(0, 500), (20, 4000), (21, 500), (22, 2500)]);
}

/// Some hundred lines of which a few at most are damaged: the first line at fault is found at its offset,
/// however far the lines before it go.
#[test]
fn damages_in_a_longer_listing() {
    let mut random = Random::new(76);
    let mut outcomes = Outcomes::default();
    for (letters, k, mirror) in
        [(&b"ACGT"[..], 6, COMPLEMENT), (b"AB", 11, REVERSAL), (b"ZEBRA", 4, COMPLEMENT)]
    {
        let settings = Settings::new(letters, k, mirror);
        let (_, text) = drawn_listing(&mut random, &settings, 2);
        assert!(text.len() > 3000, "{} bytes", text.len());
        for _ in 0..200 {
            outcomes.load(&settings, &damaged_listing(&mut random, &settings, &text));
        }
    }
    outcomes.check(&[(0, 20), (20, 100), (21, 20), (22, 150)]);
}

/// Bytes with no plan: any of them, and those that listings have.
#[test]
fn texts_that_are_no_listings() {
    let mut random = Random::new(77);
    let mut outcomes = Outcomes::default();
    let settings = Settings::new(b"ACGT", 2, COMPLEMENT);
    for _ in 0..5000 {
        let length = random.below(120);
        let drawn: Vec<u8> = match random.below(2) {
            0 => (0..length).map(|_| random.below(256) as u8).collect(),
            _ => (0..length).map(|_| b"(() \n01 countalsurveyACGT"[random.below(25) as usize]).collect(),
        };
        outcomes.load(&settings, &drawn);
    }
    outcomes.check(&[(20, 5000)]);
}

//! Codes along a sequence: both paths beside the second coder and beside each other, the list's later places,
//! and the grounds.

use kmer_tests::draw::*;
use kmer_tests::draw_files::drawn_sequence;
use kmer_tests::expected::settings_ground;
use kmer_tests::lent::filled;
use kmer_tests::sequences::*;
use kmer_tests::settings::*;

/// The library works in batches of this many bytes, so that lengths about its multiples are tried.
const BATCH: usize = 4096;

fn good_settings(random: &mut Random) -> Vec<Settings> {
    let sizes = good_sizes();
    sizes.into_iter().map(|(s, mirror, k)| Settings::new(&drawn_capitals(random, s), k, mirror)).collect()
}

#[test]
fn every_size_on_drawn_sequences() {
    let mut random = Random::new(21);
    for settings in good_settings(&mut random) {
        for gap in [0, 400, 3 * settings.k as u64] {
            let sequence = drawn_sequence(&mut random, &settings, 300 + settings.k, gap);
            check_along(&settings, &sequence, sequence.len());
        }
    }
}

#[test]
fn dna_on_drawn_sequences() {
    let mut random = Random::new(22);
    for k in 1..=31 {
        for gap in [0, 2, 20, 100, 2000] {
            let sequence = drawn_sequence(&mut random, &two_bit_settings(k), 3000, gap);
            check_along(&two_bit_settings(k), &sequence, sequence.len() + 5);
        }
    }
}

/// From k 4 on each entry of the table that gives the mirror of four letters is looked up for each four letters of a
/// window.
#[test]
fn every_four_letters_at_every_place_of_a_window() {
    let sequence = all_fours();
    for k in 1..=31 {
        check_along(&two_bit_settings(k), &sequence, sequence.len());
    }
}

/// All words, parted by a byte that is no letter.
#[test]
fn every_word_of_up_to_8_letters() {
    for k in 1..=8 {
        let word = |rank: usize| (0..k).rev().map(move |place| b"ACGT"[rank >> (2 * place) & 3]);
        let sequence: Vec<u8> = (0..1 << (2 * k)).flat_map(|rank| word(rank).chain([b'-'])).collect();
        check_along(&two_bit_settings(k), &sequence, sequence.len());
    }
}

#[test]
fn short_lengths_and_exact_room() {
    let mut random = Random::new(23);
    let mut all = good_settings(&mut random);
    all.extend((1..=31).map(two_bit_settings));
    for settings in all {
        let k = settings.k;
        for length in [0, 1, k - 1, k, k + 1, 2 * k] {
            let sequence =
                drawn_sequence(&mut random, &settings, length, if length % 2 == 0 { 0 } else { 8 });
            let needed = window_count(&settings, &sequence);
            for room in [needed, needed + 1, needed + 100] {
                check_along(&settings, &sequence, room);
            }
            if needed > 0 {
                check_along(&settings, &sequence, needed - 1);
                check_along(&settings, &sequence, 0);
            }
        }
    }
}

/// Some sizes whose k are small, middling and the largest.
fn some_settings(random: &mut Random) -> Vec<Settings> {
    let mut all: Vec<Settings> = [1, 2, 5, 12, 31].into_iter().map(two_bit_settings).collect();
    let even = [(2, 0, 62), (2, 1, 61), (6, 1, 11), (10, 0, 18), (16, 1, 15), (4, 0, 31)];
    let odd = [(3, 0, 39), (3, 1, 39), (5, 1, 9)];
    for (s, mirror, k) in even.into_iter().chain(odd) {
        all.push(Settings::new(&drawn_capitals(random, s), k, mirror));
    }
    all
}

#[test]
fn lengths_about_a_batch() {
    let mut random = Random::new(24);
    for settings in some_settings(&mut random) {
        let k = settings.k;
        for base in [BATCH, 2 * BATCH - k + 1] {
            for length in [base - 1, base, base + 1, base + k - 1, base + k] {
                let sequence = drawn_sequence(&mut random, &settings, length, 700);
                check_along(&settings, &sequence, length);
            }
        }
    }
}

#[test]
fn one_foreign_byte_about_the_end_of_a_batch() {
    let mut random = Random::new(25);
    for k in [1, 2, 12, 31] {
        let settings = two_bit_settings(k);
        let clean = drawn_sequence(&mut random, &settings, BATCH + 3 * k, 0);
        for place in BATCH - 2 * k..BATCH + 2 * k {
            let mut sequence = clean.clone();
            sequence[place] = b'N';
            check_along(&settings, &sequence, sequence.len());
        }
    }
}

#[test]
fn every_byte_alone() {
    let mut random = Random::new(26);
    for s in 2..=16 {
        let settings = Settings::new(&drawn_capitals(&mut random, s), 1, REVERSAL);
        let bytes: Vec<u8> = (0..=255).collect();
        check_along(&settings, &bytes, 256);
    }
    let bytes: Vec<u8> = (0..=255).collect();
    check_along(&two_bit_settings(1), &bytes, 256);
}

#[test]
fn sequences_with_no_letter() {
    for settings in some_settings(&mut Random::new(27)) {
        check_along(&settings, &vec![b'-'; 2 * BATCH], 2 * BATCH);
        check_along(&settings, &vec![0; settings.k], 3);
    }
}

#[test]
fn one_letter_over_and_over() {
    for settings in some_settings(&mut Random::new(28)) {
        for &letter in &settings.letters {
            check_along(&settings, &[letter; 200], 200);
        }
    }
}

#[test]
fn bad_settings_are_refused_before_6_and_7() {
    let long = vec![b'A'; MOST_BYTES + 1];
    for settings in good_and_bad_settings().iter().filter(|settings| settings_ground(settings).is_err()) {
        check_along(settings, b"ACGTACGT", 3);
        check_along(settings, b"", 0);
    }
    check_along(&Settings::new(b"ACG", 40, COMPLEMENT), &long, 0);
}

#[test]
fn two_bit_k_out_of_range_is_refused_4() {
    for k in [0, 32, 33, 64, 1 << 32, usize::MAX] {
        for sequence in [&b""[..], b"ACGTACGTN"] {
            for room in [0, 20] {
                check_along(&two_bit_settings(k), sequence, room);
            }
        }
    }
}

/// Compares both paths on a long sequence with each other everywhere, and with the second coder at some
/// windows.
fn check_long(k: usize, sequence: &[u8]) {
    let settings = two_bit_settings(k);
    let room = window_count(&settings, sequence) + 3;
    let general = codes(&settings, sequence, room);
    assert!(general == codes_two_bit(k, sequence, room), "{settings}: the two paths differ");
    let (answer, list) = general;
    assert_eq!(answer as usize, room - 3, "{settings}");
    assert_eq!(list[room - 3..], filled::<u64>(room)[room - 3..], "{settings}: a later place changed");
    let about_batches =
        (BATCH..room - 3).step_by(BATCH - k + 1).take(50).flat_map(|place| place - k - 1..place + 1);
    for place in (0..room - 3).step_by(40_009).chain(about_batches).chain(room - 13..room - 3) {
        assert_eq!(
            list[place],
            window_number(&settings, &sequence[place..place + k]),
            "{settings}: place {place}"
        );
    }
}

#[test]
fn the_longest_sequence_is_taken_and_one_byte_more_refused_6() {
    let mut random = Random::new(29);
    for (k, gap) in [(12, 60), (31, 0)] {
        let mut sequence = drawn_sequence(&mut random, &two_bit_settings(k), MOST_BYTES, gap);
        check_long(k, &sequence);
        sequence.push(b'A');
        check_along(&two_bit_settings(k), &sequence, sequence.len());
        check_along(&two_bit_settings(k), &sequence, 0);
    }
}

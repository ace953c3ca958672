//! The calls along a sequence as safe functions, and what document 01 says that they answer and leave in the
//! list.

use crate::c_calls::{kmer_codes, kmer_codes_two_bit};
use crate::expected::{coder, ranks, settings_ground, Refusal};
use crate::lent::{check_places, filled, Lent, Place};
use crate::settings::{shown, Settings, COMPLEMENT};
use std::fmt::Display;

/// The most bytes that a sequence may have.
pub const MOST_BYTES: usize = 16_777_216;

/// The number of a window that has a byte which is no letter.
pub const NO_CODE: u64 = u64::MAX;

/// The general path on a filled list of `room` places: its answer and the list after it.
pub fn codes(settings: &Settings, sequence: &[u8], room: usize) -> (u64, Vec<u64>) {
    let (mut letters, mut lent) = (Lent::new(&settings.letters), Lent::new(sequence));
    let mut list = Lent::<u64>::filled(room);
    // SAFETY: each pointer is NULL with length 0 or points to as many places as the length says; the list is
    // an allocation of its own.
    let answer = unsafe {
        let (k, mirror, from, to) = (settings.k, settings.mirror, lent.pointer(), list.pointer());
        kmer_codes(letters.pointer(), letters.len(), k, mirror, from, sequence.len(), to, room)
    };
    letters.check_unchanged(settings, "letters", &settings.letters);
    lent.check_unchanged(settings, "sequence", sequence);
    list.check_guards(settings, "list");
    (answer, list.slice().to_vec())
}

/// The settings that the two-bit path has.
pub fn two_bit_settings(k: usize) -> Settings {
    Settings::new(b"ACGT", k, COMPLEMENT)
}

/// All 256 words of four letters of DNA, one after the other, twice: a window that slides over them has each of
/// them at each place where four letters fit.
pub fn all_fours() -> Vec<u8> {
    let once: Vec<u8> =
        (0..256).flat_map(|byte| [6, 4, 2, 0].map(|bits| b"ACGT"[byte >> bits & 3])).collect();
    once.repeat(2)
}

/// The two-bit path on a filled list of `room` places: its answer and the list after it.
pub fn codes_two_bit(k: usize, sequence: &[u8], room: usize) -> (u64, Vec<u64>) {
    let settings = two_bit_settings(k);
    let mut lent = Lent::new(sequence);
    let mut list = Lent::<u64>::filled(room);
    // SAFETY: as in `codes`.
    let answer = unsafe { kmer_codes_two_bit(k, lent.pointer(), sequence.len(), list.pointer(), room) };
    lent.check_unchanged(&settings, "sequence", sequence);
    list.check_guards(&settings, "list");
    (answer, list.slice().to_vec())
}

/// The number of a window of bytes, by the second coder.
pub fn window_number(settings: &Settings, window: &[u8]) -> u64 {
    ranks(settings, window).map_or(NO_CODE, |ranks| coder(settings).code(&ranks) as u64)
}

/// How many windows a sequence has.
pub fn window_count(settings: &Settings, sequence: &[u8]) -> usize {
    (sequence.len() + 1).saturating_sub(settings.k)
}

/// Grounds 1, 2, 4, 6, 7, else nothing.
pub fn sequence_ground(settings: &Settings, sequence: &[u8], room: usize) -> Result<(), Refusal> {
    settings_ground(settings)?;
    if sequence.len() > MOST_BYTES {
        return Err(Refusal { number: 6, p: 0 });
    }
    let needed = window_count(settings, sequence);
    if room < needed {
        return Err(Refusal { number: 7, p: needed as u64 });
    }
    Ok(())
}

/// One number a window, or the refusal.
pub fn along(settings: &Settings, sequence: &[u8], room: usize) -> Result<Vec<u64>, Refusal> {
    sequence_ground(settings, sequence, room)?;
    Ok(sequence.windows(settings.k).map(|window| window_number(settings, window)).collect())
}

/// Compares what a call answered and left in a filled buffer with an expectation, every place of the buffer.
pub fn check_answer<T: Place + Display>(
    what: &str,
    (answer, left): (u64, Vec<T>),
    expected: &Result<Vec<T>, Refusal>,
) {
    let right = expected.as_ref().map_or_else(Refusal::packed, |written| written.len() as u64);
    assert!(answer == right, "{what} is {answer:#x}, expected {right:#x} ({:?})", expected.as_ref().err());
    let mut buffer = filled(left.len());
    if let Ok(written) = expected {
        buffer[..written.len()].copy_from_slice(written);
    }
    check_places(what, &left, &buffer);
}

/// Compares both paths, where there are two, with an expectation.
pub fn check_codes(settings: &Settings, sequence: &[u8], room: usize, expected: &Result<Vec<u64>, Refusal>) {
    let what = |path: &str| format!("{settings}: {path} along {} with room {room}", shown(sequence));
    check_answer(&what("kmer_codes"), codes(settings, sequence, room), expected);
    if settings.letters == b"ACGT" && settings.mirror == COMPLEMENT {
        check_answer(&what("kmer_codes_two_bit"), codes_two_bit(settings.k, sequence, room), expected);
    }
}

/// Both paths, where there are two, beside the second coder.
pub fn check_along(settings: &Settings, sequence: &[u8], room: usize) {
    check_codes(settings, sequence, room, &along(settings, sequence, room));
}

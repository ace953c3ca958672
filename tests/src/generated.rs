//! The call that makes a test load, as a safe function that lends copies between guards; its comparison with the
//! second generator, the answer and every byte of the buffer; and the largest numbers whose files keep a limit.

use crate::c_calls::kmer_generate;
use crate::expected::Refusal;
use crate::lent::{filled, Lent};
use crate::second_generator::{generating, length, Asked};
use crate::sequences::check_answer;
use crate::settings::Settings;

/// Makes a file in a filled buffer of `room` bytes: the answer of kmer_generate and the buffer after it.
pub fn generated(settings: &Settings, asked: Asked, room: usize) -> (u64, Vec<u8>) {
    generated_into(settings, asked, &filled(room))
}

/// Makes a file in a buffer that holds these bytes before the call, likewise.
pub fn generated_into(settings: &Settings, asked: Asked, before: &[u8]) -> (u64, Vec<u8>) {
    let mut letters = Lent::new(&settings.letters);
    let mut out = Lent::new(before);
    let (k, mirror, Asked { start, records, each }) = (settings.k, settings.mirror, asked);
    // SAFETY: each pointer is NULL with length 0 or points to as many bytes as the length says; the buffer is an
    // allocation of its own.
    let answer = unsafe {
        let (from, to, room) = (letters.pointer(), out.pointer(), before.len());
        kmer_generate(from, letters.len(), k, mirror, start, records, each, to, room)
    };
    letters.check_unchanged(settings, "letters", &settings.letters);
    out.check_guards(settings, "buffer");
    (answer, out.slice().to_vec())
}

/// Compares the answer and the whole buffer with an expectation: later bytes and all of a refused call's keep what
/// they held.
pub fn check_generate_as(
    settings: &Settings,
    asked: Asked,
    room: usize,
    expected: &Result<Vec<u8>, Refusal>,
) {
    let what = format!("{settings}: kmer_generate of {asked} with room {room}");
    check_answer(&what, generated(settings, asked, room), expected);
}

/// Makes a file beside the second generator. Gives the number of the ground, 0 where there is none, with P.
pub fn check_generate(settings: &Settings, asked: Asked, room: usize) -> (u64, u64) {
    let expected = generating(settings, asked, room);
    check_generate_as(settings, asked, room, &expected);
    expected.map_or_else(|Refusal { number, p }| (number, p), |_| (0, 0))
}

/// The largest number whose length keeps the limit, by halving; lengths must not fall where the number rises.
fn largest(limit: u128, length: impl Fn(usize) -> u128) -> usize {
    let (mut fits, mut above) = (0, usize::MAX);
    assert!(length(fits) <= limit && length(above) > limit, "no number is the largest");
    while above - fits > 1 {
        let middle = fits + (above - fits) / 2;
        if length(middle) <= limit {
            fits = middle;
        } else {
            above = middle;
        }
    }
    fits
}

/// The most letters that so many records may have, where the file is to be within the limit.
pub fn most_letters(start: u64, records: usize, limit: u128) -> Asked {
    Asked::new(start, records, largest(limit, |each| length(Asked::new(start, records, each))))
}

/// The most records of so many letters, likewise.
pub fn most_records(start: u64, each: usize, limit: u128) -> Asked {
    Asked::new(start, largest(limit, |records| length(Asked::new(start, records, each))), each)
}

//! The C calls of libkmer.a on single words, as safe functions. Each lends copies and fails where the call
//! changed a byte outside of the buffer that it is to fill.

use crate::c_calls::{kmer_classes, kmer_code, kmer_mirror, kmer_word};
use crate::lent::Lent;
use crate::settings::Settings;

/// The lowest answer that is a refusal.
pub const REFUSED: u64 = 1 << 63;

/// Codes a word: the answer of kmer_code.
pub fn code(settings: &Settings, word: &[u8]) -> u64 {
    let mut letters = Lent::new(&settings.letters);
    let mut lent = Lent::new(word);
    // SAFETY: each pointer is NULL with length 0 or points to as many bytes as the length says.
    let answer = unsafe {
        kmer_code(letters.pointer(), letters.len(), settings.k, settings.mirror, lent.pointer(), word.len())
    };
    letters.check_unchanged(settings, "letters", &settings.letters);
    lent.check_unchanged(settings, "word", word);
    answer
}

/// The number of classes: the answer of kmer_classes.
pub fn classes(settings: &Settings) -> u64 {
    let mut letters = Lent::new(&settings.letters);
    // SAFETY: the pointer is NULL with length 0 or points to as many bytes as the length says.
    let answer = unsafe { kmer_classes(letters.pointer(), letters.len(), settings.k, settings.mirror) };
    letters.check_unchanged(settings, "letters", &settings.letters);
    answer
}

/// Reads a code into a filled buffer of `room` bytes: the answer of kmer_word and the buffer after it.
pub fn word(settings: &Settings, code: u64, room: usize) -> (u64, Vec<u8>) {
    let mut letters = Lent::new(&settings.letters);
    let mut out = Lent::<u8>::filled(room);
    // SAFETY: each pointer is NULL with length 0 or points to as many bytes as the length says; out
    // is an allocation of its own.
    let answer = unsafe {
        kmer_word(letters.pointer(), letters.len(), settings.k, settings.mirror, code, out.pointer(), room)
    };
    letters.check_unchanged(settings, "letters", &settings.letters);
    out.check_guards(settings, "buffer");
    (answer, out.slice().to_vec())
}

/// Mirrors a word into a filled buffer of `room` bytes: the answer of kmer_mirror and the buffer.
pub fn mirror(settings: &Settings, word: &[u8], room: usize) -> (u64, Vec<u8>) {
    let mut letters = Lent::new(&settings.letters);
    let mut lent = Lent::new(word);
    let mut out = Lent::<u8>::filled(room);
    // SAFETY: as in `word`.
    let answer = unsafe {
        let (k, turn, from, to) = (settings.k, settings.mirror, lent.pointer(), out.pointer());
        kmer_mirror(letters.pointer(), letters.len(), k, turn, from, word.len(), to, room)
    };
    letters.check_unchanged(settings, "letters", &settings.letters);
    lent.check_unchanged(settings, "word", word);
    out.check_guards(settings, "buffer");
    (answer, out.slice().to_vec())
}

//! What documents 01 and 02 say that each call answers and leaves in the buffer: the second coder behind a
//! plain reference of the grounds for refusing; and the comparisons that the tests make with it.

use crate::calls::{self, REFUSED};
use crate::draw::spelled;
use crate::lent::filled;
use crate::second_coder::Coder;
use crate::settings::{rank, shown, Settings, COMPLEMENT, MOST_WORDS, REVERSAL};

/// A ground for refusing, by its number in document 01, with P.
#[derive(Clone, Copy, Debug, PartialEq)]
pub struct Refusal {
    pub number: u64,
    pub p: u64,
}

impl Refusal {
    /// As the C calls return it that carry P: 2^63 + P * 256 + the number.
    pub fn packed(&self) -> u64 {
        REFUSED + self.p * 256 + self.number
    }
}

fn refuse(number: u64) -> Result<(), Refusal> {
    Err(Refusal { number, p: 0 })
}

/// Grounds 1, 2 and 4, in number order. "Refusal 3 then never occurs" (document 02, K10).
pub fn settings_ground(settings: &Settings) -> Result<(), Refusal> {
    let s = settings.letters.len();
    let capitals = settings.letters.iter().all(u8::is_ascii_uppercase);
    if !(2..=16).contains(&s)
        || !capitals
        || (1..s).any(|i| settings.letters[..i].contains(&settings.letters[i]))
    {
        return refuse(1);
    }
    if settings.mirror != REVERSAL && settings.mirror != COMPLEMENT {
        return refuse(2);
    }
    // With two letters 63 is already too much, so that longer powers need not be worked out.
    if settings.k == 0 || settings.k > 62 || (s as u128).pow(settings.k as u32) > MOST_WORDS {
        return refuse(4);
    }
    Ok(())
}

/// The second coder for settings that no ground refuses.
pub fn coder(settings: &Settings) -> Coder {
    Coder::new(settings.letters.len(), settings.k, settings.mirror == COMPLEMENT)
}

fn length_ground(settings: &Settings, word: &[u8]) -> Result<(), Refusal> {
    if word.len() == settings.k {
        Ok(())
    } else {
        refuse(5)
    }
}

fn room_ground(settings: &Settings, room: usize) -> Result<(), Refusal> {
    if room >= settings.k {
        Ok(())
    } else {
        Err(Refusal { number: 7, p: settings.k as u64 })
    }
}

/// The ranks of a word, or ground 9 with the first place of a byte that is no letter.
pub fn ranks(settings: &Settings, word: &[u8]) -> Result<Vec<u8>, Refusal> {
    let found: Vec<Option<u8>> = word.iter().map(|&byte| rank(&settings.letters, byte)).collect();
    match found.iter().position(Option::is_none) {
        Some(place) => Err(Refusal { number: 9, p: place as u64 }),
        None => Ok(found.into_iter().flatten().collect()),
    }
}

/// Word coding: grounds 1, 2, 4, 5, 9, else the code.
pub fn coding(settings: &Settings, word: &[u8]) -> Result<u64, Refusal> {
    settings_ground(settings)?;
    length_ground(settings, word)?;
    let ranks = ranks(settings, word)?;
    Ok(coder(settings).code(&ranks) as u64)
}

/// Code reading: grounds 1, 2, 4, 7, 8, else the canonical word.
pub fn reading(settings: &Settings, code: u64, room: usize) -> Result<Vec<u8>, Refusal> {
    settings_ground(settings)?;
    room_ground(settings, room)?;
    match coder(settings).word(code as u128) {
        Some(word) => Ok(spelled(&settings.letters, &word)),
        None => Err(Refusal { number: 8, p: 0 }),
    }
}

/// Mirroring: grounds 1, 2, 4, 5, 7, 9, else the mirror.
pub fn mirroring(settings: &Settings, word: &[u8], room: usize) -> Result<Vec<u8>, Refusal> {
    settings_ground(settings)?;
    length_ground(settings, word)?;
    room_ground(settings, room)?;
    let ranks = ranks(settings, word)?;
    Ok(spelled(&settings.letters, &coder(settings).mirror(&ranks)))
}

/// The pick: "hands back the one with the lower plain rank; the first if they are equal". A refused one gives no
/// number: none, by grounds 1, 2, 4, and 5 and 9 of either word.
pub fn picking<'a>(settings: &Settings, first: &'a [u8], second: &'a [u8]) -> Option<&'a [u8]> {
    coding(settings, first).and(coding(settings, second)).ok()?;
    // Of words of one length the one of lower plain rank is lexicographically smaller.
    let lower = ranks(settings, second).ok()? < ranks(settings, first).ok()?;
    Some(if lower { second } else { first })
}

/// Compares kmer_code with an expectation. Its refusals carry no P.
pub fn check_code(settings: &Settings, word: &[u8], expected: Result<u64, Refusal>) {
    let answer = calls::code(settings, word);
    let right = expected.unwrap_or_else(|refusal| REFUSED + refusal.number);
    assert!(answer == right, "{settings}: kmer_code of {} is {answer}, expected {right}", shown(word));
}

/// Compares kmer_word with an expectation, answer and whole buffer. Its refusals carry no P.
pub fn check_word(settings: &Settings, code: u64, room: usize, expected: &Result<Vec<u8>, Refusal>) {
    let right = expected.as_ref().map_or_else(|refusal| REFUSED + refusal.number, |word| word.len() as u64);
    let what = format!("kmer_word of {code} with room {room}");
    check_filled(settings, &what, calls::word(settings, code, room), right, expected);
}

/// Compares kmer_mirror with an expectation, answer and whole buffer. Its refusals carry P.
pub fn check_mirror(settings: &Settings, word: &[u8], room: usize, expected: &Result<Vec<u8>, Refusal>) {
    let right = expected.as_ref().map_or_else(Refusal::packed, |mirror| mirror.len() as u64);
    let what = format!("kmer_mirror of {} with room {room}", shown(word));
    check_filled(settings, &what, calls::mirror(settings, word, room), right, expected);
}

/// The first bytes of the buffer are the expected ones, all others and all of a refused call's as
/// they were.
fn check_filled(
    settings: &Settings,
    what: &str,
    (answer, left): (u64, Vec<u8>),
    right: u64,
    expected: &Result<Vec<u8>, Refusal>,
) {
    assert!(answer == right, "{settings}: {what} is {answer}, expected {right}");
    let mut buffer = filled(left.len());
    if let Ok(bytes) = expected {
        buffer[..bytes.len()].copy_from_slice(bytes);
    }
    assert!(left == buffer, "{settings}: {what} left {}, expected {}", shown(&left), shown(&buffer));
}

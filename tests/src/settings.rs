//! The settings of a call as the caller gives them, good or bad; the list of all good sizes, and one of good
//! and bad settings.

use std::fmt;

/// Letters, k and mirror; any values, since the calls must refuse the bad ones themselves.
#[derive(Clone, Debug)]
pub struct Settings {
    pub letters: Vec<u8>,
    pub k: usize,
    pub mirror: u64,
}

pub const REVERSAL: u64 = 0;
pub const COMPLEMENT: u64 = 1;

/// Document 01, "Letters, k and mirror": s^k is at most this.
pub const MOST_WORDS: u128 = 1 << 62;

impl Settings {
    pub fn new(letters: &[u8], k: usize, mirror: u64) -> Settings {
        Settings { letters: letters.to_vec(), k, mirror }
    }
}

impl fmt::Display for Settings {
    fn fmt(&self, f: &mut fmt::Formatter) -> fmt::Result {
        write!(f, "letters {}, k {}, mirror {}", shown(&self.letters), self.k, self.mirror)
    }
}

/// A byte's rank: its place among the letters. "A small letter counts as its capital." And "Where the settings have
/// T and no U, U and u have T's rank" (document 02, K2).
pub fn rank(letters: &[u8], byte: u8) -> Option<u8> {
    let place = |capital: u8| letters.iter().position(|&letter| letter == capital).map(|place| place as u8);
    match byte.to_ascii_uppercase() {
        b'U' => place(b'U').or(place(b'T')),
        capital => place(capital),
    }
}

/// Bytes as a Rust byte string, so that a failure can be repeated; cut after 80 bytes.
pub fn shown(bytes: &[u8]) -> String {
    let head = &bytes[..bytes.len().min(80)];
    let rest = if head.len() < bytes.len() { format!(".. ({} bytes)", bytes.len()) } else { String::new() };
    format!("b\"{}\"{}", head.escape_ascii(), rest)
}

/// A whole file or input where it is short, so that a failure can be repeated.
pub fn shown_file(file: &[u8]) -> String {
    if file.len() <= 6000 {
        format!("b\"{}\"", file.escape_ascii())
    } else {
        shown(file)
    }
}

/// The largest k that ground 4 allows for s letters.
pub fn largest_k(s: usize) -> usize {
    let mut k = 0;
    while (s as u128).pow(k + 1) <= MOST_WORDS {
        k += 1;
    }
    k as usize
}

/// Every (s, mirror, k) that no ground refuses: both mirrors for odd s too (document 02, K10).
pub fn good_sizes() -> Vec<(usize, u64, usize)> {
    let mut sizes = Vec::new();
    for s in 2..=16 {
        for mirror in [REVERSAL, COMPLEMENT] {
            sizes.extend((1..=largest_k(s)).map(|k| (s, mirror, k)));
        }
    }
    sizes
}

/// Every combination of some good and bad letters, mirrors and k.
pub fn good_and_bad_settings() -> Vec<Settings> {
    let letters: [&[u8]; 9] =
        [b"ACGT", b"ACG", b"TB", b"ACgT", b"AC GT", b"AA", b"A", b"", b"ABCDEFGHIJKLMNOPQ"];
    let lengths = [0, 1, 2, 3, 12, 13, 24, 26, 31, 32, 39, 40, 62, 63, 64, 1 << 32, usize::MAX];
    let mut all = Vec::new();
    for letters in letters {
        for mirror in [REVERSAL, COMPLEMENT, 2, 256, 1 << 32, u64::MAX] {
            all.extend(lengths.map(|k| Settings::new(letters, k, mirror)));
        }
    }
    all
}

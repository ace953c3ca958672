//! Alphabets, words, codes and a large file drawn from a fixed seed, so that every run goes over the same
//! ones.

use std::fs::File;
use std::io::{self, BufWriter, Write};
use std::path::Path;

/// SplitMix64 (Steele, Lea and Flood 2014).
pub struct Random(u64);

impl Random {
    pub fn new(seed: u64) -> Random {
        Random(seed)
    }

    pub fn draw(&mut self) -> u64 {
        self.0 = self.0.wrapping_add(0x9e37_79b9_7f4a_7c15);
        let mut z = self.0;
        z = (z ^ (z >> 30)).wrapping_mul(0xbf58_476d_1ce4_e5b9);
        z = (z ^ (z >> 27)).wrapping_mul(0x94d0_49bb_1331_11eb);
        z ^ (z >> 31)
    }

    /// A number below the bound; the small bias of the remainder does no harm here.
    pub fn below(&mut self, bound: u64) -> u64 {
        self.draw() % bound
    }
}

/// The first s capitals.
pub fn first_capitals(s: usize) -> Vec<u8> {
    (b'A'..=b'Z').take(s).collect()
}

/// s different capitals in any order.
pub fn drawn_capitals(random: &mut Random, s: usize) -> Vec<u8> {
    let mut capitals = first_capitals(26);
    for i in 0..s {
        let j = i + random.below(26 - i as u64) as usize;
        capitals.swap(i, j);
    }
    capitals.truncate(s);
    capitals
}

/// k ranks below s.
pub fn drawn_word(random: &mut Random, s: usize, k: usize) -> Vec<u8> {
    (0..k).map(|_| random.below(s as u64) as u8).collect()
}

/// A word whose outermost pairs are equal, a drawn number of them: words drawn letter by letter almost
/// never reach the inner pairs, the middle letter or a palindrome.
pub fn drawn_near_palindrome(random: &mut Random, s: usize, k: usize, complement: bool) -> Vec<u8> {
    let mut word = drawn_word(random, s, k);
    let equal = random.below(k as u64 / 2 + 1) as usize;
    for i in 0..equal {
        word[k - 1 - i] = if complement { s as u8 - 1 - word[i] } else { word[i] };
    }
    word
}

/// A number below the bound (above 0), small ones as likely as large ones.
pub fn drawn_code(random: &mut Random, bound: u64) -> u64 {
    let shift = random.below(64 - bound.leading_zeros() as u64);
    random.below((bound >> shift).max(1))
}

/// Ranks as letters, capitals only.
pub fn spelled(letters: &[u8], word: &[u8]) -> Vec<u8> {
    word.iter().map(|&rank| letters[rank as usize]).collect()
}

/// Ranks as letters, about half of them small: a small letter counts as its capital. Where the letters have T and
/// no U, about half of the T are U, which has T's rank there.
pub fn spelled_mixed(random: &mut Random, letters: &[u8], word: &[u8]) -> Vec<u8> {
    let u_for_t = letters.contains(&b'T') && !letters.contains(&b'U');
    let mut spelling = spelled(letters, word);
    for byte in spelling.iter_mut() {
        if u_for_t && *byte == b'T' && random.below(2) == 1 {
            *byte = b'U';
        }
        if random.below(2) == 1 {
            byte.make_ascii_lowercase();
        }
    }
    spelling
}

/// A file of so many bytes: one record of ACGT, with a line end at every 80th byte. It is written piece by piece, so that
/// this process stays small where the memory of others is measured.
pub fn write_drawn(path: &Path, seed: u64, length: usize) -> io::Result<()> {
    let mut file = BufWriter::new(File::create(path)?);
    let mut random = Random::new(seed);
    file.write_all(b">drawn\n")?;
    for place in 8..=length {
        let byte = if place % 80 == 0 { b'\n' } else { b"ACGT"[random.below(4) as usize] };
        file.write_all(&[byte])?;
    }
    file.flush()
}

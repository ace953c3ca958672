//! The codes of all windows along a plain sequence: kmer_codes and kmer_codes_two_bit.

use crate::c_calls::{kmer_codes, kmer_codes_two_bit};
use crate::refusal::{judged, Refusal};
use crate::settings::Settings;

/// What stands in a list of codes for a window with a byte that is no letter of the settings: 2^64 − 1, no
/// code.
///
/// ```
/// assert!(wontirje::NO_CODE > 1 << 62);
/// ```
pub const NO_CODE: u64 = u64::MAX;

/// The most bytes of a sequence or a file; ground 6 refuses more.
///
/// ```
/// assert_eq!(wontirje::MOST_BYTES, 16 << 20);
/// ```
pub const MOST_BYTES: usize = 16_777_216;

impl Settings<'_> {
    /// Writes to place j of `codes` the code of the k bytes from place j of the sequence, or [`NO_CODE`], and
    /// answers how many places were filled; later places keep what they held. Refused on the grounds 1, 4,
    /// 6 and 7 (the place is the length needed).
    ///
    /// ```
    /// use wontirje::{Settings, NO_CODE};
    /// let mut codes = [0; 4];
    /// assert_eq!(Settings::dna(2).codes(b"ATNCG", &mut codes), Ok(4));
    /// assert_eq!(codes, [0, NO_CODE, NO_CODE, 1]);
    /// ```
    pub fn codes(&self, sequence: &[u8], codes: &mut [u64]) -> Result<usize, Refusal> {
        let (letters, k, mirror) = (self.letters, self.k, self.mirror as u64);
        // SAFETY: each pointer comes with the length of its slice; `codes` is borrowed for writing, so that
        // it overlaps no other.
        let answer = unsafe {
            let (from, to) = (sequence.as_ptr(), codes.as_mut_ptr());
            kmer_codes(letters.as_ptr(), letters.len(), k, mirror, from, sequence.len(), to, codes.len())
        };
        judged(answer).map(|filled| filled as usize)
    }
}

/// The same as [`Settings::codes`] with [`Settings::dna`], by two-bit numbers: it is faster. Refused on the
/// grounds 4, 6 and 7.
///
/// ```
/// let mut codes = [0; 4];
/// assert_eq!(wontirje::codes_two_bit(2, b"ATNCG", &mut codes), Ok(4));
/// assert_eq!(codes[3], 1);
/// ```
pub fn codes_two_bit(k: usize, sequence: &[u8], codes: &mut [u64]) -> Result<usize, Refusal> {
    // SAFETY: as in `Settings::codes`.
    let answer =
        unsafe { kmer_codes_two_bit(k, sequence.as_ptr(), sequence.len(), codes.as_mut_ptr(), codes.len()) };
    judged(answer).map(|filled| filled as usize)
}

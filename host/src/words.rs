//! Single words: kmer_code, kmer_word and kmer_mirror; and the number of classes, kmer_classes.

use crate::c_calls::{kmer_classes, kmer_code, kmer_mirror, kmer_word};
use crate::refusal::{judged, Refusal};
use crate::settings::Settings;

/// The code of a class, which is also its place in a table. It is no plain rank: a plain rank counts all
/// words, a code counts classes.
///
/// ```
/// use wontirje::{Code, Settings};
/// assert_eq!(Settings::dna(8).code(b"TAGCCGTA")?, Code(1571));
/// # Ok::<(), wontirje::Refusal>(())
/// ```
#[derive(Clone, Copy, Debug, PartialEq, Eq, PartialOrd, Ord, Hash)]
pub struct Code(pub u64);

impl Settings<'_> {
    /// The code of a word's class. A small letter counts as its capital, and U as T where the letters have T
    /// and no U. Refused on the grounds 1, 4, 5 and 9.
    ///
    /// ```
    /// use wontirje::{Code, Settings};
    /// let settings = Settings::dna(5);
    /// assert_eq!(settings.code(b"AACTT"), Ok(Code(0)));
    /// assert_eq!(settings.code(b"aaGTT"), Ok(Code(0)));
    /// assert_eq!(settings.code(b"AACUU"), Ok(Code(0)));
    /// assert_eq!(settings.code(b"AANTT").unwrap_err().number, 9);
    /// ```
    ///
    /// Of an odd number of letters the middle one pairs with itself:
    ///
    /// ```
    /// use wontirje::{Code, Mirror, Settings};
    /// let settings = Settings { letters: b"ABC", k: 1, mirror: Mirror::Complement };
    /// assert_eq!((settings.code(b"B"), settings.code(b"A")), (Ok(Code(0)), Ok(Code(1))));
    /// ```
    pub fn code(&self, word: &[u8]) -> Result<Code, Refusal> {
        let (letters, k, mirror) = (self.letters, self.k, self.mirror as u64);
        // SAFETY: each pointer comes with the length of its slice; nothing is written.
        let answer =
            unsafe { kmer_code(letters.as_ptr(), letters.len(), k, mirror, word.as_ptr(), word.len()) };
        judged(answer).map(Code)
    }

    /// Writes the canonical word of a code, in capitals, to the first k bytes of `out` and answers k; later
    /// bytes keep what they held. Refused on the grounds 1, 4, 7 and 8.
    ///
    /// ```
    /// use wontirje::{Code, Settings};
    /// let mut out = *b"........";
    /// assert_eq!(Settings::dna(5).word(Code(0), &mut out), Ok(5));
    /// assert_eq!(&out, b"AACTT...");
    /// ```
    pub fn word(&self, code: Code, out: &mut [u8]) -> Result<usize, Refusal> {
        let (letters, k, mirror) = (self.letters, self.k, self.mirror as u64);
        // SAFETY: each pointer comes with the length of its slice; `out` is borrowed for writing, so that it
        // overlaps no other.
        let answer = unsafe {
            kmer_word(letters.as_ptr(), letters.len(), k, mirror, code.0, out.as_mut_ptr(), out.len())
        };
        judged(answer).map(|k| k as usize)
    }

    /// Writes the mirror of a word, in capitals, to the first k bytes of `out` and answers k; later bytes
    /// keep what they held. Refused on the grounds 1, 4, 5, 7 (the place is k) and 9 (the place of the
    /// byte).
    ///
    /// ```
    /// use wontirje::{Refusal, Settings};
    /// let mut out = [0; 4];
    /// assert_eq!(Settings::dna(4).mirror_of(b"AACG", &mut out), Ok(4));
    /// assert_eq!(&out, b"CGTT");
    /// assert_eq!(Settings::dna(4).mirror_of(b"AANG", &mut out), Err(Refusal { number: 9, place: 2 }));
    /// ```
    pub fn mirror_of(&self, word: &[u8], out: &mut [u8]) -> Result<usize, Refusal> {
        let (letters, k, mirror) = (self.letters, self.k, self.mirror as u64);
        // SAFETY: as in `word`.
        let answer = unsafe {
            let (from, to) = (word.as_ptr(), out.as_mut_ptr());
            kmer_mirror(letters.as_ptr(), letters.len(), k, mirror, from, word.len(), to, out.len())
        };
        judged(answer).map(|k| k as usize)
    }

    /// The number of classes. Refused on the grounds 1 and 4.
    ///
    /// ```
    /// assert_eq!(wontirje::Settings::dna(31).classes(), Ok(2_305_843_009_213_693_952));
    /// ```
    pub fn classes(&self) -> Result<u64, Refusal> {
        let (letters, k, mirror) = (self.letters, self.k, self.mirror as u64);
        // SAFETY: the pointer comes with the length of its slice.
        judged(unsafe { kmer_classes(letters.as_ptr(), letters.len(), k, mirror) })
    }
}

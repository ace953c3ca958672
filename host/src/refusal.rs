//! Why the library refused a call: the number of the ground in documents 01 and 02 and the place that goes with
//! it.

use std::error::Error;
use std::fmt;

/// The lowest answer that is a refusal.
const REFUSED: u64 = 1 << 63;

/// Why a call was refused. Every slice lent to it is as it was before.
///
/// ```
/// use wontirje::{Kind, Refusal, Settings};
/// let mut table = vec![0; 10];
/// let refusal = Settings::dna(2).add(&mut table, Kind::Fasta, b">a\nAC*GT\n").unwrap_err();
/// assert_eq!(refusal, Refusal { number: 10, place: 5 });
/// assert_eq!(refusal.to_string(), "refused 10: a byte of a sequence line is no letter");
/// ```
#[derive(Clone, Copy, Debug, PartialEq, Eq)]
pub struct Refusal {
    /// The ground, from 1 to 12, 15 to 18 or 20 to 22. It is never 3, which is reserved.
    pub number: u64,
    /// The length needed for 7; the place or offset, from 0, of the byte for 9, 10, 11 and 17, of the line
    /// for 15, 16 and 20 to 22 (the length of the file or the listing for a missing line); else 0.
    /// [`crate::Settings::code`], [`crate::Settings::word`] and [`crate::Settings::classes`] always give 0.
    pub place: u64,
}

impl Refusal {
    /// What is wrong.
    ///
    /// ```
    /// let refusal = wontirje::Settings::dna(32).classes().unwrap_err();
    /// assert_eq!(refusal.what(), "k is 0, or there are more than 2^62 words of k letters");
    /// ```
    pub fn what(&self) -> &'static str {
        match self.number {
            1 => "the letters are not 2 to 16 different capitals",
            2 => "the mirror is neither reversal nor complement",
            4 => "k is 0, or there are more than 2^62 words of k letters",
            5 => "the word has not k letters",
            6 => "more than 16,777,216 bytes, or more than 16,777,216 classes for a table",
            7 => "a lent buffer is too short",
            8 => "the code is not below the number of classes",
            9 => "a byte of the word is no letter of the settings",
            10 => "a byte of a sequence line is no letter",
            11 => "a letter stands before the first header",
            12 => "a count could exceed 4,294,967,295",
            15 => "a record lacks its @ or its +, or the file ends before its fourth line",
            16 => "a quality line is longer or shorter than its sequence line",
            17 => "a quality byte is not from 33 to 126",
            18 => "some class has a smaller count than the file has windows of it",
            20 => {
                "a line has none of a listing's shapes, stands where another kind or none belongs, \
                 or is missing"
            }
            21 => "the survey line differs from the settings or their number of classes",
            22 => {
                "a word is not canonical, its code does not rise, a count is not 1 to 4,294,967,295, \
                 or the total is not the sum"
            }
            _ => "a ground that the library's header does not name",
        }
    }
}

impl fmt::Display for Refusal {
    fn fmt(&self, f: &mut fmt::Formatter) -> fmt::Result {
        write!(f, "refused {}: {}", self.number, self.what())
    }
}

impl Error for Refusal {}

/// An answer of the library as a result. kmer_code and kmer_word put no place into their refusals, the others
/// 256 times the place.
pub(crate) fn judged(answer: u64) -> Result<u64, Refusal> {
    match answer.checked_sub(REFUSED) {
        None => Ok(answer),
        Some(rest) => Err(Refusal { number: rest & 0xff, place: rest >> 8 }),
    }
}

//! The settings of a survey: letters, k and mirror. Nothing is checked here: each call of the library refuses
//! settings that are none, with the number of the ground.

/// What the mirror of a word is.
///
/// ```
/// use wontirje::Mirror;
/// assert_eq!(Mirror::from_name("complement"), Some(Mirror::Complement));
/// assert_eq!(Mirror::Reversal.name(), "reversal");
/// ```
#[derive(Clone, Copy, Debug, PartialEq, Eq)]
pub enum Mirror {
    /// The word read backwards.
    Reversal = 0,
    /// The word read backwards with s − 1 − i for each rank i: the reverse complement. Where the number s of
    /// letters is odd, the middle letter pairs with itself.
    Complement = 1,
}

impl Mirror {
    /// The mirror with this name in a survey line.
    pub fn from_name(name: &str) -> Option<Mirror> {
        [Mirror::Reversal, Mirror::Complement].into_iter().find(|mirror| mirror.name() == name)
    }

    /// Its name in a survey line.
    pub fn name(self) -> &'static str {
        match self {
            Mirror::Reversal => "reversal",
            Mirror::Complement => "complement",
        }
    }
}

/// Letters, k and mirror: the same for every call of a survey.
///
/// ```
/// use wontirje::{Mirror, Settings};
/// let groups = Settings { letters: b"ACEFGHKLPS", k: 4, mirror: Mirror::Reversal };
/// assert_eq!(groups.classes()?, 5050);
/// # Ok::<(), wontirje::Refusal>(())
/// ```
#[derive(Clone, Copy, Debug, PartialEq, Eq)]
pub struct Settings<'a> {
    /// 2 to 16 different capitals A to Z, in the order of their ranks. Where they have T and no U, U in words,
    /// sequences and files is read as T.
    pub letters: &'a [u8],
    /// The letters in a word: at least 1, and s^k at most 2^62.
    pub k: usize,
    /// What the mirror of a word is.
    pub mirror: Mirror,
}

impl Settings<'static> {
    /// DNA: the letters ACGT under reverse complement.
    ///
    /// ```
    /// assert_eq!(wontirje::Settings::dna(11).letters, b"ACGT");
    /// ```
    pub fn dna(k: usize) -> Settings<'static> {
        Settings { letters: b"ACGT", k, mirror: Mirror::Complement }
    }
}

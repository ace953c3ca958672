//! The kinds of sequence file. The library is told which one a file is; it does not guess.

/// What a sequence file is.
///
/// ```
/// use wontirje::Kind;
/// assert_eq!(Kind::from_name("fastq"), Some(Kind::Fastq));
/// assert_eq!(Kind::Fasta.name(), "fasta");
/// ```
#[derive(Clone, Copy, Debug, PartialEq, Eq)]
pub enum Kind {
    /// A line that begins with > opens a record; all other lines hold its letters.
    Fasta = 0,
    /// Four lines a record: one that begins with @, the letters, one that begins with +, as many quality bytes.
    /// Only the letters count.
    Fastq = 1,
}

impl Kind {
    /// The kind that a file's first byte tells: FASTQ begins with @, and no good FASTA does. The command and the
    /// counter program tell the kind of a file by this.
    ///
    /// ```
    /// use wontirje::Kind;
    /// assert_eq!(Kind::of(b"@a\nAC\n+\nII\n"), Kind::Fastq);
    /// assert_eq!(Kind::of(b">a\nAC\n"), Kind::Fasta);
    /// assert_eq!(Kind::of(b""), Kind::Fasta);
    /// ```
    pub fn of(file: &[u8]) -> Kind {
        match file.first() {
            Some(b'@') => Kind::Fastq,
            _ => Kind::Fasta,
        }
    }

    /// The kind with this name.
    pub fn from_name(name: &str) -> Option<Kind> {
        [Kind::Fasta, Kind::Fastq].into_iter().find(|kind| kind.name() == name)
    }

    /// Its name, in small letters.
    pub fn name(self) -> &'static str {
        match self {
            Kind::Fasta => "fasta",
            Kind::Fastq => "fastq",
        }
    }
}

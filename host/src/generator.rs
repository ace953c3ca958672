//! Test loads: kmer_generate.

use crate::c_calls::kmer_generate;
use crate::refusal::{judged, Refusal};
use crate::settings::Settings;

impl Settings<'_> {
    /// Writes a test load to the start of `out`, a FASTA file by these settings that is the same wherever it is
    /// made, and answers its length; later bytes keep what they held. It has so many records with so many
    /// letters each, in lines of 60, drawn from the 64-bit `start`. Refused on the grounds 1, 4, 6 (the file
    /// would have more than 16,777,216 bytes) and 7 (the place is the length needed).
    ///
    /// ```
    /// use wontirje::{Kind, Settings};
    /// let settings = Settings::dna(2);
    /// let mut file = vec![0; settings.generated_length(2, 5)?];
    /// settings.generate(1, 2, 5, &mut file)?;
    /// assert_eq!(file, b">1\nCGGCT\n>2\nGGATA\n");
    /// let mut table = vec![0; settings.table_places()?];
    /// let numbers = settings.add(&mut table, Kind::Fasta, &file)?;
    /// assert_eq!((numbers.records, numbers.letters, numbers.foreign), (2, 10, 0));
    /// # Ok::<(), wontirje::Refusal>(())
    /// ```
    pub fn generate(
        &self,
        start: u64,
        records: usize,
        each: usize,
        out: &mut [u8],
    ) -> Result<usize, Refusal> {
        let (letters, k, mirror) = (self.letters, self.k, self.mirror as u64);
        // SAFETY: each pointer comes with the length of its slice; `out` is borrowed for writing, so that it
        // overlaps no other.
        let answer = unsafe {
            let to = out.as_mut_ptr();
            kmer_generate(letters.as_ptr(), letters.len(), k, mirror, start, records, each, to, out.len())
        };
        judged(answer).map(|length| length as usize)
    }

    /// The length of a test load with so many records and letters each, as writing one to no place tells it.
    /// Refused on the grounds 1, 4 and 6.
    ///
    /// ```
    /// use wontirje::Settings;
    /// assert_eq!(Settings::dna(2).generated_length(1, 61), Ok(66));
    /// assert_eq!(Settings::dna(2).generated_length(usize::MAX, usize::MAX).unwrap_err().number, 6);
    /// ```
    pub fn generated_length(&self, records: usize, each: usize) -> Result<usize, Refusal> {
        match self.generate(0, records, each, &mut []) {
            Err(Refusal { number: 7, place }) => Ok(place as usize),
            answer => answer,
        }
    }
}

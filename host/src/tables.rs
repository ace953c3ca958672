//! Tables of counts: kmer_clear, kmer_add, kmer_withdraw, kmer_listing and kmer_load, and the number of
//! places that kmer_clear tells.

use crate::c_calls::{kmer_add, kmer_clear, kmer_listing, kmer_load, kmer_withdraw};
use crate::kind::Kind;
use crate::refusal::{judged, Refusal};
use crate::settings::Settings;

/// The five numbers of a file. Its letters are windows + foreign + edge.
///
/// ```
/// use wontirje::{Kind, Settings};
/// let mut table = vec![0; 10];
/// let numbers = Settings::dna(2).add(&mut table, Kind::Fasta, b">a\nACGTN\n")?;
/// assert_eq!(numbers.letters, numbers.windows + numbers.foreign + numbers.edge);
/// # Ok::<(), wontirje::Refusal>(())
/// ```
#[derive(Clone, Copy, Debug, Default, PartialEq, Eq)]
pub struct Numbers {
    /// Records: in FASTA header lines, in FASTQ four lines each.
    pub records: u64,
    /// Letters, foreign ones too.
    pub letters: u64,
    /// Letters that are not in the settings; U is none of them where it is read as T.
    pub foreign: u64,
    /// Letters at the end of a run that begin no window.
    pub edge: u64,
    /// Windows of k letters: what the counts grew by, or fell by where the file was withdrawn.
    pub windows: u64,
}

/// kmer_add and kmer_withdraw, whose parameters are the same.
type FileCall = unsafe extern "C" fn(
    *const u8,
    usize,
    usize,
    u64,
    *mut u32,
    usize,
    u64,
    *const u8,
    usize,
    *mut u64,
    usize,
) -> u64;

impl Settings<'_> {
    /// How many places a table needs: the number of classes, as clearing an empty table tells it. Refused on
    /// the grounds 1, 4 and 6 (more than 16,777,216 classes).
    ///
    /// ```
    /// use wontirje::Settings;
    /// assert_eq!(Settings::dna(12).table_places(), Ok(8_390_656));
    /// assert_eq!(Settings::dna(13).table_places().unwrap_err().number, 6);
    /// ```
    pub fn table_places(&self) -> Result<usize, Refusal> {
        match self.clear(&mut []) {
            Err(Refusal { number: 7, place }) => Ok(place as usize),
            answer => answer,
        }
    }

    /// Sets the first places of a table, one for each class, to 0 and answers how many these are; later
    /// places keep what they held. Refused on the grounds 1, 4, 6 and 7 (the place is the length needed).
    ///
    /// ```
    /// use wontirje::{Refusal, Settings};
    /// let mut table = [7; 11];
    /// assert_eq!(Settings::dna(2).clear(&mut table), Ok(10));
    /// assert_eq!(table, [0, 0, 0, 0, 0, 0, 0, 0, 0, 0, 7]);
    /// assert_eq!(Settings::dna(2).clear(&mut table[..9]), Err(Refusal { number: 7, place: 10 }));
    /// ```
    pub fn clear(&self, table: &mut [u32]) -> Result<usize, Refusal> {
        let (letters, k, mirror) = (self.letters, self.k, self.mirror as u64);
        // SAFETY: each pointer comes with the length of its slice; `table` is borrowed for writing, so that
        // it overlaps no other.
        let answer = unsafe {
            kmer_clear(letters.as_ptr(), letters.len(), k, mirror, table.as_mut_ptr(), table.len())
        };
        judged(answer).map(|places| places as usize)
    }

    /// Adds a sequence file of a kind to a table that was cleared or loaded with the same settings: 1 for each
    /// window at the place of its class. Files of both kinds may be added to one table. Refused on the grounds
    /// 1, 4, 6, 7 (the place is the length needed), those of the file's bytes (the place is an offset), and 12;
    /// a refused file changes no count. The bytes of FASTA are refused with 10 or 11, whichever byte is earlier;
    /// those of FASTQ with 15, 10, 16 or 17, in this order within the earliest record at fault.
    ///
    /// ```
    /// use wontirje::{Kind, Refusal, Settings};
    /// let settings = Settings::dna(2);
    /// let mut table = vec![0; 10];
    /// assert_eq!(settings.add(&mut table, Kind::Fasta, b">a\nAC\nGT")?.windows, 3);
    /// let early = Refusal { number: 11, place: 0 };
    /// assert_eq!(settings.add(&mut table, Kind::Fasta, b"AC\n>a\n"), Err(early));
    /// assert_eq!(settings.add(&mut table, Kind::Fastq, b"@a\nACGT\n+\nIIII\n")?.windows, 3);
    /// let cut_off = Refusal { number: 15, place: 6 };
    /// assert_eq!(settings.add(&mut table, Kind::Fastq, b"@a\nAC\n"), Err(cut_off));
    /// assert_eq!(table.iter().sum::<u32>(), 6);
    /// # Ok::<(), Refusal>(())
    /// ```
    pub fn add(&self, table: &mut [u32], kind: Kind, file: &[u8]) -> Result<Numbers, Refusal> {
        self.on_table(kmer_add, table, kind, file)
    }

    /// Withdraws a sequence file from a table: takes 1 from the place of its class for each window. A table does not
    /// remember its files, so that one which was never added is withdrawn too where the counts allow it; adding
    /// it then takes that back (unless 12 refuses it, where some count is above 4,294,967,295 less the file's
    /// windows). Refused on the grounds of [`Settings::add`], with 18 in place of 12, where some class has a
    /// smaller count than the file has windows of it; a refused call leaves the table as it was.
    ///
    /// ```
    /// use wontirje::{Kind, Refusal, Settings};
    /// let settings = Settings::dna(2);
    /// let mut table = vec![0; 10];
    /// settings.add(&mut table, Kind::Fasta, b">a\nACGT\n")?;
    /// let before = table.clone();
    /// settings.add(&mut table, Kind::Fasta, b">b\nAGCT\n")?;
    /// assert_eq!(settings.withdraw(&mut table, Kind::Fasta, b">b\nAGCT\n")?.windows, 3);
    /// assert_eq!(table, before);
    /// // Its windows are no more in the counts.
    /// let lacking = Refusal { number: 18, place: 0 };
    /// assert_eq!(settings.withdraw(&mut table, Kind::Fasta, b">b\nAGCT\n"), Err(lacking));
    /// assert_eq!(table, before);
    /// # Ok::<(), Refusal>(())
    /// ```
    pub fn withdraw(&self, table: &mut [u32], kind: Kind, file: &[u8]) -> Result<Numbers, Refusal> {
        self.on_table(kmer_withdraw, table, kind, file)
    }

    /// A call on a table with a file.
    fn on_table(
        &self,
        call: FileCall,
        table: &mut [u32],
        kind: Kind,
        file: &[u8],
    ) -> Result<Numbers, Refusal> {
        let (letters, k, mirror) = (self.letters, self.k, self.mirror as u64);
        let mut list = [0; 5];
        // SAFETY: each pointer comes with the length of its slice; `table` and `list` are borrowed for
        // writing, so that they overlap no other.
        let answer = unsafe {
            let (to, from, numbers) = (table.as_mut_ptr(), file.as_ptr(), list.as_mut_ptr());
            call(
                letters.as_ptr(),
                letters.len(),
                k,
                mirror,
                to,
                table.len(),
                kind as u64,
                from,
                file.len(),
                numbers,
                5,
            )
        };
        let [records, letters, foreign, edge, windows] = list;
        judged(answer).map(|_| Numbers { records, letters, foreign, edge, windows })
    }

    /// Writes the listing of a table to the first bytes of `text` and answers how many these are; later bytes
    /// keep what they held. Refused on the grounds 1, 4, 6 and 7 (of the table, then of the text; the
    /// place is the length needed). [`Settings::write_listing`] needs no buffer for the whole of it.
    ///
    /// ```
    /// let settings = wontirje::Settings::dna(2);
    /// let mut text = [0; 100];
    /// let length = settings.listing(&[0, 1, 0, 0, 0, 0, 0, 0, 0, 0], &mut text)?;
    /// let survey = "(survey (letters ACGT) (k 2) (mirror complement) (classes 10))\n";
    /// assert_eq!(&text[..length], [survey, "(count CG 1)\n(total 1)\n"].concat().as_bytes());
    /// # Ok::<(), wontirje::Refusal>(())
    /// ```
    pub fn listing(&self, table: &[u32], text: &mut [u8]) -> Result<usize, Refusal> {
        let (letters, k, mirror) = (self.letters, self.k, self.mirror as u64);
        // SAFETY: each pointer comes with the length of its slice; `text` is borrowed for writing, so that it
        // overlaps no other.
        let answer = unsafe {
            let (from, to) = (table.as_ptr(), text.as_mut_ptr());
            kmer_listing(letters.as_ptr(), letters.len(), k, mirror, from, table.len(), to, text.len())
        };
        judged(answer).map(|length| length as usize)
    }

    /// Loads a listing into a table: its counts take the place of the old ones, 0 that of a class that is not
    /// listed; later places keep what they held. Answers how many places were set, which is the number of
    /// classes. Files may then be added and withdrawn as after [`Settings::clear`].
    ///
    /// Just the listings of tables with these settings are loaded, byte for byte as [`Settings::listing`]
    /// writes them: each line ends in LF, the survey line has the number of classes, and nothing follows the
    /// total. Refused on the grounds 1, 4, 6, 7 (the place is the length needed), and then that of the first
    /// line at fault (the place is its offset): 20 where it has none of a listing's shapes, or stands where
    /// another kind or none belongs; 21 where the survey line differs from the settings or their number of
    /// classes; 22 where a word is not canonical, its code does not rise, a count is not 1 to 4,294,967,295,
    /// or the total is not the sum; in this order within a line. A missing line is refused with 20, and the
    /// place is then the text's length. A refused listing changes no count.
    ///
    /// ```
    /// use wontirje::{Kind, Refusal, Settings};
    /// let settings = Settings::dna(2);
    /// let survey = "(survey (letters ACGT) (k 2) (mirror complement) (classes 10))\n";
    /// let last_year = [survey, "(count CG 1)\n", "(total 1)\n"].concat();
    /// let mut table = vec![7; 10];
    /// assert_eq!(settings.load(&mut table, last_year.as_bytes()), Ok(10));
    /// assert_eq!(table, [0, 1, 0, 0, 0, 0, 0, 0, 0, 0]);
    /// settings.add(&mut table, Kind::Fasta, b">this year\nACG\n")?;
    /// assert_eq!(table, [0, 2, 0, 0, 0, 1, 0, 0, 0, 0]);
    /// // The total is missing.
    /// let cut_off = Refusal { number: 20, place: 76 };
    /// assert_eq!(settings.load(&mut table, &last_year.as_bytes()[..76]), Err(cut_off));
    /// // The listing is of words of 2 letters.
    /// let other = Refusal { number: 21, place: 0 };
    /// assert_eq!(Settings::dna(1).load(&mut table, last_year.as_bytes()), Err(other));
    /// assert_eq!(table, [0, 2, 0, 0, 0, 1, 0, 0, 0, 0]);
    /// # Ok::<(), Refusal>(())
    /// ```
    pub fn load(&self, table: &mut [u32], text: &[u8]) -> Result<usize, Refusal> {
        let (letters, k, mirror) = (self.letters, self.k, self.mirror as u64);
        // SAFETY: as in `clear`; the text is only read.
        let answer = unsafe {
            let (to, from) = (table.as_mut_ptr(), text.as_ptr());
            kmer_load(letters.as_ptr(), letters.len(), k, mirror, to, table.len(), from, text.len())
        };
        judged(answer).map(|places| places as usize)
    }
}

//! The listing of a table line by line (document 01, "Listing and counter program": "line by line, with less
//! memory"). The library writes the listing whole into one buffer, up to some 750 MB for the largest tables;
//! this needs a line's room.

use crate::refusal::Refusal;
use crate::settings::Settings;
use crate::words::Code;
use std::io::{self, Write};

impl Settings<'_> {
    /// Writes the listing of a table, the same bytes as [`Settings::listing`], and answers the total. Each
    /// word is the library's. What the library would refuse comes as an error that holds the [`Refusal`],
    /// before the first byte.
    ///
    /// ```
    /// let settings = wontirje::Settings::dna(2);
    /// let mut text = Vec::new();
    /// let total = settings.write_listing(&[0, 1, 0, 0, 0, 0, 0, 0, 0, 0], &mut text)?;
    /// let survey = "(survey (letters ACGT) (k 2) (mirror complement) (classes 10))\n";
    /// assert_eq!((total, text), (1, [survey, "(count CG 1)\n(total 1)\n"].concat().into_bytes()));
    /// # Ok::<(), std::io::Error>(())
    /// ```
    pub fn write_listing(&self, table: &[u32], to: &mut impl Write) -> io::Result<u64> {
        let places = self.table_places().map_err(io::Error::other)?;
        let short = Refusal { number: 7, place: places as u64 };
        let counts = table.get(..places).ok_or(io::Error::other(short))?;
        to.write_all(b"(survey (letters ")?;
        to.write_all(self.letters)?;
        // A table has one place for each class, and the survey line ends in their number (document 02, K6).
        writeln!(to, ") (k {}) (mirror {}) (classes {places}))", self.k, self.mirror.name())?;
        // The line of a class: `(count `, its word, and a space, after which the number is written.
        let mut line = [&b"(count "[..], &vec![b' '; self.k + 1]].concat();
        let mut total = 0;
        for (place, &count) in counts.iter().enumerate().filter(|(_, &count)| count > 0) {
            self.word(Code(place as u64), &mut line[7..7 + self.k]).map_err(io::Error::other)?;
            to.write_all(&line)?;
            writeln!(to, "{count})")?;
            total += u64::from(count);
        }
        writeln!(to, "(total {total})")?;
        Ok(total)
    }
}

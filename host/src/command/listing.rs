//! Loads a listing into a table. Its first line, in which the library finds a survey line's shape, proposes
//! the settings, and the library judges the whole text under them: nothing else is read out of a listing
//! here.

use crate::arguments::number;
use crate::failure::{reason, Failure};
use crate::input::{opened, read_on};
use crate::listing_fault::{self, is_after_the_total, ListingFault};
use crate::progress::Progress;
use crate::report;
use crate::survey::Given;
use crate::table::Table;
use std::ffi::OsStr;
use std::io::{self, Read};
use wontirje::{Mirror, Refusal, Settings};

/// The first line must end within so many bytes: that of a listing has at most 83.
pub const FIRST: u64 = 256;

/// What stands in the forms of a first line, none where there is no such form: what it proposes, whatever the
/// line is besides.
pub struct Forms {
    pub letters: Option<String>,
    pub k: Option<String>,
    pub mirror: Option<String>,
    pub classes: Option<String>,
}

/// The value of the first form with this name in a line. A byte that is no text is no letter either, so that
/// nothing is lost where another stands for it.
fn value(line: &[u8], name: &str) -> Option<String> {
    let start = format!("({name} ");
    let at = line.windows(start.len()).position(|bytes| bytes == start.as_bytes())?;
    let rest = &line[at + start.len()..];
    match rest.iter().position(|byte| b"() \r".contains(byte)) {
        Some(end @ 1..) if rest[end] == b')' => Some(String::from_utf8_lossy(&rest[..end]).into_owned()),
        _ => None,
    }
}

impl Forms {
    /// Those of a text's first line.
    pub fn of(text: &[u8]) -> Forms {
        let line = text.split(|&byte| byte == b'\n').next().unwrap_or_default();
        let value = |name| value(line, name);
        Forms { letters: value("letters"), k: value("k"), mirror: value("mirror"), classes: value("classes") }
    }

    /// The settings that are proposed.
    pub fn proposed(&self) -> Given<'_> {
        Given {
            letters: self.letters.as_deref().map(str::as_bytes),
            k: self.k.as_deref().and_then(|k| number(OsStr::new(k))),
            mirror: self.mirror.as_deref().and_then(Mirror::from_name),
        }
    }
}

/// Whether a file begins as a listing does: an older one has no number of classes, but its counts or its
/// total follow the survey line.
pub fn looks_like_one(file: &[u8]) -> bool {
    let second = || file.split(|&byte| byte == b'\n').nth(1).unwrap_or_default();
    let has_counts = || [&b"(count "[..], b"(total "].iter().any(|start| second().starts_with(start));
    file.starts_with(b"(survey ") && (Forms::of(file).classes.is_some() || has_counts())
}

/// A number of bytes that no listing of so many classes exceeds: 83 for the survey line, 20 besides the word
/// for each class, 28 for the total.
fn most_bytes(settings: &Settings, classes: usize) -> u64 {
    111 + (20 + settings.k as u64) * classes as u64
}

fn unread(error: io::Error) -> String {
    format!("not read: {}", reason(&error))
}

/// A listing that is being read, into a buffer that others were read into before.
struct Text<'a> {
    from: Box<dyn Read>,
    length: u64,
    bytes: &'a mut Vec<u8>,
}

impl Text<'_> {
    /// A listing of which the first line is read.
    fn begun<'a>(
        operand: &OsStr,
        bytes: &'a mut Vec<u8>,
        progress: &mut Progress,
    ) -> Result<Text<'a>, String> {
        bytes.clear();
        let (from, length) = opened(operand).map_err(unread)?;
        let mut text = Text { from, length, bytes };
        text.read_to(FIRST, progress).map_err(unread)?;
        match text.bytes.len() as u64 == FIRST && !text.has_line_end(0) {
            true => Err(listing_fault::of_the_first_line(text.bytes)),
            false => Ok(text),
        }
    }

    /// Reads on until there are so many bytes, or no more.
    fn read_to(&mut self, most: u64, progress: &mut Progress) -> io::Result<()> {
        read_on(&mut self.from, self.length, self.bytes, most, progress)
    }

    /// The first line must have the shape of a survey line, which is the same under all settings: these are
    /// some, whatever the text's own are, and for another line there need be no table.
    fn check_first_shape(&self, forms: &Forms) -> Result<(), String> {
        let settings = Settings::dna(1);
        match settings.load(&mut [0; 2], self.bytes) {
            Err(refusal @ Refusal { number: 20, place: 0 }) => {
                Err(ListingFault { refusal, text: self.bytes, settings, forms, first: None }.to_string())
            }
            _ => Ok(()),
        }
    }

    /// Whether a line that begins at this place has its end among the bytes that were read.
    fn has_line_end(&self, place: u64) -> bool {
        self.bytes.iter().skip(place as usize).any(|&byte| byte == b'\n')
    }

    /// Whether a refusal at this place is one of the whole text: its line has its end, or follows the total,
    /// where none belongs.
    fn is_certain(&self, place: u64) -> bool {
        self.has_line_end(place) || is_after_the_total(&self.bytes[..self.bytes.len().min(place as usize)])
    }

    /// Loads the listing into a table, whose settings may be those of a first listing with this name. Where
    /// the first line is refused, nothing more is read; else no more than a listing of these settings can
    /// have, and one byte. Of a longer text the library judges that part: what it says of a whole line, or of
    /// what follows the total, holds of the whole text.
    fn load_into(
        mut self,
        table: &mut Table,
        forms: &Forms,
        first: Option<&str>,
        progress: &mut Progress,
    ) -> Result<(), String> {
        let (settings, counts) = table.parts();
        let most = most_bytes(&settings, counts.len()).max(FIRST);
        if let Err(refusal @ Refusal { place: 0, .. }) = settings.load(counts, self.bytes) {
            return Err(ListingFault { refusal, text: self.bytes, settings, forms, first }.to_string());
        }
        self.read_to(most + 1, progress).map_err(unread)?;
        progress.working("loading", self.bytes.len());
        let whole = self.bytes.len() as u64 <= most;
        match settings.load(counts, self.bytes) {
            Ok(_) if whole => Ok(()),
            Err(refusal) if whole || self.is_certain(refusal.place) => {
                Err(ListingFault { refusal, text: self.bytes, settings, forms, first }.to_string())
            }
            _ => Err(listing_fault::of_the_length(&settings, most)),
        }
    }
}

/// Does something with the listing that an operand names; where that fails, the failure names it too.
fn named<T>(operand: &OsStr, work: impl FnOnce(&mut Progress) -> Result<T, String>) -> Result<T, Failure> {
    let name = report::name(operand);
    let mut progress = Progress::new(&name);
    let done = work(&mut progress);
    progress.done();
    done.map_err(|reason| Failure::said(format!("{name}: {reason}")))
}

/// Loads a listing into a new table. Its settings are those given, and else the listing's own. A line of a
/// survey line's shape has letters and k; where the name of its mirror is none, either mirror will do, since
/// the line differs from both.
pub fn load(operand: &OsStr, given: Given, buffer: &mut Vec<u8>) -> Result<Table, Failure> {
    named(operand, |progress| {
        let text = Text::begun(operand, buffer, progress)?;
        let forms = Forms::of(text.bytes);
        text.check_first_shape(&forms)?;
        let own = forms.proposed().or(Settings::dna(1));
        let settings = given.or(own);
        let refused = |refusal| listing_fault::of_the_settings(&settings, refusal, &given, &own);
        let mut table = Table::new(&settings, refused)?;
        text.load_into(&mut table, &forms, None, progress)?;
        Ok(table)
    })
}

/// Loads a further listing into a table that has the settings of the first one, which has this name.
pub fn load_further(
    operand: &OsStr,
    first: &str,
    table: &mut Table,
    buffer: &mut Vec<u8>,
) -> Result<(), Failure> {
    named(operand, |progress| {
        let text = Text::begun(operand, buffer, progress)?;
        let forms = Forms::of(text.bytes);
        text.load_into(table, &forms, Some(first), progress)
    })
}

/// Says that a listing was loaded, and what it has.
pub fn say_loaded(operand: &OsStr, table: &Table) {
    report::line(format_args!("{}: loaded: {}", report::name(operand), table.summary()));
}

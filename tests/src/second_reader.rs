//! A second record reader of FASTA files, written from document 01 ("Sequence file (FASTA)") and not from the library, and
//! the answer of a scan by the book's reader.

use crate::book::{read, Numbers};
use crate::expected::{settings_ground, Refusal};
use crate::files::{lines, Kind, Line};
use crate::sequences::MOST_BYTES;
use crate::settings::Settings;

/// A scan: grounds 1, 2, 4, 6 and those of the file's bytes, else the five numbers.
pub fn scanning(settings: &Settings, kind: Kind, file: &[u8]) -> Result<Numbers, Refusal> {
    settings_ground(settings)?;
    if file.len() > MOST_BYTES {
        return Err(Refusal { number: 6, p: 0 });
    }
    Ok(read(kind, &settings.letters, file)?.numbers(settings.k))
}

/// A record, "as two offsets with lengths: the header line without its end, and all bytes from the next line to the next
/// header or the file's end".
#[derive(Debug, PartialEq)]
pub struct Record {
    pub header: (usize, usize),
    pub rest: (usize, usize),
}

/// The next record from any offset: "the next header is the first line starting with > at or after it, and past the file's
/// end there is none". Then the offset: "A record moves the offset to the record's end; none keeps it."
pub fn next_record(file: &[u8], offset: usize) -> (Option<Record>, usize) {
    let lines = lines(file);
    let is_header = |&(at, line): &Line| at >= offset && line.starts_with(b">");
    let Some(place) = lines.iter().position(is_header) else { return (None, offset) };
    let (start, header) = lines[place];
    // "A header that the file's end cuts off has a second part of length 0 at the file's length."
    let next = lines.get(place + 1).map_or(file.len(), |&(at, _)| at);
    let end = lines[place + 1..].iter().find(|line| is_header(line)).map_or(file.len(), |&(at, _)| at);
    (Some(Record { header: (start, header.len()), rest: (next, end - next) }), end)
}

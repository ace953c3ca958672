//! A second counter program, written from document 01 ("Listing and counter program") and document 02, K1, K2, K5
//! and K6, and not from the library: from the bytes of standard input to the bytes that are printed. Of the other
//! references it uses the second coder with its number of classes, the rank of a byte, the grounds for table calls
//! and the records of FASTQ files; the survey line, the FASTA file, the tallies and the printed lines are its own.

use crate::book::{table_ground, Numbers};
use crate::expected::{coder, Refusal};
use crate::files::{as_fasta, fastq_sequences, Kind};
use crate::settings::{rank, Settings, COMPLEMENT, REVERSAL};
use std::collections::BTreeMap;

/// Ground 14 refuses more bytes than this.
pub const MOST_INPUT: usize = 65_536;

/// The places of the program's table.
pub const PLACES: usize = 16_384;

/// The order of the inner forms, each with its bracket: "They now stand as letters, k, mirror" (document 02, K5).
const ORDER: [&[u8]; 3] = [b"(letters", b"(k", b"(mirror"];

/// What the program prints for a standard input.
pub fn answer(input: &[u8]) -> Vec<u8> {
    match counted(input) {
        Ok(text) => text,
        Err(Refusal { number, p }) => format!("(refused {number} {p})\n").into_bytes(),
    }
}

/// What kind of answer an output is: `counted`, `empty` where there is no count, or its refusal's number.
pub fn answer_kind(output: &[u8]) -> String {
    let text = String::from_utf8_lossy(output).into_owned();
    match text.strip_prefix("(refused ") {
        Some(rest) => rest.split(' ').next().unwrap_or_default().to_string(),
        None if text.contains("(count ") => "counted".to_string(),
        None => "empty".to_string(),
    }
}

/// Checks go in number order, save that 14 and 13 come first, and 19 next: "it precedes 1" (document 02, K5).
fn counted(input: &[u8]) -> Result<Vec<u8>, Refusal> {
    if input.len() > MOST_INPUT {
        return Err(Refusal { number: 14, p: 0 });
    }
    let (line, file) = first_line(input);
    let (names, settings) = forms(line).ok_or(Refusal { number: 13, p: 0 })?;
    // "19, not 13, when just these three forms are there, each once and well formed, in another order"
    if names != ORDER {
        return Err(Refusal { number: 19, p: 0 });
    }
    // The file is no longer than the input, so that of ground 6 only the number of classes is left.
    table_ground(&settings, false, PLACES)?;
    // The records of a FASTQ file are counted as those of a FASTA file that has the same letters.
    let found = match Kind::taken_by_program(file) {
        Kind::Fasta => read(&settings.letters, file)?,
        Kind::Fastq => read(&settings.letters, &as_fasta(&fastq_sequences(file)?))?,
    };
    let coder = coder(&settings);
    // Canonical word and count, by code.
    let mut classes: BTreeMap<u128, (Vec<u8>, u64)> = BTreeMap::new();
    for window in found.runs.iter().flat_map(|run| run.windows(settings.k)) {
        classes.entry(coder.code(window)).or_insert((coder.canonical(window), 0)).1 += 1;
    }
    let mut text = listing(&settings, classes.into_values());
    text.extend(file_line(found.numbers(settings.k)).into_bytes());
    Ok(text)
}

/// The first line without its end, which is LF, CR LF or the input's end; and what comes after it.
pub fn first_line(input: &[u8]) -> (&[u8], &[u8]) {
    match input.iter().position(|&byte| byte == b'\n') {
        None => (input, b""),
        Some(end) => {
            let line = &input[..end];
            (line.strip_suffix(b"\r").unwrap_or(line), &input[end + 1..])
        }
    }
}

/// The settings of a survey line, good or bad; none where ground 13 or 19 refuses the line.
pub fn survey(line: &[u8]) -> Option<Settings> {
    forms(line).filter(|(names, _)| *names == ORDER).map(|(_, settings)| settings)
}

/// The three forms of a line, each there once and well formed: their names as they stand, and the settings, good or
/// bad, that they give in any order. None where the line is something else, also where a form is there that only our
/// own line has: "The line that the program reads has no such form" (document 02, K6). No value holds a space, so
/// cutting at every space gives the name and the value of the three forms, and nothing else.
fn forms(line: &[u8]) -> Option<([&[u8]; 3], Settings)> {
    let inner = line.strip_prefix(b"(survey ")?.strip_suffix(b")")?;
    let parts: Vec<&[u8]> = inner.split(|&byte| byte == b' ').collect();
    let [name_1, value_1, name_2, value_2, name_3, value_3] = parts[..] else { return None };
    let forms = [(name_1, value_1), (name_2, value_2), (name_3, value_3)];
    // Three forms in which three names are found have each name once.
    let value = |wanted: &[u8]| {
        let (_, value) = forms.iter().find(|(name, _)| *name == wanted)?;
        value.strip_suffix(b")")
    };
    let letters = value(b"(letters")?;
    if letters.is_empty() || letters.iter().any(|byte| b"() \r\n".contains(byte)) {
        return None;
    }
    let settings = Settings::new(letters, read_k(value(b"(k")?)?, read_mirror(value(b"(mirror")?)?);
    Some(([name_1, name_2, name_3], settings))
}

/// 1 to 3 digits, with no leading zero except 0 itself.
fn read_k(text: &[u8]) -> Option<usize> {
    let digits = text.iter().all(u8::is_ascii_digit) && (1..=3).contains(&text.len());
    if !digits || (text[0] == b'0' && text.len() > 1) {
        return None;
    }
    Some(text.iter().fold(0, |k, digit| 10 * k + (digit - b'0') as usize))
}

/// One or more small letters; those other than the two names are a mirror that ground 2 refuses.
fn read_mirror(text: &[u8]) -> Option<u64> {
    match text {
        b"reversal" => Some(REVERSAL),
        b"complement" => Some(COMPLEMENT),
        _ if !text.is_empty() && text.iter().all(u8::is_ascii_lowercase) => Some(2),
        _ => None,
    }
}

/// What a sequence file holds: the ranks of its runs, of which some may be empty, and the rest as counts.
#[derive(Default)]
struct Contents {
    records: usize,
    letters: usize,
    foreign: usize,
    runs: Vec<Vec<u8>>,
}

/// Goes over the file byte by byte, up to the first byte that ground 10 or 11 names.
fn read(letters: &[u8], file: &[u8]) -> Result<Contents, Refusal> {
    let mut found = Contents::default();
    let mut in_header = false;
    for (place, &byte) in file.iter().enumerate() {
        if place == 0 || file[place - 1] == b'\n' {
            in_header = byte == b'>';
            if in_header {
                found.records += 1;
                found.runs.push(Vec::new());
            }
        }
        let line_end = byte == b'\n' || file[place..].starts_with(b"\r\n");
        if in_header || line_end {
            continue;
        }
        if !byte.is_ascii_alphabetic() {
            return Err(Refusal { number: 10, p: place as u64 });
        }
        // Before the first header there is no run yet.
        let Some(run) = found.runs.last_mut() else {
            return Err(Refusal { number: 11, p: place as u64 });
        };
        found.letters += 1;
        match rank(letters, byte) {
            Some(rank) => run.push(rank),
            None => {
                found.foreign += 1;
                found.runs.push(Vec::new());
            }
        }
    }
    Ok(found)
}

impl Contents {
    fn numbers(&self, k: usize) -> Numbers {
        let edge: usize = self.runs.iter().map(|run| run.len().min(k - 1)).sum();
        let windows: usize = self.runs.iter().map(|run| run.windows(k).len()).sum();
        [self.records, self.letters, self.foreign, edge, windows].map(|number| number as u64)
    }
}

/// The line with a file's five numbers.
pub fn file_line([records, letters, foreign, edge, windows]: Numbers) -> String {
    let read = format!("(records {records}) (letters {letters}) (foreign {foreign})");
    format!("(file {read} (edge {edge}) (windows {windows}))\n")
}

/// The survey line that we print, without its LF: it "gains a last inner form" (document 02, K6), the number of all
/// classes, counted or not.
pub fn printed_line(settings: &Settings) -> String {
    let letters = String::from_utf8(settings.letters.clone()).expect("capitals");
    let mirror = if settings.mirror == COMPLEMENT { "complement" } else { "reversal" };
    let classes = coder(settings).classes();
    format!("(survey (letters {letters}) (k {}) (mirror {mirror}) (classes {classes}))", settings.k)
}

/// A line whose last form has the name of the number of classes, in two: the line of its settings, which is
/// closed by the bracket that follows the last form, and what stands in that form.
pub fn parted(printed: &[u8]) -> Option<(Vec<u8>, &[u8])> {
    let inner = printed.strip_suffix(b"))")?;
    let name = b" (classes ";
    let at = inner.windows(name.len()).rposition(|part| part == name)?;
    Some(([&inner[..at], b")"].concat(), &inner[at + name.len()..]))
}

/// A line that we print, taken apart: the line of its settings, and the number of classes. None where the
/// last form is not that number in plain decimal.
pub fn taken_apart(printed: &[u8]) -> Option<(Vec<u8>, u128)> {
    let (line, digits) = parted(printed)?;
    let digits = std::str::from_utf8(digits).ok()?;
    let number = digits.parse::<u128>().ok().filter(|number| number.to_string() == digits)?;
    Some((line, number))
}

/// The listing of classes given as canonical word and count, by rising code.
pub fn listing(settings: &Settings, classes: impl Iterator<Item = (Vec<u8>, u64)>) -> Vec<u8> {
    let mut text = format!("{}\n", printed_line(settings));
    let mut total = 0;
    for (word, count) in classes.filter(|(_, count)| *count > 0) {
        let spelling: String = word.iter().map(|&rank| settings.letters[rank as usize] as char).collect();
        text += &format!("(count {spelling} {count})\n");
        total += count;
    }
    text += &format!("(total {total})\n");
    text.into_bytes()
}

/// The listing of a table's counts, one a class.
pub fn listing_of(settings: &Settings, counts: &[u32]) -> Vec<u8> {
    let coder = coder(settings);
    let word = |code: usize| coder.word(code as u128).expect("a code below the number of classes");
    let counted = counts.iter().enumerate().filter(|(_, &count)| count > 0);
    listing(settings, counted.map(|(code, &count)| (word(code), count as u64)))
}

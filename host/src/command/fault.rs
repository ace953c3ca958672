//! What is wrong in a file that was refused, where, and what whoever supplied it can do.

use crate::input::{advice_on_the_start, bare};
use crate::listing;
use crate::task::Task;
use std::fmt;
use wontirje::{Kind, Refusal};

const SAM: &str = "it looks like SAM: make FASTQ of it first, with samtools fastq";

/// How files begin that are of neither kind, and what to do with them.
const NEITHER: [(&[u8], &str); 6] = [
    (b"(survey ", "take the survey line out: settings are given as options"),
    (b"@HD\t", SAM),
    (b"@SQ\t", SAM),
    (b"@RG\t", SAM),
    (b"@PG\t", SAM),
    (b"@CO\t", SAM),
];

/// A refused file, what was to be done with it, the kind that it was taken for, and the line and column of the
/// refusal's place, both from 1.
pub struct Fault<'a> {
    task: Task,
    refusal: &'a Refusal,
    kind: Kind,
    file: &'a [u8],
    line: usize,
    column: usize,
}

/// A byte as it is shown: itself where it can be printed, else its number.
fn byte(byte: u8) -> String {
    match byte {
        b'!'..=b'~' => format!("'{}'", byte as char),
        b' ' => String::from("a space"),
        b'\r' => String::from("a CR without LF"),
        _ => format!("byte 0x{byte:02x}"),
    }
}

impl Fault<'_> {
    /// A line ends in LF; columns are bytes.
    pub fn new<'a>(task: Task, refusal: &'a Refusal, kind: Kind, file: &'a [u8]) -> Fault<'a> {
        let before = &file[..file.len().min(refusal.place as usize)];
        let line = 1 + before.iter().filter(|&&byte| byte == b'\n').count();
        let start = before.iter().rposition(|&byte| byte == b'\n').map_or(0, |at| at + 1);
        Fault { task, refusal, kind, file, line, column: before.len() - start + 1 }
    }

    /// The record of FASTQ that the place is in, from 1. Where the file ends before the record's fourth line, the
    /// place is in the record or at the start of its next line.
    fn record(&self) -> usize {
        (self.line - 1) / 4 + 1
    }

    /// Which of the record's four lines, from 0, the place is in.
    fn line_of_record(&self) -> usize {
        (self.line - 1) % 4
    }

    /// The bytes of a line, from 1, without its end.
    fn bytes_of(&self, line: usize) -> &[u8] {
        self.file.split_inclusive(|&byte| byte == b'\n').nth(line - 1).map_or(b"", bare)
    }

    /// The lengths of the record's sequence line and quality line.
    fn lengths(&self) -> [usize; 2] {
        let fourth = 4 * self.record();
        [fourth - 2, fourth].map(|line| self.bytes_of(line).len())
    }

    /// Whether the place is an @ that begins a line.
    fn is_at_sign(&self) -> bool {
        self.column == 1 && self.file.get(self.refusal.place as usize) == Some(&b'@')
    }

    /// Whether only empty lines are before the place.
    fn is_after_empty_lines(&self) -> bool {
        self.file.iter().take(self.refusal.place as usize).all(|byte| b"\r\n".contains(byte))
    }

    /// Whether the place is an empty line.
    fn is_empty_line(&self) -> bool {
        self.bytes_of(self.line).is_empty()
    }

    /// Whether the place is after the file's last byte.
    fn is_at_the_end(&self) -> bool {
        self.refusal.place as usize >= self.file.len()
    }

    /// Whether the lines of FASTQ end in CR alone. The file's last one may end in LF too.
    fn ends_lines_in_cr(&self) -> bool {
        let lines = self.file.strip_suffix(b"\n").unwrap_or(self.file);
        !lines.contains(&b'\n') && lines.iter().filter(|&&byte| byte == b'\r').count() >= 3
    }

    /// What stands at the place, where that says more than the refusal.
    fn found(&self) -> Option<String> {
        match self.refusal.number {
            15 if self.is_at_the_end() => None,
            15 if self.is_empty_line() => Some(String::from("an empty line")),
            10 | 11 | 15 | 17 => self.file.get(self.refusal.place as usize).map(|&found| byte(found)),
            _ => None,
        }
    }

    /// What is wrong.
    fn what(&self) -> String {
        let what = match (self.refusal.number, self.line_of_record()) {
            (6, _) => "more than 16,777,216 bytes",
            (15, _) if self.is_at_the_end() => "the file ends before the record's fourth line",
            (15, 0) => "a record's first line does not begin with @",
            (15, _) => "a record's third line does not begin with +",
            (16, _) => {
                let [letters, qualities] = self.lengths();
                return format!("the sequence line has length {letters}, the quality line {qualities}");
            }
            _ => self.refusal.what(),
        };
        what.to_string()
    }

    /// What to do where the file begins as one of another kind does. One that is too long may be such a file too.
    fn of_another_kind(&self) -> Option<&'static str> {
        let other: (&[u8], &str) = match self.kind {
            Kind::Fasta => (b"@", "it looks like FASTQ: leave --kind fasta out"),
            Kind::Fastq => (b">", "it looks like FASTA: leave --kind fastq out"),
        };
        let begins = |(start, _): &&(&[u8], _)| self.file.starts_with(start);
        match self.refusal.number {
            6 | 10 | 11 | 15 => advice_on_the_start(self.file)
                .or_else(|| self.of_a_listing())
                .or_else(|| NEITHER.iter().chain([&other]).find(begins).map(|(_, advice)| *advice)),
            _ => None,
        }
    }

    /// What to do where it is a listing.
    fn of_a_listing(&self) -> Option<&'static str> {
        listing::looks_like_one(self.file).then_some(match self.task {
            Task::Add => {
                "it looks like a listing: give it with --from, or add several up with wontirje merge first"
            }
            Task::Withdraw => "it looks like a listing: only sequence files are withdrawn",
        })
    }

    /// What to do about a line of FASTQ that is not what it must be, or is missing.
    fn advice_on_the_line(&self) -> &'static str {
        let Some(first) = self.file.get(self.refusal.place as usize) else {
            return match self.ends_lines_in_cr() {
                true => "its lines end in CR alone: make them end in LF",
                false => "it was probably cut off: copy it again, or take its last record out",
            };
        };
        match (self.line_of_record(), first) {
            // The empty lines of a record without letters belong to it.
            (0, _) if self.is_empty_line() => "take out empty lines outside of records, and count the file again",
            (0, _) if self.line == 1 => {
                "it does not begin with @: mend its first record, or leave --kind fastq out if it is no FASTQ"
            }
            (0, b'>') => "if FASTA begins here, give it as a file of its own; else mend the record before it",
            (0, _) => "a record has four lines: put sequence and qualities on one each, or mend the record before it",
            _ => {
                "put the sequence on one line, then + on a line, then the qualities on one; a file without \
                 qualities is FASTA, and > begins its headers"
            }
        }
    }

    /// What to do about a byte of a sequence line that is no letter. In FASTQ the two lines must have one length
    /// afterwards.
    fn advice_on_the_byte(&self) -> &'static str {
        match (self.kind, self.file.get(self.refusal.place as usize)) {
            (Kind::Fasta, _) if self.is_at_sign() && self.is_after_empty_lines() => {
                "it looks like FASTQ: take out the empty lines before it"
            }
            (Kind::Fasta, _) if self.is_at_sign() => {
                "if FASTQ begins here, give it as a file of its own; else mend the line"
            }
            (Kind::Fasta, _) => "take the byte out, or mend the line, and count the file again",
            (Kind::Fastq, Some(b' ' | b'\t' | b'\r')) => {
                "take it out, and out of the quality line too where it stands there, and count the file again"
            }
            (Kind::Fastq, _) => match self.lengths() {
                [letters, qualities] if letters == qualities => {
                    "put N in its place, or take the record out, and count the file again"
                }
                _ => {
                    "take the byte out if the two lines then have one length, or take the record out, and count \
                     the file again"
                }
            },
        }
    }

    /// What to do. A file whose bytes are at fault could not have been counted, so that to mend it is no way to
    /// withdraw what was.
    fn advice(&self) -> &'static str {
        if let Some(advice) = self.of_another_kind() {
            return advice;
        }
        match (self.refusal.number, self.kind) {
            (10 | 11 | 15..=17, _) if self.task == Task::Withdraw => {
                "no file with this fault was counted: give it as it was counted, or leave its --withdraw out"
            }
            // Parts that are made now were not counted, and those given by a pattern would be counted.
            (6, _) if self.task == Task::Withdraw => {
                "no file of this length was counted: withdraw the parts that were, each with its own --withdraw"
            }
            (6, Kind::Fasta) => "split it between records into files of at most 16,777,216 bytes and give them all",
            (6, Kind::Fastq) => {
                "split it between records, each of four lines, into files of at most 16,777,216 bytes and give \
                 them all"
            }
            (10, _) => self.advice_on_the_byte(),
            (11, _) => {
                "put a header line before it, one that begins with > (with @ if it is FASTQ), and count the \
                 file again"
            }
            (12, _) => "start a new count with this file, and add the two listings up with wontirje merge",
            (15, _) => self.advice_on_the_line(),
            (16, _) => {
                "the record is damaged or cut off, or its qualities go over several lines: copy the file again, \
                 mend the record, or take it out"
            }
            (17, _) => {
                "qualities are printable bytes and no spaces (Phred+33 or Phred+64): mend the record, or take \
                 it out, and count the file again"
            }
            (18, _) => {
                "withdraw only what was counted: the same file, unchanged, and no more often; or an earlier \
                 --withdraw took its windows"
            }
            _ => "this is a fault of wontirje: report it",
        }
    }
}

impl fmt::Display for Fault<'_> {
    fn fmt(&self, f: &mut fmt::Formatter) -> fmt::Result {
        let Fault { refusal: Refusal { number, place }, line, column, .. } = self;
        write!(f, "refused {number}")?;
        if let 10 | 11 | 15..=17 = number {
            write!(f, " at offset {place} (line {line}, column {column}")?;
            if self.kind == Kind::Fastq {
                write!(f, ", record {}", self.record())?;
            }
            write!(f, ")")?;
        }
        if let Some(found) = self.found() {
            write!(f, ": {found}")?;
        }
        write!(f, ": {}; {}", self.what(), self.advice())
    }
}

//! The two kinds of sequence files, their lines, and the records of a FASTQ file (document 02, K1): the list
//! of the file's lines taken four at a time.

use crate::expected::Refusal;

/// The numbers by which a caller of kmer_add or kmer_withdraw names a file's kind: every number but 0 means FASTQ.
pub const FASTA: u64 = 0;
pub const FASTQ: u64 = 1;

/// The kind of a sequence file.
#[derive(Clone, Copy, Debug, PartialEq)]
pub enum Kind {
    Fasta,
    Fastq,
}

impl Kind {
    /// "A caller names the kind of file".
    pub fn named(fastq: u64) -> Kind {
        match fastq {
            FASTA => Kind::Fasta,
            _ => Kind::Fastq,
        }
    }

    /// "The program takes a file whose first byte is @ for FASTQ."
    pub fn taken_by_program(file: &[u8]) -> Kind {
        match file.first() {
            Some(b'@') => Kind::Fastq,
            _ => Kind::Fasta,
        }
    }
}

/// A line's offset, and its bytes without its end.
pub type Line<'a> = (usize, &'a [u8]);

/// A line, or a file with its last line, without the line end.
pub fn bare(line: &[u8]) -> &[u8] {
    line.strip_suffix(b"\r\n").or(line.strip_suffix(b"\n")).unwrap_or(line)
}

/// The lines of a file. Their ends are LF, CR LF, or none for the last; "a stretch with neither bytes nor a
/// line end is no line".
pub fn lines(file: &[u8]) -> Vec<Line<'_>> {
    let mut offset = 0;
    let mut lines = Vec::new();
    for line in file.split_inclusive(|&byte| byte == b'\n') {
        lines.push((offset, bare(line)));
        offset += line.len();
    }
    lines
}

/// The sequence lines of a FASTQ file, or the ground of its earliest record at fault.
pub fn fastq_sequences(file: &[u8]) -> Result<Vec<&[u8]>, Refusal> {
    lines(file).chunks(4).map(|record| sequence(record, file.len())).collect()
}

/// The sequence line of a record, of whose four lines the last ones may be missing. "Within it the order is
/// 15, 10, 16, 17".
fn sequence<'a>(record: &[Line<'a>], file_length: usize) -> Result<&'a [u8], Refusal> {
    let check = |number: u64, fault: Option<usize>| match fault {
        Some(offset) => Err(Refusal { number, p: offset as u64 }),
        None => Ok(()),
    };
    check(15, line_at_fault(record, file_length))?;
    let ((sequence_at, sequence), (quality_at, quality)) = (record[1], record[3]);
    let stray = sequence.iter().position(|byte| !byte.is_ascii_alphabetic());
    check(10, stray.map(|place| sequence_at + place))?;
    check(16, (quality.len() != sequence.len()).then_some(quality_at))?;
    let outside = quality.iter().position(|byte| !(33..=126).contains(byte));
    check(17, outside.map(|place| quality_at + place))?;
    Ok(sequence)
}

/// Ground 15: "a first line lacks @, a third lacks +, or the file ends before a fourth line", whichever is
/// first.
fn line_at_fault(record: &[Line], file_length: usize) -> Option<usize> {
    let lacks = |place: usize, mark: u8| {
        let (offset, line) = record.get(place)?;
        (line.first() != Some(&mark)).then_some(*offset)
    };
    let missing = (record.len() < 4).then_some(file_length);
    [lacks(0, b'@'), lacks(2, b'+'), missing].into_iter().flatten().min()
}

/// A FASTA file whose records have these letters.
pub fn as_fasta<T: AsRef<[u8]>>(sequences: &[T]) -> Vec<u8> {
    sequences.iter().flat_map(|sequence| [b">\n", sequence.as_ref(), b"\n"].concat()).collect()
}

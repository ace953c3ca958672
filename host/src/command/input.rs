//! Reads a file or standard input whole into one buffer, which all files of a run share; what a file's first
//! bytes say of it; and where a line of text ends.

use crate::failure::Failure;
use crate::progress::Progress;
use std::ffi::OsStr;
use std::fs::File;
use std::io::{self, Read};
use std::path::Path;
use wontirje::MOST_BYTES;

/// How much is read between two reports of progress.
const PIECE: u64 = 1 << 20;

/// How files begin that are no text of ours yet, whatever they hold, and what to do with them.
const ENCODED: [(&[u8], &str); 5] = [
    (b"\x1f\x8b", "it is compressed: give - for it, with gzip -dc FILE | before the command"),
    (b"BZh", "it is compressed: give - for it, with bzip2 -dc FILE | before the command"),
    (b"\xfd7zXZ", "it is compressed: give - for it, with xz -dc FILE | before the command"),
    (b"\x28\xb5\x2f\xfd", "it is compressed: give - for it, with zstd -dc FILE | before the command"),
    (b"\xef\xbb\xbf", "it begins with a byte order mark: take its three bytes out"),
];

/// What to do with a file that is compressed or begins with a byte order mark.
pub fn advice_on_the_start(file: &[u8]) -> Option<&'static str> {
    ENCODED.iter().find(|(start, _)| file.starts_with(start)).map(|(_, advice)| *advice)
}

/// Standard input is given at most once among these operands.
pub fn check_once<'a>(operands: impl Iterator<Item = &'a OsStr>) -> Result<(), Failure> {
    match operands.filter(|operand| *operand == "-").count() {
        0 | 1 => Ok(()),
        _ => Err(Failure::said("- is given twice; standard input can be read only once")),
    }
}

/// Where an operand is read from, and its length where that is known, else 0.
pub fn opened(operand: &OsStr) -> io::Result<(Box<dyn Read>, u64)> {
    if operand == "-" {
        return Ok((Box::new(io::stdin().lock()), 0));
    }
    let file = File::open(Path::new(operand))?;
    let length = file.metadata()?.len();
    Ok((Box::new(file), length))
}

/// Reads on, behind what the buffer holds, until it holds `most` bytes or there are no more. Where the length
/// is known and not 0, room is made for it at once, with a byte to spare, so that the buffer need not grow to
/// find the end. No read has to make room: one that lacks memory for it could only end the process.
pub fn read_on(
    file: &mut impl Read,
    length: u64,
    buffer: &mut Vec<u8>,
    most: u64,
    progress: &mut Progress,
) -> io::Result<()> {
    if length > 0 {
        let whole = most.min(length.saturating_add(1)) as usize;
        buffer.try_reserve_exact(whole.saturating_sub(buffer.len()))?;
    }
    while (buffer.len() as u64) < most {
        let piece = PIECE.min(most - buffer.len() as u64);
        if buffer.len() == buffer.capacity() {
            buffer.try_reserve(piece as usize)?;
        }
        let room = piece.min((buffer.capacity() - buffer.len()) as u64);
        if file.by_ref().take(room).read_to_end(buffer)? == 0 {
            break;
        }
        progress.reading(buffer.len());
    }
    Ok(())
}

/// Puts the bytes of a file into the buffer in place of what it held. The library refuses more than
/// MOST_BYTES bytes, whatever they are, so that one more is enough to be refused and no further ones take
/// memory.
pub fn read(operand: &OsStr, buffer: &mut Vec<u8>, progress: &mut Progress) -> io::Result<()> {
    buffer.clear();
    let (mut file, length) = opened(operand)?;
    read_on(&mut file, length, buffer, MOST_BYTES as u64 + 1, progress)
}

/// A line without its end, LF or CR LF.
pub fn bare(line: &[u8]) -> &[u8] {
    line.strip_suffix(b"\r\n").or(line.strip_suffix(b"\n")).unwrap_or(line)
}

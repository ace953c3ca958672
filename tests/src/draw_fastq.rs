//! FASTQ files drawn from a fixed seed: whole ones with either line end, files with one damage, and the longest;
//! and whole and damaged ones of the kind that is asked for.

use crate::draw::Random;
use crate::draw_files::{damaged, drawn_byte, drawn_end, drawn_file, drawn_letters, drawn_marked};
use crate::files::{bare, Kind, FASTA};
use crate::sequences::MOST_BYTES;
use crate::settings::Settings;

/// The letters of up to 4 records, some of them without letters.
pub fn drawn_sequences(random: &mut Random, settings: &Settings, length: u64) -> Vec<Vec<u8>> {
    let mut sequences = Vec::new();
    for _ in 0..random.below(5) {
        let gap = [0, 7, 40, 400][random.below(4) as usize];
        let count = if random.below(6) == 0 { 0 } else { random.below(length + 1) as usize };
        sequences.push(drawn_letters(random, settings, count, gap));
    }
    sequences
}

/// A quality line: bytes of 33 to 126, about half of them the ends of that range or marks of lines.
pub fn drawn_quality(random: &mut Random, length: usize) -> Vec<u8> {
    let mut byte = || match random.below(2) {
        0 => drawn_byte(random, b"!~@+>"),
        _ => 33 + random.below(94) as u8,
    };
    (0..length).map(|_| byte()).collect()
}

/// A FASTQ file whose records have these letters, with LF, CR LF or both. The last line may have no end, but
/// not an empty one, which would be no line.
pub fn drawn_fastq_of(random: &mut Random, sequences: &[impl AsRef<[u8]>]) -> Vec<u8> {
    let ends = random.below(3);
    let mut file = Vec::new();
    for sequence in sequences.iter().map(AsRef::as_ref) {
        let (header, third) = (drawn_marked(random, b'@'), drawn_marked(random, b'+'));
        for line in [header, sequence.to_vec(), third, drawn_quality(random, sequence.len())] {
            file.extend(line);
            let end = match ends {
                0 => b"\n",
                1 => &b"\r\n"[..],
                _ => drawn_end(random),
            };
            file.extend(end);
        }
    }
    if random.below(2) == 0 && sequences.last().is_some_and(|sequence| !sequence.as_ref().is_empty()) {
        file.truncate(bare(&file).len());
    }
    file
}

/// A file that no ground of a FASTQ file's refuses.
pub fn drawn_fastq(random: &mut Random, settings: &Settings, length: u64) -> Vec<u8> {
    let sequences = drawn_sequences(random, settings, length);
    drawn_fastq_of(random, &sequences)
}

/// A FASTQ file with one damage: a byte changed, put in or lost, a part or a line lost, a line twice, an empty
/// line, other line ends. Some damages leave a file that is good.
pub fn damaged_fastq(random: &mut Random, mut file: Vec<u8>) -> Vec<u8> {
    let byte = match random.below(4) {
        0 => random.below(256) as u8,
        _ => drawn_byte(random, b"\r\r\n\n@+>AN*- !~\x1f\x7f\x80\xff\0"),
    };
    let place = random.below(file.len() as u64 + 1) as usize;
    match random.below(10) {
        0 | 1 => return with_damaged_line(random, &file),
        2 => return with_other_ends(random, &file),
        3 => file.truncate(place),
        4 => drop(file.drain(..place)),
        5 if place < file.len() => drop(file.remove(place)),
        6 | 7 if place < file.len() => file[place] = byte,
        8 => file.push(byte),
        _ => file.insert(place, byte),
    }
    file
}

/// One line lost, twice, or an empty one before it.
fn with_damaged_line(random: &mut Random, file: &[u8]) -> Vec<u8> {
    let mut lines: Vec<&[u8]> = file.split_inclusive(|&byte| byte == b'\n').collect();
    let place = random.below(lines.len() as u64 + 1) as usize;
    match random.below(3) {
        0 if place < lines.len() => drop(lines.remove(place)),
        1 if place < lines.len() => lines.insert(place, lines[place]),
        _ => lines.insert(place, drawn_end(random)),
    }
    lines.concat()
}

/// A CR before every LF, or no CR at all, or a CR in place of one LF or at the start.
fn with_other_ends(random: &mut Random, file: &[u8]) -> Vec<u8> {
    let mut lines: Vec<Vec<u8>> = file.split(|&byte| byte == b'\n').map(<[u8]>::to_vec).collect();
    match random.below(3) {
        0 => lines.join(&b"\r\n"[..]),
        1 => file.iter().copied().filter(|&byte| byte != b'\r').collect(),
        _ => {
            let place = random.below(lines.len() as u64) as usize;
            let rest = lines.split_off(place);
            [lines.join(&b'\n'), rest.join(&b'\n')].join(&b'\r')
        }
    }
}

/// A file of one kind that no ground of the file's refuses.
pub fn drawn_of(random: &mut Random, kind: Kind, settings: &Settings, length: u64) -> Vec<u8> {
    match kind {
        Kind::Fasta => drawn_file(random, settings, length),
        Kind::Fastq => drawn_fastq(random, settings, length),
    }
}

/// A whole file of a drawn kind, with the number that names its kind.
pub fn whole_file(random: &mut Random, settings: &Settings, length: u64) -> (u64, Vec<u8>) {
    let fastq = match random.below(2) {
        0 => FASTA,
        _ => random.draw().max(1),
    };
    (fastq, drawn_of(random, Kind::named(fastq), settings, length))
}

/// A file of one kind with one damage.
pub fn damaged_of(random: &mut Random, kind: Kind, settings: &Settings, file: Vec<u8>) -> Vec<u8> {
    match kind {
        Kind::Fasta => damaged(random, settings, file),
        Kind::Fastq => damaged_fastq(random, file),
    }
}

/// The letters of records that make a FASTQ file of just the most bytes: reads of 50 to 249 letters and a few
/// longer ones, with some foreign letters. Each record has 6 bytes besides letters and qualities.
pub fn long_sequences(random: &mut Random) -> Vec<Vec<u8>> {
    let mut left = MOST_BYTES;
    let mut sequences = Vec::new();
    while left > 0 {
        let length = if random.below(1000) == 0 { 20_000 } else { 50 + random.below(200) as usize };
        // The last record takes what is left, for which there is always room.
        let length = if left < 2 * length + 1000 { (left - 6) / 2 } else { length };
        let mut letter = || b"ACGTacgtACGTacgtACGTacgtACGTacgtN"[random.below(33) as usize];
        sequences.push((0..length).map(|_| letter()).collect());
        left -= 2 * length + 6;
    }
    sequences
}

/// As FASTQ, with bare marks for the first and the third lines.
pub fn long_fastq(random: &mut Random, sequences: &[Vec<u8>]) -> Vec<u8> {
    let record = |sequence: &Vec<u8>| {
        let quality = drawn_quality(random, sequence.len());
        [b"@\n", &sequence[..], b"\n+\n", &quality, b"\n"].concat()
    };
    sequences.iter().flat_map(record).collect()
}

//! Sequences and sequence files drawn from a fixed seed: letters with foreign ones among them, records in
//! lines of any width with either line end, files with one damage, and long ones.

use crate::draw::{drawn_near_palindrome, drawn_word, spelled_mixed, Random};
use crate::files::bare;
use crate::settings::{rank, Settings, COMPLEMENT};

/// One of some bytes.
pub fn drawn_byte(random: &mut Random, bytes: &[u8]) -> u8 {
    bytes[random.below(bytes.len() as u64) as usize]
}

/// Bytes that are no letter of the settings, likely ones first.
pub fn foreign_bytes(letters: &[u8]) -> Vec<u8> {
    let likely = b"N-Xn*@[`{ \n>".iter().copied();
    likely.chain(0..=255).filter(|&byte| rank(letters, byte).is_none()).collect()
}

/// The letters that are not in the settings, capitals first.
pub fn foreign_letters(letters: &[u8]) -> Vec<u8> {
    let all = (b'A'..=b'Z').chain(b'a'..=b'z');
    all.filter(|&letter| rank(letters, letter).is_none()).collect()
}

/// Letters of words and near palindromes, about half of them small and U for some T, with one of the foreign
/// bytes about once in `gap` bytes; 0 for none.
fn drawn_text(random: &mut Random, settings: &Settings, length: usize, gap: u64, foreign: &[u8]) -> Vec<u8> {
    let (s, complement) = (settings.letters.len(), settings.mirror == COMPLEMENT);
    let mut ranks = Vec::new();
    while ranks.len() < length {
        let word = match random.below(2) {
            0 => drawn_word(random, s, settings.k),
            _ => drawn_near_palindrome(random, s, settings.k, complement),
        };
        ranks.extend(word);
    }
    ranks.truncate(length);
    let mut text = spelled_mixed(random, &settings.letters, &ranks);
    for byte in text.iter_mut() {
        if gap > 0 && random.below(gap) == 0 {
            *byte = drawn_byte(random, foreign);
        }
    }
    text
}

/// A plain sequence, in which any byte may stand.
pub fn drawn_sequence(random: &mut Random, settings: &Settings, length: usize, gap: u64) -> Vec<u8> {
    drawn_text(random, settings, length, gap, &foreign_bytes(&settings.letters))
}

/// Letters for the lines of a file.
pub fn drawn_letters(random: &mut Random, settings: &Settings, length: usize, gap: u64) -> Vec<u8> {
    drawn_text(random, settings, length, gap, &foreign_letters(&settings.letters))
}

/// A line end of either kind.
pub fn drawn_end(random: &mut Random) -> &'static [u8] {
    if random.below(2) == 0 {
        b"\n"
    } else {
        b"\r\n"
    }
}

/// A line with a mark: the mark and up to 20 bytes, free but for LF.
pub fn drawn_marked(random: &mut Random, mark: u8) -> Vec<u8> {
    let length = random.below(21);
    let free = (0..length).map(|_| random.below(256) as u8).filter(|&byte| byte != b'\n');
    std::iter::once(mark).chain(free).collect()
}

/// A file that no ground of the file's refuses: up to 4 records, lines of any width with either end, empty
/// lines; the last line may have no end.
pub fn drawn_file(random: &mut Random, settings: &Settings, length: u64) -> Vec<u8> {
    let mut file = Vec::new();
    if random.below(4) == 0 {
        file.extend(drawn_end(random));
    }
    for _ in 0..random.below(5) {
        file.extend(drawn_marked(random, b'>'));
        file.extend(drawn_end(random));
        let gap = [0, 7, 40, 400][random.below(4) as usize];
        let count = random.below(length + 1) as usize;
        let text = drawn_letters(random, settings, count, gap);
        let most = [3, 70, 1500][random.below(3) as usize];
        let mut rest = &text[..];
        while !rest.is_empty() {
            let width = (random.below(most) as usize).min(rest.len());
            file.extend(&rest[..width]);
            file.extend(drawn_end(random));
            rest = &rest[width..];
        }
    }
    if random.below(2) == 0 {
        // Without a CR left over, which would be a stray byte of a sequence line.
        file.truncate(bare(&file).len());
    }
    file
}

/// A file with one damage: a byte changed or put in, a part lost, letters before the first header, a CR at
/// the end. Some damages leave a file that is good.
pub fn damaged(random: &mut Random, settings: &Settings, mut file: Vec<u8>) -> Vec<u8> {
    let byte = drawn_byte(random, b"\r\r\n>>*- 0@[`{z\0\x7f\x80\xff");
    let place = random.below(file.len() as u64 + 1) as usize;
    match random.below(6) {
        0 if place < file.len() => file[place] = byte,
        1 => drop(file.drain(..place)),
        2 => file.truncate(place),
        3 => {
            let before = drawn_letters(random, settings, 1 + place % 9, 3);
            file.splice(..0, [before, drawn_end(random).to_vec()].concat());
        }
        4 => file.push(b'\r'),
        _ => file.insert(place, byte),
    }
    file
}

/// A FASTA file of so many bytes: records of some 90,000 letters in lines of 80, with some foreign letters.
pub fn long_file(random: &mut Random, letters: &[u8], length: usize) -> Vec<u8> {
    let mut file = b">first\n".to_vec();
    let mut drawn = 0;
    while file.len() < length {
        if drawn % 91_003 == 91_002 {
            file.extend(b"\n>next\r\n");
        } else if drawn % 80 == 79 {
            file.push(b'\n');
        }
        let letter = letters[random.below(letters.len() as u64) as usize];
        file.push(if drawn % 5003 == 5002 { b'n' } else { letter });
        drawn += 1;
    }
    file.truncate(length);
    // The last byte is a letter, whatever was cut there.
    file[length - 1] = letters[0];
    file
}

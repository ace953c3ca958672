//! Listings drawn from a fixed seed: those of drawn tables, and copies with damages. A damage is one that is
//! likely to be no listing's shape, or one that keeps the shapes and makes another number, word or survey
//! line of one.

use crate::book::class_count;
use crate::draw::{drawn_code, drawn_word, spelled, Random};
use crate::draw_files::drawn_byte;
use crate::expected::coder;
use crate::second_counter::{listing_of, printed_line};
use crate::settings::{Settings, COMPLEMENT};
use crate::tables::drawn_table;

/// Bytes that a damaged listing is likely to hold.
const LIKELY: &[u8] = b"(()) \r\n\n0011299ACGTUacgtu\0\xff";

/// Counts of a table, one a class, and its listing. About one class of `sparse` is counted, a few times or
/// often.
pub fn drawn_listing(random: &mut Random, settings: &Settings, sparse: u64) -> (Vec<u32>, Vec<u8>) {
    let mut counts = drawn_table(random, settings, sparse);
    counts.truncate(class_count(settings) as usize);
    let text = listing_of(settings, &counts);
    (counts, text)
}

/// A listing with one damage, about one time in four with several. Some damages leave a listing that is good.
pub fn damaged_listing(random: &mut Random, settings: &Settings, text: &[u8]) -> Vec<u8> {
    let mut lines: Vec<Vec<u8>> = text.split_inclusive(|&byte| byte == b'\n').map(<[u8]>::to_vec).collect();
    loop {
        match random.below(8) {
            0 => return with_damaged_byte(random, lines.concat()),
            1 => damage_line_ends(random, &mut lines),
            2 => move_lines(random, &mut lines),
            3 | 4 => change_number(random, &mut lines),
            5 | 6 => change_word(random, settings, &mut lines),
            _ => lines[0] = other_survey_line(random, settings),
        }
        if lines.is_empty() || random.below(4) > 0 {
            return lines.concat();
        }
    }
}

/// A byte changed, lost or put in, or the text cut.
fn with_damaged_byte(random: &mut Random, mut text: Vec<u8>) -> Vec<u8> {
    let byte = match random.below(4) {
        0 => random.below(256) as u8,
        _ => drawn_byte(random, LIKELY),
    };
    let place = random.below(text.len() as u64 + 1) as usize;
    match random.below(8) {
        0 => text.truncate(place),
        1 => drop(text.drain(..place)),
        2 | 3 if place < text.len() => drop(text.remove(place)),
        4 | 5 if place < text.len() => text[place] = byte,
        _ => text.insert(place, byte),
    }
    text
}

/// One of the lines, by its place.
fn drawn_line(random: &mut Random, lines: &[Vec<u8>]) -> usize {
    random.below(lines.len() as u64) as usize
}

/// A line without its LF, with CR LF, with a space or with an empty line.
fn damage_line_ends(random: &mut Random, lines: &mut [Vec<u8>]) {
    let place = drawn_line(random, lines);
    let end: &[u8] = [&b""[..], b"\r\n", b" \n", b"\n\n"][random.below(4) as usize];
    if lines[place].last() == Some(&b'\n') {
        lines[place].pop();
    }
    lines[place].extend(end);
}

/// A line lost, twice, or at another's place.
fn move_lines(random: &mut Random, lines: &mut Vec<Vec<u8>>) {
    let (one, other) = (drawn_line(random, lines), drawn_line(random, lines));
    match random.below(5) {
        0 => drop(lines.remove(one)),
        1 => lines.insert(one, lines[one].clone()),
        2 => lines.insert(other, lines[one].clone()),
        3 => lines.push(lines[one].clone()),
        _ => lines.swap(one, other),
    }
}

/// Another number in place of a line's last one: near it, at the limits, above them by what a number of 32 or
/// 64 bits would lose, with a leading zero, or with many digits. About every other time the total is made the
/// sum again.
fn change_number(random: &mut Random, lines: &mut [Vec<u8>]) {
    let place = drawn_line(random, lines);
    let Some((before, number, after)) = last_number(&lines[place]) else { return };
    let digits = match random.below(14) {
        0 | 1 => number.saturating_add(1).to_string(),
        2 => number.saturating_sub(1).to_string(),
        3 => (1 + random.below(9)).to_string(),
        4 => random.below(1 << 32).to_string(),
        5 => "0".to_string(),
        6 => "4294967295".to_string(),
        7 => number.saturating_add(1 << 32).to_string(),
        8 => number.saturating_add(1 << 64).to_string(),
        9 => format!("0{number}"),
        10 => format!("1{}{number}", "0".repeat(random.below(40) as usize)),
        11 => String::new(),
        12 => number.saturating_mul(10).to_string(),
        _ => "4294967296".to_string(),
    };
    lines[place] = [&before, digits.as_bytes(), &after].concat();
    if random.below(2) == 0 {
        correct_total(lines);
    }
}

/// A line's last number, with what stands before and after it.
fn last_number(line: &[u8]) -> Option<(Vec<u8>, u128, Vec<u8>)> {
    let end = line.iter().rposition(u8::is_ascii_digit)? + 1;
    let start = line[..end].iter().rposition(|byte| !byte.is_ascii_digit())? + 1;
    let number = std::str::from_utf8(&line[start..end]).ok()?.parse().ok()?;
    Some((line[..start].to_vec(), number, line[end..].to_vec()))
}

/// Puts the sum of the counts into the last line, if it has a number.
fn correct_total(lines: &mut [Vec<u8>]) {
    let Some((last, others)) = lines.split_last_mut() else { return };
    let counts =
        others.iter().filter(|line| line.starts_with(b"(count ")).filter_map(|line| last_number(line));
    let sum = counts.fold(0, |sum: u128, (_, count, _)| sum.saturating_add(count));
    if let Some((before, _, after)) = last_number(last) {
        *last = [&before, sum.to_string().as_bytes(), &after].concat();
    }
}

/// Another word in a line of a class: its mirror, that of another class, one of any letters; one with a small
/// letter, a foreign one or U for T; one of another length.
fn change_word(random: &mut Random, settings: &Settings, lines: &mut [Vec<u8>]) {
    let place = drawn_line(random, lines);
    let parts: Vec<&[u8]> = lines[place].splitn(3, |&byte| byte == b' ').collect();
    let [b"(count", word, rest] = parts[..] else { return };
    let changed = other_word(random, settings, word);
    lines[place] = [b"(count", &changed[..], rest].join(&b' ');
}

fn other_word(random: &mut Random, settings: &Settings, word: &[u8]) -> Vec<u8> {
    let coder = coder(settings);
    let (letters, s, k) = (&settings.letters, settings.letters.len(), settings.k);
    let rank = |byte: &u8| letters.iter().position(|letter| letter == byte).map(|rank| rank as u8);
    let ranks: Option<Vec<u8>> = word.iter().map(rank).collect();
    let mut changed = word.to_vec();
    let at = random.below(word.len().max(1) as u64) as usize;
    match random.below(10) {
        0..=2 => return ranks.map_or(changed, |ranks| spelled(letters, &coder.mirror(&ranks))),
        3..=5 => {
            let code = drawn_code(random, coder.classes() as u64);
            return spelled(letters, &coder.word(code as u128).expect("a code below the number of classes"));
        }
        6 => return spelled(letters, &drawn_word(random, s, k)),
        7 if at < changed.len() => changed[at].make_ascii_lowercase(),
        8 if at < changed.len() => changed[at] = drawn_byte(random, b"UTN-"),
        9 if at < changed.len() => drop(changed.remove(at)),
        _ => changed.push(letters[0]),
    }
    changed
}

/// A survey line with its LF that is another one: of other settings, with another number of classes, with its
/// forms in another order, or with a value that is none. Now and then it is the line that is due.
fn other_survey_line(random: &mut Random, settings: &Settings) -> Vec<u8> {
    let mut other = settings.clone();
    match random.below(8) {
        0 => other.mirror = 1 - other.mirror,
        1 => other.k += 1,
        2 => other.k -= (other.k > 1) as usize,
        3 => other.letters.reverse(),
        4 => other.letters[0] = drawn_byte(random, b"ACGTUXYZ"),
        5 => drop(other.letters.pop()),
        _ => (),
    }
    // One letter has no classes.
    let line = if other.letters.len() < 2 { printed_line(settings) } else { printed_line(&other) };
    let mirror = if other.mirror == COMPLEMENT { "complement" } else { "reversal" };
    let changed = match random.below(12) {
        0 => line.replace("(k ", "(k 0"),
        1 => line.replace(mirror, "foo"),
        2 => line.replace(mirror, "Foo"),
        3 => line.replace("(classes ", "(classes 1"),
        4 => line.replace("(classes ", "(classes 0"),
        5 => line.replace(&format!(" (mirror {mirror})"), ""),
        6 => line.replacen("(letters", &format!("(mirror {mirror}) (letters"), 1),
        7 => line.to_lowercase(),
        _ => line,
    };
    format!("{changed}\n").into_bytes()
}

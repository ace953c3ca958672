//! A second loader of listings, written from document 02, K7, alone and not from the library. Nothing is kept
//! from line to line: the text is cut into lines, each line has its shape wherever it stands, each of the
//! grounds 20, 21 and 22 names its first line among all of them, and the first of these lines is the answer.
//! Of the other references it uses the second coder, the grounds for table calls, and of the second counter
//! the survey line as it is read.

use crate::book::{table_ground, TOP};
use crate::expected::{coder, Refusal};
use crate::second_coder::Coder;
use crate::second_counter::{parted, survey};
use crate::settings::Settings;

/// A line of one of the listing's shapes, with what it says.
enum Line {
    /// The settings, good or bad, and the number of classes.
    Survey(Settings, u128),
    /// The ranks of the word, and the count.
    Count(Vec<u8>, u128),
    Total(u128),
}

/// "Numbers have no leading zero but 0 itself": the value of a number. Those above 2^128 - 1 have this value,
/// which is no table's number of classes, count or sum.
fn number(text: &[u8]) -> Option<u128> {
    let leading_zero = text.starts_with(b"0") && text != b"0";
    let digits = !text.is_empty() && text.iter().all(u8::is_ascii_digit);
    let value = |value: u128, digit: &u8| value.saturating_mul(10).saturating_add((digit - b'0') as u128);
    (digits && !leading_zero).then(|| text.iter().fold(0, value))
}

/// "A word is k capitals of the settings (U for T is none)": its ranks.
fn word(settings: &Settings, text: &[u8]) -> Option<Vec<u8>> {
    let rank = |byte: &u8| settings.letters.iter().position(|letter| letter == byte).map(|rank| rank as u8);
    let ranks: Option<Vec<u8>> = text.iter().map(rank).collect();
    ranks.filter(|ranks| ranks.len() == settings.k)
}

/// A line with its end, if it has one of the shapes: "Lines end in LF", "the survey line is of the form the
/// program reads, classes last", and "anything else is none of the shapes".
fn shaped(settings: &Settings, line: &[u8]) -> Option<Line> {
    let line = line.strip_suffix(b"\n")?;
    if let Some((settings_line, classes)) = parted(line) {
        return Some(Line::Survey(survey(&settings_line)?, number(classes)?));
    }
    // Neither a word nor a number holds a space, so cutting at every space gives the name and the values.
    let parts: Vec<&[u8]> = line.strip_suffix(b")")?.split(|&byte| byte == b' ').collect();
    match parts[..] {
        [b"(count", spelling, count] => Some(Line::Count(word(settings, spelling)?, number(count)?)),
        [b"(total", total] => Some(Line::Total(number(total)?)),
        _ => None,
    }
}

/// "20 when a line has none of the listing's shapes, stands where another kind or none belongs, or is
/// missing": the first of these lines by its place, which for a missing line is the one after the last.
fn misplaced(lines: &[Option<Line>]) -> Option<usize> {
    let total = lines.iter().position(|line| matches!(line, Some(Line::Total(_))));
    // Without a total, any number of lines of classes may stand before the one that is missing.
    let end = total.unwrap_or(lines.len());
    let belongs = |place: usize| match lines[place] {
        Some(Line::Survey(..)) => place == 0,
        Some(Line::Count(..)) => (1..end).contains(&place),
        Some(Line::Total(_)) => place > 0 && place == end,
        None => false,
    };
    let missing = total.is_none().then_some(lines.len());
    (0..lines.len()).find(|&place| !belongs(place)).or(missing)
}

/// "21 when the survey line differs from the settings or their number of classes": its place, value by value.
fn differing(settings: &Settings, classes: usize, lines: &[Option<Line>]) -> Option<usize> {
    let Some(Some(Line::Survey(read, number))) = lines.first() else { return None };
    let same = read.letters == settings.letters
        && read.k == settings.k
        && read.mirror == settings.mirror
        && *number == classes as u128;
    (!same).then_some(0)
}

/// "22 when a word is not canonical, its code does not rise, a count is not 1 to 4,294,967,295, or the total
/// is not the sum": the first of these lines by its place.
fn wrong(coder: &Coder, lines: &[Option<Line>]) -> Option<usize> {
    let code = |place: usize| match &lines[place] {
        Some(Line::Count(word, _)) => Some(coder.code(word)),
        _ => None,
    };
    // The line before is a class's, whose code is compared, or has no code, which is less than any: such a
    // line is the survey line, or 20 applies to it or to this one.
    let rises = |place: usize| place == 0 || code(place - 1) < code(place);
    let count = |line: &Option<Line>| match line {
        Some(Line::Count(_, count)) => *count,
        _ => 0,
    };
    // Counts that are too high are at fault themselves, so that their sum may be any.
    let sum = |place: usize| lines[..place].iter().map(count).fold(0, u128::saturating_add);
    let right = |place: usize| match &lines[place] {
        Some(Line::Count(word, count)) => {
            coder.canonical(word) == *word && rises(place) && (1..=TOP as u128).contains(count)
        }
        Some(Line::Total(total)) => *total == sum(place),
        _ => true,
    };
    (0..lines.len()).find(|&place| !right(place))
}

/// The counts that a listing gives a table of so many places, one a class and "0 for a class not listed"; or
/// the ground: "the first line at fault wins, in that order within a line, after 7, and P is the line's
/// offset (for a missing line the text's length)". Document 01 bounds no other text than sequences, so that
/// of 6 only the number of classes is left.
pub fn loading(settings: &Settings, places: usize, text: &[u8]) -> Result<Vec<u32>, Refusal> {
    let classes = table_ground(settings, false, places)?;
    let coder = coder(settings);
    let parts: Vec<&[u8]> = text.split_inclusive(|&byte| byte == b'\n').collect();
    let lines: Vec<Option<Line>> = parts.iter().map(|part| shaped(settings, part)).collect();
    let faults =
        [(misplaced(&lines), 20), (differing(settings, classes, &lines), 21), (wrong(&coder, &lines), 22)];
    let first = faults.into_iter().filter_map(|(place, number)| Some((place?, number))).min();
    if let Some((place, number)) = first {
        return Err(Refusal { number, p: parts[..place].iter().map(|part| part.len() as u64).sum() });
    }
    let mut counts = vec![0; classes];
    for line in lines.into_iter().flatten() {
        if let Line::Count(word, count) = line {
            counts[coder.code(&word) as usize] = count as u32;
        }
    }
    Ok(counts)
}

//! Quotations of the demands and of documents 01 and 02, on the page of claims and in comments, and whether they stand
//! in the document word for word. White space is folded; ".." stands for words left out, and then the parts stand in
//! this order in one paragraph; the first letter may be a capital or not.

use crate::repository::read;

pub const DEMANDS: &str = "docs/DEMANDS.md";
pub const DOCUMENT_01: &str = "docs/SPECIFICATION.md";
pub const DOCUMENT_02: &str = "docs/CHANGES.md";

/// Shorter texts between quotation marks are names of sections, byte strings or words that are spoken of.
const FEWEST_WORDS: usize = 4;

fn folded(text: &str) -> String {
    text.split_whitespace().collect::<Vec<&str>>().join(" ")
}

/// The paragraphs of a document, without the marks of quotes, lists and bold words.
pub fn paragraphs(path: &str) -> Vec<String> {
    let text = read(path).replace("**", "");
    let bare = |line: &str| {
        line.trim_start_matches("> ").trim_start_matches("- ").trim_start_matches('>').to_string()
    };
    let lines: Vec<String> = text.lines().map(bare).collect();
    lines.split(|line| line.trim().is_empty()).map(|part| folded(&part.join("\n"))).collect()
}

/// Where the first occurrence of some words ends; they are not cut out of longer words.
fn end_of(text: &str, words: &str) -> Option<usize> {
    let is_word = |c: Option<char>| c.is_some_and(char::is_alphanumeric);
    let cuts = |at: usize| {
        let end = at + words.len();
        is_word(words.chars().next()) && is_word(text[..at].chars().next_back())
            || is_word(words.chars().next_back()) && is_word(text[end..].chars().next())
    };
    text.match_indices(words).find(|(at, _)| !cuts(*at)).map(|(at, _)| at + words.len())
}

/// Whether the parts stand in a paragraph, one after the other.
fn has_parts(paragraph: &str, parts: &[&str]) -> bool {
    let mut rest = Some(paragraph);
    for part in parts {
        rest = rest.and_then(|text| Some(&text[end_of(text, part)?..]));
    }
    rest.is_some()
}

/// The same words with a capital or a small letter at their start.
fn other_case(text: &str) -> String {
    let mut letters = text.chars();
    let first =
        letters
            .next()
            .map(|c| if c.is_uppercase() { c.to_ascii_lowercase() } else { c.to_ascii_uppercase() });
    first.into_iter().chain(letters).collect()
}

/// Whether a quotation stands in one of some paragraphs.
pub fn stands(paragraphs: &[String], quotation: &str) -> bool {
    let folded = folded(quotation);
    [other_case(&folded), folded].iter().any(|text| {
        let parts: Vec<&str> = text.split("..").map(str::trim).filter(|part| !part.is_empty()).collect();
        !parts.is_empty() && paragraphs.iter().any(|paragraph| has_parts(paragraph, &parts))
    })
}

/// A text without what stands in square brackets, and the space before it.
fn without_brackets(text: &str) -> String {
    let mut parts = text.split('[');
    let mut found = parts.next().unwrap_or_default().to_string();
    for part in parts {
        let (_, rest) = part.split_once(']').unwrap_or_else(|| panic!("no end of the bracket: {text}"));
        found = found.trim_end().to_string() + rest;
    }
    found
}

/// The quotations in the first column of a part of the page: each cell of its tables without what is ours.
pub fn first_cells(part: &str) -> Vec<String> {
    let lines: Vec<&str> = part.lines().collect();
    let rows =
        lines.windows(2).filter(|two| two[0].starts_with('|') && two[1].starts_with('|')).map(|two| two[1]);
    let cells = rows.filter(|row| !row.starts_with("|---")).filter_map(|row| row.split('|').nth(1));
    cells.map(|cell| without_brackets(cell.trim())).filter(|cell| !cell.is_empty()).collect()
}

/// The comments of a text, each with all of its lines; `mark` begins a line of a comment.
pub fn comments(text: &str, mark: &str) -> Vec<String> {
    let mut found = vec![String::new()];
    for line in text.lines().map(str::trim) {
        match line.strip_prefix(mark) {
            Some(rest) => {
                *found.last_mut().expect("a comment") += &format!("{}\n", rest.trim_start_matches(['/', '!']))
            }
            None => found.push(String::new()),
        }
    }
    found.retain(|comment| !comment.is_empty());
    found
}

/// The quotations of a text that are long enough: what stands between quotation marks.
pub fn quotations(text: &str) -> Vec<&str> {
    let quoted = text.split('"').skip(1).step_by(2);
    quoted.filter(|part| part.split_whitespace().count() >= FEWEST_WORDS).collect()
}

//! docs/CLAIMS.md cites files, must-fail edits, functions, definitions and theorems. Each of them is there: a
//! path is a file, an edit is in its crate's must-fail folder, a function is in its crate's source, and every
//! other name is declared in the file that the page's index says. The index, and how many lines must be believed,
//! are what the command `claims` writes. And what the page, the definitions, the proofs, the sources and the tests
//! quote of the demands and of documents 01 and 02 stands there word for word.

use kmer_tests::claims::*;
use kmer_tests::quotations::*;
use kmer_tests::repository::{crate_texts, read, texts};

#[test]
fn what_the_page_cites_is_there() {
    let page = read(PAGE);
    let missing = missing(&page);
    assert!(missing.is_empty(), "neither in the index nor a file, an edit or a function: {missing:?}");
}

#[test]
fn every_edit_is_named() {
    let page = read(PAGE);
    let edits = crate_texts("must-fail");
    assert!(edits.len() > 150, "only {} edits", edits.len());
    for path in edits.keys() {
        let name = path.replace("/must-fail/", "/").replace(".edit", "");
        assert!(page.contains(&format!("`{name}`")), "{PAGE} does not name {name}");
    }
}

#[test]
fn the_index_and_the_counts_are_as_the_command_writes_them() {
    let page = read(PAGE);
    let written = written(&page).unwrap_or_else(|what| panic!("{PAGE}: {what}"));
    for (line, right) in page.lines().zip(written.lines()) {
        assert_eq!(line, right, "{PAGE} is not up to date. Run, from the repository's root: {COMMAND}");
    }
    assert!(page == written, "{PAGE} is not up to date. Run, from the repository's root: {COMMAND}");
}

/// The command mends an index that lacks a name, has one too many or another order, and numbers that are off.
#[test]
fn the_command_mends_the_page() {
    let page = written(&read(PAGE)).unwrap_or_else(|what| panic!("{PAGE}: {what}"));
    let edits = [
        ("| `classes-suc`, `twice_classes` |", "| `twice_classes` |"),
        ("| `classes-suc`, `twice_classes` |", "| `twice_classes`, `classes-suc` |"),
        ("| `encoding/proofs/Bounds.antt` | `value_lt` |\n", ""),
        ("| `value_lt` |", "| `made-up`, `value_lt` |"),
        ("`settings/specs/Grounds.antt` ", "`settings/specs/Grounds.antt` 1"),
        (" in all.", "0 in all."),
        (" lines on which no sentence", "7 lines on which no sentence"),
    ];
    for (old, new) in edits {
        let edited = page.replacen(old, new, 1);
        assert!(edited != page, "the page has no more {old:?}");
        assert!(written(&edited).as_ref() == Ok(&page), "{new:?} is not mended");
    }
}

/// The quotations of the page's tables, each with the document that it is of.
fn quoted_in_tables() -> Vec<(String, &'static str)> {
    let page = read(PAGE);
    let sections = [("Demands", DEMANDS), ("Document 01", DOCUMENT_01), ("Document 02", DOCUMENT_02)];
    let mut found = Vec::new();
    for part in page.split("\n## ").skip(1) {
        let document = sections.iter().find(|(head, _)| part.starts_with(head)).map(|(_, path)| *path);
        found.extend(
            document.into_iter().flat_map(|path| first_cells(part).into_iter().map(move |q| (q, path))),
        );
    }
    found
}

#[test]
fn the_tables_quote_word_for_word() {
    let quotations = quoted_in_tables();
    assert!(quotations.len() > 180, "{} quotations", quotations.len());
    for (quotation, path) in quotations {
        assert!(stands(&paragraphs(path), &quotation), "{path} has no such words: {quotation}");
    }
}

/// A quotation with one of its words left out does not stand, if it is not the first or the last of a part.
#[test]
fn a_word_left_out_is_noticed() {
    for (quotation, path) in quoted_in_tables() {
        let (words, document) = (quotation.split(' ').collect::<Vec<&str>>(), paragraphs(path));
        for place in 1..words.len().saturating_sub(1) {
            if words[place - 1..=place + 1].contains(&"..") {
                continue;
            }
            let without = [&words[..place], &words[place + 1..]].concat().join(" ");
            assert!(!stands(&document, &without), "not noticed: {without}");
        }
    }
}

/// Quotations of four words or more, in the page's other cells and passages. They may also be of the pages on
/// decisions and claims, whose rows and sections have names.
#[test]
fn the_page_quotes_word_for_word() {
    let pages = [DEMANDS, DOCUMENT_01, DOCUMENT_02, "docs/DECISIONS.md"];
    let mut known: Vec<String> = pages.into_iter().flat_map(paragraphs).collect();
    let page = read(PAGE);
    known.extend(page.lines().filter(|line| line.starts_with('#')).map(str::to_string));
    assert!(page.matches('"').count() % 2 == 0, "a quotation has no end");
    for quotation in quotations(&page) {
        assert!(stands(&known, quotation), "no page has such words: {quotation}");
    }
}

#[test]
fn comments_quote_word_for_word() {
    let known: Vec<String> = [DEMANDS, DOCUMENT_01, DOCUMENT_02].into_iter().flat_map(paragraphs).collect();
    let crates = ["specs", "proofs", "src"].into_iter().flat_map(crate_texts);
    let tests = ["tests/src", "tests/tests"].into_iter().flat_map(texts);
    let (mut count, mut wrong) = (0, Vec::new());
    for (path, text) in crates.chain(tests) {
        for comment in comments(&text, if path.ends_with(".antt") { "--" } else { "//" }) {
            assert!(comment.matches('"').count() % 2 == 0, "{path}: a quotation has no end: {comment}");
            let quoted = quotations(&comment);
            count += quoted.len();
            wrong.extend(quoted.iter().filter(|q| !stands(&known, q)).map(|q| format!("{path}: {q}")));
        }
    }
    assert!(wrong.is_empty(), "no document has such words: {wrong:#?}");
    assert!(count > 400, "{count} quotations");
}

//! The stored answers for word coding, code reading and codes along a sequence (vectors/words.txt,
//! vectors/k10_calls.txt, vectors/k02_calls.txt and vectors/k03_calls.txt), held against the calls and against the
//! second coder with its grounds. Those for mirroring are in mirror.rs, those for listings in listing.rs, those for files
//! that are made in generated.rs. And vectors/README.md, which says which test holds each file, has all of them.

use kmer_tests::expected::{check_code, check_word, coding, reading};
use kmer_tests::repository::texts;
use kmer_tests::sequences::{along, check_codes};
use kmer_tests::vectors::{bytes, number, vectors};
use std::collections::BTreeMap;

#[test]
fn stored_codes() {
    for vector in vectors("code", [115, 54, 6, 0, 0]) {
        let word = bytes(vector.given);
        check_code(&vector.settings, &word, vector.stored_code());
        vector.check_second_code(coding(&vector.settings, &word));
    }
}

#[test]
fn stored_words() {
    for vector in vectors("word", [88, 59, 0, 0, 0]) {
        let code = vector.given.parse().expect("code");
        check_word(&vector.settings, code, vector.room, &vector.stored_bytes());
        vector.check_second_bytes(reading(&vector.settings, code, vector.room));
    }
}

#[test]
fn stored_codes_along_sequences() {
    for vector in vectors("codes", [0, 19, 197, 240, 0]) {
        let sequence = bytes(vector.given);
        check_codes(&vector.settings, &sequence, vector.room, &vector.stored_codes());
        vector.check_second_codes(along(&vector.settings, &sequence, vector.room));
    }
}

/// How many answers a stored file has: a line each, or a name each of the program's, or the one listing.
fn answers(text: &str) -> usize {
    let lines: Vec<&str> = text.lines().filter(|line| !line.starts_with('#')).collect();
    match lines[0].chars().next() {
        Some('=') => lines.iter().filter(|line| line.starts_with("= ")).count(),
        Some('(') => 1,
        _ => lines.len(),
    }
}

/// Each file of the folder has its row, with as many answers as it has; and the tests that the page names are there.
#[test]
fn the_page_on_the_stored_answers() {
    let (mut stored, tests) =
        (texts("tests/vectors"), texts("tests/tests").into_values().collect::<String>());
    let page = stored.remove("tests/vectors/README.md").expect("the page");
    let mut said = BTreeMap::new();
    for row in page.lines().filter(|line| line.starts_with("| `")) {
        let cells: Vec<&str> = row.split('|').map(str::trim).collect();
        said.insert(format!("tests/vectors/{}", cells[1].trim_matches('`')), number(cells[2]));
        let named = cells[5].split(';').next().expect("tests").split('`').skip(1).step_by(2);
        for name in named.filter(|name| !name.ends_with(".rs")) {
            assert!(tests.contains(&format!("\nfn {name}() {{")), "{name} is no test");
        }
    }
    said.retain(|path, _| !path.contains("/crates/"));
    assert_eq!(said, stored.into_iter().map(|(path, text)| (path, answers(&text))).collect());
}

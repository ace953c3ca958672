//! `wontirje code`, `word` and `classes`: from arguments and from standard input, beside the second coder.

mod run;

use kmer_tests::draw::*;
use kmer_tests::expected::{coding, reading};
use kmer_tests::settings::*;
use run::{options, run, run_as, run_with, WONTIRJE};
use std::ffi::OsString;
use std::process::Command;

/// The cases of document 01.
#[test]
fn codes_and_words_of_document_01() {
    let run_text = |arguments: &[&str]| run(arguments).text().to_string();
    assert_eq!(run_text(&["code", "--k", "8", "TACGGCTA", "TAGCCGTA"]), "1571\n1571\n");
    assert_eq!(run_text(&["word", "--k", "8", "1571"]), "TACGGCTA\n");
    assert_eq!(run_text(&["code", "--k", "6", "--mirror", "reversal", "AAAACA", "ttgttt"]), "160\n159\n");
    let all = ["word", "--k", "2", "0", "1", "2", "3", "4", "5", "6", "7", "8", "9"];
    assert_eq!(run_text(&all), "AT\nCG\nGC\nTA\nAG\nAC\nAA\nCC\nCA\nGA\n");
    let last = format!("G{}A\n", "T".repeat(29));
    assert_eq!(run_text(&["word", "--k", "31", "2305843009213693951"]), last);
}

/// The case of document 02, K10, and more of its kind: an odd number of letters under complement.
#[test]
fn codes_and_words_of_odd_alphabets() {
    let run_text = |arguments: &[&str]| run(arguments).text().to_string();
    assert_eq!(run_text(&["code", "--letters", "ABC", "--k", "1", "B", "A", "C"]), "0\n1\n1\n");
    let classes = run_text(&["classes", "--letters", "ABC", "1", "3", "39"]);
    let right = "k 1: 2 classes, table 8 bytes\nk 3: 15 classes, table 60 bytes\n\
        k 39: 2026277577090618867 classes, too many for a table\n";
    assert_eq!(classes, right);
    let run = run_with(&["word", "--letters", "ABC", "--k", "3"], b"0\n1\n2\n3\n14\n15\n");
    assert_eq!((run.status, run.text()), (1, "ABC\nBBB\nCBA\nAAC\nBCA\n"));
    assert_eq!(run.complaints(), ["15: refused 8: the code is not below the number of classes, 15"]);
}

#[test]
fn sizes_of_tables() {
    let run = run(&["classes", "1", "11", "12", "13", "31", "32", "18446744073709551616", "x"]);
    assert_eq!(run.status, 1);
    let right = "k 1: 2 classes, table 8 bytes\nk 11: 2097152 classes, table 8388608 bytes\n\
        k 12: 8390656 classes, table 33562624 bytes\nk 13: 33554432 classes, too many for a table\n\
        k 31: 2305843009213693952 classes, too many for a table\n";
    assert_eq!(run.text(), right);
    let refused = [
        "32: refused 4: k is 0, or there are more than 2^62 words of k letters",
        "18446744073709551616: not a k: a number below 2^64 in decimal digits",
        "x: not a k: a number below 2^64 in decimal digits",
    ];
    assert_eq!(run.complaints(), refused);
    let run = run_with(&["classes", "--letters", "ABC", "--mirror", "reversal", "--k", "2"], b"9\n");
    assert_eq!((run.status, run.text()), (0, "k 2: 6 classes, table 24 bytes\n"));
    let run = run_with(&["classes", "--letters", "ABC", "--mirror", "reversal", "-"], b"2\n1\n");
    assert_eq!(run.text(), "k 2: 6 classes, table 24 bytes\nk 1: 3 classes, table 12 bytes\n");
}

/// Lines of standard input, with either end; a refused one is told and does not stop the others.
#[test]
fn lines_of_standard_input() {
    for operand in [&["code", "--k", "4"][..], &["code", "--k", "4", "-"]] {
        let run = run_with(operand, b"ACGT\nACG\nAC*T\r\n\nacgt\r\nTTTT");
        assert_eq!((run.status, run.text()), (1, "4\n4\n72\n"), "{operand:?}");
        let refused = [
            "ACG: refused 5: the word has not k letters: its length is 3, k is 4",
            "AC*T: refused 9: a byte of the word is no letter of the settings: letter 3 of the word",
            "an empty line: refused 5: the word has not k letters: its length is 0, k is 4",
        ];
        assert_eq!(run.complaints(), refused);
    }
    let run = run_with(&["word", "--k", "1"], b"0\n1\n2\n-1\n+1\n18446744073709551616\n\n0");
    assert_eq!((run.status, run.text()), (1, "C\nA\nC\n"));
    let no_code = "not a code: a number below 2^64 in decimal digits";
    let refused = [
        String::from("2: refused 8: the code is not below the number of classes, 2"),
        format!("-1: {no_code}"),
        format!("+1: {no_code}"),
        format!("18446744073709551616: {no_code}"),
        format!("an empty line: {no_code}"),
    ];
    assert_eq!(run.complaints(), refused);
    let run = run_with(&["code"], b"");
    assert_eq!((run.status, run.text(), &run.err[..]), (0, "", ""));
}

/// A line of more than 65,536 bytes, its end included, is refused by its number and does not stop the others.
#[test]
fn lines_too_long() {
    let longest = ["0".repeat(65_534), String::from("2\n")].concat();
    let lines =
        [&longest, "0", &longest, "3\n", &"1".repeat(200_000), "\r\n4\n", &"5".repeat(65_537)].concat();
    let run = run_with(&["word", "--k", "2"], lines.as_bytes());
    assert_eq!((run.status, run.text()), (1, "GC\nTA\nAG\n"));
    let refused = [2, 4, 6].map(|line| format!("line {line}: more than 65,536 bytes"));
    assert_eq!(run.complaints(), refused);
}

/// Such a line takes no memory: the command has 32 MiB, the line twice as many.
#[test]
fn a_line_above_the_memory() {
    let script = "ulimit -v 32768 && exec \"$0\" code --k 4";
    let lines = [&b"ACGT\n"[..], &vec![b'A'; 64 << 20], b"\nTTTT\n"].concat();
    let run = run_as(Command::new("sh").args(["-c", script, WONTIRJE]), &lines);
    assert_eq!((run.status, run.text()), (1, "4\n72\n"), "{}", run.err);
    assert_eq!(run.complaints(), ["line 2: more than 65,536 bytes"]);
}

/// U in a word is read as T where the letters have T and no U; under letters with U it is T that is refused.
#[test]
fn words_with_u() {
    let under_t = run(&["code", "--k", "2", "UA", "ua", "U*"]);
    assert_eq!((under_t.status, under_t.text()), (1, "3\n3\n"));
    let refused = "U*: refused 9: a byte of the word is no letter of the settings: letter 2 of the word";
    assert_eq!(under_t.complaints(), [refused]);
    let under_u = run(&["code", "--k", "2", "--letters", "ACGU", "UA", "TA"]);
    assert_eq!((under_u.status, under_u.text()), (1, "3\n"));
    let refused = "TA: refused 9: a byte of the word is no letter of the settings: letter 1 of the word";
    assert_eq!(under_u.complaints(), [refused]);
}

/// Arguments are refused one by one too, an empty one among them.
#[test]
fn refused_arguments() {
    let run = run(&["code", "--k", "2", "", "A", "AC", "a*"]);
    assert_eq!((run.status, run.text()), (1, "5\n"));
    let refused = [
        "an empty argument: refused 5: the word has not k letters: its length is 0, k is 2",
        "A: refused 5: the word has not k letters: its length is 1, k is 2",
        "a*: refused 9: a byte of the word is no letter of the settings: letter 2 of the word",
    ];
    assert_eq!(run.complaints(), refused);
}

/// Settings of every size, words and codes through both commands, beside the second coder.
#[test]
fn drawn_words_and_codes() {
    let mut random = Random::new(161);
    for (s, mirror, k) in good_sizes().into_iter().step_by(3) {
        let settings = Settings::new(&drawn_capitals(&mut random, s), k, mirror);
        let (mut input, mut codes, mut words) = (Vec::new(), String::new(), String::new());
        for _ in 0..20 {
            let word = drawn_near_palindrome(&mut random, s, k, mirror == COMPLEMENT);
            let word = spelled_mixed(&mut random, &settings.letters, &word);
            let code = coding(&settings, &word).expect("a code");
            let canonical = reading(&settings, code, k).expect("a word");
            input.extend([&word[..], b"\n"].concat());
            codes += &format!("{code}\n");
            words += &format!("{}\n", canonical.escape_ascii());
        }
        let with = |name: &str| [vec![OsString::from(name)], options(&settings)].concat();
        let run = run_with(&with("code"), &input);
        assert_eq!((run.status, run.text()), (0, &codes[..]), "{settings}: {}", run.err);
        let run = run_with(&with("word"), codes.as_bytes());
        assert_eq!((run.status, run.text()), (0, &words[..]), "{settings}: {}", run.err);
    }
}

//! The first line of a listing that is loaded (document 02, K7: "the survey line is of the form the program
//! reads, classes last" and "21 when the survey line differs from the settings or their number of classes"):
//! lines of that form with other values, lines of other forms, and each setting's line under all other
//! settings.

use kmer_tests::book::class_count;
use kmer_tests::draw::first_capitals;
use kmer_tests::loads::*;
use kmer_tests::program_cases::malformed_lines;
use kmer_tests::second_counter::printed_line;
use kmer_tests::sequences::{two_bit_settings, MOST_BYTES};
use kmer_tests::settings::*;
use kmer_tests::tables::sizes_up_to;
use std::collections::BTreeMap;

/// The number and P for an empty listing with this first line, under ACGT, complement, k 2.
fn found(line: &[u8]) -> (u64, u64) {
    check_fresh_load(&two_bit_settings(2), 12, &[line, b"\n(total 0)\n"].concat())
}

/// The line with these values of letters, k, mirror and classes.
fn line(letters: &[u8], k: &str, mirror: &str, classes: &str) -> Vec<u8> {
    let rest = format!(") (k {k}) (mirror {mirror}) (classes {classes}))");
    [b"(survey (letters ", letters, rest.as_bytes()].concat()
}

/// Values, parted by bars, of a line whose other values are those of the settings: `other` ones are well
/// formed and give 21, those that are `none` give 20.
fn check_values(line: impl Fn(&str) -> Vec<u8>, right: &str, other: &str, none: &str) {
    for (values, number) in [(right, 0), (other, 21), (none, 20)] {
        for value in values.split('|') {
            assert_eq!(found(&line(value)), (number, 0), "{value:?}");
        }
    }
}

/// "Letters are one or more bytes other than brackets, spaces, CR and LF" (document 01); those of the
/// settings alone are loaded.
#[test]
fn letters() {
    check_values(
        |letters| line(letters.as_bytes(), "2", "complement", "10"),
        "ACGT",
        "ACG|A|ACGTA|ACGU|TGCA|ACTG|acgt|ACGt|ABCDEFGHIJKLMNOPQRSTUVWXYZ|A,C,G,T|1|\"ACGT\"|[|]|{|\0|\t|\x0b|\
        \x7f|\u{a0}|\u{2028}|\u{ff21}",
        "| |ACGT |AC GT| ACGT|AC(GT|AC)GT|(|)|()|AC\rGT|ACGT\r|AC\nGT|ACGT) (k 2",
    );
}

/// Every byte as a letter more.
#[test]
fn every_byte_among_the_letters() {
    for byte in 0..=255 {
        let number = if b"() \r\n".contains(&byte) { 20 } else { 21 };
        for letters in [[byte].to_vec(), [b"ACGT", &[byte][..]].concat(), [&[byte], &b"ACGT"[..]].concat()] {
            assert_eq!(found(&line(&letters, "2", "complement", "10")), (number, 0), "byte {byte}");
        }
    }
}

/// "k is 1 to 3 digits with no leading zero except 0 itself" (document 01).
#[test]
fn k() {
    check_values(
        |k| line(b"ACGT", k, "complement", "10"),
        "2",
        "0|1|3|9|10|20|22|62|63|200|258|999",
        "|02|002|00|000|1000|0002|4294967298|18446744073709551618|-2|+2|2.0|two|2 | 2|2,|\u{662}|2) (k 2",
    );
}

/// "The mirror is one or more small letters" (document 01).
#[test]
fn the_mirror() {
    check_values(
        |mirror| line(b"ACGT", "2", mirror, "10"),
        "complement",
        "reversal|foo|z|a|complemen|complements|reversecomplement|ccomplement",
        "|Complement|COMPLEMENT|complemenT|1|0|complement1| complement|complement |comple-ment|comple ment|`|\
        {|compl\u{e9}ment|complement\r|complement) (mirror complement",
    );
}

/// Numbers of classes of any length, among them what number types of 8 to 128 bits would take for 10.
#[test]
fn the_number_of_classes() {
    let with = |classes: &str| line(b"ACGT", "2", "complement", classes);
    check_values(
        with,
        "10",
        "0|1|9|11|100|16|266|65546|4294967306|18446744073709551626|18446744073709551616|\
        340282366920938463463374607431768211466|999999999999999999999999999999|\
        1000000000000000000000000000010",
        "|010|0010|00|ten|-10|+10|10 | 10|10.0|1 0|10)|(10|0xa|10\r|10) (classes 10|10) (k 2",
    );
    let long = "10".repeat(50_000);
    assert_eq!(found(&with(&long)), (21, 0));
    assert_eq!(found(&with(&format!("0{long}"))), (20, 0));
    assert_eq!(found(&with(&format!("{long} "))), (20, 0));
}

/// Where two values differ 20 comes before 21: "in that order within a line".
#[test]
fn one_value_that_is_none_beside_another_that_differs() {
    for (letters, k, mirror, classes, number) in [
        ("acgt", "0", "foo", "0", 21),
        ("AB", "3", "reversal", "6", 21),
        ("AB", "03", "reversal", "6", 20),
        ("AB", "3", "Reversal", "6", 20),
        ("AB", "3", "reversal", "06", 20),
        ("", "3", "reversal", "6", 20),
        ("acgt", "1000", "foo", "0", 20),
    ] {
        let line = line(letters.as_bytes(), k, mirror, classes);
        assert_eq!(found(&line), (number, 0), "{}", line.escape_ascii());
    }
    // Without its LF, and with CR LF, a line has none of the shapes, whatever its settings.
    let other = line(b"AB", "3", "reversal", "6");
    for text in
        [other.clone(), [&other[..], b"\r\n(total 0)\n"].concat(), [&other[..], b"(total 0)\n"].concat()]
    {
        assert_eq!(check_fresh_load(&two_bit_settings(2), 10, &text), (20, 0), "{}", text.escape_ascii());
    }
}

/// Lines that the program refuses 13, as they are and with the number of classes before the last bracket. As
/// they are, one is the line that is due and six are those of other settings or numbers of classes.
#[test]
fn lines_that_are_no_survey_lines() {
    let mut numbers = BTreeMap::new();
    for line in malformed_lines(225) {
        *numbers.entry(found(&line)).or_insert(0) += 1;
        let inner = line.strip_suffix(b")").unwrap_or(&line);
        assert_eq!(found(&[inner, b" (classes 10))"].concat()), (20, 0), "{}", line.escape_ascii());
    }
    assert_eq!(numbers, BTreeMap::from([((0, 0), 1), ((21, 0), 6), ((20, 0), 218)]));
}

/// Every four forms of the four kinds, in every order, and every three: the order of document 02, K5 and K6,
/// with each form once, is the only one. And with a form more.
#[test]
fn forms_in_another_order() {
    let forms = ["(letters ACGT)", "(k 2)", "(mirror complement)", "(classes 10)"];
    let mut right = 0;
    for order in 0..256usize {
        let places = [order >> 6, order >> 4 & 3, order >> 2 & 3, order & 3];
        let line = format!("(survey {})", places.map(|place| forms[place]).join(" "));
        let number = if places == [0, 1, 2, 3] { 0 } else { 20 };
        assert_eq!(found(line.as_bytes()), (number, 0), "{line}");
        right += (number == 0) as usize;
        let three = format!("(survey {})", [0, 1, 2].map(|at| forms[places[at]]).join(" "));
        assert_eq!(found(three.as_bytes()), (20, 0), "{three}");
    }
    assert_eq!(right, 1);
    for form in ["(classes 10)", "(pattern 11)", "(collapse)", "(foo 1)", ""] {
        let (before, after) = (forms[..3].join(" "), forms[3]);
        for line in [format!("(survey {before} {form} {after})"), format!("(survey {before} {after} {form})")]
        {
            assert_eq!(found(line.as_bytes()), (20, 0), "{line}");
        }
    }
}

/// Every size's line under every size. Some sizes have as many classes as others.
#[test]
fn the_lines_of_other_settings() {
    let sizes = sizes_up_to(100).into_iter();
    let all: Vec<Settings> =
        sizes.map(|(s, mirror, k)| Settings::new(&first_capitals(s), k, mirror)).collect();
    for (at, own) in all.iter().enumerate() {
        for (other_at, other) in all.iter().enumerate() {
            let text = format!("{}\n(total 0)\n", printed_line(other));
            let places = class_count(own) as usize + 1;
            let number = if at == other_at { 0 } else { 21 };
            assert_eq!(check_fresh_load(own, places, text.as_bytes()), (number, 0), "{own}: {text}");
        }
    }
}

/// "No other text is bounded by this" (document 01, ground 6): lines longer than any sequence file may be.
#[test]
fn lines_longer_than_any_sequence_file() {
    let digits = "7".repeat(MOST_BYTES + 1);
    let survey = line(b"ACGT", "2", "complement", "10");
    let total = format!("\n(total {digits})\n");
    let count = format!("\n(count AA {digits})\n(total {digits})\n");
    let no_word = format!("\n(count {} 1)\n(total 1)\n", "A".repeat(MOST_BYTES + 1));
    for (text, found) in [
        ([&line(b"ACGT", "2", "complement", &digits)[..], b"\n(total 0)\n"].concat(), (21, 0)),
        ([&line(digits.as_bytes(), "2", "complement", "10")[..], b"\n(total 0)\n"].concat(), (21, 0)),
        ([&survey[..], total.as_bytes()].concat(), (22, 63)),
        ([&survey[..], count.as_bytes()].concat(), (22, 63)),
        ([&survey[..], no_word.as_bytes()].concat(), (20, 63)),
    ] {
        assert_eq!(check_fresh_load(&two_bit_settings(2), 10, &text), found, "{}", shown(&text));
    }
}

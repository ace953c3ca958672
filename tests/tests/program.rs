//! The counter program (document 01, "Listing and counter program"), run as its users run it: stored answers
//! of independent references, cases worked out by hand, an input cut at every byte, and drawn inputs beside
//! the second counter. Every run must end with status 0 and nothing on standard error.

use kmer_tests::book::class_count;
use kmer_tests::draw::{first_capitals, Random};
use kmer_tests::draw_files::drawn_byte;
use kmer_tests::draw_inputs::Inputs;
use kmer_tests::files::Kind;
use kmer_tests::program::*;
use kmer_tests::program_cases::*;
use kmer_tests::second_counter::{answer, MOST_INPUT, PLACES};
use kmer_tests::settings::{good_sizes, largest_k, shown_file, Settings};

/// How many inputs are drawn.
const DRAWN: usize = 6000;

/// The file of document 01's example.
const FILE: &[u8] = b">a\nACGTN\n>b\nAG\nCT\n";

#[test]
fn stored_answers() {
    check_each(&vectors([199, 153, 154, 162, 34, 30, 200, 200, 40, 40]), check_stored);
}

#[test]
fn cases_worked_out_by_hand() {
    let cases = cases_by_hand(160);
    check_each(&cases, check_stored);
    // The program gives these grounds, and each has its cases.
    for number in [1, 2, 4, 6, 7, 10, 11, 13, 14, 19] {
        let ground = format!("(refused {number} ").into_bytes();
        let count = cases.iter().filter(|case| case.output.starts_with(&ground)).count();
        assert!(count >= 2, "{count} cases of ground {number}");
    }
}

/// Each with every end that the first line may have, and with a file after it.
#[test]
fn lines_that_are_no_survey_lines() {
    check_each(&malformed_lines(225), |line| {
        for rest in [&b""[..], b"\n", b"\r\n", b"\n>a\nACGT\n", b"\r\n>a\nACGT\n"] {
            let input = [line, rest].concat();
            assert_eq!(answer(&input), b"(refused 13 0)\n", "the second counter: {}", shown_file(&input));
            check_prints(&input, b"(refused 13 0)\n");
        }
    });
}

/// What the example prints where its file is cut to so many bytes: its count lines and five numbers, by hand.
/// The classes by rising code are AT CG GC TA AG AC AA CC CA GA.
fn example_cut_to(length: usize) -> (&'static [&'static str], [usize; 5]) {
    match length {
        0 => (&[], [0, 0, 0, 0, 0]),
        1..=3 => (&[], [1, 0, 0, 0, 0]),
        4 => (&[], [1, 1, 0, 1, 0]),
        5 => (&["AC 1"], [1, 2, 0, 1, 1]),
        6 => (&["CG 1", "AC 1"], [1, 3, 0, 1, 2]),
        7 => (&["CG 1", "AC 2"], [1, 4, 0, 1, 3]),
        8..=9 => (&["CG 1", "AC 2"], [1, 5, 1, 1, 3]),
        10..=12 => (&["CG 1", "AC 2"], [2, 5, 1, 1, 3]),
        13 => (&["CG 1", "AC 2"], [2, 6, 1, 2, 3]),
        14..=15 => (&["CG 1", "AG 1", "AC 2"], [2, 7, 1, 2, 4]),
        16 => (&["CG 1", "GC 1", "AG 1", "AC 2"], [2, 8, 1, 2, 5]),
        _ => (&["CG 1", "GC 1", "AG 2", "AC 2"], [2, 9, 1, 2, 6]),
    }
}

/// What the example prints where its input is cut to so many bytes: a cut in the survey line leaves none,
/// until all of it but its LF is there.
fn example_output(cut: usize) -> String {
    if cut < LINE.len() {
        return String::from("(refused 13 0)\n");
    }
    let (counts, numbers) = example_cut_to(cut.saturating_sub(LINE.len() + 1));
    let mut text = format!("{}\n", PRINTED.escape_ascii());
    for count in counts {
        text += &format!("(count {count})\n");
    }
    // The sum of the counts is the number of windows.
    text += &format!("(total {})\n(file", numbers[4]);
    for (name, number) in ["records", "letters", "foreign", "edge", "windows"].iter().zip(numbers) {
        text += &format!(" ({name} {number})");
    }
    text + ")\n"
}

#[test]
fn the_example_cut_at_every_byte() {
    let input = [LINE, b"\n", FILE].concat();
    let cuts: Vec<usize> = (0..=input.len()).collect();
    check_each(&cuts, |&cut| {
        let right = example_output(cut);
        assert_eq!(answer(&input[..cut]), right.as_bytes(), "the second counter: cut to {cut} bytes");
        check_prints(&input[..cut], right.as_bytes());
    });
}

/// Document 02, K10: "Refusal 3 then never occurs." Every k up to one above the largest for odd s under
/// complement, which document 01 alone refuses 3, with a good file, a letter before the first header and a
/// stray byte.
#[test]
fn the_program_prints_no_refusal_3() {
    let mut inputs = Vec::new();
    for s in (3..=15).step_by(2) {
        let letters = String::from_utf8(first_capitals(s)).expect("capitals");
        for k in (0..=largest_k(s) + 1).chain([999]) {
            let line = format!("(survey (letters {letters}) (k {k}) (mirror complement))\n");
            inputs.extend([">\n", "", "*\n"].map(|start| format!("{line}{start}{letters}{letters}")));
        }
    }
    check_each(&inputs, |input| {
        let printed = run_in_pieces(input.as_bytes(), input.len());
        assert!(!printed.starts_with(b"(refused 3 "), "printed {}: {input}", shown_file(&printed));
        assert!(printed == answer(input.as_bytes()), "printed {}: {input}", shown_file(&printed));
    });
}

/// A pipe may hand over an input in pieces of any length.
#[test]
fn inputs_that_come_in_pieces() {
    let example = [LINE, b"\r\n", FILE].concat();
    let (_, longer) = Inputs::new(51, Kind::Fasta).good(9000);
    let largest = [LINE, b"\n>\n", &b"GATTACA".repeat(9355)[..MOST_INPUT - LINE.len() - 3]].concat();
    let above = [&largest[..], b"A"].concat();
    for (input, pieces) in [(&example, 1), (&example, 7), (&longer, 997), (&largest, 4096), (&above, 32_768)]
    {
        let printed = run_in_pieces(input, pieces);
        assert!(printed == answer(input), "printed {}: {}", shown_file(&printed), shown_file(input));
    }
}

/// The settings of the cases about 16,384 places are the ones that come nearest to it.
#[test]
fn the_cases_come_as_near_as_possible_to_the_number_of_places() {
    let sizes = good_sizes().into_iter();
    let all: Vec<u128> =
        sizes.map(|(s, mirror, k)| class_count(&Settings::new(&first_capitals(s), k, mirror))).collect();
    let places = PLACES as u128;
    assert_eq!(all.iter().filter(|&&classes| classes <= places).max(), Some(&16_384));
    assert_eq!(all.iter().filter(|&&classes| classes > places).min(), Some(&16_512));
}

/// Random letters for tables of 16,384, 8,192 and 9,882 places, in inputs about the largest: nearly all
/// places are used.
#[test]
fn large_inputs_beside_the_second_counter() {
    let mut inputs = Vec::new();
    for (letters, k) in [(&b"AB"[..], 15), (b"ABCDEFGH", 5), (b"ACGT", 7), (b"ABC", 9)] {
        for length in [30_000, MOST_INPUT - 1, MOST_INPUT, MOST_INPUT + 1, MOST_INPUT + 2, 100_000] {
            let line =
                format!("(survey (letters {}) (k {k}) (mirror complement))\n>\n", letters.escape_ascii());
            let mut random = Random::new(52);
            let drawn = (line.len()..length).map(|_| drawn_byte(&mut random, letters));
            inputs.push(line.bytes().chain(drawn).collect::<Vec<u8>>());
        }
    }
    check_each(&inputs, |input| check_prints(input, &answer(input)));
    let lines = |input: &[u8]| answer(input).iter().filter(|&&byte| byte == b'\n').count();
    assert!(lines(&inputs[2]) > 15_000 && lines(&inputs[8]) > 15_000);
    assert!(lines(&inputs[14]) > 8_000 && lines(&inputs[20]) > 9_500);
}

#[test]
fn drawn_inputs_beside_the_second_counter() {
    let mut drawn = Inputs::new(53, Kind::Fasta);
    let mut inputs: Vec<Vec<u8>> = (0..DRAWN).map(|_| drawn.any()).collect();
    // Some that are too long, of all kinds.
    for place in 0..20 {
        let long = inputs[place].iter().copied().chain(std::iter::repeat(b'A')).take(MOST_INPUT + 1 + place);
        inputs.push(long.collect());
    }
    let kinds = check_beside_second(&inputs);
    // The comparison is worth something only where all kinds of inputs are in it.
    assert!(kinds["counted"] * 3 > inputs.len(), "{kinds:?}");
    for number in ["empty", "1", "2", "4", "6", "7", "10", "11", "13", "14", "19"] {
        assert!(kinds.get(number).is_some_and(|&count| count >= 20), "{number}: {kinds:?}");
    }
}

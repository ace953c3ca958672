//! The order of the survey line's inner forms (document 02, K5): "They now stand as letters, k, mirror." Every order
//! with every end and with values of all kinds, each byte of a line damaged, and the ways to write the same settings,
//! of which the program takes one. And the number of classes (K6), the last form of the line that the program prints:
//! "The line that the program reads has no such form." More lines are in program/cases.txt and program/malformed.txt.

use kmer_tests::book::class_count;
use kmer_tests::draw::{first_capitals, Random};
use kmer_tests::draw_inputs::Inputs;
use kmer_tests::files::Kind;
use kmer_tests::program::*;
use kmer_tests::program_cases::PRINTED;
use kmer_tests::second_counter::{answer, first_line, taken_apart, PLACES};
use kmer_tests::settings::{shown_file, Settings, COMPLEMENT};
use kmer_tests::tables::sizes_up_to;
use std::collections::BTreeSet;

/// The orders in which three forms, given as letters, k, mirror, can stand; the first is the one of K5.
const ORDERS: [[usize; 3]; 6] = [[0, 1, 2], [0, 2, 1], [1, 0, 2], [1, 2, 0], [2, 0, 1], [2, 1, 0]];

/// What stands in the input, and the number of the ground that it gives where nothing else is wrong; 0 for none.
type Part = (&'static [u8], u64);

/// What is well formed is refused 1, 2 or 4 or not at all, what is not is refused 13.
const LETTERS: [Part; 5] = [(b"ACGT", 0), (b"aab", 1), (b"\0\xff[", 1), (b"", 13), (b"A B", 13)];
const LENGTHS: [Part; 5] = [(b"2", 0), (b"0", 4), (b"999", 4), (b"01", 13), (b"1000", 13)];
const MIRRORS: [Part; 4] = [(b"complement", 0), (b"foo", 2), (b"Foo", 13), (b"", 13)];

/// The line's end with what follows it.
const ENDS: [Part; 7] = [
    (b"", 0),
    (b"\n", 0),
    (b"\r\n>a\nACGTN\n", 0),
    (b"\n>a\nAC*GT\n", 10),
    (b"\r\nACGT\n", 11),
    (b"\r", 13),
    (b" \n>a\nACGTN\n", 13),
];

/// The line without its end, the three values in an order.
fn line(values: [&[u8]; 3], order: [usize; 3]) -> Vec<u8> {
    line_of(&forms(values, order))
}

/// The three forms, their values in an order.
fn forms(values: [&[u8]; 3], order: [usize; 3]) -> Vec<Vec<u8>> {
    let names: [&[u8]; 3] = [b"letters", b"k", b"mirror"];
    order.map(|which| [b"(", names[which], b" ", values[which], b")"].concat()).to_vec()
}

/// The line of some forms, without its end.
fn line_of(forms: &[Vec<u8>]) -> Vec<u8> {
    [b"(survey ", &forms.join(&b" "[..])[..], b")"].concat()
}

/// The number of the ground: 13 first, next "19, not 13, when just these three forms are there, each once and well
/// formed, in another order; it precedes 1", then the others by number; 0 where none applies.
fn ground(order: [usize; 3], grounds: [u64; 4]) -> u64 {
    if grounds.contains(&13) {
        13
    } else if order != ORDERS[0] {
        19
    } else {
        grounds.into_iter().filter(|&number| number > 0).min().unwrap_or(0)
    }
}

/// Every order with every combination of parts: inputs with the number of their ground.
fn combinations() -> Vec<(Vec<u8>, u64)> {
    let mut inputs = Vec::new();
    for order in ORDERS {
        for (letters, letters_ground) in LETTERS {
            for (k, k_ground) in LENGTHS {
                for (mirror, mirror_ground) in MIRRORS {
                    let line = line([letters, k, mirror], order);
                    inputs.extend(ENDS.map(|(end, end_ground)| {
                        let grounds = [letters_ground, mirror_ground, k_ground, end_ground];
                        ([&line[..], end].concat(), ground(order, grounds))
                    }));
                }
            }
        }
    }
    inputs
}

/// P is 0 but for the stray byte, which has offset 5.
#[test]
fn every_order_with_every_end_and_values_of_all_kinds() {
    let inputs = combinations();
    check_each(&inputs, |(input, number)| {
        let start = match number {
            0 => format!("{}\n", PRINTED.escape_ascii()),
            10 => String::from("(refused 10 5)\n"),
            _ => format!("(refused {number} 0)\n"),
        };
        let second = answer(input);
        assert!(
            second.starts_with(start.as_bytes()),
            "the second counter, not {start}: {}",
            shown_file(input)
        );
        check_prints(input, &second);
    });
    // 3 letters, 3 k, 2 mirrors and 5 ends are well formed, and five orders are others.
    assert_eq!(inputs.iter().filter(|(_, number)| *number == 19).count(), 5 * 3 * 3 * 2 * 5);
}

/// An input with one byte lost, changed or put in, at each place of its first line, the line's end included.
fn damaged(input: &[u8]) -> Vec<Vec<u8>> {
    let mut inputs = Vec::new();
    for place in 0..=first_line(input).0.len() {
        let (before, after) = (&input[..place], &input[place + 1..]);
        inputs.push([before, after].concat());
        for byte in *b"() \r\n>0aZ[\0\xff" {
            inputs.push([before, &[byte], after].concat());
            inputs.push([before, &[byte], &input[place..]].concat());
        }
    }
    inputs
}

/// No such damage changes the order of the forms: in another order 13 or 19 is given, in order never 19.
#[test]
fn one_byte_damaged_in_every_order() {
    for order in ORDERS {
        let line = line([b"ACGT", b"2", b"complement"], order);
        let kinds = check_beside_second(&damaged(&[&line[..], b"\n>a\nACGTN\n"].concat()));
        let found: BTreeSet<&str> = kinds.keys().map(String::as_str).collect();
        if order == ORDERS[0] {
            assert!(found.is_superset(&["counted", "1", "2", "4", "13"].into()), "{kinds:?}");
            assert!(!found.contains("19"), "{kinds:?}");
        } else {
            assert_eq!(found, ["13", "19"].into(), "{order:?}");
            assert!(kinds["13"] > 500 && kinds["19"] > 100, "{order:?}: {kinds:?}");
        }
    }
}

/// Other ways to write a line with the same settings in it: what is replaced, everywhere, by what.
const REWRITES: [(&str, &str); 24] = [
    ("(k ", "(k 0"),
    ("(k ", "(k 00"),
    ("(k ", "(k +"),
    ("(k ", "(k  "),
    ("(k ", "(K "),
    ("(letters ", "(letters  "),
    ("(letters ", "(alphabet "),
    ("(mirror ", "(mirror  "),
    ("complement", "Complement"),
    ("complement", "COMPLEMENT"),
    ("complement", "complement "),
    ("complement", "reversecomplement"),
    ("complement", "1"),
    ("reversal", "Reversal"),
    ("reversal", "reverse"),
    ("reversal", "0"),
    (") (", ")("),
    (") (", ")  ("),
    (") (", ")\t("),
    ("(survey ", "(survey  "),
    ("))", ") )"),
    ("))", ") (classes 10))"),
    ("))", ") (classes 528))"),
    ("(survey ", "(survey (classes 10) "),
];

/// The ways to write settings: the forms in every order, as they are and rewritten, and each line with small letters,
/// with capitals and with a space before it.
fn spellings(values: [&str; 3]) -> BTreeSet<String> {
    let mut lines = BTreeSet::new();
    for order in ORDERS {
        let line = String::from_utf8(line(values.map(str::as_bytes), order)).expect("text");
        lines.extend(REWRITES.map(|(from, to)| line.replace(from, to)));
        lines.extend([line.to_lowercase(), line.to_uppercase(), format!(" {line}"), line]);
    }
    lines
}

/// "Where the settings are not refused, equal settings then mean equal lines, save for the line's end": with each
/// end, of all these lines the program takes just one, and it is the one that it prints, without the number of classes.
#[test]
fn settings_have_one_line() {
    let settings = [
        ["ACGT", "2", "complement"],
        ["AB", "10", "reversal"],
        ["ACXGT", "5", "complement"],
        ["PONMLKJIHGFEDCBA", "3", "reversal"],
    ];
    check_each(&settings, |values| {
        let lines = spellings(*values);
        assert!(lines.len() > 100, "{} lines", lines.len());
        for end in ["", "\n", "\r\n", "\n>a\nABBAACGT\n"] {
            let outputs = lines.iter().map(|line| {
                let input = format!("{line}{end}");
                (line.as_bytes(), run_in_pieces(input.as_bytes(), input.len()))
            });
            let taken: Vec<_> = outputs.filter(|(_, output)| !output.starts_with(b"(refused ")).collect();
            let [(line, output)] = &taken[..] else { panic!("{} lines are taken: {values:?}", taken.len()) };
            let (settings_line, _) = taken_apart(first_line(output).0).expect("a number of classes");
            assert_eq!(shown_file(&settings_line), shown_file(line), "end {end:?}");
        }
    });
}

/// What a line that is no survey line prints.
const NO_LINE: &[u8] = b"(refused 13 0)\n";

/// Every size that fits the program's table: the number in the first line is the number of classes, also where none
/// of them is counted.
#[test]
fn the_number_of_classes_of_every_size() {
    let sizes = sizes_up_to(PLACES as u128).into_iter();
    let all: Vec<Settings> =
        sizes.map(|(s, mirror, k)| Settings::new(&first_capitals(s), k, mirror)).collect();
    check_each(&all, |settings| {
        let (letters, k, classes) = (settings.letters.escape_ascii(), settings.k, class_count(settings));
        let mirror = if settings.mirror == COMPLEMENT { "complement" } else { "reversal" };
        let line = format!("(survey (letters {letters}) (k {k}) (mirror {mirror})");
        let file_line = "(file (records 0) (letters 0) (foreign 0) (edge 0) (windows 0))";
        let right = format!("{line} (classes {classes}))\n(total 0)\n{file_line}\n");
        check_prints(format!("{line})").as_bytes(), right.as_bytes());
    });
    let digits: BTreeSet<usize> = all.iter().map(|one| class_count(one).to_string().len()).collect();
    assert_eq!(digits, (1..=5).collect());
}

/// A line that the program printed, given back to it. Without its last form, closed by `)`, it is read as the same
/// settings, with each end: the same file gives the same output. As it is, it is refused 13, whatever follows it.
#[test]
fn a_printed_line_given_back() {
    for (seed, kind) in [(54, Kind::Fasta), (55, Kind::Fastq)] {
        let mut drawn = Inputs::new(seed, kind);
        let inputs: Vec<(Settings, Vec<u8>)> = (0..50).map(|_| drawn.good(100)).collect();
        check_each(&inputs, |(settings, input)| {
            let (read, file) = first_line(input);
            let output = run_in_pieces(input, input.len());
            let printed = first_line(&output).0;
            let (line, number) = taken_apart(printed).expect("a number of classes");
            assert_eq!(number, class_count(settings), "{settings}");
            assert_eq!(shown_file(&line), shown_file(read), "the line read");
            let cleared = run_in_pieces(&[read, b"\n"].concat(), read.len() + 1);
            assert_eq!(shown_file(first_line(&cleared).0), shown_file(printed), "with an empty file");
            check_prints(&line, &cleared);
            check_prints(printed, NO_LINE);
            for end in [&b"\n"[..], b"\r\n"] {
                check_prints(&[&line[..], end, file].concat(), &output);
                for rest in [file, b"", b"*", b"ACGT\n", b"@\n", &output[..]] {
                    check_prints(&[printed, end, rest].concat(), NO_LINE);
                }
            }
        });
    }
}

/// Of the starts of a printed line, as they are and closed by `)`, one is a survey line: that of the settings.
#[test]
fn the_starts_of_a_printed_line() {
    let starts = (0..=PRINTED.len()).map(|length| &PRINTED[..length]);
    let lines = starts.flat_map(|start| [start.to_vec(), [start, b")"].concat()]);
    let inputs: Vec<Vec<u8>> = lines.map(|line| [&line[..], b"\n>a\nACGTN\n"].concat()).collect();
    let kinds = check_beside_second(&inputs);
    assert_eq!(kinds, [("13".to_string(), inputs.len() - 1), ("counted".to_string(), 1)].into());
}

/// No damage of one byte makes a survey line of the printed one.
#[test]
fn one_byte_damaged_in_a_printed_line() {
    let inputs = damaged(&[PRINTED, b"\n>a\nACGTN\n"].concat());
    assert_eq!(check_beside_second(&inputs), [("13".to_string(), inputs.len())].into());
}

/// The form with the right number, with wrong ones and with none; and two of them.
const CLASSES: [&[u8]; 10] = [
    b"(classes 10)",
    b"(classes 9)",
    b"(classes 0)",
    b"(classes 010)",
    b"(classes 18446744073709551626)",
    b"(classes ten)",
    b"(classes )",
    b"(classes)",
    b"(classes 10) (classes 10)",
    b"(classes 10) (classes 9)",
];

/// Lines with the three forms in an order, and with forms of the number of classes at one place or at two.
fn with_classes(values: [&[u8]; 3], order: [usize; 3]) -> Vec<Vec<u8>> {
    let mut lines = Vec::new();
    for place in 0..=3 {
        for classes in CLASSES {
            let mut four = forms(values, order);
            four.insert(place, classes.to_vec());
            lines.push(line_of(&four));
            // Once more, after each of the forms that follow.
            for second in place + 2..=4 {
                let mut five = four.clone();
                five.insert(second, CLASSES[0].to_vec());
                lines.push(line_of(&five));
            }
        }
    }
    lines
}

/// A form of the number of classes at every place, in every order: 13, also where 19 or the settings' grounds would
/// apply without it, since it is not "just these three forms".
#[test]
fn the_number_of_classes_at_every_place() {
    let mut lines = Vec::new();
    for order in ORDERS {
        lines.extend(with_classes([b"ACGT", b"2", b"complement"], order));
        lines.extend(with_classes([b"aab", b"0", b"foo"], order));
    }
    // Four places, and six pairs of places that are apart.
    assert_eq!(lines.len(), 6 * 2 * 10 * (4 + 6));
    check_each(&lines, |line| {
        for end in [&b""[..], b"\n", b"\r\n>a\nACGTN\n"] {
            let input = [line, end].concat();
            assert_eq!(answer(&input), NO_LINE, "the second counter: {}", shown_file(&input));
            check_prints(&input, NO_LINE);
        }
    });
}

/// The form put into lines that are good without it, at any place, with the right number or another one.
#[test]
fn drawn_lines_with_the_number_of_classes() {
    let (mut random, mut drawn) = (Random::new(56), Inputs::new(57, Kind::Fasta));
    let mut inputs = Vec::new();
    for _ in 0..1000 {
        let (settings, mut input) = drawn.good(30);
        let line = first_line(&input).0;
        // Before each of the three forms, and before the line's last bracket.
        let before = (0..line.len()).filter(|&place| line[place..].starts_with(b" ("));
        let places: Vec<usize> = before.chain([line.len() - 1]).collect();
        assert_eq!(places.len(), 4, "{}", shown_file(line));
        let place = places[random.below(4) as usize];
        let number = match random.below(3) {
            0 => class_count(&settings),
            1 => random.below(20_000) as u128,
            _ => random.draw() as u128,
        };
        input.splice(place..place, format!(" (classes {number})").into_bytes());
        inputs.push(input);
    }
    assert_eq!(check_beside_second(&inputs), [("13".to_string(), 1000)].into());
}

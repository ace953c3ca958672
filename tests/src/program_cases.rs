//! Reads the stored runs of the counter program, vectors/program.txt, vectors/k10_program.txt,
//! vectors/k01_program.txt, vectors/k02_program.txt, vectors/k03_program.txt, vectors/k04_program.txt,
//! vectors/k05_program.txt, vectors/k06_program.txt, vectors/k07_program.txt, vectors/k08_program.txt,
//! program/cases.txt and program/fastq.txt, and the lines of program/malformed.txt; the heads of these files
//! say how they are written.

use crate::program::check_prints;
use crate::second_counter::answer;
use crate::settings::shown_file;
use crate::vectors::bytes;

/// The survey line of document 01's example, without its end.
pub const LINE: &[u8] = b"(survey (letters ACGT) (k 2) (mirror complement))";

/// The first line of that example's listing, without its LF: "a last inner form, `(classes 10)` in the document 01
/// case" (document 02, K6).
pub const PRINTED: &[u8] = b"(survey (letters ACGT) (k 2) (mirror complement) (classes 10))";

/// A stored run.
pub struct Case {
    pub name: &'static str,
    pub input: Vec<u8>,
    pub output: Vec<u8>,
}

/// The bytes of a piece.
pub fn unescaped(text: &str) -> Vec<u8> {
    let mut found = Vec::new();
    let mut rest = text;
    while let Some(at) = rest.find('\\') {
        found.extend(&rest.as_bytes()[..at]);
        let (byte, length) = match &rest[at + 1..at + 2] {
            "n" => (b'\n', 2),
            "r" => (b'\r', 2),
            "\\" => (b'\\', 2),
            "x" => (bytes(&rest[at + 2..at + 4])[0], 4),
            other => panic!("\\{other} in {text}"),
        };
        found.push(byte);
        rest = &rest[at + length..];
    }
    found.extend(rest.as_bytes());
    found
}

/// A line's mark and what follows it after one space.
fn marked(line: &'static str) -> (&'static str, &'static str) {
    line.split_once(' ').unwrap_or_else(|| panic!("no mark: {line}"))
}

/// The cases of a file; how many is asked for, so that a cut file does not pass.
fn cases(text: &'static str, count: usize) -> Vec<Case> {
    let mut found: Vec<Case> = Vec::new();
    for (mark, rest) in text.lines().filter(|line| !line.starts_with('#')).map(marked) {
        if mark == "=" {
            found.push(Case { name: rest, input: Vec::new(), output: Vec::new() });
            continue;
        }
        let case = found.last_mut().expect("a name before the first piece");
        match (mark.strip_prefix('<'), mark) {
            (Some(""), _) => case.input.extend(unescaped(rest)),
            (Some(times), _) => case.input.extend(unescaped(rest).repeat(times.parse().expect("a number"))),
            (None, ">") => case.output.extend([rest.as_bytes(), b"\n"].concat()),
            _ => panic!("{mark} is no mark: {rest}"),
        }
    }
    assert_eq!(found.len(), count, "cases");
    found
}

/// The stored answers of independent reference implementations: so many to document 01 alone, to document 01
/// with document 02, K10, to these with K1, to these with K2, to these with K3, to these with K4, to these
/// with K5, to these with K6, to these with K7, and to these with K8. The listings of those before K6 have
/// its number of classes too: the heads of the files tell how.
pub fn vectors(counts: [usize; 10]) -> Vec<Case> {
    let files = [
        include_str!("../vectors/program.txt"),
        include_str!("../vectors/k10_program.txt"),
        include_str!("../vectors/k01_program.txt"),
        include_str!("../vectors/k02_program.txt"),
        include_str!("../vectors/k03_program.txt"),
        include_str!("../vectors/k04_program.txt"),
        include_str!("../vectors/k05_program.txt"),
        include_str!("../vectors/k06_program.txt"),
        include_str!("../vectors/k07_program.txt"),
        include_str!("../vectors/k08_program.txt"),
    ];
    files.into_iter().zip(counts).flat_map(|(text, count)| cases(text, count)).collect()
}

/// The cases whose outputs were worked out by hand.
pub fn cases_by_hand(count: usize) -> Vec<Case> {
    cases(include_str!("../program/cases.txt"), count)
}

/// The cases with FASTQ files whose outputs were worked out by hand.
pub fn fastq_cases_by_hand(count: usize) -> Vec<Case> {
    cases(include_str!("../program/fastq.txt"), count)
}

/// First lines that are no survey lines, without their ends.
pub fn malformed_lines(count: usize) -> Vec<Vec<u8>> {
    let lines = include_str!("../program/malformed.txt").lines().filter(|line| !line.starts_with('#'));
    let found: Vec<Vec<u8>> = lines.map(unescaped).collect();
    assert_eq!(found.len(), count, "lines");
    found
}

/// The second counter and the program print what is stored.
pub fn check_stored(case: &Case) {
    let second = answer(&case.input);
    assert!(second == case.output, "{}: the second counter printed {}", case.name, shown_file(&second));
    check_prints(&case.input, &case.output);
}

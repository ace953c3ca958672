//! `wontirje count` beside the counter program, on the stored runs of tests/ and on drawn inputs: survey line
//! and file are taken apart, and the command must print the program's listing, the same five numbers, or
//! refuse with the same number and place.

mod run;

use kmer_tests::book::class_count;
use kmer_tests::draw_inputs::Inputs;
use kmer_tests::files::Kind;
use kmer_tests::program::{check_each, run_in_pieces};
use kmer_tests::program_cases::{cases_by_hand, fastq_cases_by_hand, vectors};
use kmer_tests::second_counter::{first_line, survey};
use kmer_tests::settings::{shown_file, Settings};
use run::{options, run_with, Run};
use std::sync::atomic::{AtomicUsize, Ordering};

/// How many inputs were compared, by what became of them.
#[derive(Default)]
struct Compared {
    counted: AtomicUsize,
    file_refused: AtomicUsize,
    settings_refused: AtomicUsize,
    /// Forms in another order: the command takes no survey line, so there is nothing to compare.
    other_order: AtomicUsize,
    /// Not in the command's reach: no survey line, an unknown mirror, letters that no argument can hold, an
    /// input above 65,536 bytes, or a table above the program's 16,384 places.
    out_of_reach: AtomicUsize,
}

impl Compared {
    fn numbers(&self) -> [usize; 5] {
        [&self.counted, &self.file_refused, &self.settings_refused, &self.other_order, &self.out_of_reach]
            .map(|number| number.load(Ordering::Relaxed))
    }
}

/// The settings of an input, where the command can be given them.
fn in_reach(input: &[u8]) -> Option<Settings> {
    survey(first_line(input).0).filter(|settings| settings.mirror < 2 && !settings.letters.contains(&0))
}

fn counts(settings: &Settings, file: &[u8]) -> Run {
    let mut arguments = vec!["count".into()];
    arguments.extend(options(settings));
    arguments.push("-".into());
    run_with(&arguments, file)
}

/// The number and P of `(refused N P)`.
fn refusal(printed: &str) -> Option<(u64, u64)> {
    let (number, p) = printed.strip_prefix("(refused ")?.strip_suffix(")\n")?.split_once(' ')?;
    Some((number.parse().expect("a number"), p.parse().expect("a number")))
}

/// The program's file line as the command says it.
fn as_said(file_line: &str) -> String {
    let inner =
        file_line.strip_prefix("(file (").and_then(|rest| rest.strip_suffix("))\n")).expect("a file line");
    format!("standard input: {}", inner.replace(") (", ", "))
}

/// The command prints and says what the program's output says.
fn check(input: &[u8], output: &[u8], compared: &Compared) {
    let printed = std::str::from_utf8(output).expect("text");
    let refusal = refusal(printed);
    if let Some((19, _)) = refusal {
        compared.other_order.fetch_add(1, Ordering::Relaxed);
        return;
    }
    let (Some(settings), false) = (in_reach(input), matches!(refusal, Some((7 | 13 | 14, _)))) else {
        compared.out_of_reach.fetch_add(1, Ordering::Relaxed);
        return;
    };
    let run = counts(&settings, first_line(input).1);
    let what = || format!("input {}: status {}, {}", shown_file(input), run.status, run.err);
    let complaint = match run.complaints()[..] {
        [only] => only,
        _ => panic!("{}", what()),
    };
    let kind = match refusal {
        None => {
            let at = printed.rfind("(file ").expect("a file line");
            assert!(run.status == 0 && run.text() == &printed[..at], "{}", what());
            assert_eq!(complaint, as_said(&printed[at..]), "{}", what());
            &compared.counted
        }
        Some((number @ (10 | 11 | 15..=17), p)) => {
            let start = format!("standard input: refused {number} at offset {p} (line ");
            assert!(run.status == 1 && complaint.starts_with(&start), "{}", what());
            let empty = format!(" (classes {}))\n(total 0)\n", class_count(&settings));
            assert!(run.text().ends_with(&empty) && run.text().lines().count() == 2, "{}", what());
            &compared.file_refused
        }
        Some((number, _)) => {
            assert!(complaint.starts_with(&format!("wontirje: refused {number}: ")), "{}", what());
            assert!(run.status == 2 && run.out.is_empty(), "{}", what());
            &compared.settings_refused
        }
    };
    kind.fetch_add(1, Ordering::Relaxed);
}

/// A run is compared with what is stored for the program.
#[test]
fn stored_runs() {
    let compared = Compared::default();
    let by_hand = cases_by_hand(160).into_iter().chain(fastq_cases_by_hand(43));
    let cases: Vec<_> =
        vectors([199, 153, 154, 162, 34, 30, 200, 200, 40, 40]).into_iter().chain(by_hand).collect();
    check_each(&cases, |case| check(&case.input, &case.output, &compared));
    let [counted, file_refused, settings_refused, other_order, out_of_reach] = compared.numbers();
    assert_eq!(counted + file_refused + settings_refused + other_order + out_of_reach, 1415);
    assert!(counted > 600 && file_refused > 240 && settings_refused > 80, "{:?}", compared.numbers());
    assert!(out_of_reach < 190, "{:?}", compared.numbers());
}

#[test]
fn drawn_inputs() {
    for kind in [Kind::Fasta, Kind::Fastq] {
        let compared = Compared::default();
        let mut inputs = Inputs::new(121, kind);
        let drawn: Vec<Vec<u8>> = (0..800).map(|_| inputs.any()).collect();
        check_each(&drawn, |input| check(input, &run_in_pieces(input, input.len().max(1)), &compared));
        let [counted, file_refused, settings_refused, ..] = compared.numbers();
        let enough = counted > 350 && file_refused > 40 && settings_refused > 40;
        assert!(enough, "{kind:?}: {:?}", compared.numbers());
    }
}

//! The second implementation, without the library, on the stored cases of the two programs that print them: the picks
//! of crates/pick_cases and the scans and reads of crates/file_cases. The gate runs the programs against the same
//! outputs.

use kmer_tests::expected::picking;
use kmer_tests::files::Kind;
use kmer_tests::program_cases::unescaped;
use kmer_tests::second_reader::{next_record, scanning, Record};
use kmer_tests::settings::Settings;
use kmer_tests::vectors::number;

/// The arguments of each `show(out, ..)` of a source, in order, but for the first: letters, k, mirror and two words.
fn shown_calls(source: &'static str) -> Vec<[&'static str; 5]> {
    let calls = source.split(" show(").skip(1).map(|call| call.split(')').next().expect("the call's end"));
    let arguments = calls.map(|call| call.split(',').map(str::trim).filter(|part| !part.is_empty()));
    arguments.map(|parts| parts.skip(1).collect::<Vec<_>>().try_into().expect("five arguments")).collect()
}

/// A byte string of the source.
fn literal(text: &str) -> Vec<u8> {
    let bytes = text.strip_prefix("b\"").and_then(|rest| rest.strip_suffix('"'));
    unescaped(bytes.unwrap_or_else(|| panic!("{text} is no byte string")))
}

/// The functions that show picks stand in the source in the order in which `main` calls them.
#[test]
fn stored_picks() {
    let source = include_str!("../../crates/pick_cases/src/main.rt");
    let (functions, main) = source.split_once("\nfn main(").expect("a main");
    let named = functions.split("\nfn ").skip(1).filter(|part| part.contains(" show("));
    let (first, rest) = main.split_once("\n    let mut out = rt.stdout();\n").expect("where it prints");
    let (calls, last) = rest.split_once("    Ok(())\n").expect("its end");
    assert_eq!((first, last), ("rt: HostRuntime) -> io::Result<()> {", "}\n"), "main");
    let called = calls.lines().map(|line| line.trim().trim_end_matches("(&mut out)?;"));
    assert!(named.map(|part| part.split('<').next().expect("a name")).eq(called), "another order");
    let calls = shown_calls(functions);
    let outputs = include_str!("../../crates/pick_cases/stdout").lines();
    assert_eq!((calls.len(), outputs.clone().count()), (58, 58), "cases");
    for (call, output) in calls.into_iter().zip(outputs) {
        let settings = Settings::new(&literal(call[0]), number(call[1]), number(call[2]));
        let words = [call[3], call[4]].map(literal);
        let picked = picking(&settings, &words[0], &words[1]);
        assert_eq!(picked.unwrap_or_default(), output.as_bytes(), "{settings}: {} and {}", call[3], call[4]);
    }
}

/// A record as the program writes it.
fn shown(found: Option<Record>) -> String {
    let record = found.map(|r| format!("record {} {} {} {}", r.header.0, r.header.1, r.rest.0, r.rest.1));
    record.unwrap_or("none".to_string())
}

/// The record with a number, from 0: each from where the one before it ended, until there is none.
fn record_number(file: &[u8], wanted: usize) -> Option<Record> {
    let (mut found, mut offset) = next_record(file, 0);
    for _ in 0..wanted {
        found.as_ref()?;
        (found, offset) = next_record(file, offset);
    }
    found
}

/// What the second implementation answers to a case of crates/file_cases, as the program writes it.
fn answer(case: &str) -> String {
    let (call, rest) = case.split_once(' ').expect("a call");
    if call == "read" || call == "nth" {
        let (place, file) = rest.split_once(' ').expect("an offset or a number, and a file");
        let file = unescaped(file);
        if call == "nth" {
            return shown(record_number(&file, number(place)));
        }
        let (found, after) = next_record(&file, number(place));
        return format!("{} after {after}", shown(found));
    }
    let kind = match call {
        "scan" => Kind::Fasta,
        "fastq" => Kind::Fastq,
        _ => panic!("{call} is no call"),
    };
    let [letters, k, mirror, file] = rest.splitn(4, ' ').collect::<Vec<_>>()[..] else { panic!("{case}") };
    let settings = Settings::new(letters.as_bytes(), number(k), number(mirror));
    match scanning(&settings, kind, &unescaped(file)) {
        Ok(numbers) => format!("taken {}", numbers.map(|number| number.to_string()).join(" ")),
        Err(refusal) => format!("refused {} {}", refusal.number, refusal.p),
    }
}

#[test]
fn stored_scans_and_reads() {
    let inputs = include_str!("../../crates/file_cases/stdin").lines();
    let outputs = include_str!("../../crates/file_cases/stdout").lines();
    assert_eq!(inputs.clone().count(), outputs.clone().count(), "lines");
    let calls = ["scan", "fastq", "read", "nth"];
    let mut cases = [0; 4];
    for (input, output) in inputs.zip(outputs).filter(|(input, _)| !input.starts_with('#')) {
        assert_eq!(answer(input), output, "{input}");
        cases[calls.iter().position(|call| input.starts_with(call)).expect("a call")] += 1;
    }
    assert_eq!(cases, [111, 93, 83, 40], "scans, FASTQ scans, reads and records by number");
}

//! `wontirje count --withdraw`: files that are taken out of the counts again, after the others and in the order given;
//! withdrawals that are refused, files that were never counted, what cannot be read, and files of both kinds and of
//! neither.

#[path = "run/lists.rs"]
mod lists;
mod run;

use kmer_tests::draw::{write_drawn, Random};
use kmer_tests::settings::{Settings, COMPLEMENT};
use kmer_tests::tables::Call;
use lists::List;
use run::{drawn_of_either_kind, run_with, Folder, Run};
use run::{EMPTY, EXAMPLE, LISTING, NUMBERS, READS};
use std::fs;
use std::path::PathBuf;
use wontirje::Refusal;

/// The lake is the example. The pond is one read, as FASTA and as FASTQ: three windows of a class that the lake has
/// not.
const POND: &[u8] = b">c\nTTTT\n";
const POND_READ: &[u8] = b"@c\nTTTT\n+\nI@>+\n";
const POND_SAID: &str = "records 1, letters 4, foreign 0, edge 1, windows 3";

const LACKING: &str =
    "not withdrawn: refused 18: some class has a smaller count than the file has windows of it; \
    withdraw only what was counted: the same file, unchanged, and no more often; \
    or an earlier --withdraw took its windows";
const NO_LETTER: &str = "a byte of a sequence line is no letter";
const CUT_OFF: &str = "the file ends before the record's fourth line";
const AS_COUNTED: &str =
    "no file with this fault was counted: give it as it was counted, or leave its --withdraw out";

/// A folder with some files, in which the command runs, so that their names are short.
struct Place(Folder);

impl Place {
    fn with(files: &[(&str, &[u8])]) -> Place {
        let folder = Folder::new();
        for (name, bytes) in files {
            folder.file(name, bytes);
        }
        Place(folder)
    }

    /// Counts words of 2 letters.
    fn count_with(&self, arguments: &[&str], input: &[u8]) -> Run {
        self.0.run(&["count", "--k", "2"], arguments, input)
    }

    fn count(&self, arguments: &[&str]) -> Run {
        self.count_with(arguments, b"")
    }

    /// What a count of these arguments leaves: status, listing and the line of each file.
    fn check(&self, arguments: &[&str], status: i32, listing: &str, said: &[String]) {
        let run = self.count(arguments);
        assert_eq!((run.status, run.text()), (status, listing), "{arguments:?}: {}", run.err);
        assert_eq!(run.complaints(), said, "{arguments:?}");
    }
}

fn lake_and_pond() -> Place {
    Place::with(&[("lake.fa", EXAMPLE), ("pond.fa", POND), ("pond.fq", POND_READ)])
}

/// The option in each form and at each place: the withdrawal comes last, and the listing is that of the lake alone.
#[test]
fn the_listing_is_that_of_the_other_files() {
    let place = lake_and_pond();
    let said = [
        format!("lake.fa: {NUMBERS}"),
        format!("pond.fa: {POND_SAID}"),
        format!("pond.fa: withdrawn: {POND_SAID}"),
    ];
    place.check(&["lake.fa"], 0, LISTING, &said[..1]);
    for arguments in [
        ["lake.fa", "pond.fa", "--withdraw", "pond.fa"],
        ["lake.fa", "--withdraw", "pond.fa", "pond.fa"],
        ["--withdraw", "pond.fa", "lake.fa", "pond.fa"],
        ["--withdraw=pond.fa", "--", "lake.fa", "pond.fa"],
    ] {
        place.check(&arguments, 0, LISTING, &said);
    }
    // After -- it is a file's name.
    let unread = "--withdraw: not read: No such file or directory; nothing of it is counted";
    place.check(&["lake.fa", "--", "--withdraw"], 1, LISTING, &[said[0].clone(), unread.into()]);
}

/// The option's value is a file's name whatever it is: -- too, which then ends no options, and an empty one.
#[test]
fn odd_values_are_names_of_files() {
    let place = lake_and_pond();
    let lake = format!("lake.fa: {NUMBERS}");
    let unread = |name: &str| format!("{name}: not withdrawn: not read: No such file or directory");
    for (arguments, name) in [
        (&["lake.fa", "--withdraw", "--"][..], "--"),
        (&["--withdraw", "--", "lake.fa"], "--"),
        (&["lake.fa", "--withdraw=--"], "--"),
        (&["lake.fa", "--withdraw="], ""),
        (&["lake.fa", "--withdraw", ""], ""),
        (&["lake.fa", "--withdraw", "--k"], "--k"),
    ] {
        place.check(arguments, 1, LISTING, &[lake.clone(), unread(name)]);
    }
    place.0.file("--", POND);
    let said = [lake, format!("pond.fa: {POND_SAID}"), format!("--: withdrawn: {POND_SAID}")];
    place.check(&["lake.fa", "--withdraw", "--", "--", "pond.fa"], 0, LISTING, &said);
}

/// A file is withdrawn as often as is said, and as often as it was counted.
#[test]
fn several_withdrawals_in_the_order_given() {
    let place = lake_and_pond();
    let pond = [&["lake.fa", "pond.fa", "pond.fa"][..], &["--withdraw", "pond.fa"].repeat(3)].concat();
    let withdrawn = format!("pond.fa: withdrawn: {POND_SAID}");
    let mut said = vec![format!("lake.fa: {NUMBERS}")];
    said.extend([format!("pond.fa: {POND_SAID}"), format!("pond.fa: {POND_SAID}")]);
    said.extend([withdrawn.clone(), withdrawn.clone(), format!("pond.fa: {LACKING}")]);
    place.check(&pond, 1, LISTING, &said);
    // Of the pond's three windows there are enough for one of these two, for whichever comes first.
    place.0.file("two.fa", b">d\nTTT\n");
    let two = "two.fa: withdrawn: records 1, letters 3, foreign 0, edge 1, windows 2";
    let arguments = |first, second| ["pond.fa", "--withdraw", first, "--withdraw", second];
    let one_left = EMPTY.replace("(total 0)", "(count AA 1)\n(total 1)");
    let said = [format!("pond.fa: {POND_SAID}"), two.into(), format!("pond.fa: {LACKING}")];
    place.check(&arguments("two.fa", "pond.fa"), 1, &one_left, &said);
    let said = [said[0].clone(), withdrawn, format!("two.fa: {LACKING}")];
    place.check(&arguments("pond.fa", "two.fa"), 1, EMPTY, &said);
}

/// It changes no count, though all windows but the last are in the counts; the others go on, but with --strict.
#[test]
fn a_refused_withdrawal() {
    let place = lake_and_pond();
    place.0.file("nearly.fa", b">a\nACGTN\n>b\nAGCT\n>c\nAA\n");
    place.0.file("part.fa", b">b\nAGCT\n");
    let arguments = ["lake.fa", "--withdraw", "nearly.fa", "--withdraw", "part.fa"];
    let said = [
        format!("lake.fa: {NUMBERS}"),
        format!("nearly.fa: {LACKING}"),
        String::from("part.fa: withdrawn: records 1, letters 4, foreign 0, edge 1, windows 3"),
    ];
    place.check(&arguments[..3], 1, LISTING, &said[..2]);
    let rest = "(survey (letters ACGT) (k 2) (mirror complement) (classes 10))\n\
        (count CG 1)\n(count AC 2)\n(total 3)\n";
    place.check(&arguments, 1, rest, &said);
    place.check(&[&arguments[..], &["--no-listing"]].concat(), 1, "", &said);
    let strict = [&["--strict", "--output", "counts.txt"], &arguments[..]].concat();
    place.check(&strict, 1, "", &said[..2]);
    assert!(!place.0.path("counts.txt").exists());
    place.check(&strict[1..], 1, "", &said);
    assert_eq!(fs::read_to_string(place.0.path("counts.txt")).expect("the listing"), rest);
}

/// --strict stops at the first file that is not taken in, before any withdrawal, and at the first that is not
/// withdrawn: later ones are not tried, and there is no listing.
#[test]
fn strict_stops_before_and_among_the_withdrawals() {
    let place = lake_and_pond();
    place.0.file("bad.fa", b"AC\n");
    let lake = format!("lake.fa: {NUMBERS}");
    let run = place.count(&["--strict", "lake.fa", "bad.fa", "pond.fa", "--withdraw", "lake.fa"]);
    assert_eq!((run.status, run.text()), (1, ""), "{}", run.err);
    let told = run.complaints();
    assert!(told.len() == 2 && told[0] == lake && told[1].starts_with("bad.fa: refused 11 "), "{told:?}");
    let missing = "missing.fa: not withdrawn: not read: No such file or directory";
    let arguments = ["lake.fa", "pond.fa", "--withdraw", "missing.fa", "--withdraw", "pond.fa"];
    let pond = format!("pond.fa: {POND_SAID}");
    let said = [lake, pond, missing.into(), format!("pond.fa: withdrawn: {POND_SAID}")];
    place.check(&[&["--strict"], &arguments[..]].concat(), 1, "", &said[..3]);
    place.check(&arguments, 1, LISTING, &said);
}

/// A file that went in as a part of another one, and one that never went in: it takes away windows of others. Counted
/// in the same run, it takes away its own.
#[test]
fn files_that_were_never_counted() {
    let place = lake_and_pond();
    place.0.file("all.fa", &[POND, EXAMPLE].concat());
    let all = "all.fa: records 3, letters 13, foreign 1, edge 3, windows 9";
    let said = [all.into(), format!("pond.fa: withdrawn: {POND_SAID}")];
    place.check(&["all.fa", "--withdraw", "pond.fa"], 0, LISTING, &said);
    place.0.file("other.fa", b">x\nGT\n>y\nCGN\n");
    let other = "records 2, letters 5, foreign 1, edge 2, windows 2";
    let said = [format!("lake.fa: {NUMBERS}"), format!("other.fa: withdrawn: {other}")];
    let less = "(survey (letters ACGT) (k 2) (mirror complement) (classes 10))\n\
        (count GC 1)\n(count AG 2)\n(count AC 1)\n(total 4)\n";
    place.check(&["lake.fa", "--withdraw", "other.fa"], 0, less, &said);
    let said = [said[0].clone(), format!("other.fa: {other}"), said[1].clone()];
    place.check(&["lake.fa", "other.fa", "--withdraw", "other.fa"], 0, LISTING, &said);
    // From the empty table nothing can be withdrawn but what has no windows.
    place.0.file("none.fa", b">z\nA\n");
    let none = "records 1, letters 1, foreign 0, edge 1, windows 0";
    let said =
        [format!("none.fa: {none}"), format!("none.fa: withdrawn: {none}"), format!("lake.fa: {LACKING}")];
    place.check(&["none.fa", "--withdraw", "none.fa", "--withdraw", "lake.fa"], 1, EMPTY, &said);
}

/// The kind of a withdrawn file is told by its first byte, or by --kind; it need not be that of the counted one.
#[test]
fn fastq_is_withdrawn() {
    let place = lake_and_pond();
    let lake = format!("lake.fa: {NUMBERS}");
    for (counted, withdrawn) in [("pond.fq", "pond.fq"), ("pond.fq", "pond.fa"), ("pond.fa", "pond.fq")] {
        let said =
            [lake.clone(), format!("{counted}: {POND_SAID}"), format!("{withdrawn}: withdrawn: {POND_SAID}")];
        place.check(&["lake.fa", counted, "--withdraw", withdrawn], 0, LISTING, &said);
    }
    let said = [format!("pond.fq: {POND_SAID}"), format!("pond.fq: withdrawn: {POND_SAID}")];
    place.check(&["--kind", "fastq", "pond.fq", "--withdraw", "pond.fq"], 0, EMPTY, &said);
}

/// Files of neither kind, and of another kind than --kind says: told as in an add, since what they are decides what to
/// do.
#[test]
fn files_of_neither_kind_and_of_another() {
    let survey = b"(survey (letters ACGT) (k 2) (mirror complement))\n>a\nAC\n";
    let compressed = "it is compressed: give - for it, with gzip -dc FILE | before the command";
    let settings = "take the survey line out: settings are given as options";
    let mark = "it begins with a byte order mark: take its three bytes out";
    let sam = "it looks like SAM: make FASTQ of it first, with samtools fastq";
    let at_once = "10 at offset 0 (line 1, column 1):";
    let files: [(&str, &[u8], String); 6] = [
        ("", b"\x1f\x8b\x08\x00", format!("{at_once} byte 0x1f: {NO_LETTER}; {compressed}")),
        ("", survey, format!("{at_once} '(': {NO_LETTER}; {settings}")),
        ("", b"\xef\xbb\xbf>c\nTTTT\n", format!("{at_once} byte 0xef: {NO_LETTER}; {mark}")),
        (
            "",
            b"@HD\tVN:1.6\n@SQ\tSN:c\n",
            format!("15 at offset 20 (line 3, column 1, record 1): {CUT_OFF}; {sam}"),
        ),
        ("fasta", POND_READ, format!("{at_once} '@': {NO_LETTER}; it looks like FASTQ: leave --kind fasta out")),
        (
            "fastq",
            POND,
            format!(
                "15 at offset 0 (line 1, column 1, record 1): '>': a record's first line does not begin with @; \
                 it looks like FASTA: leave --kind fastq out"
            ),
        ),
    ];
    let place = Place::with(&[("lake.fa", EXAMPLE), ("lake.fq", READS)]);
    for (kind, bytes, reason) in files {
        place.0.file("other", bytes);
        let (lake, options) = match kind {
            "" => ("lake.fa", vec![]),
            "fasta" => ("lake.fa", vec!["--kind", kind]),
            _ => ("lake.fq", vec!["--kind", kind]),
        };
        let said = [format!("{lake}: {NUMBERS}"), format!("other: not withdrawn: refused {reason}")];
        place.check(&[&options[..], &[lake, "--withdraw", "other"]].concat(), 1, LISTING, &said);
    }
}

/// Document 02, K2: RNA is withdrawn where its copy with T was counted.
#[test]
fn rna_is_withdrawn_as_its_copy_with_t() {
    let place = Place::with(&[("rna.fa", b">c\nUUuT\n"), ("dna.fa", POND)]);
    let said = [format!("dna.fa: {POND_SAID}"), format!("rna.fa: withdrawn: {POND_SAID}")];
    place.check(&["dna.fa", "--withdraw", "rna.fa"], 0, EMPTY, &said);
}

/// Missing, a folder, and each ground of a file's bytes: told, and the counts stay.
#[test]
fn what_cannot_be_withdrawn() {
    let early = "a letter stands before the first header";
    let lengths = "the sequence line has length 4, the quality line 3";
    let quality = "a quality byte is not from 33 to 126";
    let files: [(&[u8], String); 5] = [
        (b">c\nTT*T\n", format!("10 at offset 5 (line 2, column 3): '*': {NO_LETTER}; {AS_COUNTED}")),
        (b"TTTT\n", format!("11 at offset 0 (line 1, column 1): 'T': {early}; {AS_COUNTED}")),
        (b"@c\nTTTT\n", format!("15 at offset 8 (line 3, column 1, record 1): {CUT_OFF}; {AS_COUNTED}")),
        (
            b"@c\nTTTT\n+\nIII\n",
            format!("16 at offset 10 (line 4, column 1, record 1): {lengths}; {AS_COUNTED}"),
        ),
        (
            b"@c\nTTTT\n+\nII I\n",
            format!("17 at offset 12 (line 4, column 3, record 1): a space: {quality}; {AS_COUNTED}"),
        ),
    ];
    let place = lake_and_pond();
    let lake = format!("lake.fa: {NUMBERS}");
    let check = |name: &str, reason: &str| {
        let said = [lake.clone(), format!("{name}: not withdrawn: {reason}")];
        place.check(&["lake.fa", "--withdraw", name], 1, LISTING, &said);
    };
    for (bytes, reason) in files {
        place.0.file("bad", bytes);
        check("bad", &format!("refused {reason}"));
    }
    check("missing.fa", "not read: No such file or directory");
    check(".", "not read: Is a directory");
}

/// One byte too long, of each kind and of neither, and without an end. The advice is not to split it: parts that are
/// given by a pattern would be counted.
#[test]
fn files_that_are_too_long() {
    let long = |start: &[u8]| [start, &b"T".repeat(16_777_217 - start.len())].concat();
    let (fasta, fastq, xz) = (long(b">c\n"), long(b"@c\n"), long(b"\xfd7zXZ"));
    let place =
        Place::with(&[("lake.fa", EXAMPLE), ("long.fa", &fasta), ("long.fq", &fastq), ("long.xz", &xz)]);
    let parts =
        "no file of this length was counted: withdraw the parts that were, each with its own --withdraw";
    let compressed = "it is compressed: give - for it, with xz -dc FILE | before the command";
    for (name, advice) in
        [("long.fa", parts), ("long.fq", parts), ("long.xz", compressed), ("/dev/zero", parts)]
    {
        let reason = format!("refused 6: more than 16,777,216 bytes; {advice}");
        let said = [format!("lake.fa: {NUMBERS}"), format!("{name}: not withdrawn: {reason}")];
        place.check(&["lake.fa", "--withdraw", name], 1, LISTING, &said);
    }
}

/// Standard input can be withdrawn, and be read only once.
#[test]
fn standard_input_is_withdrawn() {
    let place = lake_and_pond();
    let run = place.count_with(&["lake.fa", "pond.fa", "--withdraw", "-"], POND_READ);
    assert_eq!((run.status, run.text()), (0, LISTING), "{}", run.err);
    assert_eq!(run.complaints()[2..], [format!("standard input: withdrawn: {POND_SAID}")]);
    let run = place.count_with(&["-", "--withdraw", "pond.fa"], &[EXAMPLE, POND].concat());
    assert_eq!((run.status, run.text()), (0, LISTING), "{}", run.err);
    let twice = "- is given twice; standard input can be read only once";
    place.count_with(&["-", "--withdraw", "-"], EXAMPLE).check_failed(twice);
    place.count_with(&["lake.fa", "--withdraw=-", "--withdraw", "-"], EXAMPLE).check_failed(twice);
}

/// Drawn lists of files of both kinds, of which some are damaged, and of withdrawals of these files: the listing is
/// that of the library after the same calls, and each line has the library's answer.
#[test]
fn drawn_lists_of_files_and_withdrawals() {
    let mut random = Random::new(181);
    let settings = Settings::new(b"ACGT", 4, COMPLEMENT);
    let (mut withdrawn, mut lacking) = (0, 0);
    for _ in 0..60 {
        let (folder, mut list) = (Folder::new(), List::new(4));
        let files: Vec<(PathBuf, Vec<u8>)> = ["a", "b", "c"]
            .map(|name| {
                let (_, file) = drawn_of_either_kind(&mut random, &settings, 300);
                (folder.file(name, &file), file)
            })
            .into();
        for (path, file) in &files {
            // Refused or not, the comparison of the lines is within.
            let _ = list.call(Call::Add, path, file);
        }
        for _ in 0..random.below(4) {
            let (path, file) = &files[random.below(3) as usize];
            let answer = list.call(Call::Withdraw, path, file);
            withdrawn += answer.is_ok_and(|numbers| numbers.windows > 0) as usize;
            lacking += (answer == Err(Refusal { number: 18, place: 0 })) as usize;
        }
        list.check();
    }
    assert!(withdrawn > 30 && lacking > 5, "{withdrawn} files withdrawn, {lacking} refused 18");
}

/// The largest file there may be is taken out to its last window.
#[test]
fn a_file_of_full_size() {
    let folder = Folder::new();
    let (full, lake) = (folder.path("full.fa"), folder.file("lake.fa", EXAMPLE));
    write_drawn(&full, 182, 16_777_216).expect("room for the file");
    let (full, lake) = (full.to_str().expect("a name"), lake.to_str().expect("a name"));
    let run = run_with(&["count", "--k=2", full, lake, "--withdraw", full], b"");
    assert_eq!((run.status, run.text()), (0, LISTING), "{}", run.err);
    let lines = run.complaints();
    let numbers = lines[0].strip_prefix(&format!("{full}: records ")).expect("the file's line");
    assert_eq!(lines[2], format!("{full}: withdrawn: records {numbers}"));
}

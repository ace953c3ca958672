//! `wontirje count --from` (document 02, K7): this year's files added to last year's listing, the settings
//! that are the listing's, files withdrawn from it, and what of it is refused. Damaged listings are in
//! listings.rs.

mod run;

use kmer_tests::draw::{write_drawn, Random};
use kmer_tests::settings::{Settings, COMPLEMENT};
use kmer_tests::tables::some_settings;
use run::{drawn_of_either_kind, options, run, run_as, Folder, Run, WONTIRJE};
use run::{EMPTY, EXAMPLE, LISTING, NUMBERS};
use std::ffi::{OsStr, OsString};
use std::fs;
use std::process::Command;

/// Three windows of a class that the example has not.
const POND: &[u8] = b">c\nTTTT\n";
const POND_SAID: &str = "records 1, letters 4, foreign 0, edge 1, windows 3";

/// What is said of the example's listing, and the listing of both.
const LOADED: &str = "last.txt: loaded: 4 of 10 classes have a count, total 6";
const BOTH: &str = "(survey (letters ACGT) (k 2) (mirror complement) (classes 10))\n\
    (count CG 1)\n(count GC 1)\n(count AG 2)\n(count AC 2)\n(count AA 3)\n(total 9)\n";

/// A folder in which the command runs, with last year's listing, which is the example's, and this year's
/// file.
struct Place(Folder);

impl Place {
    fn new() -> Place {
        let folder = Folder::new();
        folder.file("last.txt", LISTING.as_bytes());
        folder.file("pond.fa", POND);
        Place(folder)
    }

    fn count_with(&self, arguments: &[impl AsRef<OsStr>], input: &[u8]) -> Run {
        self.0.run(&["count"], arguments, input)
    }

    /// What a count leaves: status, listing and the lines on standard error.
    fn check(&self, arguments: &[&str], status: i32, listing: &str, said: &[&str]) {
        let run = self.count_with(arguments, b"");
        assert_eq!((run.status, run.text()), (status, listing), "{arguments:?}: {}", run.err);
        assert_eq!(run.complaints(), said, "{arguments:?}");
    }
}

/// The option in each form and at each place: no other is needed.
#[test]
fn this_years_file_is_added_to_last_years_listing() {
    let place = Place::new();
    let pond = format!("pond.fa: {POND_SAID}");
    for arguments in [
        &["--from", "last.txt", "pond.fa"][..],
        &["pond.fa", "--from=last.txt"],
        &["pond.fa", "--from", "last.txt", "--k", "2"],
        &["--mirror=complement", "--letters", "ACGT", "--from", "last.txt", "--", "pond.fa"],
    ] {
        place.check(arguments, 0, BOTH, &[LOADED, &pond]);
    }
    place.0.file("empty.fa", b"");
    let empty = "empty.fa: records 0, letters 0, foreign 0, edge 0, windows 0";
    place.check(&["--from", "last.txt", "empty.fa"], 0, LISTING, &[LOADED, empty]);
    place.0.file("none.txt", EMPTY.as_bytes());
    place.0.file("lake.fa", EXAMPLE);
    let none = "none.txt: loaded: 0 of 10 classes have a count, total 0";
    place.check(&["--from", "none.txt", "lake.fa"], 0, LISTING, &[none, &format!("lake.fa: {NUMBERS}")]);
    // RNA counts as its copy with T, which the listing has.
    place.0.file("rna.fa", b">c\nuuUU\n");
    place.check(&["--from", "last.txt", "rna.fa"], 0, BOTH, &[LOADED, &format!("rna.fa: {POND_SAID}")]);
}

/// Files of both kinds, damaged ones among them, counted and withdrawn in one run or over two years: the same
/// bytes and the same line for each file, for settings of all kinds. The second year needs no options.
#[test]
fn drawn_years() {
    let mut random = Random::new(211);
    let mut refused = 0;
    for settings in some_settings() {
        for _ in 0..8 {
            let place = Place::new();
            for name in ["a", "b", "c", "d"] {
                place.0.file(name, &drawn_of_either_kind(&mut random, &settings, 1500).1);
            }
            let given = |arguments: &[&str]| {
                let arguments = arguments.iter().map(OsString::from);
                options(&settings).into_iter().chain(arguments).collect::<Vec<_>>()
            };
            let at_once =
                place.count_with(&given(&["a", "b", "c", "d", "--withdraw=a", "--withdraw=c"]), b"");
            let last = place.count_with(&given(&["a", "b", "--output", "2023.txt"]), b"");
            let arguments = ["--from", "2023.txt", "c", "d", "--withdraw=a", "--withdraw=c"];
            let this = place.count_with(&arguments, b"");
            assert!(this.out == at_once.out, "{settings}: {}{}", this.err, at_once.err);
            assert_eq!(this.status.max(last.status), at_once.status, "{settings}");
            let said = [last.complaints(), this.complaints()[1..].to_vec()].concat();
            assert_eq!(said, at_once.complaints(), "{settings}");
            refused += at_once.status as usize;
        }
    }
    assert!((10..70).contains(&refused), "{refused} runs with a refused file");
}

/// Years one after the other, each from the listing of the year before.
#[test]
fn year_after_year() {
    let place = Place::new();
    let mut random = Random::new(212);
    let settings = Settings::new(b"ACGT", 6, COMPLEMENT);
    let names: Vec<String> = (0..8).map(|year| format!("{year}.fa")).collect();
    for name in &names {
        place.0.file(name, &drawn_of_either_kind(&mut random, &settings, 3000).1);
    }
    let mut statuses = vec![place.count_with(&["--k", "6", "--output", "0.txt", &names[0]], b"").status];
    for (year, name) in names.iter().enumerate().skip(1) {
        let (from, to) = (format!("{}.txt", year - 1), format!("{year}.txt"));
        statuses.push(place.count_with(&["--from", &from, "--output", &to, name], b"").status);
    }
    let all: Vec<&str> = ["--k", "6"].into_iter().chain(names.iter().map(|name| &name[..])).collect();
    let at_once = place.count_with(&all, b"");
    assert!(at_once.out.len() > 10_000, "{}", at_once.err);
    // Each year's status is that of its file.
    let told = at_once.complaints().into_iter().map(|line| i32::from(line.contains(": refused ")));
    assert_eq!(statuses, told.collect::<Vec<_>>(), "{}", at_once.err);
    assert!(statuses.contains(&0) && statuses.contains(&1), "{statuses:?}");
    assert!(fs::read(place.0.path("7.txt")).expect("the last listing") == at_once.out, "the listings differ");
}

/// Two files of full size, in one run and in two.
#[test]
fn files_of_full_size() {
    let place = Place::new();
    for (name, seed) in [("a.fa", 213), ("b.fa", 214)] {
        write_drawn(&place.0.path(name), seed, 16_777_216).expect("room for the file");
    }
    let at_once = place.count_with(&["--k=10", "a.fa", "b.fa"], b"");
    assert_eq!(at_once.status, 0, "{}", at_once.err);
    assert_eq!(place.count_with(&["--k=10", "a.fa", "--output=a.txt"], b"").status, 0);
    let from = place.count_with(&["--from=a.txt", "b.fa"], b"");
    assert_eq!(from.status, 0, "{}", from.err);
    assert!(from.out.len() > 10_000_000 && from.out == at_once.out, "the listings differ");
}

/// Ground 21: an option that differs from the listing. It is told beside the listing's own, and what is the
/// same is left out.
#[test]
fn options_that_differ_from_the_listing() {
    let place = Place::new();
    let advice = "leave out what differs, or count the listing's files again with it";
    for (given, has, command_line) in [
        (&["--k", "3"][..], "k 2", "--k 3"),
        (&["-k", "11"], "k 2", "--k 11"),
        (&["--letters", "ACGU"], "letters ACGT", "--letters ACGU"),
        (&["--letters", "TGCA", "--k", "2"], "letters ACGT", "--letters TGCA"),
        (&["--mirror", "reversal"], "mirror complement", "--mirror reversal"),
        (
            &["--mirror=reversal", "--k=1", "--letters=AB"],
            "letters ACGT, k 2, mirror complement",
            "--letters AB, --k 1, --mirror reversal",
        ),
    ] {
        let arguments = [given, &["--from", "last.txt", "--output", "new.txt", "pond.fa"]].concat();
        place.count_with(&arguments, b"").check_failed(&format!(
            "last.txt: refused 21 at offset 0 (line 1): the survey line has {has}, the command line \
             {command_line}; {advice}"
        ));
    }
    assert_eq!(place.0.names(), ["last.txt", "pond.fa"]);
}

/// An option that no table allows: the library's refusal of the settings, before the listing is judged.
#[test]
fn options_that_no_listing_has() {
    let place = Place::new();
    let many = "refused 6: more than 16,777,216 classes, too many for a table (letters ACGT, k 13, \
        mirror complement)";
    let letters =
        "refused 1: the letters are not 2 to 16 different capitals (letters acgt, k 2, mirror reversal)";
    let out = "out to take the listing's own";
    for (given, reason) in [
        (&["--k", "13"][..], format!("last.txt: {many}; no listing has these settings: leave --k {out}")),
        (
            &["--letters", "acgt", "--mirror", "reversal"],
            format!("last.txt: {letters}; no listing has these settings: leave --letters and --mirror {out}"),
        ),
        (
            &["--mirror", "both"],
            "refused 2: the mirror is neither reversal nor complement: --mirror both".into(),
        ),
        (&["--k", "x"], "--k x is no number from 0 to 2^64 - 1".into()),
    ] {
        let arguments = [given, &["--from", "last.txt", "pond.fa"]].concat();
        place.count_with(&arguments, b"").check_failed(&reason);
    }
}

/// The listing's own settings are none: to leave an option out does not help. Where its first line is no
/// survey line, that is told, whatever the options are.
#[test]
fn listings_that_no_option_mends() {
    let place = Place::new();
    place.0.file("k13.txt", LISTING.replace("(k 2)", "(k 13)").as_bytes());
    place.0.file("lower.txt", LISTING.replace("ACGT", "acgt").as_bytes());
    place.0.file("empty.txt", b"");
    place.0.file("lake.fa", EXAMPLE);
    let again = "no listing has these settings: copy it again, or count its files again";
    let many = "more than 16,777,216 classes, too many for a table (letters ACGT, k 13, mirror complement)";
    let k13 = format!("k13.txt: refused 6: {many}; {again}");
    let differs = "k13.txt: refused 21 at offset 0 (line 1): the survey line has k 13, the command line \
        --k 2; no table has the listing's own: count its files again";
    let capitals = "the letters are not 2 to 16 different capitals";
    let lower = |k: usize| {
        format!("lower.txt: refused 1: {capitals} (letters acgt, k {k}, mirror complement); {again}")
    };
    let empty = "empty.txt: refused 20 at offset 0 (line 1): the survey line is missing; the listing is \
        empty: copy it again, or count its files again";
    let none = "lake.fa: refused 20 at offset 0 (line 1): no survey line, so this is no listing; give a \
        listing as wontirje count prints it";
    for (arguments, reason) in [
        (&["--letters", "ACGT", "--from", "k13.txt"][..], &k13[..]),
        (&["--letters", "ACGT", "--mirror", "complement", "--from", "k13.txt"], &k13),
        (&["--k", "2", "--from", "k13.txt"], differs),
        (&["--k", "2", "--from", "lower.txt"], &lower(2)),
        (&["--k", "13", "--from", "lower.txt"], &lower(13)),
        (&["--k", "13", "--from", "empty.txt"], empty),
        (&["--letters", "acgt", "--from", "empty.txt"], empty),
        (&["--k", "0", "--from", "lake.fa"], none),
        (&["--k", "2", "--from", "lake.fa"], none),
    ] {
        place.count_with(&[arguments, &["pond.fa"]].concat(), b"").check_failed(reason);
    }
}

/// A listing and a file through a pipe, and not both.
#[test]
fn standard_input() {
    let place = Place::new();
    let pond = format!("pond.fa: {POND_SAID}");
    let run = place.count_with(&["--from", "-", "pond.fa"], LISTING.as_bytes());
    assert_eq!((run.status, run.text()), (0, BOTH), "{}", run.err);
    assert_eq!(run.complaints(), [&LOADED.replace("last.txt", "standard input"), &pond]);
    let run = place.count_with(&["--from", "last.txt", "-"], POND);
    assert_eq!((run.status, run.text()), (0, BOTH), "{}", run.err);
    let twice = "- is given twice; standard input can be read only once";
    for arguments in [&["--from", "-", "-"][..], &["--from=-", "--withdraw=-"], &["-", "pond.fa", "--from=-"]]
    {
        place.count_with(arguments, LISTING.as_bytes()).check_failed(twice);
    }
    // A listing that is printed goes on to the next run.
    let script = "\"$0\" count --k 2 lake.fa 2>/dev/null | \"$0\" count --from - pond.fa";
    place.0.file("lake.fa", EXAMPLE);
    let run = run_as(Command::new("sh").current_dir(&place.0).args(["-c", script, WONTIRJE]), b"");
    assert_eq!((run.status, run.text()), (0, BOTH), "{}", run.err);
}

/// A file is taken out of a listing, without any that is counted; 18 where the listing has not its windows.
#[test]
fn files_are_withdrawn_from_a_listing() {
    let place = Place::new();
    place.0.file("both.txt", BOTH.as_bytes());
    let both = "both.txt: loaded: 5 of 10 classes have a count, total 9";
    let withdrawn = format!("pond.fa: withdrawn: {POND_SAID}");
    place.check(&["--from", "both.txt", "--withdraw", "pond.fa"], 0, LISTING, &[both, &withdrawn]);
    let lacking = "pond.fa: not withdrawn: refused 18: some class has a smaller count than the file has \
        windows of it; withdraw only what was counted: the same file, unchanged, and no more often; or an \
        earlier --withdraw took its windows";
    place.check(&["--from", "last.txt", "--withdraw", "pond.fa"], 1, LISTING, &[LOADED, lacking]);
    let pond = format!("pond.fa: {POND_SAID}");
    let arguments = ["--from", "last.txt", "pond.fa", "--withdraw", "pond.fa", "--withdraw", "pond.fa"];
    place.check(&arguments, 1, LISTING, &[LOADED, &pond, &withdrawn, lacking]);
    let strict = [&["--strict"], &arguments[..]].concat();
    place.check(&strict, 1, "", &[LOADED, &pond, &withdrawn, lacking]);
    let quiet = [&["--no-listing"], &arguments[..3]].concat();
    place.check(&quiet, 0, "", &[LOADED, &pond]);
    // Where there is nothing to do, a file was forgotten.
    let none = "no file given; name files, or - for standard input; see wontirje count --help";
    place.count_with(&["--from", "last.txt"], b"").check_failed(none);
    // Without a listing there is nothing to withdraw from.
    place.count_with(&["--withdraw", "pond.fa"], b"").check_failed(none);
}

/// A refused file leaves the listing's counts, as it leaves those of other files.
#[test]
fn refused_files() {
    let place = Place::new();
    place.0.file("bad.fa", b"AC\n");
    let run = place.count_with(&["--from", "last.txt", "bad.fa", "pond.fa"], b"");
    assert_eq!((run.status, run.text()), (1, BOTH), "{}", run.err);
    let told = run.complaints();
    assert!(told.len() == 3 && told[0] == LOADED && told[1].starts_with("bad.fa: refused 11 at offset 0 ("));
    // A count at its top takes no window more of any class.
    let full = LISTING.replace("AG 2", "AG 4294967295").replace("total 6", "total 4294967299");
    place.0.file("full.txt", full.as_bytes());
    let said = [
        "full.txt: loaded: 4 of 10 classes have a count, total 4294967299",
        "pond.fa: refused 12: a count could exceed 4,294,967,295; start a new count with this file, \
         and add the two listings up with wontirje merge",
    ];
    place.check(&["--from", "full.txt", "pond.fa"], 1, &full, &said);
}

/// The new listing may not take the old one's name; nor is it written where the old one is refused.
#[test]
fn the_old_listing_is_kept() {
    let place = Place::new();
    let there = "last.txt: there is such a file already; only a new one is written";
    place.count_with(&["--from", "last.txt", "--output", "last.txt", "pond.fa"], b"").check_failed(there);
    assert_eq!(fs::read_to_string(place.0.path("last.txt")).expect("the listing"), LISTING);
    place.check(
        &["--from", "last.txt", "--output", "this.txt", "pond.fa"],
        0,
        "",
        &[LOADED, &format!("pond.fa: {POND_SAID}")],
    );
    assert_eq!(fs::read_to_string(place.0.path("this.txt")).expect("the listing"), BOTH);
    place
        .count_with(&["--from", "no.txt", "--output", "new.txt", "pond.fa"], b"")
        .check_failed("no.txt: not read: No such file or directory");
    assert_eq!(place.0.names(), ["last.txt", "pond.fa", "this.txt"]);
}

/// A listing that is given as a sequence file is known by its first line.
#[test]
fn listings_given_as_sequence_files() {
    let place = Place::new();
    let byte = "refused 10 at offset 0 (line 1, column 1): '(': a byte of a sequence line is no letter";
    let advice = "it looks like a listing: give it with --from, or add several up with wontirje merge first";
    let add = format!("last.txt: {byte}; {advice}");
    let pond = format!("pond.fa: {POND_SAID}");
    let ponds = EMPTY.replace("(total 0)", "(count AA 3)\n(total 3)");
    place.check(&["--k", "2", "last.txt", "pond.fa"], 1, &ponds, &[&add, &pond]);
    place.check(&["--from", "last.txt", "last.txt", "pond.fa"], 1, BOTH, &[LOADED, &add, &pond]);
    // Older ones have no number of classes.
    for (name, listing) in [("older.txt", LISTING), ("none.txt", EMPTY)] {
        place.0.file(name, listing.replace(" (classes 10)", "").as_bytes());
        place.check(
            &["--k", "2", name, "pond.fa"],
            1,
            &ponds,
            &[&format!("{name}: {byte}; {advice}"), &pond],
        );
    }
    let withdraw = format!(
        "last.txt: not withdrawn: {byte}; it looks like a listing: only sequence files are withdrawn"
    );
    place.check(&["--k", "2", "pond.fa", "--withdraw", "last.txt"], 1, &ponds, &[&pond, &withdraw]);
    // What the counter program reads has no number of classes.
    place.0.file("counter.in", b"(survey (letters ACGT) (k 2) (mirror complement))\n>a\nACGT\n");
    let line = format!("counter.in: {byte}; take the survey line out: settings are given as options");
    place.check(&["--k", "2", "counter.in"], 1, EMPTY, &[&line]);
}

/// The help's example.
#[test]
fn the_example_of_the_help() {
    let place = Place::new();
    let help = run(&["help", "count"]).text().to_string();
    let example = help.lines().find(|line| line.contains("wontirje count --from ")).expect("an example");
    let arguments: Vec<&str> = example.split_whitespace().skip(2).collect();
    assert_eq!(arguments, ["--from", "2023.txt", "--output", "2024.txt", "lake-2024.fa"]);
    place.0.file("2023.txt", LISTING.as_bytes());
    place.0.file("lake-2024.fa", POND);
    assert_eq!(place.count_with(&arguments, b"").status, 0);
    assert_eq!(fs::read_to_string(place.0.path("2024.txt")).expect("the listing"), BOTH);
}

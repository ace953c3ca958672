//! `wontirje generate`: the library's bytes, printed or in a new file, and what is refused.

mod run;

use kmer_tests::settings::{Settings, REVERSAL};
use kmer_tests::tables::some_settings;
use run::{lent, options, run, run_as, run_with, Folder, Run, WONTIRJE};
use std::ffi::OsString;
use std::fs::{self, File};
use std::os::unix::fs::symlink;
use std::process::Command;

/// The greatest number that an option takes, and the next one.
const MOST: &str = "18446744073709551615";
const ABOVE: &str = "18446744073709551616";

const SMALL: [&str; 7] = ["generate", "--start", "1", "--records", "2", "--length", "5"];
const SMALL_FILE: &str = ">1\nCGGCT\n>2\nGGATA\n";

/// The three numbers as options.
fn numbers(start: u64, records: usize, each: usize) -> [OsString; 3] {
    let options = [("start", start), ("records", records as u64), ("length", each as u64)];
    options.map(|(name, number)| format!("--{name}={number}").into())
}

/// The arguments of a run with all of these.
fn arguments(settings: &Settings, start: u64, records: usize, each: usize) -> Vec<OsString> {
    [vec!["generate".into()], options(settings), numbers(start, records, each).to_vec()].concat()
}

/// What the library writes.
fn of_the_library(settings: &Settings, start: u64, records: usize, each: usize) -> Vec<u8> {
    let settings = lent(settings);
    let mut file = vec![b'?'; settings.generated_length(records, each).expect("a length")];
    assert_eq!(settings.generate(start, records, each, &mut file), Ok(file.len()));
    file
}

/// The command prints the library's bytes and says nothing.
fn check(settings: &Settings, start: u64, records: usize, each: usize) {
    let run = run(&arguments(settings, start, records, each));
    let what = format!("{settings}, start {start}, {records} of {each}");
    assert_eq!((run.status, &run.err[..]), (0, ""), "{what}");
    assert!(run.out == of_the_library(settings, start, records, each), "{what}: other bytes");
}

/// What is said of a file that is too large.
fn too_large(records: &str, each: &str) -> String {
    format!(
        "refused 6: the file of --records {records} and --length {each} would have more than 16,777,216 bytes; give \
         fewer records or letters, or make several files, each with another --start"
    )
}

#[test]
fn files_by_hand() {
    let small = run(&SMALL);
    assert_eq!((small.status, small.text(), &small.err[..]), (0, SMALL_FILE, ""));
    for (more, right) in [
        (&["--letters", "ACGT"][..], SMALL_FILE),
        (&["--letters=TGCA"], ">1\nGCCGA\n>2\nCCTAT\n"),
        // Neither k nor mirror changes the file, also where no table could be made.
        (&["--k", "31"], SMALL_FILE),
        (&["-k", "1", "--mirror", "reversal"], SMALL_FILE),
    ] {
        let run = run(&[&SMALL, more].concat());
        assert_eq!((run.status, run.text(), &run.err[..]), (0, right, ""), "{more:?}");
    }
    // The options in another order.
    let turned = run(&["generate", "--length=5", "--start=1", "--records=2"]);
    assert_eq!(turned.text(), SMALL_FILE);
    let headers = run(&["generate", "--start=1", "--records=3", "--length=0"]);
    assert_eq!((headers.status, headers.text()), (0, ">1\n>2\n>3\n"));
    let nothing = run(&["generate", "--start=1", "--records=0", "--length=5"]);
    assert_eq!((nothing.status, nothing.text(), &nothing.err[..]), (0, "", ""));
}

#[test]
fn files_are_the_library_s() {
    let sixteen = Settings::new(b"PONMLKJIHGFEDCBA", 15, REVERSAL);
    for settings in some_settings().iter().chain([&sixteen]) {
        for start in [0, 1, 1 << 63, u64::MAX] {
            for (records, each) in
                [(0, 0), (0, 7), (1, 1), (11, 0), (1, 59), (2, 60), (3, 61), (12, 121), (101, 3)]
            {
                check(settings, start, records, each);
            }
        }
        check(settings, 7, 0, usize::MAX);
        check(settings, 7, 1000, 1000);
    }
    // The numbers are not mixed up, nor the start left out.
    let dna = &some_settings()[0];
    assert!(of_the_library(dna, 1, 2, 3) != of_the_library(dna, 1, 3, 2));
    assert!(of_the_library(dna, 1, 2, 3) != of_the_library(dna, 2, 2, 3));
}

/// The longest files there are, of one record and of as many as can be, are written whole, to the last byte;
/// with one letter or record more they are refused.
#[test]
fn the_greatest_files() {
    let dna = &some_settings()[0];
    for (records, each, length) in [(1, 16_502_176, 16_777_216), (1_987_591, 0, 16_777_215)] {
        assert_eq!(of_the_library(dna, 1, records, each).len(), length);
        check(dna, 1, records, each);
    }
    check_too_large("1", "16502177");
    check_too_large("1987592", "0");
}

/// Nothing is printed, and no file is made.
fn check_too_large(records: &str, each: &str) {
    let folder = Folder::new();
    for to in [&[][..], &["--output", "load.fa"]] {
        let numbers = ["generate", "--start", MOST, "--records", records, "--length", each];
        folder.run(&numbers, to, b"").check_failed(&too_large(records, each));
    }
    assert!(folder.names().is_empty(), "{records} of {each}: {:?}", folder.names());
}

#[test]
fn files_that_are_too_large() {
    for (records, each) in [
        (MOST, MOST),
        (MOST, "0"),
        ("1", MOST),
        ("16777216", "1"),
        ("4294967296", "4294967296"),
        ("2", "9223372036854775808"),
    ] {
        check_too_large(records, each);
    }
}

/// The file is taken in, with the numbers that it was made from.
#[test]
fn files_are_counted() {
    for settings in some_settings() {
        for (records, each) in [(0, 5), (4, 0), (3, 50), (30, 200)] {
            let file = run(&arguments(&settings, 5, records, each)).out;
            let count = [vec!["count".into(), "-".into()], options(&settings)].concat();
            let counted = run_with(&count, &file);
            let right =
                format!("standard input: records {records}, letters {}, foreign 0, edge ", records * each);
            assert_eq!(counted.status, 0, "{settings}: {}", counted.err);
            assert!(counted.err.starts_with(&right), "{settings}: {}: {}", right, counted.err);
        }
    }
}

/// The example of the help prints the listing that is stored for those who compare their builds.
#[test]
fn the_example_of_the_help() {
    let example = "wontirje generate --start 1 --records 1000 --length 1000 | wontirje count --k 3 -";
    assert!(run(&["generate", "--help"]).text().contains(&format!("\n  {example}\n")));
    let piped = run_shell(&example.replace("wontirje", "\"$0\""));
    assert_eq!((piped.status, piped.text()), (0, include_str!("../../tests/vectors/k08_three_labs.txt")));
    let right = "standard input: records 1000, letters 1000000, foreign 0, edge 2000, windows 998000";
    assert_eq!(piped.complaints(), [right]);
    // docs/GUIDE.md, "Comparing builds", has the command, this line and the listing.
    let guide = include_str!("../../docs/GUIDE.md");
    let listing: String = piped.text().lines().map(|line| format!("    {line}\n")).collect();
    assert!(guide.contains(&format!("\n    {example}\n")) && guide.contains(&format!("`{right}`")));
    assert!(guide.contains(&format!("\n\n{listing}\n")), "the guide has another listing");
}

/// Runs a shell's commands, in which the command is `"$0"`.
fn run_shell(script: &str) -> Run {
    run_as(Command::new("sh").args(["-c", script, WONTIRJE]), b"")
}

#[test]
fn a_new_file_has_the_printed_bytes() {
    let folder = Folder::new();
    for (number, (records, each)) in [(2, 5), (0, 5), (9000, 61)].into_iter().enumerate() {
        let name = format!("{number}.fa");
        let numbers = numbers(1, records, each);
        let written = folder.run(&["generate", "--output", &name], &numbers, b"");
        assert_eq!((written.status, written.text(), &written.err[..]), (0, "", ""));
        let printed = folder.run(&["generate"], &numbers, b"").out;
        assert!(fs::read(folder.path(&name)).expect("the file") == printed, "{records} of {each}");
    }
    assert_eq!(fs::read_to_string(folder.path("0.fa")).expect("the file"), SMALL_FILE);
    assert_eq!(folder.names(), ["0.fa", "1.fa", "2.fa"]);
}

/// It is kept as it was.
#[test]
fn a_file_that_is_there_is_not_overwritten() {
    let folder = Folder::new();
    folder.file("load.fa", b"kept");
    symlink("nowhere", folder.path("link")).expect("a link");
    for name in ["load.fa", "link", "."] {
        let reason = format!("{name}: there is such a file already; only a new one is written");
        folder.run(&SMALL, &["--output", name], b"").check_failed(&reason);
    }
    assert_eq!(fs::read(folder.path("load.fa")).expect("the file"), b"kept");
    assert_eq!(folder.names(), ["link", "load.fa"]);
}

/// What has no room, or no name of a file.
#[test]
fn what_cannot_be_written() {
    let folder = Folder::new();
    for (name, reason) in [
        ("-", "--output - is no file; leave --output out to print the file"),
        ("none/load.fa", "none/load.fa: not written: No such file or directory"),
        ("", ": not written: it is no name of a file"),
    ] {
        folder.run(&SMALL, &["--output", name], b"").check_failed(reason);
    }
    let large = "generate --start 1 --records 1 --length 100000";
    let output = folder.path("load.fa");
    // Files may have 64 KB at most.
    let script = format!("trap '' XFSZ; ulimit -f 128; exec \"$0\" {large} --output '{}'", output.display());
    run_shell(&script).check_failed(&format!("{}: not written: File too large", output.display()));
    assert!(folder.names().is_empty(), "{:?}", folder.names());
    for arguments in [&SMALL[..], &large.split(' ').collect::<Vec<_>>()] {
        let full = File::options().write(true).open("/dev/full").expect("the full device");
        let run = Command::new(WONTIRJE).args(arguments).stdout(full).output().expect("the command runs");
        Run::of(run).check_failed("standard output: not written: No space left on device");
    }
}

/// In 16 MiB there is room for a small file and none for the greatest one, of which nothing is left.
#[test]
fn a_file_for_which_there_is_no_memory() {
    let folder = Folder::new();
    let output = folder.path("load.fa");
    for to in [String::new(), format!(" --output '{}'", output.display())] {
        let large =
            format!("ulimit -v 16384; exec \"$0\" generate --start 1 --records 1 --length 16502176{to}");
        run_shell(&large).check_failed("no file: out of memory (16777216 bytes)");
        assert!(folder.names().is_empty(), "{:?}", folder.names());
    }
    let small = run_shell("ulimit -v 16384; exec \"$0\" generate --start 1 --records 2 --length 5");
    assert_eq!((small.status, small.text()), (0, SMALL_FILE), "{}", small.err);
}

/// Each of the three numbers must be given, once, as a number.
#[test]
fn errors_in_the_numbers() {
    let see = "; see wontirje generate --help";
    let given = [["--start", "1"], ["--records", "2"], ["--length", "5"]];
    let run_of = |options: &[&[&str]]| run(&[&["generate"], &options.concat()[..]].concat());
    for (at, [option, _]) in given.iter().enumerate() {
        let others: Vec<&[&str]> = given
            .iter()
            .enumerate()
            .filter(|(other, _)| *other != at)
            .map(|(_, option)| &option[..])
            .collect();
        let with = |more: &[&str]| run_of(&[&others[..], &[more]].concat());
        let missing = format!("{option} is not given; give --start, --records and --length{see}");
        run_of(&others).check_failed(&missing);
        with(&[option]).check_failed(&format!("{option} lacks its value{see}"));
        with(&[option, "1", option, "1"]).check_failed(&format!("{option} is given twice{see}"));
        for bad in ["", "-1", "+1", "1.5", "1e3", "0x10", "many", "1,000", " 1", ABOVE] {
            let reason = format!("{option} {bad} is no number from 0 to 2^64 - 1");
            with(&[option, bad]).check_failed(&reason);
            with(&[&format!("{option}={bad}")]).check_failed(&reason);
        }
    }
    let missing = format!("--start is not given; give --start, --records and --length{see}");
    run(&["generate"]).check_failed(&missing);
    run(&["generate", "--output", "load.fa"]).check_failed(&missing);
}

/// No operand is taken, and no option of another command.
#[test]
fn errors_in_the_command_line() {
    let see = "see wontirje generate --help";
    for operand in ["reads.fa", "-", "", "7"] {
        let reason = format!("{operand} is no option, and no file is read; {see}");
        run(&[&SMALL[..], &[operand]].concat()).check_failed(&reason);
    }
    let reason = format!("--start is no option, and no file is read; {see}");
    run(&["generate", "--", "--start", "1"]).check_failed(&reason);
    let reason = format!("1 is no option, and no file is read; {see}");
    run(&["generate", "1", "2", "5"]).check_failed(&reason);
    for (option, name) in [("--kind=fasta", "--kind=fasta"), ("--seed", "--seed"), ("-n", "-n")] {
        run(&[&SMALL[..], &[option]].concat()).check_failed(&format!("{name} is no option; {see}"));
    }
    run(&[&SMALL[..], &["--output"]].concat()).check_failed(&format!("--output lacks its value; {see}"));
    run(&[&SMALL[..], &["--k", "2", "--k", "2"]].concat())
        .check_failed(&format!("--k is given twice; {see}"));
}

/// As other commands tell them, before the length: of two grounds the lower number is told.
#[test]
fn refused_settings() {
    let letters = |letters: &str| {
        format!(
            "refused 1: the letters are not 2 to 16 different capitals (letters {letters}, k 11, mirror \
             complement); give --letters in capitals, each once, as in --letters ACGT"
        )
    };
    let bad_k = |k: usize| {
        format!(
            "refused 4: k is 0, or there are more than 2^62 words of k letters (letters ACGT, k {k}, mirror \
             complement); give a k from 1 to 31 for 4 letters (62 for 2, 39 for 3, 26 for 5, 15 for 16)"
        )
    };
    let folder = Folder::new();
    for (options, reason) in [
        (["--letters", "acgt"], letters("acgt")),
        (["--letters", "A"], letters("A")),
        (["--letters", "ACGA"], letters("ACGA")),
        (["--letters", ""], letters("")),
        (["--k", "0"], bad_k(0)),
        (["--k", "32"], bad_k(32)),
        (
            ["--mirror", "both"],
            String::from("refused 2: the mirror is neither reversal nor complement: --mirror both"),
        ),
        (["--k", "two"], String::from("--k two is no number from 0 to 2^64 - 1")),
    ] {
        let large = ["generate", "--start", "1", "--records", MOST, "--length", MOST];
        let nothing = ["generate", "--start", "1", "--records", "0", "--length", "0"];
        for numbers in [SMALL, large, nothing] {
            folder.run(&numbers, &options, b"").check_failed(&reason);
            folder.run(&numbers, &[&options[..], &["--output=load.fa"]].concat(), b"").check_failed(&reason);
        }
    }
    assert!(folder.names().is_empty(), "{:?}", folder.names());
}

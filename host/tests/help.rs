//! Help, errors in the command line, and progress on a terminal.

mod run;

use run::{run, whole_listing, Folder, WONTIRJE};
use std::ffi::{c_char, c_int, CStr, OsStr};
use std::fs::File;
use std::io::Read;
use std::os::fd::{FromRawFd, OwnedFd};
use std::path::Path;
use std::process::{Command, Stdio};
use wontirje::Settings;

const COMMANDS: [&str; 7] = ["count", "merge", "code", "word", "classes", "histogram", "generate"];

#[test]
fn each_command_has_help_with_an_example() {
    let all = run(&["--help"]);
    assert_eq!((all.status, &all.err[..]), (0, ""));
    assert!(all.text().contains("\nExample:\n  wontirje count reads.fa > counts.txt"));
    assert!(all.text().lines().all(|line| line.chars().count() <= 110));
    assert_eq!(run(&["-h"]).out, all.out);
    assert_eq!(run(&["help"]).out, all.out);
    assert!(all.text().contains("\n  wontirje --version "));
    assert!(run(&["--version"]).text().starts_with("wontirje "));
    for command in COMMANDS {
        assert!(all.text().contains(&format!("\n  wontirje {command} ")), "{command}");
        let help = run(&[command, "--bad", "--help"]);
        assert_eq!((help.status, &help.err[..]), (0, ""), "{command}");
        assert_eq!(run(&["help", command]).out, help.out, "{command}");
        assert!(help.text().starts_with(&format!("wontirje {command} [")), "{command}");
        let (_, examples) = help.text().split_once("\nExample").expect("an example");
        assert!(examples.contains(&format!("wontirje {command} ")), "{command}");
        assert!(help.text().lines().all(|line| line.chars().count() <= 110), "{command}");
    }
}

/// What is said of the kinds of file.
#[test]
fn the_help_of_count_says_the_kinds() {
    let help = run(&["help", "count"]).text().to_string();
    assert!(
        help.contains(" [--kind KIND] ") && help.contains("\n  --kind KIND     fasta or fastq: "),
        "{help}"
    );
    let told = help.split_whitespace().collect::<Vec<_>>().join(" ");
    assert!(told.contains("A file whose first byte is @ is taken for FASTQ, any other for FASTA;"), "{told}");
}

/// What is said of withdrawing a file.
#[test]
fn the_help_of_count_says_how_to_withdraw() {
    let help = run(&["help", "count"]).text().to_string();
    assert!(help.contains(" FILE... [--withdraw FILE]...\n"), "{help}");
    assert!(
        help.contains("\n  --withdraw FILE when all files are counted, take this one out again: "),
        "{help}"
    );
    let told = help.split_whitespace().collect::<Vec<_>>().join(" ");
    for rule in [
        "adds each file in order, withdraws those of --withdraw, and prints the listing",
        "(a further name after it is a file to count)",
        "Refused with 18 where some class has a smaller count than the file has windows of it.",
        "Files are not remembered: one that was not counted is withdrawn too where the counts allow it",
    ] {
        assert!(told.contains(rule), "{rule}: {told}");
    }
}

/// What the help of a command says, its lines joined.
fn told(command: &str) -> String {
    run(&["help", command]).text().split_whitespace().collect::<Vec<_>>().join(" ")
}

/// What is said of starting from a listing and of adding listings up.
#[test]
fn the_help_says_how_to_go_on_from_a_listing() {
    let help = run(&["help", "count"]).text().to_string();
    assert!(
        help.contains(" [--from LISTING] ") && help.contains("\n  --from LISTING  start from the counts of "),
        "{help}"
    );
    for rule in [
        "Clears a table, or loads a listing into it (--from), adds each file in order,",
        "What is not given of letters, k and mirror is the listing's; what is given must be the same.",
        "A listing that is refused or not read ends the run.",
        "It does not remember its files: one that is in it already is counted again.",
        "With --withdraw there need be no file to count",
    ] {
        assert!(told("count").contains(rule), "{rule}: {}", told("count"));
    }
    for rule in [
        "the count of each class is the sum of its counts in them. All must have the settings of the first;",
        "Where one is refused or not read, or a sum is above 4,294,967,295, nothing is printed or written.",
    ] {
        assert!(told("merge").contains(rule), "{rule}: {}", told("merge"));
    }
    let all = run(&["--help"]).text().to_string();
    assert!(all.contains("(under count --from: the listing's):\n"), "{all}");
    // The sums are not the library's.
    assert!(
        all.contains("the command is\ntested, and so are the sums of merge, which it adds up by itself.\n")
    );
}

/// What is said of the number of classes in a listing.
#[test]
fn the_help_says_that_a_listing_has_the_number_of_classes() {
    let rule = "prints the listing: the survey line with the number of classes, a line for each class";
    assert!(told("count").contains(rule), "{}", told("count"));
    let rule =
        "A listing is taken as wontirje count prints it, byte for byte; any other is refused, with the \
        place and what to do, and so is an older one, whose first line lacks (classes N).";
    assert!(told("histogram").contains(rule), "{}", told("histogram"));
}

/// What is said of test loads: what they are made from, and that it is all that they are made from.
#[test]
fn the_help_says_what_a_test_load_is() {
    for rule in [
        "The same numbers and letters give the same file everywhere, byte for byte,",
        "Of the settings only --letters changes the file;",
        "the header of each is > and its number from 1",
        "in lines of 60, the last perhaps shorter; with 0 there are only headers",
        "All three numbers must be given, each from 0 to 2^64 - 1. All lines end in LF.",
        "becomes state * 6364136223846793005 + 1442695040888963407 modulo 2^64;",
        "its top 32 bits times the number of letters, divided by 2^32 and rounded down, are the letter's rank",
        "A file has at most 16,777,216 bytes; a larger one is refused with 6, and nothing is written.",
    ] {
        assert!(told("generate").contains(rule), "{rule}: {}", told("generate"));
    }
    let usage = run(&["generate", "--help"]).text().to_string();
    assert!(usage.contains(" --start S --records N --length M\n") && usage.contains(" [--output FILE]\n"));
}

/// What is said of RNA.
#[test]
fn the_help_says_what_u_is_read_as() {
    let all = run(&["--help"]).text().split_whitespace().collect::<Vec<_>>().join(" ");
    assert!(all.contains("where T is one and U is not, U is read as T and printed as T"), "{all}");
    let rule = "foreign letters (not in --letters; U is read as T where they have T and no U)";
    assert!(told("count").contains(rule), "{}", told("count"));
}

/// What the help says of an example's output.
#[test]
fn the_examples_print_what_the_help_says() {
    let mut tried = 0;
    for command in COMMANDS {
        let help = run(&[command, "--help"]).text().to_string();
        for (example, prints) in help.lines().filter_map(|line| line.split_once(" prints ")) {
            let Some(arguments) = example.trim().strip_prefix("wontirje ") else { continue };
            let arguments: Vec<&str> = arguments.split_whitespace().collect();
            let printed = run(&arguments).text().to_string();
            let right = match prints {
                "1571 twice" => "1571\n1571\n",
                "3, as for TA: U is read as T" => "3\n",
                "TACGGCTA" => "TACGGCTA\n",
                "2097152 and 8390656 classes" => {
                    "k 11: 2097152 classes, table 8388608 bytes\nk 12: 8390656 classes, table 33562624 bytes\n"
                }
                ">1, CGGCT, >2 and GGATA, a line each" => ">1\nCGGCT\n>2\nGGATA\n",
                other => panic!("{other}"),
            };
            assert_eq!(printed, right);
            tried += 1;
        }
    }
    assert_eq!(tried, 5);
}

/// One line on standard error, nothing printed, status 2.
#[test]
fn errors_in_the_command_line() {
    let see = |command: &str| format!("; see wontirje {command}--help");
    let no_number = "is no number from 0 to 2^64 - 1";
    let no_kind = "is neither fasta nor fastq";
    let no_file = format!("no file given; name files, or - for standard input{}", see("count "));
    let cases: [(&[&str], String); 26] = [
        (&[], format!("no command given{}", see(""))),
        (&["conut"], format!("conut is no command of wontirje{}", see(""))),
        (&["a\nb"], format!("a\\nb is no command of wontirje{}", see(""))),
        (&["help", "conut"], format!("conut is no command of wontirje{}", see(""))),
        (&["count"], no_file.clone()),
        (&["count", "--withdraw", "a.fa"], no_file),
        (&["count", "a.fa", "--withdraw"], format!("--withdraw lacks its value{}", see("count "))),
        (&["count", "a.fa", "-withdrawn", "a.fa"], format!("-withdrawn is no option{}", see("count "))),
        (&["count", "-m", "12", "a.fa"], format!("-m is no option{}", see("count "))),
        (&["count", "--svg", "a", "a.fa"], format!("--svg is no option{}", see("count "))),
        (&["count", "a.fa", "--k"], format!("--k lacks its value{}", see("count "))),
        (&["count", "--strict=1", "-"], format!("--strict takes no value{}", see("count "))),
        (&["count", "--k", "2", "--k=3", "-"], format!("--k is given twice{}", see("count "))),
        (&["count", "-k2", "-"], format!("-k2 is no option{}", see("count "))),
        (&["count", "--k", "-2", "-"], format!("--k -2 {no_number}")),
        (&["count", "--k", "", "-"], format!("--k  {no_number}")),
        (&["count", "--k", "18446744073709551616", "-"], format!("--k 18446744073709551616 {no_number}")),
        (&["count", "--kind", "sam", "-"], format!("--kind sam {no_kind}")),
        (&["count", "--kind=FASTQ", "-"], format!("--kind FASTQ {no_kind}")),
        (&["count", "--kind", "", "-"], format!("--kind  {no_kind}")),
        (&["count", "a.fq", "--kind"], format!("--kind lacks its value{}", see("count "))),
        (&["histogram", "--kind", "fastq", "-"], format!("--kind is no option{}", see("histogram "))),
        (&["histogram", "--withdraw", "a.fa", "-"], format!("--withdraw is no option{}", see("histogram "))),
        (&["histogram", "--bars", "many", "-"], format!("--bars many {no_number}")),
        (&["histogram"], format!("give one listing, or - for standard input{}", see("histogram "))),
        (&["histogram", "--bars", "1", "-"], String::from("--bars 1 is not from 2 to 200")),
    ];
    for (arguments, right) in cases {
        run(arguments).check_failed(&right);
    }
}

/// The same of listings that are to be loaded.
#[test]
fn errors_about_listings() {
    let see = |command: &str| format!("; see wontirje {command} --help");
    let no_file = format!("no file given; name files, or - for standard input{}", see("count"));
    let no_listing = format!("no listing given; name listings, or - for standard input{}", see("merge"));
    let one = format!("give one listing, or - for standard input{}", see("histogram"));
    let cases: [(&[&str], String); 10] = [
        (&["count", "--from", "a.txt"], no_file),
        (&["count", "a.fa", "--from"], format!("--from lacks its value{}", see("count"))),
        (&["count", "--from=a", "--from=b", "c"], format!("--from is given twice{}", see("count"))),
        (&["merge"], no_listing.clone()),
        (&["merge", "--output", "a.txt"], no_listing),
        (&["merge", "a.txt", "--output"], format!("--output lacks its value{}", see("merge"))),
        (&["merge", "--k", "2", "a.txt"], format!("--k is no option{}", see("merge"))),
        (&["merge", "--from", "a.txt", "b.txt"], format!("--from is no option{}", see("merge"))),
        (&["histogram", "--from", "a.txt"], format!("--from is no option{}", see("histogram"))),
        (&["histogram", "a.txt", "b.txt"], one),
    ];
    for (arguments, right) in cases {
        run(arguments).check_failed(&right);
    }
}

/// Settings that the library refuses: the number of the ground, the settings and what to do, in one line.
#[test]
fn refused_settings() {
    let cases: [(&[&str], &str); 7] = [
        (
            &["count", "--mirror", "both", "-"],
            "refused 2: the mirror is neither reversal nor complement: --mirror both",
        ),
        (
            &["count", "--k", "13", "-"],
            "refused 6: more than 16,777,216 classes, too many for a table (letters ACGT, k 13, mirror complement); \
             give a smaller --k (under complement at most 12 for 4 letters, 10 for 5); wontirje classes tells the sizes",
        ),
        (
            &["code", "--letters", "acgt", "ACGT"],
            "refused 1: the letters are not 2 to 16 different capitals (letters acgt, k 11, mirror complement); \
             give --letters in capitals, each once, as in --letters ACGT",
        ),
        (
            &["classes", "--letters", "A"],
            "refused 1: the letters are not 2 to 16 different capitals (letters A, k 11, mirror complement); \
             give --letters in capitals, each once, as in --letters ACGT",
        ),
        (
            &["classes", "--letters", "ACGA", "5", "6"],
            "refused 1: the letters are not 2 to 16 different capitals (letters ACGA, k 11, mirror complement); \
             give --letters in capitals, each once, as in --letters ACGT",
        ),
        (
            &["classes", "--letters", "AA", "-"],
            "refused 1: the letters are not 2 to 16 different capitals (letters AA, k 11, mirror complement); \
             give --letters in capitals, each once, as in --letters ACGT",
        ),
        (
            &["word", "--k", "32", "0"],
            "refused 4: k is 0, or there are more than 2^62 words of k letters (letters ACGT, k 32, mirror \
             complement); give a k from 1 to 31 for 4 letters (62 for 2, 39 for 3, 26 for 5, 15 for 16)",
        ),
    ];
    for (arguments, right) in cases {
        run(arguments).check_failed(right);
    }
}

extern "C" {
    fn posix_openpt(flags: c_int) -> c_int;
    fn grantpt(terminal: c_int) -> c_int;
    fn unlockpt(terminal: c_int) -> c_int;
    fn ptsname_r(terminal: c_int, name: *mut c_char, length: usize) -> c_int;
}

/// A new terminal: its far end, which reads what is shown, and its near end for the command.
fn terminal() -> (File, File) {
    let mut name = [0; 100];
    // SAFETY: the number is that of an open terminal from its opening on, and the name is as long as is said.
    let far = unsafe {
        // For reading and writing, and not as the controlling terminal of this process.
        let far = posix_openpt(0o2 | 0o400);
        assert!(far >= 0 && grantpt(far) == 0 && unlockpt(far) == 0, "no terminal");
        assert_eq!(ptsname_r(far, name.as_mut_ptr(), name.len()), 0, "no name of the terminal");
        File::from(OwnedFd::from_raw_fd(far))
    };
    // SAFETY: the call above has written a name with its end.
    let name = unsafe { CStr::from_ptr(name.as_ptr()) }.to_str().expect("a name");
    (far, File::options().read(true).write(true).open(name).expect("the near end"))
}

/// What a count of a file shows on a terminal, with these arguments after it.
fn shown_on_a_terminal(file: &Path, more: &[&OsStr]) -> String {
    shown_by(Command::new(WONTIRJE).args(["count", "--k", "3"]).arg(file).args(more))
}

/// What a command that succeeds shows on a terminal.
fn shown_by(command: &mut Command) -> String {
    let (mut far, near) = terminal();
    command.stdin(Stdio::null()).stdout(Stdio::null()).stderr(near);
    assert!(command.status().expect("the command runs").success());
    // The near end is held by the command's builder too; the last reading then ends with an error.
    command.stderr(Stdio::null());
    let (mut shown, mut piece) = (Vec::new(), [0; 4096]);
    while let Ok(length @ 1..) = far.read(&mut piece) {
        shown.extend(&piece[..length]);
    }
    String::from_utf8(shown).expect("text")
}

/// A name as progress shows it: of one above 50 characters the end, so that the line can be wiped.
fn short_name(file: &Path) -> String {
    let name: Vec<char> = file.display().to_string().chars().collect();
    match name.len().checked_sub(50) {
        Some(cut @ 1..) => format!("…{}", name[cut..].iter().collect::<String>()),
        _ => name.iter().collect(),
    }
}

/// Above 1 MB there is progress, which is wiped before the file's line; below there is none, and none where
/// standard error is no terminal.
#[test]
fn progress_on_a_terminal() {
    let folder = Folder::new();
    let text = [b">a\n", &b"GATTACA\n".repeat(300_000)[..]].concat();
    let large = folder.file("large.fa", &text);
    let long = folder.file(&format!("{}.fa", "x".repeat(100)), &text);
    let small = folder.file("small.fa", &[b">a\n", &b"GATTACA\n".repeat(120_000)[..]].concat());
    let wiped = "\r\x1b[K";
    for file in [&large, &long] {
        let shown = shown_on_a_terminal(file, &[]);
        let (name, short) = (file.display(), short_name(file));
        let line = format!("{name}: records 1, letters 2100000, foreign 0, edge 2, windows 2099998\r\n");
        assert!(
            shown.starts_with(&format!("{wiped}{short}: 1 MB read{wiped}{short}: 2 MB read")),
            "{shown:?}"
        );
        assert!(shown.ends_with(&format!("{wiped}{short}: counting 2 MB{wiped}{line}")), "{shown:?}");
        let shown = shown_on_a_terminal(file, &["--withdraw".as_ref(), file.as_os_str()]);
        let line = line.replace(": records", ": withdrawn: records");
        assert!(shown.ends_with(&format!("{wiped}{short}: withdrawing 2 MB{wiped}{line}")), "{shown:?}");
    }
    let shown = shown_on_a_terminal(&small, &[]);
    assert!(shown.starts_with(&format!("{}: records 1,", small.display())), "{shown:?}");
    let piped = run(&["count".as_ref(), "--no-listing".as_ref(), large.as_os_str()]);
    assert!(piped.err.starts_with(&format!("{}: records 1,", large.display())), "{}", piped.err);
}

/// A listing above 1 MB is told as a file is; a smaller one has its line alone.
#[test]
fn progress_of_a_listing() {
    let folder = Folder::new();
    let wiped = "\r\x1b[K";
    for k in [9, 4] {
        let settings = Settings::dna(k);
        let table = vec![7; settings.table_places().expect("a table")];
        let text = whole_listing(&settings, &table);
        let listing = folder.file("counts.txt", &text);
        let (name, short, size) = (listing.display(), short_name(&listing), text.len() / 1_000_000);
        let classes = table.len();
        let line =
            format!("{name}: loaded: {classes} of {classes} classes have a count, total {}\r\n", 7 * classes);
        let shown = shown_by(Command::new(WONTIRJE).arg("merge").arg(&listing));
        match size {
            0 => assert_eq!(shown, line),
            _ => {
                assert!(shown.starts_with(&format!("{wiped}{short}: 1 MB read")), "{shown:?}");
                assert!(
                    shown.ends_with(&format!("{wiped}{short}: loading {size} MB{wiped}{line}")),
                    "{shown:?}"
                );
            }
        }
    }
}

//! Texts that are no listings, or not of the settings that are asked for (document 02, K7), given to
//! `wontirje histogram`, `count --from` and `merge`: number and place are the library's, with the line and
//! what to do; nothing is printed, drawn or written. Texts without an end neither hang a run nor fill its
//! memory.

mod run;

use kmer_tests::draw::Random;
use kmer_tests::draw_listings::{damaged_listing, drawn_listing};
use kmer_tests::second_loader::loading;
use kmer_tests::tables::some_settings;
use run::{lent, options, run, run_as, whole_listing, Folder, Run, EXAMPLE, WONTIRJE};
use std::ffi::OsString;
use std::process::Command;

const SURVEY: &str = "(survey (letters ACGT) (k 2) (mirror complement) (classes 10))\n";
const COUNTS: &str = "(count CG 1)\n(count GC 1)\n(count AG 2)\n(count AC 4)\n(total 8)\n";
const CLASSES: &str = " (classes 10)";

const AGAIN: &str = "copy it again, or count its files again";
const AS_PRINTED: &str = "give a listing as wontirje count prints it";

fn whole() -> String {
    format!("{SURVEY}{COUNTS}")
}

/// A folder with a listing, counts.txt, and a sequence file, lake.fa, in which the commands run.
fn place(listing: &[u8]) -> Folder {
    let folder = Folder::new();
    folder.file("counts.txt", listing);
    folder.file("lake.fa", EXAMPLE);
    folder
}

/// Each command that takes a listing refuses this one for this reason, prints nothing and writes nothing.
fn check_refused(listing: &[u8], reason: &str) {
    let folder = place(listing);
    for arguments in [
        &["histogram", "--svg", "new.svg", "counts.txt"][..],
        &["count", "--from", "counts.txt", "lake.fa"],
        &["count", "--from", "counts.txt", "--output", "new.txt", "lake.fa"],
        &["merge", "counts.txt"],
        &["merge", "--output", "new.txt", "counts.txt", "counts.txt"],
    ] {
        let run = folder.run(&[], arguments, b"");
        assert_eq!((run.status, run.text()), (2, ""), "{arguments:?}: {}", run.err);
        assert_eq!(run.complaints(), [format!("wontirje: counts.txt: {reason}")], "{arguments:?}");
    }
    assert_eq!(folder.names(), ["counts.txt", "lake.fa"], "{reason}");
}

/// Listings that are refused, with number, offset and line.
fn check_each(cases: &[(String, [u64; 3], String)]) {
    for (listing, [number, offset, line], rest) in cases {
        check_refused(
            listing.as_bytes(),
            &format!("refused {number} at offset {offset} (line {line}): {rest}"),
        );
    }
}

/// The listing that all others here are made from is a good one.
#[test]
fn the_whole_listing_is_taken() {
    let folder = place(whole().as_bytes());
    for arguments in [
        &["histogram", "--svg", "new.svg", "counts.txt"][..],
        &["count", "--from", "counts.txt", "--output", "new.txt", "lake.fa"],
        &["merge", "counts.txt"],
    ] {
        assert_eq!(folder.run(&[], arguments, b"").status, 0, "{arguments:?}");
    }
    assert_eq!(folder.names(), ["counts.txt", "lake.fa", "new.svg", "new.txt"]);
}

/// A listing from before document 02, K6, and what the counter program prints: each has its own advice, which
/// leads to the whole listing.
#[test]
fn older_listings_and_the_output_of_the_counter() {
    let older = "the survey line has no number of classes, as in older listings";
    let advice = "put a space and (classes 10) before its last bracket, or count its files again";
    let file_line = "(file (records 2) (letters 9) (foreign 1) (edge 2) (windows 6))\n";
    check_each(&[
        (whole().replace(CLASSES, ""), [20, 0, 1], format!("{older}; {advice}")),
        (
            "(survey (letters ABC) (k 3) (mirror reversal))\n(total 0)\n".into(),
            [20, 0, 1],
            format!("{older}; {}", advice.replace("10", "18")),
        ),
        (
            whole() + file_line,
            [20, 125, 7],
            "the counter program's (file ..) line follows the total; take that line out".into(),
        ),
        ((whole() + file_line).replace(CLASSES, ""), [20, 0, 1], format!("{older}; {advice}")),
    ]);
    let followed = (whole() + file_line).replace(CLASSES, "").replacen("))\n", ") (classes 10))\n", 1);
    assert_eq!(followed.replace(file_line, ""), whole());
}

/// A listing that went through an editor of another system, one that was cut, and one with more behind it.
#[test]
fn line_ends_and_what_follows() {
    let cr = "the line ends in CR LF; make all lines end in LF alone, as tr -d '\\r' does";
    let cut = |what: &str| format!("{what}; the listing is cut off: {AGAIN}");
    let follows = "a line follows the total; take out what follows it";
    let another =
        "another listing follows the total; part them into a file each, which wontirje merge adds up";
    check_each(&[
        (whole().replace('\n', "\r\n"), [20, 0, 1], cr.into()),
        (whole().replace("AG 2)", "AG 2)\r"), [20, 89, 4], cr.into()),
        (whole().replace("(total 8)", "(total 8)\r"), [20, 115, 6], cr.into()),
        (String::new(), [20, 0, 1], format!("the survey line is missing; the listing is empty: {AGAIN}")),
        (SURVEY.into(), [20, 63, 2], cut("the total is missing")),
        (whole().replace("(total 8)\n", ""), [20, 115, 6], cut("the total is missing")),
        (whole()[..80].into(), [20, 76, 3], cut("the last line has no end")),
        (whole()[..88].into(), [20, 76, 3], cut("the last line has no end")),
        (whole()[..20].into(), [20, 0, 1], cut("the last line has no end")),
        (whole()[..123].into(), [20, 115, 6], cut("the last line has no end")),
        (
            whole()[..124].into(),
            [20, 115, 6],
            "the last line does not end in LF; put the line end behind it".into(),
        ),
        (whole().replace("(total 8)\n", "(total x)"), [20, 115, 6], cut("the last line has no end")),
        (whole().replace("(total 8)\n", "(total 08)"), [20, 115, 6], cut("the last line has no end")),
        (whole().replace("(total 8)\n", "(total )"), [20, 115, 6], cut("the last line has no end")),
        (whole() + "\n", [20, 125, 7], follows.into()),
        // More bytes than any listing of these settings has, and no line end.
        (whole() + &"\0".repeat(300), [20, 125, 7], follows.into()),
        (whole() + "more", [20, 125, 7], follows.into()),
        (whole() + "(total 8)\n", [20, 125, 7], follows.into()),
        (whole() + "(count AA 1)\n", [20, 125, 7], follows.into()),
        (whole() + &whole(), [20, 125, 7], another.into()),
        (whole() + "\n" + &whole(), [20, 125, 7], another.into()),
    ]);
}

/// Lines that end in CR alone are one line, whether it is short or long; the last one may end in LF.
#[test]
fn lines_that_end_in_cr() {
    let advice = "make them end in LF, as tr '\\r' '\\n' does";
    let short = whole().replace('\n', "\r");
    let with_end = format!("{}\n", short.trim_end());
    let right = format!("its lines end in CR alone; {advice}");
    check_each(&[short.clone(), with_end].map(|text| (text, [20, 0, 1], right.clone())));
    check_refused(
        short.repeat(3).as_bytes(),
        &format!(
            "its first line does not end within 256 bytes, so this is no listing; its lines end in CR alone: \
             {advice}"
        ),
    );
}

/// Lines between the survey line and the total that have no shape of a listing's.
#[test]
fn lines_of_no_shape() {
    let neither = "neither the count of a word of 2 capitals of ACGT nor the total";
    let right = format!("{neither}; the line is damaged or was changed: {AGAIN}");
    for line in [
        "",
        " (count AG 2)",
        "(count AG 2) ",
        "(count AG  2)",
        "(count AG 02)",
        "(count AG +2)",
        "(count AG 2.0)",
        "(count AG )",
        "(count AG)",
        "(count AGG 2)",
        "(count A 2)",
        "(count ag 2)",
        "(count AU 2)",
        "(count AN 2)",
        "(Count AG 2)",
        "(total 08)",
        "(total )",
        "AG 2",
        "(survey (letters ACGT) (k 2) (mirror complement) (classes 10))",
    ] {
        check_each(&[(whole().replace("(count AG 2)", line), [20, 89, 4], right.clone())]);
    }
    // A total before its time is that of fewer counts; one that is their sum has lines after it.
    let early = whole().replace("(count AG 2)", "(total 2)");
    check_each(&[(early, [20, 99, 5], "a line follows the total; take out what follows it".into())]);
}

/// Survey lines with another last form than the number of classes.
#[test]
fn damaged_numbers_of_classes() {
    let right = format!("the survey line is damaged; by its settings it is {}", SURVEY.trim_end());
    for form in [
        " ",
        "(classes 10)",
        "  (classes 10)",
        " (classes)",
        " (classes )",
        " (classes x)",
        " (classes 1O)",
        " (classes 010)",
        " (classes +10)",
        " (classes 10 )",
        " (classes  10)",
        " (classes 10",
        " (classes 10))",
        " (classes 10) (classes 10)",
        " (classes 10) (total 8)",
        " (Classes 10)",
        " classes 10",
    ] {
        check_each(&[(whole().replace(CLASSES, form), [20, 0, 1], right.clone())]);
    }
}

/// Survey lines that are damaged elsewhere: where they propose settings, the line of these is told.
#[test]
fn damaged_survey_lines() {
    let by_settings = format!("by its settings it is {}", SURVEY.trim_end());
    let as_in = format!("a whole one is as in {}", SURVEY.trim_end());
    for (from, to, advice) in [
        ("(k 2)", "(k 02)", &by_settings),
        ("(k 2)", "(k two)", &as_in),
        ("(k 2)", "(k )", &as_in),
        ("(k 2) ", "", &as_in),
        ("(letters ACGT)", "(letters AC GT)", &as_in),
        ("(letters ACGT)", "(letters )", &as_in),
        ("complement", "Complement", &as_in),
        ("complement)", "complement", &as_in),
        ("(survey ", "(survey  ", &by_settings),
        ("(classes 10))", "(classes 10)) ", &by_settings),
        ("(k 2) ", "(k 2) (k 2) ", &by_settings),
    ] {
        let right = format!("the survey line is damaged; {advice}");
        check_each(&[(whole().replace(from, to), [20, 0, 1], right)]);
    }
}

/// First lines that are no survey lines are told as such, whatever settings stand in them: those that no
/// table has too.
#[test]
fn settings_in_lines_that_are_no_survey_lines() {
    let none = format!("no survey line, so this is no listing; {AS_PRINTED}");
    let as_in = format!("the survey line is damaged; a whole one is as in {}", SURVEY.trim_end());
    let cut = format!("the last line has no end; the listing is cut off: {AGAIN}");
    for (text, right) in [
        (">sample (k 13) lake\nACGT\n", &none),
        (">sample (letters acgt)\n", &none),
        (">sample (k 13)", &none),
        ("(k 0) (survey (letters ACGT))\n", &none),
        ("(survey (letters ACGT) (k 13)", &cut),
        ("(survey (letters A) (k", &cut),
        ("(survey (letters acgt) (k 2))\n(total 0)\n", &as_in),
        ("(survey (k 13) (letters ACGT) (mirror complement) (classes 33554432))\n(total 0)\n", &as_in),
        ("(survey (letters ACGT) (k 13) (mirror complement))\n(total 0)\n", &as_in),
        ("(survey (letters ACGT) (k 99) (mirror complement) (classes 010))\n(total 0)\n", &as_in),
    ] {
        check_each(&[(text.into(), [20, 0, 1], right.clone())]);
    }
}

/// The forms of the survey line in another order, the older one's too.
#[test]
fn survey_lines_in_another_order() {
    let right = format!(
        "the forms of the survey line stand in another order; by its settings it is {}",
        SURVEY.trim_end()
    );
    for line in [
        "(survey (k 2) (letters ACGT) (mirror complement) (classes 10))",
        "(survey (classes 10) (letters ACGT) (k 2) (mirror complement))",
        "(survey (letters ACGT) (k 2) (classes 10) (mirror complement))",
        "(survey (mirror complement) (k 2) (letters ACGT))",
    ] {
        check_each(&[(format!("{line}\n{COUNTS}"), [20, 0, 1], right.clone())]);
    }
}

/// What is no listing from its first bytes on, short or long.
#[test]
fn other_files() {
    let none = format!("no survey line, so this is no listing; {AS_PRINTED}");
    for text in
        [">a\nACGT\n", "(surveys\n", "\n", "(refused 10 3)\n", "(survey\n", "(count AC 1)\n(total 1)\n"]
    {
        check_each(&[(text.into(), [20, 0, 1], none.clone())]);
    }
    let later = "the survey line is not the first line; take out what stands before it";
    for before in ["\n", "lake.fa: records 2\n", ">lake (k 13)\n", " \n\n"] {
        check_each(&[(before.to_string() + &whole(), [20, 0, 1], later.into())]);
    }
    let gzip = "it is compressed: give - for it, with gzip -dc FILE | before the command";
    let mark = "it begins with a byte order mark: take its three bytes out";
    let at_once = "refused 20 at offset 0 (line 1): no survey line, so this is no listing";
    check_refused(b"\x1f\x8b\x08\x00\n", &format!("{at_once}; {gzip}"));
    check_refused(&[b"\xef\xbb\xbf", whole().as_bytes()].concat(), &format!("{at_once}; {mark}"));
    let long = "its first line does not end within 256 bytes, so this is no listing";
    check_refused(&[&b"\x1f\x8b"[..], &[7; 300]].concat(), &format!("{long}; {gzip}"));
    check_refused(&[7; 256], &format!("{long}; {AS_PRINTED}"));
    let letters = whole().replace("ACGT", &"ACGT".repeat(60));
    check_refused(letters.as_bytes(), &format!("{long}; {AS_PRINTED}"));
    // One byte less is read to its end.
    check_refused(&[7; 255], &format!("{at_once}; {AS_PRINTED}"));
}

/// Ground 21 where no settings are asked for: another number of classes, and a mirror that is none.
#[test]
fn another_number_of_classes() {
    let damaged = format!("the survey line is damaged: {AGAIN}");
    // The last two are 10 in 32 and in 64 bits.
    for told in ["0", "1", "4", "9", "11", "100", "4294967306", "18446744073709551626"] {
        let right = format!("(classes {told}), but these settings have 10 classes; {damaged}");
        let listing = whole().replace(CLASSES, &format!(" (classes {told})"));
        // It is told before a fault of a later line.
        let cases = [listing.replace("AG 2", "AG 0"), listing];
        check_each(&cases.map(|listing| (listing, [21, 0, 1], right.clone())));
    }
    check_each(&[
        (
            whole().replace("(k 2)", "(k 3)"),
            [21, 0, 1],
            format!("(classes 10), but these settings have 32 classes; {damaged}"),
        ),
        (
            whole().replace("complement", "both"),
            [21, 0, 1],
            format!("no mirror has the name both; {damaged}"),
        ),
    ]);
}

/// Settings that no table has are the library's to refuse, and have no place.
#[test]
fn settings_that_no_listing_has() {
    let none = format!("no listing has these settings: {AGAIN}");
    for (from, to, number, what) in [
        ("ACGT", "ACGA", 1, "the letters are not 2 to 16 different capitals (letters ACGA, k 2"),
        ("ACGT", "acgt", 1, "the letters are not 2 to 16 different capitals (letters acgt, k 2"),
        ("(k 2)", "(k 0)", 4, "k is 0, or there are more than 2^62 words of k letters (letters ACGT, k 0"),
        ("(k 2)", "(k 32)", 4, "k is 0, or there are more than 2^62 words of k letters (letters ACGT, k 32"),
        ("(k 2)", "(k 13)", 6, "more than 16,777,216 classes, too many for a table (letters ACGT, k 13"),
    ] {
        let right = format!("refused {number}: {what}, mirror complement); {none}");
        check_refused(whole().replace(from, to).as_bytes(), &right);
    }
    // A byte that could do something to a terminal is not sent to one.
    let escape =
        "refused 1: the letters are not 2 to 16 different capitals (letters A\\u{1b}GT, k 2, mirror \
        complement)";
    check_refused(whole().replace("ACGT", "A\x1bGT").as_bytes(), &format!("{escape}; {none}"));
}

/// Ground 22.
#[test]
fn words_counts_and_totals() {
    let changed = format!("the line was changed: {AGAIN}");
    let sum = format!("the total is not the sum of the counts; a line was changed, lost or put in: {AGAIN}");
    let several = format!(
        "the lines were sorted anew, or are of several listings, which wontirje merge adds up: {AGAIN}"
    );
    let count = |word: &str| format!("the count of {word} is not 1 to 4,294,967,295; {changed}");
    let code = |word: &str| format!("the code of {word} is not above that of the line before; {several}");
    check_each(&[
        (
            whole().replace("AG 2", "CT 2"),
            [22, 89, 4],
            format!("CT is not canonical, the word of its class is AG; {changed}"),
        ),
        (whole().replace("AG 2", "AG 0"), [22, 89, 4], count("AG")),
        (whole().replace("AG 2", "AG 4294967296"), [22, 89, 4], count("AG")),
        (whole().replace("AG 2", "AG 4294967298"), [22, 89, 4], count("AG")),
        (whole().replace("CG 1", "CG 18446744073709551617"), [22, 63, 2], count("CG")),
        (whole().replace("AG 2", "GC 2"), [22, 89, 4], code("GC")),
        (whole().replace("AG 2", "CG 2"), [22, 89, 4], code("CG")),
        (whole().replace("AC 4", "AT 4"), [22, 102, 5], code("AT")),
        (whole().replace("AG 2", "AG 3"), [22, 115, 6], sum.clone()),
        (whole().replace("AG 2", "AG 1"), [22, 115, 6], sum.clone()),
        (whole().replace("(count AG 2)\n", ""), [22, 102, 5], sum.clone()),
        (whole().replace("total 8", "total 18446744073709551624"), [22, 115, 6], sum),
    ]);
}

/// Every cut of a listing is refused with 20, at the line that was cut or is missing.
#[test]
fn listings_that_are_cut() {
    let whole = whole();
    for length in 0..whole.len() {
        let cut = &whole[..length];
        let offset = cut.rfind('\n').map_or(0, |at| at + 1);
        let line = 1 + cut.matches('\n').count();
        let run = run_with_listing(cut.as_bytes());
        assert_eq!(
            (run.status, run.text(), run.complaints().len()),
            (2, "", 1),
            "cut to {length}: {}",
            run.err
        );
        let right = format!("wontirje: standard input: refused 20 at offset {offset} (line {line}): ");
        assert!(run.err.starts_with(&right), "cut to {length}: {}", run.err);
    }
    assert_eq!(run_with_listing(whole.as_bytes()).status, 0);
}

fn run_with_listing(text: &[u8]) -> Run {
    run_as(Command::new(WONTIRJE).args(["histogram", "-"]), text)
}

/// What a run leaves that starts from a text and counts nothing.
fn run_from(text: &[u8], options: &[OsString]) -> Run {
    let folder = place(text);
    folder.file("none.fa", b"");
    folder.run(&["count", "--from", "counts.txt", "none.fa"], options, b"")
}

/// Drawn listings of several settings, whole and damaged, with the settings given as options and without: a
/// run answers as the second loader does, and a listing that is taken comes back byte for byte. Without
/// options a survey line of other settings is not at fault by that.
#[test]
fn drawn_damages_beside_the_second_loader() {
    let mut random = Random::new(201);
    let (mut found, mut at_first) = ([0; 23], 0);
    for settings in some_settings() {
        let places = lent(&settings).table_places().expect("a table");
        for round in 0..60 {
            let sparse = 1 + random.below(places as u64);
            let (_, text) = drawn_listing(&mut random, &settings, sparse);
            let text = if round < 5 { text } else { damaged_listing(&mut random, &settings, &text) };
            let due = loading(&settings, places, &text);
            let refused = due.as_ref().map_or_else(|refusal| (refusal.number, refusal.p), |_| (0, 0));
            found[refused.0 as usize] += 1;
            at_first += usize::from(refused == (20, 0));
            check_answer(&run_from(&text, &options(&settings)), refused, &text);
            let alone = run_from(&text, &[]);
            match refused {
                (21, _) => assert!([0, 2].contains(&alone.status), "{settings}: {}", alone.err),
                _ => check_answer(&alone, refused, &text),
            }
        }
    }
    assert!(
        [0, 20, 21, 22].iter().all(|&number| found[number] > 20) && at_first > 10,
        "{found:?}, {at_first}"
    );
}

/// A run from a text that is refused with a number at an offset, or with 0 where it is taken.
fn check_answer(run: &Run, (number, offset): (u64, u64), text: &[u8]) {
    if number == 0 {
        assert!(run.status == 0 && run.out == text, "{}", run.err);
        return;
    }
    let right = format!("wontirje: counts.txt: refused {number} at offset {offset} (line ");
    assert!(run.err.starts_with(&right), "{right}: {}: {}", text.escape_ascii(), run.err);
    assert_eq!((run.status, run.text()), (2, ""), "{}", run.err);
}

/// A run whose standard input is what a shell's commands print, without an end, in 64 MB of memory and a
/// minute.
fn run_endless(commands: &str, arguments: &[&str]) -> Run {
    let script = format!("{{ {commands}; }} 2>/dev/null | {{ ulimit -v 65536; exec timeout 60 \"$@\"; }}");
    run_as(Command::new("sh").args(["-c", &script, "sh", WONTIRJE]).args(arguments), b"")
}

#[test]
fn texts_without_an_end() {
    let survey = SURVEY.trim_end();
    let long = format!("its first line does not end within 256 bytes, so this is no listing; {AS_PRINTED}");
    let too_long = format!(
        "more than 331 bytes, which no listing has (letters ACGT, k 2, mirror complement); {AS_PRINTED}"
    );
    let none =
        format!("refused 20 at offset 0 (line 1): no survey line, so this is no listing; {AS_PRINTED}");
    let code =
        "refused 22 at offset 76 (line 3): the code of AC is not above that of the line before; the lines \
        were sorted anew, or are of several listings, which wontirje merge adds up";
    let follows = "refused 20 at offset 73 (line 3): a line follows the total; take out what follows it";
    let cases = [
        ("cat /dev/zero".into(), long.clone()),
        ("printf '(survey (letters A'; yes C | tr -d '\\n'".into(), long),
        ("yes ''".into(), none),
        (
            format!("yes '{survey}'"),
            format!(
                "refused 20 at offset 63 (line 2): neither the count of a word of 2 capitals of ACGT nor the \
                 total; the line is damaged or was changed: {AGAIN}"
            ),
        ),
        (format!("echo '{survey}'; yes '(count AC 1)'"), format!("{code}: {AGAIN}")),
        (format!("echo '{survey}'; echo '(total 0)'; yes ''"), follows.into()),
        (format!("echo '{survey}'; echo '(total 0)'; cat /dev/zero"), follows.into()),
        (format!("echo '{survey}'; printf '(count AC '; yes 1 | tr -d '\\n'"), too_long.clone()),
        (format!("echo '{survey}'; printf '(total '; yes 1 | tr -d '\\n'"), too_long),
    ];
    for (commands, reason) in &cases {
        for arguments in [&["histogram", "-"][..], &["merge", "-"], &["count", "--from", "-", "/dev/null"]] {
            run_endless(commands, arguments).check_failed(&format!("standard input: {reason}"));
        }
    }
    for arguments in [&["histogram", "/dev/zero"][..], &["count", "--from", "/dev/zero", "/dev/null"]] {
        run(arguments).check_failed(&format!("/dev/zero: {}", cases[0].1));
    }
}

/// A first line that is refused is told before what follows it is read, though a listing of its settings
/// could have far more bytes than there is memory. Where there is no room for such a listing or for its
/// table, that is told too.
#[test]
fn texts_for_which_there_is_no_memory() {
    let survey = |letters: &str, k: usize, classes: usize| {
        format!(
            "echo '(survey (letters {letters}) (k {k}) (mirror complement) (classes {classes}))'; yes '('"
        )
    };
    for (commands, reason) in [
        (
            survey("ACGT", 12, 10),
            format!(
                "refused 21 at offset 0 (line 1): (classes 10), but these settings have 8390656 classes; the \
                 survey line is damaged: {AGAIN}"
            ),
        ),
        (survey("ACGT", 11, 2_097_152), "not read: out of memory".into()),
        (
            survey("AB", 25, 16_777_216),
            "no table: out of memory (67108864 bytes for letters AB, k 25, mirror complement)".into(),
        ),
    ] {
        for arguments in [&["histogram", "-"][..], &["merge", "-"], &["count", "--from", "-", "/dev/null"]] {
            run_endless(&commands, arguments).check_failed(&format!("standard input: {reason}"));
        }
    }
    let arguments = ["count", "--letters", "AB", "--k", "25", "/dev/null"];
    run_endless("true", &arguments)
        .check_failed("no table: out of memory (67108864 bytes for letters AB, k 25, mirror complement)");
}

/// A listing of all classes with the longest counts there are is not too long; behind it there may be no end.
#[test]
fn the_longest_listings() {
    for settings in
        [wontirje::Settings::dna(6), wontirje::Settings { letters: b"AB", ..wontirje::Settings::dna(1) }]
    {
        let table = vec![u32::MAX; settings.table_places().expect("a table")];
        let text = whole_listing(&settings, &table);
        let folder = place(&text);
        let run = folder.run(&[], &["merge", "counts.txt"], b"");
        assert!(run.status == 0 && run.out == text, "{}", run.err);
        let listing = folder.path("counts.txt");
        let run = run_endless(&format!("cat '{}'; yes ''", listing.display()), &["merge", "-"]);
        let lines = text.iter().filter(|&&byte| byte == b'\n').count();
        run.check_failed(&format!(
            "standard input: refused 20 at offset {} (line {}): a line follows the total; \
             take out what follows it",
            text.len(),
            lines + 1
        ));
    }
}

/// What cannot be read.
#[test]
fn listings_that_are_not_read() {
    for (name, reason) in [("/", "Is a directory"), ("/nowhere", "No such file or directory")] {
        for arguments in [&["histogram", name][..], &["merge", name], &["count", "--from", name, "/dev/null"]]
        {
            run(arguments).check_failed(&format!("{name}: not read: {reason}"));
        }
    }
}

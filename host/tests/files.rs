//! `wontirje count` on files as they come: several, damaged, of full size, too long, and things that are no
//! files.

#[path = "run/lists.rs"]
mod lists;
mod run;

use kmer_tests::draw::Random;
use kmer_tests::settings::{Settings, COMPLEMENT};
use kmer_tests::tables::Call;
use lists::List;
use run::{
    drawn_of_either_kind, run, run_as, run_with, Folder, Run, EMPTY, EXAMPLE, LISTING, NUMBERS, WONTIRJE,
};
use std::ffi::{OsStr, OsString};
use std::fs::{self, Permissions};
use std::os::unix::ffi::OsStrExt;
use std::os::unix::fs::{MetadataExt, PermissionsExt};
use std::os::unix::process::CommandExt;
use std::path::{Path, PathBuf};
use std::process::Command;

/// Counts words of 2 letters.
fn count(options: &[&str], files: &[&Path]) -> Run {
    let mut arguments: Vec<OsString> = vec!["count".into(), "--k".into(), "2".into()];
    arguments.extend(options.iter().map(OsString::from));
    arguments.extend(files.iter().map(|file| file.as_os_str().to_os_string()));
    run(&arguments)
}

#[test]
fn settings_by_default_are_those_of_dna_and_k_11() {
    let run = run_with(&["count", "-"], b">a\nGATTACAGATT\n");
    let listing = "(survey (letters ACGT) (k 11) (mirror complement) (classes 2097152))\n\
        (count AATCTGTAATC 1)\n(total 1)\n";
    assert_eq!((run.status, run.text()), (0, listing));
    assert_eq!(run.complaints(), ["standard input: records 1, letters 11, foreign 0, edge 10, windows 1"]);
}

/// Document 02, K2: RNA under letters with T and no U gives the listing of its copy with T. Under letters with U that
/// is a letter of its own, and T is foreign.
#[test]
fn rna_is_counted_as_its_copy_with_t() {
    let folder = Folder::new();
    let (rna, dna) = (folder.file("rna.fa", b">a\nACGUN\n>b\nag\ncu\n"), folder.file("dna.fa", EXAMPLE));
    let told = |file: &Path, numbers: &str| [format!("{}: {numbers}", file.display())];
    let run = count(&[], &[&rna]);
    assert_eq!((run.status, run.text()), (0, LISTING));
    assert_eq!(run.complaints(), told(&rna, NUMBERS));
    let run = count(&["--letters", "ACGU"], &[&rna]);
    assert_eq!((run.status, run.text()), (0, &LISTING.replace("ACGT", "ACGU")[..]));
    assert_eq!(run.complaints(), told(&rna, NUMBERS));
    let run = count(&["--letters", "ACGU"], &[&dna]);
    let fewer = "(survey (letters ACGU) (k 2) (mirror complement) (classes 10))\n\
        (count CG 1)\n(count GC 1)\n(count AG 1)\n(count AC 1)\n(total 4)\n";
    assert_eq!((run.status, run.text()), (0, fewer));
    assert_eq!(run.complaints(), told(&dna, "records 2, letters 9, foreign 3, edge 2, windows 4"));
    let reads = folder.file("rna.fq", b"@a\nACGUN\n+\nIIIII\n@b\nagcu\n+\nUUUU\n");
    let run = count(&[], &[&rna, &dna, &reads]);
    let thrice = "(survey (letters ACGT) (k 2) (mirror complement) (classes 10))\n\
        (count CG 3)\n(count GC 3)\n(count AG 6)\n(count AC 6)\n(total 18)\n";
    assert_eq!((run.status, run.text()), (0, thrice));
}

/// Each way to give an option, anywhere in the line.
#[test]
fn options_in_every_form() {
    let folder = Folder::new();
    let file = folder.file("a.fa", EXAMPLE);
    let name = file.to_str().expect("a name");
    for arguments in [
        &["count", "--k", "2", name][..],
        &["count", name, "--k=2"],
        &["count", "-k", "2", "--mirror=complement", "--letters", "ACGT", "--", name],
    ] {
        assert_eq!(run(arguments).text(), LISTING, "{arguments:?}");
    }
}

#[test]
fn several_files_are_added_in_order() {
    let folder = Folder::new();
    let (good, bad) = (folder.file("good.fa", EXAMPLE), folder.file("bad.fa", b">x\nAC*GT\n"));
    let (missing, empty) = (folder.path("missing.fa"), folder.file("empty.fa", b""));
    let run = count(&[], &[&good, &bad, &missing, folder.as_ref(), &empty, &good]);
    assert_eq!(run.status, 1);
    assert_eq!(
        run.text(),
        LISTING.replace(" 2)\n", " 4)\n").replace(" 1)\n", " 2)\n").replace(" 6)", " 12)")
    );
    let lines = [
        format!("{}: {NUMBERS}", good.display()),
        format!(
            "{}: refused 10 at offset 5 (line 2, column 3): '*': a byte of a sequence line is no letter; \
             take the byte out, or mend the line, and count the file again",
            bad.display()
        ),
        format!("{}: not read: No such file or directory; nothing of it is counted", missing.display()),
        format!("{}: not read: Is a directory; nothing of it is counted", folder.as_ref().display()),
        format!("{}: records 0, letters 0, foreign 0, edge 0, windows 0", empty.display()),
        format!("{}: {NUMBERS}", good.display()),
    ];
    assert_eq!(run.complaints(), lines);
}

#[test]
fn strict_stops_at_the_first_refused_file() {
    let folder = Folder::new();
    let (good, bad) = (folder.file("good.fa", EXAMPLE), folder.file("bad.fa", b"AC\n"));
    for wrong in [&bad, &folder.path("missing.fa")] {
        let run = count(&["--strict"], &[&good, wrong, &good]);
        assert_eq!((run.status, run.text(), run.complaints().len()), (1, "", 2));
    }
    let run = count(&["--strict"], &[&good]);
    assert_eq!((run.status, run.text()), (0, LISTING));
}

#[test]
fn without_a_listing_only_the_files_are_told() {
    let folder = Folder::new();
    let run = count(&["--no-listing"], &[&folder.file("good.fa", EXAMPLE), &folder.file("bad.fa", b"AC\n")]);
    assert_eq!((run.status, run.text(), run.complaints().len()), (1, "", 2));
}

/// Where the fault is, and what to do: written out for each kind of fault.
#[test]
fn refusals_tell_place_and_remedy() {
    let no_letter = "a byte of a sequence line is no letter";
    let mend = "take the byte out, or mend the line, and count the file again";
    let early = "a letter stands before the first header; \
        put a header line before it, one that begins with > (with @ if it is FASTQ), and count the file again";
    let cases: [(&[u8], String); 7] = [
        (b">a\r\nAC\r\n-", format!("10 at offset 8 (line 3, column 1): '-': {no_letter}; {mend}")),
        (b">a\nAC\n\nA C", format!("10 at offset 8 (line 4, column 2): a space: {no_letter}; {mend}")),
        (b">a\nAC\rGT\n", format!("10 at offset 5 (line 2, column 3): a CR without LF: {no_letter}; {mend}")),
        (b">a\nAC>GT\n", format!("10 at offset 5 (line 2, column 3): '>': {no_letter}; {mend}")),
        (b">a\n\xe2\x80\x93", format!("10 at offset 3 (line 2, column 1): byte 0xe2: {no_letter}; {mend}")),
        (b"\nACGT\n>a\n", format!("11 at offset 1 (line 2, column 1): 'A': {early}")),
        (b"x", format!("11 at offset 0 (line 1, column 1): 'x': {early}")),
    ];
    for (file, right) in cases {
        check_refused(file, &right);
    }
}

/// A file on standard input is refused with this line, and nothing is counted.
fn check_refused(file: &[u8], right: &str) {
    let run = run_with(&["count", "--k", "2", "-"], file);
    assert_eq!((run.status, run.text()), (1, EMPTY), "{right}");
    assert_eq!(run.complaints(), [format!("standard input: refused {right}")]);
}

/// Files that are neither FASTA nor FASTQ from their first byte on, short ones and too long ones: what they are
/// decides what to do.
#[test]
fn files_of_neither_kind() {
    let compressed = |program: &str| {
        format!("it is compressed: give - for it, with {program} -dc FILE | before the command")
    };
    let survey = "take the survey line out: settings are given as options";
    let mark = "it begins with a byte order mark: take its three bytes out";
    let cases: [(&[u8], &str, String); 6] = [
        (b"\x1f\x8b\x08\x00", "byte 0x1f", compressed("gzip")),
        (b"BZh91AY&SY", "'B'", compressed("bzip2")),
        (b"\xfd7zXZ\x00", "byte 0xfd", compressed("xz")),
        (b"\x28\xb5\x2f\xfd", "'('", compressed("zstd")),
        (b"(survey (letters ACGT) (k 2) (mirror complement))\n>a\nACGT\n", "'('", survey.into()),
        (b"\xef\xbb\xbf>a\nACGT\n", "byte 0xef", mark.into()),
    ];
    for (file, byte, advice) in cases {
        let (number, what) = match byte {
            "'B'" => (11, "a letter stands before the first header"),
            _ => (10, "a byte of a sequence line is no letter"),
        };
        check_refused(file, &format!("{number} at offset 0 (line 1, column 1): {byte}: {what}; {advice}"));
        let long = [file, &b"A".repeat(16_777_217)].concat();
        check_refused(&long, &format!("6: more than 16,777,216 bytes; {advice}"));
    }
}

/// Drawn lists of whole and damaged files of both kinds: the listing is that of the library after the same adds,
/// and each line has the library's answer.
#[test]
fn drawn_lists_of_files() {
    let mut random = Random::new(131);
    let settings = Settings::new(b"ACGT", 6, COMPLEMENT);
    let mut refused = 0;
    for _ in 0..60 {
        let (folder, mut list) = (Folder::new(), List::new(6));
        for name in ["a", "b", "c", "d"] {
            let (_, file) = drawn_of_either_kind(&mut random, &settings, 2000);
            // Refused or not, the comparison of the lines is within.
            let _ = list.call(Call::Add, &folder.file(name, &file), &file);
        }
        refused += list.check() as usize;
    }
    assert!((10..50).contains(&refused), "{refused} lists with a refused file");
}

/// A file of so many bytes: records of 100 lines of 70 letters, now and then an N.
fn sized_file(length: usize) -> Vec<u8> {
    let mut random = Random::new(132);
    let mut file = Vec::with_capacity(length + 100);
    for line in 0.. {
        if file.len() >= length {
            break;
        }
        if line % 100 == 0 {
            file.extend(b">record of some letters that are drawn one by one\n");
        }
        file.extend((0..70).map(|_| match random.below(5000) {
            0 => b'N',
            draw => b"ACGTacgt"[draw as usize % 8],
        }));
        file.push(b'\n');
    }
    file.truncate(length);
    file
}

/// Counts of all words of 11 letters by their plain rank, the lower one of word and reverse complement:
/// shares nothing with the library.
fn plain_counts(file: &[u8]) -> Vec<u32> {
    let mut counts = vec![0; 1 << 22];
    let (mut forward, mut back, mut run) = (0u32, 0u32, 0);
    let mut header = false;
    for (place, &byte) in file.iter().enumerate() {
        if place == 0 || file[place - 1] == b'\n' {
            header = byte == b'>';
            run = if header { 0 } else { run };
        }
        if header || byte == b'\n' {
            continue;
        }
        let Some(rank) = b"ACGT".iter().position(|letter| *letter == byte.to_ascii_uppercase()) else {
            run = 0;
            continue;
        };
        forward = (forward << 2 | rank as u32) & 0x3f_ffff;
        back = back >> 2 | (3 - rank as u32) << 20;
        run += 1;
        if run >= 11 {
            counts[forward.min(back) as usize] += 1;
        }
    }
    counts
}

/// The largest file there may be, beside a plain tally: each line's count is the tally of its word, and no
/// tally is left out.
#[test]
fn a_file_of_full_size() {
    let folder = Folder::new();
    let file = sized_file(16_777_216);
    let mut counts = plain_counts(&file);
    let run = run(&[OsStr::new("count"), folder.file("full.fa", &file).as_os_str()]);
    assert_eq!(run.status, 0, "{}", run.err);
    let mut total = 0;
    for line in run.text().lines().filter_map(|line| line.strip_prefix("(count ")) {
        let (word, count) = line.strip_suffix(')').and_then(|line| line.split_once(' ')).expect("a count");
        let rank = |letter| "ACGT".find(letter).expect("a letter") as u32;
        let place = word.chars().fold(0, |place, letter| place << 2 | rank(letter)) as usize;
        assert_eq!(count.parse(), Ok(counts[place]), "{word}");
        total += u64::from(std::mem::take(&mut counts[place]));
    }
    assert!(counts.iter().all(|&count| count == 0), "a class is missing");
    assert!(total > 16_000_000 && run.text().ends_with(&format!("\n(total {total})\n")), "{total}");
}

#[test]
fn a_file_that_is_too_long() {
    let folder = Folder::new();
    let mut file = sized_file(16_777_217);
    let path = folder.file("long.fa", &file);
    let right = "refused 6: more than 16,777,216 bytes; \
        split it between records into files of at most 16,777,216 bytes and give them all";
    let run = count(&[], &[&path]);
    assert_eq!((run.status, run.text()), (1, EMPTY));
    assert_eq!(run.complaints(), [format!("{}: {right}", path.display())]);
    file.extend(sized_file(10_000_000));
    let run = run_with(&["count", "--k", "2", "-"], &file);
    assert_eq!((run.status, run.text()), (1, EMPTY));
    assert_eq!(run.complaints(), [format!("standard input: {right}")]);
    // A file without an end is refused as well, and others after it are counted.
    let run = count(&[], &[Path::new("/dev/zero"), &folder.file("good.fa", EXAMPLE)]);
    assert_eq!((run.status, run.text()), (1, LISTING));
    assert_eq!(run.complaints()[0], format!("/dev/zero: {right}"));
}

/// Root may read every file, so that a run by root is made as the user nobody, with a copy of the command
/// that the user nobody can reach. Another program writes the copy: what another test starts has the files
/// of this process open until it begins to run, and a file that is open to write cannot be started.
#[test]
fn a_file_without_permission() {
    let folder = Folder::new();
    fs::set_permissions(&folder, Permissions::from_mode(0o755)).expect("own folder");
    let file = folder.file("secret.fa", EXAMPLE);
    fs::set_permissions(&file, Permissions::from_mode(0o000)).expect("own file");
    let copy = folder.path("wontirje");
    let copied = Command::new("install").args(["-m", "755", WONTIRJE]).arg(&copy).status();
    assert!(copied.expect("install starts").success());
    let mut command = Command::new(copy);
    if fs::metadata(&folder).expect("own folder").uid() == 0 {
        command.uid(65534).gid(65534);
    }
    let run = run_as(command.args(["count", "--k", "2"]).arg(&file), b"");
    assert_eq!((run.status, run.text()), (1, EMPTY));
    assert_eq!(
        run.complaints(),
        [format!("{}: not read: Permission denied; nothing of it is counted", file.display())]
    );
}

#[test]
fn standard_input_among_files_and_only_once() {
    let folder = Folder::new();
    let file = folder.file("good.fa", EXAMPLE);
    let name = file.to_str().expect("a name");
    let run = run_with(&["count", "--k", "2", name, "-"], EXAMPLE);
    assert_eq!(run.status, 0);
    assert_eq!(run.complaints(), [format!("{name}: {NUMBERS}"), format!("standard input: {NUMBERS}")]);
    assert!(run.text().ends_with("\n(total 12)\n"));
    let run = run_with(&["count", "-", name, "-"], EXAMPLE);
    run.check_failed("- is given twice; standard input can be read only once");
}

/// A name may hold any bytes, a line end among them; it is told in one line. A name that begins with -
/// follows --.
#[test]
fn names_of_any_bytes() {
    let folder = Folder::new();
    for name in [&b"a\nb.fa"[..], b"\xff\xfe.fa", "ä b.fa".as_bytes(), b"--strict"] {
        let path: PathBuf = folder.as_ref().join(OsStr::from_bytes(name));
        fs::write(&path, EXAMPLE).expect("a file");
        let mut command = Command::new(WONTIRJE);
        command.current_dir(&folder).args(["count", "--k", "2", "--"]).arg(OsStr::from_bytes(name));
        let run = run_as(&mut command, b"");
        assert_eq!((run.status, run.text()), (0, LISTING), "{}", run.err);
        assert_eq!(run.complaints().len(), 1, "{}", run.err);
        assert!(run.err.ends_with(&format!(": {NUMBERS}\n")), "{}", run.err);
    }
}

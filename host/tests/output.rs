//! Where the listing goes: a new file that is whole or not there, a full disk, a reader who leaves early.

mod run;

use run::{run, run_as, run_with, whole_listing, Folder, Run, EXAMPLE, WONTIRJE};
use std::fs::{self, File};
use std::io::{BufRead, BufReader, Read};
use std::os::unix::fs::symlink;
use std::path::Path;
use std::process::{Command, Stdio};

/// A file whose listing, for k 8, is some hundred kilobytes: more than any pipe or buffer on the way holds.
fn long_file() -> Vec<u8> {
    let mut random = kmer_tests::draw::Random::new(141);
    let letters = (0..100_000).map(|_| b"ACGT"[random.below(4) as usize]);
    b">drawn\n".iter().copied().chain(letters).collect()
}

fn count_to(output: &Path, file: &Path) -> Run {
    run(&[
        "count".as_ref(),
        "--k".as_ref(),
        "8".as_ref(),
        "--output".as_ref(),
        output.as_os_str(),
        file.as_os_str(),
    ])
}

#[test]
fn a_new_file_has_the_printed_bytes() {
    let folder = Folder::new();
    let file = folder.file("a.fa", &long_file());
    let printed = run(&["count".as_ref(), "--k=8".as_ref(), file.as_os_str()]);
    let written = count_to(&folder.path("counts.txt"), &file);
    assert_eq!((written.status, written.text(), &written.err), (0, "", &printed.err));
    assert!(printed.out.len() > 500_000);
    assert!(fs::read(folder.path("counts.txt")).expect("the listing") == printed.out);
    assert_eq!(folder.names(), ["a.fa", "counts.txt"]);
}

/// It is kept as it was, and no file is read in vain.
#[test]
fn a_file_that_is_there_is_not_overwritten() {
    let folder = Folder::new();
    let file = folder.file("a.fa", EXAMPLE);
    let there = folder.file("counts.txt", b"kept");
    symlink("nowhere", folder.path("link")).expect("a link");
    for path in [&there, &folder.path("link"), &folder.as_ref().to_path_buf()] {
        let reason = format!("{}: there is such a file already; only a new one is written", path.display());
        count_to(path, &file).check_failed(&reason);
        for options in [["histogram", "-", "--svg"], ["merge", "-", "--output"]] {
            let options = options.map(AsRef::as_ref);
            run_with(&[&options[..], &[path.as_os_str()]].concat(), b"").check_failed(&reason);
        }
    }
    assert_eq!(fs::read(&there).expect("the file"), b"kept");
    assert_eq!(folder.names(), ["a.fa", "counts.txt", "link"]);
}

/// A name that comes up while the files are counted is not overwritten either. The command looked for it
/// before it said the first file's numbers, and then waits for standard input.
#[test]
fn a_file_that_comes_up_meanwhile_is_not_overwritten() {
    let folder = Folder::new();
    let (first, path) = (folder.file("a.fa", EXAMPLE), folder.path("counts.txt"));
    let mut command = Command::new(WONTIRJE);
    command.args(["count", "--k", "2", "--output"]).arg(&path).arg(first).arg("-");
    command.stdin(Stdio::piped()).stderr(Stdio::piped());
    let mut child = command.spawn().expect("the command starts");
    let mut said = BufReader::new(child.stderr.take().expect("a pipe"));
    said.read_line(&mut String::new()).expect("the first file's line");
    fs::write(&path, b"kept").expect("a file");
    drop(child.stdin.take());
    assert_eq!(child.wait().expect("the command ends").code(), Some(2));
    let mut rest = String::new();
    said.read_to_string(&mut rest).expect("text");
    assert!(
        rest.ends_with("counts.txt: there is such a file already; only a new one is written\n"),
        "{rest}"
    );
    assert_eq!(fs::read(&path).expect("the file"), b"kept");
    assert_eq!(folder.names(), ["a.fa", "counts.txt"]);
}

/// Told before any file is read, of a listing and of the chart.
#[test]
fn a_folder_that_takes_no_file() {
    let folder = Folder::new();
    let file = folder.file("a.fa", EXAMPLE);
    let cases = [
        (folder.path("none/counts.txt"), "No such file or directory"),
        (folder.path("a.fa/counts.txt"), "Not a directory"),
        (folder.path("none/"), "it is no name of a file"),
        ("".into(), "it is no name of a file"),
        (folder.path(&"x".repeat(256)), "File name too long"),
    ];
    for (path, reason) in cases {
        let right = format!("{}: not written: {reason}", path.display());
        count_to(&path, &file).check_failed(&right);
        for [command, option] in [["histogram", "--svg"], ["merge", "--output"]] {
            let arguments = [command.as_ref(), option.as_ref(), path.as_os_str(), "/nowhere".as_ref()];
            run(&arguments).check_failed(&right);
        }
    }
    // Nobody makes files there, root neither; for what reason depends on the system.
    let run = count_to(Path::new("/sys/counts.txt"), &file);
    assert_eq!((run.status, run.complaints().len()), (2, 1), "{}", run.err);
    assert!(run.err.starts_with("wontirje: /sys/counts.txt: not written: "), "{}", run.err);
    assert_eq!(folder.names(), ["a.fa"]);
}

/// - is not taken for a name.
#[test]
fn standard_output_as_a_file() {
    let folder = Folder::new();
    let of =
        |arguments: &[&str]| run_as(Command::new(WONTIRJE).current_dir(&folder).args(arguments), EXAMPLE);
    let listing = "--output - is no file; leave --output out to print the listing";
    of(&["count", "--k", "2", "--output", "-", "-"]).check_failed(listing);
    of(&["merge", "--output=-", "-"]).check_failed(listing);
    let chart = "--svg - is no file; give the chart a name, as in --svg counts.svg";
    of(&["histogram", "--svg=-", "-"]).check_failed(chart);
    assert!(folder.names().is_empty());
    assert_eq!(of(&["count", "--k", "2", "--output", "./-", "-"]).status, 0);
    assert_eq!(folder.names(), ["-"]);
}

/// A killed run leaves a part, and a later one may have its number: here the shell's, whose place the command
/// takes.
#[test]
fn parts_of_a_killed_run() {
    let folder = Folder::new();
    let script = "for n in 0 1 3; do echo old > .wontirje-$$-$n.part; done; exec \"$@\"";
    let mut shell = Command::new("sh");
    shell.current_dir(&folder).args(["-c", script, "sh", WONTIRJE]);
    let run = run_as(shell.args(["count", "--k", "2", "--output", "counts.txt", "-"]), EXAMPLE);
    assert_eq!((run.status, run.text()), (0, ""), "{}", run.err);
    let names = folder.names();
    assert_eq!((names.len(), &names[3][..]), (4, "counts.txt"), "{names:?}");
    for (part, number) in names[..3].iter().zip([0, 1, 3]) {
        assert!(part.ends_with(&format!("-{number}.part")), "{part}");
        assert_eq!(fs::read(folder.path(part)).expect("the part"), b"old\n");
    }
    let printed = run_with(&["count", "--k", "2", "-"], EXAMPLE);
    assert_eq!(fs::read(folder.path("counts.txt")).expect("the listing"), printed.out);
}

/// The listing of the others is written where a file is refused, and none with --strict.
#[test]
fn refused_files_and_the_new_file() {
    let folder = Folder::new();
    let (bad, path) = (folder.file("bad.fa", b"A"), folder.path("counts.txt"));
    let arguments = |strict| ["count", strict, "--output"].map(AsRef::as_ref);
    let (path, bad) = (path.as_os_str(), bad.as_os_str());
    assert_eq!(run(&[&arguments("--strict")[..], &[path, bad]].concat()).status, 1);
    assert_eq!(folder.names(), ["bad.fa"]);
    assert_eq!(run(&[&arguments("--k=3")[..], &[path, bad]].concat()).status, 1);
    let listing = "(survey (letters ACGT) (k 3) (mirror complement) (classes 32))\n(total 0)\n";
    assert_eq!(fs::read_to_string(path).expect("the listing"), listing);
    let both = [&["count", "--no-listing", "--output"].map(AsRef::as_ref)[..], &[path, bad]].concat();
    run(&both).check_failed("--output and --no-listing exclude each other");
}

/// A new file that has not enough room: neither it nor a part of it is left.
fn check_no_room(run: &Run, folder: &Path, reason: &str) {
    assert_eq!((run.status, run.text()), (2, ""), "{}", run.err);
    let right = format!("wontirje: {}: not written: {reason}", folder.join("counts.txt").display());
    assert_eq!(run.complaints()[1..], [right]);
    assert_eq!(fs::read_dir(folder).expect("the folder").count(), 0, "something is left");
}

/// Files may have 64 KB at most: the listing does not fit.
#[test]
fn a_file_may_not_grow() {
    let folder = Folder::new();
    let (input, inner) = (folder.file("a.fa", &long_file()), folder.path("inner"));
    fs::create_dir(&inner).expect("a folder");
    let mut shell = Command::new("sh");
    shell.args([
        "-c",
        "trap '' XFSZ; ulimit -f 128; exec \"$@\"",
        "sh",
        WONTIRJE,
        "count",
        "--k",
        "8",
        "--output",
    ]);
    let run = run_as(shell.arg(inner.join("counts.txt")).arg(&input), b"");
    check_no_room(&run, &inner, "File too large");
}

/// A full disk: a small one where one can be mounted, and the device that is always full.
#[test]
fn a_full_disk() {
    let folder = Folder::new();
    let (input, disk) = (folder.file("a.fa", &long_file()), folder.path("disk"));
    fs::create_dir(&disk).expect("a folder");
    let mount = Command::new("mount").args(["-t", "tmpfs", "-o", "size=64k", "none"]).arg(&disk).output();
    if mount.is_ok_and(|mount| mount.status.success()) {
        let run = count_to(&disk.join("counts.txt"), &input);
        let left = fs::read_dir(&disk).expect("the disk").count();
        let unmounted = Command::new("umount").arg(&disk).status();
        assert!(unmounted.is_ok_and(|status| status.success()), "{} is still mounted", disk.display());
        assert_eq!(left, 0, "something is left");
        check_no_room(&run, &disk, "No space left on device");
    }
    let full = File::options().write(true).open("/dev/full").expect("the full device");
    let run = Command::new(WONTIRJE).args(["count", "--k", "8"]).arg(&input).stdout(full).output();
    let run = Run::of(run.expect("the command runs"));
    assert_eq!(run.status, 2);
    assert_eq!(run.complaints()[1..], ["wontirje: standard output: not written: No space left on device"]);
}

/// Nobody can be told where standard error is full: the listing comes all the same.
#[test]
fn standard_error_is_full() {
    let full = File::options().write(true).open("/dev/full").expect("the full device");
    let mut command = Command::new(WONTIRJE);
    command.args(["count", "--k", "8", "-"]).stdin(Stdio::piped()).stdout(Stdio::piped()).stderr(full);
    let mut child = command.spawn().expect("the command starts");
    drop(child.stdin.take());
    let run = Run::of(child.wait_with_output().expect("the command ends"));
    assert_eq!((run.status, run.text().lines().count()), (0, 2));
}

/// The reader takes one line and leaves: the run ends quietly, and its status is that of the files.
fn check_left_early(arguments: &[&str], status: i32, said: usize) {
    let mut command = Command::new(WONTIRJE);
    command.args(arguments).stdin(Stdio::null()).stdout(Stdio::piped()).stderr(Stdio::piped());
    let mut child = command.spawn().expect("the command starts");
    let mut reader = BufReader::with_capacity(64, child.stdout.take().expect("a pipe"));
    let mut line = String::new();
    reader.read_line(&mut line).expect("a line");
    drop(reader);
    let run = Run::of(child.wait_with_output().expect("the command ends"));
    assert_eq!((run.status, run.complaints().len()), (status, said), "{line}{}", run.err);
}

#[test]
fn standard_output_is_closed_early() {
    let folder = Folder::new();
    let (good, bad) = (folder.file("a.fa", &long_file()), folder.file("bad.fa", b"A"));
    let (good, bad) = (good.to_str().expect("a name"), bad.to_str().expect("a name"));
    check_left_early(&["count", "--k", "8", good], 0, 1);
    check_left_early(&["count", "--k", "8", good, bad], 1, 2);
    let codes: Vec<String> = (0..30_000).map(|code| code.to_string()).collect();
    let words: Vec<&str> =
        ["word", "--k", "8"].into_iter().chain(codes.iter().map(|code| &code[..])).collect();
    check_left_early(&words, 0, 0);
    // Each class of words of 9 letters has a count of its own.
    let settings = wontirje::Settings::dna(9);
    let table: Vec<u32> = (1..=settings.table_places().expect("a table") as u32).collect();
    let listing = folder.file("listing.txt", &whole_listing(&settings, &table));
    let listing = listing.to_str().expect("a name");
    check_left_early(&["histogram", "--each", listing], 0, 0);
    check_left_early(&["merge", listing], 0, 1);
    check_left_early(&["count", "--from", listing, good], 0, 2);
    check_left_early(&["generate", "--start=1", "--records=9000", "--length=60"], 0, 0);
}

/// A reader who was gone before the first byte.
#[test]
fn standard_output_is_closed_at_once() {
    let generate = ["generate", "--start=1", "--records=1", "--length=9"];
    let code = ["code", "--k", "2", "AC"];
    for arguments in [&["--help"][..], &["count", "--help"], &["classes"], &code, &generate] {
        let mut command = Command::new(WONTIRJE);
        let (reader, writer) = std::io::pipe().expect("a pipe");
        drop(reader);
        command.args(arguments).stdout(writer).stderr(Stdio::piped());
        let run = Run::of(command.spawn().and_then(|child| child.wait_with_output()).expect("the command"));
        assert_eq!((run.status, &run.err[..]), (0, ""), "{arguments:?}");
    }
}

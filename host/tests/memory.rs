//! The memory of `wontirje count`: at most the table, one file or listing and 2 MB, as the system measured
//! the peak of what was resident; of `merge` a second table besides; of `histogram` the same where few counts
//! differ, since it holds each count that occurs, and with `--each` its bar too; of `generate` its file and
//! 2 MB. In a file of its own, so that the process which starts the command is small.

mod run;
#[path = "run/usage.rs"]
#[allow(dead_code)]
mod usage;

use kmer_tests::draw::write_drawn;
use run::{Folder, WONTIRJE};
use std::fs::{self, File};
use std::io::Write;
use std::path::{Path, PathBuf};
use std::process::{Command, Stdio};

/// The peak of a count in bytes. Its listing goes to /dev/null unless it is written to a file.
fn peak(arguments: &[&str], files: &[&Path], input: Stdio) -> u64 {
    peak_of(Command::new(WONTIRJE).arg("count").args(arguments).args(files), input)
}

/// The peak of a command, likewise.
fn peak_of(command: &mut Command, input: Stdio) -> u64 {
    command.stdin(input).stdout(Stdio::null()).stderr(Stdio::null());
    let child = command.spawn().expect("the command starts");
    usage::ended(child).expect("the command succeeds").peak
}

/// A file of so many bytes.
fn drawn_file(folder: &Folder, name: &str, length: usize) -> PathBuf {
    let path = folder.path(name);
    write_drawn(&path, 151, length).expect("room for the file");
    path
}

/// A FASTQ file of 16,777,216 bytes: the same records of 128 bytes again and again, written piece by piece, so
/// that this process stays small.
fn full_fastq(folder: &Folder) -> PathBuf {
    let path = folder.path("full.fq");
    let mut file = File::create(&path).expect("a file");
    let (letters, qualities) = ("GATTACAC".repeat(7) + "NNNN", "!I~@+>#5".repeat(7) + "!!!!");
    let piece = format!("@rd\n{letters}\n+\n{qualities}\n").repeat(1024);
    assert_eq!(piece.len(), 131_072);
    (0..128).for_each(|_| file.write_all(piece.as_bytes()).expect("room for the file"));
    path
}

fn check(what: &str, peak: u64, k: usize, file: u64) {
    let table = 4 * wontirje::Settings::dna(k).table_places().expect("a table") as u64;
    check_held(what, peak, table + file);
}

/// What a command holds, its table and its file, and 2 MB.
fn check_held(what: &str, peak: u64, held: u64) {
    assert!(usage::own_peak() < held, "{what}: this process is too large to measure");
    assert!(peak > held, "{what}: {peak} bytes, less than table and file");
    assert!(
        peak <= held + 2_000_000,
        "{what}: {peak} bytes, {} above table and file; is the command linked as .cargo/config.toml says?",
        peak - held
    );
}

/// One file of full size, by name and through a pipe; several files, of both kinds; one withdrawn, for which there is
/// no second table; the listing to a new file.
#[test]
fn the_table_one_file_and_two_megabytes() {
    let folder = Folder::new();
    let length = 16_777_216;
    let full = drawn_file(&folder, "full.fa", length as usize);
    let half = drawn_file(&folder, "half.fa", 8_000_000);
    for k in [8, 11, 12] {
        check("one file", peak(&["--k", &k.to_string()], &[&full], Stdio::null()), k, length);
    }
    check("three files", peak(&["--k", "9"], &[&half, &full, &half], Stdio::null()), 9, length);
    let fastq = full_fastq(&folder);
    check("FASTQ after FASTA", peak(&["--k", "9"], &[&half, &fastq], Stdio::null()), 9, length);
    let withdrawn = ["--k", "12", "--withdraw", full.to_str().expect("a name")];
    check("withdrawn", peak(&withdrawn, &[&full, &half], Stdio::null()), 12, length);
    let output = folder.path("counts.txt");
    let options = ["--output", output.to_str().expect("a name")];
    check("a new file", peak(&options, &[&half], Stdio::null()), 11, 8_000_000);
    let mut cat = Command::new("cat").arg(&full).stdout(Stdio::piped()).spawn().expect("cat starts");
    let pipe = cat.stdout.take().expect("a pipe");
    check("a pipe", peak(&["--k", "11"], &["-".as_ref()], pipe.into()), 11, length);
    assert!(cat.wait().expect("cat ends").success());
}

/// A listing takes its length while it is loaded, and nothing once the files come: here it is shorter than
/// the file that is added, so that both at once would be too much. Through a pipe it takes no more. Of
/// several listings one at a time is held, with its table and the sum's.
#[test]
fn the_table_one_listing_and_two_megabytes() {
    let folder = Folder::new();
    let full = drawn_file(&folder, "all.fa", 16_777_216);
    let listing = folder.path("counts.txt");
    let name = listing.to_str().expect("a name");
    peak(&["--k", "10", "--output", name], &[&full], Stdio::null());
    let length = fs::metadata(&listing).expect("the listing").len();
    assert!((10_000_000..16_000_000).contains(&length), "{length} bytes");
    check("from a listing", peak(&["--from", name], &[&full], Stdio::null()), 10, 16_777_216);
    check("a listing alone", peak(&["--from", name], &["/dev/null".as_ref()], Stdio::null()), 10, length);
    check("histogram", peak_of(Command::new(WONTIRJE).args(["histogram", name]), Stdio::null()), 10, length);
    let mut cat = Command::new("cat").arg(&listing).stdout(Stdio::piped()).spawn().expect("cat starts");
    let pipe = cat.stdout.take().expect("a pipe");
    check("a pipe", peak_of(Command::new(WONTIRJE).args(["histogram", "-"]), pipe.into()), 10, length);
    assert!(cat.wait().expect("cat ends").success());
    let table = 4 * wontirje::Settings::dna(10).table_places().expect("a table") as u64;
    let merged = peak_of(Command::new(WONTIRJE).args(["merge", name, name, name]), Stdio::null());
    check("merge", merged, 10, length + table);
}

/// A test load is held once, whether it is printed or written to a file.
#[test]
fn a_test_load_and_two_megabytes() {
    let folder = Folder::new();
    let output = folder.path("load.fa");
    let numbers = ["generate", "--start=1", "--records=1", "--length=16502176"];
    let printed = peak_of(Command::new(WONTIRJE).args(numbers), Stdio::null());
    check_held("a test load", printed, 16_777_216);
    let written = peak_of(Command::new(WONTIRJE).args(numbers).arg("--output").arg(&output), Stdio::null());
    check_held("a test load in a new file", written, 16_777_216);
    assert_eq!(fs::metadata(&output).expect("the file").len(), 16_777_216);
}

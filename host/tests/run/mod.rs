//! What the tests of the command share: runs of it, an example file, folders of their own, drawn files of either kind,
//! and the settings and kinds of tests/ lent to this crate. Each test file uses some of it.
#![allow(dead_code)]

use kmer_tests::draw::Random;
use kmer_tests::draw_fastq::{damaged_of, drawn_of};
use kmer_tests::files::Kind;
use kmer_tests::settings::{Settings, COMPLEMENT};
use std::ffi::{OsStr, OsString};
use std::fs;
use std::io::Write;
use std::os::unix::ffi::OsStrExt;
use std::path::{Path, PathBuf};
use std::process::{Command, Output, Stdio};
use std::sync::atomic::{AtomicU32, Ordering};
use std::thread;
use wontirje::Mirror;

/// The command as cargo built it.
pub const WONTIRJE: &str = env!("CARGO_BIN_EXE_wontirje");

/// A FASTA file; the numbers that are told of it, and the listing of its words of 2 letters.
pub const EXAMPLE: &[u8] = b">a\nACGTN\n>b\nAG\nCT\n";
pub const NUMBERS: &str = "records 2, letters 9, foreign 1, edge 2, windows 6";
pub const LISTING: &str = "(survey (letters ACGT) (k 2) (mirror complement) (classes 10))\n\
    (count CG 1)\n(count GC 1)\n(count AG 2)\n(count AC 2)\n(total 6)\n";

/// Its records as FASTQ; the bytes that begin lines also stand among the qualities.
pub const READS: &[u8] = b"@a\nACGTN\n+\n@+>!~\n@b\nAGCT\n+b\n+III\n";

/// The listing of words of 2 letters where nothing is counted.
pub const EMPTY: &str = "(survey (letters ACGT) (k 2) (mirror complement) (classes 10))\n(total 0)\n";

/// What a run of the command left.
pub struct Run {
    pub status: i32,
    pub out: Vec<u8>,
    pub err: String,
}

impl Run {
    pub fn of(output: Output) -> Run {
        let err = String::from_utf8(output.stderr).expect("text on standard error");
        Run { status: output.status.code().expect("an exit status, no signal"), out: output.stdout, err }
    }

    pub fn text(&self) -> &str {
        std::str::from_utf8(&self.out).expect("text on standard output")
    }

    /// The lines on standard error, of which each ends in LF.
    pub fn complaints(&self) -> Vec<&str> {
        assert!(self.err.is_empty() || self.err.ends_with('\n'), "{}", self.err);
        self.err.lines().collect()
    }

    /// The run could not do its work: one line that says why, and nothing printed.
    pub fn check_failed(&self, reason: &str) {
        assert_eq!((self.status, self.text()), (2, ""), "{}", self.err);
        assert_eq!(self.complaints(), [format!("wontirje: {reason}")]);
    }
}

/// Runs the command with these bytes on its standard input.
pub fn run_with(arguments: &[impl AsRef<OsStr>], input: &[u8]) -> Run {
    run_as(Command::new(WONTIRJE).args(arguments), input)
}

/// Runs the command with nothing on its standard input.
pub fn run(arguments: &[impl AsRef<OsStr>]) -> Run {
    run_with(arguments, b"")
}

/// Runs a command with these bytes on its standard input, which it need not read.
pub fn run_as(command: &mut Command, input: &[u8]) -> Run {
    let mut child = command
        .stdin(Stdio::piped())
        .stdout(Stdio::piped())
        .stderr(Stdio::piped())
        .spawn()
        .expect("the command starts");
    let mut pipe = child.stdin.take().expect("a pipe");
    thread::scope(|scope| {
        scope.spawn(move || pipe.write_all(input));
        Run::of(child.wait_with_output().expect("the command ends"))
    })
}

/// A folder of a test's own, which goes away with it.
pub struct Folder(PathBuf);

impl Folder {
    pub fn new() -> Folder {
        static NEXT: AtomicU32 = AtomicU32::new(0);
        let number = NEXT.fetch_add(1, Ordering::Relaxed);
        let path = std::env::temp_dir().join(format!("wontirje-test-{}-{number}", std::process::id()));
        fs::create_dir(&path).expect("a new folder");
        Folder(path)
    }

    pub fn path(&self, name: &str) -> PathBuf {
        self.0.join(name)
    }

    /// Writes a file and gives its path.
    pub fn file(&self, name: &str, bytes: &[u8]) -> PathBuf {
        let path = self.path(name);
        fs::write(&path, bytes).expect("a file that can be written");
        path
    }

    /// Runs the command in it, so that the names of its files are short: with the first arguments, which a
    /// test may have for all its runs, and others, and with these bytes on standard input.
    pub fn run(&self, first: &[&str], others: &[impl AsRef<OsStr>], input: &[u8]) -> Run {
        run_as(Command::new(WONTIRJE).current_dir(&self.0).args(first).args(others), input)
    }

    /// The names in it, in order.
    pub fn names(&self) -> Vec<String> {
        let entries = fs::read_dir(&self.0).expect("the folder");
        let mut names: Vec<String> = entries
            .map(|entry| entry.expect("an entry").file_name().into_string().expect("a name"))
            .collect();
        names.sort();
        names
    }
}

impl AsRef<Path> for Folder {
    fn as_ref(&self) -> &Path {
        &self.0
    }
}

impl Drop for Folder {
    fn drop(&mut self) {
        let _ = fs::remove_dir_all(&self.0);
    }
}

/// The settings of tests/, which have one of the two mirrors, lent to this crate.
pub fn lent(settings: &Settings) -> wontirje::Settings<'_> {
    let mirror = if settings.mirror == COMPLEMENT { Mirror::Complement } else { Mirror::Reversal };
    wontirje::Settings { letters: &settings.letters, k: settings.k, mirror }
}

/// A kind of tests/, lent to this crate.
pub fn lent_kind(kind: Kind) -> wontirje::Kind {
    match kind {
        Kind::Fasta => wontirje::Kind::Fasta,
        Kind::Fastq => wontirje::Kind::Fastq,
    }
}

/// A file of either kind, about one in three with a damage.
pub fn drawn_of_either_kind(random: &mut Random, settings: &Settings, length: u64) -> (Kind, Vec<u8>) {
    let is_damaged = random.below(3) == 0;
    let kind = if random.below(2) == 0 { Kind::Fasta } else { Kind::Fastq };
    let whole = drawn_of(random, kind, settings, length);
    let file = if is_damaged { damaged_of(random, kind, settings, whole) } else { whole };
    (kind, file)
}

/// The options that give these settings.
pub fn options(settings: &Settings) -> Vec<OsString> {
    let mirror = lent(settings).mirror.name();
    let letters = OsStr::from_bytes(&settings.letters).to_os_string();
    vec![
        "--letters".into(),
        letters,
        "--k".into(),
        settings.k.to_string().into(),
        "--mirror".into(),
        mirror.into(),
    ]
}

/// The listing that the library writes whole into one buffer.
pub fn whole_listing(settings: &wontirje::Settings, table: &[u32]) -> Vec<u8> {
    let needed = settings.listing(table, &mut []).expect_err("an empty buffer").place as usize;
    let mut text = vec![0; needed];
    assert_eq!(settings.listing(table, &mut text), Ok(needed));
    text
}

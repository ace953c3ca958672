//! What the counter program's `main` reads and writes, which its contract says nothing of: standard input from a file
//! and from a pipe, in one piece and byte by byte, about and far above 65,536 bytes, reads that fail at once and after
//! some bytes, and an output that cannot be written. Where a read fails the program prints `(unread N)` alone, N being the
//! bytes that it has read before: what is there is then not the whole input.

use kmer_tests::program::*;
use kmer_tests::program_cases::LINE;
use kmer_tests::second_counter::{answer, MOST_INPUT};
use kmer_tests::settings::shown_file;
use std::ffi::{c_int, c_void};
use std::fs::{self, File};
use std::io::{Read, Seek, SeekFrom};
use std::os::fd::AsRawFd;
use std::path::Path;
use std::process;
use std::ptr;
use std::sync::atomic::{AtomicUsize, Ordering};

/// What the program prints where a read fails after so many bytes.
fn unread(length: usize) -> Vec<u8> {
    format!("(unread {length})\n").into_bytes()
}

/// An input of just so many bytes: the survey line of document 01's example and a record.
fn input_of(length: usize) -> Vec<u8> {
    let start = [LINE, b"\n>a\n"].concat();
    start.into_iter().chain(b"GATTACA\n".iter().copied().cycle()).take(length).collect()
}

/// Lengths about a page, about the room of a pipe, which is also the most that is taken, and above it.
const LENGTHS: [usize; 12] = [
    0,
    1,
    LINE.len(),
    100,
    4095,
    4096,
    4097,
    20_000,
    MOST_INPUT - 1,
    MOST_INPUT,
    MOST_INPUT + 1,
    10 * MOST_INPUT,
];

/// A file that holds these bytes and has no name any more.
fn file_of(bytes: &[u8]) -> File {
    static NUMBER: AtomicUsize = AtomicUsize::new(0);
    let number = NUMBER.fetch_add(1, Ordering::Relaxed);
    let path =
        Path::new(env!("CARGO_TARGET_TMPDIR")).join(format!("counter_reads.{}.{number}", process::id()));
    fs::write(&path, bytes).expect("a file is written");
    let file = File::open(&path).expect("a file opens");
    fs::remove_file(&path).expect("a file is removed");
    file
}

fn check_printed(printed: &[u8], right: &[u8], what: &str) {
    assert!(printed == right, "{what}: printed {}, expected {}", shown_file(printed), shown_file(right));
}

#[test]
fn an_input_from_a_file() {
    for length in LENGTHS {
        let input = input_of(length);
        let printed = run_reading(file_of(&input));
        check_printed(&printed, &answer(&input), &format!("a file of {length} bytes"));
    }
    check_printed(&run_reading(File::open("/dev/null").expect("a device")), b"(refused 13 0)\n", "no input");
}

#[test]
fn an_input_from_a_pipe_in_one_piece() {
    for length in LENGTHS {
        let input = input_of(length);
        let printed = run_in_pieces(&input, length.max(1));
        check_printed(&printed, &answer(&input), &format!("a pipe of {length} bytes"));
    }
}

/// A byte at a time, and longer inputs in pieces that do not divide a page.
#[test]
fn an_input_from_a_pipe_in_many_pieces() {
    for (length, piece) in [(2, 1), (400, 1), (20_000, 997), (MOST_INPUT, 4095), (MOST_INPUT + 1, 4095)] {
        let input = input_of(length);
        let printed = run_in_pieces(&input, piece);
        check_printed(&printed, &answer(&input), &format!("{length} bytes by {piece}"));
    }
}

/// A pipe and a device that never end: the program does.
#[test]
fn an_input_without_end() {
    for piece in [&b"A"[..], &input_of(5000)] {
        check_printed(&run_without_end(piece), b"(refused 14 0)\n", "a pipe without end");
    }
    check_printed(&run_reading(File::open("/dev/zero").expect("a device")), b"(refused 14 0)\n", "zeros");
}

/// A folder (EISDIR), a device that is open for writing only (EBADF) and no standard input at all (EBADF).
#[test]
fn a_read_that_fails_at_once() {
    check_printed(&run_reading(File::open("/").expect("a folder")), &unread(0), "a folder");
    let for_writing = File::options().write(true).open("/dev/null").expect("a device");
    check_printed(&run_reading(for_writing), &unread(0), "a device for writing");
    check_printed(&run_with_closed_input(), &unread(0), "a closed input");
}

extern "C" {
    fn mmap(
        at: *mut c_void,
        length: usize,
        access: c_int,
        flags: c_int,
        file: c_int,
        from: i64,
    ) -> *mut c_void;
    fn munmap(at: *mut c_void, length: usize) -> c_int;
}

/// No page is longer on the machines that the counter runs on.
const PAGE: usize = 4096;

/// Lends `use_it` a file of which reads give these bytes and then fail (EIO): the memory of this process, from where
/// they stand at the end of a mapped file on, behind which the mapping has a page that the file has not.
fn with_failing_end<T>(bytes: &[u8], use_it: impl FnOnce(File) -> T) -> T {
    let pages = bytes.len().div_ceil(PAGE) * PAGE;
    let file = file_of(&[&vec![0; pages - bytes.len()], bytes].concat());
    // SAFETY: a new mapping of a file, for reading (1) and private (2); no reference into it is ever made.
    let start = unsafe { mmap(ptr::null_mut(), pages + PAGE, 1, 2, file.as_raw_fd(), 0) };
    assert!(start as isize != -1, "no mapping");
    let mut memory = File::open("/proc/self/mem").expect("this process's memory");
    let from = start as usize + pages - bytes.len();
    memory.seek(SeekFrom::Start(from as u64)).expect("a place in it");
    let answer = use_it(memory);
    // SAFETY: the mapping made above, of which nobody else knows.
    assert_eq!(unsafe { munmap(start, pages + PAGE) }, 0, "the mapping goes");
    answer
}

/// The mechanism itself: the bytes, and then an error.
#[test]
fn a_file_whose_end_cannot_be_read() {
    for length in [1, 5000, 2 * PAGE, MOST_INPUT] {
        let bytes = input_of(length);
        with_failing_end(&bytes, |mut file| {
            let mut found = vec![0; length];
            file.read_exact(&mut found).expect("the bytes");
            assert!(found == bytes, "other bytes");
            assert_eq!(file.read(&mut [0; 1]).expect_err("no end").raw_os_error(), Some(5), "EIO");
        });
    }
}

/// Nothing of the listing or the file line is printed, nor a refusal of what has been read; but above 65,536 bytes
/// nothing more is read.
#[test]
fn a_read_that_fails_after_some_bytes() {
    for length in LENGTHS.into_iter().filter(|&length| length > 0) {
        let right = if length > MOST_INPUT { b"(refused 14 0)\n".to_vec() } else { unread(length) };
        let printed = with_failing_end(&input_of(length), run_reading);
        check_printed(&printed, &right, &format!("{length} bytes and then no end"));
    }
    let refused = b"(survey (letters ACGT) (k 0) (mirror complement))\n*";
    for start in [&refused[..], b"no survey line\n"] {
        check_printed(&with_failing_end(start, run_reading), &unread(start.len()), &shown_file(start));
    }
}

/// Nobody can be told where standard output takes nothing: the program ends with status 0, no more is said.
#[test]
fn an_output_that_cannot_be_written() {
    let full = || Some(File::options().write(true).open("/dev/full").expect("a device"));
    for length in [0, 100, MOST_INPUT, MOST_INPUT + 1] {
        check_ends_without_output(file_of(&input_of(length)), full());
        check_ends_without_output(file_of(&input_of(length)), None);
    }
    check_ends_without_output(File::open("/").expect("a folder"), full());
}

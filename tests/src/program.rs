//! Runs the counter program: bytes through a pipe into its standard input, what it prints back, also beside the
//! second counter. Every run must end in time with status 0 and with nothing on standard error.

use crate::second_counter::{answer, answer_kind, first_line, taken_apart, MOST_INPUT};
use crate::settings::shown_file;
use std::collections::BTreeMap;
use std::env;
use std::fs::File;
use std::io::{self, Read, Write};
use std::path::{Path, PathBuf};
use std::process::{Child, ChildStdin, Command, ExitStatus, Stdio};
use std::thread;
use std::time::{Duration, Instant};

/// The program from the repository's root, where COUNTER_BIN does not name another one.
const BUILT: &str = "target/bin/counter";

/// A run that takes longer counts as one that hangs.
const LONGEST: Duration = Duration::from_secs(30);

/// How many runs may go on at the same time.
const AT_ONCE: usize = 2;

fn path() -> PathBuf {
    let root = Path::new(env!("CARGO_MANIFEST_DIR")).join("..");
    root.join(env::var_os("COUNTER_BIN").unwrap_or(BUILT.into()))
}

fn start(stdin: Stdio, stdout: Stdio) -> Child {
    started(Command::new(path()).stdin(stdin).stdout(stdout))
}

fn started(command: &mut Command) -> Child {
    command.stderr(Stdio::piped());
    command.spawn().unwrap_or_else(|error| panic!("{} does not start: {error}", path().display()))
}

/// Writes the input and closes the pipe.
fn feed(mut pipe: ChildStdin, input: &[u8], piece: usize) -> io::Result<()> {
    for part in input.chunks(piece) {
        pipe.write_all(part)?;
        if piece < input.len() {
            thread::sleep(Duration::from_millis(1));
        }
    }
    Ok(())
}

fn collected(mut pipe: impl Read) -> Vec<u8> {
    let mut bytes = Vec::new();
    pipe.read_to_end(&mut bytes).expect("the program's output");
    bytes
}

/// Waits for the program's end; none where it took too long and was stopped.
fn ended(child: &mut Child) -> Option<ExitStatus> {
    let start = Instant::now();
    while start.elapsed() < LONGEST {
        if let Some(status) = child.try_wait().expect("the program's status") {
            return Some(status);
        }
        thread::sleep(Duration::from_micros(200));
    }
    child.kill().and_then(|()| child.wait()).expect("the program stops when killed");
    None
}

/// What a program that was started prints, once it has ended in time with status 0 and with nothing on standard
/// error; `input` shows what it was given.
fn printed_by(mut child: Child, input: impl Fn() -> String) -> Vec<u8> {
    let (stdout, stderr) = (child.stdout.take().expect("a pipe"), child.stderr.take().expect("a pipe"));
    let (status, printed, complaints) = thread::scope(|scope| {
        let printed = scope.spawn(|| collected(stdout));
        let complaints = scope.spawn(|| collected(stderr));
        let status = ended(&mut child);
        (status, printed.join().expect("output"), complaints.join().expect("errors"))
    });
    let status = status.unwrap_or_else(|| panic!("no end within {LONGEST:?}: input {}", input()));
    assert_eq!(status.code(), Some(0), "{status}: input {}", input());
    assert!(complaints.is_empty(), "{}: input {}", shown_file(&complaints), input());
    printed
}

/// What the program prints for an input that reaches it in pieces of so many bytes.
pub fn run_in_pieces(input: &[u8], piece: usize) -> Vec<u8> {
    let (fed, printed) = run_fed(|pipe| feed(pipe, input, piece), || shown_file(input));
    // The program must know whether there are more than MOST_INPUT bytes: only then may it leave some unread.
    assert!(fed.is_ok() || input.len() > MOST_INPUT, "{fed:?}: input {}", shown_file(input));
    printed
}

/// What the program prints where a pipe goes on with these bytes until nobody reads it any more.
pub fn run_without_end(piece: &[u8]) -> Vec<u8> {
    let go_on = |mut pipe: ChildStdin| {
        while pipe.write_all(piece).is_ok() {}
        Ok(())
    };
    run_fed(go_on, || "without end".to_string()).1
}

/// What the program prints while another thread feeds it, and whether that could write all.
fn run_fed(
    feed: impl FnOnce(ChildStdin) -> io::Result<()> + Send,
    input: impl Fn() -> String,
) -> (io::Result<()>, Vec<u8>) {
    let mut child = start(Stdio::piped(), Stdio::piped());
    let stdin = child.stdin.take().expect("a pipe");
    thread::scope(|scope| {
        let fed = scope.spawn(|| feed(stdin));
        let printed = printed_by(child, input);
        (fed.join().expect("feeding"), printed)
    })
}

/// What the program prints where a file, a folder or a device is its standard input.
pub fn run_reading(stdin: File) -> Vec<u8> {
    let what = format!("{stdin:?}");
    printed_by(start(stdin.into(), Stdio::piped()), || what.clone())
}

/// The program as a shell starts it with this redirection, which may close what is standard.
fn shell(redirection: &str) -> Command {
    let mut command = Command::new("sh");
    command.arg("-c").arg(format!("exec \"$0\" {redirection}")).arg(path());
    command
}

/// What the program prints where its standard input is closed.
pub fn run_with_closed_input() -> Vec<u8> {
    printed_by(started(shell("<&-").stdout(Stdio::piped())), || "closed".to_string())
}

/// The program ends in time with status 0, without a word on standard error, where its standard output is this; none is closed.
pub fn check_ends_without_output(input: File, output: Option<File>) {
    let mut child = match output {
        Some(output) => start(input.into(), output.into()),
        None => started(shell(">&-").stdin(input)),
    };
    let stderr = child.stderr.take().expect("a pipe");
    let status = ended(&mut child).unwrap_or_else(|| panic!("no end within {LONGEST:?}"));
    assert_eq!(status.code(), Some(0), "{status}");
    let complaints = collected(stderr);
    assert!(complaints.is_empty(), "{}", shown_file(&complaints));
}

/// The program prints just this for an input.
pub fn check_prints(input: &[u8], right: &[u8]) {
    let printed = run_in_pieces(input, input.len().max(1));
    assert!(
        printed == right,
        "printed {}, expected {}: input {}",
        shown_file(&printed),
        shown_file(right),
        shown_file(input)
    );
}

/// Runs a check for each item of a list, a few at once.
pub fn check_each<T: Sync>(items: &[T], check: impl Fn(&T) + Sync) {
    thread::scope(|scope| {
        for part in items.chunks(items.len().div_ceil(AT_ONCE).max(1)) {
            scope.spawn(|| part.iter().for_each(&check));
        }
    });
}

/// The program prints for each input what the second counter prints, and a listing begins with the line that was
/// read, in which the number of classes is put before the last bracket: "equal settings then mean equal lines, save
/// for the line's end" (document 02, K5), and the line that we print "gains a last inner form" (K6). Gives how many
/// answers of each kind there are.
pub fn check_beside_second(inputs: &[Vec<u8>]) -> BTreeMap<String, usize> {
    let pairs: Vec<(&Vec<u8>, Vec<u8>)> = inputs.iter().map(|input| (input, answer(input))).collect();
    check_each(&pairs, |(input, right)| check_prints(input, right));
    let mut kinds = BTreeMap::new();
    for (input, right) in &pairs {
        let same = taken_apart(first_line(right).0).is_some_and(|(line, _)| line == first_line(input).0);
        assert!(same || right.starts_with(b"(refused "), "another survey line: input {}", shown_file(input));
        *kinds.entry(answer_kind(right)).or_default() += 1;
    }
    println!("{kinds:?}");
    kinds
}

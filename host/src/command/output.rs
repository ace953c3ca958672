//! Where results go: standard output, or a new file that appears under its name only when it is whole.

use crate::arguments::Arguments;
use crate::failure::{reason, Failure, Outcome};
use crate::report::shown;
use std::fs::{self, File};
use std::io::{self, BufWriter, ErrorKind, Write};
use std::os::unix::ffi::OsStrExt;
use std::path::{Path, PathBuf};
use std::process::{self, ExitCode};

/// The bytes that are gathered before they are written.
const GATHERED: usize = 1 << 16;

/// What writes a result.
type Writing<'a> = &'a mut dyn FnMut(&mut BufWriter<&mut dyn Write>) -> io::Result<()>;

/// Writes through a buffer, to its end.
fn gathered(to: &mut dyn Write, write: Writing) -> io::Result<()> {
    let mut buffer = BufWriter::with_capacity(GATHERED, to);
    let written = write(&mut buffer).and_then(|()| buffer.flush());
    if written.is_err() {
        // What is left is not tried again when the buffer goes.
        drop(buffer.into_parts());
    }
    written
}

/// Prints to standard output; the status is what a run ends with whose reader closed the pipe.
pub fn to_stdout(status: ExitCode, write: Writing) -> Result<(), Failure> {
    let printed = gathered(&mut io::stdout().lock(), write).and_then(|()| io::stdout().flush());
    printed.map_err(|error| Failure::of_printing(error, status))
}

/// Prints a text, as --help does.
pub fn print(text: &str) -> Outcome {
    to_stdout(ExitCode::SUCCESS, &mut |to| to.write_all(text.as_bytes()))?;
    Ok(ExitCode::SUCCESS)
}

fn failed(path: &Path, error: io::Error) -> Failure {
    let name = shown(path.as_os_str());
    match error.kind() {
        ErrorKind::AlreadyExists => {
            Failure::said(format!("{name}: there is such a file already; only a new one is written"))
        }
        _ => Failure::said(format!("{name}: not written: {}", reason(&error))),
    }
}

/// Makes a file in the same folder under a name that nothing has: a run that was killed, with the same number
/// as this one, may have left some of these names.
fn new_part(path: &Path) -> io::Result<(PathBuf, File)> {
    let mut number = 0;
    loop {
        let part = path.with_file_name(format!(".wontirje-{}-{number}.part", process::id()));
        match File::create_new(&part) {
            Err(error) if error.kind() == ErrorKind::AlreadyExists => number += 1,
            made => return made.map(|file| (part, file)),
        }
    }
}

/// Fails where no new file can have this name, so that nobody waits for a result that cannot be written: the
/// name is there, or is none or too long, or the folder takes no new file, as one shows that is made and removed
/// again.
fn check_new(path: &Path) -> Result<(), Failure> {
    match path.symlink_metadata() {
        Ok(_) => return Err(failed(path, ErrorKind::AlreadyExists.into())),
        Err(error) if error.kind() != ErrorKind::NotFound => return Err(failed(path, error)),
        Err(_) => (),
    }
    // A path that is empty or ends in / or /. has no file's name at its end.
    let whole = path.as_os_str().as_bytes();
    if !path.file_name().is_some_and(|name| whole.ends_with(name.as_bytes())) {
        return Err(failed(path, io::Error::other("it is no name of a file")));
    }
    let made = new_part(path).and_then(|(part, _)| fs::remove_file(part));
    made.map_err(|error| failed(path, error))
}

/// The new file that an option names, if it is given. `-` is none: what to do instead is said.
pub fn new_file<'a>(given: &'a Arguments, option: &str, instead: &str) -> Result<Option<&'a Path>, Failure> {
    let Some(path) = given.value(option).map(Path::new) else { return Ok(None) };
    if path.as_os_str() == "-" {
        return Err(Failure::said(format!("--{option} - is no file; {instead}")));
    }
    check_new(path).map(|()| Some(path))
}

/// Gives the whole file its name. A link is refused where the name has come up meanwhile; a rename would not
/// be, so it is left to file systems that have no links.
fn named(part: &Path, path: &Path) -> io::Result<()> {
    match fs::hard_link(part, path) {
        Ok(()) => fs::remove_file(part),
        Err(_) if path.symlink_metadata().is_err() => fs::rename(part, path),
        Err(error) => Err(error),
    }
}

/// Writes a new file: under a temporary name, then to the disk, then under its own name.
pub fn to_new_file(path: &Path, write: Writing) -> Result<(), Failure> {
    let (part, mut file) = new_part(path).map_err(|error| failed(path, error))?;
    let written = gathered(&mut file, write).and_then(|()| file.sync_all()).and_then(|()| named(&part, path));
    if written.is_err() {
        // The part is of no use; where it cannot be removed the first error still counts.
        let _ = fs::remove_file(&part);
    }
    written.map_err(|error| failed(path, error))
}

//! `wontirje code` and `wontirje word`: the codes of words and the words of codes, one a line.

use crate::arguments::{number, Arguments};
use crate::failure::{reason, status, Failure, Outcome};
use crate::input::bare;
use crate::report::{line, shown};
use crate::survey;
use std::ffi::OsStr;
use std::io::{self, BufRead, Read, Write};
use std::os::unix::ffi::OsStrExt;
use wontirje::{Code, Refusal, Settings};

/// The most bytes of a line of standard input, its end included. No word, code or K needs nearly as many;
/// without a bound, input that has no lines would fill the memory.
const LONGEST_LINE: usize = 65_536;

/// Hands each operand, or each line of standard input where there is none or it is -, to some work; a line that
/// is too long comes as none. With it goes what an item is called that is empty or too long.
fn each_item(
    arguments: &Arguments,
    mut work: impl FnMut(Option<&OsStr>, &str) -> Result<(), Failure>,
) -> Result<(), Failure> {
    match &arguments.operands[..] {
        [] => (),
        [only] if only == "-" => (),
        operands => return operands.iter().try_for_each(|operand| work(Some(operand), "an empty argument")),
    }
    let unread = |error: io::Error| Failure::said(format!("standard input: not read: {}", reason(&error)));
    let mut input = io::stdin().lock();
    let mut line = Vec::new();
    let most = LONGEST_LINE as u64 + 1;
    for number in 1u64.. {
        line.clear();
        match input.by_ref().take(most).read_until(b'\n', &mut line).map_err(unread)? {
            0 => break,
            1..=LONGEST_LINE => work(Some(OsStr::from_bytes(bare(&line))), "an empty line")?,
            _ => {
                // Told before its rest is skipped, which may have no end.
                work(None, &format!("line {number}"))?;
                if !line.ends_with(b"\n") {
                    input.skip_until(b'\n').map_err(unread)?;
                }
            }
        }
    }
    Ok(())
}

/// Prints what each item is translated to, line by line, and says which ones are refused; the others go on.
pub fn translate(arguments: &Arguments, translated: impl Fn(&OsStr) -> Result<String, String>) -> Outcome {
    let mut refused = false;
    let mut to = io::stdout().lock();
    let too_long = || String::from("more than 65,536 bytes");
    each_item(arguments, |item, unnamed| match item.ok_or_else(too_long).and_then(&translated) {
        Ok(text) => writeln!(to, "{text}").map_err(|error| Failure::of_printing(error, status(refused))),
        Err(reason) => {
            refused = true;
            let name = item.filter(|item| !item.is_empty()).map_or(String::from(unnamed), shown);
            line(format_args!("{name}: {reason}"));
            Ok(())
        }
    })?;
    Ok(status(refused))
}

/// Why a word has no code. kmer_code tells no place; kmer_mirror refuses a word for the same reasons, with
/// it.
fn word_refused(settings: &Settings, word: &[u8], refusal: Refusal) -> String {
    match settings.mirror_of(word, &mut vec![0; settings.k]) {
        Err(Refusal { number: 9, place }) => format!("{refusal}: letter {} of the word", place + 1),
        _ => format!("{refusal}: its length is {}, k is {}", word.len(), settings.k),
    }
}

pub fn codes(arguments: &Arguments) -> Outcome {
    let settings = survey::settings(arguments)?;
    settings.classes().map_err(|refusal| survey::refused(&settings, refusal))?;
    translate(arguments, |item| match settings.code(item.as_bytes()) {
        Ok(Code(code)) => Ok(code.to_string()),
        Err(refusal) => Err(word_refused(&settings, item.as_bytes(), refusal)),
    })
}

pub fn words(arguments: &Arguments) -> Outcome {
    let settings = survey::settings(arguments)?;
    let classes = settings.classes().map_err(|refusal| survey::refused(&settings, refusal))?;
    translate(arguments, |item| {
        let code = number(item).ok_or("not a code: a number below 2^64 in decimal digits")?;
        let mut word = vec![0; settings.k];
        match settings.word(Code(code), &mut word) {
            Ok(_) => Ok(String::from_utf8_lossy(&word).into_owned()),
            Err(refusal) => Err(format!("{refusal}, {classes}")),
        }
    })
}

//! The arguments of a command: options, which may stand anywhere before `--`, and operands.

use crate::report::shown;
use std::ffi::{OsStr, OsString};
use std::os::unix::ffi::{OsStrExt, OsStringExt};

/// What an option takes.
#[derive(Clone, Copy, PartialEq, Eq)]
pub enum Takes {
    Nothing,
    Value,
    /// A value; the option may be given several times.
    Values,
}

/// Options by name, without `--`, and what they take.
pub type Options = &'static [(&'static str, Takes)];

/// What was given on the command line.
#[derive(Default)]
pub struct Arguments {
    options: Vec<(&'static str, OsString)>,
    pub operands: Vec<OsString>,
}

/// Whether help is asked for before `--`.
pub fn ask_for_help(given: &[OsString]) -> bool {
    given
        .iter()
        .take_while(|&argument| argument != "--")
        .any(|argument| argument == "--help" || argument == "-h")
}

/// An option's name without `--`, and its value where it is given as `--name=value`. `-k` is `--k`.
fn taken_apart(argument: &OsStr) -> Option<(&[u8], Option<&[u8]>)> {
    let bytes = argument.as_bytes();
    let bare = match bytes.strip_prefix(b"--") {
        Some(bare) => bare,
        // A lone - is standard input.
        None => bytes.strip_prefix(b"-").filter(|bare| !bare.is_empty())?,
    };
    match bare.iter().position(|&byte| byte == b'=') {
        Some(at) => Some((&bare[..at], Some(&bare[at + 1..]))),
        None => Some((bare, None)),
    }
}

impl Arguments {
    pub fn parse(given: &[OsString], known: Options) -> Result<Arguments, String> {
        let mut found = Arguments::default();
        let mut rest = given.iter();
        while let Some(argument) = rest.next() {
            if argument == "--" {
                found.operands.extend(rest.cloned());
                break;
            }
            let Some((name, value)) = taken_apart(argument) else {
                found.operands.push(argument.clone());
                continue;
            };
            let option = known.iter().find(|(option, _)| option.as_bytes() == name);
            let &(option, takes) = option.ok_or_else(|| format!("{} is no option", shown(argument)))?;
            let value = match (takes, value) {
                (Takes::Nothing, None) => OsString::new(),
                (Takes::Nothing, Some(_)) => return Err(format!("--{option} takes no value")),
                (_, Some(value)) => OsString::from_vec(value.to_vec()),
                (_, None) => rest.next().ok_or_else(|| format!("--{option} lacks its value"))?.clone(),
            };
            if takes != Takes::Values && found.has(option) {
                return Err(format!("--{option} is given twice"));
            }
            found.options.push((option, value));
        }
        Ok(found)
    }

    pub fn value(&self, option: &str) -> Option<&OsStr> {
        self.options.iter().find(|(name, _)| *name == option).map(|(_, value)| value.as_os_str())
    }

    /// The values of an option that may be given several times, in the order given.
    pub fn values(&self, option: &'static str) -> impl Iterator<Item = &OsStr> {
        self.options.iter().filter(move |(name, _)| *name == option).map(|(_, value)| value.as_os_str())
    }

    pub fn has(&self, option: &str) -> bool {
        self.value(option).is_some()
    }

    /// The number given with an option, none where it is not given.
    pub fn number(&self, option: &str) -> Result<Option<usize>, String> {
        let Some(value) = self.value(option) else { return Ok(None) };
        match number(value) {
            None => Err(format!("--{option} {} is no number from 0 to 2^64 - 1", shown(value))),
            number => Ok(number),
        }
    }
}

/// A number in decimal digits.
pub fn number<T: std::str::FromStr>(text: &OsStr) -> Option<T> {
    let digits = text.to_str().filter(|digits| digits.bytes().all(|byte| byte.is_ascii_digit()))?;
    digits.parse().ok()
}

//! The settings from the command line: ACGT, k 11 and complement where neither an option nor a listing
//! (`--from`) gives others.

use crate::arguments::{Arguments, Options, Takes};
use crate::failure::Failure;
use crate::report::shown;
use std::ffi::OsStr;
use std::os::unix::ffi::OsStrExt;
use wontirje::{Mirror, Refusal, Settings};

pub const OPTIONS: Options = &[("letters", Takes::Value), ("k", Takes::Value), ("mirror", Takes::Value)];

/// The settings that are given, each or none.
#[derive(Clone, Copy, Default)]
pub struct Given<'a> {
    pub letters: Option<&'a [u8]>,
    pub k: Option<usize>,
    pub mirror: Option<Mirror>,
}

impl<'a> Given<'a> {
    /// The settings, with these for what is not given.
    pub fn or(&self, others: Settings<'a>) -> Settings<'a> {
        Settings {
            letters: self.letters.unwrap_or(others.letters),
            k: self.k.unwrap_or(others.k),
            mirror: self.mirror.unwrap_or(others.mirror),
        }
    }

    /// The options that are given, by name.
    pub fn options(&self) -> Vec<&'static str> {
        let given = [self.letters.is_some(), self.k.is_some(), self.mirror.is_some()];
        let names = ["--letters", "--k", "--mirror"].into_iter().zip(given);
        names.filter(|(_, given)| *given).map(|(name, _)| name).collect()
    }
}

/// The settings that options give. The library judges them, but for the mirror's name.
pub fn given(arguments: &Arguments) -> Result<Given<'_>, Failure> {
    let letters = arguments.value("letters").map(OsStr::as_bytes);
    let k = arguments.number("k").map_err(Failure::Said)?;
    let Some(name) = arguments.value("mirror") else { return Ok(Given { letters, k, mirror: None }) };
    match name.to_str().and_then(Mirror::from_name) {
        None => {
            let refusal = Refusal { number: 2, place: 0 };
            Err(Failure::said(format!("{refusal}: --mirror {}", shown(name))))
        }
        mirror => Ok(Given { letters, k, mirror }),
    }
}

/// The settings where nothing but the options tells them.
pub fn settings(arguments: &Arguments) -> Result<Settings<'_>, Failure> {
    Ok(given(arguments)?.or(by_default()))
}

/// The settings where no option gives others.
pub fn by_default() -> Settings<'static> {
    Settings::dna(11)
}

/// Settings in words.
pub fn described(settings: &Settings) -> String {
    let Settings { letters, k, mirror } = settings;
    format!("letters {}, k {k}, mirror {}", shown(OsStr::from_bytes(letters)), mirror.name())
}

/// What is wrong with settings that the library refuses.
pub fn refusal(settings: &Settings, refusal: Refusal) -> String {
    let what = match refusal.number {
        6 => "more than 16,777,216 classes, too many for a table",
        _ => refusal.what(),
    };
    format!("refused {}: {what} ({})", refusal.number, described(settings))
}

/// What is wrong with settings that options gave, and what to do.
pub fn advised(settings: &Settings, refused: Refusal) -> String {
    let advice = match refused.number {
        1 => "give --letters in capitals, each once, as in --letters ACGT",
        4 => "give a k from 1 to 31 for 4 letters (62 for 2, 39 for 3, 26 for 5, 15 for 16)",
        6 => {
            "give a smaller --k (under complement at most 12 for 4 letters, 10 for 5); \
             wontirje classes tells the sizes"
        }
        _ => "see wontirje --help",
    };
    format!("{}; {advice}", refusal(settings, refused))
}

/// The failure of a command for settings that the library refuses.
pub fn refused(settings: &Settings, refused: Refusal) -> Failure {
    Failure::Said(advised(settings, refused))
}

//! What is wrong with a listing that was refused, where, and what to do. Number and place are the library's;
//! the line that it names is looked at only to explain them.

use crate::input::advice_on_the_start;
use crate::listing::{Forms, FIRST};
use crate::report::shown;
use crate::survey::{self, described, Given};
use std::ffi::OsStr;
use std::fmt;
use wontirje::{Mirror, Refusal, Settings};

const AGAIN: &str = "copy it again, or count its files again";
const NO_LISTING: &str = "no survey line, so this is no listing";
const AS_PRINTED: &str = "give a listing as wontirje count prints it";
const CR_ALONE: &str = "its lines end in CR alone";
const CR_TO_LF: &str = "make them end in LF, as tr '\\r' '\\n' does";

/// The settings, by the names of their forms and options.
const NAMES: [&str; 3] = ["letters", "k", "mirror"];

/// What is wrong, and what to do.
type Said = (String, String);

fn said(what: impl Into<String>, advice: impl Into<String>) -> Said {
    (what.into(), advice.into())
}

/// A damage that nobody can mend by hand.
fn damaged(what: impl Into<String>, how: &str) -> Said {
    said(what, format!("{how}: {AGAIN}"))
}

/// Whether the bytes have these others among them, one behind the other.
fn contains(bytes: &[u8], what: &[u8]) -> bool {
    bytes.windows(what.len()).any(|part| part == what)
}

/// Whether a first line is several lines of a listing that end in CR alone.
fn ends_lines_in_cr(line: &[u8]) -> bool {
    line.starts_with(b"(survey ") && contains(line, b")\r(")
}

/// A first line that is longer than any listing's.
pub fn of_the_first_line(text: &[u8]) -> String {
    let advice = match ends_lines_in_cr(text) {
        true => format!("{CR_ALONE}: {CR_TO_LF}"),
        false => advice_on_the_start(text).unwrap_or(AS_PRINTED).to_string(),
    };
    format!("its first line does not end within {FIRST} bytes, so this is no listing; {advice}")
}

/// A text that is longer than any listing of the settings, in the midst of a line.
pub fn of_the_length(settings: &Settings, most: u64) -> String {
    format!("more than {most} bytes, which no listing has ({}); {AS_PRINTED}", described(settings))
}

/// Settings that no table has, what of them was given, and the listing's own: where no table has these
/// either, it does not help to leave an option out.
pub fn of_the_settings(settings: &Settings, refusal: Refusal, given: &Given, own: &Settings) -> String {
    let advice = match own.table_places() {
        Ok(_) => format!("leave {} out to take the listing's own", given.options().join(" and ")),
        Err(_) => AGAIN.to_string(),
    };
    format!("{}; no listing has these settings: {advice}", survey::refusal(settings, refusal))
}

/// Whether what comes next follows a total, where these lines are before it.
pub fn is_after_the_total(before: &[u8]) -> bool {
    let last = before.split_inclusive(|&byte| byte == b'\n').next_back();
    last.is_some_and(|line| line.starts_with(b"(total "))
}

/// Whether a line without its end has the shape of a total.
fn is_total(line: &[u8]) -> bool {
    let digits = line.strip_prefix(b"(total ").and_then(|rest| rest.strip_suffix(b")"));
    match digits.unwrap_or_default() {
        b"0" => true,
        [b'1'..=b'9', others @ ..] => others.iter().all(u8::is_ascii_digit),
        _ => false,
    }
}

/// A listing that the library refused under these settings, and what its first line proposed.
pub struct ListingFault<'a> {
    pub refusal: Refusal,
    pub text: &'a [u8],
    pub settings: Settings<'a>,
    pub forms: &'a Forms,
    /// The listing whose settings these are; none where options gave them, or the refused listing itself.
    pub first: Option<&'a str>,
}

impl ListingFault<'_> {
    /// What is before the line at fault.
    fn before(&self) -> &[u8] {
        &self.text[..self.text.len().min(self.refusal.place as usize)]
    }

    /// The line at fault and all that follows it, as far as it was read.
    fn rest(&self) -> &[u8] {
        &self.text[self.before().len()..]
    }

    /// The line at fault with its end, if it has one; empty where it is missing.
    fn line(&self) -> &[u8] {
        self.rest().split_inclusive(|&byte| byte == b'\n').next().unwrap_or_default()
    }

    /// The line's end where it is not the one that a listing has.
    fn of_the_end(&self) -> Option<Said> {
        let line = self.line();
        match line.strip_suffix(b"\n") {
            None if is_total(line) => {
                Some(said("the last line does not end in LF", "put the line end behind it"))
            }
            None => Some(damaged("the last line has no end", "the listing is cut off")),
            Some(line) if line.ends_with(b"\r") => {
                Some(said("the line ends in CR LF", "make all lines end in LF alone, as tr -d '\\r' does"))
            }
            Some(_) => None,
        }
    }

    /// The forms of the survey line that the listing should have, in order, by the settings that it proposes.
    fn right_forms(&self) -> Option<[String; 4]> {
        let Given { letters: Some(letters), k: Some(k), mirror: Some(mirror) } = self.forms.proposed() else {
            return None;
        };
        let classes = Settings { letters, k, mirror }.table_places().ok()?;
        Some([
            format!("(letters {})", String::from_utf8_lossy(letters)),
            format!("(k {k})"),
            format!("(mirror {})", mirror.name()),
            format!("(classes {classes})"),
        ])
    }

    /// A survey line that is none: one of an older listing, one in another order, or a damaged one.
    fn of_the_survey_line(&self) -> Said {
        let line = String::from_utf8_lossy(self.line());
        let line = line.strip_suffix('\n').unwrap_or(&line);
        let Some(forms) = self.right_forms() else {
            let whole = "(survey (letters ACGT) (k 2) (mirror complement) (classes 10))";
            return said("the survey line is damaged", format!("a whole one is as in {whole}"));
        };
        let line_of = |forms: &[String]| format!("(survey {})", forms.join(" "));
        if line == line_of(&forms[..3]) {
            let what = "the survey line has no number of classes, as in older listings";
            let form = &forms[3];
            let advice = format!("put a space and {form} before its last bracket, or count its files again");
            return said(what, advice);
        }
        let has_just = |forms: &[String]| {
            line.len() == line_of(forms).len() && forms.iter().all(|form| line.contains(form))
        };
        let what = match has_just(&forms[..3]) || has_just(&forms) {
            true => "the forms of the survey line stand in another order",
            false => "the survey line is damaged",
        };
        said(what, format!("by its settings it is {}", line_of(&forms)))
    }

    /// Ground 20 at the first line.
    fn of_the_first_shape(&self) -> Said {
        match self.line() {
            b"" => damaged("the survey line is missing", "the listing is empty"),
            line if ends_lines_in_cr(line) => said(CR_ALONE, CR_TO_LF),
            line if line.starts_with(b"(survey ") => {
                self.of_the_end().unwrap_or_else(|| self.of_the_survey_line())
            }
            line => match advice_on_the_start(line) {
                Some(advice) => said(NO_LISTING, advice),
                None if contains(self.text, b"\n(survey ") => {
                    said("the survey line is not the first line", "take out what stands before it")
                }
                None => said(NO_LISTING, AS_PRINTED),
            },
        }
    }

    /// Ground 20 at a line after the total, where none belongs.
    fn of_a_further_line(&self) -> Said {
        let line = self.line();
        if line.starts_with(b"(file (") {
            return said("the counter program's (file ..) line follows the total", "take that line out");
        }
        if line.starts_with(b"(survey ") || contains(self.rest(), b"\n(survey ") {
            let advice = "part them into a file each, which wontirje merge adds up";
            return said("another listing follows the total", advice);
        }
        said("a line follows the total", "take out what follows it")
    }

    /// Ground 20.
    fn of_the_shape(&self) -> Said {
        if self.refusal.place == 0 {
            return self.of_the_first_shape();
        }
        if self.line().is_empty() {
            return damaged("the total is missing", "the listing is cut off");
        }
        if is_after_the_total(self.before()) {
            return self.of_a_further_line();
        }
        self.of_the_end().unwrap_or_else(|| {
            let Settings { letters, k, .. } = self.settings;
            let letters = String::from_utf8_lossy(letters);
            damaged(
                format!("neither the count of a word of {k} capitals of {letters} nor the total"),
                "the line is damaged or was changed",
            )
        })
    }

    /// Ground 21: what differs of letters, k and mirror, beside what it must be; else the number of classes.
    fn of_the_settings(&self) -> Said {
        let Settings { letters, k, mirror } = self.settings;
        let own = [&self.forms.letters, &self.forms.k, &self.forms.mirror, &self.forms.classes];
        let own = own.map(|value| shown(OsStr::new(value.as_deref().unwrap_or_default())));
        if Mirror::from_name(&own[2]).is_none() {
            return damaged(format!("no mirror has the name {}", own[2]), "the survey line is damaged");
        }
        let right = [String::from_utf8_lossy(letters).into_owned(), k.to_string(), mirror.name().to_string()];
        let differing: Vec<usize> = (0..3).filter(|&which| own[which] != right[which]).collect();
        let list = |dashes: &str, values: &[String]| {
            let named = |&which: &usize| format!("{dashes}{} {}", NAMES[which], values[which]);
            differing.iter().map(named).collect::<Vec<_>>().join(", ")
        };
        let has = format!("the survey line has {}", list("", &own));
        match self.first {
            _ if differing.is_empty() => self.of_the_classes(&own[3]),
            None => said(
                format!("{has}, the command line {}", list("--", &right)),
                match self.forms.proposed().or(self.settings).table_places() {
                    Ok(_) => "leave out what differs, or count the listing's files again with it",
                    Err(_) => "no table has the listing's own: count its files again",
                },
            ),
            Some(name) => said(
                format!("{has}, that of {name} {}", list("", &right)),
                "only listings of the same settings are merged",
            ),
        }
    }

    fn of_the_classes(&self, told: &str) -> Said {
        let right = self.settings.classes().unwrap_or_default();
        let what = format!("(classes {told}), but these settings have {right} classes");
        damaged(what, "the survey line is damaged")
    }

    /// Ground 22.
    fn of_the_count(&self) -> Said {
        let (line, k) = (self.line(), self.settings.k);
        if line.starts_with(b"(total ") {
            let how = "a line was changed, lost or put in";
            return damaged("the total is not the sum of the counts", how);
        }
        // The library has found the line's shape good: (count, a word of k letters, a count, ) and LF.
        let rest = line.get(7..line.len().saturating_sub(2));
        let Some((word, count)) = rest.and_then(|rest| rest.split_at_checked(k)) else {
            return damaged(self.refusal.what(), "the line was changed");
        };
        let mut canonical = vec![0; k];
        let code = self.settings.code(word).and_then(|code| self.settings.word(code, &mut canonical));
        let [word, canonical, count] = [word, &canonical[..], count].map(String::from_utf8_lossy);
        if code.is_ok() && word != canonical {
            let what = format!("{word} is not canonical, the word of its class is {canonical}");
            return damaged(what, "the line was changed");
        }
        match count.trim_start().parse::<u32>() {
            Ok(1..) => damaged(
                format!("the code of {word} is not above that of the line before"),
                "the lines were sorted anew, or are of several listings, which wontirje merge adds up",
            ),
            _ => damaged(format!("the count of {word} is not 1 to 4,294,967,295"), "the line was changed"),
        }
    }
}

impl fmt::Display for ListingFault<'_> {
    fn fmt(&self, f: &mut fmt::Formatter) -> fmt::Result {
        let Refusal { number, place } = self.refusal;
        let line = 1 + self.before().iter().filter(|&&byte| byte == b'\n').count();
        let (what, advice) = match number {
            20 => self.of_the_shape(),
            21 => self.of_the_settings(),
            22 => self.of_the_count(),
            _ => said(self.refusal.what(), "this is a fault of wontirje: report it"),
        };
        write!(f, "refused {number} at offset {place} (line {line}): {what}; {advice}")
    }
}

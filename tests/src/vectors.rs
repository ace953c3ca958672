//! Reads the stored answers of independent reference implementations: vectors/words.txt, those to document 01
//! alone, vectors/k10_calls.txt, those to document 01 with document 02, K10, and vectors/k02_calls.txt,
//! vectors/k03_calls.txt, vectors/k06_listings.txt and vectors/k08_generated.txt, those with K2, with K3, with K6
//! and with K8 too; the heads of these files say what their columns are. Holds the second coder, its grounds and
//! other references against them.

use crate::expected::Refusal;
use crate::settings::Settings;
use std::fmt::Debug;
use std::str::FromStr;

/// What a vector's byte buffer held before the call, and what a list of codes held.
const BYTE_BEFORE: u8 = 0x23;
const CODE_BEFORE: u64 = 9;

/// The name of a file of stored calls, and its text.
pub type StoredFile = (&'static str, &'static str);

const CALLS: [StoredFile; 5] = [
    ("words.txt", include_str!("../vectors/words.txt")),
    ("k10_calls.txt", include_str!("../vectors/k10_calls.txt")),
    ("k02_calls.txt", include_str!("../vectors/k02_calls.txt")),
    ("k03_calls.txt", include_str!("../vectors/k03_calls.txt")),
    ("k06_listings.txt", include_str!("../vectors/k06_listings.txt")),
];

/// The stored files that were made.
const GENERATED: StoredFile = ("k08_generated.txt", include_str!("../vectors/k08_generated.txt"));

pub struct Vector {
    /// The file and the line in it.
    pub line: String,
    pub settings: Settings,
    pub given: &'static str,
    pub room: usize,
    outcome: &'static str,
    after: &'static str,
}

pub fn bytes(hex: &str) -> Vec<u8> {
    if hex == "-" {
        return Vec::new();
    }
    let digit = |c: char| c.to_digit(16).expect("a hex digit") as u8;
    let digits: Vec<u8> = hex.chars().map(digit).collect();
    digits.chunks(2).map(|two| two[0] * 16 + two[1]).collect()
}

pub fn number<T: FromStr>(text: &str) -> T {
    text.parse().unwrap_or_else(|_| panic!("{text} is no number of its column"))
}

/// The places of a list: numbers parted by commas, VALUE*TIMES where one stands in several places in a row.
pub fn places<T: FromStr + Clone>(text: &str) -> Vec<T> {
    let parts = text.split(',').filter(|part| *part != "-");
    let pairs = parts.map(|part| part.split_once('*').unwrap_or((part, "1")));
    pairs.flat_map(|(value, times)| vec![number(value); number(times)]).collect()
}

/// Where one call's lines stand, and their columns; how many there are is asked for, so that a cut file does
/// not pass.
pub fn rows((name, text): StoredFile, call: &str, count: usize) -> Vec<(String, Vec<&'static str>)> {
    let lines = text.lines().enumerate();
    let split = lines.map(|(line, columns)| (line + 1, columns.split(' ').collect::<Vec<&str>>()));
    let calls = split.filter(|(_, columns)| columns[0] == call);
    let found: Vec<_> = calls.map(|(line, columns)| (format!("{name}, line {line}"), columns)).collect();
    assert_eq!(found.len(), count, "{name}: lines for {call}");
    found
}

/// The stored calls of one kind: so many of words.txt, then of k10_calls.txt, of k02_calls.txt, of k03_calls.txt and of
/// k06_listings.txt.
pub fn vectors(call: &str, counts: [usize; 5]) -> Vec<Vector> {
    CALLS.into_iter().zip(counts).flat_map(|(file, count)| rows(file, call, count)).map(parsed).collect()
}

/// The stored calls that make a file, so many of them.
pub fn generated_vectors(count: usize) -> Vec<Vector> {
    rows(GENERATED, "generate", count).into_iter().map(parsed).collect()
}

fn parsed((line, columns): (String, Vec<&'static str>)) -> Vector {
    assert_eq!(columns.len(), 8, "{line}: columns");
    Vector {
        settings: Settings::new(&bytes(columns[1]), number(columns[2]), number(columns[3])),
        given: columns[4],
        room: if columns[5] == "-" { 0 } else { number(columns[5]) },
        outcome: columns[6],
        after: columns[7],
        line,
    }
}

impl Vector {
    /// The stored number and P of a refusal, where P may not be stored; or the stored answer.
    fn stored(&self) -> Result<u64, (u64, Option<u64>)> {
        let parts: Vec<&str> = self.outcome.split('/').collect();
        match parts[..] {
            [answer] => Ok(number(answer)),
            ["refused", ground, "-"] => Err((number(ground), None)),
            ["refused", ground, p] => Err((number(ground), Some(number(p)))),
            _ => panic!("{}: outcome {}", self.line, self.outcome),
        }
    }

    /// The stored answer of a coding, for comparison with a call that returns no P.
    pub fn stored_code(&self) -> Result<u64, Refusal> {
        self.stored().map_err(|(number, p)| Refusal { number, p: p.unwrap_or(0) })
    }

    /// The stored bytes of a reading, a mirroring, a listing or a file that was made, or its refusal.
    pub fn stored_bytes(&self) -> Result<Vec<u8>, Refusal> {
        self.stored_code().map(|length| bytes(self.after)[..length as usize].to_vec())
    }

    /// The lent byte buffer of such a call, before it and after it.
    pub fn buffers(&self) -> (Vec<u8>, Vec<u8>) {
        (vec![BYTE_BEFORE; self.room], bytes(self.after))
    }

    /// The stored codes along a sequence, or the refusal.
    pub fn stored_codes(&self) -> Result<Vec<u64>, Refusal> {
        self.stored_code().map(|length| places(self.after)[..length as usize].to_vec())
    }

    /// The second coder codes as stored, with the stored P where there is one.
    pub fn check_second_code(&self, found: Result<u64, Refusal>) {
        match found {
            Ok(code) => assert_eq!(self.stored(), Ok(code), "{}: {}", self.line, self.settings),
            Err(refusal) => self.check_second_refusal(refusal),
        }
    }

    /// The reference writes as stored, buffer included, with the stored P where there is one.
    pub fn check_second_bytes(&self, found: Result<Vec<u8>, Refusal>) {
        self.check_second(found, BYTE_BEFORE, bytes(self.after));
    }

    /// The same for the codes along a sequence.
    pub fn check_second_codes(&self, found: Result<Vec<u64>, Refusal>) {
        self.check_second(found, CODE_BEFORE, places(self.after));
    }

    fn check_second<T>(&self, found: Result<Vec<T>, Refusal>, before: T, after: Vec<T>)
    where
        T: Copy + Debug + PartialEq,
    {
        let mut buffer = vec![before; self.room];
        match found {
            Ok(written) => {
                assert_eq!(self.stored(), Ok(written.len() as u64), "{}: {}", self.line, self.settings);
                buffer[..written.len()].copy_from_slice(&written);
            }
            Err(refusal) => self.check_second_refusal(refusal),
        }
        assert_eq!(after, buffer, "{}: {}", self.line, self.settings);
    }

    fn check_second_refusal(&self, found: Refusal) {
        match self.stored() {
            Ok(answer) => panic!("{}: {}: {found:?}, stored {answer}", self.line, self.settings),
            Err((number, p)) => {
                let stored = Refusal { number, p: p.unwrap_or(found.p) };
                assert_eq!(found, stored, "{}: {}", self.line, self.settings);
            }
        }
    }
}

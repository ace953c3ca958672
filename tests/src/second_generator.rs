//! A second generator of test loads, written from document 02, K8, alone and not from the library. The state is
//! stepped with 128 bits. A file's length is worked out without the file, so that numbers of any size can be
//! judged. Of the other references it uses the grounds for settings.

use crate::expected::{settings_ground, Refusal};
use crate::sequences::MOST_BYTES;
use crate::settings::Settings;
use std::fmt;

/// "Lines of 60 letters, the last perhaps shorter".
const LINE: usize = 60;

/// What a caller asks for beside the settings: "a 64-bit start, a number of records and a number of letters in
/// each".
#[derive(Clone, Copy, Debug, PartialEq)]
pub struct Asked {
    pub start: u64,
    pub records: usize,
    pub each: usize,
}

impl Asked {
    pub fn new(start: u64, records: usize, each: usize) -> Asked {
        Asked { start, records, each }
    }
}

impl fmt::Display for Asked {
    fn fmt(&self, f: &mut fmt::Formatter) -> fmt::Result {
        write!(f, "start {}, {} records of {} letters", self.start, self.records, self.each)
    }
}

/// "Each letter first steps the state: times 6364136223846793005 plus 1442695040888963407, modulo 2^64."
pub fn stepped(state: u64) -> u64 {
    ((state as u128 * 6364136223846793005 + 1442695040888963407) % (1 << 64)) as u64
}

/// "The letter's rank is the state's top 32 bits times s, divided by 2^32 and rounded down."
fn letter(letters: &[u8], state: u64) -> u8 {
    let top = state as u128 / (1 << 32);
    letters[(top * letters.len() as u128 / (1 << 32)) as usize]
}

/// The file: "header > with the record's number from 1, then lines of 60 letters, .. all ending in LF". The state
/// runs on from record to record. "A record of 0 letters is its header only": it has no lines.
pub fn file(letters: &[u8], asked: Asked) -> Vec<u8> {
    let mut state = asked.start;
    let mut next = || {
        state = stepped(state);
        letter(letters, state)
    };
    let mut file = Vec::new();
    for record in 1..=asked.records {
        file.extend(format!(">{record}\n").into_bytes());
        let sequence: Vec<u8> = (0..asked.each).map(|_| next()).collect();
        for line in sequence.chunks(LINE) {
            file.extend(line);
            file.push(b'\n');
        }
    }
    file
}

/// How many digits the numbers from 1 to the last have together: those from 10^d on have a digit for 10^d.
fn digits(last: u128) -> u128 {
    let powers = (0..).map(|d| 10u128.pow(d)).take_while(|&power| power <= last);
    powers.map(|power| last - power + 1).sum()
}

/// How long the file is or would be: a header has > and LF beside its digits, a line has an LF beside its letters.
/// Lengths above 2^128 - 1 have this value, which is above every limit.
pub fn length(asked: Asked) -> u128 {
    let (records, each) = (asked.records as u128, asked.each as u128);
    let lines = each.div_ceil(LINE as u128);
    records.saturating_mul(each + lines).saturating_add(2 * records + digits(records))
}

/// Grounds 1, 2, 4, then "a larger one gives 6 and a short buffer 7"; else the file.
pub fn generating(settings: &Settings, asked: Asked, room: usize) -> Result<Vec<u8>, Refusal> {
    settings_ground(settings)?;
    let length = length(asked);
    if length > MOST_BYTES as u128 {
        return Err(Refusal { number: 6, p: 0 });
    }
    if (room as u128) < length {
        return Err(Refusal { number: 7, p: length as u64 });
    }
    Ok(file(&settings.letters, asked))
}

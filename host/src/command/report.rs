//! What the command says on standard error, one line each.

use std::ffi::OsStr;
use std::fmt::Arguments;
use std::io::{self, Write};
use wontirje::Numbers;

/// Writes a line to standard error. Where that cannot be written there is nobody to tell.
pub fn line(text: Arguments) {
    let _ = writeln!(io::stderr(), "{text}");
}

/// A name as it is shown: in one line, whatever bytes it has.
pub fn shown(name: &OsStr) -> String {
    let mut text = String::new();
    for character in name.to_string_lossy().chars() {
        match character.is_control() {
            true => text.extend(character.escape_default()),
            false => text.push(character),
        }
    }
    text
}

/// The name of an operand: `-` is standard input.
pub fn name(operand: &OsStr) -> String {
    if operand == "-" {
        String::from("standard input")
    } else {
        shown(operand)
    }
}

/// A name cut at its start, where it is too long for a chart or for a line of a terminal: its last 50 characters.
pub fn shortened(name: &str) -> String {
    match name.char_indices().rev().nth(49) {
        Some((at, _)) if at > 0 => format!("…{}", &name[at..]),
        _ => name.to_string(),
    }
}

/// A file's five numbers.
pub fn counted(numbers: &Numbers) -> String {
    let Numbers { records, letters, foreign, edge, windows } = numbers;
    format!("records {records}, letters {letters}, foreign {foreign}, edge {edge}, windows {windows}")
}

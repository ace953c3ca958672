//! The call that loads a listing, as a safe function that lends copies between guards, and its comparison
//! with the second loader: the answer and every place of the table.

use crate::c_calls::kmer_load;
use crate::expected::Refusal;
use crate::lent::{check_places, Lent};
use crate::second_loader::loading;
use crate::settings::{shown_file, Settings};
use crate::tables::{listed, Table};

/// The lines of document 01's example, with the number of classes: a listing under ACGT, complement, k 2.
pub const EXAMPLE: [&[u8]; 6] = [
    b"(survey (letters ACGT) (k 2) (mirror complement) (classes 10))\n",
    b"(count CG 1)\n",
    b"(count GC 1)\n",
    b"(count AG 2)\n",
    b"(count AC 2)\n",
    b"(total 6)\n",
];

/// Where these lines begin, and the text's length.
pub const OFFSETS: [u64; 7] = [0, 63, 76, 89, 102, 115, 125];

/// Loads a listing into a table: the answer of kmer_load.
pub fn load(settings: &Settings, table: &mut Table, text: &[u8]) -> u64 {
    let mut letters = Lent::new(&settings.letters);
    let mut lent = Lent::new(text);
    let (k, mirror, places) = (settings.k, settings.mirror, table.len());
    // SAFETY: each pointer is NULL with length 0 or points to as many places as the length says; the table is
    // an allocation of its own.
    let answer = unsafe {
        let (to, from) = (table.pointer(), lent.pointer());
        kmer_load(letters.pointer(), letters.len(), k, mirror, to, places, from, text.len())
    };
    letters.check_unchanged(settings, "letters", &settings.letters);
    lent.check_unchanged(settings, "text", text);
    table.check_guards(settings, "table");
    answer
}

/// What is loaded, as failures name it.
fn named(settings: &Settings, places: usize, text: &[u8]) -> String {
    format!("{settings}: kmer_load into {places} places of {}", shown_file(text))
}

/// Loads a listing and compares the answer, the number of classes, and every place with these counts, one a
/// class; later places and all of a refused call's keep what they held.
pub fn check_load_as(
    settings: &Settings,
    table: &mut Table,
    text: &[u8],
    expected: &Result<Vec<u32>, Refusal>,
) {
    let what = named(settings, table.len(), text);
    let mut right = table.slice().to_vec();
    if let Ok(counts) = expected {
        right[..counts.len()].copy_from_slice(counts);
    }
    let answer = load(settings, table, text);
    let due = expected.as_ref().map_or_else(Refusal::packed, |counts| counts.len() as u64);
    assert!(answer == due, "{what} is {answer:#x}, expected {due:#x} ({:?})", expected.as_ref().err());
    check_places(&what, table.slice(), &right);
}

/// Loads a listing beside the second loader. "Loading and then writing gives the same bytes": a table that
/// was loaded has just the text for its listing. Gives the second loader's answer.
pub fn check_load(settings: &Settings, table: &mut Table, text: &[u8]) -> Result<Vec<u32>, Refusal> {
    let expected = loading(settings, table.len(), text);
    check_load_as(settings, table, text, &expected);
    if expected.is_ok() {
        check_written(settings, table.slice(), text);
    }
    expected
}

/// kmer_listing writes just this text for the table.
pub fn check_written(settings: &Settings, table: &[u32], text: &[u8]) {
    let (answer, written) = listed(settings, table, text.len());
    let same = answer == text.len() as u64 && written == text;
    let what = || named(settings, table.len(), text);
    assert!(same, "{}: written again it is {answer:#x}, {}", what(), shown_file(&written));
}

/// A table of so many filled places, be they enough or too few, into which the text is loaded as `check_load`
/// does. Gives the number of the ground, 0 where there is none, with P.
pub fn check_fresh_load(settings: &Settings, places: usize, text: &[u8]) -> (u64, u64) {
    match check_load(settings, &mut Table::filled(places), text) {
        Ok(_) => (0, 0),
        Err(Refusal { number, p }) => (number, p),
    }
}

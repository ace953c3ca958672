//! One call of the library and nothing else that takes time, for a count of its instructions: what a test load of
//! twice the letters takes more, by the letters more, is what a letter takes.

use crate::{drawn, test_load};
use wontirje::{codes_two_bit, Kind, Settings};

/// The calls, by the name that asks for them.
const CALLS: [(&str, fn(&Settings, usize)); 4] =
    [("add", add), ("two-bit", two_bit), ("general", general), ("listing", listing)];

fn add(settings: &Settings, letters: usize) {
    let mut table = vec![0; settings.table_places().expect("settings of a table")];
    let file = test_load(settings, 1, letters);
    settings.add(&mut table, Kind::Fasta, &file).expect("a file without damage");
}

fn two_bit(settings: &Settings, letters: usize) {
    codes_two_bit(settings.k, &drawn(b"ACGT", letters), &mut vec![0; letters]).expect("room for all codes");
}

fn general(settings: &Settings, letters: usize) {
    settings.codes(&drawn(b"ACGT", letters), &mut vec![0; letters]).expect("room for all codes");
}

/// The listing of a table whose first classes, so many as letters are asked for, have a count. Its length is asked first,
/// which goes over the table too.
fn listing(settings: &Settings, letters: usize) {
    let mut table = vec![0; settings.table_places().expect("settings of a table")];
    table[..letters].fill(1);
    let length = settings.listing(&table, &mut []).expect_err("no room").place as usize;
    settings.listing(&table, &mut vec![0; length]).expect("room for the listing");
}

/// `once CALL K LETTERS`: runs the call, for DNA under complement.
pub fn run(arguments: &[String]) {
    let [call, k, letters] = arguments else { panic!("once CALL K LETTERS") };
    let (_, run) = CALLS.iter().find(|(name, _)| name == call).expect("add, two-bit, general or listing");
    run(&Settings::dna(k.parse().expect("a k")), letters.parse().expect("a number of letters"));
}

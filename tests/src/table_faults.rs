//! Checks of table calls that are refused: one call with its answer written out, ground 12 at each place, and all
//! combinations of good and bad arguments; and ground 18.

use crate::book::{class_count, Book, TOP};
use crate::draw::Random;
use crate::expected::Refusal;
use crate::lent::{check_places, Lent};
use crate::sequences::two_bit_settings;
use crate::settings::{good_and_bad_settings, shown_file, Settings, COMPLEMENT, REVERSAL};
use crate::tables::{answered, check_add, check_call, check_clear, check_file, table_with, Call, Table};

/// Ground 18, with P 0, "unless stated".
pub const LACKING: Refusal = Refusal { number: 18, p: 0 };

/// A call that is refused: letters, k, mirror, places, first place's count, file, room; number and P.
pub type Faulty<'a> = (&'a [u8], usize, u64, usize, u32, &'a [u8], usize, (u64, u64));

/// Makes a refused call, which answers as written out and changes no place of the table or of the list.
pub fn check_refused(
    call: Call,
    fastq: u64,
    (letters, k, mirror, places, first, file, room, (number, p)): Faulty,
) {
    let settings = Settings::new(letters, k, mirror);
    let mut table = Table::filled(places);
    table.slice_mut().iter_mut().take(1).for_each(|place| *place = first);
    check_refusal(call, &settings, &mut table, (fastq, file), room, Refusal { number, p });
}

/// Makes a call with a file of a kind on a table, which answers this refusal and changes no place of the table or of
/// the list.
pub fn check_refusal(
    call: Call,
    settings: &Settings,
    table: &mut Table,
    (fastq, file): (u64, &[u8]),
    room: usize,
    refusal: Refusal,
) {
    let before = table.slice().to_vec();
    let mut list = Lent::filled(room);
    let answer = answered(call, settings, table, fastq, file, &mut list);
    let what = || {
        let places = before.len();
        format!("{settings}: {call:?} on {places} places, file {}, room {room}", shown_file(file))
    };
    assert_eq!(answer, refusal.packed(), "{}: {refusal:?}", what());
    check_places(&what(), table.slice(), &before);
    check_places(&what(), list.slice(), Lent::filled(room).slice());
}

/// Ground 12: each place in turn, whether the file touches it or not, at the edge and above it.
pub fn check_full_places(seed: u64, fastq: u64, file_of: impl Fn(&mut Random, &Settings) -> Vec<u8>) {
    let mut random = Random::new(seed);
    let zebra = [REVERSAL, COMPLEMENT].map(|mirror| Settings::new(b"ZEBRA", 3, mirror));
    for settings in [two_bit_settings(3), two_bit_settings(4)].into_iter().chain(zebra) {
        let file = file_of(&mut random, &settings);
        let windows = check_file(&settings, fastq, &file).expect("a file without damage")[4];
        for place in 0..class_count(&settings) as usize {
            for (count, fits) in [(TOP - windows, true), (TOP - windows + 1, false), (TOP, false)] {
                let (mut book, mut table) = table_with(&settings, place, count);
                let answer = check_add(&mut book, &mut table, fastq, &file, 5).err();
                let right = (!fits).then_some(Refusal { number: 12, p: 0 });
                assert_eq!(answer, right, "{settings}: {place}");
            }
        }
    }
}

/// Makes some calls in a row, from a cleared table, with one file, as each kind that is named, under good and bad
/// settings, with tables and lists that are long enough or not, each beside the book.
pub fn check_combinations(calls: &[Call], kinds: &[u64], files: &[&[u8]], sizes: &[usize], rooms: &[usize]) {
    for settings in good_and_bad_settings() {
        for &places in sizes {
            let mut table = Table::filled(places);
            check_clear(&settings, &mut table);
            for (file, room) in files.iter().flat_map(|file| rooms.iter().map(move |room| (file, *room))) {
                for &fastq in kinds {
                    let mut book = Book::new(&settings);
                    for &call in calls {
                        // The comparison with the book is within.
                        let _ = check_call(call, &mut book, &mut table, fastq, file, room);
                    }
                    check_clear(&settings, &mut table);
                }
            }
        }
    }
}

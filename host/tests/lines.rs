//! The listing written line by line is byte for byte the one that the library writes whole: tables of every
//! size, drawn counts, files added, the largest tables; and what cannot be written comes as an error.

mod run;

use kmer_tests::book::class_count;
use kmer_tests::draw::*;
use kmer_tests::draw_inputs::Inputs;
use kmer_tests::files::Kind;
use kmer_tests::second_counter::first_line;
use kmer_tests::settings::*;
use kmer_tests::tables::{drawn_table, sizes_up_to};
use run::{lent, lent_kind, whole_listing};
use std::io::{self, ErrorKind, Write};
use wontirje::Refusal;

/// Gives the length of the listing.
fn check(settings: &wontirje::Settings, table: &[u32]) -> usize {
    let mut lines = Vec::new();
    let total = settings.write_listing(table, &mut lines).expect("a listing");
    let whole = whole_listing(settings, table);
    assert!(lines == whole, "{settings:?}: the listings differ");
    let sum: u64 =
        table[..settings.table_places().expect("a table")].iter().map(|&count| u64::from(count)).sum();
    assert_eq!(total, sum, "{settings:?}");
    lines.len()
}

/// Tables with few and with many counts above 0, small and large ones; the places after the classes hold
/// counts that are not listed.
#[test]
fn drawn_tables_of_every_size() {
    let mut random = Random::new(111);
    let (mut tables, mut bytes) = (0, 0);
    for (s, mirror, k) in sizes_up_to(40_000) {
        let settings = Settings::new(&drawn_capitals(&mut random, s), k, mirror);
        for sparse in [1, 2, 50, 5000] {
            bytes += check(&lent(&settings), &drawn_table(&mut random, &settings, sparse));
            tables += 1;
        }
    }
    assert!(tables > 500 && bytes > 20_000_000, "{tables} tables, {bytes} bytes");
}

/// The survey line "gains a last inner form" (document 02, K6), the number of classes.
#[test]
fn survey_lines_of_every_size() {
    for (s, mirror, k) in sizes_up_to(40_000) {
        let settings = Settings::new(&first_capitals(s), k, mirror);
        let (classes, name) = (class_count(&settings), lent(&settings).mirror.name());
        let table = vec![0; classes as usize];
        check(&lent(&settings), &table);
        let letters = str::from_utf8(&settings.letters).expect("capitals");
        let survey = format!("(survey (letters {letters}) (k {k}) (mirror {name}) (classes {classes}))\n");
        let whole = whole_listing(&lent(&settings), &table);
        assert_eq!(str::from_utf8(&whole), Ok(&format!("{survey}(total 0)\n")[..]));
    }
}

#[test]
fn tables_that_files_were_added_to() {
    for kind in [Kind::Fasta, Kind::Fastq] {
        let mut inputs = Inputs::new(112, kind);
        for _ in 0..250 {
            let (settings, input) = inputs.good(500);
            let mut table = vec![0; class_count(&settings) as usize];
            let file = first_line(&input).1;
            lent(&settings).add(&mut table, lent_kind(kind), file).expect("a good file");
            check(&lent(&settings), &table);
        }
    }
}

/// All classes of a table have a count of all lengths in turn; the largest table there is, nearly empty.
#[test]
fn large_tables() {
    let dna = wontirje::Settings::dna(11);
    let places = dna.table_places().expect("a table");
    let table: Vec<u32> = (0..places as u32).map(|place| u32::MAX >> (place % 32)).collect();
    assert!(check(&dna, &table) > 50_000_000);
    let largest = wontirje::Settings { letters: b"AB", k: 25, mirror: wontirje::Mirror::Complement };
    let mut table = vec![0; 16_777_216];
    table[0] = 1;
    table[16_777_215] = u32::MAX;
    check(&largest, &table);
}

/// What the library refuses is refused with the same number and place, and nothing is written.
#[test]
fn refusals_come_before_the_first_byte() {
    let cases: [(&[u8], usize, usize); 6] = [
        (b"ACgT", 2, 10),
        (b"ACG", 2, 5),
        (b"ACGT", 0, 10),
        (b"ACGT", 13, 10),
        (b"ACGT", 2, 9),
        (b"ACGT", 32, 0),
    ];
    for (letters, k, places) in cases {
        let settings = wontirje::Settings { letters, k, mirror: wontirje::Mirror::Complement };
        let table = vec![1; places];
        let mut lines = Vec::new();
        let error = settings.write_listing(&table, &mut lines).expect_err("a refusal");
        let found = error.get_ref().and_then(|inner| inner.downcast_ref::<Refusal>()).copied();
        assert_eq!((found, lines.len()), (settings.listing(&table, &mut []).err(), 0), "{settings:?}");
    }
}

/// Takes so many bytes and then no more.
struct Narrow(usize);

impl Write for Narrow {
    fn write(&mut self, bytes: &[u8]) -> io::Result<usize> {
        if self.0 == 0 {
            return Err(ErrorKind::StorageFull.into());
        }
        let taken = bytes.len().min(self.0);
        self.0 -= taken;
        Ok(taken)
    }

    fn flush(&mut self) -> io::Result<()> {
        Ok(())
    }
}

#[test]
fn an_error_at_any_byte_is_handed_on() {
    let settings = wontirje::Settings::dna(2);
    let table = [0, 1, 1, 0, 2, 2, 0, 0, 0, 0];
    let length = check(&settings, &table);
    for room in 0..length {
        let error = settings.write_listing(&table, &mut Narrow(room)).expect_err("no room");
        assert_eq!(error.kind(), ErrorKind::StorageFull, "{room} bytes");
    }
    assert!(settings.write_listing(&table, &mut Narrow(length)).is_ok());
}

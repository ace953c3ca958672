//! Loading a listing into a count table, in nanoseconds a byte of the listing, beside writing the same
//! listing.

use crate::adding::{drawn_file, LETTERS, RUNS};
use crate::median;
use std::hint::black_box;
use std::time::Instant;
use wontirje::{Kind, Mirror, Settings};

/// A table to which a file was added.
fn counted(settings: &Settings, file: &[u8]) -> Vec<u32> {
    let mut table = vec![0; settings.table_places().expect("settings of a table")];
    settings.add(&mut table, Kind::Fasta, file).expect("a file without damage");
    table
}

/// Writes the listing of a table, and loads it into another table, in turns; the counts must come back.
/// Prints the medians and the ratio.
fn print_loading(what: &str, settings: Settings, table: &[u32]) {
    let settings = black_box(settings);
    let length = settings.listing(table, &mut []).expect_err("no room").place as usize;
    let mut text = vec![0; length];
    let mut loaded = vec![0; table.len()];
    let mut times = [Vec::new(), Vec::new()];
    for _ in 0..RUNS {
        let start = Instant::now();
        settings.listing(table, &mut text).expect("room for the listing");
        times[0].push(start.elapsed().as_nanos() as f64 / length as f64);
        loaded.fill(u32::MAX);
        let start = Instant::now();
        settings.load(&mut loaded, &text).expect("the listing of a table");
        times[1].push(start.elapsed().as_nanos() as f64 / length as f64);
        assert!(loaded == table, "the counts do not come back");
    }
    let [writing, loading] = times.map(median);
    let ratio = loading / writing;
    println!("{what} {loading:.2}, writing {writing:.2}, ratio {ratio:.2} (at most 3), {length} bytes");
}

pub fn print() {
    println!("ns a byte of a listing, median of {RUNS} runs, files of {LETTERS} random letters");
    let dna = drawn_file(b"ACGT", b'N');
    for k in [12, 8] {
        let settings = Settings::dna(k);
        print_loading(&format!("loading, ACGT complement k {k}:"), settings, &counted(&settings, &dna));
    }
    let letters = b"ACDEFGHIKL";
    let groups = Settings { letters, k: 6, mirror: Mirror::Reversal };
    let table = counted(&groups, &drawn_file(letters, b'X'));
    print_loading("loading, 10 letters reversal k 6:", groups, &table);
    // All classes with the longest counts, and long words.
    let dna = Settings::dna(11);
    let full = vec![u32::MAX; dna.table_places().expect("a table")];
    print_loading("loading, ACGT complement k 11, full counts:", dna, &full);
    let long = Settings { letters: b"AB", k: 23, mirror: Mirror::Complement };
    let table = counted(&long, &drawn_file(b"AB", b'X'));
    print_loading("loading, 2 letters complement k 23:", long, &table);
}

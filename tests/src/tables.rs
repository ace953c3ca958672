//! The table calls as safe functions that lend copies between guards, the comparison of clearing, adding and
//! withdrawing with the tally book, and what the tests of tables begin with: sizes, lengths, cleared, full and
//! drawn tables, files of one record, a file of all classes.

use crate::book::{class_count, table_ground, Book, Numbers};
use crate::c_calls::{kmer_add, kmer_clear, kmer_listing, kmer_withdraw};
use crate::draw::{first_capitals, spelled, Random};
use crate::draw_files::{drawn_letters, foreign_letters};
use crate::expected::{coder, Refusal};
use crate::files::{as_fasta, Kind};
use crate::lent::{check_places, filled, Lent};
use crate::settings::{good_sizes, shown_file, Settings, COMPLEMENT, REVERSAL};

/// The library works in batches of this many letters, so that lengths about its multiples are tried.
pub const BATCH: usize = 1024;

/// A table is lent to one call after the other, as the call before left it.
pub type Table = Lent<u32>;

/// Clears a table: the answer of kmer_clear.
pub fn clear(settings: &Settings, table: &mut Table) -> u64 {
    let mut letters = Lent::new(&settings.letters);
    let (k, mirror, room) = (settings.k, settings.mirror, table.len());
    // SAFETY: each pointer is NULL with length 0 or points to as many places as the length says; the table is
    // an allocation of its own.
    let answer = unsafe { kmer_clear(letters.pointer(), letters.len(), k, mirror, table.pointer(), room) };
    letters.check_unchanged(settings, "letters", &settings.letters);
    table.check_guards(settings, "table");
    answer
}

/// The calls on a table and a file.
#[derive(Clone, Copy, Debug, PartialEq)]
pub enum Call {
    Add,
    Withdraw,
}

/// Adds a file to a table: the answer of kmer_add. `fastq` is the number that names the kind of file.
pub fn add(settings: &Settings, table: &mut Table, fastq: u64, file: &[u8], numbers: &mut Lent<u64>) -> u64 {
    answered(Call::Add, settings, table, fastq, file, numbers)
}

/// Withdraws a file from a table: the answer of kmer_withdraw.
pub fn withdraw(
    settings: &Settings,
    table: &mut Table,
    fastq: u64,
    file: &[u8],
    numbers: &mut Lent<u64>,
) -> u64 {
    answered(Call::Withdraw, settings, table, fastq, file, numbers)
}

/// The answer of either call.
pub fn answered(
    call: Call,
    settings: &Settings,
    table: &mut Table,
    fastq: u64,
    file: &[u8],
    numbers: &mut Lent<u64>,
) -> u64 {
    let function = match call {
        Call::Add => kmer_add,
        Call::Withdraw => kmer_withdraw,
    };
    let mut letters = Lent::new(&settings.letters);
    let mut lent = Lent::new(file);
    let (k, mirror, places, room) = (settings.k, settings.mirror, table.len(), numbers.len());
    // SAFETY: as in `clear`; the list of numbers is an allocation of its own too.
    let answer = unsafe {
        let (to, from, list) = (table.pointer(), lent.pointer(), numbers.pointer());
        function(letters.pointer(), letters.len(), k, mirror, to, places, fastq, from, file.len(), list, room)
    };
    letters.check_unchanged(settings, "letters", &settings.letters);
    lent.check_unchanged(settings, "file", file);
    table.check_guards(settings, "table");
    numbers.check_guards(settings, "answer list");
    answer
}

/// Lists a table into a filled buffer of `room` bytes: the answer of kmer_listing and the buffer after it.
pub fn listed(settings: &Settings, table: &[u32], room: usize) -> (u64, Vec<u8>) {
    listed_into(settings, table, &filled(room))
}

/// Lists a table into a buffer that holds these bytes before the call, likewise. The table is only read.
pub fn listed_into(settings: &Settings, table: &[u32], before: &[u8]) -> (u64, Vec<u8>) {
    let mut letters = Lent::new(&settings.letters);
    let mut lent = Lent::new(table);
    let mut text = Lent::new(before);
    // SAFETY: each pointer is NULL with length 0 or points to as many places as the length says; the text is
    // an allocation of its own.
    let answer = unsafe {
        let (k, mirror, from, to) = (settings.k, settings.mirror, lent.pointer(), text.pointer());
        kmer_listing(letters.pointer(), letters.len(), k, mirror, from, table.len(), to, before.len())
    };
    letters.check_unchanged(settings, "letters", &settings.letters);
    lent.check_guards(settings, "table");
    check_places(&format!("{settings}: kmer_listing"), lent.slice(), table);
    text.check_guards(settings, "text");
    (answer, text.slice().to_vec())
}

/// Clears a table and compares the answer and every place; later places and those of a refused call keep
/// what they held.
pub fn check_clear(settings: &Settings, table: &mut Table) {
    let what = format!("{settings}: kmer_clear of {} places", table.len());
    let expected = table_ground(settings, false, table.len());
    let mut right = table.slice().to_vec();
    if let Ok(classes) = expected {
        right[..classes].fill(0);
    }
    let answer = clear(settings, table);
    let due = expected.map_or_else(|refusal| refusal.packed(), |classes| classes as u64);
    assert!(answer == due, "{what} is {answer}, expected {due}");
    check_places(&what, table.slice(), &right);
}

/// Adds a file to the table and to the book, and compares as `check_call` does.
pub fn check_add(
    book: &mut Book,
    table: &mut Table,
    fastq: u64,
    file: &[u8],
    room: usize,
) -> Result<Numbers, Refusal> {
    check_call(Call::Add, book, table, fastq, file, room)
}

/// Withdraws a file from the table and from the book, and compares as `check_call` does.
pub fn check_withdraw(
    book: &mut Book,
    table: &mut Table,
    fastq: u64,
    file: &[u8],
    room: usize,
) -> Result<Numbers, Refusal> {
    check_call(Call::Withdraw, book, table, fastq, file, room)
}

/// Makes a call with the table and with the book, and compares the answer, the five numbers, every count and
/// every later place; a refused call leaves table and answer list as they were. Gives the book's answer.
pub fn check_call(
    call: Call,
    book: &mut Book,
    table: &mut Table,
    fastq: u64,
    file: &[u8],
    room: usize,
) -> Result<Numbers, Refusal> {
    let (settings, places, kind) = (book.settings.clone(), table.len(), Kind::named(fastq));
    let what = format!(
        "{settings}: {call:?} on {places} places, room {room}, fastq {fastq}, file {}",
        shown_file(file)
    );
    let expected = match call {
        Call::Add => book.add(places, kind, file, room),
        Call::Withdraw => book.withdraw(places, kind, file, room),
    };
    let mut right = table.slice().to_vec();
    let mut list = Lent::<u64>::filled(room);
    let mut right_list = list.slice().to_vec();
    if let Ok(numbers) = expected {
        book.write_counts(&mut right);
        right_list[..5].copy_from_slice(&numbers);
    }
    let answer = answered(call, &settings, table, fastq, file, &mut list);
    let due = expected.map_or_else(|refusal| refusal.packed(), |_| 5);
    assert!(answer == due, "{what} is {answer:#x}, expected {due:#x} ({expected:?})");
    check_places(&format!("{what}: the answer list"), list.slice(), &right_list);
    check_places(&what, table.slice(), &right);
    expected
}

/// Demand 3: sum of the counts = letters - foreign - edge, over the files taken in, less the same over those
/// withdrawn.
pub fn check_sum(book: &Book, table: &Table) {
    let classes = class_count(&book.settings) as usize;
    let sum: u64 = table.slice()[..classes].iter().map(|&count| count as u64).sum();
    let over = |[_, letters, foreign, edge, _]: Numbers| letters - foreign - edge;
    assert_eq!(sum, over(book.taken) - over(book.withdrawn), "{}: sum of the counts", book.settings);
}

/// Settings with small tables, for the tests that go over many files.
pub fn some_settings() -> Vec<Settings> {
    let sizes = [(b"ACGT", 1, 1), (b"ACGT", 2, 1), (b"ACGT", 5, 1), (b"ACGT", 8, 1), (b"TGAC", 4, 0)];
    let mut all: Vec<Settings> = sizes.iter().map(|&(l, k, mirror)| Settings::new(l, k, mirror)).collect();
    all.push(Settings::new(b"XY", 13, REVERSAL));
    all.push(Settings::new(b"PQR", 6, REVERSAL));
    all.push(Settings::new(b"ZYXWVUTSRQ", 3, COMPLEMENT));
    all.push(Settings::new(b"ACXGT", 3, COMPLEMENT));
    all
}

/// Lengths about the ends of the first batches, whether a batch has BATCH letters or BATCH windows.
pub fn lengths_about_batches(k: usize) -> Vec<usize> {
    let mut lengths = Vec::new();
    for batches in 1..=3 {
        for base in [batches * BATCH, batches * (BATCH - k + 1) + k - 1] {
            lengths.extend([base - k, base - 1, base, base + 1, base + k - 1, base + k, base + k + 1]);
        }
    }
    lengths.sort();
    lengths.dedup();
    lengths
}

/// Runs of lengths about the library's batches: `check` gets each with a table of its settings, with another run
/// of nearly a batch, and both with a foreign letter between them. The table's sum is checked at the end.
pub fn check_about_batches(seed: u64, check: impl Fn(&mut Random, &mut Book, &mut Table, [&[u8]; 3])) {
    let mut random = Random::new(seed);
    for settings in some_settings() {
        let foreign = foreign_letters(&settings.letters)[0];
        let (mut book, mut table) = cleared(&settings, 2);
        for length in lengths_about_batches(settings.k) {
            let run = drawn_letters(&mut random, &settings, length, 0);
            let other = drawn_letters(&mut random, &settings, BATCH - 1, 0);
            let two = [&run[..], &other].join(&foreign);
            check(&mut random, &mut book, &mut table, [&run, &other, &two]);
        }
        check_sum(&book, &table);
    }
}

/// The sizes whose tables have at most so many places.
pub fn sizes_up_to(classes: u128) -> Vec<(usize, u64, usize)> {
    let small = |&(s, mirror, k): &(usize, u64, usize)| {
        class_count(&Settings::new(&first_capitals(s), k, mirror)) <= classes
    };
    good_sizes().into_iter().filter(small).collect()
}

/// A cleared table with some places more than needed, and its book.
pub fn cleared(settings: &Settings, more: usize) -> (Book, Table) {
    let mut table = Table::filled(class_count(settings) as usize + more);
    check_clear(settings, &mut table);
    (Book::new(settings), table)
}

/// Sets all classes' places to 0, and one of them to a count; later places hold the most there is.
pub fn table_with(settings: &Settings, place: usize, count: u64) -> (Book, Table) {
    let mut counts = vec![0; class_count(settings) as usize];
    counts[place] = count as u32;
    table_of(settings, &counts, u32::MAX)
}

/// A table with these counts, one a class, and with some later places that all hold the same; and its book.
pub fn table_of(settings: &Settings, counts: &[u32], later: u32) -> (Book, Table) {
    (Book::starting(settings, counts), Table::new(&[counts, &[later; 4]].concat()))
}

/// A table with up to two places more than needed. About one place of `sparse` has a count, small or large.
pub fn drawn_table(random: &mut Random, settings: &Settings, sparse: u64) -> Vec<u32> {
    let places = class_count(settings) as usize + random.below(3) as usize;
    let count = |random: &mut Random| match random.below(sparse) {
        0 => random.draw() as u32 >> random.below(32),
        _ => 0,
    };
    (0..places).map(|_| count(random)).collect()
}

/// Adds one file to a cleared table beside the book, and gives the answer to that. Withdrawn before, it is refused 18
/// if it has a window; withdrawn after, it is answered as the add was, and the table is as it was cleared.
pub fn check_file(settings: &Settings, fastq: u64, file: &[u8]) -> Result<Numbers, Refusal> {
    let (mut book, mut table) = cleared(settings, 3);
    let before = table.slice().to_vec();
    let early = check_withdraw(&mut book, &mut table, fastq, file, 5);
    let answer = check_add(&mut book, &mut table, fastq, file, 5);
    let lacking = answer.is_ok_and(|numbers| numbers[4] > 0);
    let what = || format!("{settings}: fastq {fastq}, file {}", shown_file(file));
    assert_eq!(early, if lacking { refused(18, 0) } else { answer }, "{}", what());
    assert_eq!(check_withdraw(&mut book, &mut table, fastq, file, 5), answer, "{}", what());
    assert!(table.slice() == before, "{}: the table is not given back", what());
    answer
}

/// A file of one record.
pub fn record(sequence: &[u8]) -> Vec<u8> {
    [b">r\n", sequence].concat()
}

/// A FASTA file that has each class of code c in c % 5 + 1 windows, spelled as the canonical word and as its mirror by
/// turns. Each is a record of its own, so that no reader is needed to know the windows.
pub fn file_of_all_classes(settings: &Settings) -> Vec<u8> {
    let coder = coder(settings);
    let mut records = Vec::new();
    for code in 0..coder.classes() {
        let word = coder.word(code).expect("a code below the number of classes");
        for time in 0..=code % 5 {
            let turned = if time % 2 == 0 { coder.mirror(&word) } else { word.clone() };
            records.push(spelled(&settings.letters, &turned));
        }
    }
    as_fasta(&records)
}

/// What the book answers to a refused call.
pub fn refused(number: u64, p: u64) -> Result<Numbers, Refusal> {
    Err(Refusal { number, p })
}

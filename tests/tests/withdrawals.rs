//! Withdrawing sequence files from a table (document 02, K4), beside the tally book: files that were added, in the
//! same bytes and in others with the same windows; files that were never added, how adding them undoes that, and
//! files without windows; every class at its place; runs and cuts about the library's batches; the stored answers.
//! Lists of calls are in withdrawal_lists.rs, refusals in withdrawal_refusals.rs, the longest files and the largest
//! tables in withdrawal_limits.rs.

use kmer_tests::book::*;
use kmer_tests::draw::*;
use kmer_tests::draw_fastq::*;
use kmer_tests::draw_files::*;
use kmer_tests::files::{as_fasta, Kind, FASTA, FASTQ};
use kmer_tests::lent::*;
use kmer_tests::sequences::two_bit_settings;
use kmer_tests::settings::*;
use kmer_tests::table_faults::LACKING;
use kmer_tests::table_vectors::*;
use kmer_tests::tables::*;
use std::collections::BTreeMap;

/// Adds a file and withdraws another with the same windows, records and letters, which gives the table back with the
/// same numbers.
fn check_given_back(book: &mut Book, table: &mut Table, added: &(u64, Vec<u8>), withdrawn: &(u64, Vec<u8>)) {
    let before = table.slice().to_vec();
    let answer = check_add(book, table, added.0, &added.1, 5);
    assert!(answer.is_ok(), "{answer:?}: {}", shown_file(&added.1));
    assert_eq!(check_withdraw(book, table, withdrawn.0, &withdrawn.1, 5), answer, "{}", book.settings);
    check_places(&format!("{}: {}", book.settings, shown_file(&withdrawn.1)), table.slice(), &before);
}

/// "Adding a file that is taken in and withdrawing it next gives the table back", from any table.
#[test]
fn a_file_added_and_withdrawn_next_gives_the_table_back() {
    let mut random = Random::new(181);
    let mut given_back = [0; 2];
    for (s, mirror, k) in sizes_up_to(20_000) {
        let settings = Settings::new(&drawn_capitals(&mut random, s), k, mirror);
        let places = drawn_table(&mut random, &settings, 6);
        let mut book = Book::starting(&settings, &places[..class_count(&settings) as usize]);
        let mut table = Table::new(&places);
        for _ in 0..8 {
            let given = whole_file(&mut random, &settings, 300);
            check_given_back(&mut book, &mut table, &given, &given);
            given_back[(given.0 != FASTA) as usize] += 1;
        }
    }
    assert!(given_back.iter().all(|&count| count > 300), "{given_back:?}");
}

/// Withdraws a file that was never added from a table with these counts, which allow it, and adds it next: the numbers
/// are the same and every place is as before; or the add is refused 12, and every place is as the withdrawal left it.
fn check_undone(settings: &Settings, (fastq, file): &(u64, Vec<u8>), counts: &[u32], fits: bool) {
    let (mut book, mut table) = table_of(settings, counts, 9);
    let before = table.slice().to_vec();
    let what = format!("{settings}: {}", shown_file(file));
    let answer = check_withdraw(&mut book, &mut table, *fastq, file, 5);
    assert!(answer.is_ok(), "{what}: {answer:?}");
    let between = table.slice().to_vec();
    let (right, places) = if fits { (answer, before) } else { (refused(12, 0), between) };
    assert_eq!(check_add(&mut book, &mut table, *fastq, file, 5), right, "{what}");
    check_places(&what, table.slice(), &places);
}

/// Adding a file takes its withdrawal back, unless ground 12 refuses the add: where some count, less its class's
/// windows in the file, has no room for all the file's windows. That count is tried at the edge and one above it.
#[test]
fn a_file_withdrawn_and_added_next_gives_the_table_back() {
    let mut random = Random::new(197);
    let mut full = 0;
    for (s, mirror, k) in sizes_up_to(2500) {
        let settings = Settings::new(&drawn_capitals(&mut random, s), k, mirror);
        for _ in 0..4 {
            let given = whole_file(&mut random, &settings, 300);
            let windows = windows_by_place(&settings, Kind::named(given.0), &given.1);
            let mut counts: Vec<u32> = windows.iter().map(|count| count + random.below(3) as u32).collect();
            check_undone(&settings, &given, &counts, true);
            let (all, place) = (windows.iter().sum::<u32>(), random.below(windows.len() as u64) as usize);
            counts[place] = u32::MAX - all + windows[place];
            check_undone(&settings, &given, &counts, true);
            if windows[place] < all {
                counts[place] += 1;
                check_undone(&settings, &given, &counts, false);
                full += 1;
            }
        }
    }
    assert!(full > 100, "{full} adds refused 12");
}

/// A sequence whose windows are the mirrors of another's: its letters in reverse order, under complement each rank r
/// now s - 1 - r. Foreign letters stay.
fn mirrored(settings: &Settings, sequence: &[u8]) -> Vec<u8> {
    let letters = &settings.letters;
    let turned = |&byte: &u8| match rank(letters, byte) {
        Some(rank) if settings.mirror == COMPLEMENT => letters[letters.len() - 1 - rank as usize],
        _ => byte,
    };
    sequence.iter().rev().map(turned).collect()
}

/// Files that have the same records, letters and windows: in one line and in lines of 7 letters, in capitals, as
/// FASTQ, with the records in reverse order, and mirrored, for a word and its mirror are one class.
fn with_the_same_windows(random: &mut Random, settings: &Settings, length: u64) -> [(u64, Vec<u8>); 7] {
    let sequences = drawn_sequences(random, settings, length);
    let each = |map: &dyn Fn(&Vec<u8>) -> Vec<u8>| sequences.iter().map(map).collect::<Vec<Vec<u8>>>();
    let wrapped = each(&|letters| letters.chunks(7).collect::<Vec<&[u8]>>().join(&b'\n'));
    let turned = each(&|letters| mirrored(settings, letters));
    let last_first: Vec<&Vec<u8>> = sequences.iter().rev().collect();
    [
        (FASTA, as_fasta(&sequences)),
        (FASTA, as_fasta(&wrapped)),
        (FASTA, as_fasta(&each(&|letters| letters.to_ascii_uppercase()))),
        (FASTA, as_fasta(&turned)),
        (FASTQ, drawn_fastq_of(random, &sequences)),
        (FASTQ, drawn_fastq_of(random, &turned)),
        (FASTQ, drawn_fastq_of(random, &last_first)),
    ]
}

/// Only the windows count: a file takes out another that has the same ones, of its kind or of the other.
#[test]
fn files_with_the_same_windows_take_each_other_out() {
    let mut random = Random::new(182);
    for (s, mirror, k) in sizes_up_to(20_000) {
        let settings = Settings::new(&drawn_capitals(&mut random, s), k, mirror);
        let (mut book, mut table) = cleared(&settings, 2);
        let (fastq, file) = whole_file(&mut random, &settings, 300);
        check_add(&mut book, &mut table, fastq, &file, 5).expect("a file that stays");
        let files = with_the_same_windows(&mut random, &settings, 300);
        for place in 0..files.len() {
            let other = (place + 1 + random.below(6) as usize) % files.len();
            check_given_back(&mut book, &mut table, &files[place], &files[other]);
        }
        check_sum(&book, &table);
    }
}

/// "A file that was never added may be withdrawn if the counts allow it": a run that is cut in two, the second part
/// from the cut on, the first with k - 1 letters more, leaves its windows to two files that were never added. Once
/// they are out they are not allowed again.
#[test]
fn two_parts_of_a_run_take_it_out() {
    let mut random = Random::new(183);
    for (s, mirror, k) in sizes_up_to(20_000) {
        let settings = Settings::new(&drawn_capitals(&mut random, s), k, mirror);
        let windows = 1 + random.below(500) as usize;
        let run = drawn_letters(&mut random, &settings, windows + k - 1, 0);
        let (mut book, mut table) = cleared(&settings, 1);
        check_add(&mut book, &mut table, FASTA, &record(&run), 5).expect("a file without damage");
        let cut = random.below(windows as u64 + 1) as usize;
        let first = (FASTA, record(&run[..cut + k - 1]), cut);
        let second = (FASTQ, drawn_fastq_of(&mut random, &[&run[cut..]]), windows - cut);
        for (fastq, file, count) in [&second, &first] {
            let answer = check_withdraw(&mut book, &mut table, *fastq, file, 5);
            assert_eq!(
                answer.map(|numbers| numbers[4]),
                Ok(*count as u64),
                "{settings}: {}",
                shown_file(file)
            );
        }
        assert!(
            table.slice()[..class_count(&settings) as usize].iter().all(|&count| count == 0),
            "{settings}"
        );
        for (fastq, file, count) in [first, second] {
            let refusal = check_withdraw(&mut book, &mut table, fastq, &file, 5).err();
            assert_eq!(refusal, (count > 0).then_some(LACKING), "{settings}");
        }
    }
}

/// Every class at its own place, with no reader and no book: counts that no file was added for.
#[test]
fn every_class_is_withdrawn_at_its_place() {
    for (s, mirror, k) in sizes_up_to(2500) {
        let settings = Settings::new(&drawn_capitals(&mut Random::new(184), s), k, mirror);
        let (file, classes) = (file_of_all_classes(&settings), class_count(&settings) as usize);
        let mut table = Table::filled(classes + 3);
        let mut right = table.slice().to_vec();
        for code in 0..classes {
            table.slice_mut()[code] = 7 * code as u32 + 5;
            right[code] = 7 * code as u32 + 4 - code as u32 % 5;
        }
        assert_eq!(withdraw(&settings, &mut table, FASTA, &file, &mut Lent::filled(5)), 5, "{settings}");
        assert_eq!(table.slice(), right, "{settings}");
    }
}

/// Whatever the counts are, 0 included: k 3, with the numbers written out.
#[test]
fn files_without_windows_are_withdrawn_from_any_table() {
    let files: [(u64, &[u8], Numbers); 11] = [
        (FASTA, b"", [0, 0, 0, 0, 0]),
        (FASTQ, b"", [0, 0, 0, 0, 0]),
        (FASTA, b"\n\r\n\n", [0, 0, 0, 0, 0]),
        (FASTA, b">", [1, 0, 0, 0, 0]),
        (FASTA, b">ACGT\n>\n", [2, 0, 0, 0, 0]),
        (FASTA, b">a\nAC\n>b\nGT", [2, 4, 0, 4, 0]),
        (FASTA, b">a\nACNGuxT\n", [1, 7, 2, 5, 0]),
        (FASTQ, b"@ACGT\n\n+ACGT\n\n", [1, 0, 0, 0, 0]),
        (FASTQ, b"@\nAC\n+\nII\n@\nG\n+\nI\n", [2, 3, 0, 3, 0]),
        (FASTQ, b"@\r\nACNGU\r\n+\r\n!!~~!", [1, 5, 1, 4, 0]),
        (FASTQ, b"@\nNNN\n+\nIII", [1, 3, 3, 0, 0]),
    ];
    for settings in [two_bit_settings(3), Settings::new(b"ACGT", 3, REVERSAL)] {
        let classes = class_count(&settings) as usize;
        for (count, (fastq, file, numbers)) in
            [0, 1, u32::MAX].into_iter().flat_map(|c| files.map(|f| (c, f)))
        {
            let (mut book, mut table) = table_of(&settings, &vec![count; classes], 0);
            let answer = check_withdraw(&mut book, &mut table, fastq, file, 6);
            assert_eq!(answer, Ok(numbers), "{settings}: counts {count}, {}", shown_file(file));
        }
    }
}

/// Several batches in a file, several records, and files of one kind withdrawn as the other.
#[test]
fn runs_about_a_batch() {
    check_about_batches(185, |random, book, table, [run, other, two]| {
        let lines: Vec<&[u8]> = run.chunks(64).collect();
        let wrapped = lines.join(&b"\r\n"[..]);
        for (added, withdrawn) in [([run, two], [&wrapped, two]), ([run, other], [other, run])] {
            let fasta = (FASTA, as_fasta(&added));
            let fastq = (FASTQ, drawn_fastq_of(random, &added));
            check_given_back(book, table, &fasta, &fastq);
            check_given_back(book, table, &fastq, &(FASTA, as_fasta(&withdrawn)));
        }
        check_add(book, table, FASTA, &record(two), 5).expect("a file that stays");
    });
}

/// What may stand at a batch's end: a foreign letter, a record's end, a line's end.
#[test]
fn cuts_at_every_place_about_a_batch() {
    let mut random = Random::new(186);
    for settings in some_settings() {
        let k = settings.k;
        let foreign = foreign_letters(&settings.letters)[1];
        let (mut book, mut table) = cleared(&settings, 2);
        let run = drawn_letters(&mut random, &settings, BATCH + 300, 0);
        for place in BATCH - k - 3..=BATCH + k + 3 {
            for cut in [&[foreign][..], b"\n>\n", b"\n", b"\n\r\n\n"] {
                let given = (FASTA, record(&[&run[..place], cut, &run[place..]].concat()));
                check_given_back(&mut book, &mut table, &given, &given);
            }
        }
    }
}

/// The stored answers against the book and the call; how many there are of each, 0 for an answer and else the number of
/// the ground.
#[test]
fn stored_withdrawals() {
    let mut outcomes = [BTreeMap::new(), BTreeMap::new()];
    for stored in stored("withdraw", [0, 0, 0, 0, 0, 140, 100]) {
        check_stored_call(Call::Withdraw, &stored);
        let number = stored.outcome.map_or_else(|refusal| refusal.number, |_| 0);
        let fastq = stored.fastq.expect("a sequence file");
        *outcomes[fastq as usize].entry(number).or_insert(0) += 1;
    }
    let fasta = [(0, 68), (1, 8), (2, 1), (6, 4), (7, 31), (10, 4), (18, 24)];
    let fastq =
        [(0, 28), (1, 5), (2, 2), (4, 1), (6, 1), (7, 28), (10, 2), (15, 18), (16, 4), (17, 1), (18, 10)];
    assert_eq!(outcomes, [BTreeMap::from(fasta), BTreeMap::from(fastq)]);
}

//! The safe wrappers beside the references of tests/: what each call answers and leaves in the lent slices,
//! and every refusal with its number and place.

mod run;

use kmer_tests::book::{class_count, table_ground, Book};
use kmer_tests::draw::*;
use kmer_tests::draw_files::drawn_sequence;
use kmer_tests::expected::{self, coding, mirroring, reading, settings_ground};
use kmer_tests::files;
use kmer_tests::lent::filled;
use kmer_tests::second_generator::{generating, Asked};
use kmer_tests::sequences::along;
use kmer_tests::settings::*;
use kmer_tests::tables::{drawn_table, sizes_up_to, Call};
use run::{drawn_of_either_kind, lent, lent_kind, whole_listing};
use wontirje::{codes_two_bit, Code, Kind, Numbers, Refusal};

fn refusal(expected: expected::Refusal) -> Refusal {
    Refusal { number: expected.number, place: expected.p }
}

/// For the two calls that tell no place.
fn without_place(expected: expected::Refusal) -> Refusal {
    Refusal { number: expected.number, place: 0 }
}

/// Settings of every size with drawn letters, and bad ones: those that the types of this crate can hold.
fn all_settings(random: &mut Random) -> Vec<Settings> {
    let mut all: Vec<Settings> = good_sizes()
        .into_iter()
        .map(|(s, mirror, k)| Settings::new(&drawn_capitals(random, s), k, mirror))
        .collect();
    all.extend(good_and_bad_settings().into_iter().filter(|settings| settings.mirror <= COMPLEMENT));
    all
}

/// The bytes of a word that may be one letter too short or too long, or have a byte that is no letter.
fn drawn_bytes(random: &mut Random, settings: &Settings) -> Vec<u8> {
    let s = settings.letters.len();
    let length = settings.k.min(70) + [0, 0, 0, 1][random.below(4) as usize];
    let word = drawn_word(random, s.max(1), length);
    let mut bytes = if s == 0 { word } else { spelled_mixed(random, &settings.letters, &word) };
    if random.below(3) == 0 && !bytes.is_empty() {
        let place = random.below(bytes.len() as u64) as usize;
        bytes[place] = random.below(256) as u8;
    }
    bytes
}

/// A result that fills a buffer from its start, beside the expected bytes: later bytes, and all where the
/// call is refused, are as they were.
fn check_bytes(what: &str, answer: Result<usize, Refusal>, left: &[u8], right: Result<Vec<u8>, Refusal>) {
    let mut buffer = filled(left.len());
    if let Ok(bytes) = &right {
        buffer[..bytes.len()].copy_from_slice(bytes);
    }
    assert_eq!((answer, left), (right.map(|bytes| bytes.len()), &buffer[..]), "{what}");
}

#[test]
fn words_codes_and_mirrors() {
    let mut random = Random::new(101);
    let mut taken = 0;
    for settings in all_settings(&mut random) {
        for _ in 0..12 {
            let bytes = drawn_bytes(&mut random, &settings);
            let code = lent(&settings).code(&bytes);
            assert_eq!(code, coding(&settings, &bytes).map(Code).map_err(without_place), "{settings}");
            taken += code.is_ok() as usize;
            let room = settings.k.min(70) + 2 - random.below(4).min(settings.k.min(3) as u64) as usize;
            let mut out: Vec<u8> = filled(room);
            let answer = lent(&settings).mirror_of(&bytes, &mut out);
            let right = mirroring(&settings, &bytes, room).map_err(refusal);
            check_bytes(&format!("{settings}: mirror"), answer, &out, right);
            let number = drawn_code(&mut random, u64::MAX);
            let mut out: Vec<u8> = filled(room);
            let answer = lent(&settings).word(Code(number), &mut out);
            let right = reading(&settings, number, room).map_err(without_place);
            check_bytes(&format!("{settings}: word of {number}"), answer, &out, right);
        }
    }
    assert!(taken > 2000, "{taken} words coded");
}

#[test]
fn the_number_of_classes_and_of_places() {
    for settings in all_settings(&mut Random::new(102)) {
        let right = settings_ground(&settings).map(|()| class_count(&settings) as u64);
        assert_eq!(lent(&settings).classes(), right.map_err(refusal), "{settings}");
        let right = table_ground(&settings, false, usize::MAX);
        assert_eq!(lent(&settings).table_places(), right.map_err(refusal), "{settings}");
    }
}

#[test]
fn codes_along_sequences() {
    let mut random = Random::new(103);
    let mut settings = all_settings(&mut random);
    settings.extend((0..40).map(|k| Settings::new(b"ACGT", k, COMPLEMENT)));
    for settings in settings {
        let good = settings_ground(&settings).is_ok();
        let length = random.below(150) as usize;
        let sequence = match good {
            true => drawn_sequence(&mut random, &settings, length, 30),
            false => vec![b'A'; length],
        };
        let room = (sequence.len() + 3).saturating_sub(random.below(12) as usize);
        let right = along(&settings, &sequence, room).map_err(refusal);
        let mut list = filled(room);
        if let Ok(codes) = &right {
            list[..codes.len()].copy_from_slice(codes);
        }
        let mut codes: Vec<u64> = filled(room);
        let answer = lent(&settings).codes(&sequence, &mut codes);
        let count = right.map(|codes| codes.len());
        assert_eq!((answer, &codes), (count, &list), "{settings}");
        if settings.letters == b"ACGT" && settings.mirror == COMPLEMENT {
            let mut codes: Vec<u64> = filled(room);
            let answer = codes_two_bit(settings.k, &sequence, &mut codes);
            assert_eq!((answer, &codes), (count, &list), "{settings}: two-bit");
        }
    }
}

/// Test loads beside the second generator: their lengths, and their bytes in a buffer that may be too short.
#[test]
fn test_loads() {
    let mut random = Random::new(106);
    let mut answers = [0; 8];
    for settings in all_settings(&mut random) {
        for too_large in [0, 0, 1 << 40] {
            let [records, each] = [12, 130].map(|bound| random.below(bound) as usize + too_large);
            let asked = Asked::new(random.draw(), records, each);
            let length = generating(&settings, asked, usize::MAX).map(|file| file.len()).map_err(refusal);
            assert_eq!(lent(&settings).generated_length(records, each), length, "{settings}: {asked}");
            let room = (length.unwrap_or(0) + 3).saturating_sub(random.below(6) as usize);
            let mut out: Vec<u8> = filled(room);
            let answer = lent(&settings).generate(asked.start, records, each, &mut out);
            answers[answer.map_or_else(|refusal| refusal.number as usize, |_| 0)] += 1;
            let right = generating(&settings, asked, room).map_err(refusal);
            check_bytes(&format!("{settings}: {asked}"), answer, &out, right);
        }
    }
    assert!([0, 1, 4, 6, 7].iter().all(|&number| answers[number] > 8), "{answers:?} test loads");
}

/// Adds or withdraws a file beside the tally book: the answer is the book's, and so is each count; the table's other
/// places keep what they held. Gives the number of the refusal, 0 where there is none.
fn check_file_call(call: Call, book: &mut Book, table: &mut [u32], kind: files::Kind, file: &[u8]) -> usize {
    let (settings, places) = (book.settings.clone(), table.len());
    let mut right = table.to_vec();
    let (due, answer) = match call {
        Call::Add => (book.add(places, kind, file, 5), lent(&settings).add(table, lent_kind(kind), file)),
        Call::Withdraw => {
            (book.withdraw(places, kind, file, 5), lent(&settings).withdraw(table, lent_kind(kind), file))
        }
    };
    let numbers = |[records, letters, foreign, edge, windows]: [u64; 5]| Numbers {
        records,
        letters,
        foreign,
        edge,
        windows,
    };
    assert_eq!(answer, due.map(numbers).map_err(refusal), "{settings}: {call:?} of {kind:?}");
    book.write_counts(&mut right);
    assert!(table == right, "{settings}: a count differs");
    due.map_or_else(|refusal| refusal.number as usize, |_| 0)
}

/// Lists of adds and withdrawals of both kinds of file, damaged ones among them, beside the tally book. A file that is
/// withdrawn may have been added before, as often or less often, or not at all.
#[test]
fn tables_beside_the_tally_book() {
    let mut random = Random::new(104);
    let mut answers = [[0; 19]; 2];
    for (s, mirror, k) in sizes_up_to(5000) {
        let settings = Settings::new(&drawn_capitals(&mut random, s), k, mirror);
        let (mut book, places) = (Book::new(&settings), class_count(&settings) as usize);
        let mut table: Vec<u32> = filled(places + 2);
        assert_eq!(lent(&settings).clear(&mut table), Ok(places), "{settings}");
        let mut files = Vec::new();
        for _ in 0..20 {
            files.push(drawn_of_either_kind(&mut random, &settings, 300));
            for (call, answers) in [Call::Add, Call::Withdraw].into_iter().zip(&mut answers) {
                let (kind, file) = &files[random.below(files.len() as u64) as usize];
                answers[check_file_call(call, &mut book, &mut table, *kind, file)] += 1;
            }
        }
        let right = table.clone();
        let short = Err(Refusal { number: 7, place: places as u64 });
        assert_eq!(lent(&settings).clear(&mut table[..places - 1]), short, "{settings}");
        for kind in [Kind::Fasta, Kind::Fastq] {
            let answer = lent(&settings).add(&mut table[..places - 1], kind, b"x");
            assert_eq!(answer.map(|_| 0), short, "{settings}");
            let answer = lent(&settings).withdraw(&mut table[..places - 1], kind, b"x");
            assert_eq!(answer.map(|_| 0), short, "{settings}");
        }
        assert!(table == right, "{settings}: a refused call changed a count");
    }
    let [added, withdrawn] = answers;
    assert!([0, 10, 11, 15, 16, 17].iter().all(|&number| added[number] > 8), "{added:?} files added");
    assert!(
        [0, 10, 11, 15, 16, 17, 18].iter().all(|&number| withdrawn[number] > 8),
        "{withdrawn:?} withdrawn"
    );
}

/// Whatever the table held before.
#[test]
fn adding_and_withdrawing_next_gives_the_table_back() {
    let mut random = Random::new(105);
    let mut windows = 0;
    for (s, mirror, k) in sizes_up_to(5000) {
        let settings = Settings::new(&drawn_capitals(&mut random, s), k, mirror);
        for sparse in [1, 4] {
            let mut table = drawn_table(&mut random, &settings, sparse);
            let before = table.clone();
            let (kind, file) = drawn_of_either_kind(&mut random, &settings, 300);
            let Ok(numbers) = lent(&settings).add(&mut table, lent_kind(kind), &file) else { continue };
            windows += numbers.windows;
            let answer = lent(&settings).withdraw(&mut table, lent_kind(kind), &file);
            assert_eq!(answer, Ok(numbers), "{settings}: {kind:?}");
            assert!(table == before, "{settings}: a count does not come back");
        }
    }
    assert!(windows > 10_000, "{windows} windows");
}

#[test]
fn a_full_table_is_refused_12() {
    let settings = wontirje::Settings::dna(1);
    let mut table = [u32::MAX - 2, 0];
    let full = Err(Refusal { number: 12, place: 0 });
    assert_eq!(settings.add(&mut table, Kind::Fasta, b">\nACG"), full);
    assert_eq!(settings.add(&mut table, Kind::Fastq, b"@\nACG\n+\nIII"), full);
    // The bytes of a file are judged before the counts.
    let byte = Err(Refusal { number: 17, place: 9 });
    assert_eq!(settings.add(&mut table, Kind::Fastq, b"@\nACG\n+\nI I"), byte);
    assert_eq!(settings.add(&mut table, Kind::Fasta, b">\nAC").map(|numbers| numbers.windows), Ok(2));
    assert_eq!(table, [u32::MAX - 1, 1]);
    let text = whole_listing(&settings, &table);
    assert!(text.ends_with(b"(count C 4294967294)\n(count A 1)\n(total 4294967295)\n"));
}

/// The grounds of a withdrawal by hand: 18 comes last, in place of 12, and the table is as before, its last place too,
/// which is no class's.
#[test]
fn a_table_with_too_small_counts_is_refused_18() {
    let settings = wontirje::Settings::dna(1);
    let before = [u32::MAX, 2, 9];
    let mut table = before;
    let refused: [(usize, Kind, &[u8], [u64; 2]); 7] = [
        (3, Kind::Fasta, b">\nCATTC", [18, 0]),
        (3, Kind::Fastq, b"@\nCATT\n+\nIIII", [18, 0]),
        (3, Kind::Fasta, b">\nTTTT*", [10, 6]),
        (3, Kind::Fasta, b"\nTTTT\n>", [11, 1]),
        (3, Kind::Fastq, b"@\nTTTT\n+\nI II", [17, 10]),
        (1, Kind::Fasta, b"TTTT", [7, 2]),
        (0, Kind::Fastq, b"TTTT", [7, 2]),
    ];
    for (places, kind, file, [number, place]) in refused {
        let answer = settings.withdraw(&mut table[..places], kind, file);
        assert_eq!((answer, table), (Err(Refusal { number, place }), before), "{}", file.escape_ascii());
    }
    // A count at the top is no hindrance, and a class may lose all that it has.
    let windows = |answer: Result<Numbers, Refusal>| answer.map(|numbers| numbers.windows);
    assert_eq!(windows(settings.withdraw(&mut table, Kind::Fasta, b">\nCAnT")), Ok(3));
    assert_eq!(table, [u32::MAX - 1, 0, 9]);
    assert_eq!(windows(settings.withdraw(&mut table, Kind::Fastq, b"@\nNG\n+\nII")), Ok(1));
    assert_eq!(table, [u32::MAX - 2, 0, 9]);
    assert_eq!(windows(settings.withdraw(&mut table, Kind::Fasta, b"")), Ok(0));
    assert_eq!(table, [u32::MAX - 2, 0, 9]);
}

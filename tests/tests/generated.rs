//! Test loads that are made (document 02, K8: "write a sequence file by the settings"): files written out, stored
//! answers, every small file, drawn settings, the records' numbers, the state that runs on, the longest files, what
//! kmer_add finds in them, and the listing that three labs can compare. The calls that are refused are in
//! generated_refusals.rs.

use kmer_tests::book::{windows_by_place, Book, Numbers};
use kmer_tests::draw::*;
use kmer_tests::expected::Refusal;
use kmer_tests::files::{lines, Kind, FASTA};
use kmer_tests::generated::*;
use kmer_tests::lent::{check_places, Lent};
use kmer_tests::loads::check_written;
use kmer_tests::program::check_prints;
use kmer_tests::second_counter::{answer, file_line, listing_of, printed_line, taken_apart, PLACES};
use kmer_tests::second_generator::{file, generating, length, stepped, Asked};
use kmer_tests::sequences::{two_bit_settings, MOST_BYTES};
use kmer_tests::settings::*;
use kmer_tests::tables::*;
use kmer_tests::vectors::{generated_vectors, places};
use std::collections::BTreeMap;

/// 0, 1, the middle and the last of the starts.
const STARTS: [u64; 4] = [0, 1, 1 << 63, u64::MAX];

/// Makes a file that no ground refuses beside the second generator, in a buffer just long enough and in longer
/// ones. Gives the file.
fn check_made(settings: &Settings, asked: Asked) -> Vec<u8> {
    let right = file(&settings.letters, asked);
    assert_eq!(length(asked), right.len() as u128, "{asked}: the second generator's length");
    for more in [0, 1, 33] {
        let found = check_generate(settings, asked, right.len() + more);
        assert_eq!(found, (0, 0), "{settings}: {asked}");
    }
    right
}

/// The letters of a file, its headers and line ends left out.
fn letters_of(file: &[u8]) -> Vec<u8> {
    let sequence_lines = lines(file).into_iter().filter(|(_, line)| !line.starts_with(b">"));
    sequence_lines.flat_map(|(_, line)| line.to_vec()).collect()
}

/// Worked out from the request by a script apart from this repository. Start 0 steps to 1442695040888963407, whose
/// top 32 bits are 335903614: times 4 that is below 2^32, so that the first letter is A. Start 1 steps to
/// 7806831264735756412, whose top 32 bits are 1817669548: times 4 that is 1 times 2^32 and more, so that it is C.
#[test]
fn files_written_out() {
    let sixteen = b"ABCDEFGHIJKLMNOP";
    for (letters, start, records, each, text) in [
        (&b"ACGT"[..], 0, 0, 0, ""),
        (b"ACGT", 0, 0, 7, ""),
        (b"ACGT", 0, 3, 0, ">1\n>2\n>3\n"),
        (b"ACGT", 0, 1, 1, ">1\nA\n"),
        (b"ACGT", 1, 2, 5, ">1\nCGGCT\n>2\nGGATA\n"),
        (b"TGCA", 1, 2, 5, ">1\nGCCGA\n>2\nCCTAT\n"),
        (b"AB", u64::MAX, 3, 3, ">1\nBBB\n>2\nABB\n>3\nBBA\n"),
        (
            b"ACGT",
            0,
            2,
            61,
            ">1\nAAGCCGACCCGCAATAGTACGGTACCACAGCAGAGGGGGAAAAAGATCACTTTTATCAGC\nA\n\
            >2\nTCGAATCAGGAACCAAGACCTGCACCTCTGATAGTTACTGTCAATTACAGACGCCAATGT\nC\n",
        ),
        (
            sixteen,
            1 << 63,
            1,
            125,
            ">1\nJJBOOAJNPPCNIJGLAHLOCDFLPPKOJBMICKCDDAAKJILKALEPINEHHHJEOKAP\n\
            IFNBILGOIADLKNOJLALNOEBOKNNGPGAKHLCHGKPHBGPKKHEJMLDJOAMPIIHB\nHOFOG\n",
        ),
    ] {
        let (settings, asked) = (Settings::new(letters, 2, COMPLEMENT), Asked::new(start, records, each));
        check_generate_as(&settings, asked, text.len(), &Ok(text.into()));
        check_generate_as(&settings, asked, text.len() + 5, &Ok(text.into()));
        assert_eq!(
            check_made(&settings, asked).escape_ascii().to_string(),
            text.escape_default().to_string()
        );
    }
}

/// The stored answers of an independent reference, held against the call, in a buffer that holds what theirs held
/// before, and against the second generator: the answer and every byte that is left. How many there are of each,
/// 0 for an answer and else the number of the ground.
#[test]
fn stored_answers() {
    let mut outcomes = BTreeMap::new();
    for vector in generated_vectors(240) {
        let [start, records, each] = places::<u64>(vector.given)[..] else { panic!("{}", vector.line) };
        let asked = Asked::new(start, records as usize, each as usize);
        let stored = vector.stored_bytes();
        let due = stored.as_ref().map_or_else(Refusal::packed, |file| file.len() as u64);
        let (before, after) = vector.buffers();
        let (answer, left) = generated_into(&vector.settings, asked, &before);
        assert!(answer == due, "{}: kmer_generate is {answer:#x}, stored {due:#x}", vector.line);
        check_places(&vector.line, &left, &after);
        vector.check_second_bytes(generating(&vector.settings, asked, vector.room));
        check_generate_as(&vector.settings, asked, vector.room, &stored);
        *outcomes.entry(stored.map_or_else(|refusal| refusal.number, |_| 0)).or_insert(0) += 1;
    }
    assert_eq!(outcomes, BTreeMap::from([(0, 173), (1, 16), (2, 8), (4, 5), (7, 38)]));
}

/// "Lines of 60 letters, the last perhaps shorter": none, some, one line, two, and one letter more or less.
#[test]
fn every_small_file() {
    let settings = two_bit_settings(2);
    for start in STARTS {
        for records in 0..=3 {
            for each in 0..=182 {
                check_made(&settings, Asked::new(start, records, each));
            }
        }
    }
}

/// Every number of letters in the settings, both mirrors and every k, with drawn letters, starts and numbers.
#[test]
fn drawn_settings() {
    let mut random = Random::new(81);
    let mut bytes = 0;
    for (s, mirror, k) in good_sizes() {
        let settings = Settings::new(&drawn_capitals(&mut random, s), k, mirror);
        for start in [random.draw(), random.draw() >> random.below(64)] {
            let asked = Asked::new(start, random.below(14) as usize, random.below(250) as usize);
            bytes += check_made(&settings, asked).len();
        }
    }
    assert!(bytes > 500_000, "{bytes} bytes made");
}

/// Every letter of the settings comes, the first and the last too, each about as often as the others.
#[test]
fn every_letter_comes() {
    for s in 2..=16 {
        let settings = Settings::new(&first_capitals(s), 1, REVERSAL);
        let found = letters_of(&check_made(&settings, Asked::new(s as u64, 16, 1000)));
        for letter in &settings.letters {
            let times = found.iter().filter(|&other| other == letter).count();
            let even = 16_000 / s;
            assert!(
                (even - even / 5..=even + even / 5).contains(&times),
                "{settings}: {letter} {times} times"
            );
        }
    }
}

/// "Header > with the record's number from 1": where the number gets a digit more.
#[test]
fn the_numbers_of_the_records() {
    let settings = Settings::new(b"XYZ", 3, COMPLEMENT);
    for records in
        [9, 10, 11, 99, 100, 101, 999, 1000, 1001, 9999, 10_000, 10_001, 99_999, 100_000, 1_000_000]
    {
        for each in [0, 1, 61].into_iter().filter(|each| records * (each + 1) <= 1_000_000) {
            let made = check_made(&settings, Asked::new(7, records, each));
            let headers = lines(&made).into_iter().filter(|(_, line)| line.starts_with(b">"));
            let numbers = (1..=records).map(|number| format!(">{number}").into_bytes());
            assert!(
                headers.map(|(_, line)| line.to_vec()).eq(numbers),
                "{records} records of {each} letters"
            );
        }
    }
}

/// The state runs on from line to line and from record to record: however many records the letters are in, they
/// are those of one record. And a file whose start is the state after some letters has the letters that follow.
#[test]
fn the_state_runs_on() {
    for settings in [two_bit_settings(4), Settings::new(b"QWERTYU", 2, REVERSAL)] {
        let written = |asked: Asked| {
            let (answer, buffer) = generated(&settings, asked, length(asked) as usize);
            assert_eq!(answer, buffer.len() as u64, "{settings}: {asked}");
            letters_of(&buffer)
        };
        for start in STARTS {
            for (records, each) in [(2, 1), (2, 30), (2, 59), (2, 60), (2, 61), (3, 120), (7, 25), (250, 4)] {
                let one = written(Asked::new(start, 1, records * each));
                assert_eq!(one.len(), records * each);
                assert_eq!(written(Asked::new(start, records, each)), one, "start {start}");
                let later = (0..each).fold(start, |state, _| stepped(state));
                assert_eq!(written(Asked::new(later, records - 1, each)), one[each..], "start {start}");
            }
        }
    }
}

/// Records, "records times letters, none foreign", and edge and windows as document 01 has them for runs of so
/// many letters, one in each record.
fn numbers_of(asked: Asked, k: usize) -> Numbers {
    let edge = asked.records * asked.each.min(k - 1);
    let windows = asked.records * asked.each.saturating_sub(k - 1);
    [asked.records, asked.records * asked.each, 0, edge, windows].map(|number| number as u64)
}

/// The second counter and the counter program, whose table has 16,384 places, print the listing of the file's
/// windows and its numbers.
fn check_counted(settings: &Settings, made: &[u8], numbers: Numbers) {
    let (line, classes) = taken_apart(printed_line(settings).as_bytes()).expect("a printed line");
    if classes > PLACES as u128 {
        return;
    }
    let input = [&line[..], b"\n", made].concat();
    let counts = windows_by_place(settings, Kind::Fasta, made);
    let printed = [listing_of(settings, &counts), file_line(numbers).into_bytes()].concat();
    assert!(answer(&input) == printed, "the second counter: {}", shown_file(&input));
    check_prints(&input, &printed);
}

/// "Every such file .. is a file of records times letters, none foreign": taken in by kmer_add beside the book, and
/// counted by the program.
#[test]
fn files_are_taken_in() {
    let mut random = Random::new(82);
    let mut sizes = some_settings();
    sizes.extend([Settings::new(b"ACGU", 4, COMPLEMENT), Settings::new(b"TU", 7, REVERSAL)]);
    for settings in sizes {
        let k = settings.k;
        for each in [0, 1, k - 1, k, k + 1, 59, 60, 61, 120, 181, 1500] {
            for records in [1, 2 + random.below(12) as usize] {
                let asked = Asked::new(random.draw(), records, each);
                let made = check_made(&settings, asked);
                let numbers = numbers_of(asked, k);
                assert_eq!(check_file(&settings, FASTA, &made), Ok(numbers), "{settings}: {asked}");
                check_counted(&settings, &made, numbers);
            }
        }
        let none = check_made(&settings, Asked::new(3, 0, k));
        assert_eq!(check_file(&settings, FASTA, &none), Ok([0; 5]), "{settings}");
    }
}

/// The shapes whose files have just so many bytes, among those of up to 2,000 records or of up to 200 letters in
/// each.
fn shapes_of(start: u64, bytes: usize) -> Vec<Asked> {
    let long = (1..=2000).map(|records| most_letters(start, records, bytes as u128));
    let short = (0..=200).map(|each| most_records(start, each, bytes as u128));
    let mut shapes: Vec<Asked> = long.chain(short).filter(|&asked| length(asked) == bytes as u128).collect();
    shapes.sort_by_key(|asked| asked.records);
    shapes.dedup();
    shapes
}

/// Makes a file of nearly or just the most bytes beside the second generator, and takes it in.
fn check_longest(asked: Asked) {
    let settings = two_bit_settings(3);
    let room = length(asked) as usize;
    assert_eq!(check_generate(&settings, asked, room), (0, 0), "{asked}");
    assert_eq!(check_generate(&settings, asked, room - 1), (7, room as u64), "{asked}");
    let (_, made) = generated(&settings, asked, room);
    let (_, mut table) = cleared(&settings, 0);
    let mut list = Lent::filled(5);
    assert_eq!(add(&settings, &mut table, FASTA, &made, &mut list), 5, "{asked}");
    let numbers = numbers_of(asked, 3);
    assert_eq!(list.slice(), numbers, "{asked}");
    let sum: u64 = table.slice().iter().map(|&count| count as u64).sum();
    assert_eq!(sum, numbers[4], "{asked}: sum of the counts");
}

/// A file of 16,777,216 bytes is made and taken in, in each of its shapes from one long record to many short ones;
/// one of 16,777,217 bytes is refused 6, however long the buffer is.
#[test]
fn files_of_the_most_bytes_and_of_one_more() {
    let pairs = |shapes: &[Asked]| -> Vec<(usize, usize)> {
        shapes.iter().map(|asked| (asked.records, asked.each)).collect()
    };
    let longest = shapes_of(83, MOST_BYTES);
    let some = [(1, 16_502_176), (2, 8_251_086), (124, 133_078), (888_859, 10), (1_118_020, 6)];
    assert!(longest.len() == 10 && some.iter().all(|pair| pairs(&longest).contains(pair)), "{longest:?}");
    longest.into_iter().for_each(check_longest);
    let above = shapes_of(84, MOST_BYTES + 1);
    let all = [(1, 16_502_177), (179_663, 84), (359_326, 38), (767_651, 13), (1_626_211, 1)];
    assert_eq!(pairs(&above), all);
    for asked in above {
        for room in [0, 1000, MOST_BYTES, MOST_BYTES + 1, MOST_BYTES + 2] {
            assert_eq!(check_generate(&two_bit_settings(3), asked, room), (6, 0), "{asked}");
        }
    }
}

/// Records of 0 letters are headers only: the most of them have some bytes less than the limit, and one more is
/// refused.
#[test]
fn the_most_records_of_few_letters() {
    for (each, records) in [(0, 1_987_591), (1, 1_626_210), (60, 244_758), (61, 237_863)] {
        let most = most_records(85, each, MOST_BYTES as u128);
        assert_eq!(most.records, records, "{most}");
        check_longest(most);
        let above = Asked::new(85, records + 1, each);
        assert_eq!(check_generate(&two_bit_settings(3), above, MOST_BYTES + 100), (6, 0), "{above}");
    }
}

/// "Three labs want to check their own builds on equal input." From start 1, 1000 records of 1000 letters, under
/// ACGT, complement, k 3: the listing is the stored one, byte by byte, by the library and by the references.
#[test]
fn the_listing_that_three_labs_compare() {
    let stored = include_bytes!("../vectors/k08_three_labs.txt");
    let (settings, asked) = (two_bit_settings(3), Asked::new(1, 1000, 1000));
    let room = length(asked) as usize;
    assert_eq!(room, 1_021_893);
    let (answer, made) = generated(&settings, asked, room);
    assert_eq!(answer, room as u64);
    assert!(made == file(&settings.letters, asked), "the second generator makes another file");
    let mut book = Book::new(&settings);
    let (_, mut table) = cleared(&settings, 0);
    let numbers = [1000, 1_000_000, 0, 2000, 998_000];
    assert_eq!(check_add(&mut book, &mut table, FASTA, &made, 5), Ok(numbers));
    let counts = windows_by_place(&settings, Kind::Fasta, &made);
    assert!(listing_of(&settings, &counts) == stored, "the references list it otherwise");
    check_written(&settings, table.slice(), stored);
}

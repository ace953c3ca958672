//! The largest tables and the longest FASTA files, and one class or byte more.

use kmer_tests::book::*;
use kmer_tests::draw::*;
use kmer_tests::draw_files::long_file;
use kmer_tests::expected::{coder, Refusal};
use kmer_tests::files::{Kind, FASTA};
use kmer_tests::lent::*;
use kmer_tests::sequences::{two_bit_settings, MOST_BYTES};
use kmer_tests::settings::*;
use kmer_tests::tables::*;

#[test]
fn the_largest_table_for_dna_is_at_k_12() {
    let settings = two_bit_settings(12);
    check_clear(&settings, &mut Table::filled(8_390_655));
    let (mut book, mut table) = cleared(&settings, 2);
    assert_eq!(clear(&settings, &mut table), 8_390_656);
    let file = record(b"ACGTACGTACGTNTTTTTTTTTTTTCAAAAAAAAAAAAG");
    assert_eq!(check_add(&mut book, &mut table, FASTA, &file, 5), Ok([1, 39, 1, 22, 16]));
    for places in [0, 100, 8_390_656] {
        let mut table = Table::filled(places);
        check_clear(&two_bit_settings(13), &mut table);
        assert_eq!(clear(&two_bit_settings(13), &mut table), Refusal { number: 6, p: 0 }.packed());
        let mut book = Book::new(&two_bit_settings(13));
        assert_eq!(check_add(&mut book, &mut table, FASTA, &file, 5), refused(6, 0));
    }
}

/// AB, k 25 has just as many classes as a table may have under complement, and some more under reversal.
#[test]
fn the_largest_table_of_all() {
    let settings = Settings::new(b"AB", 25, COMPLEMENT);
    let mut short = Table::filled(16_777_215);
    check_clear(&settings, &mut short);
    assert_eq!(check_add(&mut Book::new(&settings), &mut short, FASTA, b">", 5), refused(7, 16_777_216));
    drop(short);
    let (mut book, mut table) = cleared(&settings, 1);
    let file = record(b"ABBABABBBABABAAABABABABABABBABBBBABABA");
    assert_eq!(check_add(&mut book, &mut table, FASTA, &file, 5), Ok([1, 38, 0, 24, 14]));
    let above = Settings::new(b"AB", 25, REVERSAL);
    check_clear(&above, &mut table);
    assert_eq!(check_add(&mut Book::new(&above), &mut table, FASTA, &file, 5), refused(6, 0));
}

/// Document 02, K10: ABC under complement has (3^15 + 3^7) / 2 classes for k 15, and too many for k 16. The
/// first class is a palindrome, the last has the highest pair at its ends.
#[test]
fn the_largest_table_for_three_letters_under_complement_is_at_k_15() {
    let settings = Settings::new(b"ABC", 15, COMPLEMENT);
    check_clear(&settings, &mut Table::filled(7_175_546));
    let (mut book, mut table) = cleared(&settings, 1);
    assert_eq!(clear(&settings, &mut table), 7_175_547);
    let file = b">\nAAAAAAABCCCCCCC\n>\nBCCCCCCCCCCCCCA\n";
    assert_eq!(check_add(&mut book, &mut table, FASTA, file, 5), Ok([2, 30, 0, 28, 2]));
    assert_eq!((table.slice()[0], table.slice()[7_175_546]), (1, 1));
    let above = Settings::new(b"ABC", 16, COMPLEMENT);
    assert_eq!(clear(&above, &mut table), Refusal { number: 6, p: 0 }.packed());
    assert_eq!(check_add(&mut Book::new(&above), &mut table, FASTA, file, 5), refused(6, 0));
}

/// How often each of the 4^k words is in the file's runs, by plain rank; the book's map is too slow for this.
fn word_counts(contents: &Contents, k: usize) -> Vec<u32> {
    let mut counts = vec![0; 1 << (2 * k)];
    for run in contents.runs.iter().filter(|run| run.len() >= k) {
        let mut rank = 0;
        for (place, &letter) in run.iter().enumerate() {
            rank = (rank * 4 + letter as usize) % counts.len();
            if place + 1 >= k {
                counts[rank] += 1;
            }
        }
    }
    counts
}

/// Every place that `step` reaches holds `times` as many as the file has windows of its class.
fn check_long(k: usize, step: usize, times: u32, counts: &[u32], table: &Table) {
    let coder = coder(&two_bit_settings(k));
    let plain = |word: &[u8]| word.iter().fold(0, |rank, &letter| rank * 4 + letter as usize);
    for place in (0..coder.classes() as usize).step_by(step) {
        let word = coder.word(place as u128).expect("a place below the number of classes");
        let (one, other) = (plain(&word), plain(&coder.mirror(&word)));
        let windows = if one == other { counts[one] } else { counts[one] + counts[other] };
        assert_eq!(table.slice()[place], times * windows, "k {k}: place {place}, word {word:?}");
    }
}

/// Files of the most bytes there may be, taken in twice. A stray byte at the very end is refused with no
/// count changed, and so is one byte more.
#[test]
fn the_longest_file_is_taken_in_and_one_byte_more_refused_6() {
    let mut file = long_file(&mut Random::new(39), b"ACGTacgt", MOST_BYTES);
    let contents = read(Kind::Fasta, b"ACGT", &file).expect("a file without damage");
    for (k, step) in [(12, 29), (9, 1)] {
        let settings = two_bit_settings(k);
        let classes = class_count(&settings) as usize;
        let numbers = contents.numbers(k);
        let counts = word_counts(&contents, k);
        let (_, mut table) = cleared(&settings, 1);
        for times in 1..=2 {
            let mut list = Lent::filled(5);
            assert_eq!(add(&settings, &mut table, FASTA, &file, &mut list), 5, "{settings}");
            assert_eq!(list.slice(), numbers, "{settings}");
            let sum: u64 = table.slice()[..classes].iter().map(|&count| count as u64).sum();
            assert_eq!(sum, times * (numbers[1] - numbers[2] - numbers[3]), "{settings}: sum of the counts");
            check_long(k, step, times as u32, &counts, &table);
            check_long_refusals(&settings, &mut table, &mut file);
        }
    }
}

/// Ground 12 with millions of windows, then 10 at the last byte, then 6: table and answer list stay.
fn check_long_refusals(settings: &Settings, table: &mut Table, file: &mut Vec<u8>) {
    let mut list = Lent::filled(6);
    let last = file.len() - 1;
    let kept = table.slice()[7];
    table.slice_mut()[7] = u32::MAX - 1000;
    let before = table.slice().to_vec();
    let mut check = |file: &[u8], number: u64, p: u64| {
        assert_eq!(
            add(settings, table, FASTA, file, &mut list),
            Refusal { number, p }.packed(),
            "{settings}"
        );
        assert!(table.slice() == before, "{settings}: a file refused {number} changed the table");
        assert!(list.slice() == Lent::<u64>::filled(6).slice(), "{settings}: it changed the answer list");
    };
    check(file, 12, 0);
    let letter = file[last];
    file[last] = b'*';
    check(file, 10, last as u64);
    file[last] = b'\r';
    check(file, 10, last as u64);
    file[last] = letter;
    file.push(b'\n');
    check(file, 6, 0);
    file.truncate(last + 1);
    table.slice_mut()[7] = kept;
}

/// The longest files of one kind of line or letter, ACGT under complement, k 3, with their numbers written
/// out: nothing in a file, however often it comes, may let a call hang or run out of stack.
#[test]
fn longest_files_of_one_kind() {
    let settings = two_bit_settings(3);
    let (most, half) = (MOST_BYTES as u64, MOST_BYTES as u64 / 2);
    let kinds: [(&[u8], &[u8], Result<Numbers, Refusal>); 10] = [
        (b"", b"\n", Ok([0; 5])),
        (b"", b"\r\n", Ok([0; 5])),
        (b"", b">\n", Ok([half, 0, 0, 0, 0])),
        (b"", b">", Ok([1, 0, 0, 0, 0])),
        (b">\n", b"N", Ok([1, most - 2, most - 2, 0, 0])),
        (b">\n", b"NA", Ok([1, most - 2, half - 1, half - 1, 0])),
        (b">\n", b"A\n", Ok([1, half - 1, 0, 2, half - 3])),
        (b">\n", b"T", Ok([1, most - 2, 0, 2, most - 4])),
        (b"", b"\r", refused(10, 0)),
        (b"\n\n", b"\na", refused(11, 3)),
    ];
    let (_, mut table) = cleared(&settings, 1);
    let mut sum = 0;
    for (head, piece, expected) in kinds {
        let file = [head, &piece.repeat((MOST_BYTES - head.len()) / piece.len())].concat();
        let mut list = Lent::filled(5);
        let answer = add(&settings, &mut table, FASTA, &file, &mut list);
        let right = expected.map_or_else(|refusal| refusal.packed(), |_| 5);
        assert_eq!((answer, file.len()), (right, MOST_BYTES), "{}", shown_file(&file));
        let numbers = expected.map_or(Lent::filled(5).slice().to_vec(), |numbers| numbers.to_vec());
        assert_eq!(list.slice(), numbers, "{}", shown_file(&file));
        sum += expected.map_or(0, |numbers| numbers[4]) as u32;
    }
    // All windows are AAA or TTT.
    let place = coder(&settings).code(&[0, 0, 0]) as usize;
    let right = |other: usize| if other == place { sum } else { 0 };
    assert!((0..32).all(|other| table.slice()[other] == right(other)), "{:?}", table.slice());
}

//! The longest FASTQ files, and one byte more.

use kmer_tests::book::Numbers;
use kmer_tests::draw::Random;
use kmer_tests::draw_fastq::{long_fastq, long_sequences};
use kmer_tests::expected::{coder, Refusal};
use kmer_tests::files::{as_fasta, FASTA, FASTQ};
use kmer_tests::lent::Lent;
use kmer_tests::sequences::{two_bit_settings, MOST_BYTES};
use kmer_tests::settings::{shown_file, Settings};
use kmer_tests::tables::*;

/// The table and the five numbers after one add to a cleared table.
fn after_one(settings: &Settings, fastq: u64, file: &[u8]) -> (Vec<u32>, Vec<u64>) {
    let (_, mut table) = cleared(settings, 1);
    let mut list = Lent::filled(5);
    assert_eq!(add(settings, &mut table, fastq, file, &mut list), 5, "{settings}");
    (table.slice().to_vec(), list.slice().to_vec())
}

/// A file of the most bytes there may be has the table and the numbers of the same records as FASTA. A fault at
/// its very end is refused with no count changed, and so is one byte more.
#[test]
fn the_longest_file_is_taken_in_and_one_byte_more_refused_6() {
    let mut random = Random::new(78);
    let sequences = long_sequences(&mut random);
    let file = long_fastq(&mut random, &sequences);
    assert_eq!(file.len(), MOST_BYTES);
    let fasta = as_fasta(&sequences);
    for k in [9, 12] {
        let settings = two_bit_settings(k);
        let (table, numbers) = after_one(&settings, FASTQ, &file);
        assert!((table, numbers.clone()) == after_one(&settings, FASTA, &fasta), "{settings}");
        assert_eq!(numbers[0], sequences.len() as u64, "{settings}: records");
        assert_eq!(numbers[1], sequences.iter().map(Vec::len).sum::<usize>() as u64, "{settings}: letters");
        check_long_refusals(&settings, file.clone(), sequences.last().expect("a record").len());
    }
}

/// Ground 12 with millions of windows, 17, 16, 10 and 15 in the last record, then 6: table and list stay.
fn check_long_refusals(settings: &Settings, mut file: Vec<u8>, letters: usize) {
    let (_, mut table) = cleared(settings, 1);
    table.slice_mut()[7] = u32::MAX - 1000;
    let before = table.slice().to_vec();
    let mut list = Lent::filled(6);
    let mut check = |file: &[u8], number: u64, p: usize| {
        let right = Refusal { number, p: p as u64 }.packed();
        assert_eq!(add(settings, &mut table, FASTQ, file, &mut list), right, "{settings}");
        assert!(table.slice() == before, "{settings}: a file refused {number} changed the table");
        assert!(list.slice() == Lent::<u64>::filled(6).slice(), "{settings}: it changed the answer list");
    };
    check(&file, 12, 0);
    let (end, quality) = (file.len(), file.len() - 1 - letters);
    file[end - 2] = b' ';
    check(&file, 17, end - 2);
    file[end - 2] = b'\n';
    check(&file, 16, quality);
    file[quality - 4] = b'*';
    check(&file, 10, quality - 4);
    file[quality - 2] = b'-';
    check(&file, 15, quality - 2);
    file.push(b'\n');
    check(&file, 6, 0);
}

/// One record that fills a file of the most bytes, without an end: the header has 3 bytes, so that letters and
/// qualities are 8,388,605 each.
#[test]
fn the_longest_record() {
    let length = 8_388_605;
    let record = |letter: u8| [b"@a\n", &vec![letter; length][..], b"\n+\n", &vec![b'@'; length]].concat();
    let settings = two_bit_settings(3);
    for (letter, numbers) in
        [(b't', [1, 8_388_605, 0, 2, 8_388_603]), (b'n', [1, 8_388_605, 8_388_605, 0, 0])]
    {
        let mut file = record(letter);
        assert_eq!(file.len(), MOST_BYTES);
        let (table, list) = after_one(&settings, FASTQ, &file);
        assert_eq!(list, numbers);
        let place = coder(&settings).code(&[3, 3, 3]) as usize;
        assert_eq!(table[place] as u64, numbers[4]);
        file.push(b'\n');
        let (_, mut table) = cleared(&settings, 1);
        let right = Refusal { number: 6, p: 0 }.packed();
        assert_eq!(add(&settings, &mut table, FASTQ, &file, &mut Lent::filled(5)), right);
    }
}

/// The longest files of one kind of line, ACGT under complement, k 1, with their numbers written out: nothing in
/// a file, however often it comes, may let a call hang or run out of stack.
#[test]
fn longest_files_of_one_kind() {
    let settings = two_bit_settings(1);
    let (most, eighth) = (MOST_BYTES as u64, MOST_BYTES as u64 / 8);
    let kinds: [(&[u8], &[u8], Result<Numbers, Refusal>); 11] = [
        (b"", b"@\r\n\n+\r\n\n", Ok([eighth, 0, 0, 0, 0])),
        (b"", b"@\nA\n+\nI\n", Ok([eighth, eighth, 0, 0, eighth])),
        (b"", b"@\nN\n+\n~\n", Ok([eighth, eighth, eighth, 0, 0])),
        (b"", b"@\nA\n+\nI\r", refused(16, 6)),
        (b"", b"@", refused(15, most)),
        (b"", b"\n", refused(15, 0)),
        (b"@\n", b"A", refused(15, most)),
        (b"@\n*\n+", b"+", refused(15, most)),
        (b"@\n*\n+\n", b"I", refused(10, 2)),
        (b"@\n\n+\n", b"I", refused(16, 5)),
        (b"@\nA\n+\n", b"\r", refused(16, 6)),
    ];
    for (head, piece, expected) in kinds {
        let file = [head, &piece.repeat((MOST_BYTES - head.len()) / piece.len())].concat();
        let (_, mut table) = cleared(&settings, 1);
        let mut list = Lent::filled(5);
        let answer = add(&settings, &mut table, FASTQ, &file, &mut list);
        let right = expected.map_or_else(|refusal| refusal.packed(), |_| 5);
        assert_eq!((answer, file.len()), (right, MOST_BYTES), "{}", shown_file(&file));
        let numbers = expected.map_or(Lent::filled(5).slice().to_vec(), |numbers| numbers.to_vec());
        assert_eq!(list.slice(), numbers, "{}", shown_file(&file));
        // C and G are at place 0, A and T at place 1.
        let windows = expected.map_or(0, |numbers| numbers[4]) as u32;
        assert_eq!(table.slice()[..2], [0, windows], "{}", shown_file(&file));
    }
}

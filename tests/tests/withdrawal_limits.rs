//! The longest files and the largest tables in withdrawals (document 02, K4), and one byte or class more.

use kmer_tests::book::*;
use kmer_tests::draw::Random;
use kmer_tests::draw_fastq::{long_fastq, long_sequences};
use kmer_tests::draw_files::long_file;
use kmer_tests::expected::{coder, Refusal};
use kmer_tests::files::{as_fasta, Kind, FASTA, FASTQ};
use kmer_tests::lent::*;
use kmer_tests::sequences::{two_bit_settings, MOST_BYTES};
use kmer_tests::settings::*;
use kmer_tests::table_faults::{check_refusal, LACKING};
use kmer_tests::tables::*;

/// Makes a call that is accepted, and gives the five numbers.
fn accepted(call: Call, settings: &Settings, table: &mut Table, (fastq, file): (u64, &[u8])) -> Vec<u64> {
    let mut list = Lent::filled(5);
    assert_eq!(answered(call, settings, table, fastq, file, &mut list), 5, "{settings}: {call:?}");
    list.slice().to_vec()
}

/// The place of the last window of a file. `window_places` would code millions of windows by the slow second coder for
/// it.
fn last_place(settings: &Settings, (fastq, file): (u64, &[u8])) -> usize {
    let found = read(Kind::named(fastq), &settings.letters, file).expect("a file without damage");
    let run = found.runs.iter().rev().find(|run| run.len() >= settings.k).expect("a window");
    coder(settings).code(&run[run.len() - settings.k..]) as usize
}

/// Two files with the same windows, millions of them: from a table that has the first twice the second is withdrawn
/// twice in a row; refused where only the last of its windows has no count, and where it is out already. The counts
/// after an add are taken from the library here; table_limits.rs holds those of the longest adds by itself.
fn check_long(settings: &Settings, first: (u64, &[u8]), second: (u64, &[u8])) {
    let (_, mut table) = cleared(settings, 1);
    let zero = table.slice().to_vec();
    let numbers = accepted(Call::Add, settings, &mut table, first);
    let once = table.slice().to_vec();
    let short = last_place(settings, second);
    table.slice_mut()[short] -= 1;
    check_refusal(Call::Withdraw, settings, &mut table, second, 6, LACKING);
    table.slice_mut()[short] += 1;
    accepted(Call::Add, settings, &mut table, first);
    for left in [once, zero] {
        assert_eq!(accepted(Call::Withdraw, settings, &mut table, second), numbers, "{settings}");
        check_places(&format!("{settings}: a long file withdrawn"), table.slice(), &left);
    }
    check_refusal(Call::Withdraw, settings, &mut table, second, 5, LACKING);
}

/// A file of the most bytes there may be; a stray byte at its very end is refused before the counts are looked at, and
/// so is one byte more.
#[test]
fn the_longest_fasta_file() {
    let mut file = long_file(&mut Random::new(195), b"ACGTacgt", MOST_BYTES);
    for k in [12, 9] {
        let settings = two_bit_settings(k);
        check_long(&settings, (FASTA, &file), (FASTA, &file));
        let (_, mut table) = cleared(&settings, 1);
        let last = file.pop().expect("a letter");
        file.push(b'*');
        let stray = Refusal { number: 10, p: MOST_BYTES as u64 - 1 };
        check_refusal(Call::Withdraw, &settings, &mut table, (FASTA, &file), 5, stray);
        file.push(b'\n');
        let long = Refusal { number: 6, p: 0 };
        check_refusal(Call::Withdraw, &settings, &mut table, (FASTA, &file), 5, long);
        file.truncate(MOST_BYTES - 1);
        file.push(last);
    }
}

/// The same records as FASTQ, in a file of the most bytes there may be, and as FASTA.
#[test]
fn the_longest_fastq_file() {
    let mut random = Random::new(196);
    let sequences = long_sequences(&mut random);
    let (fastq, fasta) = (long_fastq(&mut random, &sequences), as_fasta(&sequences));
    assert_eq!(fastq.len(), MOST_BYTES);
    check_long(&two_bit_settings(10), (FASTA, &fasta), (FASTQ, &fastq));
    check_long(&Settings::new(b"ACGT", 9, REVERSAL), (FASTQ, &fastq), (FASTA, &fasta));
    let (_, mut table) = cleared(&two_bit_settings(10), 1);
    let more = [&fastq[..], b"\n"].concat();
    let long = Refusal { number: 6, p: 0 };
    check_refusal(Call::Withdraw, &two_bit_settings(10), &mut table, (FASTQ, &more), 5, long);
}

/// Just as many classes as a table may have, and one place too few; and too many classes.
#[test]
fn the_largest_table_of_all() {
    let settings = Settings::new(b"AB", 25, COMPLEMENT);
    let file = record(b"ABBABABBBABABAAABABABABABABBABBBBABABA");
    let needed = Refusal { number: 7, p: 16_777_216 };
    check_refusal(Call::Withdraw, &settings, &mut Table::filled(16_777_215), (FASTA, &file), 5, needed);
    let (mut book, mut table) = cleared(&settings, 1);
    let numbers = Ok([1, 38, 0, 24, 14]);
    for (call, answer) in [
        (Call::Withdraw, refused(18, 0)),
        (Call::Add, numbers),
        (Call::Withdraw, numbers),
        (Call::Add, numbers),
    ] {
        assert_eq!(check_call(call, &mut book, &mut table, FASTA, &file, 5), answer, "{call:?}");
    }
    let above = Settings::new(b"AB", 25, REVERSAL);
    let large = Refusal { number: 6, p: 0 };
    check_refusal(Call::Withdraw, &above, &mut table, (FASTA, &file), 5, large);
    check_refusal(Call::Withdraw, &two_bit_settings(13), &mut table, (FASTA, &file), 5, large);
}

/// The first class is a palindrome, the last has the highest pair at its ends: one window of each, and a count at the
/// first place alone.
#[test]
fn the_first_and_the_last_place() {
    let settings = Settings::new(b"ABC", 15, COMPLEMENT);
    let file = b">\nAAAAAAABCCCCCCC\n>\nBCCCCCCCCCCCCCA\n";
    let (_, mut table) = cleared(&settings, 1);
    let zero = table.slice().to_vec();
    table.slice_mut()[0] = 1;
    check_refusal(Call::Withdraw, &settings, &mut table, (FASTA, file), 5, LACKING);
    table.slice_mut()[7_175_546] = 1;
    assert_eq!(accepted(Call::Withdraw, &settings, &mut table, (FASTA, file)), [2, 30, 0, 28, 2]);
    check_places("two windows withdrawn", table.slice(), &zero);
}

/// The longest files of one kind of line or letter, ACGT under complement, k 3, with their numbers written out: nothing
/// in a file, however often it comes, may let a withdrawal hang or run out of stack. All windows are AAA or TTT.
#[test]
fn longest_files_of_one_kind() {
    let settings = two_bit_settings(3);
    let (most, half, eighth) = (MOST_BYTES as u64, MOST_BYTES as u64 / 2, MOST_BYTES as u64 / 8);
    let sixteenth = eighth / 2;
    let kinds: [(u64, &[u8], &[u8], Numbers); 8] = [
        (FASTA, b"", b"\r\n", [0; 5]),
        (FASTA, b"", b">\n", [half, 0, 0, 0, 0]),
        (FASTA, b"", b">", [1, 0, 0, 0, 0]),
        (FASTA, b">\n", b"NA", [1, most - 2, half - 1, half - 1, 0]),
        (FASTA, b">\n", b"A\n", [1, half - 1, 0, 2, half - 3]),
        (FASTA, b">\n", b"T", [1, most - 2, 0, 2, most - 4]),
        (FASTQ, b"", b"@\nA\n+\nI\n", [eighth, eighth, 0, eighth, 0]),
        (FASTQ, b"", b"@a\r\nTTTT\n+\nIIII\n", [1, 4, 0, 2, 2].map(|number| number * sixteenth)),
    ];
    let place = coder(&settings).code(&[0, 0, 0]) as usize;
    for (fastq, head, piece, numbers) in kinds {
        let file = [head, &piece.repeat((MOST_BYTES - head.len()) / piece.len())].concat();
        assert_eq!(file.len(), MOST_BYTES);
        let (_, mut table) = cleared(&settings, 1);
        let zero = table.slice().to_vec();
        if numbers[4] > 0 {
            table.slice_mut()[place] = numbers[4] as u32 - 1;
            check_refusal(Call::Withdraw, &settings, &mut table, (fastq, &file), 5, LACKING);
        }
        table.slice_mut()[place] = numbers[4] as u32;
        assert_eq!(accepted(Call::Withdraw, &settings, &mut table, (fastq, &file)), numbers);
        check_places("one of the longest files", table.slice(), &zero);
    }
}

//! Test loads that are refused (document 02, K8: "a larger one gives 6 and a short buffer 7"; document 01: "Checks go
//! in number order"): each ground at its place and before the later ones, every buffer that is too short, numbers
//! of any size, and numbers whose file's length would look short in fewer bits than it has. A refused call changes
//! no byte of the letters, of the buffer or beside them.

use kmer_tests::draw::*;
use kmer_tests::generated::*;
use kmer_tests::second_generator::{length, Asked};
use kmer_tests::sequences::{two_bit_settings, MOST_BYTES};
use kmer_tests::settings::*;

/// A file of 24 bytes.
const SMALL: Asked = Asked { start: 5, records: 3, each: 4 };

/// The call under these settings for the small file, with room for it.
fn small_refusal(letters: &[u8], k: usize, mirror: u64) -> (u64, u64) {
    check_generate(&Settings::new(letters, k, mirror), SMALL, 30)
}

/// 1: not 2 to 16 different capitals.
#[test]
fn letters_that_are_refused() {
    let good = b"ABCDEFGHIJKLMNOP";
    for s in 2..=16 {
        assert_eq!(small_refusal(&good[..s], 1, COMPLEMENT), (0, 0), "{s} letters");
    }
    assert_eq!(small_refusal(b"QRSTUVWXYZ", 1, REVERSAL), (0, 0));
    for letters in [&b""[..], b"A", b"ABCDEFGHIJKLMNOPQ", &first_capitals(26), &[b'A'; 300]] {
        assert_eq!(small_refusal(letters, 1, COMPLEMENT), (1, 0), "{}", shown(letters));
    }
    // At each place a letter that is there before, and bytes that are no capitals: those about A and Z too.
    for place in 0..16 {
        for byte in (0..=255).filter(|byte| !(b'P'..=b'Z').contains(byte)) {
            let mut letters = *good;
            letters[place] = byte;
            let found = if byte == good[place] { (0, 0) } else { (1, 0) };
            assert_eq!(small_refusal(&letters, 2, REVERSAL), found, "{}", shown(&letters));
        }
    }
}

/// 2: neither 0 nor 1, also where the lowest bits are.
#[test]
fn mirrors_that_are_refused() {
    for mirror in (1..64).map(|bit| 1 << bit).chain([3, 255, 257, (1 << 32) + 1, (1 << 63) + 1, u64::MAX]) {
        assert_eq!(small_refusal(b"ACGT", 2, mirror), (2, 0), "mirror {mirror}");
    }
    for mirror in [REVERSAL, COMPLEMENT] {
        assert_eq!(small_refusal(b"ACGT", 2, mirror), (0, 0), "mirror {mirror}");
    }
}

/// 4: k is 0, or s^k is above 2^62; also where the lowest 32 bits would be a good k.
#[test]
fn lengths_of_words_that_are_refused() {
    for (s, mirror) in (2..=16).flat_map(|s| [(s, REVERSAL), (s, COMPLEMENT)]) {
        let letters = first_capitals(s);
        for k in 1..=largest_k(s) {
            assert_eq!(small_refusal(&letters, k, mirror), (0, 0), "s {s}, k {k}");
        }
        for k in
            [0, largest_k(s) + 1, 63, 64, 65, 1 << 32, (1 << 32) + 2, 1 << 63, usize::MAX - 1, usize::MAX]
        {
            assert_eq!(small_refusal(&letters, k, mirror), (4, 0), "s {s}, k {k}");
        }
    }
}

/// "A short buffer 7", with the length needed: every buffer that is too short, the empty one too, which is NULL,
/// and the first that is not.
#[test]
fn every_short_buffer() {
    for (records, each) in [(1, 0), (1, 1), (3, 4), (1, 60), (1, 61), (2, 120), (11, 0), (10, 7), (100, 1)] {
        let asked = Asked::new(9, records, each);
        let needed = length(asked) as usize;
        for room in 0..needed {
            assert_eq!(
                check_generate(&two_bit_settings(5), asked, room),
                (7, needed as u64),
                "{asked}: {room}"
            );
        }
        assert_eq!(check_generate(&two_bit_settings(5), asked, needed), (0, 0), "{asked}");
    }
    // No records need no byte, so that an empty buffer is not too short.
    for each in [0, 1, 60, usize::MAX] {
        assert_eq!(check_generate(&two_bit_settings(5), Asked::new(9, 0, each), 0), (0, 0), "{each} letters");
    }
}

/// Letters, k, mirror, records, letters in each, room; the number and P of the refusal.
type Faulty<'a> = (&'a [u8], usize, u64, usize, usize, usize, (u64, u64));

/// Where several grounds apply, the first by number is answered: written out.
#[test]
fn grounds_go_in_number_order() {
    let (most, above) = (16_502_176, 16_502_177);
    let cases: [Faulty; 28] = [
        (b"", 0, 2, usize::MAX, usize::MAX, 0, (1, 0)),
        (b"AcG", 0, 2, 1, above, 0, (1, 0)),
        (b"AcG", 3, 1, 1, above, 0, (1, 0)),
        (b"ACGA", 3, 1, 2, 10, 5, (1, 0)),
        (b"A", 0, 0, 0, 0, 0, (1, 0)),
        (b"ABCDEFGHIJKLMNOPQ", 1, u64::MAX, 0, usize::MAX, 9, (1, 0)),
        (b"ACG", 0, 2, 1, above, 0, (2, 0)),
        (b"ACG", 3, 2, 1, above, 0, (2, 0)),
        (b"ACGT", usize::MAX, 1 << 32, usize::MAX, usize::MAX, 0, (2, 0)),
        (b"ACGT", 3, 2, 2, 10, 5, (2, 0)),
        (b"ACGT", 3, u64::MAX, 0, 0, 0, (2, 0)),
        (b"ACG", 0, 1, 1, above, 0, (4, 0)),
        (b"ACGT", 32, 1, usize::MAX, usize::MAX, 0, (4, 0)),
        (b"ACGT", 1 << 32 | 2, 0, 2, 10, 5, (4, 0)),
        (b"AB", 63, 0, 2, 10, 5, (4, 0)),
        (b"AB", 63, 0, 0, 0, 0, (4, 0)),
        (b"AB", 62, 0, 1, above, 0, (6, 0)),
        (b"ACGT", 31, 1, 1, above, 100, (6, 0)),
        (b"ACGT", 31, 1, usize::MAX, usize::MAX, 0, (6, 0)),
        (b"ACGT", 31, 1, usize::MAX, 0, 7, (6, 0)),
        (b"ACGT", 31, 1, 1, usize::MAX, 7, (6, 0)),
        (b"AB", 62, 0, 1, most, 0, (7, 16_777_216)),
        (b"ACGT", 31, 1, 1, most, 100, (7, 16_777_216)),
        (b"ACGT", 3, 1, 2, 10, 27, (7, 28)),
        (b"ACGT", 3, 1, 1, 0, 2, (7, 3)),
        (b"ACGT", 3, 1, 1, 0, 0, (7, 3)),
        (b"ACGT", 3, 1, 2, 10, 28, (0, 0)),
        (b"ACGT", 31, 1, 0, usize::MAX, 0, (0, 0)),
    ];
    for (letters, k, mirror, records, each, room, found) in cases {
        let (settings, asked) = (Settings::new(letters, k, mirror), Asked::new(u64::MAX, records, each));
        assert_eq!(check_generate(&settings, asked, room), found, "{settings}: {asked}, room {room}");
    }
}

/// Every combination of good and bad arguments, beside the second generator: how often each ground was answered.
#[test]
fn combinations_of_faults_answer_as_the_reference() {
    let mut found = [0; 8];
    for settings in good_and_bad_settings() {
        for (records, each) in [(0, 0), (0, usize::MAX), (2, 0), (3, 61), (1, MOST_BYTES), (usize::MAX, 0)] {
            for room in [0, 5, 6, 197, 198, 1000] {
                let asked = Asked::new(6, records, each);
                found[check_generate(&settings, asked, room).0 as usize] += 1;
            }
        }
    }
    // Six of nine lists of letters are bad, four of six mirrors. Of the 17 k those from 1 to 31 are good for ACGT, to
    // 39 for ACG and to 62 for TB, each under two mirrors.
    let (letters, mirrors, good) = (6 * 6 * 17, 3 * 4 * 17, 2 * (8 + 10 + 12));
    let lengths = 3 * 2 * 17 - good;
    assert_eq!([found[1], found[2], found[4]], [36 * letters, 36 * mirrors, 36 * lengths], "{found:?}");
    // Of six rooms all hold no records, four hold two headers and two hold three records; two files are too large.
    let made = 6 + 6 + 4 + 2;
    assert_eq!([found[0], found[6], found[7]], [made * good, 12 * good, (2 + 4) * good], "{found:?}");
}

/// No number of records or of letters makes a wrong answer: every pair of small, large and largest ones. It is 6 where
/// the file is above the limit, else 7 where the buffer, which is empty or has some bytes, is too short.
#[test]
fn numbers_of_any_size() {
    let numbers = [0, 1, 2, 60, 1 << 24, (1 << 24) + 1, 1 << 32, 1 << 63, usize::MAX];
    let mut found = [0; 8];
    for (records, each) in numbers.into_iter().flat_map(|records| numbers.map(|each| (records, each))) {
        for room in [0, 50] {
            for start in [0, 1, u64::MAX] {
                let asked = Asked::new(start, records, each);
                let (number, p) = check_generate(&two_bit_settings(4), asked, room);
                assert_eq!(p != 0, number == 7, "{asked}: {number} with P {p}");
                found[number as usize] += 1;
            }
        }
    }
    // In both rooms no records are made, of any length. Of the other pairs 1, 2 and 60 records of 0, 1, 2 and 60
    // letters are short enough: an empty buffer holds none of them, 50 bytes 1 or 2 records of 0, 1 or 2 letters.
    assert_eq!(found, [3 * (18 + 6), 0, 0, 0, 0, 0, 3 * 2 * (81 - 9 - 12), 3 * (12 + 6)]);
}

/// All numbers of records up to a bound, and all numbers of letters: the last whose file is within the limit needs
/// just its length, and one letter or record more is refused 6.
#[test]
fn the_limit_for_every_shape() {
    let settings = two_bit_settings(12);
    let check = |most: Asked, more: Asked| {
        assert_eq!(check_generate(&settings, most, 0), (7, length(most) as u64), "{most}");
        assert_eq!(check_generate(&settings, more, 0), (6, 0), "{more}");
    };
    for number in (1..=3000).chain([9999, 10_000, 99_999, 100_000, 999_999, 1_000_000]) {
        let most = most_letters(1, number, MOST_BYTES as u128);
        check(most, Asked { each: most.each + 1, ..most });
        let most = most_records(1, number, MOST_BYTES as u128);
        check(most, Asked { records: most.records + 1, ..most });
    }
    let most = most_records(1, 0, MOST_BYTES as u128);
    check(most, Asked { records: most.records + 1, ..most });
}

/// Files whose length is about a power of two, most of them a little longer, so that its lowest bits would be a short
/// file's: 25 to 68 bits. All are refused 6.
#[test]
fn lengths_that_would_look_short_in_fewer_bits() {
    let settings = two_bit_settings(1);
    let mut short = [0; 3];
    let mut check = |asked: Asked| {
        assert_eq!(check_generate(&settings, asked, 100), (6, 0), "{asked}");
        for (place, bits) in [32, 63, 64].into_iter().enumerate() {
            short[place] += (length(asked) % (1 << bits) <= MOST_BYTES as u128) as usize;
        }
    };
    for bits in [25, 31, 32, 33, 48, 62, 63, 64, 65, 66, 68] {
        for more in [0, 2, 3, 4, 5, 10, 66, 1000, 100_000, MOST_BYTES as u128] {
            let limit = (1 << bits) + more;
            // Numbers with which some file is within the limit and some file above it.
            let numbers = [1, 2, 3, 10, 60, 61, 1000, 1_000_000].into_iter();
            let above = |number: u128| number << 64 > limit || bits == 64;
            for number in numbers.filter(|&number| number < 1 << (bits - 8) && above(number as u128)) {
                check(most_letters(2, number, limit));
                check(most_records(2, number, limit));
            }
            check(most_records(2, 0, limit));
        }
    }
    assert!(short.iter().all(|&times| times > 100), "{short:?} lengths look short");
}

/// Numbers of every number of bits, beside the second generator.
#[test]
fn drawn_numbers() {
    let mut random = Random::new(86);
    let mut found = [0; 8];
    for _ in 0..10_000 {
        let records = random.draw() >> random.below(64);
        let each = random.draw() >> random.below(64);
        let asked = Asked::new(random.draw(), records as usize, each as usize);
        found[check_generate(&two_bit_settings(7), asked, random.below(100) as usize).0 as usize] += 1;
    }
    assert!([0, 6, 7].iter().all(|&number: &usize| found[number] > 200), "{found:?}");
}

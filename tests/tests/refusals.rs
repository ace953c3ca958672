//! The grounds for refusing, through word coding, code reading and mirroring: each ground alone, their order
//! where several apply, and no byte changed (which the calls themselves check for what they lend). And that
//! no call of the library answers 3.

use kmer_tests::calls::{self, REFUSED};
use kmer_tests::draw::*;
use kmer_tests::expected::*;
use kmer_tests::files::FASTA;
use kmer_tests::lent::{filled, Lent};
use kmer_tests::sequences::{codes, codes_two_bit};
use kmer_tests::settings::*;
use kmer_tests::tables::{add, clear, listed, record, withdraw, Table};

const MEGABYTE: usize = 1 << 20;

/// Numbers that a call might cut to fewer bits.
const WIDE: [u64; 8] = [255, 256, 257, 1 << 32, (1 << 32) + 1, 1 << 63, (1 << 63) + 1, u64::MAX];

/// Letters, k, mirror, word, room; the number from coding, the number from reading the code 2^64 - 1, and
/// number and P from mirroring.
type Faulty<'a> = (&'a [u8], usize, u64, &'a [u8], usize, (u64, u64, (u64, u64)));

/// Both calls refuse with this number, whatever else is right.
fn check_refused(settings: &Settings, number: u64) {
    let word = vec![b'A'; settings.k.min(70)];
    assert_eq!(calls::code(settings, &word), REFUSED + number, "{settings}: kmer_code");
    let room = settings.k.min(70) + 3;
    assert_eq!(calls::word(settings, 0, room), (REFUSED + number, filled(room)), "{settings}: kmer_word");
}

/// Ground 1. Lists of letters that are not 2 to 16 different capitals.
fn bad_letters() -> Vec<Vec<u8>> {
    let mut bad: Vec<Vec<u8>> = vec![Vec::new(), b"A".to_vec(), first_capitals(17), first_capitals(26)];
    for text in ["AA", "ABA", "ACGA", "ABB", "ABCDEFGHIJKLMNOA", "acgt", "ACGt", "aCGT", "AC T", "AC-T", "12"]
    {
        bad.push(text.as_bytes().to_vec());
    }
    // The bytes beside the capitals and the small letters, and some far from them.
    for byte in [0, b'@', b'[', b'`', b'a', b'z', b'{', 0x80, 0xc1, 0xff] {
        bad.push(vec![b'A', byte]);
        bad.push(vec![byte, b'A', b'C', b'G']);
    }
    bad.push(vec![b'A'; MEGABYTE]);
    bad.push((0..MEGABYTE).map(|i| b'A' + (i % 26) as u8).collect());
    bad
}

#[test]
fn bad_letters_are_refused_1() {
    for letters in bad_letters() {
        for mirror in [REVERSAL, COMPLEMENT, 2] {
            for k in [0, 1, 4, usize::MAX] {
                check_refused(&Settings::new(&letters, k, mirror), 1);
            }
        }
    }
}

#[test]
fn one_byte_of_the_letters_decides() {
    for place in 0..4 {
        for byte in 0..=255 {
            let mut letters = b"ACGT".to_vec();
            letters[place] = byte;
            let settings = Settings::new(&letters, 2, REVERSAL);
            let fits = byte.is_ascii_uppercase() && letters.iter().filter(|&&b| b == byte).count() == 1;
            let expected = if fits { (2, vec![letters[0]; 2]) } else { (REFUSED + 1, filled(2)) };
            assert_eq!(calls::word(&settings, 0, 2), expected, "{settings}");
        }
    }
}

#[test]
fn mirrors_other_than_0_and_1_are_refused_2() {
    for s in 2..=16 {
        for mirror in WIDE.into_iter().chain([2, 3, 1 << 8, 1 << 16]) {
            for k in [0, 1, 15, 16, usize::MAX] {
                check_refused(&Settings::new(&first_capitals(s), k, mirror), 2);
            }
        }
    }
}

/// Document 02, K10: odd s is no ground by itself. Code 0 is a palindrome of the first letters, for odd k the
/// letter that is its own mirror, and the last letters.
#[test]
fn complement_with_odd_s_is_answered() {
    for s in (3..=15).step_by(2) {
        let letters = first_capitals(s);
        for k in 1..=largest_k(s) {
            let settings = Settings::new(&letters, k, COMPLEMENT);
            let (first, last) = (vec![letters[0]; k / 2], vec![letters[s - 1]; k / 2]);
            let palindrome = [&first[..], &vec![letters[s / 2]; k % 2], &last].concat();
            assert_eq!(calls::code(&settings, &palindrome), 0, "{settings}: kmer_code");
            let right = (k as u64, palindrome.clone());
            assert_eq!(calls::word(&settings, 0, k), right, "{settings}: kmer_word");
            assert_eq!(calls::mirror(&settings, &palindrome, k), right, "{settings}: kmer_mirror");
        }
    }
}

/// What each call answers: words and sequences of letters A, and buffers and tables of so many places.
fn answers(settings: &Settings, places: usize) -> [u64; 9] {
    let letters = vec![b'A'; settings.k.min(70)];
    let mut table = Table::filled(places);
    [
        calls::code(settings, &letters),
        calls::word(settings, 0, places).0,
        calls::mirror(settings, &letters, places).0,
        codes(settings, &letters, places).0,
        codes_two_bit(settings.k, &letters, places).0,
        clear(settings, &mut table),
        add(settings, &mut table, FASTA, &record(&letters), &mut Lent::filled(places)),
        withdraw(settings, &mut table, FASTA, &record(&letters), &mut Lent::filled(places)),
        listed(settings, table.slice(), places).0,
    ]
}

/// Document 02, K10: "Refusal 3 then never occurs." Good and bad settings, and every k up to one above the
/// largest for odd s under complement, which document 01 alone refuses 3.
#[test]
fn no_call_answers_3() {
    let mut all = good_and_bad_settings();
    for s in (3..=15).step_by(2) {
        let sizes = (0..=largest_k(s) + 1).chain([1 << 32, usize::MAX]);
        all.extend(sizes.map(|k| Settings::new(&first_capitals(s), k, COMPLEMENT)));
    }
    for settings in all {
        for places in [0, 4, 100] {
            for (call, answer) in answers(&settings, places).into_iter().enumerate() {
                let refused_3 = answer >= REFUSED && answer % 256 == 3;
                assert!(!refused_3, "{settings}: call {call} with {places} places");
            }
        }
    }
}

#[test]
fn k_outside_its_limits_is_refused_4() {
    for s in 2..=16 {
        let wide = WIDE.map(|k| k as usize);
        for k in wide.into_iter().chain([0, largest_k(s) + 1, largest_k(s) + 2, 63, 64, 65, 127, 128]) {
            check_refused(&Settings::new(&first_capitals(s), k, REVERSAL), 4);
            check_refused(&Settings::new(&first_capitals(s), k, COMPLEMENT), 4);
        }
    }
}

/// The sizes that the tests below take: the smallest, some middle ones and the largest.
fn some_settings() -> Vec<Settings> {
    let mut random = Random::new(7);
    let sizes = good_sizes().into_iter();
    let kept = sizes.filter(|&(s, _, k)| [1, 2, 3, 8, 15].contains(&k) || k == largest_k(s));
    kept.map(|(s, mirror, k)| Settings::new(&drawn_capitals(&mut random, s), k, mirror)).collect()
}

#[test]
fn words_of_another_length_are_refused_5() {
    for settings in some_settings() {
        let (k, letter) = (settings.k, settings.letters[0]);
        for length in (0..2 * k + 3).filter(|&length| length != k).chain([MEGABYTE]) {
            check_code(&settings, &vec![letter; length], Err(Refusal { number: 5, p: 0 }));
            check_code(&settings, &vec![b'#'; length], Err(Refusal { number: 5, p: 0 }));
        }
    }
}

#[test]
fn every_short_buffer_is_refused_7() {
    for settings in some_settings() {
        for room in 0..settings.k {
            for code in [0, u64::MAX] {
                check_word(&settings, code, room, &Err(Refusal { number: 7, p: settings.k as u64 }));
            }
        }
    }
}

/// Bytes after the first k keep what they held, however many there are.
#[test]
fn long_buffers_are_filled_at_their_start_only() {
    for settings in some_settings() {
        for room in (settings.k..settings.k + 20).chain([MEGABYTE]) {
            check_word(&settings, 1, room, &reading(&settings, 1, room));
        }
    }
}

/// Ground 9: every byte at every place of a word that is otherwise right.
#[test]
fn a_foreign_byte_at_any_place_is_refused_9() {
    let mut random = Random::new(8);
    for settings in some_settings() {
        let ranks = drawn_word(&mut random, settings.letters.len(), settings.k);
        let coder = coder(&settings);
        for place in 0..settings.k {
            let mut word = spelled_mixed(&mut random, &settings.letters, &ranks);
            for byte in 0..=255u8 {
                word[place] = byte;
                let mut changed = ranks.clone();
                let expected = match rank(&settings.letters, byte) {
                    Some(rank) => {
                        changed[place] = rank;
                        Ok(coder.code(&changed) as u64)
                    }
                    None => Err(Refusal { number: 9, p: place as u64 }),
                };
                check_code(&settings, &word, expected);
            }
        }
    }
}

/// Where several grounds apply the lowest number wins, in mirroring with its P: written out, with no
/// reference.
#[test]
fn grounds_go_in_number_order() {
    let cases: [Faulty; 18] = [
        (b"AcG", 0, 2, b"#", 0, (1, 1, (1, 0))),
        (b"ACG", 0, 2, b"#", 0, (2, 2, (2, 0))),
        (b"ACG", 0, 1, b"#", 0, (4, 4, (4, 0))),
        (b"ACG", 40, 1, b"#", 0, (4, 4, (4, 0))),
        (b"ACGT", 0, 1, b"#", 0, (4, 4, (4, 0))),
        (b"ACGT", 32, 1, b"#", 0, (4, 4, (4, 0))),
        (b"ACG", 31, 1, b"AC", 3, (5, 7, (5, 0))),
        (b"ACG", 3, 1, b"AC#", 2, (9, 7, (7, 3))),
        (b"ACG", 3, 1, b"AC#", 3, (9, 8, (9, 2))),
        (b"ACGT", 3, 1, b"##", 2, (5, 7, (5, 0))),
        (b"ACGT", 3, 1, b"AC##", 2, (5, 7, (5, 0))),
        (b"ACGT", 3, 1, b"AC#", 2, (9, 7, (7, 3))),
        (b"ACGT", 3, 1, b"AC#", 3, (9, 8, (9, 2))),
        (b"ACGT", 3, 1, b"A##", 3, (9, 8, (9, 1))),
        (b"ACGT", 3, 1, b"#C#", 9, (9, 8, (9, 0))),
        (b"ACGT", 3, 1, b"Uu#", 3, (9, 8, (9, 2))),
        (b"ACGU", 3, 1, b"UtA", 3, (9, 8, (9, 1))),
        (b"ACG", 3, 1, b"AuC", 3, (9, 8, (9, 1))),
    ];
    for (letters, k, mirror, word, room, (coding, reading, (number, p))) in cases {
        let settings = Settings::new(letters, k, mirror);
        let what = format!("{settings}: {}, room {room}", shown(word));
        assert_eq!(calls::code(&settings, word), REFUSED + coding, "{what}: kmer_code");
        let left = calls::word(&settings, u64::MAX, room);
        assert_eq!(left, (REFUSED + reading, filled(room)), "{what}: kmer_word");
        let left = calls::mirror(&settings, word, room);
        assert_eq!(left, (REFUSED + p * 256 + number, filled(room)), "{what}: kmer_mirror");
    }
}

/// Words through coding and mirroring, and some codes through reading, into buffers of many lengths, beside
/// the reference of the grounds.
fn check_calls(settings: &Settings, words: &[&[u8]]) {
    let rooms = [0, 1, 2, 3, 4, 30, 31, 39, 62, 63, 70];
    for word in words {
        check_code(settings, word, coding(settings, word));
        for room in rooms {
            check_mirror(settings, word, room, &mirroring(settings, word, room));
        }
    }
    for code in [0, 1, 2, 3, 5, 6, 10, 40, 1 << 61, 1 << 62, 1 << 63, u64::MAX] {
        for room in rooms {
            check_word(settings, code, room, &reading(settings, code, room));
        }
    }
}

/// Every combination of good and bad arguments.
#[test]
fn combinations_of_faults_answer_as_the_reference() {
    let words: [&[u8]; 10] = [b"", b"A", b"T", b"tB", b"AC", b"A#", b"ACG", b"GCA", b"GcA", b"AC\n"];
    for settings in good_and_bad_settings() {
        check_calls(&settings, &words);
    }
}

//! U read as T (document 02, K2). Words, sequences and files beside their copies with T for some or all of the
//! U, through every call that takes bytes and through the program, each also beside the reference; and what each
//! byte is read as under letters with T and no U, with U and no T, with both and with neither, written out.

use kmer_tests::book::TOP;
use kmer_tests::calls;
use kmer_tests::calls::REFUSED;
use kmer_tests::draw::*;
use kmer_tests::draw_fastq::*;
use kmer_tests::draw_files::*;
use kmer_tests::expected::*;
use kmer_tests::files::{Kind, FASTA, FASTQ};
use kmer_tests::program::check_beside_second;
use kmer_tests::second_counter::answer;
use kmer_tests::sequences::{along, check_along, check_codes, two_bit_settings, NO_CODE};
use kmer_tests::settings::*;
use kmer_tests::tables::*;

/// s different capitals in any order, T among them and no U.
fn letters_with_t(random: &mut Random, s: usize) -> Vec<u8> {
    let others = drawn_capitals(random, 26).into_iter().filter(|letter| !b"TU".contains(letter));
    let mut letters: Vec<u8> = others.take(s - 1).collect();
    letters.insert(random.below(s as u64) as usize, b'T');
    letters
}

/// A copy with T for U and t for u: of all of them, or of about half.
fn copied(random: &mut Random, bytes: &[u8]) -> Vec<u8> {
    let all = random.below(2) == 0;
    let mut copy = bytes.to_vec();
    for byte in copy.iter_mut().filter(|byte| matches!(byte, b'U' | b'u')) {
        if all || random.below(2) == 0 {
            *byte -= 1;
        }
    }
    copy
}

/// A whole or a damaged file of a drawn kind, with the number that names its kind.
fn drawn_for_a_list(random: &mut Random, settings: &Settings) -> (u64, Vec<u8>) {
    let fastq = [FASTA, FASTQ][random.below(2) as usize];
    let file = drawn_of(random, Kind::named(fastq), settings, 300);
    match random.below(3) {
        0 => (fastq, damaged_of(random, Kind::named(fastq), settings, file)),
        _ => (fastq, file),
    }
}

/// "There a file and its copy with T for U must now give equal tables": lists of both kinds of file, and the same
/// lists with copies; after every call the answers, refusals and their P included, and the whole tables are the
/// same.
#[test]
fn files_and_their_copies_give_equal_tables() {
    let mut random = Random::new(90);
    let (mut taken, mut turned_away, mut replaced) = ([0; 2], [0; 18], 0);
    for (s, mirror, k) in sizes_up_to(20_000) {
        let settings = Settings::new(&letters_with_t(&mut random, s), k, mirror);
        let (mut book, mut table) = cleared(&settings, 2);
        let (mut other_book, mut other_table) = cleared(&settings, 2);
        for _ in 0..12 {
            let (fastq, file) = drawn_for_a_list(&mut random, &settings);
            let copy = copied(&mut random, &file);
            replaced += (copy != file) as usize;
            let room = if random.below(16) == 0 { 4 } else { 5 };
            let answer = check_add(&mut book, &mut table, fastq, &file, room);
            let other = check_add(&mut other_book, &mut other_table, fastq, &copy, room);
            assert_eq!(answer, other, "{settings}: {} and {}", shown_file(&file), shown_file(&copy));
            assert!(table.slice() == other_table.slice(), "{settings}: {}", shown_file(&file));
            match answer {
                Ok(_) => taken[(fastq == FASTQ) as usize] += 1,
                Err(refusal) => turned_away[refusal.number as usize] += 1,
            }
        }
        check_sum(&book, &table);
    }
    // The lists are worth their name only where all kinds of calls are in them.
    assert!(
        taken.iter().all(|&count| count > 300) && replaced > 500,
        "{taken:?} taken in, {replaced} replaced"
    );
    assert!([7, 10, 11, 15, 16, 17].iter().all(|&number| turned_away[number] > 5), "{turned_away:?}");
}

/// Document 02, K4: a file is taken out by its copy, and a copy by its file, with the same numbers; a damaged one is
/// refused alike. A file that stays keeps some other counts above 0.
#[test]
fn a_file_and_its_copy_take_each_other_out() {
    let mut random = Random::new(94);
    let (mut given_back, mut turned_away, mut replaced) = ([0; 2], 0, 0);
    for (s, mirror, k) in sizes_up_to(20_000) {
        let settings = Settings::new(&letters_with_t(&mut random, s), k, mirror);
        let (mut book, mut table) = cleared(&settings, 2);
        let stays = drawn_of(&mut random, Kind::Fasta, &settings, 300);
        check_add(&mut book, &mut table, FASTA, &stays, 5).expect("a file without damage");
        for turn in 0..8 {
            let before = table.slice().to_vec();
            let (fastq, file) = drawn_for_a_list(&mut random, &settings);
            let copy = copied(&mut random, &file);
            replaced += (copy != file) as usize;
            let (added, withdrawn) = if turn % 2 == 0 { (&file, &copy) } else { (&copy, &file) };
            let answer = check_add(&mut book, &mut table, fastq, added, 5);
            let other = check_withdraw(&mut book, &mut table, fastq, withdrawn, 5);
            assert_eq!(answer, other, "{settings}: {} and {}", shown_file(added), shown_file(withdrawn));
            assert!(table.slice() == before, "{settings}: {}", shown_file(withdrawn));
            match answer {
                Ok(_) => given_back[(fastq == FASTQ) as usize] += 1,
                Err(_) => turned_away += 1,
            }
        }
    }
    assert!(
        given_back.iter().all(|&count| count > 200) && replaced > 300,
        "{given_back:?}, {replaced} replaced"
    );
    assert!(turned_away > 100, "{turned_away} refused");
}

/// On both paths where there are two, with foreign bytes between the letters.
#[test]
fn sequences_and_their_copies_have_equal_codes() {
    let mut random = Random::new(91);
    let drawn = (2..=16).map(|s| Settings::new(&letters_with_t(&mut random, s), 1 + s % 5, s as u64 % 2));
    let all: Vec<Settings> = drawn.chain((1..=31).map(two_bit_settings)).collect();
    for settings in all {
        for gap in [0, 9, 60] {
            let sequence = drawn_sequence(&mut random, &settings, 400, gap);
            let copy = copied(&mut random, &sequence);
            assert!(copy != sequence, "{settings}: no U in {}", shown(&sequence));
            for room in [400, 400 - settings.k, 0] {
                check_along(&settings, &sequence, room);
                check_along(&settings, &copy, room);
                assert_eq!(along(&settings, &sequence, room), along(&settings, &copy, room), "{settings}");
            }
        }
    }
}

/// Coded and mirrored, with and without a foreign byte. "Words that we write keep T."
#[test]
fn words_and_their_copies_are_answered_alike() {
    let mut random = Random::new(92);
    let (mut replaced, mut foreign) = (0, 0);
    for (s, mirror, k) in good_sizes() {
        let settings = Settings::new(&letters_with_t(&mut random, s), k, mirror);
        for turn in 0..20 {
            let word = drawn_word(&mut random, s, k);
            let mut word = spelled_mixed(&mut random, &settings.letters, &word);
            if turn % 4 == 0 {
                word[random.below(k as u64) as usize] = b'#';
            }
            let copy = copied(&mut random, &word);
            replaced += (copy != word) as usize;
            let expected = coding(&settings, &word);
            foreign += expected.is_err() as usize;
            check_code(&settings, &word, expected);
            check_code(&settings, &copy, expected);
            let mirrored = mirroring(&settings, &word, k + 1);
            check_mirror(&settings, &word, k + 1, &mirrored);
            check_mirror(&settings, &copy, k + 1, &mirrored);
        }
    }
    assert!(replaced > 2000 && foreign > 1000, "{replaced} replaced, {foreign} foreign");
}

/// Ground 12 beside a copy, in both kinds of file: two windows, taken in where the highest count can take two
/// more, and refused where it can take one.
#[test]
fn full_counts_refuse_a_file_and_its_copy() {
    let settings = Settings::new(b"ACGT", 2, COMPLEMENT);
    for (fastq, file) in [(FASTA, b">\nUUa\n".to_vec()), (FASTQ, b"@\nUUa\n+\nIII\n".to_vec())] {
        for bytes in [file.clone(), file.iter().map(|&byte| if byte == b'U' { b'T' } else { byte }).collect()]
        {
            for (count, answer) in [(TOP - 2, Ok([1, 3, 0, 1, 2])), (TOP - 1, refused(12, 0))] {
                let (mut book, mut table) = table_with(&settings, 0, count);
                assert_eq!(check_add(&mut book, &mut table, fastq, &bytes, 5), answer, "{}", shown(&bytes));
            }
        }
    }
}

/// The program's whole output, for files taken in and refused, beside the second counter's too.
#[test]
fn the_program_prints_the_same_for_a_copy() {
    let mut random = Random::new(93);
    let (mut inputs, mut replaced) = (Vec::new(), 0);
    for turn in 0..150 {
        let settings =
            Settings::new(&letters_with_t(&mut random, 2 + turn % 6), 1 + turn % 4, turn as u64 % 2);
        let (_, file) = drawn_for_a_list(&mut random, &settings);
        let name = ["reversal", "complement"][settings.mirror as usize];
        let letters = String::from_utf8(settings.letters.clone()).expect("capitals");
        let line = format!("(survey (letters {letters}) (k {}) (mirror {name}))\n", settings.k);
        let copy = copied(&mut random, &file);
        replaced += (copy != file) as usize;
        let [input, other] = [file, copy].map(|file| [line.as_bytes(), &file[..]].concat());
        assert_eq!(answer(&input), answer(&other), "{}", shown_file(&input));
        inputs.extend([input, other]);
    }
    let kinds = check_beside_second(&inputs);
    assert!(replaced > 50 && kinds["counted"] > 100 && kinds.len() > 3, "{replaced} replaced, {kinds:?}");
}

/// What bytes T, t, U and u are under some letters: their ranks, which are their codes for k 1 and reversal, and
/// none for those that are foreign.
const READ: [(&str, [Option<u64>; 4]); 10] = [
    ("ACGT", [Some(3), Some(3), Some(3), Some(3)]),
    ("TGCA", [Some(0), Some(0), Some(0), Some(0)]),
    ("AT", [Some(1), Some(1), Some(1), Some(1)]),
    ("ACGU", [None, None, Some(3), Some(3)]),
    ("UV", [None, None, Some(0), Some(0)]),
    ("ACGTU", [Some(3), Some(3), Some(4), Some(4)]),
    ("UT", [Some(1), Some(1), Some(0), Some(0)]),
    ("TU", [Some(0), Some(0), Some(1), Some(1)]),
    ("ACG", [None, None, None, None]),
    ("SV", [None, None, None, None]),
];

/// In words, in sequences and in files of both kinds; every other byte is read as document 01 alone has it.
#[test]
fn every_byte_under_letters_with_and_without_t_and_u() {
    for (letters, read) in READ {
        let settings = Settings::new(letters.as_bytes(), 1, REVERSAL);
        for byte in 0..=255u8 {
            let due = match b"TtUu".iter().position(|&other| other == byte) {
                Some(place) => read[place],
                None => letters.bytes().position(|l| l == byte.to_ascii_uppercase()).map(|rank| rank as u64),
            };
            assert_eq!(
                rank(letters.as_bytes(), byte).map(u64::from),
                due,
                "{settings}: the reference, byte {byte}"
            );
            let code = due.unwrap_or(REFUSED + 9);
            assert_eq!(calls::code(&settings, &[byte]), code, "{settings}: kmer_code of byte {byte}");
            check_codes(&settings, &[byte, byte], 2, &Ok(vec![due.unwrap_or(NO_CODE); 2]));
            if byte.is_ascii_alphabetic() {
                let foreign = due.is_none() as u64;
                let numbers = Ok([1, 1, foreign, 0, 1 - foreign]);
                assert_eq!(
                    check_file(&settings, FASTA, &record(&[byte])),
                    numbers,
                    "{settings}: byte {byte}"
                );
                let fastq = [b"@\n", &[byte][..], b"\n+\nI\n"].concat();
                assert_eq!(check_file(&settings, FASTQ, &fastq), numbers, "{settings}: byte {byte} in FASTQ");
            }
        }
    }
}

/// The two-bit path and the other, written out: A and T are one class, C and G the other.
#[test]
fn both_paths_read_u_as_t() {
    let codes = vec![1, 1, 1, 1, 1, 0, 0, NO_CODE];
    check_codes(&two_bit_settings(1), b"ATtUuCGN", 8, &Ok(codes));
    check_codes(&two_bit_settings(2), b"UAuaN", 4, &Ok(vec![3, 0, 3, NO_CODE]));
}

/// The settings' own letters are as before: U is a letter of its own, beside T too, and a small letter is none.
#[test]
fn letters_of_the_settings_are_as_before() {
    for letters in ["ACGU", "TU", "UT", "ACGTU"] {
        let settings = Settings::new(letters.as_bytes(), 2, REVERSAL);
        for letter in letters.bytes() {
            let word = vec![letter; 2];
            check_word(&settings, calls::code(&settings, &word), 3, &Ok(word));
        }
    }
    for letters in ["ACgU", "Tu", "UU", "AU "] {
        let settings = Settings::new(letters.as_bytes(), 2, REVERSAL);
        check_code(&settings, b"UU", Err(Refusal { number: 1, p: 0 }));
        check_word(&settings, 0, 2, &Err(Refusal { number: 1, p: 0 }));
    }
}

//! Mirroring through kmer_mirror, beside the second coder, with grounds 5, 7 and 9 and their P. The order of
//! all its grounds is in refusals.rs.

use kmer_tests::calls;
use kmer_tests::draw::*;
use kmer_tests::expected::*;
use kmer_tests::settings::*;
use kmer_tests::vectors::{bytes, vectors};

const DRAWN: usize = 300;

/// Written out, with no reference: the mirrors of some words, most of them of the cases of documents 01 and
/// 02. With odd s the middle rank is its own mirror under complement.
#[test]
fn known_mirrors() {
    let cases = [
        ("ACGT", REVERSAL, "AAAACA", "ACAAAA"),
        ("ACGT", REVERSAL, "ttGTTT", "TTTGTT"),
        ("ACGT", COMPLEMENT, "TACGGCTA", "TAGCCGTA"),
        ("ACGT", COMPLEMENT, "aactt", "AAGTT"),
        ("ACGT", COMPLEMENT, "A", "T"),
        ("TGCA", COMPLEMENT, "GGG", "CCC"),
        ("ABC", REVERSAL, "Bca", "ACB"),
        ("ABC", COMPLEMENT, "b", "B"),
        ("ABC", COMPLEMENT, "C", "A"),
        ("ABC", COMPLEMENT, "Bca", "CAB"),
        ("ABC", COMPLEMENT, "cBA", "CBA"),
        ("ACXGT", COMPLEMENT, "GATxaca", "TGTXATC"),
        ("ACGT", REVERSAL, "UuA", "ATT"),
        ("ACGT", COMPLEMENT, "AUu", "AAT"),
        ("ACGU", COMPLEMENT, "AUu", "AAU"),
    ];
    for (letters, mirror, word, expected) in cases {
        let settings = Settings::new(letters.as_bytes(), word.len(), mirror);
        let (answer, left) = calls::mirror(&settings, word.as_bytes(), word.len());
        assert_eq!((answer, left), (word.len() as u64, expected.as_bytes().to_vec()), "{settings}: {word}");
    }
}

#[test]
fn drawn_words_of_all_settings_have_their_mirrors() {
    let mut random = Random::new(11);
    for (s, mirror, k) in good_sizes() {
        let settings = Settings::new(&drawn_capitals(&mut random, s), k, mirror);
        let coder = coder(&settings);
        for _ in 0..DRAWN {
            let word = drawn_word(&mut random, s, k);
            let spelling = spelled_mixed(&mut random, &settings.letters, &word);
            let room = k + random.below(20) as usize;
            let turned = spelled(&settings.letters, &coder.mirror(&word));
            check_mirror(&settings, &spelling, room, &Ok(turned.clone()));
            // The mirror's mirror is the word, in capitals, and both have one code.
            check_mirror(&settings, &turned, room, &Ok(spelled(&settings.letters, &word)));
            assert_eq!(
                calls::code(&settings, &spelling),
                calls::code(&settings, &turned),
                "{settings}: {}",
                shown(&spelling)
            );
        }
    }
}

/// Ground 7 for every short buffer, ground 9 for a foreign byte at every place, with P.
#[test]
fn short_buffers_and_foreign_bytes() {
    let mut random = Random::new(12);
    for (s, mirror, k) in good_sizes() {
        let settings = Settings::new(&drawn_capitals(&mut random, s), k, mirror);
        let word = drawn_word(&mut random, s, k);
        let mut word = spelled_mixed(&mut random, &settings.letters, &word);
        for room in 0..k {
            check_mirror(&settings, &word, room, &Err(Refusal { number: 7, p: k as u64 }));
        }
        // From the last place to the first, so that the first of several foreign bytes is P.
        for place in (0..k).rev() {
            word[place] = [0, b' ', b'@', b'[', b'`', b'{', b'>', 0xff][random.below(8) as usize];
            check_mirror(&settings, &word, k + 2, &Err(Refusal { number: 9, p: place as u64 }));
        }
    }
}

/// Bytes after the first k keep what they held, also in a buffer of a megabyte; long words are refused.
#[test]
fn long_buffers_and_long_words() {
    let settings = Settings::new(b"ACGT", 5, COMPLEMENT);
    check_mirror(&settings, b"AACtt", 1 << 20, &Ok(b"AAGTT".to_vec()));
    check_mirror(&settings, &vec![b'A'; 1 << 20], 5, &Err(Refusal { number: 5, p: 0 }));
    let long = Settings::new(&vec![b'A'; 1 << 20], 5, COMPLEMENT);
    check_mirror(&long, b"AAAAA", 5, &Err(Refusal { number: 1, p: 0 }));
}

/// The stored answers of the independent references, held against the call and the second coder.
#[test]
fn stored_mirrors() {
    for vector in vectors("mirror", [54, 29, 1, 0, 0]) {
        let word = bytes(vector.given);
        check_mirror(&vector.settings, &word, vector.room, &vector.stored_bytes());
        vector.check_second_bytes(mirroring(&vector.settings, &word, vector.room));
    }
}

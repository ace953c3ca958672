//! The cases of documents 01 and 02 that concern words, with their own numbers, and more of the kind of K10's, with
//! numbers worked out by hand; no second coder.

use kmer_tests::calls;
use kmer_tests::calls::REFUSED;
use kmer_tests::draw::first_capitals;
use kmer_tests::lent::filled;
use kmer_tests::settings::*;

fn code(letters: &str, k: usize, mirror: u64, word: &str) -> u64 {
    calls::code(&Settings::new(letters.as_bytes(), k, mirror), word.as_bytes())
}

/// The word of a code; the buffer has room for more, which must stay as it was.
fn word(letters: &str, k: usize, mirror: u64, code: u64) -> String {
    let settings = Settings::new(letters.as_bytes(), k, mirror);
    let (answer, left) = calls::word(&settings, code, k + 5);
    assert_eq!(answer, k as u64, "{settings}: answer for code {code}");
    assert_eq!(left[k..], filled(k + 5)[k..], "{settings}: bytes after the word of code {code}");
    String::from_utf8(left[..k].to_vec()).expect("a word of letters")
}

/// All classes of the settings, by rising code; the next code is refused.
fn check_all(letters: &str, k: usize, mirror: u64, words: &str) {
    let words: Vec<&str> = words.split(' ').collect();
    for (q, expected) in words.iter().enumerate() {
        assert_eq!(word(letters, k, mirror, q as u64), *expected, "{letters} k {k} mirror {mirror} code {q}");
        assert_eq!(
            code(letters, k, mirror, expected),
            q as u64,
            "{letters} k {k} mirror {mirror} {expected}"
        );
    }
    let settings = Settings::new(letters.as_bytes(), k, mirror);
    let next = words.len() as u64;
    assert_eq!(calls::word(&settings, next, k), (REFUSED + 8, filled(k)), "{settings}: code {next}");
}

#[test]
fn acgt_reversal_k_6() {
    assert_eq!(code("ACGT", 6, REVERSAL, "AAAACA"), 160);
    assert_eq!(code("ACGT", 6, REVERSAL, "TTGTTT"), 159);
    assert_eq!(word("ACGT", 6, REVERSAL, 160), "AAAACA");
    assert_eq!(word("ACGT", 6, REVERSAL, 159), "TTGTTT");
}

#[test]
fn acgt_complement_k_5_and_k_8() {
    assert_eq!(code("ACGT", 5, COMPLEMENT, "AACTT"), 0);
    assert_eq!(word("ACGT", 5, COMPLEMENT, 0), "AACTT");
    assert_eq!(code("ACGT", 8, COMPLEMENT, "TACGGCTA"), 1571);
    assert_eq!(code("ACGT", 8, COMPLEMENT, "TAGCCGTA"), 1571);
    assert_eq!(word("ACGT", 8, COMPLEMENT, 1571), "TACGGCTA");
}

/// Document 02, K2: "ACGT, complement, k 2, UA has code 3"; "Words that we write keep T".
#[test]
fn acgt_complement_k_2_with_u() {
    for spelling in ["UA", "uA", "Ua", "ua", "TA"] {
        assert_eq!(code("ACGT", 2, COMPLEMENT, spelling), 3, "{spelling}");
    }
    assert_eq!(word("ACGT", 2, COMPLEMENT, 3), "TA");
}

#[test]
fn acgt_complement_k_1() {
    for (letter, expected) in [("C", 0), ("G", 0), ("A", 1), ("T", 1), ("c", 0), ("t", 1)] {
        assert_eq!(code("ACGT", 1, COMPLEMENT, letter), expected, "{letter}");
    }
    check_all("ACGT", 1, COMPLEMENT, "C A");
}

#[test]
fn whole_lists_of_classes() {
    check_all("ACGT", 2, COMPLEMENT, "AT CG GC TA AG AC AA CC CA GA");
    check_all("AB", 3, REVERSAL, "AAA BAB ABA BBB AAB ABB");
    check_all("ABC", 2, REVERSAL, "AA BB CC AB AC BC");
}

#[test]
fn acgt_complement_k_31_ends_with_g_29_t_a() {
    let last = 2_305_843_009_213_693_951;
    let expected = format!("G{}A", "T".repeat(29));
    assert_eq!(word("ACGT", 31, COMPLEMENT, last), expected);
    assert_eq!(code("ACGT", 31, COMPLEMENT, &expected), last);
    let settings = Settings::new(b"ACGT", 31, COMPLEMENT);
    assert_eq!(calls::word(&settings, last + 1, 40), (REFUSED + 8, filled(40)));
}

/// Document 02, K10: B is its own mirror.
#[test]
fn abc_complement_k_1() {
    for (letter, expected) in [("B", 0), ("A", 1), ("C", 1), ("b", 0), ("a", 1), ("c", 1)] {
        assert_eq!(code("ABC", 1, COMPLEMENT, letter), expected, "{letter}");
    }
    check_all("ABC", 1, COMPLEMENT, "B A");
}

/// Document 02, K10: the palindromes x B y come first, then x A y with the same x and y, all with the digits
/// 0, r of the middle letter, r of y; then the pairs A B, A A and B A with any letter between, from 1 0 0 on.
#[test]
fn abc_complement_k_3() {
    check_all("ABC", 3, COMPLEMENT, "ABC BBB CBA AAC BAB CAA AAB ABB ACB AAA ABA ACA BAA BBA BCA");
    assert_eq!(code("ABC", 3, COMPLEMENT, "CCC"), 9);
    assert_eq!(code("ABC", 3, COMPLEMENT, "cab"), 14);
}

/// Document 02, K10, with its number of classes, (s^k + s^(k/2 rounded down)) / 2: the highest code has the
/// highest pair at its ends, the last letter but one with the first, and the last letter between.
#[test]
fn the_largest_k_for_odd_s_under_complement() {
    for (s, k) in [(3, 39), (5, 26), (7, 22), (9, 19), (11, 17), (13, 16), (15, 15)] {
        let letters = first_capitals(s);
        let settings = Settings::new(&letters, k, COMPLEMENT);
        let power = |exponent: usize| (s as u64).pow(exponent as u32);
        let last = (power(k) + power(k / 2)) / 2 - 1;
        let between = vec![letters[s - 1]; k - 2];
        let highest = [&[letters[s - 2]], &between[..], &[letters[0]]].concat();
        assert_eq!(calls::code(&settings, &highest), last, "{settings}");
        assert_eq!(calls::word(&settings, last, k), (k as u64, highest), "{settings}: code {last}");
        assert_eq!(calls::word(&settings, last + 1, k), (REFUSED + 8, filled(k)), "{settings}: the next");
        let above = Settings::new(&letters, k + 1, COMPLEMENT);
        assert_eq!(calls::code(&above, &vec![letters[0]; k + 1]), REFUSED + 4, "{above}");
        assert_eq!(calls::word(&above, 0, k + 1), (REFUSED + 4, filled(k + 1)), "{above}");
    }
}

#[test]
fn the_largest_k_and_one_more() {
    for (s, k) in [(2, 62), (3, 39), (4, 31), (16, 15)] {
        let letters = first_capitals(s);
        let settings = Settings::new(&letters, k, REVERSAL);
        let lowest = vec![letters[0]; k];
        assert_eq!(calls::code(&settings, &lowest), 0, "{settings}");
        assert_eq!(calls::word(&settings, 0, k), (k as u64, lowest), "{settings}");
        let above = Settings::new(&letters, k + 1, REVERSAL);
        assert_eq!(calls::code(&above, &vec![letters[0]; k + 1]), REFUSED + 4, "{above}");
        assert_eq!(calls::word(&above, 0, k + 1), (REFUSED + 4, filled(k + 1)), "{above}");
    }
}

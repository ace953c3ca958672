//! Which ground a load answers where several apply (document 02, K7: "the first line at fault wins, in that
//! order within a line, after 7"; document 01: "Checks go in number order"): lists written out, two faults in
//! every two lines of a listing, and all combinations of good and bad arguments.

use kmer_tests::loads::*;
use kmer_tests::sequences::two_bit_settings;
use kmer_tests::settings::*;

/// Letters, k, mirror, places, text; the number and P of the refusal.
type Faulty<'a> = (&'a [u8], usize, u64, usize, &'a [u8], (u64, u64));

/// 1, 2, 4, 6 and 7 by number before any fault of the text: written out. A text that is good under the
/// settings is refused too.
#[test]
fn grounds_go_in_number_order() {
    let good = EXAMPLE.concat();
    let empty = b"(survey (letters ACG) (k 3) (mirror complement) (classes 15))\n(total 0)\n";
    let cases: [Faulty; 28] = [
        (b"AcG", 0, 2, 0, b"", (1, 0)),
        (b"", 2, 1, 10, &good, (1, 0)),
        (b"ACGTA", 2, 1, 10, &good, (1, 0)),
        (b"ABCDEFGHIJKLMNOPQ", 1, 0, 17, b"x", (1, 0)),
        (b"ACG", 0, 2, 0, b"", (2, 0)),
        (b"ACGT", 2, 2, 10, &good, (2, 0)),
        (b"ACGT", 2, u64::MAX, 10, &good, (2, 0)),
        (b"ACGT", 2, 1 << 32, 9, b"x\n", (2, 0)),
        (b"ACG", 0, 1, 0, b"", (4, 0)),
        (b"ACGT", 0, 1, 10, &good, (4, 0)),
        (b"ACGT", 32, 1, 0, b"(total 1)\n", (4, 0)),
        (b"ACGT", usize::MAX, 1, 10, &good, (4, 0)),
        (b"ACGT", 1 << 32 | 2, 1, 10, &good, (4, 0)),
        (b"AB", 63, 0, 10, b"", (4, 0)),
        (b"ACG", 16, 1, 0, b"", (6, 0)),
        (b"ACGT", 31, 1, 0, b"x", (6, 0)),
        (b"ACGT", 13, 1, 10, &good, (6, 0)),
        (b"AB", 62, 0, 10, &good, (6, 0)),
        (b"ABCDEFGHIJKLMNOP", 15, 1, 10, b"\n", (6, 0)),
        (b"ACG", 3, 1, 14, empty, (7, 15)),
        (b"ACGT", 2, 1, 9, &good, (7, 10)),
        (b"ACGT", 2, 1, 0, &good, (7, 10)),
        (b"ACGT", 2, 1, 9, b"", (7, 10)),
        (b"ACGT", 2, 1, 9, b"(survey (letters AB) (k 1) (mirror foo) (classes 0))\n", (7, 10)),
        (b"ACGT", 12, 1, 8_390_655, b"(total 1)\n", (7, 8_390_656)),
        (b"ACGT", 2, 1, 10, b"", (20, 0)),
        (b"ACGT", 2, 0, 10, &good, (21, 0)),
        (b"ACG", 3, 1, 15, empty, (0, 0)),
    ];
    for (letters, k, mirror, places, text, found) in cases {
        let settings = Settings::new(letters, k, mirror);
        let what = format!("{settings}: {places} places, {}", shown_file(text));
        assert_eq!(check_fresh_load(&settings, places, text), found, "{what}");
    }
}

/// What may stand in place of a line, with the number that it gives there, whatever the other lines are.
fn faults(place: usize) -> Vec<(&'static [u8], u64)> {
    let mut faults: Vec<(&[u8], u64)> = vec![(b"\n", 20), (b"(count AA 01)\n", 20), (b"(total 1 )\n", 20)];
    faults.extend(match place {
        0 => [
            (&b"(survey (letters ACGT) (k 2) (mirror complement) (classes 11))\n"[..], 21),
            (b"(survey (letters TTTT) (k 0) (mirror z) (classes 0))\n", 21),
            (b"(total 6)\n", 20),
        ],
        _ => [(EXAMPLE[0], 20), (b"(count TT 1)\n", 22), (b"(total 99)\n", 22)],
    });
    faults
}

/// Two lines at fault: the first of them is answered, with its offset, whatever the other is.
#[test]
fn the_first_line_at_fault_wins() {
    for (first, second) in (0..6).flat_map(|first| (first + 1..6).map(move |second| (first, second))) {
        for (fault, number) in faults(first) {
            for (other, _) in faults(second) {
                let mut lines = EXAMPLE;
                (lines[first], lines[second]) = (fault, other);
                let text = lines.concat();
                let found = check_fresh_load(&two_bit_settings(2), 11, &text);
                assert_eq!(found, (number, OFFSETS[first]), "{}", shown_file(&text));
            }
        }
    }
}

/// "In that order within a line": where 20 applies to a line, 22 is not asked, nor 21.
#[test]
fn the_order_within_a_line() {
    for (place, line, number) in [
        // Not canonical, no rising code and no good count, but none of the shapes.
        (2, &b"(count TT 00)\n"[..], 20),
        (2, b"(count cg 1)\n", 20),
        (2, b"(count TT 0) \n", 20),
        (2, b"(count CG 1)\r\n", 20),
        (2, b"(count TTT 4294967296)\n", 20),
        (5, b"(total 07)\n", 20),
        (5, b"(total 7)\r\n", 20),
        // Several causes of one ground.
        (2, b"(count TT 0)\n", 22),
        (2, b"(count CG 4294967296)\n", 22),
        (0, b"(survey (letters AB) (k 1) (mirror reversal) (classes 99))\n", 21),
        (0, b"(survey (letters AB) (k 1) (mirror reversal) (classes 099))\n", 20),
        (0, b"(survey (letters AB) (k 1) (mirror reversal) (classes 99))\r\n", 20),
    ] {
        let mut lines = EXAMPLE;
        lines[place] = line;
        let found = check_fresh_load(&two_bit_settings(2), 11, &lines.concat());
        assert_eq!(found, (number, OFFSETS[place]), "{}", line.escape_ascii());
    }
}

/// Every combination of good and bad arguments, beside the second loader: how often each ground was answered.
#[test]
fn combinations_of_faults_answer_as_the_reference() {
    let texts: [Vec<u8>; 6] = [
        Vec::new(),
        EXAMPLE.concat(),
        [EXAMPLE[0], b"(total 1)\n"].concat(),
        b"(survey (letters TB) (k 1) (mirror complement) (classes 1))\n(total 0)\n".to_vec(),
        b"(survey (letters ACG) (k 2) (mirror reversal) (classes 6))\n(count CA 1)\n(total 1)\n".to_vec(),
        b"(survey (letters ACG) (k 3) (mirror complement) (classes 15))\n(count ACG 5)\n(total 5)\n".to_vec(),
    ];
    let mut found = [0; 23];
    for settings in good_and_bad_settings() {
        for places in [0, 1, 2, 3, 6, 9, 10, 15, 40, 1000] {
            for text in &texts {
                found[check_fresh_load(&settings, places, text).0 as usize] += 1;
            }
        }
    }
    // Each ground that a load has is answered; three texts are loaded, with 4, 9 and 3 numbers of places, and
    // two have a line that is refused 22, with 4 and 6.
    let answered: Vec<usize> = (0..23).filter(|&number| found[number] > 0).collect();
    assert_eq!(answered, [0, 1, 2, 4, 6, 7, 20, 21, 22], "{found:?}");
    assert_eq!((found[0], found[22]), (4 + 9 + 3, 4 + 6), "{found:?}");
}

//! Listings that are refused, with number and P by hand (document 02, K7): lines that have none of the
//! shapes, stand at another kind's place or are missing (20), words that are not canonical or whose code does
//! not rise, counts outside of their limits and totals that are not the sum (22). The survey line (21) is in
//! load_survey_lines.rs, the order of the grounds in load_order.rs. A refused call changes no place of the
//! table.

use kmer_tests::expected::coder;
use kmer_tests::loads::*;
use kmer_tests::second_counter::listing_of;
use kmer_tests::sequences::two_bit_settings;
use kmer_tests::settings::*;

/// The example with some lines in place of one, the first of which has place 0; at place 6 they follow the
/// last.
fn with_lines(place: usize, lines: &[u8]) -> Vec<u8> {
    [&EXAMPLE[..place].concat(), lines, &EXAMPLE[EXAMPLE.len().min(place + 1)..].concat()].concat()
}

/// A text is refused under the example's settings, by the call and by the second loader.
fn check_refused(text: &[u8], number: u64, p: u64) {
    let found = check_fresh_load(&two_bit_settings(2), 13, text);
    assert_eq!(found, (number, p), "the second loader: {}", shown_file(text));
}

/// The same for the example with some lines in place of one, whose offset is P.
fn check_line_refused(place: usize, lines: &[u8], number: u64) {
    check_refused(&with_lines(place, lines), number, OFFSETS[place]);
}

/// Lines without their LF that have none of the shapes, parted by bars: line ends, brackets, spaces and
/// names.
const NO_LINES: &str =
    "|\r| |\0|(|)|()|(count)|(count )|(count AA)|(count AA )|(count 1)|(count  1)|(count 1 AA)|\
    (count AA 1 1)|(count AA AA 1)|(count  AA 1)|(count AA  1)|(count AA 1 )|(count AA 1) | (count AA 1)|\
    (count AA 1)\r|(count AA 1)\0|(count\tAA\t1)|(count\nAA 1)|(count AA,1)|(count AA 1|count AA 1|\
    count AA 1)|(count AA 1))|((count AA 1)|[count AA 1]|(Count AA 1)|(COUNT AA 1)|(counts AA 1)|(coun AA 1)|\
    (count(AA 1))|(countAA 1)|(total)|(total )|(total  6)|(total 6 )|(total 6) |(total 6|total 6)|(total 6))|\
    ((total 6)|(total 3 3)|(total6)|(Total 6)|(totals 6)|(total 6)\r|(sum 6)|(refused 20 0)|>a|ACGT|\
    (survey)|(survey (letters ACGT) (k 2) (mirror complement))|\
    (file (records 2) (letters 9) (foreign 1) (edge 2) (windows 6))";

/// In place of each line, and after the last: with LF, and without it, where the next line is part of this
/// one.
#[test]
fn lines_of_none_of_the_shapes() {
    let lines: Vec<&str> = NO_LINES.split('|').collect();
    assert_eq!(lines.len(), 59);
    for place in 0..=EXAMPLE.len() {
        for line in &lines {
            check_line_refused(place, format!("{line}\n").as_bytes(), 20);
        }
        for line in [&b"(count AA 1)"[..], b"(count AA 1)\r", b"(total 6)", b"x", b" ", b"(survey "] {
            check_line_refused(place, line, 20);
        }
    }
}

/// "A word is k capitals of the settings (U for T is none)": two of A, C, G and T.
#[test]
fn words_that_are_none() {
    let words = "|A|AAA|AAAA|aa|aA|Aa|cg|UA|AU|ua|NN|AN|A-|A1|11|(A|A)|A\0|A\r|A\t|\u{391}|\u{c0}";
    for place in 1..=EXAMPLE.len() {
        for word in words.split('|') {
            check_line_refused(place, format!("(count {word} 1)\n").as_bytes(), 20);
        }
    }
    // Under ACGU it is T that is no letter.
    let settings = Settings::new(b"ACGU", 2, COMPLEMENT);
    let line = "(survey (letters ACGU) (k 2) (mirror complement) (classes 10))\n";
    for (word, found) in [("UA", (0, 0)), ("TA", (20, 63)), ("AT", (20, 63)), ("AU", (0, 0))] {
        let text = format!("{line}(count {word} 7)\n(total 7)\n");
        assert_eq!(check_fresh_load(&settings, 11, text.as_bytes()), found, "{word}");
    }
}

/// "Numbers have no leading zero but 0 itself", and have digits alone.
#[test]
fn numbers_that_are_none() {
    let numbers =
        "|01|06|00|000|0000000001|00000000000000000000000000000000000006|-1|+1|-0|1.0|1,000|1e3|0x1|\
        1_0|1u|one|I|\u{661}|\u{ff11}|1\0|1\t|1\r|1'|/|:|1:|1/|(1)|1)|(1| 1|1 ";
    for number in numbers.split('|') {
        for place in 1..=EXAMPLE.len() {
            check_line_refused(place, format!("(count AA {number})\n").as_bytes(), 20);
            check_line_refused(place, format!("(total {number})\n").as_bytes(), 20);
        }
    }
}

/// "Stands where another kind or none belongs": before any question of 21 or 22, of which some apply too.
#[test]
fn lines_at_the_place_of_another_kind_or_of_none() {
    let surveys = [EXAMPLE[0], b"(survey (letters AB) (k 3) (mirror reversal) (classes 6))\n"];
    for line in [&b"(count CG 1)\n"[..], b"(count TT 0)\n", b"(total 6)\n", b"(total 0)\n", b"(total 99)\n"] {
        check_line_refused(0, line, 20);
        check_line_refused(0, &[line, EXAMPLE[0]].concat(), 20);
        check_line_refused(6, line, 20);
    }
    for survey in surveys {
        for place in 1..6 {
            check_line_refused(place, survey, 20);
            check_line_refused(place, &[survey, EXAMPLE[place]].concat(), 20);
        }
        check_line_refused(6, survey, 20);
    }
    check_line_refused(6, &EXAMPLE.concat(), 20);
    check_line_refused(6, b"x", 20);
    check_line_refused(6, b"\0", 20);
    // A total that is the sum so far ends the listing, so that the next line is one too many.
    check_refused(&with_lines(3, b"(total 2)\n"), 20, OFFSETS[3] + 10);
}

/// "Or is missing; .. for a missing line the text's length". The last line that is there has no end where the
/// text is cut within it, so that it has none of the shapes.
#[test]
fn the_example_cut_at_every_length() {
    let text = EXAMPLE.concat();
    assert_eq!(text.len() as u64, OFFSETS[6]);
    for length in 0..text.len() {
        let line = OFFSETS.into_iter().rev().find(|&offset| offset <= length as u64).expect("the first is 0");
        check_refused(&text[..length], 20, line);
    }
    assert_eq!(check_fresh_load(&two_bit_settings(2), 10, &text), (0, 0));
    // Without lines of classes too.
    check_refused(EXAMPLE[0], 20, 63);
    check_refused(b"(total 0)\n", 20, 0);
}

/// "A count is not 1 to 4,294,967,295": 0, one more, and numbers that would be good ones with 8 to 128 bits.
#[test]
fn counts_outside_of_the_limits() {
    let mut counts: Vec<String> =
        ["0", "4294967296", "4294967297", "9999999999", "10000000000"].map(String::from).into();
    counts.extend(["18446744073709551615", "18446744073709551616", "18446744073709551617"].map(String::from));
    counts.push("340282366920938463463374607431768211457".to_string());
    counts.extend((10..60).map(|zeros| format!("1{}", "0".repeat(zeros))));
    counts.extend((10..60).map(|zeros| format!("1{}1", "0".repeat(zeros))));
    counts.push("4294967295".repeat(1000));
    for count in counts {
        for (place, word) in [(1, "CG"), (2, "GC"), (3, "AG"), (4, "AC")] {
            check_line_refused(place, format!("(count {word} {count})\n").as_bytes(), 22);
        }
        // Also where the total is the sum, and where another line is at fault later.
        let text = [EXAMPLE[0], format!("(count AA {count})\n(total {count})\n").as_bytes()].concat();
        check_refused(&text, 22, 63);
        check_refused(&[&text[..], b"x"].concat(), 22, 63);
    }
}

/// "The total is not the sum": near it, and what number types of 8 to 128 bits would take for it.
#[test]
fn totals_that_are_not_the_sum() {
    let totals =
        "0|1|5|7|16|60|66|262|65542|4294967302|18446744073709551622|1000000000000000000000000000006|\
        340282366920938463463374607431768211462";
    for total in totals.split('|') {
        check_line_refused(5, format!("(total {total})\n").as_bytes(), 22);
        check_refused(&with_lines(5, format!("(total {total})\n(total 6)\n").as_bytes()), 22, 115);
    }
    let long = format!("(total 6{})\n", "0".repeat(100_000));
    check_line_refused(5, long.as_bytes(), 22);
    // Two counts whose sum has more than 32 bits, and what 32 bits would leave of it.
    let lines = "(count AT 4294967295)\n(count GA 4294967295)\n(total ";
    for (total, found) in [("8589934590", (0, 0)), ("4294967294", (22, 107)), ("4294967295", (22, 107))] {
        let text = [EXAMPLE[0], format!("{lines}{total})\n").as_bytes()].concat();
        assert_eq!(check_fresh_load(&two_bit_settings(2), 12, &text), found, "{total}");
    }
}

/// "A word is not canonical": each word of small settings alone.
#[test]
fn every_word_alone() {
    let sizes =
        [(4, 1), (4, 2), (4, 3), (2, 1), (2, 7), (3, 1), (3, 2), (3, 5), (5, 3), (7, 2), (15, 2), (16, 2)];
    for ((s, k), mirror) in sizes.into_iter().flat_map(|size| [(size, REVERSAL), (size, COMPLEMENT)]) {
        let settings = Settings::new(&b"QWERTYUIOPASDFGH"[..s], k, mirror);
        let (coder, mut canonical) = (coder(&settings), 0);
        let empty = listing_of(&settings, &[]);
        let line = empty.len() - "(total 0)\n".len();
        for rank in 0..s.pow(k as u32) {
            let ranks: Vec<u8> = (0..k).rev().map(|i| (rank / s.pow(i as u32) % s) as u8).collect();
            let word: String = ranks.iter().map(|&rank| settings.letters[rank as usize] as char).collect();
            let text = [&empty[..line], format!("(count {word} 3)\n(total 3)\n").as_bytes()].concat();
            let is_canonical = ranks <= coder.mirror(&ranks);
            let found = if is_canonical { (0, 0) } else { (22, line as u64) };
            assert_eq!(check_fresh_load(&settings, coder.classes() as usize + 1, &text), found, "{word}");
            canonical += is_canonical as u128;
        }
        assert_eq!(canonical, coder.classes(), "{settings}");
    }
}

/// "Its code does not rise": each pair of classes, the same one twice included, is loaded in one order alone.
#[test]
fn every_pair_of_classes() {
    for (letters, k, mirror) in [
        (&b"ACGT"[..], 2, 1),
        (b"ACGT", 3, 1),
        (b"TGCA", 2, 0),
        (b"AB", 5, 0),
        (b"ZEBRA", 2, 1),
        (b"ABC", 3, 1),
    ] {
        let settings = Settings::new(letters, k, mirror);
        let words: Vec<String> = coder(&settings)
            .words_in_order()
            .iter()
            .map(|word| word.iter().map(|&rank| letters[rank as usize] as char).collect())
            .collect();
        let empty = listing_of(&settings, &[]);
        let line = empty.len() - "(total 0)\n".len();
        let second = (line + format!("(count {} 1)\n", words[0]).len()) as u64;
        for (one, other) in (0..words.len()).flat_map(|one| (0..words.len()).map(move |other| (one, other))) {
            let lines = format!("(count {} 1)\n(count {} 2)\n(total 3)\n", words[one], words[other]);
            let text = [&empty[..line], lines.as_bytes()].concat();
            let found = if one < other { (0, 0) } else { (22, second) };
            assert_eq!(check_fresh_load(&settings, words.len(), &text), found, "{settings}: {lines}");
        }
    }
}

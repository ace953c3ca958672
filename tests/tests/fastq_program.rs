//! The counter program with FASTQ files (document 02, K1): cases worked out by hand, inputs that come in pieces,
//! and drawn inputs beside the second counter. The stored answers are in program.rs.

use kmer_tests::draw_inputs::Inputs;
use kmer_tests::files::Kind;
use kmer_tests::program::*;
use kmer_tests::program_cases::*;
use kmer_tests::second_counter::{answer, first_line, MOST_INPUT};
use kmer_tests::settings::shown_file;

/// How many inputs are drawn.
const DRAWN: usize = 4000;

#[test]
fn cases_worked_out_by_hand() {
    let cases = fastq_cases_by_hand(43);
    check_each(&cases, check_stored);
    for number in [10, 15, 16, 17, 19] {
        let ground = format!("(refused {number} ").into_bytes();
        let count = cases.iter().filter(|case| case.output.starts_with(&ground)).count();
        assert!(count >= 2, "{count} cases of ground {number}");
    }
}

/// A pipe may hand over an input in pieces of any length.
#[test]
fn inputs_that_come_in_pieces() {
    let example = [LINE, b"\r\n@a\r\nACGTN\r\n+\r\nIIIII\r\n@b\nAGCT\n+\nIIII"].concat();
    let (_, longer) = Inputs::new(79, Kind::Fastq).good(9000);
    let above = [LINE, b"\n", &b"@\nACGT\n+\n!!~~\n".repeat(5000)].concat();
    let largest = above[..MOST_INPUT].to_vec();
    for (input, pieces) in [(&example, 1), (&example, 7), (&longer, 997), (&largest, 4096), (&above, 32_768)]
    {
        let printed = run_in_pieces(input, pieces);
        assert!(printed == answer(input), "printed {}: {}", shown_file(&printed), shown_file(input));
    }
}

#[test]
fn drawn_inputs_beside_the_second_counter() {
    let mut drawn = Inputs::new(80, Kind::Fastq);
    let inputs: Vec<Vec<u8>> = (0..DRAWN).map(|_| drawn.any()).collect();
    let kinds = check_beside_second(&inputs);
    // The comparison is worth something only where all kinds of inputs are in it.
    let fastq = inputs.iter().filter(|input| first_line(input).1.starts_with(b"@")).count();
    assert!(fastq * 2 > inputs.len(), "{fastq} inputs with FASTQ files");
    assert!(kinds["counted"] * 3 > inputs.len(), "{kinds:?}");
    for number in ["empty", "1", "2", "4", "6", "7", "10", "13", "15", "16", "17", "19"] {
        assert!(kinds.get(number).is_some_and(|&count| count >= 10), "{number}: {kinds:?}");
    }
}

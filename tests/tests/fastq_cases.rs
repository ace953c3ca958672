//! FASTQ files and their answers (document 02, K1), worked out by hand: ACGT under complement, k 2. Each goes
//! through kmer_add beside the tally book and, where its first byte is @, through the counter program beside
//! the second counter.

use kmer_tests::book::Numbers;
use kmer_tests::expected::Refusal;
use kmer_tests::files::{FASTA, FASTQ};
use kmer_tests::program::{check_each, check_prints};
use kmer_tests::program_cases::LINE;
use kmer_tests::second_counter::{answer, file_line};
use kmer_tests::sequences::two_bit_settings;
use kmer_tests::settings::shown_file;
use kmer_tests::tables::{check_file, refused};

/// A name, a file that is called FASTQ, and what kmer_add answers.
type Case = (&'static str, &'static [u8], Result<Numbers, Refusal>);

/// The last line that the program prints.
fn last_line(right: Result<Numbers, Refusal>) -> String {
    match right {
        Ok(numbers) => file_line(numbers),
        Err(Refusal { number, p }) => format!("(refused {number} {p})\n"),
    }
}

fn check(&(name, file, right): &Case) {
    assert_eq!(check_file(&two_bit_settings(2), FASTQ, file), right, "{name}: {}", shown_file(file));
    if file.starts_with(b"@") {
        let input = [LINE, b"\n", file].concat();
        let output = answer(&input);
        assert!(output.ends_with(last_line(right).as_bytes()), "{name}: {}", shown_file(&output));
        check_prints(&input, &output);
    }
}

#[test]
fn whole_files() {
    let cases: [Case; 22] = [
        ("an empty file", b"", Ok([0; 5])),
        ("one record", b"@a\nACGT\n+\nIIII\n", Ok([1, 4, 0, 1, 3])),
        ("no end of the last line", b"@a\nACGT\n+\nIIII", Ok([1, 4, 0, 1, 3])),
        ("CR LF", b"@a\r\nACGT\r\n+\r\nIIII\r\n", Ok([1, 4, 0, 1, 3])),
        ("CR LF, no end of the last line", b"@a\r\nACGT\r\n+\r\nIIII", Ok([1, 4, 0, 1, 3])),
        ("both line ends", b"@a\nACGT\r\n+\nIIII\r\n@b\r\nAC\n+\r\nII\n", Ok([2, 6, 0, 2, 4])),
        ("a record of no letters", b"@a\n\n+\n\n", Ok([1, 0, 0, 0, 0])),
        ("a record of no letters, CR LF", b"@a\r\n\r\n+\r\n\r\n", Ok([1, 0, 0, 0, 0])),
        ("the empty quality line ends in CR LF", b"@a\n\n+\n\r\n", Ok([1, 0, 0, 0, 0])),
        ("records of no letters around one", b"@\n\n+\n\n@\nTT\n+\n!~\n@\n\n+\n\n", Ok([3, 2, 0, 1, 1])),
        ("no window runs over two records", b"@a\nA\n+\nI\n@b\nC\n+\nI\n", Ok([2, 2, 0, 2, 0])),
        ("nor over a record of no letters", b"@\nA\n+\nI\n@\n\n+\n\n@\nC\n+\nI", Ok([3, 2, 0, 2, 0])),
        ("foreign letters", b"@a\nNACNGTx\n+\nIIIIIII\n", Ok([1, 7, 3, 2, 2])),
        ("only foreign letters", b"@a\nNN\n+\nII\n", Ok([1, 2, 2, 0, 0])),
        ("small letters", b"@a\nacgTn\n+\nIIIII\n", Ok([1, 5, 1, 1, 3])),
        ("any bytes in the first line", b"@\0\xff @+>\r*(\x7f\nAC\n+\nII\n", Ok([1, 2, 0, 1, 1])),
        ("any bytes in the third line", b"@\nAC\n+@>\x80\0 \r\r\r\nII\n", Ok([1, 2, 0, 1, 1])),
        ("a third line like the first", b"@a b\nAC\n+a b\nII\n", Ok([1, 2, 0, 1, 1])),
        ("quality that begins with @", b"@a\nAC\n+\n@I\n@b\nAC\n+\n@@\n", Ok([2, 4, 0, 2, 2])),
        ("quality that begins with +", b"@a\nAC\n+\n+I\n@b\nAC\n+\n++", Ok([2, 4, 0, 2, 2])),
        ("quality that begins with >", b"@a\nAC\n+\n>>\n", Ok([1, 2, 0, 1, 1])),
        ("quality bytes 33 and 126", b"@a\nAC\n+\n!~\n", Ok([1, 2, 0, 1, 1])),
    ];
    check_each(&cases, check);
}

/// "For a missing line the file's length". An empty line needs its end to be one.
#[test]
fn files_that_end_before_a_fourth_line() {
    let cases: [Case; 16] = [
        ("a mark alone", b"@", refused(15, 1)),
        ("a first line without its end", b"@a", refused(15, 2)),
        ("a first line", b"@a\n", refused(15, 3)),
        ("a first line, CR LF", b"@a\r\n", refused(15, 4)),
        ("an empty second line", b"@a\n\n", refused(15, 4)),
        ("a second line without its end", b"@a\nAC", refused(15, 5)),
        ("a second line", b"@a\nAC\n", refused(15, 6)),
        ("a second line and a CR", b"@a\nAC\r", refused(15, 6)),
        ("a third line without its end", b"@a\nAC\n+", refused(15, 7)),
        ("a third line", b"@a\nAC\n+\n", refused(15, 8)),
        ("a third line, CR LF", b"@a\r\nAC\r\n+\r\n", refused(15, 11)),
        ("a third line and a CR", b"@a\nAC\n+\r", refused(15, 8)),
        ("no letters, a third line without its end", b"@a\n\n+", refused(15, 5)),
        ("no letters, a third line", b"@a\n\n+\n", refused(15, 6)),
        ("no letters, a third line, CR LF", b"@\r\n\r\n+\r\n", refused(15, 8)),
        ("the second record", b"@a\nAC\n+\nII\n@b\nAC\n+\n", refused(15, 19)),
    ];
    check_each(&cases, check);
}

/// "No line is skipped": an empty line is a first line that lacks @ or a third that lacks +.
#[test]
fn lines_that_lack_their_mark() {
    let cases: [Case; 24] = [
        ("a FASTA file", b">a\nAC\n", refused(15, 0)),
        ("four lines, the first with >", b">a\nAC\n+\nII\n", refused(15, 0)),
        ("letters alone", b"AC", refused(15, 0)),
        ("a space before @", b" @a\nAC\n+\nII\n", refused(15, 0)),
        ("an empty line at the start", b"\n@a\nAC\n+\nII\n", refused(15, 0)),
        ("an empty line alone", b"\n", refused(15, 0)),
        ("CR LF alone", b"\r\n", refused(15, 0)),
        ("a CR alone", b"\r", refused(15, 0)),
        ("an empty line at the end", b"@a\nAC\n+\nII\n\n", refused(15, 11)),
        ("CR LF at the end", b"@a\nAC\n+\nII\n\r\n", refused(15, 11)),
        ("a CR at the end, as a line", b"@a\nAC\n+\nII\n\r", refused(15, 11)),
        ("an empty line after a record of no letters", b"@a\n\n+\n\n\n", refused(15, 7)),
        ("an empty line between records", b"@a\nAC\n+\nII\n\n@b\nAC\n+\nII\n", refused(15, 11)),
        ("the second record with >", b"@a\nAC\n+\nII\n>b\nAC\n+\nII\n", refused(15, 11)),
        ("a space before +", b"@a\nAC\n +\nII\n", refused(15, 6)),
        ("an empty third line", b"@a\nAC\n\nII\n", refused(15, 6)),
        ("no third line", b"@a\nAC\nII\n", refused(15, 6)),
        ("a sequence on two lines", b"@a\nAC\nGT\n+\nIIII\n", refused(15, 6)),
        ("no second line", b"@a\n+\nII\n", refused(15, 5)),
        ("a third line with -, CR LF", b"@a\r\nAC\r\n-\r\nII\r\n", refused(15, 8)),
        ("the second record's third line", b"@a\nAC\n+\nII\n@b\nAC\n@\nII\n", refused(15, 17)),
        ("both marks lack", b"a\nAC\n-\nII\n", refused(15, 0)),
        ("a mark lacks and a line is missing", b"a\nAC\n+\n", refused(15, 0)),
        ("a third mark lacks and the fourth line is missing", b"@a\nAC\n-\n", refused(15, 6)),
    ];
    check_each(&cases, check);
}

#[test]
fn stray_bytes_in_the_sequence() {
    let cases: [Case; 15] = [
        ("a star", b"@a\nA*C\n+\nIII\n", refused(10, 4)),
        ("the first of several", b"@a\nA-*\n+\nIII\n@b\n*\n+\nI\n", refused(10, 4)),
        ("a space at the end", b"@a\nAC \n+\nIII\n", refused(10, 5)),
        ("a CR in the middle", b"@a\nA\rC\n+\nIII\n", refused(10, 4)),
        ("a CR before CR LF", b"@a\nAC\r\r\n+\nIII\n", refused(10, 5)),
        ("@ at the start", b"@a\n@C\n+\nII\n", refused(10, 3)),
        ("+ alone", b"@a\n+\n+\nI\n", refused(10, 3)),
        ("> at the start", b"@a\n>b\n+\nII\n", refused(10, 3)),
        ("the byte after Z", b"@a\nA[\n+\nII\n", refused(10, 4)),
        ("the byte before a", b"@a\nA`\n+\nII\n", refused(10, 4)),
        ("the byte after z", b"@a\nA{\n+\nII\n", refused(10, 4)),
        ("a NUL", b"@a\n\0\n+\nI\n", refused(10, 3)),
        ("a byte above 127", b"@a\nA\xc1\n+\nII\n", refused(10, 4)),
        ("after CR LF", b"@a\r\nA*\r\n+\r\nII\r\n", refused(10, 5)),
        ("in the second record", b"@a\nAC\n+\nII\n@b\n.\n+\nI\n", refused(10, 14)),
    ];
    check_each(&cases, check);
}

/// 16 with the offset of the quality line, 17 with that of the byte.
#[test]
fn quality_lines_at_fault() {
    let cases: [Case; 21] = [
        ("shorter", b"@a\nAC\n+\nI\n", refused(16, 8)),
        ("shorter, without an end", b"@a\nAC\n+\nI", refused(16, 8)),
        ("longer", b"@a\nAC\n+\nIII\n", refused(16, 8)),
        ("empty", b"@a\nAC\n+\n\n", refused(16, 8)),
        ("empty, CR LF", b"@a\nAC\n+\n\r\n", refused(16, 8)),
        ("where there are no letters", b"@a\n\n+\nI\n", refused(16, 6)),
        ("on two lines", b"@a\nACGT\n+\nII\nII\n", refused(16, 10)),
        ("shorter, CR LF", b"@a\r\nAC\r\n+\r\nI\r\n", refused(16, 11)),
        ("a CR at the very end is a byte of its line", b"@a\nAC\n+\nII\r", refused(16, 8)),
        ("that CR where there are no letters", b"@a\n\n+\n\r", refused(16, 6)),
        ("that CR as the last of two bytes", b"@a\nAC\n+\nI\r", refused(17, 9)),
        ("a CR before CR LF", b"@a\nAC\n+\nI\r\r\n", refused(17, 9)),
        ("a CR in the middle", b"@a\nACG\n+\nI\rI\n", refused(17, 10)),
        ("32", b"@a\nAC\n+\nI \n", refused(17, 9)),
        ("127", b"@a\nAC\n+\n\x7fI\n", refused(17, 8)),
        ("a tab", b"@a\nAC\n+\nI\t\n", refused(17, 9)),
        ("a NUL", b"@a\nA\n+\n\0\n", refused(17, 7)),
        ("bytes above 127, the first of them", b"@a\nACG\n+\nI\x80\xff\n", refused(17, 10)),
        ("127, CR LF", b"@a\r\nAC\r\n+\r\nI\x7f\r\n", refused(17, 12)),
        ("the second record's length", b"@a\nAC\n+\nII\n@b\nA\n+\nII\n", refused(16, 18)),
        ("the second record's byte", b"@a\nAC\n+\nII\n@b\nA\n+\n \n", refused(17, 18)),
    ];
    check_each(&cases, check);
}

/// "The earliest record at fault wins, within it the order is 15, 10, 16, 17".
#[test]
fn several_faults() {
    let cases: [Case; 16] = [
        ("15 at the third line before 10", b"@a\nA*\n-\nII\n", refused(15, 6)),
        ("15 at a missing fourth line before 10", b"@a\nA*\n+\n", refused(15, 8)),
        ("15 at a missing third line before 10", b"@a\nA*\n", refused(15, 6)),
        ("15 at the third line before 16", b"@a\nAC\n-\nI\n", refused(15, 6)),
        ("15 at the first line before 17", b"a\nAC\n+\nI \n", refused(15, 0)),
        ("10 before 16", b"@a\nA*\n+\nI\n", refused(10, 4)),
        ("10 before 17", b"@a\nA*\n+\nI \n", refused(10, 4)),
        ("10 before 16 and 17", b"@a\nA*\n+\n \n", refused(10, 4)),
        ("16 before 17", b"@a\nAC\n+\n \n", refused(16, 8)),
        ("16 before 17 at an earlier byte", b"@a\nAC\n+\n  II\n", refused(16, 8)),
        ("10 before the next record's 15", b"@a\nA*\n+\nII\n>b\nAC\n+\nII\n", refused(10, 4)),
        ("10 before the next record's missing line", b"@a\nA*\n+\nII\n@b", refused(10, 4)),
        ("16 before the next record's 15", b"@a\nAC\n+\nI\n\n", refused(16, 8)),
        ("16 before the next record's 10", b"@a\nAC\n+\nI\n@b\n*\n+\nI\n", refused(16, 8)),
        ("17 before the next record's 15", b"@a\nA\n+\n \n\n", refused(17, 7)),
        ("17 before the next record's 10 and 16", b"@a\nA\n+\n \n@b\n*\n+\n\n", refused(17, 7)),
    ];
    check_each(&cases, check);
}

/// What a file of two records answers where it is cut to so many bytes.
fn cut_to(length: u64) -> Result<Numbers, Refusal> {
    match length {
        0 => Ok([0; 5]),
        11..=13 => refused(16, 10),
        14..=15 => Ok([1, 4, 0, 1, 3]),
        // With half of its CR LF the quality line is longer than the sequence.
        27 | 29 => refused(16, 26),
        28 | 30 => Ok([2, 6, 0, 2, 4]),
        missing => refused(15, missing),
    }
}

#[test]
fn a_file_cut_at_every_byte() {
    let file = b"@a\nACGT\n+\nIIII\n@b\r\nAG\r\n+\r\nII\r\n";
    let cuts: Vec<usize> = (0..=file.len()).collect();
    check_each(&cuts, |&length| check(&("a cut file", &file[..length], cut_to(length as u64))));
}

/// The caller names the kind: what the file begins with does not.
#[test]
fn a_file_called_by_the_other_kind() {
    let settings = two_bit_settings(2);
    let (fasta, fastq) = (b">a\nACGT\n", b"@a\nACGT\n+\nIIII\n");
    assert_eq!(check_file(&settings, FASTA, fasta), Ok([1, 4, 0, 1, 3]));
    assert_eq!(check_file(&settings, FASTQ, fasta), refused(15, 0));
    assert_eq!(check_file(&settings, FASTQ, fastq), Ok([1, 4, 0, 1, 3]));
    assert_eq!(check_file(&settings, FASTA, fastq), refused(10, 0));
    // In a FASTA file empty lines are skipped and a header may be cut; in a FASTQ file neither is so.
    assert_eq!(check_file(&settings, FASTA, b"\n>"), Ok([1, 0, 0, 0, 0]));
    assert_eq!(check_file(&settings, FASTQ, b"\n@"), refused(15, 0));
    assert_eq!(check_file(&settings, FASTQ, b"@"), refused(15, 1));
    assert_eq!(check_file(&settings, FASTA, b">@a\nA\nC\n>+\nGT\n"), Ok([2, 4, 0, 2, 2]));
    // Ground 11 does not occur in a FASTQ file.
    assert_eq!(check_file(&settings, FASTA, b"A\n"), refused(11, 0));
    assert_eq!(check_file(&settings, FASTQ, b"A\n"), refused(15, 0));
}

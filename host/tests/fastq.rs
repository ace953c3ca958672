//! `wontirje count` on FASTQ files: their kind by the first byte and by --kind, both kinds in one run, line ends,
//! files of full size and too long ones; every refusal with its place, its record and what to do.

mod run;

use kmer_tests::draw::Random;
use kmer_tests::files::as_fasta;
use run::{run, run_with, Folder, EMPTY, EXAMPLE, LISTING, NUMBERS, READS};
use std::path::Path;

const NO_AT: &str = "a record's first line does not begin with @";
const NO_PLUS: &str = "a record's third line does not begin with +";
const NO_LETTER: &str = "a byte of a sequence line is no letter";
const CUT_OFF: &str = "the file ends before the record's fourth line; \
    it was probably cut off: copy it again, or take its last record out";
const EMPTY_LINES: &str = "take out empty lines outside of records, and count the file again";
const FOUR_LINES: &str =
    "a record has four lines: put sequence and qualities on one each, or mend the record before it";
const ONE_LINE: &str = "put the sequence on one line, then + on a line, then the qualities on one; \
    a file without qualities is FASTA, and > begins its headers";
const WHITE_SPACE: &str =
    "take it out, and out of the quality line too where it stands there, and count the file again";
const ONE_LENGTH: &str = "put N in its place, or take the record out, and count the file again";
const TWO_LENGTHS: &str = "take the byte out if the two lines then have one length, or take the record out, \
    and count the file again";
const DAMAGED: &str = "the record is damaged or cut off, or its qualities go over several lines: \
    copy the file again, mend the record, or take it out";
const NO_QUALITY: &str = "a quality byte is not from 33 to 126; qualities are printable bytes and no spaces \
    (Phred+33 or Phred+64): mend the record, or take it out, and count the file again";

/// A file; number, offset, line, column and record of its refusal; what stands there, what is wrong and what to do.
type Case<'a> = (&'a [u8], [u64; 5], String);

/// Files on standard input with the options given, each refused with its line; nothing is counted.
fn check_refused(options: &[&str], cases: &[Case]) {
    for (file, [number, offset, line, column, record], rest) in cases {
        let run = run_with(&[&["count", "--k", "2"], options, &["-"]].concat(), file);
        assert_eq!((run.status, run.text()), (1, EMPTY), "{}: {rest}", run.err);
        let place = format!("at offset {offset} (line {line}, column {column}, record {record})");
        assert_eq!(run.complaints(), [format!("standard input: refused {number} {place}: {rest}")]);
    }
}

/// With LF, with CR LF, and without the last line's end; by name and through a pipe.
#[test]
fn the_first_byte_tells_the_kind() {
    let text = std::str::from_utf8(READS).expect("text");
    let folder = Folder::new();
    for file in [text.to_string(), text.replace('\n', "\r\n"), text.trim_end().to_string()] {
        let path = folder.file("reads", file.as_bytes());
        let name = path.to_str().expect("a name");
        let run = run(&["count", "--k", "2", name]);
        assert_eq!((run.status, run.text()), (0, LISTING), "{file:?}: {}", run.err);
        assert_eq!(run.complaints(), [format!("{name}: {NUMBERS}")]);
        let run = run_with(&["count", "--k", "2", "-"], file.as_bytes());
        assert_eq!((run.status, run.text()), (0, LISTING), "{file:?}: {}", run.err);
        assert_eq!(run.complaints(), [format!("standard input: {NUMBERS}")]);
    }
}

#[test]
fn both_kinds_in_one_run() {
    let folder = Folder::new();
    let files = [
        folder.file("a.fa", EXAMPLE),
        folder.file("bad.fq", &READS[..READS.len() - 2]),
        folder.file("no-letters.fq", b"@a\n\n+\n\n"),
        folder.file("empty", b""),
        folder.file("a.fq", READS),
    ];
    let names: Vec<&str> = files.iter().map(|file| file.to_str().expect("a name")).collect();
    let run = run_with(&[&["count", "--k", "2", "-"], &names[..]].concat(), READS);
    assert_eq!(run.status, 1);
    let thrice = LISTING.replace(" 2)\n", " 6)\n").replace(" 1)\n", " 3)\n").replace("l 6)", "l 18)");
    assert_eq!(run.text(), thrice);
    let lines = [
        format!("standard input: {NUMBERS}"),
        format!("{}: {NUMBERS}", names[0]),
        format!(
            "{}: refused 16 at offset 28 (line 8, column 1, record 2): \
             the sequence line has length 4, the quality line 3; {DAMAGED}",
            names[1]
        ),
        format!("{}: records 1, letters 0, foreign 0, edge 0, windows 0", names[2]),
        format!("{}: records 0, letters 0, foreign 0, edge 0, windows 0", names[3]),
        format!("{}: {NUMBERS}", names[4]),
    ];
    assert_eq!(run.complaints(), lines);
}

/// --kind is for all files, whatever they begin with.
#[test]
fn a_kind_for_all_files() {
    let folder = Folder::new();
    let (fasta, fastq) = (folder.file("a.fa", EXAMPLE), folder.file("a.fq", READS));
    let empty = folder.file("empty", b"");
    let [fasta, fastq, empty] = [&fasta, &fastq, &empty].map(|file| file.to_str().expect("a name"));
    let taken = [
        format!("{fasta}: {NUMBERS}"),
        format!(
            "{fastq}: refused 10 at offset 0 (line 1, column 1): '@': {NO_LETTER}; \
             it looks like FASTQ: leave --kind fasta out"
        ),
        format!("{empty}: records 0, letters 0, foreign 0, edge 0, windows 0"),
    ];
    let run = run_with(&["count", "--k", "2", "--kind", "fasta", fasta, fastq, empty], b"");
    assert_eq!((run.status, run.text()), (1, LISTING));
    assert_eq!(run.complaints(), taken);
    let taken = [
        format!(
            "{fasta}: refused 15 at offset 0 (line 1, column 1, record 1): '>': {NO_AT}; \
             it looks like FASTA: leave --kind fastq out"
        ),
        format!("{fastq}: {NUMBERS}"),
        taken[2].clone(),
    ];
    let run = run_with(&["count", fasta, fastq, empty, "--kind=fastq", "-k", "2"], b"");
    assert_eq!((run.status, run.text()), (1, LISTING));
    assert_eq!(run.complaints(), taken);
}

/// Ground 15: the file ends before a fourth line, or a first or third line lacks its mark; it comes before a
/// stray byte that stands earlier in the record.
#[test]
fn records_at_fault() {
    let cases: [Case; 10] = [
        (b"@", [15, 1, 1, 2, 1], CUT_OFF.into()),
        (b"@a\nAC", [15, 5, 2, 3, 1], CUT_OFF.into()),
        (b"@a\nA*\n", [15, 6, 3, 1, 1], CUT_OFF.into()),
        (b"@a\n\n+\n", [15, 6, 4, 1, 1], CUT_OFF.into()),
        (b"@a\nAC\n+\nII\n@b\nAC\n+\n", [15, 19, 8, 1, 2], CUT_OFF.into()),
        (b"@a\nAC\n+\nII\n\n", [15, 11, 5, 1, 2], format!("an empty line: {NO_AT}; {EMPTY_LINES}")),
        (
            b"@a\r\nAC\r\n+\r\nII\r\n\r\n@b\r\nAC\r\n+\r\nII\r\n",
            [15, 15, 5, 1, 2],
            format!("an empty line: {NO_AT}; {EMPTY_LINES}"),
        ),
        (b"@a\nA*\n\n+\nII\n", [15, 6, 3, 1, 1], format!("an empty line: {NO_PLUS}; {ONE_LINE}")),
        (b"@a\nAC\n+\nII\nII\n@b\n", [15, 11, 5, 1, 2], format!("'I': {NO_AT}; {FOUR_LINES}")),
        (b"@a\nAC\nGT\n+\nII\nII\n", [15, 6, 3, 1, 1], format!("'G': {NO_PLUS}; {ONE_LINE}")),
    ];
    check_refused(&[], &cases);
}

/// Grounds 10, 16 and 17, in this order within a record; the earliest record comes first.
#[test]
fn bytes_and_lengths_at_fault() {
    let stray = |found: &str, advice: &str| format!("{found}: {NO_LETTER}; {advice}");
    let differ = |letters: u64, qualities: u64| {
        format!("the sequence line has length {letters}, the quality line {qualities}; {DAMAGED}")
    };
    let cases: [Case; 13] = [
        (b"@a\nA.C\n+\nII\n", [10, 4, 2, 2, 1], stray("'.'", TWO_LENGTHS)),
        (b"@a\nAC\n+\nII\n@b\nA.C\r\n+\nI I\n", [10, 15, 6, 2, 2], stray("'.'", ONE_LENGTH)),
        (b"@a\nAC\n+\nII\n@b\nA\rC\n+\nI I\n", [10, 15, 6, 2, 2], stray("a CR without LF", WHITE_SPACE)),
        (b"@a\nAC \n+\nII\n", [10, 5, 2, 3, 1], stray("a space", WHITE_SPACE)),
        (b"@a\nAC \n+\nII \n", [10, 5, 2, 3, 1], stray("a space", WHITE_SPACE)),
        (b"@a\nAC\t\n+\nII\n", [10, 5, 2, 3, 1], stray("byte 0x09", WHITE_SPACE)),
        (b"@a\r\r\nAC\r\r\n+\r\r\nII\r\r\n", [10, 7, 2, 3, 1], stray("a CR without LF", WHITE_SPACE)),
        (b"@a\nACGT\n+\nI I\n@b\n", [16, 10, 4, 1, 1], differ(4, 3)),
        (b"@a\r\nAC\r\n+\r\nII\r", [16, 11, 4, 1, 1], differ(2, 3)),
        (b"@a\n\n+\n\n@b\nA\n+\n\n", [16, 14, 8, 1, 2], differ(1, 0)),
        (b"@a\nACG\n+\nI I\n@b\nA*\n", [17, 10, 4, 2, 1], format!("a space: {NO_QUALITY}")),
        (b"@\n\n+\n\n@b\nACG\n+\nI\rI", [17, 16, 8, 2, 2], format!("a CR without LF: {NO_QUALITY}")),
        (b"@a\nAC\n+\nI\x7f\n", [17, 9, 4, 2, 1], format!("byte 0x7f: {NO_QUALITY}")),
    ];
    check_refused(&[], &cases);
}

/// What only begins like FASTQ, and two kinds in one file.
#[test]
fn files_that_are_no_fastq() {
    let ends = "the file ends before the record's fourth line";
    let sam = "it looks like SAM: make FASTQ of it first, with samtools fastq";
    let cr_alone = "its lines end in CR alone: make them end in LF";
    let own = "give it as a file of its own";
    let cases: [Case; 10] = [
        (b"@HD\tVN:1.6\n@SQ\tSN:1\nread\t0\n", [15, 20, 3, 1, 1], format!("'r': {NO_PLUS}; {sam}")),
        (b"@SQ\tSN:1\n", [15, 9, 2, 1, 1], format!("{ends}; {sam}")),
        (b"@RG\tID:1\n", [15, 9, 2, 1, 1], format!("{ends}; {sam}")),
        (b"@PG\tID:1\n", [15, 9, 2, 1, 1], format!("{ends}; {sam}")),
        (b"@CO\tA B\n", [15, 8, 2, 1, 1], format!("{ends}; {sam}")),
        (b"@a\rAC\r+\rII\r", [15, 11, 1, 12, 1], format!("{ends}; {cr_alone}")),
        (b"@a\rAC\r+\rII\n", [15, 11, 2, 1, 1], format!("{ends}; {cr_alone}")),
        (b"@a\r\n", [15, 4, 2, 1, 1], CUT_OFF.into()),
        (b"@a\r\nAC\r\n+\r\n", [15, 11, 4, 1, 1], CUT_OFF.into()),
        (
            b"@a\nAC\n+\nII\n>b\n",
            [15, 11, 5, 1, 2],
            format!("'>': {NO_AT}; if FASTA begins here, {own}; else mend the record before it"),
        ),
    ];
    check_refused(&[], &cases);
}

/// FASTQ that does not begin with @ is taken for FASTA.
#[test]
fn fastq_taken_for_fasta() {
    let own = "if FASTQ begins here, give it as a file of its own; else mend the line";
    let empty_lines = "it looks like FASTQ: take out the empty lines before it";
    let mark = "it begins with a byte order mark: take its three bytes out";
    let cases: [(&[u8], [u64; 3], String); 4] = [
        (b">b\nAC\n@a\nAC\n+\nII\n", [6, 3, 1], format!("'@': {NO_LETTER}; {own}")),
        (b"\n@a\nAC\n+\nII\n", [1, 2, 1], format!("'@': {NO_LETTER}; {empty_lines}")),
        (b"\r\n\n@a\nAC\n+\nII\n", [3, 3, 1], format!("'@': {NO_LETTER}; {empty_lines}")),
        (b"\xef\xbb\xbf@a\nAC\n+\nII\n", [0, 1, 1], format!("byte 0xef: {NO_LETTER}; {mark}")),
    ];
    for (file, [offset, line, column], rest) in cases {
        let run = run_with(&["count", "--k", "2", "-"], file);
        let place = format!("refused 10 at offset {offset} (line {line}, column {column})");
        let right = format!("standard input: {place}: {rest}");
        assert_eq!((run.status, run.text(), run.complaints()), (1, EMPTY, vec![&right[..]]));
    }
}

/// With --kind fastq any file may come in.
#[test]
fn files_given_as_fastq() {
    let gzip = "it is compressed: give - for it, with gzip -dc FILE | before the command";
    let survey = "take the survey line out: settings are given as options";
    let no_fastq =
        "it does not begin with @: mend its first record, or leave --kind fastq out if it is no FASTQ";
    let mark = "it begins with a byte order mark: take its three bytes out";
    let cases: [Case; 5] = [
        (b"\xef\xbb\xbf@a\nAC\n+\nII\n", [15, 0, 1, 1, 1], format!("byte 0xef: {NO_AT}; {mark}")),
        (b"\x1f\x8b\x08\x00", [15, 0, 1, 1, 1], format!("byte 0x1f: {NO_AT}; {gzip}")),
        (b"(survey \n@a\nAC\n+\nII\n", [15, 0, 1, 1, 1], format!("'(': {NO_AT}; {survey}")),
        (b"ACGT\n", [15, 0, 1, 1, 1], format!("'A': {NO_AT}; {no_fastq}")),
        (b"\n@a\nAC\n+\nII\n", [15, 0, 1, 1, 1], format!("an empty line: {NO_AT}; {EMPTY_LINES}")),
    ];
    check_refused(&["--kind", "fastq"], &cases);
}

/// Reads of up to 300 letters, now and then an N, as many as a FASTQ file of so many bytes holds.
fn drawn_reads(random: &mut Random, bytes: usize) -> Vec<Vec<u8>> {
    let (mut reads, mut length) = (Vec::new(), 0);
    loop {
        let read: Vec<u8> =
            (0..random.below(301)).map(|_| b"ACGTacgtACGTacgtN"[random.below(17) as usize]).collect();
        // Two marks and four line ends, and the two lines.
        length += 6 + 2 * read.len();
        if length > bytes {
            return reads;
        }
        reads.push(read);
    }
}

/// The reads as FASTQ of so many bytes: the first header has what is left of them. All bytes from 33 to 126
/// are among the qualities.
fn as_fastq(reads: &[Vec<u8>], bytes: usize) -> Vec<u8> {
    let used: usize = reads.iter().map(|read| 6 + 2 * read.len()).sum();
    let mut file = Vec::with_capacity(bytes);
    for (number, read) in reads.iter().enumerate() {
        file.push(b'@');
        file.extend(std::iter::repeat_n(b'x', if number == 0 { bytes - used } else { 0 }));
        file.extend(b"\n");
        file.extend(read);
        file.extend(b"\n+\n");
        file.extend((0..read.len()).map(|place| 33 + ((number + place) % 94) as u8));
        file.push(b'\n');
    }
    file
}

/// The largest file there may be has the listing and the numbers of the same reads in FASTA; one byte more is
/// too much.
#[test]
fn a_file_of_full_size() {
    let folder = Folder::new();
    let reads = drawn_reads(&mut Random::new(171), 16_777_216);
    let parts: Vec<&[u8]> = reads.iter().map(|read| &read[..]).collect();
    let fasta = folder.file("full.fa", &as_fasta(&parts));
    let fastq = folder.file("full.fq", &as_fastq(&reads, 16_777_216));
    let count = |file: &Path| run(&["count".as_ref(), "--k=8".as_ref(), file.as_os_str()]);
    let [fasta, fastq] = [fasta, fastq].map(|file| {
        let run = count(&file);
        assert_eq!(run.status, 0, "{}", run.err);
        let said =
            run.err.strip_prefix(&format!("{}: ", file.display())).expect("the file's line").to_string();
        (said, run.out)
    });
    assert!(fastq == fasta, "{}{}", fastq.0, fasta.0);
    assert!(fastq.0.starts_with(&format!("records {}, letters ", reads.len())), "{}", fastq.0);
    let long = count(&folder.file("long.fq", &as_fastq(&reads, 16_777_217)));
    let right = "refused 6: more than 16,777,216 bytes; split it between records, each of four lines, \
        into files of at most 16,777,216 bytes and give them all\n";
    assert!(long.status == 1 && long.err.ends_with(&format!("long.fq: {right}")), "{}", long.err);
}

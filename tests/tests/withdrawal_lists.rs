//! Lists of adds and withdrawals of both kinds of file (document 02, K4: "For every list of adds and withdrawals,
//! otherwise as in demand 3, each class's count is its windows added less its windows withdrawn, over the calls
//! accepted, and each answer is the tally book's"), with every count and every answer after every call.

use kmer_tests::book::*;
use kmer_tests::draw::*;
use kmer_tests::draw_fastq::*;
use kmer_tests::expected::Refusal;
use kmer_tests::files::{as_fasta, Kind, FASTA, FASTQ};
use kmer_tests::lent::check_places;
use kmer_tests::sequences::MOST_BYTES;
use kmer_tests::settings::*;
use kmer_tests::table_faults::LACKING;
use kmer_tests::tables::Call::{Add, Withdraw};
use kmer_tests::tables::*;

/// A file, with the number that names its kind.
type Given = (u64, Vec<u8>);

/// A list of calls on one table. The windows over the calls accepted are added up here too, from each file alone: they
/// owe nothing to the book's tallies.
struct List {
    book: Book,
    table: Table,
    added: Vec<u32>,
    withdrawn: Vec<u32>,
    /// Files that were added and not withdrawn since.
    inside: Vec<Given>,
}

impl List {
    /// From a cleared table with some places more than needed.
    fn new(settings: &Settings, more: usize) -> List {
        let (book, table) = cleared(settings, more);
        let zero = vec![0; class_count(settings) as usize];
        List { book, table, added: zero.clone(), withdrawn: zero, inside: Vec::new() }
    }

    fn call(&mut self, call: Call, given: &Given, room: usize) -> Result<Numbers, Refusal> {
        let (fastq, file) = given;
        let answer = check_call(call, &mut self.book, &mut self.table, *fastq, file, room)?;
        let sums = match call {
            Add => &mut self.added,
            Withdraw => &mut self.withdrawn,
        };
        for place in window_places(&self.book.settings, Kind::named(*fastq), file) {
            sums[place] += 1;
        }
        match (call, self.inside.iter().position(|other| other == given)) {
            (Add, _) => self.inside.push(given.clone()),
            (Withdraw, Some(place)) => drop(self.inside.swap_remove(place)),
            (Withdraw, None) => (),
        }
        Ok(answer)
    }

    fn check(&self) {
        check_sum(&self.book, &self.table);
        let sums = self.added.iter().zip(&self.withdrawn);
        let counts: Vec<u32> = sums.map(|(added, withdrawn)| added - withdrawn).collect();
        let what = format!("{}: a list", self.book.settings);
        check_places(&what, &self.table.slice()[..counts.len()], &counts);
    }
}

/// A file that was never added: some letters of a run of another, as either kind.
fn part_of(random: &mut Random, settings: &Settings, (fastq, file): &Given) -> Given {
    let found = read(Kind::named(*fastq), &settings.letters, file).expect("a file that was taken in");
    let run = &found.runs[random.below(found.runs.len() as u64) as usize];
    let from = random.below(run.len() as u64 + 1) as usize;
    let part = &run[from..][..random.below((run.len() - from) as u64 + 1) as usize];
    let letters = spelled_mixed(random, &settings.letters, part);
    match random.below(2) {
        0 => (FASTA, as_fasta(&[letters])),
        _ => (FASTQ, drawn_fastq_of(random, &[letters])),
    }
}

fn damaged_copy(random: &mut Random, settings: &Settings, (fastq, file): &Given) -> Given {
    (*fastq, damaged_of(random, Kind::named(*fastq), settings, file.clone()))
}

/// A call for a list: adds of new files and of those that are in; withdrawals of those that are in, of parts of them
/// and of new ones; damaged ones, one called by the other kind, and now and then one that is too long.
fn next_call(random: &mut Random, list: &List, long: &[u8]) -> (Call, Given) {
    let settings = &list.book.settings;
    let new = whole_file(random, settings, 300);
    let Some(inside) = list.inside.get(random.below(list.inside.len().max(1) as u64) as usize) else {
        return (Add, new);
    };
    let either = [Add, Withdraw][random.below(2) as usize];
    match random.below(24) {
        0..=5 => (Add, new),
        6 => (Add, inside.clone()),
        7..=11 => (Withdraw, inside.clone()),
        12 | 13 => (Withdraw, part_of(random, settings, inside)),
        14..=16 => (Withdraw, new),
        17..=19 => (Withdraw, damaged_copy(random, settings, inside)),
        20 | 21 => (Add, damaged_copy(random, settings, &new)),
        22 => (either, (if inside.0 == FASTA { FASTQ } else { FASTA }, inside.1.clone())),
        _ if random.below(4) == 0 => (either, (inside.0, long.to_vec())),
        _ => (either, inside.clone()),
    }
}

/// How many calls of a list were accepted, by call and kind, and refused, by call and number.
#[derive(Debug, Default)]
struct Outcomes {
    accepted: [[usize; 2]; 2],
    refused: [[usize; 19]; 2],
    /// Files with a window that were withdrawn and were not inside then: never added, or as often withdrawn as added.
    not_inside: usize,
}

#[test]
fn lists_over_every_size() {
    let mut random = Random::new(187);
    let long = vec![b'@'; MOST_BYTES + 1];
    let mut outcomes = Outcomes::default();
    for (s, mirror, k) in sizes_up_to(100_000) {
        let settings = Settings::new(&drawn_capitals(&mut random, s), k, mirror);
        let mut list = List::new(&settings, random.below(4) as usize);
        for _ in 0..64 {
            let (call, given) = next_call(&mut random, &list, &long);
            let was_inside = list.inside.contains(&given);
            let room = if random.below(16) == 0 { random.below(5) } else { 5 + random.below(3) };
            match list.call(call, &given, room as usize) {
                Ok(numbers) => {
                    outcomes.accepted[call as usize][(given.0 != FASTA) as usize] += 1;
                    let not_inside = call == Withdraw && !was_inside && numbers[4] > 0;
                    outcomes.not_inside += not_inside as usize;
                }
                Err(refusal) => outcomes.refused[call as usize][refusal.number as usize] += 1,
            }
        }
        list.check();
    }
    check_worth(&outcomes);
}

/// The lists are worth their name only where all kinds of calls are in them.
fn check_worth(outcomes: &Outcomes) {
    let enough = |call: Call, numbers: &[usize]| {
        numbers.iter().all(|&number| outcomes.refused[call as usize][number] > 10)
    };
    assert!(outcomes.accepted.iter().flatten().all(|&count| count > 500), "{outcomes:?}");
    assert!(outcomes.not_inside > 100, "{outcomes:?}");
    assert!(enough(Add, &[6, 7, 10, 11, 15, 16, 17]), "{outcomes:?}");
    assert!(enough(Withdraw, &[6, 7, 10, 11, 15, 16, 17, 18]), "{outcomes:?}");
}

/// Files of several batches, of both kinds, in several orders. Some of those with more windows than two batches are
/// withdrawn and some refused 18.
#[test]
fn longer_files_in_a_row() {
    let mut random = Random::new(188);
    let sizes = [(4, 1, 8), (4, 1, 3), (4, 0, 7), (2, 1, 13), (3, 0, 9), (10, 0, 4), (16, 1, 3), (5, 1, 5)];
    let (mut accepted, mut lacking) = (0, 0);
    for (s, mirror, k) in sizes {
        let settings = Settings::new(&drawn_capitals(&mut random, s), k, mirror);
        let mut list = List::new(&settings, 1);
        for _ in 0..4 {
            for _ in 0..2 {
                let given = whole_file(&mut random, &settings, 9000);
                list.call(Add, &given, 5).expect("a file without damage");
            }
            let out = list.inside[random.below(list.inside.len() as u64) as usize].clone();
            let stranger = whole_file(&mut random, &settings, 9000);
            for given in [stranger, out] {
                let windows = window_places(&settings, Kind::named(given.0), &given.1).len();
                let is_long = windows > 2 * BATCH;
                // The comparison with the book is within.
                match list.call(Withdraw, &given, 5) {
                    Ok(_) => accepted += is_long as usize,
                    Err(refusal) => lacking += (is_long && refusal == LACKING) as usize,
                }
            }
            list.check();
        }
    }
    assert!(accepted > 10 && lacking > 10, "{accepted} long files withdrawn, {lacking} refused 18");
}

/// Lists of the same net windows leave the same counts: here those of the files 0, 2 and 4 once, and of 5 twice.
#[test]
fn lists_with_the_same_net_windows_leave_the_same_counts() {
    let lists: [&[(Call, usize)]; 5] = [
        &[(Add, 0), (Add, 2), (Add, 4), (Add, 5), (Add, 5)],
        &[(Add, 5), (Add, 1), (Add, 4), (Withdraw, 1), (Add, 2), (Add, 0), (Add, 5)],
        &[(Add, 3), (Add, 0), (Add, 5), (Add, 5), (Add, 5), (Withdraw, 3), (Add, 4), (Withdraw, 5), (Add, 2)],
        &[(Add, 0), (Withdraw, 0), (Add, 5), (Add, 4), (Add, 0), (Add, 2), (Add, 5), (Withdraw, 0), (Add, 0)],
        &[(Add, 1), (Add, 3), (Add, 5), (Add, 4), (Add, 2), (Add, 0), (Withdraw, 3), (Withdraw, 1), (Add, 5)],
    ];
    let mut random = Random::new(189);
    for (s, mirror, k) in [(4, 1, 5), (4, 1, 2), (6, 1, 3), (10, 0, 3), (2, 0, 9), (3, 1, 7), (4, 0, 4)] {
        let settings = Settings::new(&drawn_capitals(&mut random, s), k, mirror);
        let files: Vec<Given> = (0..6).map(|_| whole_file(&mut random, &settings, 400)).collect();
        let tables = lists.map(|calls| {
            let mut list = List::new(&settings, 2);
            for &(call, place) in calls {
                list.call(call, &files[place], 5).expect("a file that the counts allow");
            }
            list.check();
            list.table.slice().to_vec()
        });
        assert!(tables.iter().all(|table| *table == tables[0]), "{settings}");
        let classes = class_count(&settings) as usize;
        assert!(tables[0][..classes].iter().any(|&count| count > 0), "{settings}");
    }
}

/// A list with its counts written out, ACGT under complement, k 2; a refused call changes no count.
#[test]
fn a_list_with_its_counts_written_out() {
    let (mut book, mut table) = cleared(&Settings::new(b"ACGT", 2, COMPLEMENT), 1);
    let mut check = |call: Call, fastq: u64, file: &[u8], answer, counts: [u32; 10]| {
        assert_eq!(check_call(call, &mut book, &mut table, fastq, file, 5), answer, "{}", shown_file(file));
        // AT CG GC TA AG AC AA CC CA GA
        assert_eq!(table.slice()[..10], counts, "{}", shown_file(file));
    };
    let example = b">a\nACGTN\n>b\nAG\nCT\n";
    check(Withdraw, FASTA, b">\nAC", refused(18, 0), [0; 10]);
    check(Add, FASTA, example, Ok([2, 9, 1, 2, 6]), [0, 1, 1, 0, 2, 2, 0, 0, 0, 0]);
    // GT was never added as a file, and is of the class of AC.
    check(Withdraw, FASTQ, b"@\nGT\n+\nII\n", Ok([1, 2, 0, 1, 1]), [0, 1, 1, 0, 2, 1, 0, 0, 0, 0]);
    check(Withdraw, FASTA, example, refused(18, 0), [0, 1, 1, 0, 2, 1, 0, 0, 0, 0]);
    // The first window has a count, the second, GA, has none.
    check(Withdraw, FASTA, b">\nCTC", refused(18, 0), [0, 1, 1, 0, 2, 1, 0, 0, 0, 0]);
    check(Withdraw, FASTA, b">\nAGNcu", Ok([1, 5, 1, 2, 2]), [0, 1, 1, 0, 0, 1, 0, 0, 0, 0]);
    check(Add, FASTQ, b"@a\nTTA\n+\nIII\n", Ok([1, 3, 0, 1, 2]), [0, 1, 1, 1, 0, 1, 1, 0, 0, 0]);
    check(Withdraw, FASTA, b">x\nuaa*", refused(10, 6), [0, 1, 1, 1, 0, 1, 1, 0, 0, 0]);
    check(Withdraw, FASTA, b"uaa", refused(11, 0), [0, 1, 1, 1, 0, 1, 1, 0, 0, 0]);
    check(Withdraw, FASTQ, b"@\nuaa\n+\nIII", Ok([1, 3, 0, 1, 2]), [0, 1, 1, 0, 0, 1, 0, 0, 0, 0]);
    check(Withdraw, FASTA, b">\nA\n", Ok([1, 1, 0, 1, 0]), [0, 1, 1, 0, 0, 1, 0, 0, 0, 0]);
    check(Withdraw, FASTA, b">\nGTNGCG\n", Ok([1, 6, 1, 2, 3]), [0; 10]);
    check(Withdraw, FASTQ, b"@\nGC\n+\nII", refused(18, 0), [0; 10]);
    check(Withdraw, FASTA, b"", Ok([0; 5]), [0; 10]);
}

/// A list between grounds 12 and 18, with the number of each refusal: an add that was refused 12 is accepted once a
/// withdrawal has made room, and no withdrawal is refused 12. TT is at place 3, and n letters T are n - 1 windows.
#[test]
fn a_list_between_grounds_12_and_18() {
    let settings = Settings::new(b"ACGT", 2, REVERSAL);
    let (mut book, mut table) = table_with(&settings, 3, TOP - 100);
    let list = [
        (Add, 102, 12, TOP - 100),
        (Withdraw, 2, 0, TOP - 101),
        (Add, 102, 0, TOP),
        (Add, 2, 12, TOP),
        (Withdraw, 301, 0, TOP - 300),
        (Add, 302, 12, TOP - 300),
        (Add, 301, 0, TOP),
        (Withdraw, 1, 0, TOP),
        (Add, 1, 0, TOP),
        (Withdraw, 5001, 0, TOP - 5000),
    ];
    for (call, length, number, count) in list {
        let file = record(&vec![b'T'; length]);
        let answer = check_call(call, &mut book, &mut table, FASTA, &file, 6);
        assert_eq!(
            answer.map_or_else(|refusal| refusal.number, |_| 0),
            number,
            "{call:?} of {length} letters T"
        );
        assert_eq!(table.slice()[3] as u64, count, "{call:?} of {length} letters T");
    }
    // TT has counts enough, the two other classes have none.
    for letter in [b'A', b'c', b'G'] {
        let file = record(&[b'T', b'T', letter, letter]);
        assert_eq!(check_withdraw(&mut book, &mut table, FASTA, &file, 5), refused(18, 0));
    }
}

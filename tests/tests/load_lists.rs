//! Lists of loads, adds and withdrawals of both kinds of file (document 02, K7: "After a load, every list of
//! adds and withdrawals starts from the loaded counts"), with every count and every answer after every call:
//! beside the tally book, which starts from the loaded counts too, and beside counts that are added up from
//! each file alone.

use kmer_tests::book::*;
use kmer_tests::draw::*;
use kmer_tests::draw_fastq::*;
use kmer_tests::draw_listings::*;
use kmer_tests::expected::Refusal;
use kmer_tests::files::{Kind, FASTA, FASTQ};
use kmer_tests::lent::check_places;
use kmer_tests::loads::*;
use kmer_tests::second_counter::listing_of;
use kmer_tests::settings::*;
use kmer_tests::tables::Call::{Add, Withdraw};
use kmer_tests::tables::*;
use std::collections::BTreeMap;

/// A file, with the number that names its kind.
type Given = (u64, Vec<u8>);

/// A list of calls on one table.
struct List {
    book: Book,
    table: Table,
    /// Each class's count by the last load and the files since, which owes nothing to the book's tallies.
    counts: Vec<u64>,
    /// The sum of the counts that were loaded.
    loaded: u64,
    /// Files that were added and not withdrawn since.
    inside: Vec<Given>,
    /// Listings of this table, each with the files that were inside then.
    kept: Vec<(Vec<u8>, Vec<Given>)>,
}

impl List {
    /// From a cleared table with some places more than needed.
    fn new(settings: &Settings, more: usize) -> List {
        let (book, table) = cleared(settings, more);
        let counts = vec![0; class_count(settings) as usize];
        List { book, table, counts, loaded: 0, inside: Vec::new(), kept: Vec::new() }
    }

    fn call(&mut self, call: Call, given: &Given, room: usize) -> Result<(), Refusal> {
        let (fastq, file) = given;
        check_call(call, &mut self.book, &mut self.table, *fastq, file, room)?;
        for place in window_places(&self.book.settings, Kind::named(*fastq), file) {
            match call {
                Add => self.counts[place] += 1,
                Withdraw => self.counts[place] -= 1,
            }
        }
        match (call, self.inside.iter().position(|other| other == given)) {
            (Add, _) => self.inside.push(given.clone()),
            (Withdraw, Some(place)) => drop(self.inside.swap_remove(place)),
            (Withdraw, None) => (),
        }
        Ok(())
    }

    /// Loads a text; where it is taken, a new book starts from the counts. A refused load leaves the old
    /// book.
    fn load(&mut self, text: &[u8], inside: &[Given]) -> Result<(), Refusal> {
        let settings = self.book.settings.clone();
        let counts = check_load(&settings, &mut self.table, text)?;
        self.counts = counts.iter().map(|&count| count as u64).collect();
        self.loaded = self.counts.iter().sum();
        self.book = Book::starting(&settings, &counts);
        self.inside = inside.to_vec();
        Ok(())
    }

    /// Keeps the table's listing, which is the one of the counts.
    fn keep(&mut self) {
        let counts: Vec<u32> = self.counts.iter().map(|&count| count as u32).collect();
        let text = listing_of(&self.book.settings, &counts);
        check_written(&self.book.settings, self.table.slice(), &text);
        self.kept.push((text, self.inside.clone()));
    }

    /// Each count, and demand 3's sum on top of that of the loaded counts.
    fn check(&self) {
        let counts: Vec<u32> = self.counts.iter().map(|&count| count as u32).collect();
        let what = format!("{}: a list", self.book.settings);
        check_places(&what, &self.table.slice()[..counts.len()], &counts);
        let over = |[_, letters, foreign, edge, _]: Numbers| letters - foreign - edge;
        let sum: u64 = self.counts.iter().sum();
        assert_eq!(sum + over(self.book.withdrawn), self.loaded + over(self.book.taken), "{what}: the sum");
    }
}

/// Loads a listing: one that was kept, with the files that were inside then, one of a drawn table, at times
/// with a count that is nearly full, or a damaged one. Gives the name of what was done, with the answer.
fn load_drawn(random: &mut Random, list: &mut List) -> (&'static str, Result<(), Refusal>) {
    let settings = &list.book.settings;
    let kept = random.below(list.kept.len() as u64 * 2 + 1) as usize;
    if let Some((text, inside)) = list.kept.get(kept).cloned() {
        return ("load kept", list.load(&text, &inside));
    }
    let (mut counts, mut text) = drawn_listing(random, settings, 3);
    if random.below(3) == 0 {
        let place = random.below(counts.len() as u64) as usize;
        counts[place] = u32::MAX - random.below(200) as u32;
        text = listing_of(settings, &counts);
    }
    if random.below(2) == 0 {
        return ("load", list.load(&text, &[]));
    }
    text = damaged_listing(random, settings, &text);
    ("load damaged", list.load(&text, &[]))
}

/// What a list did, and how often it was accepted (0) or refused, by number.
type Outcomes = BTreeMap<(&'static str, u64), usize>;

/// A file for a call: a new one or, where there is one, one that is inside; whole or with one damage.
fn drawn_given(random: &mut Random, list: &List, inside: bool, damaged: bool) -> Given {
    let settings = &list.book.settings;
    let mut given = whole_file(random, settings, 300);
    if inside && !list.inside.is_empty() {
        given = list.inside[random.below(list.inside.len() as u64) as usize].clone();
    }
    if damaged {
        given.1 = damaged_of(random, Kind::named(given.0), settings, given.1);
    }
    given
}

/// The next step of a list: a load, a listing that is kept, an add or a withdrawal.
fn step(random: &mut Random, list: &mut List, outcomes: &mut Outcomes) {
    let (what, answer) = match random.below(16) {
        0..=2 => load_drawn(random, list),
        3 => {
            list.keep();
            ("keep", Ok(()))
        }
        drawn => {
            let call = if drawn < 10 { Add } else { Withdraw };
            let (inside, damaged) = (matches!(drawn, 8..=12 | 15), matches!(drawn, 4 | 15));
            let given = drawn_given(random, list, inside, damaged);
            let name = match (call, given.0) {
                (Add, FASTA) => "add",
                (Add, _) => "add FASTQ",
                (Withdraw, FASTA) => "withdraw",
                (Withdraw, _) => "withdraw FASTQ",
            };
            (name, list.call(call, &given, 5))
        }
    };
    let number = answer.map_or_else(|refusal| refusal.number, |()| 0);
    *outcomes.entry((what, number)).or_default() += 1;
}

/// The outcomes that there are, and how often at least: the lists are worth their name only where all kinds
/// of calls are in them. Only a listing that was damaged is ever refused.
const LEAST: [(&str, u64, usize); 27] = [
    ("load", 0, 500),
    ("load damaged", 0, 50),
    ("load damaged", 20, 200),
    ("load damaged", 21, 50),
    ("load damaged", 22, 150),
    ("load kept", 0, 500),
    ("keep", 0, 500),
    ("add", 0, 1000),
    ("add", 10, 50),
    ("add", 11, 50),
    ("add", 12, 100),
    ("add FASTQ", 0, 1000),
    ("add FASTQ", 10, 20),
    ("add FASTQ", 12, 100),
    ("add FASTQ", 15, 50),
    ("add FASTQ", 16, 50),
    ("add FASTQ", 17, 5),
    ("withdraw", 0, 500),
    ("withdraw", 10, 50),
    ("withdraw", 11, 50),
    ("withdraw", 18, 500),
    ("withdraw FASTQ", 0, 500),
    ("withdraw FASTQ", 10, 20),
    ("withdraw FASTQ", 15, 50),
    ("withdraw FASTQ", 16, 50),
    ("withdraw FASTQ", 17, 5),
    ("withdraw FASTQ", 18, 500),
];

/// Over every size that is small enough, from a cleared table; a table is loaded several times.
#[test]
fn lists_over_every_size() {
    let mut random = Random::new(78);
    let mut outcomes = Outcomes::new();
    for (s, mirror, k) in sizes_up_to(3000) {
        let settings = Settings::new(&drawn_capitals(&mut random, s), k, mirror);
        let mut list = List::new(&settings, random.below(4) as usize);
        for _ in 0..80 {
            step(&mut random, &mut list, &mut outcomes);
            list.check();
        }
    }
    let least: Outcomes = LEAST.into_iter().map(|(what, number, times)| ((what, number), times)).collect();
    assert!(outcomes.keys().eq(least.keys()), "{outcomes:?}");
    assert!(least.iter().all(|(outcome, times)| outcomes[outcome] >= *times), "{outcomes:?}");
}

/// "Ecologists keep last year's listing and want to add this year's files to it": some files, the listing,
/// and from a table with other counts the listing loaded and more files added, leave what all files leave
/// from a cleared table. Then this year's files may be withdrawn, and last year's after them.
#[test]
fn last_years_listing_and_this_years_files() {
    let mut random = Random::new(79);
    let mut counted = 0;
    for (s, mirror, k) in sizes_up_to(20_000) {
        let settings = Settings::new(&drawn_capitals(&mut random, s), k, mirror);
        let old: Vec<Given> = (0..3).map(|_| whole_file(&mut random, &settings, 300)).collect();
        let new: Vec<Given> = (0..3).map(|_| whole_file(&mut random, &settings, 300)).collect();
        let mut all = List::new(&settings, 2);
        let before = all.table.slice().to_vec();
        for given in &old {
            all.call(Add, given, 5).expect("a file without damage");
        }
        all.keep();
        let (listing, _) = all.kept[0].clone();
        let mut list = List::new(&settings, 2);
        list.call(Add, &new[0], 5).expect("a file without damage");
        list.load(&listing, &[]).expect("a listing");
        assert_eq!(list.table.slice(), all.table.slice(), "{settings}: last year's counts");
        for given in &new {
            list.call(Add, given, 5).expect("a file without damage");
            all.call(Add, given, 5).expect("a file without damage");
        }
        assert_eq!(list.table.slice(), all.table.slice(), "{settings}: both years' counts");
        let sum: u64 = list.counts.iter().sum();
        counted += (list.loaded > 0 && sum > list.loaded) as usize;
        for given in new.iter().chain(&old) {
            list.call(Withdraw, given, 5).expect("a file that is inside");
            list.check();
        }
        assert_eq!(list.table.slice(), before, "{settings}: the cleared table");
    }
    assert!(counted > 100, "{counted} tables with windows of both years");
}

/// A list with its counts written out, ACGT under complement, k 2; a refused call changes no count.
#[test]
fn a_list_with_its_counts_written_out() {
    let line = "(survey (letters ACGT) (k 2) (mirror complement) (classes 10))\n";
    let text = |lines: &str| format!("{line}{lines}").into_bytes();
    let mut list = List::new(&Settings::new(b"ACGT", 2, COMPLEMENT), 1);
    let fasta = |sequence: &[u8]| (FASTA, record(sequence));
    let refused = |number: u64, p: u64| Err(Refusal { number, p });
    // AT CG GC TA AG AC AA CC CA GA
    let check = |list: &List, counts: [u64; 10]| {
        assert_eq!(list.counts, counts);
        list.check();
    };
    assert_eq!(list.call(Add, &fasta(b"AATG"), 5), Ok(()));
    check(&list, [1, 0, 0, 0, 0, 0, 1, 0, 1, 0]);
    assert_eq!(list.load(&text("(count CG 1)\n(count AC 2)\n(total 3)\n"), &[]), Ok(()));
    check(&list, [0, 1, 0, 0, 0, 2, 0, 0, 0, 0]);
    // What was added before the load is no longer there.
    assert_eq!(list.call(Withdraw, &fasta(b"AATG"), 5), refused(18, 0));
    assert_eq!(list.call(Withdraw, &(FASTQ, b"@\nGUA\n+\nIII".to_vec()), 5), refused(18, 0));
    assert_eq!(list.call(Withdraw, &(FASTQ, b"@\nGU\n+\nII".to_vec()), 5), Ok(()));
    check(&list, [0, 1, 0, 0, 0, 1, 0, 0, 0, 0]);
    assert_eq!(list.load(&text("(count CG 1)\n(total 2)\n"), &[]), refused(22, 76));
    assert_eq!(list.load(&text("(count CG 1)\n"), &[]), refused(20, 76));
    assert_eq!(list.load(b"(survey (letters ACGT) (k 2) (mirror z) (classes 10))\n", &[]), refused(21, 0));
    check(&list, [0, 1, 0, 0, 0, 1, 0, 0, 0, 0]);
    assert_eq!(list.call(Add, &fasta(b"acgNCG*"), 5), refused(10, 9));
    assert_eq!(list.call(Add, &fasta(b"acgNCG"), 5), Ok(()));
    check(&list, [0, 3, 0, 0, 0, 2, 0, 0, 0, 0]);
    // A count that is nearly full allows as many windows as are left, of whatever class.
    assert_eq!(list.load(&text("(count GA 4294967293)\n(total 4294967293)\n"), &[]), Ok(()));
    check(&list, [0, 0, 0, 0, 0, 0, 0, 0, 0, 4_294_967_293]);
    assert_eq!(list.call(Add, &fasta(b"CGCG"), 5), refused(12, 0));
    assert_eq!(list.call(Add, &fasta(b"TCG"), 5), Ok(()));
    check(&list, [0, 1, 0, 0, 0, 0, 0, 0, 0, 4_294_967_294]);
    assert_eq!(list.load(&text("(total 0)\n"), &[]), Ok(()));
    check(&list, [0; 10]);
    assert_eq!(list.call(Withdraw, &fasta(b"GA"), 5), refused(18, 0));
    assert_eq!(list.call(Add, &fasta(b"CGCG"), 5), Ok(()));
    check(&list, [0, 2, 1, 0, 0, 0, 0, 0, 0, 0]);
}

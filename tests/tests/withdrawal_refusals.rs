//! Withdrawals that are refused (document 02, K4: "18 when some class has a smaller count than the file has windows of
//! it, checked after 11, in place of 12"): a count that is one short at each place and at any window of a long file,
//! counts that are the highest there are, the order of the grounds, all combinations of faults, and damaged files
//! beside kmer_add. A refused call changes nothing.

use kmer_tests::book::*;
use kmer_tests::calls::REFUSED;
use kmer_tests::draw::*;
use kmer_tests::draw_fastq::*;
use kmer_tests::draw_files::*;
use kmer_tests::expected::{coder, Refusal};
use kmer_tests::files::{as_fasta, Kind, FASTA, FASTQ};
use kmer_tests::lent::*;
use kmer_tests::sequences::{two_bit_settings, MOST_BYTES};
use kmer_tests::settings::*;
use kmer_tests::table_faults::*;
use kmer_tests::tables::*;

/// Each place in turn, whether the file touches it or not, with every count up to one more than the file has windows
/// there; all others have just as many, and later places nothing or the most there is.
#[test]
fn a_place_that_is_short_is_refused_18() {
    let mut random = Random::new(191);
    let zebra = [REVERSAL, COMPLEMENT].map(|mirror| Settings::new(b"ZEBRA", 2, mirror));
    for settings in [two_bit_settings(3), two_bit_settings(4)].into_iter().chain(zebra) {
        let sequences = [25, 0, 2, 9].map(|length| drawn_letters(&mut random, &settings, length, 0));
        for (fastq, later, file) in
            [(FASTA, 0, as_fasta(&sequences)), (FASTQ, u32::MAX, drawn_fastq_of(&mut random, &sequences))]
        {
            let windows = windows_by_place(&settings, Kind::named(fastq), &file);
            for (place, &needed) in windows.iter().enumerate() {
                for count in 0..=needed + 1 {
                    let mut counts = windows.clone();
                    counts[place] = count;
                    let (mut book, mut table) = table_of(&settings, &counts, later);
                    let refusal = check_withdraw(&mut book, &mut table, fastq, &file, 5).err();
                    assert_eq!(refusal, (count < needed).then_some(LACKING), "{settings}: {place}, {count}");
                }
            }
        }
    }
}

/// The windows of each class count, not those of all classes together.
#[test]
fn ground_18_takes_the_windows_of_one_class() {
    let settings = two_bit_settings(2);
    let class = |word: &[u8]| coder(&settings).code(word) as usize;
    // AAAAC: three windows AA, one AC.
    let file = b">\nAAAAC";
    for (aa, ac, answer) in [
        (3, 1, Ok([1, 5, 0, 1, 4])),
        (4, 4, Ok([1, 5, 0, 1, 4])),
        (2, 9, refused(18, 0)),
        (9, 0, refused(18, 0)),
    ] {
        let mut counts = [0; 10];
        counts[class(&[0, 0])] = aa;
        counts[class(&[0, 1])] = ac;
        let (mut book, mut table) = table_of(&settings, &counts, 0);
        assert_eq!(check_withdraw(&mut book, &mut table, FASTA, file, 5), answer, "AA {aa}, AC {ac}");
    }
}

/// One record of so many times one letter: all its windows are of one class.
fn file_of_one_letter(fastq: u64, letter: u8, length: usize) -> Vec<u8> {
    match Kind::named(fastq) {
        Kind::Fasta => record(&vec![letter; length]),
        Kind::Fastq => [b"@\n", &vec![letter; length][..], b"\n+\n", &vec![b'I'; length]].concat(),
    }
}

/// A run of one letter over several batches, whose class has any number of windows too few: the first window without a
/// count stands at the start, at the end, and about the ends of the library's batches. All other places have the most
/// there is; no window more is taken or given back than there is.
#[test]
fn a_run_of_one_letter_that_is_short_about_a_batch() {
    for (settings, fastq) in some_settings().into_iter().flat_map(|s| [(s.clone(), FASTA), (s, FASTQ)]) {
        let k = settings.k;
        let windows = 3 * BATCH + 2 * k;
        let file = file_of_one_letter(fastq, settings.letters[0].to_ascii_lowercase(), windows + k - 1);
        let place = coder(&settings).code(&vec![0; k]) as usize;
        let mut table = Table::new(&vec![u32::MAX; class_count(&settings) as usize + 2]);
        for count in lengths_about_batches(k).into_iter().chain([0, 1, windows - 2, windows - 1]) {
            if count < windows {
                table.slice_mut()[place] = count as u32;
                check_refusal(Call::Withdraw, &settings, &mut table, (fastq, &file), 5, LACKING);
            }
        }
        for count in [windows as u32, windows as u32 + 1, u32::MAX] {
            table.slice_mut()[place] = count;
            let mut right = table.slice().to_vec();
            right[place] = count - windows as u32;
            assert_eq!(withdraw(&settings, &mut table, fastq, &file, &mut Lent::filled(5)), 5, "{settings}");
            check_places(&format!("{settings}: a count of {count}"), table.slice(), &right);
        }
    }
}

/// Where the first window without a count may stand: at the start, at the end, about the ends of the library's batches,
/// and anywhere.
fn places_to_try(random: &mut Random, k: usize, windows: usize) -> Vec<usize> {
    let ends = (0..20).chain(windows - 20..windows);
    let anywhere: Vec<usize> = (0..60).map(|_| random.below(windows as u64) as usize).collect();
    let all = ends.chain(lengths_about_batches(k)).chain(anywhere);
    all.filter(|&place| place < windows).collect()
}

/// Each of these windows in turn is the first that has no count left, since its class has as many as the windows before
/// it need. Then the table as given, which allows the file.
fn check_short_windows(settings: &Settings, fastq: u64, file: &[u8], tried: &[usize], counts: &[u32]) {
    let windows = window_places(settings, Kind::named(fastq), file);
    let mut table = Table::new(counts);
    for &at in tried {
        let place = windows[at];
        let before = windows[..at].iter().filter(|&&other| other == place).count();
        table.slice_mut()[place] = before as u32;
        check_refusal(Call::Withdraw, settings, &mut table, (fastq, file), 5, LACKING);
        table.slice_mut()[place] = counts[place];
    }
    let mut right = counts.to_vec();
    windows.iter().for_each(|&place| right[place] -= 1);
    assert_eq!(withdraw(settings, &mut table, fastq, file, &mut Lent::filled(5)), 5, "{settings}");
    check_places(&format!("{settings}: a file that the counts allow"), table.slice(), &right);
}

/// Files of several batches and records, from tables that have just the file's windows and from full ones.
#[test]
fn a_window_that_is_short_anywhere_in_a_long_file() {
    let mut random = Random::new(192);
    for settings in some_settings() {
        let lengths = [(2500, 0), (900, 40), (1, 0), (0, 0), (1300, 400)];
        let sequences = lengths.map(|(length, gap)| drawn_letters(&mut random, &settings, length, gap));
        let wrapped =
            sequences.clone().map(|letters| letters.chunks(61).collect::<Vec<_>>().join(&b"\r\n"[..]));
        for (fastq, file) in [(FASTA, as_fasta(&wrapped)), (FASTQ, drawn_fastq_of(&mut random, &sequences))] {
            let mut exact = windows_by_place(&settings, Kind::named(fastq), &file);
            let windows = exact.iter().sum::<u32>() as usize;
            let tried = places_to_try(&mut random, settings.k, windows);
            let full = vec![u32::MAX; exact.len() + 2];
            exact.extend([0, 7, u32::MAX]);
            check_short_windows(&settings, fastq, &file, &tried, &exact);
            check_short_windows(&settings, fastq, &file, &tried, &full);
        }
    }
}

/// Counts of the most there is, for which every add with a window is refused 12, allow every withdrawal. And where a
/// withdrawal leaves room for all windows together, the add that was refused before is accepted.
#[test]
fn full_counts_are_withdrawn_from_and_added_to_again() {
    let mut random = Random::new(193);
    for (s, mirror, k) in sizes_up_to(300) {
        let settings = Settings::new(&drawn_capitals(&mut random, s), k, mirror);
        let sequence = drawn_letters(&mut random, &settings, k + 40, 0);
        let numbers = Ok([1, k as u64 + 40, 0, k as u64 - 1, 41]);
        for (fastq, file) in [(FASTA, record(&sequence)), (FASTQ, drawn_fastq_of(&mut random, &[sequence]))] {
            let windows = windows_by_place(&settings, Kind::named(fastq), &file);
            let full: Vec<u32> = windows.iter().map(|_| u32::MAX).collect();
            let (mut book, mut table) = table_of(&settings, &full, u32::MAX);
            assert_eq!(check_add(&mut book, &mut table, fastq, &file, 5), refused(12, 0), "{settings}");
            assert_eq!(check_withdraw(&mut book, &mut table, fastq, &file, 5), numbers, "{settings}");
            let nearly: Vec<u32> = windows.iter().map(|windows| u32::MAX - 41 + windows).collect();
            let (mut book, mut table) = table_of(&settings, &nearly, u32::MAX);
            let calls = [(Call::Add, refused(12, 0)), (Call::Withdraw, numbers), (Call::Add, numbers)];
            for (call, answer) in calls {
                let found = check_call(call, &mut book, &mut table, fastq, &file, 5);
                assert_eq!(found, answer, "{settings}: {call:?}");
            }
            assert_eq!(table.slice()[..nearly.len()], nearly, "{settings}");
        }
    }
}

/// Written out, with no reference. Each file has a window AT, which is at place 0 and has no count, so that 18 applies
/// wherever nothing before it does.
#[test]
fn ground_18_stands_after_7_and_the_grounds_of_a_fasta_file() {
    let long = vec![b'*'; MOST_BYTES + 1];
    let cases: [Faulty; 19] = [
        (b"AcG", 0, 2, 0, 0, &long, 0, (1, 0)),
        (b"ACG", 0, 2, 0, 0, &long, 0, (2, 0)),
        (b"ACG", 0, 1, 0, 0, &long, 0, (4, 0)),
        (b"ACGT", 32, 1, 0, 0, b">\nAT", 0, (4, 0)),
        (b"ACGT", 13, 1, 0, 0, b">\nAT", 0, (6, 0)),
        (b"ACGT", 31, 1, 10, 0, b">\nAT", 5, (6, 0)),
        (b"ACGT", 2, 1, 0, 0, &long, 0, (6, 0)),
        (b"ACGT", 2, 1, 9, 0, b">\nAT*", 0, (7, 10)),
        (b"ACGT", 2, 1, 9, 0, b">\nAT", 5, (7, 10)),
        (b"ACGT", 2, 1, 10, 0, b">\nAT*", 4, (7, 5)),
        (b"ACGT", 2, 1, 10, 0, b">\nAT", 4, (7, 5)),
        (b"ACGT", 2, 1, 10, 0, b">\nAT*", 5, (10, 4)),
        (b"ACGT", 2, 1, 10, 0, b">\nAT\r", 5, (10, 4)),
        (b"ACGT", 2, 1, 10, 0, b"@\nAT\n+\nII", 5, (10, 0)),
        (b"ACGT", 2, 1, 10, 0, b"A*\n>\nAT", 5, (11, 0)),
        (b"ACGT", 2, 1, 10, 0, b"\nN\n>\nAT", 5, (11, 1)),
        (b"ACGT", 2, 1, 10, 0, b">\nAT", 5, (18, 0)),
        (b"ACGT", 2, 1, 11, 0, b">\nNAC\n>\nAAT", 6, (18, 0)),
        (b"ACG", 1, 1, 2, 0, b">\nC", 5, (18, 0)),
    ];
    cases.into_iter().for_each(|case| check_refused(Call::Withdraw, FASTA, case));
}

#[test]
fn ground_18_stands_after_7_and_the_grounds_of_a_fastq_file() {
    let long = vec![b'@'; MOST_BYTES + 1];
    let good = b"@\nAT\n+\nII\n";
    let cases: [Faulty; 16] = [
        (b"AcG", 0, 2, 0, 0, &long, 0, (1, 0)),
        (b"ACG", 0, 2, 0, 0, b"@", 0, (2, 0)),
        (b"ACGT", 32, 1, 0, 0, good, 0, (4, 0)),
        (b"ACGT", 2, 1, 0, 0, &long, 0, (6, 0)),
        (b"ACGT", 2, 1, 9, 0, b"@\nAT\n", 0, (7, 10)),
        (b"ACGT", 2, 1, 9, 0, good, 5, (7, 10)),
        (b"ACGT", 2, 1, 10, 0, b"@\nAT\n", 4, (7, 5)),
        (b"ACGT", 2, 1, 10, 0, good, 4, (7, 5)),
        (b"ACGT", 2, 1, 10, 0, b">\nAT", 5, (15, 0)),
        (b"ACGT", 2, 1, 10, 0, b"@\nAT\n+\nII\n\n", 5, (15, 10)),
        (b"ACGT", 2, 1, 10, 0, b"@\nAT\n+\n", 5, (15, 7)),
        (b"ACGT", 2, 1, 10, 0, b"@\nAT*\n+\nIII\n", 5, (10, 4)),
        (b"ACGT", 2, 1, 10, 0, b"@\nAT\n+\nIII\n", 5, (16, 7)),
        (b"ACGT", 2, 1, 10, 0, b"@\nAT\n+\nI\x7f\n", 5, (17, 8)),
        (b"ACGT", 2, 1, 10, 0, good, 5, (18, 0)),
        (b"ACG", 1, 1, 2, 0, b"@\nN\n+\nI\n@\nC\n+\n!", 6, (18, 0)),
    ];
    cases.into_iter().for_each(|case| check_refused(Call::Withdraw, FASTQ, case));
}

/// Ground 7 for every short table, with the number of classes as P, before a short answer list with 5 as P.
#[test]
fn short_tables_and_answer_lists_are_refused_7() {
    for (s, mirror, k) in sizes_up_to(150) {
        let settings = Settings::new(&first_capitals(s), k, mirror);
        let classes = class_count(&settings) as u64;
        let file = record(&vec![b'A'; k]);
        for places in 0..classes as usize {
            let (mut table, needed) = (Table::filled(places), Refusal { number: 7, p: classes });
            check_refusal(Call::Withdraw, &settings, &mut table, (FASTA, &file), places % 7, needed);
        }
        let (_, mut table) = cleared(&settings, 2);
        for (file, room) in
            [&file[..], b"A*", b""].into_iter().flat_map(|file| (0..5).map(move |r| (file, r)))
        {
            let needed = Refusal { number: 7, p: 5 };
            check_refusal(Call::Withdraw, &settings, &mut table, (FASTA, file), room, needed);
        }
    }
}

/// Makes both calls with the same file, each with counts for which neither ground 12 nor ground 18 applies: answers and
/// lists are the same, and what the one adds the other takes away. Gives the number of a refusal, 0 for none. The
/// library's calls share the grounds before these two, so that the comparison is for "in place of 12" alone; the book
/// holds those grounds, in the lists and in the combinations of faults.
fn check_alike(settings: &Settings, fastq: u64, file: &[u8], room: usize) -> usize {
    let counts = vec![1 << 20; class_count(settings) as usize + 2];
    let [more, fewer] = [Call::Add, Call::Withdraw].map(|call| {
        let (mut table, mut list) = (Table::new(&counts), Lent::filled(room));
        let answer = answered(call, settings, &mut table, fastq, file, &mut list);
        (answer, list.slice().to_vec(), table.slice().to_vec())
    });
    let what = format!("{settings}: fastq {fastq}, file {}", shown_file(file));
    assert_eq!((more.0, more.1), (fewer.0, fewer.1), "{what}");
    let left: Vec<u32> = more.2.iter().map(|count| (2 << 20) - count).collect();
    check_places(&what, &fewer.2, &left);
    if more.0 < REFUSED {
        return 0;
    }
    check_places(&what, &fewer.2, &counts);
    (more.0 & 0xff) as usize
}

/// Damaged files are refused with the same number and P as kmer_add refuses them, also where no count allows a window.
#[test]
fn damaged_files_are_refused_as_kmer_add_refuses_them() {
    let mut random = Random::new(194);
    let mut answers = [0; 19];
    for (s, mirror, k) in sizes_up_to(2500) {
        let settings = Settings::new(&drawn_capitals(&mut random, s), k, mirror);
        let mut zero = Table::new(&vec![0; class_count(&settings) as usize + 1]);
        for _ in 0..30 {
            let (fastq, whole) = whole_file(&mut random, &settings, 80);
            let file = damaged_of(&mut random, Kind::named(fastq), &settings, whole);
            let room = 4 + random.below(12).min(2) as usize;
            let number = check_alike(&settings, fastq, &file, room);
            answers[number] += 1;
            if number > 0 {
                let mut list = Lent::filled(room);
                let answer = add(&settings, &mut zero, fastq, &file, &mut list);
                let refusal = Refusal { number: number as u64, p: (answer - REFUSED) >> 8 };
                check_refusal(Call::Withdraw, &settings, &mut zero, (fastq, &file), room, refusal);
            }
        }
    }
    // The comparison is worth something only where all kinds of damage are in it.
    assert!([0, 7, 10, 11, 15, 16, 17].iter().all(|&number| answers[number] > 20), "{answers:?}");
    assert_eq!(answers.iter().sum::<usize>(), 30 * sizes_up_to(2500).len(), "{answers:?}");
}

/// Every combination of good and bad arguments, beside the book: withdrawn before it is added, after it, and once more.
#[test]
fn combinations_of_faults_answer_as_the_book() {
    let files: [&[u8]; 9] = [
        b"",
        b">\nACGTBT",
        b"A",
        b">\nA*",
        b">\nTT\r",
        b"@\nACGTBT\n+\nIIIIII",
        b"@\nTT\n+\nII\r",
        b"@\nA\n+\n\x7f\n",
        b"@\nA",
    ];
    let calls = [Call::Withdraw, Call::Add, Call::Withdraw, Call::Withdraw];
    check_combinations(&calls, &[FASTA, FASTQ], &files, &[0, 3, 9, 10, 1000], &[4, 5]);
}

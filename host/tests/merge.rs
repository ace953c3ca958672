//! `wontirje merge`: listings added up, beside counting all their files at once; and what is not merged.

mod run;

use kmer_tests::draw::Random;
use kmer_tests::settings::Settings;
use kmer_tests::tables::some_settings;
use run::{drawn_of_either_kind, options, whole_listing, Folder, Run, EMPTY, LISTING};
use std::ffi::{OsStr, OsString};
use std::fs;

const POND_LISTING: &str = "(survey (letters ACGT) (k 2) (mirror complement) (classes 10))\n\
    (count GC 5)\n(count AA 3)\n(total 8)\n";
const SUM: &str = "(survey (letters ACGT) (k 2) (mirror complement) (classes 10))\n\
    (count CG 1)\n(count GC 6)\n(count AG 2)\n(count AC 2)\n(count AA 3)\n(total 14)\n";
const LAKE_LOADED: &str = "lake.txt: loaded: 4 of 10 classes have a count, total 6";
const POND_LOADED: &str = "pond.txt: loaded: 2 of 10 classes have a count, total 8";

/// A folder in which the command runs, with the listings of a lake and of a pond.
struct Place(Folder);

impl Place {
    fn new() -> Place {
        let folder = Folder::new();
        folder.file("lake.txt", LISTING.as_bytes());
        folder.file("pond.txt", POND_LISTING.as_bytes());
        Place(folder)
    }

    fn run(&self, arguments: &[impl AsRef<OsStr>], input: &[u8]) -> Run {
        self.0.run(&[], arguments, input)
    }

    fn merge(&self, arguments: &[&str]) -> Run {
        self.0.run(&["merge"], arguments, b"")
    }

    /// Counts files to a new listing; gives the status, which tells whether one was refused, and the listing.
    fn count(&self, settings: &Settings, files: &[&str], to: &str) -> (i32, Vec<u8>) {
        let files = files.iter().map(OsString::from).chain(options(settings)).collect::<Vec<_>>();
        let run = self.0.run(&["count", "--output", to], &files, b"");
        assert!([0, 1].contains(&run.status), "{settings}: {}", run.err);
        (run.status, fs::read(self.0.path(to)).expect("a listing"))
    }

    fn check(&self, arguments: &[&str], listing: &str, said: &[&str]) {
        let run = self.merge(arguments);
        assert_eq!((run.status, run.text()), (0, listing), "{arguments:?}: {}", run.err);
        assert_eq!(run.complaints(), said, "{arguments:?}");
    }

    /// Nothing is printed or written; these lines were said before the reason.
    fn check_refused(&self, arguments: &[&str], said: &[&str], reason: &str) {
        let (names, reason) = (self.0.names(), format!("wontirje: {reason}"));
        for arguments in [arguments, &[&["--output", "new.txt"], arguments].concat()] {
            let run = self.merge(arguments);
            assert_eq!((run.status, run.text()), (2, ""), "{arguments:?}: {}", run.err);
            assert_eq!(run.complaints(), [said, &[&reason]].concat(), "{arguments:?}");
        }
        assert_eq!(self.0.names(), names, "{arguments:?}");
    }
}

#[test]
fn sums_by_hand() {
    let place = Place::new();
    place.check(&["lake.txt", "pond.txt"], SUM, &[LAKE_LOADED, POND_LOADED]);
    place.check(&["pond.txt", "lake.txt"], SUM, &[POND_LOADED, LAKE_LOADED]);
    place.check(&["lake.txt"], LISTING, &[LAKE_LOADED]);
    let twice = LISTING.replace(" 2)\n", " 4)\n").replace(" 1)\n", " 2)\n").replace(" 6)", " 12)");
    place.check(&["lake.txt", "lake.txt"], &twice, &[LAKE_LOADED, LAKE_LOADED]);
    place.0.file("none.txt", EMPTY.as_bytes());
    let none = "none.txt: loaded: 0 of 10 classes have a count, total 0";
    place.check(&["none.txt", "lake.txt", "none.txt"], LISTING, &[none, LAKE_LOADED, none]);
    place.check(&["none.txt", "none.txt"], EMPTY, &[none, none]);
}

/// Standard input may be any of the listings, once.
#[test]
fn standard_input_is_a_listing() {
    let place = Place::new();
    let piped = POND_LOADED.replace("pond.txt", "standard input");
    for (arguments, said) in [
        (["merge", "lake.txt", "-"], [LAKE_LOADED, &piped]),
        (["merge", "-", "lake.txt"], [&piped, LAKE_LOADED]),
    ] {
        let run = place.run(&arguments, POND_LISTING.as_bytes());
        assert_eq!((run.status, run.text(), run.complaints()), (0, SUM, said.to_vec()));
    }
    let twice = "- is given twice; standard input can be read only once";
    place.run(&["merge", "-", "lake.txt", "-"], POND_LISTING.as_bytes()).check_failed(twice);
}

#[test]
fn a_new_file_has_the_sum() {
    let place = Place::new();
    place.check(&["--output", "sum.txt", "lake.txt", "pond.txt"], "", &[LAKE_LOADED, POND_LOADED]);
    assert_eq!(fs::read_to_string(place.0.path("sum.txt")).expect("the listing"), SUM);
    assert_eq!(place.0.names(), ["lake.txt", "pond.txt", "sum.txt"]);
    let there = "lake.txt: there is such a file already; only a new one is written";
    place.merge(&["--output", "lake.txt", "lake.txt", "pond.txt"]).check_failed(there);
    assert_eq!(fs::read_to_string(place.0.path("lake.txt")).expect("the listing"), LISTING);
}

/// Files of both kinds, damaged ones among them, counted at once and in parts that are merged: the same
/// bytes, for settings of all kinds; and the sum can be gone on from.
#[test]
fn parts_of_a_count() {
    let mut random = Random::new(221);
    let (mut refused, mut counted) = (0, 0);
    let names = ["a", "b", "c", "d", "e"];
    for settings in some_settings() {
        for _ in 0..6 {
            let place = Place::new();
            for name in names {
                place.0.file(name, &drawn_of_either_kind(&mut random, &settings, 1500).1);
            }
            let count = |files: &[&str], to: &str| place.count(&settings, files, to);
            let (status, at_once) = count(&names, "all.txt");
            refused += status;
            counted += i32::from(!at_once.ends_with(b"\n(total 0)\n"));
            for (file, to) in [("a", "1.txt"), ("b", "2.txt"), ("c", "3.txt")] {
                count(&[file], to);
            }
            let merged = place.merge(&["--output=123.txt", "1.txt", "2.txt", "3.txt"]);
            assert_eq!(merged.status, 0, "{settings}: {}", merged.err);
            count(&["d", "e"], "4.txt");
            let merged = place.merge(&["4.txt", "123.txt"]);
            assert!(merged.status == 0 && merged.out == at_once, "{settings}: {}", merged.err);
            let gone_on = place.run(&["count", "--from=123.txt", "d", "e"], b"");
            assert!(gone_on.out == at_once && gone_on.status <= status, "{settings}: {}", gone_on.err);
        }
    }
    assert!(refused >= 20 && counted >= 40, "{refused} runs with a refused file, {counted} with a count");
}

/// A sum that is just a count, and one above it: the listing, the word and both numbers are named.
#[test]
fn sums_that_are_too_large() {
    let place = Place::new();
    let of = |name: &str, ag: u64, ac: u64| {
        let counts = format!("(count AG {ag})\n(count AC {ac})\n(total {})", ag + ac);
        place.0.file(name, EMPTY.replace("(total 0)", &counts).as_bytes());
        format!("{name}: loaded: 2 of 10 classes have a count, total {}", ag + ac)
    };
    let full = of("full.txt", 1, 4_294_967_295);
    let half = of("half.txt", 7, 2_147_483_648);
    let less = of("less.txt", 1, 2_147_483_647);
    let sum = EMPTY.replace("(total 0)", "(count AG 8)\n(count AC 4294967295)\n(total 4294967303)");
    place.check(&["half.txt", "less.txt"], &sum, &[&half, &less]);
    let kept = "in sum above 4,294,967,295; nothing is merged: keep the listings apart";
    place.check_refused(
        &["full.txt", "lake.txt", "pond.txt"],
        &[&full, LAKE_LOADED],
        &format!("lake.txt: the count of AC is 4294967295 before it and 2 in it, {kept}"),
    );
    place.check_refused(
        &["half.txt", "half.txt"],
        &[&half, &half],
        &format!("half.txt: the count of AC is 2147483648 before it and 2147483648 in it, {kept}"),
    );
    place.check_refused(
        &["less.txt", "less.txt", "less.txt"],
        &[&less, &less, &less],
        &format!("less.txt: the count of AC is 4294967294 before it and 2147483647 in it, {kept}"),
    );
}

/// Ground 21: a listing of other settings than the first, which is named. It is told of a longer one too,
/// whatever its length.
#[test]
fn listings_of_other_settings() {
    let place = Place::new();
    let other = |k: usize, letters: &'static [u8], mirror| wontirje::Settings { letters, k, mirror };
    let (complement, reversal) = (wontirje::Mirror::Complement, wontirje::Mirror::Reversal);
    for (settings, has, first) in [
        (other(1, b"ACGT", complement), "k 1", "k 2"),
        (other(7, b"ACGT", complement), "k 7", "k 2"),
        (other(2, b"ACGU", complement), "letters ACGU", "letters ACGT"),
        (other(2, b"ACGT", reversal), "mirror reversal", "mirror complement"),
        (
            other(3, b"AB", reversal),
            "letters AB, k 3, mirror reversal",
            "letters ACGT, k 2, mirror complement",
        ),
    ] {
        let table = vec![9; settings.table_places().expect("a table")];
        place.0.file("other.txt", &whole_listing(&settings, &table));
        let reason = format!(
            "other.txt: refused 21 at offset 0 (line 1): the survey line has {has}, that of lake.txt \
             {first}; only listings of the same settings are merged"
        );
        place.check_refused(&["lake.txt", "other.txt", "pond.txt"], &[LAKE_LOADED], &reason);
    }
}

/// A listing that is damaged, missing or none, wherever it stands among others.
#[test]
fn listings_that_are_refused() {
    let place = Place::new();
    place.0.file("bad.txt", LISTING.replace("total 6", "total 7").as_bytes());
    let bad =
        "bad.txt: refused 22 at offset 115 (line 6): the total is not the sum of the counts; a line was \
        changed, lost or put in: copy it again, or count its files again";
    let missing = "no.txt: not read: No such file or directory";
    for (name, reason) in [("bad.txt", bad), ("no.txt", missing), (".", ".: not read: Is a directory")] {
        place.check_refused(&[name, "lake.txt", "pond.txt"], &[], reason);
        place.check_refused(&["lake.txt", name, "pond.txt"], &[LAKE_LOADED], reason);
        place.check_refused(&["lake.txt", "pond.txt", name], &[LAKE_LOADED, POND_LOADED], reason);
    }
    // A sequence file among the listings.
    place.0.file("lake.fa", b">a\nACGT\n");
    let none =
        "lake.fa: refused 20 at offset 0 (line 1): no survey line, so this is no listing; give a listing \
        as wontirje count prints it";
    place.check_refused(&["lake.txt", "lake.fa"], &[LAKE_LOADED], none);
}

/// As many listings as a folder may have.
#[test]
fn many_listings() {
    let place = Place::new();
    let run = place.run(&[&["merge"], &["pond.txt"; 500][..]].concat(), b"");
    let right =
        POND_LISTING.replace("GC 5", "GC 2500").replace("AA 3", "AA 1500").replace("total 8", "total 4000");
    assert_eq!((run.status, run.text(), run.complaints().len()), (0, &right[..], 500), "{}", run.err);
}

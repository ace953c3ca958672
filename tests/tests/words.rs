//! Word coding and code reading beside the second coder, over every s, k and mirror within the limits:
//! every word and every code where there are at most 20,000, else drawn ones.

use kmer_tests::calls;
use kmer_tests::draw::*;
use kmer_tests::expected::*;
use kmer_tests::second_coder::Coder;
use kmer_tests::settings::*;

const EVERY: u128 = 20_000;
const DRAWN: usize = 1_000;

/// Runs a check for each good size, under the first s capitals and under drawn ones.
fn each_settings(seed: u64, check: impl Fn(&Settings, &Coder, &mut Random)) {
    let mut random = Random::new(seed);
    for (s, mirror, k) in good_sizes() {
        for letters in [first_capitals(s), drawn_capitals(&mut random, s)] {
            let settings = Settings::new(&letters, k, mirror);
            check(&settings, &coder(&settings), &mut random);
        }
    }
}

/// The code of the word as the second coder has it; the word is spelled with small letters, and U for
/// some T, mixed in.
fn check_coding(settings: &Settings, coder: &Coder, random: &mut Random, word: &[u8]) {
    let spelling = spelled_mixed(random, &settings.letters, word);
    check_code(settings, &spelling, Ok(coder.code(word) as u64));
}

/// The code reads as the second coder's word, which is canonical and has this code again.
fn check_reading(settings: &Settings, coder: &Coder, random: &mut Random, code: u64) {
    let word = coder.word(code as u128).unwrap_or_else(|| panic!("{settings}: no word for code {code}"));
    assert!(word <= coder.mirror(&word), "{settings}: {word:?} for code {code} is not canonical");
    let spelling = spelled(&settings.letters, &word);
    let room = settings.k + random.below(20) as usize;
    check_word(settings, code, room, &Ok(spelling.clone()));
    check_code(settings, &spelling, Ok(code));
}

#[test]
fn the_sizes_are_those_of_documents_01_and_02() {
    let largest = [62, 39, 31, 26, 23, 22, 20, 19, 18, 17, 17, 16, 16, 15, 15];
    assert_eq!((2..=16).map(largest_k).collect::<Vec<usize>>(), largest);
    // Each of the 356 sizes has both mirrors, odd s too (document 02, K10).
    assert_eq!(good_sizes().len(), 2 * 356);
}

/// Runs a check for every word of k ranks below s, by rising plain rank.
fn each_word(s: usize, k: usize, mut check: impl FnMut(&[u8])) {
    let mut word = vec![0; k];
    loop {
        check(&word);
        // The last letter that is not the highest goes up by one, those after it back to rank 0.
        let Some(place) = word.iter().rposition(|&rank| rank as usize + 1 < s) else { return };
        word[place] += 1;
        word[place + 1..].fill(0);
    }
}

/// kmer_classes tells the second coder's number for every s, k and mirror within the limits, and otherwise the
/// ground.
#[test]
fn the_number_of_classes_is_told() {
    each_settings(7, |settings, coder, _| {
        assert_eq!(calls::classes(settings) as u128, coder.classes(), "{settings}: kmer_classes");
    });
    let mut refused = 0;
    for settings in good_and_bad_settings() {
        let due = settings_ground(&settings).map(|()| coder(&settings).classes() as u64);
        refused += due.is_err() as usize;
        let due = due.unwrap_or_else(|refusal| calls::REFUSED + refusal.number);
        assert_eq!(calls::classes(&settings), due, "{settings}: kmer_classes");
    }
    assert!(refused > 0, "none of the settings is refused");
}

#[test]
fn every_word_of_small_settings_has_its_code() {
    each_settings(1, |settings, coder, random| {
        let (s, k) = (settings.letters.len(), settings.k);
        if (s as u128).pow(k as u32) <= EVERY {
            each_word(s, k, |word| check_coding(settings, coder, random, word));
        }
    });
}

#[test]
fn drawn_words_of_all_settings_have_their_codes() {
    each_settings(2, |settings, coder, random| {
        let (s, k, complement) = (settings.letters.len(), settings.k, settings.mirror == COMPLEMENT);
        for _ in 0..DRAWN {
            let word = drawn_word(random, s, k);
            check_coding(settings, coder, random, &word);
            let near = drawn_near_palindrome(random, s, k, complement);
            check_coding(settings, coder, random, &near);
            check_coding(settings, coder, random, &coder.mirror(&near));
        }
    });
}

/// The second coder's brute force: the place of a canonical word in the order of the digit strings.
#[test]
fn every_code_of_small_settings_reads_in_the_papers_order() {
    each_settings(3, |settings, coder, random| {
        if coder.classes() > EVERY {
            return;
        }
        let words = coder.words_in_order();
        assert_eq!(words.len() as u128, coder.classes(), "{settings}: number of classes");
        for (code, word) in words.iter().enumerate() {
            let spelling = spelled(&settings.letters, word);
            check_word(settings, code as u64, settings.k, &Ok(spelling.clone()));
            check_code(settings, &spelling, Ok(code as u64));
            let mirror = spelled_mixed(random, &settings.letters, &coder.mirror(word));
            check_code(settings, &mirror, Ok(code as u64));
        }
    });
}

#[test]
fn drawn_codes_of_all_settings_read_back() {
    each_settings(4, |settings, coder, random| {
        let (s, k, complement) = (settings.letters.len(), settings.k, settings.mirror == COMPLEMENT);
        let classes = coder.classes() as u64;
        for code in [0, 1, classes / 2, classes - 1] {
            check_reading(settings, coder, random, code.min(classes - 1));
        }
        for _ in 0..DRAWN {
            let any = random.below(classes);
            check_reading(settings, coder, random, any);
            let small = drawn_code(random, classes);
            check_reading(settings, coder, random, small);
            // The neighbours of a near palindrome's code, which the draws above seldom meet.
            let near = coder.code(&drawn_near_palindrome(random, s, k, complement)) as u64;
            check_reading(settings, coder, random, (near + 1).min(classes - 1));
        }
    });
}

/// The last code before and the first code at each change of the specifying place: the codes with p equal
/// outer pairs or more are the lowest, s^p times the classes of k - 2p letters of them.
#[test]
fn codes_around_each_specifying_place_read_back() {
    each_settings(5, |settings, coder, random| {
        let (s, k, complement) = (settings.letters.len(), settings.k, settings.mirror == COMPLEMENT);
        for equal in 1..k.div_ceil(2) {
            let inner = Coder::new(s, k - 2 * equal, complement).classes();
            let bound = ((s as u128).pow(equal as u32) * inner) as u64;
            for code in [bound - 1, bound, bound + 1] {
                check_reading(settings, coder, random, code);
            }
        }
    });
}

/// Ground 8: the number of classes is the first code that is refused.
#[test]
fn codes_from_the_number_of_classes_on_are_refused() {
    each_settings(6, |settings, coder, random| {
        let classes = coder.classes() as u64;
        let highest = spelled(&settings.letters, &coder.word(classes as u128 - 1).expect("the last class"));
        check_word(settings, classes - 1, settings.k, &Ok(highest));
        let drawn = classes + random.below(u64::MAX - classes);
        for code in [classes, classes + 1, classes * 2, 1 << 62, 1 << 63, u64::MAX - 1, u64::MAX, drawn] {
            for room in [settings.k, settings.k + 9] {
                check_word(settings, code, room, &Err(Refusal { number: 8, p: 0 }));
            }
        }
    });
}

/// Two words share a code exactly when they are equal or mirrors of each other, and no code below the
/// number of classes is left out: by the library's answers alone, with no code of the second coder.
#[test]
fn each_code_belongs_to_one_class() {
    each_settings(7, |settings, coder, _| {
        let (s, k) = (settings.letters.len(), settings.k);
        if (s as u128).pow(k as u32) > EVERY {
            return;
        }
        let mut owner: Vec<Option<Vec<u8>>> = vec![None; coder.classes() as usize];
        each_word(s, k, |word| {
            let code = calls::code(settings, &spelled(&settings.letters, word));
            assert!(code < owner.len() as u64, "{settings}: word {word:?} has code {code}");
            let class = coder.canonical(word);
            let first = owner[code as usize].get_or_insert(class.clone());
            assert_eq!(*first, class, "{settings}: two classes have code {code}");
        });
        let unused = owner.iter().position(Option::is_none);
        assert_eq!(unused, None, "{settings}: a code of no class");
    });
}

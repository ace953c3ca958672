//! A second coder, written from the paper (Wittler 2023, General encoding of canonical k-mers) and not
//! from the library: it builds the digit string of a word as the paper's figures show it, numbers the
//! specifying pairs by listing them (the paper's Table 1) and takes `missing` as the paper's sum.
//!
//! The corrections of document 01 hold: at a differing middle letter the sum is empty, so nothing is
//! missing there; palindromes under reversal take the lowest s^c codes.
//!
//! For odd alphabets under complement, whose "technicalities are omitted" in the paper, the text of document
//! 02, K10, is followed: "With odd s the middle rank is then its own mirror, and odd k has palindromes." That
//! is rank (s - 1)/2, counted from 0.
//!
//! Words are lists of ranks. Numbers are u128, in which no value here can overflow.

use std::array;

pub struct Coder {
    s: usize,
    k: usize,
    complement: bool,
    /// The two digits of the specifying pair (l, r), at [l][r].
    digits_of_pair: [[Option<[u8; 2]>; 16]; 16],
    /// The specifying pair of two digits, at [first digit][second digit].
    pair_of_digits: [[Option<[u8; 2]>; 16]; 16],
}

impl Coder {
    pub fn new(s: usize, k: usize, complement: bool) -> Coder {
        assert!((2..=16).contains(&s) && k >= 1);
        let mut coder = Coder {
            s,
            k,
            complement,
            digits_of_pair: array::from_fn(|_| [None; 16]),
            pair_of_digits: array::from_fn(|_| [None; 16]),
        };
        // Table 1: the pairs l < r in lexicographic order take the lowest pairs of digits that do not
        // begin with 0, in lexicographic order too.
        let ranks = 0..s as u8;
        let pairs = ranks.clone().flat_map(|l| (l + 1..s as u8).map(move |r| [l, r]));
        let digits = ranks.clone().skip(1).flat_map(|a| ranks.clone().map(move |b| [a, b]));
        for (pair, two) in pairs.zip(digits) {
            coder.digits_of_pair[pair[0] as usize][pair[1] as usize] = Some(two);
            coder.pair_of_digits[two[0] as usize][two[1] as usize] = Some(pair);
        }
        coder
    }

    /// A rank as the mirror shows it.
    fn turned(&self, rank: u8) -> u8 {
        if self.complement {
            self.s as u8 - 1 - rank
        } else {
            rank
        }
    }

    pub fn mirror(&self, word: &[u8]) -> Vec<u8> {
        word.iter().rev().map(|&rank| self.turned(rank)).collect()
    }

    /// Among words of one length the lower plain rank is the lexicographically smaller word.
    pub fn canonical(&self, word: &[u8]) -> Vec<u8> {
        self.mirror(word).min(word.to_vec())
    }

    /// The paper's preliminary encoding of a canonical word as k digits, and the place (from 1) of the
    /// pair of two letters that differs; no place for a palindrome or a differing middle letter. The digit
    /// of a middle letter is its mirror's rank, so that "a self-mirrored middle letter gives its rank as the
    /// digit" (document 02, K10).
    pub fn digits(&self, word: &[u8]) -> (Vec<u8>, Option<usize>) {
        let half = self.k / 2;
        // The mirror's letter i is what the paper compares with the word's letter i.
        let across = self.mirror(word);
        let equal = (0..half).take_while(|&i| word[i] == across[i]).count();
        let mut digits = vec![0; equal];
        let mut place = None;
        if equal < half {
            let pair = self.digits_of_pair[word[equal] as usize][across[equal] as usize];
            digits.extend(pair.expect("the word given is canonical"));
            digits.extend(&word[equal + 1..self.k - equal - 1]);
            place = Some(equal + 1);
        } else {
            digits.extend(&across[half..self.k - half]);
        }
        // The closing digits of the equal pairs, the innermost pair first.
        digits.extend(across[..equal].iter().rev());
        (digits, place)
    }

    fn power(&self, exponent: usize) -> u128 {
        (self.s as u128).pow(exponent as u32)
    }

    fn value(&self, digits: &[u8]) -> u128 {
        digits.iter().fold(0, |value, &digit| value * self.s as u128 + digit as u128)
    }

    /// How many smaller digit strings encode no canonical word: the paper's sum over m from
    /// ceil(k/2) - 1 to k - place - 2, and for odd k under complement half of s^c more. With odd s "the
    /// extra subtraction becomes (s − 1)/2 times s^(k/2 rounded down)" (document 02, K10).
    pub fn missing(&self, place: Option<usize>) -> u128 {
        let outer = self.k.div_ceil(2);
        let pairs = (self.s * (self.s - 1) / 2) as u128;
        let mut total = 0;
        if let Some(place) = place {
            total += (outer - 1..self.k - place - 1).map(|m| self.power(m) * pairs).sum::<u128>();
        }
        if self.complement && self.k % 2 == 1 {
            total += match self.s % 2 {
                0 => self.power(outer) / 2,
                _ => (self.s as u128 - 1) / 2 * self.power(self.k / 2),
            };
        }
        total
    }

    /// The code of any word, canonical or not.
    pub fn code(&self, word: &[u8]) -> u128 {
        let (digits, place) = self.digits(&self.canonical(word));
        self.value(&digits) - self.missing(place)
    }

    /// The canonical word of a code, or none where no class has it. It tries every place at which a
    /// word can be specified; the encoding is minimal, so at most one of them fits.
    pub fn word(&self, code: u128) -> Option<Vec<u8>> {
        let places = (1..=self.k / 2).map(Some).chain([None]);
        let fits: Vec<Vec<u8>> = places.filter_map(|place| self.word_specified_at(code, place)).collect();
        assert!(fits.len() <= 1, "s {} k {}: code {} fits {:?}", self.s, self.k, code, fits);
        fits.into_iter().next()
    }

    /// The word whose digit string, less what is missing for this place, has the code's value.
    fn word_specified_at(&self, code: u128, place: Option<usize>) -> Option<Vec<u8>> {
        let digits = self.digit_string(code + self.missing(place))?;
        let (half, last) = (self.k / 2, self.k - 1);
        let equal = place.map_or(half, |i| i - 1);
        if digits[..equal].iter().any(|&digit| digit != 0) {
            return None;
        }
        let mut word = vec![0; self.k];
        for i in 0..equal {
            word[i] = digits[last - i];
            word[last - i] = self.turned(digits[last - i]);
        }
        if place.is_some() {
            let pair = self.pair_of_digits[digits[equal] as usize][digits[equal + 1] as usize]?;
            word[equal] = pair[0];
            word[last - equal] = self.turned(pair[1]);
            word[equal + 1..last - equal].copy_from_slice(&digits[equal + 2..self.k - equal]);
        } else if self.k % 2 == 1 {
            word[half] = self.turned(digits[half]);
            // Under complement the middle letter must be the smaller one of the two, or its own mirror.
            if word[half] > digits[half] {
                return None;
            }
        }
        Some(word)
    }

    /// The k base-s digits of a value, or none where k digits are too few.
    fn digit_string(&self, value: u128) -> Option<Vec<u8>> {
        let mut rest = value;
        let mut digits = vec![0; self.k];
        for digit in digits.iter_mut().rev() {
            *digit = (rest % self.s as u128) as u8;
            rest /= self.s as u128;
        }
        (rest == 0).then_some(digits)
    }

    /// All canonical words in the order of their digit strings. The encoding is minimal, so the place
    /// of a word in this list is its code: a way to codes that needs no `missing`. Small s^k only.
    pub fn words_in_order(&self) -> Vec<Vec<u8>> {
        let all = (0..self.power(self.k)).map(|rank| self.digit_string(rank).expect("a rank below s^k"));
        let mut canonical: Vec<Vec<u8>> = all.filter(|word| *word <= self.mirror(word)).collect();
        canonical.sort_by_cached_key(|word| self.digits(word).0);
        canonical
    }

    /// The number of classes, by the formulas of document 01, and for odd s under complement by that of
    /// document 02, K10: "(s^k + s^(k/2 rounded down)) / 2".
    pub fn classes(&self) -> u128 {
        match (self.complement, self.s % 2, self.k % 2) {
            (true, 1, _) => (self.power(self.k) + self.power(self.k / 2)) / 2,
            (true, _, 1) => self.power(self.k) / 2,
            _ => (self.power(self.k) + self.power(self.k.div_ceil(2))) / 2,
        }
    }
}

#[cfg(test)]
mod tests {
    //! The paper's own examples, as document 01 corrects them, the case of document 02, K10, and more of its kind.
    use super::Coder;

    #[test]
    fn example_3_2() {
        let coder = Coder::new(4, 6, false);
        assert_eq!(coder.digits(&[0, 0, 0, 0, 1, 0]), (vec![0, 1, 0, 0, 0, 0], Some(2)));
        assert_eq!(coder.missing(Some(2)), 96);
        assert_eq!(coder.code(&[0, 0, 0, 0, 1, 0]), 160);
        assert_eq!(coder.digits(&[3, 3, 2, 3, 3, 3]), (vec![0, 0, 2, 1, 3, 3], Some(3)));
        assert_eq!(coder.code(&[3, 3, 2, 3, 3, 3]), 159);
    }

    #[test]
    fn example_3_4() {
        let order = [[0, 0], [1, 1], [2, 2], [3, 3], [0, 1], [0, 2], [0, 3], [1, 2], [1, 3], [2, 3]];
        assert_eq!(Coder::new(4, 2, false).words_in_order(), order);
    }

    #[test]
    fn example_4_1() {
        let coder = Coder::new(4, 5, true);
        assert_eq!(coder.digits(&[0, 0, 1, 3, 3]), (vec![0, 0, 2, 0, 0], None));
        assert_eq!(coder.missing(None), 32);
        assert_eq!(coder.code(&[0, 0, 1, 3, 3]), 0);
    }

    #[test]
    fn example_5_1() {
        let coder = Coder::new(4, 8, true);
        let word = [3, 0, 1, 2, 2, 1, 3, 0];
        let (digits, place) = coder.digits(&word);
        assert_eq!((coder.value(&digits), place), (1955, Some(3)));
        assert_eq!((coder.missing(place), coder.code(&word)), (384, 1571));
    }

    /// The lowest codes, so many of them, belong to palindromes, and no others do.
    fn check_palindromes(coder: &Coder, count: usize) {
        let palindrome = |word: &Vec<u8>| *word == coder.mirror(word);
        let order = coder.words_in_order();
        let lowest = order.iter().take_while(|word| palindrome(word)).count();
        let all = order.iter().filter(|word| palindrome(word)).count();
        assert_eq!((lowest, all), (count, count), "s {} k {}", coder.s, coder.k);
    }

    #[test]
    fn palindromes_under_reversal_take_the_lowest_codes() {
        check_palindromes(&Coder::new(3, 5, false), 27);
    }

    /// s^(k/2 rounded down) of them, save that even s and odd k have none.
    #[test]
    fn palindromes_under_complement_take_the_lowest_codes() {
        let odd = [(3, 1, 1), (3, 5, 9), (3, 6, 27), (5, 3, 5), (5, 4, 25), (7, 3, 7), (15, 2, 15)];
        let even = [(2, 6, 8), (4, 4, 16), (2, 7, 0), (4, 1, 0), (4, 5, 0), (6, 3, 0)];
        for (s, k, count) in odd.into_iter().chain(even) {
            check_palindromes(&Coder::new(s, k, true), count);
        }
    }

    /// The codes are the places in the order of the digit strings, which needs neither `missing` nor the
    /// number of classes; the next code has no word.
    fn check_order(coder: &Coder) {
        let size = format!("s {} k {}", coder.s, coder.k);
        let order = coder.words_in_order();
        for (code, word) in (0..).zip(&order) {
            assert_eq!(coder.code(word), code, "{size}: {word:?}");
            assert_eq!(coder.code(&coder.mirror(word)), code, "{size}: the mirror of {word:?}");
            assert_eq!(coder.word(code).as_ref(), Some(word), "{size}: code {code}");
        }
        let next = order.len() as u128;
        assert_eq!((coder.classes(), coder.word(next)), (next, None), "{size}");
    }

    #[test]
    fn abc_under_complement() {
        let coder = Coder::new(3, 1, true);
        assert_eq!(coder.words_in_order(), [[1], [0]]);
        assert_eq!([0, 1, 2].map(|rank| coder.code(&[rank])), [1, 0, 1]);
        check_order(&coder);
        let coder = Coder::new(3, 3, true);
        let lowest = [[0, 1, 2], [1, 1, 1], [2, 1, 0], [0, 0, 2], [1, 0, 1], [2, 0, 0], [0, 0, 1]];
        assert_eq!(coder.words_in_order()[..7], lowest);
        assert_eq!((coder.missing(None), coder.missing(Some(1)), coder.classes()), (3, 3, 15));
        check_order(&coder);
    }

    /// "Codes must fill their range for odd s as for even s": the second coder by itself, up to 20,000 words.
    #[test]
    fn codes_fill_their_range_under_complement() {
        for s in 2..=16usize {
            for k in (1..).take_while(|&k| s.pow(k) <= 20_000) {
                check_order(&Coder::new(s, k as usize, true));
            }
        }
    }
}

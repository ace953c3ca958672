//! Standard inputs of the counter program drawn from a fixed seed: survey lines whose settings are good, bad
//! or no settings at all, some with their forms in another order, with files that are whole or damaged, and whole
//! inputs with bytes changed, lost or put in.

use crate::draw::{drawn_capitals, Random};
use crate::draw_fastq::{damaged_of, drawn_of};
use crate::draw_files::{drawn_byte, drawn_end};
use crate::files::Kind;
use crate::second_counter::PLACES;
use crate::settings::{good_sizes, largest_k, Settings};
use crate::tables::sizes_up_to;

/// Values that ground 1 or 13 refuses for letters.
const BAD_LETTERS: [&[u8]; 10] =
    [b"", b"A", b"AA", b"acgt", b"ACGTA", b"AC GT", b"A(B", b"A[B", b"\0\xff", b"ABCDEFGHIJKLMNOPQ"];

/// Values that ground 4 or 13 refuses for k, whatever the letters.
const BAD_K: [&[u8]; 12] =
    [b"0", b"63", b"64", b"256", b"999", b"", b"01", b"007", b"1000", b"-1", b"1 ", b"4294967298"];

/// Values that ground 2 or 13 refuses for the mirror.
const BAD_MIRRORS: [&[u8]; 9] =
    [b"both", b"foo", b"reverse", b"z", b"", b"Reversal", b"1", b"complement ", b"comp-lement"];

/// Bytes that a damaged input is likely to hold.
const LIKELY: &[u8] = b"(()) \r\r\n\n>@+AaCz019*\0\xff";

/// One of some values.
fn one<'a>(random: &mut Random, values: &[&'a [u8]]) -> &'a [u8] {
    values[random.below(values.len() as u64) as usize]
}

/// The three values of a survey line.
struct Values {
    letters: Vec<u8>,
    k: Vec<u8>,
    mirror: Vec<u8>,
}

impl Values {
    fn of(settings: &Settings) -> Values {
        let mirror = if settings.mirror == 0 { "reversal" } else { "complement" };
        Values {
            letters: settings.letters.clone(),
            k: settings.k.to_string().into_bytes(),
            mirror: mirror.as_bytes().to_vec(),
        }
    }

    /// The line without its end. Its forms stand as document 02, K5, has them, and about once in `gap` lines in any
    /// order; 0 for never.
    fn line(&self, random: &mut Random, gap: u64) -> Vec<u8> {
        let form = |name: &[u8], value: &[u8]| [b"(", name, b" ", value, b")"].concat();
        let mut forms = [form(b"letters", &self.letters), form(b"k", &self.k), form(b"mirror", &self.mirror)];
        if gap > 0 && random.below(gap) == 0 {
            forms.swap(0, random.below(3) as usize);
            forms.swap(1, 1 + random.below(2) as usize);
        }
        [b"(survey ", &forms.join(&b" "[..])[..], b")"].concat()
    }
}

/// Draws inputs with files of one kind; the sizes that fit the program's table are kept from the start.
pub struct Inputs {
    random: Random,
    kind: Kind,
    fitting: Vec<(usize, u64, usize)>,
    all: Vec<(usize, u64, usize)>,
}

impl Inputs {
    pub fn new(seed: u64, kind: Kind) -> Inputs {
        let (fitting, all) = (sizes_up_to(PLACES as u128), good_sizes());
        Inputs { random: Random::new(seed), kind, fitting, all }
    }

    /// A whole file.
    fn file(&mut self, settings: &Settings, length: u64) -> Vec<u8> {
        drawn_of(&mut self.random, self.kind, settings, length)
    }

    fn settings(&mut self, fitting: bool) -> Settings {
        let sizes = if fitting { &self.fitting } else { &self.all };
        let (s, mirror, k) = sizes[self.random.below(sizes.len() as u64) as usize];
        Settings::new(&drawn_capitals(&mut self.random, s), k, mirror)
    }

    /// An input that is counted, with the settings that it has. Records have up to so many letters.
    pub fn good(&mut self, length: u64) -> (Settings, Vec<u8>) {
        self.whole(length, 0)
    }

    /// Good settings and a whole file, the line's forms in any order about once in `gap` lines; 0 for never.
    fn whole(&mut self, length: u64, gap: u64) -> (Settings, Vec<u8>) {
        let settings = self.settings(true);
        let file = self.file(&settings, length);
        let input = self.with_file(&Values::of(&settings), &file, gap);
        (settings, input)
    }

    fn with_file(&mut self, values: &Values, file: &[u8], gap: u64) -> Vec<u8> {
        let line = values.line(&mut self.random, gap);
        [&line[..], drawn_end(&mut self.random), file].concat()
    }

    /// Good settings and a damaged file.
    fn with_damaged_file(&mut self) -> Vec<u8> {
        let settings = self.settings(true);
        let whole = self.file(&settings, 200);
        let file = damaged_of(&mut self.random, self.kind, &settings, whole);
        self.with_file(&Values::of(&settings), &file, 8)
    }

    /// Any good size, or one with k above the largest: mostly too many classes.
    fn with_any_size(&mut self) -> Vec<u8> {
        let mut settings = self.settings(false);
        if self.random.below(4) == 0 {
            settings.k = largest_k(settings.letters.len()) + 1 + self.random.below(3) as usize;
        }
        let file = self.file(&settings, 60);
        self.with_file(&Values::of(&settings), &file, 8)
    }

    /// One to three values that are bad or no values.
    fn with_bad_values(&mut self) -> Vec<u8> {
        let settings = self.settings(true);
        let mut values = Values::of(&settings);
        let which = 1 + self.random.below(7);
        if which & 1 > 0 {
            values.letters = one(&mut self.random, &BAD_LETTERS).to_vec();
        }
        if which & 2 > 0 {
            values.k = one(&mut self.random, &BAD_K).to_vec();
        }
        if which & 4 > 0 {
            values.mirror = one(&mut self.random, &BAD_MIRRORS).to_vec();
        }
        let file = self.file(&settings, 30);
        self.with_file(&values, &file, 4)
    }

    /// One to three bytes changed, put in or lost at any place below `end`, or the input cut there.
    fn changed(&mut self, mut input: Vec<u8>, end: usize) -> Vec<u8> {
        for _ in 0..1 + self.random.below(3) {
            let place = self.random.below(end.min(input.len()) as u64 + 1) as usize;
            let byte = match self.random.below(4) {
                0 => self.random.below(256) as u8,
                _ => drawn_byte(&mut self.random, LIKELY),
            };
            match self.random.below(8) {
                0 => input.truncate(place),
                1 | 2 => input.insert(place, byte),
                3 | 4 if place < input.len() => drop(input.remove(place)),
                _ if place < input.len() => input[place] = byte,
                _ => input.push(byte),
            }
        }
        input
    }

    /// An input of any kind: about half of them good.
    pub fn any(&mut self) -> Vec<u8> {
        match self.random.below(21) {
            0..=8 => self.good(200).1,
            9..=11 => self.with_damaged_file(),
            12 | 13 => self.with_any_size(),
            14 | 15 => self.with_bad_values(),
            16 | 17 => {
                let (_, input) = self.good(100);
                let length = input.len();
                self.changed(input, length)
            }
            // In the survey line or just after it.
            18 => {
                let (_, input) = self.whole(30, 2);
                self.changed(input, 60)
            }
            // The forms in any order.
            19 => self.whole(100, 1).1,
            _ => self.good(2000).1,
        }
    }
}

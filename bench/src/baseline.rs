//! Plain Rust versions of the same calls, written as one would without proofs: the yardstick. By two-bit
//! numbers the mirror is rolled along here, where the library looks each window's up, and what depends on the
//! differing pair's place comes from tables.

use wontirje::{Mirror, Settings, NO_CODE};

/// The rank of every byte, 255 for none; U has T's where the letters have T and no U.
pub fn rank_table(letters: &[u8]) -> [u8; 256] {
    let mut table = [255; 256];
    for (rank, &letter) in letters.iter().enumerate() {
        table[letter as usize] = rank as u8;
        table[letter.to_ascii_lowercase() as usize] = rank as u8;
    }
    if !letters.contains(&b'U') {
        (table[b'U' as usize], table[b'u' as usize]) = (table[b'T' as usize], table[b't' as usize]);
    }
    table
}

/// R of a pair l < r.
fn pair_rank(s: u64, l: u64, r: u64) -> u64 {
    l * (2 * s - 3 - l) / 2 + r - 1
}

/// The number of palindromes of k letters: their first half, and for odd k a middle letter that is its own mirror.
fn palindromes(s: u64, complement: bool, k: usize) -> u64 {
    let half = s.pow((k / 2) as u32);
    match (k % 2, complement) {
        (0, _) => half,
        (_, false) => half * s,
        (_, true) => half * (s % 2),
    }
}

/// R of each pair of four letters, at 4 l + r.
const PAIRS: [u64; 16] = [0, 0, 1, 2, 0, 0, 3, 4, 0, 0, 0, 5, 0, 0, 0, 0];

/// The code of a word of ACGT from its plain rank and its mirror's: by the number p of its equal outer pairs
/// tables tell where the rank of the differing pair goes, which letters stand in the code as they are, which as
/// complements, and what is added.
pub struct TwoBit {
    k: u32,
    pair_at: [u32; 32],
    inner: [u64; 32],
    closing: [u64; 32],
    added: [u64; 32],
}

impl TwoBit {
    pub fn new(k: usize) -> TwoBit {
        let palindromes = palindromes(4, true, k);
        let mut tables =
            TwoBit { k: k as u32, pair_at: [0; 32], inner: [0; 32], closing: [0; 32], added: [0; 32] };
        for p in 0..k / 2 {
            let place = 2 * (k - p - 1);
            tables.pair_at[p] = place as u32 - 2;
            tables.closing[p] = (1 << (2 * p)) - 1;
            tables.inner[p] = ((1 << (place - 2)) - 1) & !tables.closing[p];
            tables.added[p] = ((1 << place) + palindromes) / 2;
        }
        tables
    }

    pub fn code(&self, forward: u64, back: u64) -> u64 {
        let (a, b) = (forward.min(back), forward.max(back));
        let half = self.k / 2;
        if a == b {
            return !a & ((1 << (2 * half)) - 1);
        }
        let p = ((a ^ b).leading_zeros() - (64 - 2 * self.k)) / 2;
        if 2 * p + 1 == self.k {
            let closing = (1 << (2 * p)) - 1;
            return ((1 - (a >> (2 * p) & 3)) << (2 * p)) + (!a & closing);
        }
        let (p, place) = (p as usize & 31, self.pair_at[p as usize & 31]);
        let pair = PAIRS[((a >> place >> 2 & 3) << 2 | b >> place >> 2 & 3) as usize];
        self.added[p] + (pair << place) + (a >> 2 & self.inner[p]) + (!a & self.closing[p])
    }
}

/// The plain ranks of the last k letters and of their mirror, letter by letter.
pub struct Strands {
    mask: u64,
    top: u32,
    pub forward: u64,
    pub back: u64,
}

impl Strands {
    pub fn new(k: usize) -> Strands {
        Strands { mask: u64::MAX >> (64 - 2 * k), top: 2 * (k as u32 - 1), forward: 0, back: 0 }
    }

    pub fn push(&mut self, rank: u64) {
        self.forward = (self.forward << 2 | rank) & self.mask;
        self.back = self.back >> 2 | (3 - rank) << self.top;
    }
}

/// ACGT under complement by two-bit numbers, one pass.
pub fn two_bit(k: usize, sequence: &[u8], codes: &mut [u64]) -> usize {
    if sequence.len() < k {
        return 0;
    }
    let (table, tables, mut strands) = (rank_table(b"ACGT"), TwoBit::new(k), Strands::new(k));
    let mut run = 0;
    let mut step = |byte: u8| {
        let rank = table[byte as usize];
        if rank < 4 {
            strands.push(rank as u64);
            run += 1;
        } else {
            run = 0;
        }
        if run < k {
            NO_CODE
        } else {
            tables.code(strands.forward, strands.back)
        }
    };
    let (first, rest) = sequence.split_at(k - 1);
    first.iter().for_each(|&byte| {
        step(byte);
    });
    rest.iter().zip(codes).for_each(|(&byte, code)| *code = step(byte));
    rest.len()
}

/// What the general path needs besides the sequence.
struct General<'a> {
    ranks: &'a [u8],
    s: u64,
    k: usize,
    complement: bool,
    powers: Vec<u64>,
}

impl General<'_> {
    fn mirrored(&self, rank: u64) -> u64 {
        if self.complement {
            self.s - 1 - rank
        } else {
            rank
        }
    }

    fn rank(&self, i: usize) -> u64 {
        self.ranks[i] as u64
    }

    /// The code of the window at j, from the plain ranks u and v of the letters between its ends and of their
    /// mirror.
    fn code(&self, j: usize, e: u64, u: u64, v: u64) -> u64 {
        let (mut e, mut u, mut v, mut at, mut n) = (e, u, v, j, self.k);
        let (mut closing, mut scale) = (0, 1);
        while n >= 2 {
            let (l, r) = (self.rank(at), self.mirrored(self.rank(at + n - 1)));
            if l != r {
                let inner = if l < r { u } else { v };
                let pair = pair_rank(self.s, l.min(r), l.max(r));
                return closing + scale * ((self.powers[n - 1] + e) / 2 + pair * self.powers[n - 2] + inner);
            }
            closing += scale * l;
            scale *= self.s;
            e /= self.s;
            if n >= 4 {
                let top = self.powers[n - 3];
                u = (u - self.rank(at + 1) * top) / self.s;
                v = (v - self.mirrored(self.rank(at + n - 2)) * top) / self.s;
            } else {
                (u, v) = (0, 0);
            }
            at += 1;
            n -= 2;
        }
        if n == 0 {
            return closing;
        }
        let x = self.rank(at);
        let middle = if self.complement { (self.s - 1) / 2 - x.min(self.s - 1 - x) } else { x };
        closing + scale * middle
    }
}

/// Any alphabet, each window from the one before; the divisor is known only at run time.
pub fn general(settings: &Settings, sequence: &[u8], codes: &mut [u64]) -> usize {
    let Settings { letters, k, mirror } = *settings;
    let complement = mirror == Mirror::Complement;
    if sequence.len() < k {
        return 0;
    }
    let table = rank_table(letters);
    let classes: Vec<u8> = sequence.iter().map(|&byte| table[byte as usize]).collect();
    let ranks: Vec<u8> = classes.iter().map(|&class| if class == 255 { 0 } else { class }).collect();
    let s = letters.len() as u64;
    let powers = (0..=k as u32).map(|i| s.pow(i)).collect();
    let it = General { ranks: &ranks, s, k, complement, powers };
    let n = k.saturating_sub(2);
    let (mut u, mut v) = (0, 0);
    for i in 0..n {
        u = u * s + it.rank(i + 1);
        v += it.mirrored(it.rank(i + 1)) * it.powers[i];
    }
    let e = palindromes(s, complement, k);
    let mut run = classes[..k - 1].iter().rev().take_while(|&&class| class != 255).count();
    let windows = ranks.len() - k + 1;
    for j in 0..windows {
        run = if classes[j + k - 1] == 255 { 0 } else { run + 1 };
        codes[j] = if run < k { NO_CODE } else { it.code(j, e, u, v) };
        if j + 1 < windows {
            let (first, next) = (it.rank(j + 1), it.rank(j + 1 + n));
            u = u * s + next - first * it.powers[n];
            v = (v + it.mirrored(next) * it.powers[n]) / s;
        }
    }
    windows
}

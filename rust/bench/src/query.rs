//! Pair queries: the walk along B A^-1, by the runs of its alternating word. A run
//! that comes back to where it began goes round; each further time round writes
//! the same letters. The walk itself knows no sign: that of a word which fits is
//! read off its product with the first column of A, modulo 2^64.

use crate::polygon::{Polygon, Step, Steps};
use crate::symbol::Symbol;
use crate::text::{numbers, put, QUERY};
use crate::{refused, Refusal};

/// The letters that the program lends.
const LENT: usize = 16_384;

/// What the query program prints.
pub fn plain_query(text: &[u8]) -> Vec<u8> {
    match try_query(text) {
        Ok((plus, word)) => {
            let mut out = Vec::with_capacity(10 + 6 * word.len());
            out.extend_from_slice(if plus { b"word +" } else { b"word -" });
            for letter in word {
                put(&mut out, letter.into());
            }
            out.push(b'\n');
            out
        }
        Err(refusal) => refused(refusal),
    }
}

/// Whether the word times A is B, and not -B; and the word.
fn try_query(text: &[u8]) -> Result<(bool, Vec<i16>), Refusal> {
    let numbers = numbers(text, QUERY)?;
    if numbers.len() < 9 {
        return Err((1, 0));
    }
    let (table, pair) = numbers.split_at(numbers.len() - 8);
    let mut word = Vec::with_capacity(LENT);
    let plus = signed_query(table[0], &table[1..], pair, LENT, &mut word)?;
    Ok((plus, word))
}

/// The word that takes A to B up to sign, where it has no more than `room` letters;
/// whether it takes A to B.
pub fn signed_query(
    v: i64,
    table: &[i64],
    pair: &[i64],
    room: usize,
    word: &mut Vec<i16>,
) -> Result<bool, Refusal> {
    let symbol = Symbol::new(v, table)?;
    let pair = Pair::new(pair)?;
    walk(&Polygon::new(&symbol), pair.quotient(), room, word)?;
    Ok(match word.is_empty() {
        true => pair.is_equal(),
        false => pair.is_taken(&matrices(&symbol), word),
    })
}

/// A and B.
pub struct Pair([i64; 8]);

impl Pair {
    /// Eight entries; refusals 8 and 9.
    pub fn new(entries: &[i64]) -> Result<Pair, Refusal> {
        if let Some(place) = entries
            .iter()
            .position(|entry| entry.unsigned_abs() > 1_000_000)
        {
            return Err((8, place));
        }
        let &[a, b, c, d, e, f, g, h] = entries else {
            unreachable!("a pair has eight entries");
        };
        if a * d - b * c != 1 {
            return Err((9, 0));
        }
        if e * h - f * g != 1 {
            return Err((9, 1));
        }
        Ok(Pair([a, b, c, d, e, f, g, h]))
    }

    /// B A^-1 = (e f; g h) (d -b; -c a).
    pub fn quotient(&self) -> [i64; 4] {
        let Pair([a, b, c, d, e, f, g, h]) = self;
        [e * d - f * c, f * a - e * b, g * d - h * c, h * a - g * b]
    }

    /// Whether the first columns are equal.
    pub fn is_equal(&self) -> bool {
        (self.0[0], self.0[2]) == (self.0[4], self.0[6])
    }

    /// Whether the word takes A to B and not to -B.
    pub fn is_taken(&self, matrices: &[[i64; 4]], word: &[i16]) -> bool {
        let Pair([a, _, c, _, e, _, g, _]) = *self;
        takes(matrices, word, [a, c], [e, g])
    }
}

/// The generators' matrices.
pub fn matrices(symbol: &Symbol) -> Vec<[i64; 4]> {
    let mut matrices = Vec::with_capacity(symbol.generators);
    for side in 0..=symbol.v {
        if symbol.generator[side] as usize > matrices.len() {
            matrices.push(symbol.matrix(side));
        }
    }
    matrices
}

/// Whether the word's product takes the one column to the other. It takes it to
/// that or to its negative, and the two differ modulo 2^64: the column isn't 0,
/// and its entries are small.
fn takes(matrices: &[[i64; 4]], word: &[i16], from: [i64; 2], to: [i64; 2]) -> bool {
    let [mut x, mut y] = from;
    for &letter in word.iter().rev() {
        let [a, b, c, d] = matrices[letter.unsigned_abs() as usize - 1];
        let [a, b, c, d] = if letter > 0 {
            [a, b, c, d]
        } else {
            [d, -b, -c, a]
        };
        let dot = |p: i64, q: i64| p.wrapping_mul(x).wrapping_add(q.wrapping_mul(y));
        (x, y) = (dot(a, b), dot(c, d));
    }
    [x, y] == to
}

/// A walk under way.
struct Walk<'a> {
    steps: &'a [Steps],
    position: u16,
    /// The letters that are kept, and how many there may be.
    letters: &'a mut Vec<i16>,
    room: usize,
    /// How many letters there are, kept or not.
    written: usize,
}

impl Walk<'_> {
    #[inline]
    fn go(&mut self, choose: impl Fn(&Steps) -> Step) {
        let Step { to, letter } = choose(&self.steps[self.position as usize]);
        self.position = to;
        if letter != 0 {
            if self.written < self.room {
                self.letters.push(letter);
            }
            self.written += 1;
        }
    }

    /// A power of Q and S, k times.
    #[inline]
    fn run(&mut self, turn: impl Fn(&Steps) -> Step, k: u64) {
        let (home, before) = (self.position, self.written);
        for done in 1..=k {
            self.go(&turn);
            self.go(|steps| steps.s);
            if self.position == home {
                self.repeat(before, (k - done) / done);
                for _ in 0..(k - done) % done {
                    self.go(&turn);
                    self.go(|steps| steps.s);
                }
                return;
            }
        }
    }

    /// The letters from the number `from` on, so many times more.
    fn repeat(&mut self, from: usize, times: u64) {
        let length = self.written - from;
        let all = self.written + length * times as usize;
        if length > 0 && self.written < self.room {
            let kept = all.min(self.room);
            while self.letters.len() < kept {
                let more = (self.letters.len() - from).min(kept - self.letters.len());
                self.letters.extend_from_within(from..from + more);
            }
        }
        self.written = all;
    }
}

/// How many times the row (c d) can be taken from the row (a b).
#[inline]
fn times(a: u64, b: u64, c: u64, d: u64) -> u64 {
    if a < 2 * c || b < 2 * d {
        return 1;
    }
    match (c, d) {
        (0, _) => b / d,
        (_, 0) => a / c,
        _ => (a / c).min(b / d),
    }
}

/// Puts the word that the walk along x writes to `letters`, which are empty, where
/// it has no more than `room` of them.
pub fn walk(
    polygon: &Polygon,
    x: [i64; 4],
    room: usize,
    letters: &mut Vec<i16>,
) -> Result<(), Refusal> {
    let mut walk = Walk {
        steps: &polygon.steps,
        position: polygon.start,
        letters,
        room,
        written: 0,
    };
    let [mut a, mut b, mut c, mut d] = x;
    if polygon.turned {
        // S^-1 x S.
        (a, b, c, d) = (d, -c, -b, a);
    }
    let like = |p: i64, q: i64| (p > 0 && q > 0) || (p < 0 && q < 0);
    let identity = b == 0 && c == 0;
    // A power of Q comes first just where a column has two entries of one sign.
    if !identity && !like(a, c) && !like(b, d) {
        walk.go(|steps| steps.s);
        (a, b, c, d) = (c, d, -a, -b);
    }
    // Columns of different signs: the word ends in a power of Q, and S behind
    // it makes the signs alike.
    let ends_in_q = a == 0 || a.signum() * b.signum() < 0;
    if ends_in_q {
        (a, b, c, d) = (-b, a, -d, c);
    }
    let [mut a, mut b, mut c, mut d] = [a, b, c, d].map(i64::unsigned_abs);
    // (1 1; 0 1) is Q^-1 S and (1 0; 1 1) is Q S.
    while b != 0 || c != 0 {
        let upper = a >= c && b >= d;
        let mut k = if upper {
            let k = times(a, b, c, d);
            (a, b) = (a - k * c, b - k * d);
            k
        } else {
            let k = times(c, d, a, b);
            (c, d) = (c - k * a, d - k * b);
            k
        };
        let last = ends_in_q && b == 0 && c == 0;
        if last {
            k -= 1;
        }
        if upper {
            walk.run(|steps| steps.p, k);
        } else {
            walk.run(|steps| steps.q, k);
        }
        match (last, upper) {
            (false, _) => {}
            (true, true) => walk.go(|steps| steps.p),
            (true, false) => walk.go(|steps| steps.q),
        }
    }
    if walk.position != polygon.start {
        return Err((10, 0));
    }
    if walk.written > room {
        return Err((11, walk.written));
    }
    Ok(())
}

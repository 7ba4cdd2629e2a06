//! Pair queries: is there a word w in the generators with w A = B up to sign,
//! which word does the walk write, and is w A then B or -B?
//!
//! Three roads lead to the answer here, and the tests hold them side by side:
//!
//! - `related` carries A and B into the polygon and compares the two edges;
//! - `carried_word` notes the letters while B A^-1 itself is carried;
//! - `walk` takes B A^-1 apart into S, Q and Q^-1 and follows these through
//!   the copies of the polygon, one at a time.
//!
//! None of them knows a sign. That is reckoned from the finished word, and on
//! two roads:
//!
//! - `exact_sign` takes the letters off B A^-1, first letter first, with every
//!   number exact, and looks at whether the identity or its negative is left;
//! - `taken` multiplies the word out onto A, modulo two numbers, and compares
//!   with B and with -B.

use crate::matrix::{ByMatrix, Matrix, I, Q, S};
use crate::polygon::{carry, kept_edge};
use crate::refusal::Refusal;
use crate::symbol::{Pairing, Symbol};

/// The largest size of an entry of A and B.
pub const MAX_MATRIX_ENTRY: i64 = 1_000_000;

/// One letter of an alternating word.
#[derive(Clone, Copy, Debug, PartialEq, Eq)]
pub enum Turn {
    S,
    Q,
    QInverse,
}

impl Turn {
    pub fn matrix(self) -> Matrix {
        match self {
            Turn::S => S,
            Turn::Q => Q,
            Turn::QInverse => Q.inverse(),
        }
    }
}

/// The alternating word of x: turns whose product is x up to sign, every other
/// one of them an S. There is exactly one such word, since PSL2(Z) is the free
/// product of the groups that S and Q generate.
///
/// The first turn shows in where the edge of x lies, seen from the edge from 0
/// to infinity: left of it or turned round, S; over the numbers from 0 to 1,
/// Q; from 1 on, Q^-1.
pub fn alternating_word(x: Matrix) -> Vec<Turn> {
    let mut x = x;
    let mut turns = Vec::new();
    while !x.same_up_to_sign(I) {
        let (from, to) = (x.start(), x.end());
        // 1/0 passes for the far end of the positive numbers here.
        let turn = if from.num < 0 || to.num < 0 || (from.is_infinite() && to.num == 0) {
            Turn::S
        } else if from.num <= from.den && to.num <= to.den {
            Turn::Q
        } else {
            Turn::QInverse
        };
        turns.push(turn);
        x = turn.matrix().inverse() * x;
    }
    turns
}

/// Whether the last side starts at 0/1 and isn't odd. The edge from 0 to
/// infinity then looks away from the polygon and the walk begins at the edge
/// from infinity to 0.
fn begins_turned(symbol: &Symbol) -> bool {
    let last = symbol.vertices[symbol.v() - 1];
    last.num == 0 && symbol.sides[symbol.v()].pairing != Pairing::Odd
}

/// The walk along x. `Some` word if it ends where it began, `None` otherwise.
pub fn walk(symbol: &Symbol, x: Matrix) -> Option<Vec<i16>> {
    // Every side from left to right, by its frame up to sign.
    let outward: ByMatrix<usize> = symbol
        .sides
        .iter()
        .enumerate()
        .map(|(i, side)| (side.frame.up_to_sign(), i))
        .collect();
    let outward_side = |edge: Matrix| outward.get(&edge.up_to_sign()).copied();

    let (begin, turns) = if begins_turned(symbol) {
        (S, alternating_word(S.inverse() * x * S))
    } else {
        (I, alternating_word(x))
    };
    let mut position = begin;
    let mut word = Vec::new();
    for turn in turns {
        // A position that is a side from left to right is an odd side.
        let odd_side = outward_side(position);
        position = match (turn, odd_side) {
            (Turn::Q, Some(i)) => {
                word.push(symbol.sides[i].generator);
                position
            }
            (Turn::QInverse, Some(i)) => {
                word.push(-symbol.sides[i].generator);
                position
            }
            (Turn::Q | Turn::QInverse, None) => position * turn.matrix(),
            (Turn::S, Some(i)) if symbol.v() == 1 => {
                let other = 1 - i;
                if symbol.sides[other].pairing == Pairing::Odd {
                    symbol.sides[other].frame
                } else {
                    word.push(symbol.sides[other].generator);
                    position
                }
            }
            // In through an odd side.
            (Turn::S, Some(_)) => position * S,
            (Turn::S, None) => match outward_side(position * S) {
                None => position * S,
                Some(i) => match symbol.sides[i].pairing {
                    Pairing::Odd => symbol.sides[i].frame,
                    Pairing::Even => {
                        word.push(symbol.sides[i].generator);
                        position
                    }
                    Pairing::Free(partner) => {
                        let j = symbol.sides[i].generator;
                        word.push(if i < partner { -j } else { j });
                        symbol.sides[partner].frame * S
                    }
                },
            },
        };
    }
    position.same_up_to_sign(begin).then_some(word)
}

/// The word of x by carrying its edge into the polygon: the same crossings as
/// those of the walk, found from the far end's place alone.
pub fn carried_word(symbol: &Symbol, x: Matrix) -> Option<Vec<i16>> {
    let begin = if begins_turned(symbol) { S } else { I };
    let mut word = Vec::new();
    let kept = carry(symbol, x * begin, |letter| word.push(letter));
    kept.same_up_to_sign(begin).then_some(word)
}

/// Whether A and B lie in the same right coset of H.
pub fn related(symbol: &Symbol, a: Matrix, b: Matrix) -> bool {
    kept_edge(symbol, a) == kept_edge(symbol, b)
}

/// The sign s, 1 or -1, for which the word, multiplied out in the generators,
/// takes A to s B, or `None` where it takes A to neither.
///
/// The product is formed twice, modulo 2^128 and modulo the prime 2^61 - 1:
/// generators of deep symbols have entries of some 10^18, and although the true
/// product is small, terms in the middle may not fit 128 bits. B and -B differ
/// modulo both.
pub fn taken(symbol: &Symbol, word: &[i16], a: Matrix, b: Matrix) -> Option<i64> {
    const PRIME: i128 = (1 << 61) - 1;
    let wrapped = multiplied_out(symbol, word, a, |x, y, z, w| {
        x.wrapping_mul(y).wrapping_add(z.wrapping_mul(w))
    });
    let modulo = |x: i128| x.rem_euclid(PRIME);
    let residues = multiplied_out(symbol, word, a, |x, y, z, w| {
        modulo(modulo(x) * modulo(y) + modulo(z) * modulo(w))
    });
    let is = |target: Matrix| wrapped == target && residues.0.map(modulo) == target.0.map(modulo);
    sign_where(is(b), is(b.negated()))
}

/// 1 or -1 for the one of two statements that holds.
fn sign_where(plus: bool, minus: bool) -> Option<i64> {
    match (plus, minus) {
        (true, false) => Some(1),
        (false, true) => Some(-1),
        _ => None,
    }
}

/// The sign s for which the word's product is s x, or `None` where it is
/// neither x nor -x. No number is reduced or rounded here.
///
/// The inverse of the first letter is applied to x, that of the second to what
/// is left, and so on; in the end the inverse of the whole word times x is left,
/// and that is s times the identity. A letter is applied as it is defined, N S
/// M^-1 and the like, one factor after the other. For a word of the walk M is
/// the frame of the side that the edge lies beyond, so each number on the way
/// is one that `carry` meets too and fits 128 bits; where another word's
/// wouldn't fit, this stops at the overflow.
pub fn exact_sign(symbol: &Symbol, word: &[i16], x: Matrix) -> Option<i64> {
    let factors = factors(symbol);
    let left = word.iter().fold(x, |x, &letter| {
        let [to, turn, from] = factors[usize::from(letter.unsigned_abs()) - 1];
        if letter > 0 {
            from * (turn.inverse() * (to.inverse() * x))
        } else {
            to * (turn * (from.inverse() * x))
        }
    });
    sign_where(left == I, left == I.negated())
}

/// Each generator as [N, S, M], [M, S, M] or [M, Q, M]: it is the first times
/// the second times the inverse of the third.
fn factors(symbol: &Symbol) -> Vec<[Matrix; 3]> {
    let mut factors = Vec::with_capacity(symbol.generators.len());
    for side in &symbol.sides {
        // The leftmost side of each generator alone.
        if usize::from(side.generator.unsigned_abs()) == factors.len() + 1 {
            factors.push(match side.pairing {
                Pairing::Even => [side.frame, S, side.frame],
                Pairing::Odd => [side.frame, Q, side.frame],
                Pairing::Free(partner) => [symbol.sides[partner].frame, S, side.frame],
            });
        }
    }
    factors
}

/// word * a with every entry formed by `dot`(x, y, z, w) = x y + z w.
fn multiplied_out(
    symbol: &Symbol,
    word: &[i16],
    a: Matrix,
    dot: impl Fn(i128, i128, i128, i128) -> i128,
) -> Matrix {
    word.iter().rev().fold(a, |product, &letter| {
        let [a, b, c, d] = symbol.letter(letter).0;
        let [e, f, g, h] = product.0;
        Matrix([
            dot(a, e, b, g),
            dot(a, f, b, h),
            dot(c, e, d, g),
            dot(c, f, d, h),
        ])
    })
}

/// Refusals 8 and 9, each for A before B.
pub fn check_matrices(a: [i64; 4], b: [i64; 4]) -> Result<(), Refusal> {
    let beyond = |entry: &i64| !(-MAX_MATRIX_ENTRY..=MAX_MATRIX_ENTRY).contains(entry);
    if let Some(place) = a.iter().chain(&b).position(beyond) {
        return Err(Refusal::new(8, place));
    }
    for (place, matrix) in [a, b].into_iter().enumerate() {
        if Matrix::from_entries(matrix).determinant() != 1 {
            return Err(Refusal::new(9, place));
        }
    }
    Ok(())
}

/// A word that was found: the product of its letters times A is `sign` times B.
#[derive(Clone, Debug, PartialEq, Eq)]
pub struct Found {
    /// 1 or -1.
    pub sign: i64,
    pub letters: Vec<i16>,
}

/// A whole pair query with `space` letters lent and the word to begin at
/// `start`. Returns the word with its sign, or refusal 8, 9, 10 or 11.
pub fn pair_query(
    symbol: &Symbol,
    a: [i64; 4],
    b: [i64; 4],
    space: usize,
    start: usize,
) -> Result<Found, Refusal> {
    check_matrices(a, b)?;
    let (a, b) = (Matrix::from_entries(a), Matrix::from_entries(b));
    if !related(symbol, a, b) {
        return Err(Refusal::new(10, 0));
    }
    let x = b * a.inverse();
    let letters = walk(symbol, x).expect("related matrices have a closed walk");
    if start > space || space - start < letters.len() {
        return Err(Refusal::new(11, letters.len()));
    }
    let sign = exact_sign(symbol, &letters, x).expect("a closed walk writes a word for x");
    Ok(Found { sign, letters })
}

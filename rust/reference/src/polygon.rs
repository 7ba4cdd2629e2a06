//! Carrying an oriented Farey edge back into the polygon.
//!
//! A matrix x stands for the edge from x(0) to x(infinity), and left
//! multiplication by the group H moves edges about. Farey edges never cross, so
//! an edge either joins two vertices of the polygon or has both its ends in the
//! interval that one side spans. In the second case the pairing of that side
//! carries it one copy of the polygon nearer, and after finitely many such
//! moves it has arrived.
//!
//! One edge is kept for each orbit of H:
//!
//! - an edge between two vertices that isn't a side: as it stands, in both its
//!   directions;
//! - a side from right to left: as it stands;
//! - a side from left to right: kept only if the side is odd, where it stands
//!   for the triangle beyond it; otherwise the pairing turns it into a side
//!   from right to left.
//!
//! With one vertex the two sides are one geodesic in its two directions, and
//! each direction is the left to right one of just one side. The rules hold
//! for it unchanged.

use std::cmp::Ordering;

use crate::matrix::{Matrix, Q, S};
use crate::symbol::{Pairing, Symbol};

/// The side that the edge of x lies beyond. A side taken from left to right
/// counts as lying beyond itself; from right to left it counts as inside.
pub fn side_beyond(symbol: &Symbol, x: Matrix) -> Option<usize> {
    let vertices = &symbol.vertices;
    let v = vertices.len();
    let (first, last) = (vertices[0], vertices[v - 1]);
    let (from, to) = (x.start(), x.end());

    if from.is_infinite() {
        return match (to.compare(first), to.compare(last)) {
            (Ordering::Less | Ordering::Equal, _) => Some(0),
            (_, Ordering::Greater) => Some(v),
            _ => None,
        };
    }
    if to.is_infinite() {
        return match (from.compare(first), from.compare(last)) {
            (_, Ordering::Greater | Ordering::Equal) => Some(v),
            (Ordering::Less, _) => Some(0),
            _ => None,
        };
    }

    // With determinant 1 the end minus the start is 1 over the product of the
    // denominators as they stand in the matrix.
    let rightwards = (x.0[2] > 0) == (x.0[3] > 0);
    let (low, high) = if rightwards { (from, to) } else { (to, from) };
    // Side i has the vertices i - 1 and i: the left end isn't right of `low`,
    // the right end is.
    let i = vertices.partition_point(|vertex| vertex.compare(low) != Ordering::Greater);
    let within = i == v || high.compare(vertices[i]) != Ordering::Greater;
    let is_side = i > 0 && i < v && low == vertices[i - 1] && high == vertices[i];
    (within && (rightwards || !is_side)).then_some(i)
}

/// Carries the edge of x into the polygon. Returns the kept edge p of its
/// orbit, with a settled sign, and hands the letters of a word w to `write`,
/// left to right, such that x = w p up to sign.
pub fn carry(symbol: &Symbol, x: Matrix, mut write: impl FnMut(i16)) -> Matrix {
    let mut x = x;
    while let Some(i) = side_beyond(symbol, x) {
        let side = symbol.sides[i];
        // Seen from the frame the side is the edge from 0 to infinity and the
        // edge y lies over the positive numbers or is that edge itself.
        let y = side.frame.inverse() * x;
        match side.pairing {
            Pairing::Even => {
                write(symbol.letter_out(i));
                x = side.frame * S * y;
            }
            Pairing::Free(partner) => {
                write(symbol.letter_out(i));
                x = symbol.sides[partner].frame * S * y;
            }
            Pairing::Odd => {
                if y.same_up_to_sign(crate::matrix::I) {
                    break;
                }
                // The triangle 0, 1, infinity beyond the side is turned until
                // the part with y lies towards the polygon.
                let below_one = |num: i128, den: i128| den != 0 && num.abs() <= den.abs();
                let [a, b, c, d] = y.0;
                if below_one(a, c) && below_one(b, d) {
                    write(side.generator);
                    x = side.frame * Q.inverse() * y;
                } else {
                    write(-side.generator);
                    x = side.frame * Q * y;
                }
            }
        }
    }
    x.up_to_sign()
}

/// The kept edge of x's orbit. Two matrices lie in the same right coset of H
/// precisely when their kept edges are equal.
pub fn kept_edge(symbol: &Symbol, x: Matrix) -> Matrix {
    carry(symbol, x, |_| {})
}

#[cfg(test)]
mod tests {
    use super::*;
    use crate::matrix::{I, T};

    fn gamma0_2() -> Symbol {
        Symbol::new(2, &[0, 1, 1, 1, 1, -2, 1]).unwrap()
    }

    #[test]
    fn where_edges_lie() {
        let symbol = gamma0_2();
        // The sides from left to right, then from right to left.
        for (i, side) in symbol.sides.iter().enumerate() {
            assert_eq!(side_beyond(&symbol, side.frame), Some(i));
            assert_eq!(side_beyond(&symbol, side.frame * S), None);
        }
        // 2 to infinity, -1 to infinity, 0 to 1/2.
        assert_eq!(side_beyond(&symbol, T * T), Some(2));
        assert_eq!(side_beyond(&symbol, T.inverse()), Some(0));
        assert_eq!(side_beyond(&symbol, Matrix([1, 0, 2, 1])), Some(1));
        // 3/2 to 2 and -1 to -1/2.
        assert_eq!(side_beyond(&symbol, Matrix([2, 3, 1, 2])), Some(2));
        assert_eq!(side_beyond(&symbol, Matrix([-1, -1, 2, 1])), Some(0));
    }

    #[test]
    fn one_vertex() {
        let symbol = Symbol::new(1, &[0, 1, -3, -3]).unwrap();
        assert_eq!(side_beyond(&symbol, I), Some(1));
        assert_eq!(side_beyond(&symbol, S), Some(0));
        assert_eq!(kept_edge(&symbol, I), I);
        assert_eq!(kept_edge(&symbol, S), S.up_to_sign());
        assert_eq!(kept_edge(&symbol, Q), I);
        let symbol = Symbol::new(1, &[0, 1, -3, -2]).unwrap();
        assert_eq!(kept_edge(&symbol, I), S.up_to_sign());
    }

    #[test]
    fn the_letters_give_back_the_edge() {
        let symbol = gamma0_2();
        let x = T * T * S * T * T * T * S * T.inverse();
        let mut product = I;
        let kept = carry(&symbol, x, |letter| {
            product = product * symbol.letter(letter)
        });
        assert!((product * kept).same_up_to_sign(x));
    }
}

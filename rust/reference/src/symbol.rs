//! Farey symbols: the checks 1 to 7, the sides with their frames and the
//! generators.
//!
//! A symbol with v vertices has the sides 0 to v. Side i has vertex i - 1 at its
//! left and vertex i at its right; the missing ends of the outer sides are
//! infinity, as the column (-1, 0) on the left and as (1, 0) on the right.

use std::collections::HashMap;

use crate::matrix::{Cusp, Matrix, Q, S};
use crate::refusal::Refusal;

/// The largest number of vertices.
pub const MAX_VERTICES: usize = 1_023;
/// The largest size of a vertex entry.
pub const MAX_ENTRY: i64 = 1_000_000_000;
/// How the table writes an even side.
pub const EVEN: i64 = -2;
/// How the table writes an odd side.
pub const ODD: i64 = -3;

/// How a side is glued.
#[derive(Clone, Copy, Debug, PartialEq, Eq)]
pub enum Pairing {
    Even,
    Odd,
    /// Paired with the side of this number.
    Free(usize),
}

/// The kind of a generator.
#[derive(Clone, Copy, Debug, PartialEq, Eq)]
pub enum Kind {
    Free,
    Even,
    Odd,
}

impl Kind {
    pub fn name(self) -> &'static str {
        match self {
            Kind::Free => "free",
            Kind::Even => "even",
            Kind::Odd => "odd",
        }
    }
}

/// One side pairing as a matrix.
#[derive(Clone, Copy, Debug, PartialEq, Eq)]
pub struct Generator {
    pub kind: Kind,
    pub matrix: Matrix,
}

/// A side of the polygon.
#[derive(Clone, Copy, Debug)]
pub struct Side {
    /// Sends 0 to the left end and infinity to the right end.
    pub frame: Matrix,
    pub pairing: Pairing,
    /// The generator of the side, counted from 1.
    pub generator: i16,
}

/// A symbol that has passed the checks 1 to 7.
#[derive(Clone, Debug)]
pub struct Symbol {
    pub vertices: Vec<Cusp>,
    pub sides: Vec<Side>,
    pub generators: Vec<Generator>,
}

/// Left and right end of a side as columns (numerator, denominator).
fn ends(entries: &[i64], v: usize, side: usize) -> ((i128, i128), (i128, i128)) {
    let vertex = |i: usize| (i128::from(entries[2 * i]), i128::from(entries[2 * i + 1]));
    let left = if side == 0 { (-1, 0) } else { vertex(side - 1) };
    let right = if side == v { (1, 0) } else { vertex(side) };
    (left, right)
}

/// Checks 1 to 7 on a table that is said to have v vertices. The first check
/// that fails gives the refusal, with the place of its first fault.
pub fn check(v: i64, table: &[i64]) -> Result<(), Refusal> {
    if !(1..=MAX_VERTICES as i64).contains(&v) {
        return Err(Refusal::new(1, 0));
    }
    let v = v as usize;
    if table.len() != 3 * v + 1 {
        return Err(Refusal::new(2, table.len()));
    }
    let (entries, pairings) = table.split_at(2 * v);

    let in_range = |(i, &entry): (usize, &i64)| {
        let least = if i % 2 == 0 { -MAX_ENTRY } else { 1 };
        (least..=MAX_ENTRY).contains(&entry)
    };
    if let Some(i) = entries.iter().enumerate().position(|pair| !in_range(pair)) {
        return Err(Refusal::new(3, i));
    }

    let neighbours = |side: usize| {
        let ((a, b), (a2, b2)) = ends(entries, v, side);
        a2 * b - a * b2 == 1
    };
    if let Some(side) = (0..=v).find(|&side| !neighbours(side)) {
        return Err(Refusal::new(4, side));
    }

    if !entries.chunks(2).any(|vertex| vertex == [0, 1]) {
        return Err(Refusal::new(5, 0));
    }

    let allowed = |pairing: i64| match pairing {
        EVEN | ODD => true,
        label if (1..=v as i64 + 1).contains(&label) => {
            pairings.iter().filter(|&&other| other == label).count() == 2
        }
        _ => false,
    };
    if let Some(side) = pairings.iter().position(|&pairing| !allowed(pairing)) {
        return Err(Refusal::new(6, side));
    }

    if v == 1 && !pairings.contains(&ODD) {
        return Err(Refusal::new(7, 0));
    }
    Ok(())
}

impl Symbol {
    /// The symbol of a table, or the refusal of its first failed check.
    pub fn new(v: i64, table: &[i64]) -> Result<Symbol, Refusal> {
        check(v, table)?;
        let v = v as usize;
        let (entries, pairings) = table.split_at(2 * v);
        let vertices = entries
            .chunks(2)
            .map(|vertex| Cusp::new(vertex[0].into(), vertex[1].into()))
            .collect();
        let frames: Vec<Matrix> = (0..=v)
            .map(|side| {
                let ((a, b), (a2, b2)) = ends(entries, v, side);
                Matrix([a2, a, b2, b])
            })
            .collect();

        let mut sides: Vec<Side> = Vec::with_capacity(v + 1);
        let mut generators: Vec<Generator> = Vec::new();
        let mut first_with: HashMap<i64, usize> = HashMap::new();
        for (i, &label) in pairings.iter().enumerate() {
            let frame = frames[i];
            let (pairing, kind, matrix) = match label {
                EVEN => (Pairing::Even, Kind::Even, frame * S * frame.inverse()),
                ODD => (Pairing::Odd, Kind::Odd, frame * Q * frame.inverse()),
                _ => {
                    if let Some(&first) = first_with.get(&label) {
                        // The second side of a pair has its generator already.
                        sides[first].pairing = Pairing::Free(i);
                        sides.push(Side {
                            frame,
                            pairing: Pairing::Free(first),
                            generator: sides[first].generator,
                        });
                        continue;
                    }
                    first_with.insert(label, i);
                    let second = (i + 1..=v)
                        .find(|&k| pairings[k] == label)
                        .expect("check 6 has counted every label twice");
                    let matrix = frames[second] * S * frame.inverse();
                    (Pairing::Free(second), Kind::Free, matrix)
                }
            };
            generators.push(Generator { kind, matrix });
            sides.push(Side {
                frame,
                pairing,
                generator: generators.len() as i16,
            });
        }
        Ok(Symbol {
            vertices,
            sides,
            generators,
        })
    }

    /// A symbol from a whole list of numbers, v first.
    pub fn from_numbers(numbers: &[i64]) -> Result<Symbol, Refusal> {
        Symbol::new(numbers[0], &numbers[1..])
    }

    /// The number of finite vertices.
    pub fn v(&self) -> usize {
        self.vertices.len()
    }

    /// The letter that is written when a walk leaves through an even or a free
    /// side: x = (letter) x', where x' is the part of x on this side of it.
    pub fn letter_out(&self, side: usize) -> i16 {
        let Side {
            pairing, generator, ..
        } = self.sides[side];
        match pairing {
            Pairing::Free(partner) if side < partner => -generator,
            _ => generator,
        }
    }

    /// Generator j for j > 0, the inverse of generator -j for j < 0.
    pub fn letter(&self, letter: i16) -> Matrix {
        let matrix = self.generators[usize::from(letter.unsigned_abs()) - 1].matrix;
        if letter > 0 {
            matrix
        } else {
            matrix.inverse()
        }
    }
}

#[cfg(test)]
mod tests {
    use super::*;

    fn refusal(v: i64, table: &[i64]) -> (u32, u64) {
        let refusal = check(v, table).expect_err("this table is refused");
        (refusal.number, refusal.place)
    }

    #[test]
    fn each_check_with_its_place() {
        assert_eq!(refusal(0, &[]), (1, 0));
        assert_eq!(refusal(1024, &[]), (1, 0));
        assert_eq!(refusal(i64::MIN, &[]), (1, 0));
        assert_eq!(refusal(1, &[0, 1, -3]), (2, 3));
        assert_eq!(refusal(1, &[0, 1, -3, -3, -3]), (2, 5));
        assert_eq!(refusal(2, &[0, 1, 1_000_000_001, 1, 1, -2, 1]), (3, 2));
        assert_eq!(refusal(2, &[0, 0, 1, 1, 1, -2, 1]), (3, 1));
        assert_eq!(refusal(2, &[-1_000_000_001, 0, 1, 1, 1, -2, 1]), (3, 0));
        assert_eq!(refusal(1, &[0, 2, -3, -3]), (4, 0));
        assert_eq!(refusal(2, &[0, 1, 2, 1, 1, -2, 1]), (4, 1));
        assert_eq!(refusal(2, &[0, 1, 1, 2, 1, -2, 1]), (4, 2));
        assert_eq!(refusal(1, &[5, 1, -3, -3]), (5, 0));
        assert_eq!(refusal(2, &[0, 1, 1, 1, 4, -2, 4]), (6, 0));
        assert_eq!(refusal(2, &[0, 1, 1, 1, -2, 0, -2]), (6, 1));
        assert_eq!(refusal(2, &[0, 1, 1, 1, -2, -3, 1]), (6, 2));
        assert_eq!(refusal(2, &[0, 1, 1, 1, 1, 1, 1]), (6, 0));
        assert_eq!(refusal(1, &[0, 1, -2, -2]), (7, 0));
        assert_eq!(refusal(1, &[0, 1, 1, 1]), (7, 0));
        assert_eq!(refusal(1, &[0, 1, 2, 2]), (7, 0));
    }

    #[test]
    fn labels_up_to_v_plus_one() {
        assert!(check(2, &[0, 1, 1, 1, 3, -2, 3]).is_ok());
        assert!(check(1, &[0, 1, -2, -3]).is_ok());
    }

    #[test]
    fn generators_of_gamma0_2_and_gamma_2() {
        let symbol = Symbol::new(2, &[0, 1, 1, 1, 1, -2, 1]).unwrap();
        let listed: Vec<_> = symbol
            .generators
            .iter()
            .map(|g| (g.kind, g.matrix.0))
            .collect();
        assert_eq!(
            listed,
            [(Kind::Free, [1, 1, 0, 1]), (Kind::Even, [1, -1, 2, -1])]
        );
        let symbol = Symbol::new(3, &[0, 1, 1, 1, 2, 1, 1, 2, 2, 1]).unwrap();
        let listed: Vec<_> = symbol.generators.iter().map(|g| g.matrix.0).collect();
        assert_eq!(listed, [[1, 2, 0, 1], [3, -2, 2, -1]]);
    }
}

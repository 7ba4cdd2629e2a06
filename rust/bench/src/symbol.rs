//! A symbol: checks 1 to 7 and, once accepted, each side's partner and
//! generator number.

use crate::Refusal;

pub const MAX_ENTRY: i64 = 1_000_000_000;
pub const EVEN: i64 = -2;
pub const ODD: i64 = -3;

/// Sides and vertices lie in one table, as they were typed.
pub struct Symbol<'a> {
    pub v: usize,
    /// Two entries for each vertex.
    pub vertices: &'a [i64],
    /// One entry for each of the v + 1 sides.
    pub pairings: &'a [i64],
    /// For each side the other side with its label, or the side itself.
    pub partner: Vec<u16>,
    /// For each side the number of its generator, counted from 1.
    pub generator: Vec<i16>,
    pub generators: usize,
}

/// Ends of a side: a, b, a', b'.
#[inline]
fn ends(vertices: &[i64], side: usize) -> [i64; 4] {
    let (a, b) = if side == 0 {
        (-1, 0)
    } else {
        (vertices[2 * side - 2], vertices[2 * side - 1])
    };
    let (a2, b2) = if 2 * side == vertices.len() {
        (1, 0)
    } else {
        (vertices[2 * side], vertices[2 * side + 1])
    };
    [a, b, a2, b2]
}

impl<'a> Symbol<'a> {
    /// The symbol of v and a table of 3v + 1 numbers.
    pub fn new(v: i64, table: &'a [i64]) -> Result<Symbol<'a>, Refusal> {
        if !(1..=1_023).contains(&v) {
            return Err((1, 0));
        }
        let v = v as usize;
        if table.len() != 3 * v + 1 {
            return Err((2, table.len()));
        }
        let (vertices, pairings) = table.split_at(2 * v);
        for (i, vertex) in vertices.chunks_exact(2).enumerate() {
            if !(-MAX_ENTRY..=MAX_ENTRY).contains(&vertex[0]) {
                return Err((3, 2 * i));
            }
            if !(1..=MAX_ENTRY).contains(&vertex[1]) {
                return Err((3, 2 * i + 1));
            }
        }
        for side in 0..=v {
            let [a, b, a2, b2] = ends(vertices, side);
            if a2 * b - a * b2 != 1 {
                return Err((4, side));
            }
        }
        if !vertices.chunks_exact(2).any(|vertex| vertex == [0, 1]) {
            return Err((5, 0));
        }

        let mut uses = [0u8; 1_025];
        let labels = 1..=v as i64 + 1;
        for &pairing in pairings {
            if labels.contains(&pairing) {
                let uses = &mut uses[pairing as usize];
                *uses = uses.saturating_add(1);
            }
        }
        let bad = |&pairing: &i64| {
            pairing != EVEN
                && pairing != ODD
                && !(labels.contains(&pairing) && uses[pairing as usize] == 2)
        };
        if let Some(side) = pairings.iter().position(bad) {
            return Err((6, side));
        }
        if v == 1 && !pairings.contains(&ODD) {
            return Err((7, 0));
        }

        let mut partner: Vec<u16> = (0..=v as u16).collect();
        let mut generator = vec![0i16; v + 1];
        let mut generators = 0;
        let mut first = [u16::MAX; 1_025];
        for (side, &pairing) in pairings.iter().enumerate() {
            if pairing > 0 {
                let other = first[pairing as usize];
                if other != u16::MAX {
                    partner[side] = other;
                    partner[other as usize] = side as u16;
                    generator[side] = generator[other as usize];
                    continue;
                }
                first[pairing as usize] = side as u16;
            }
            generators += 1;
            generator[side] = generators as i16;
        }
        Ok(Symbol {
            v,
            vertices,
            pairings,
            partner,
            generator,
            generators,
        })
    }

    /// The generator whose leftmost side is this one.
    pub fn matrix(&self, side: usize) -> [i64; 4] {
        let [a, b, a2, b2] = ends(self.vertices, side);
        match self.pairings[side] {
            // M S M^-1 and M Q M^-1 for M = (a2 a; b2 b), multiplied out.
            EVEN => [
                a * b + a2 * b2,
                -(a * a + a2 * a2),
                b * b + b2 * b2,
                -(a * b + a2 * b2),
            ],
            ODD => [
                a * b + a2 * b2 + a * b2,
                -(a * a + a2 * a2 + a * a2),
                b * b + b2 * b2 + b * b2,
                -(a * b + a2 * b2 + a2 * b),
            ],
            // N S M^-1 for the partner's N = (c2 c; d2 d).
            _ => {
                let [c, d, c2, d2] = ends(self.vertices, self.partner[side] as usize);
                [
                    c * b + c2 * b2,
                    -(c * a + c2 * a2),
                    d * b + d2 * b2,
                    -(d * a + d2 * a2),
                ]
            }
        }
    }
}

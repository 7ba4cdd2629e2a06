//! The right cosets of H: tables of S, R and T, and the figures read off them.
//!
//! A coset is known by the kept edge of its matrices. Starting from H itself
//! the cosets are found by multiplying on the right with S and with R, so the
//! index is simply how many of them turn up.

use std::collections::HashMap;

use crate::matrix::{Matrix, I, R, S, T};
use crate::polygon::kept_edge;
use crate::refusal::Refusal;
use crate::symbol::Symbol;

/// The tables, one entry a coset; H is coset 0.
#[derive(Clone, Debug)]
pub struct Cosets {
    /// The kept edge of each coset.
    pub edges: Vec<Matrix>,
    pub s: Vec<u32>,
    pub r: Vec<u32>,
    pub t: Vec<u32>,
    numbers: HashMap<Matrix, u32>,
}

impl Cosets {
    /// Numbers the cosets breadth first from H, looking along S and then along
    /// R from every coset in turn.
    pub fn new(symbol: &Symbol) -> Cosets {
        let home = kept_edge(symbol, I);
        let mut edges = vec![home];
        let mut numbers = HashMap::from([(home, 0)]);
        let mut s = Vec::new();
        let mut r = Vec::new();
        let mut point = 0;
        while point < edges.len() {
            let edge = edges[point];
            for (step, table) in [(S, &mut s), (R, &mut r)] {
                let image = kept_edge(symbol, edge * step);
                let number = *numbers.entry(image).or_insert_with(|| {
                    edges.push(image);
                    edges.len() as u32 - 1
                });
                table.push(number);
            }
            point += 1;
        }
        // T by itself, not as S followed by R: that they agree is a test.
        let t = edges
            .iter()
            .map(|&edge| numbers[&kept_edge(symbol, edge * T)])
            .collect();
        Cosets {
            edges,
            s,
            r,
            t,
            numbers,
        }
    }

    pub fn index(&self) -> usize {
        self.edges.len()
    }

    /// The coset that x lies in.
    pub fn number(&self, symbol: &Symbol, x: Matrix) -> u32 {
        self.numbers[&kept_edge(symbol, x)]
    }

    /// Points fixed by S.
    pub fn e2(&self) -> usize {
        fixed(&self.s)
    }

    /// Points fixed by R.
    pub fn e3(&self) -> usize {
        fixed(&self.r)
    }

    /// The cusp widths: lengths of the cycles of T, by their smallest points.
    pub fn widths(&self) -> Vec<u64> {
        let mut seen = vec![false; self.t.len()];
        let mut widths = Vec::new();
        for start in 0..self.t.len() {
            let mut length = 0;
            let mut point = start;
            while !seen[point] {
                seen[point] = true;
                length += 1;
                point = self.t[point] as usize;
            }
            if length > 0 {
                widths.push(length);
            }
        }
        widths
    }

    /// For each coset the number of its cusp, by the cusps' smallest points, and
    /// how many steps of T lead to it from the smallest point of its cusp.
    pub fn cusps(&self) -> Vec<(u32, u32)> {
        let mut found = vec![None; self.t.len()];
        let mut cusps = 0;
        for start in 0..self.t.len() {
            let (mut point, mut steps) = (start, 0);
            while found[point].is_none() {
                found[point] = Some((cusps, steps));
                point = self.t[point] as usize;
                steps += 1;
            }
            cusps += u32::from(steps > 0);
        }
        found.into_iter().flatten().collect()
    }

    /// The genus, or refusal 18.
    pub fn genus(&self) -> Result<u64, Refusal> {
        genus(self.index(), self.e2(), self.e3(), self.widths().len())
    }

    /// The level, or refusal 17.
    pub fn level(&self) -> Result<u64, Refusal> {
        level(&self.widths())
    }
}

fn fixed(table: &[u32]) -> usize {
    (0..table.len())
        .filter(|&point| table[point] as usize == point)
        .count()
}

/// g from 12 g = 12 + index - 3 e2 - 4 e3 - 6 cusps, if it is whole and not
/// negative.
pub fn genus(index: usize, e2: usize, e3: usize, cusps: usize) -> Result<u64, Refusal> {
    let twelvefold = 12 + index as i64 - 3 * e2 as i64 - 4 * e3 as i64 - 6 * cusps as i64;
    if twelvefold < 0 || twelvefold % 12 != 0 {
        return Err(Refusal::new(18, 0));
    }
    Ok(twelvefold as u64 / 12)
}

/// The least common multiple of the widths, if it is below 2^64.
pub fn level(widths: &[u64]) -> Result<u64, Refusal> {
    fn gcd(a: u64, b: u64) -> u64 {
        if b == 0 {
            a
        } else {
            gcd(b, a % b)
        }
    }
    widths.iter().try_fold(1u64, |multiple, &width| {
        (multiple / gcd(multiple, width))
            .checked_mul(width)
            .ok_or(Refusal::new(17, 0))
    })
}

#[cfg(test)]
mod tests {
    use super::*;

    #[test]
    fn levels_around_the_limit() {
        assert_eq!(level(&[]), Ok(1));
        assert_eq!(level(&[4, 6, 10]), Ok(60));
        // 3 * 5 * 17 * 257 * 641 * 65537 * 6700417 is 2^64 - 1.
        let largest = [3, 5, 17, 257, 641, 65_537, 6_700_417];
        assert_eq!(level(&largest), Ok(u64::MAX));
        assert_eq!(level(&[1 << 32, 1 << 63]), Ok(1 << 63));
        assert_eq!(level(&[1 << 63, 3]), Err(Refusal::new(17, 0)));
    }

    #[test]
    fn genus_needs_a_whole_number() {
        assert_eq!(genus(3, 1, 0, 2), Ok(0));
        assert_eq!(genus(12, 0, 0, 2), Ok(1));
        assert_eq!(genus(4, 1, 0, 2), Err(Refusal::new(18, 0)));
        assert_eq!(genus(1, 1, 1, 3), Err(Refusal::new(18, 0)));
    }
}

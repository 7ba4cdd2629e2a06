//! Matrices of determinant 1 with entries up to 10^6, and pairs of them with
//! and without a word between them.

use std::collections::VecDeque;

use super::rng::Rng;
use crate::coset::Cosets;
use crate::matrix::{Matrix, I, R, S, T};
use crate::symbol::Symbol;
use crate::word::MAX_MATRIX_ENTRY;

fn fits(x: Matrix) -> bool {
    let limit = i128::from(MAX_MATRIX_ENTRY);
    x.0.iter().all(|entry| entry.abs() <= limit)
}

fn small(x: Matrix) -> [i64; 4] {
    x.entries().expect("entries up to 10^6 fit 64 bits")
}

/// A matrix whose first column is (a, c) up to the common divisor.
fn with_column(a: i128, c: i128) -> Matrix {
    // The invariants are old = a x + c y and new = a x2 + c y2.
    let (mut old, mut new) = (a, c);
    let (mut x, mut x2, mut y, mut y2) = (1, 0, 0, 1);
    while new != 0 {
        let ratio = old / new;
        (old, new) = (new, old - ratio * new);
        (x, x2) = (x2, x - ratio * x2);
        (y, y2) = (y2, y - ratio * y2);
    }
    if old == 0 {
        return I;
    }
    if old < 0 {
        (old, x, y) = (-old, -x, -y);
    }
    Matrix([a / old, -y, c / old, x])
}

/// A product of up to `steps` factors S and powers of T, kept within 10^6.
pub fn short(rng: &mut Rng, steps: usize) -> Matrix {
    let mut x = I;
    for _ in 0..rng.below(steps + 1) {
        let k = i128::from(rng.range(-3, 3));
        let next = x * Matrix([1, k, 0, 1]) * S;
        if !fits(next) {
            break;
        }
        x = next;
    }
    if rng.chance(50) {
        let next = x * T;
        if fits(next) {
            x = next;
        }
    }
    x
}

/// A matrix of determinant 1 with entries up to 10^6 in size.
pub fn matrix(rng: &mut Rng) -> Matrix {
    let limit = MAX_MATRIX_ENTRY;
    let x = match rng.below(20) {
        0..=5 => short(rng, 6),
        6..=9 => short(rng, 60),
        10..=13 => {
            let (a, c) = (rng.range(-limit, limit), rng.range(-limit, limit));
            with_column(a.into(), c.into())
        }
        14..=15 => {
            // Both entries of the column close to the limit. The closer they
            // are to each other, the longer the walk.
            let gap = if rng.chance(3) { 30 } else { 5_000 };
            let a = limit - rng.range(0, gap);
            let c = limit - rng.range(0, gap);
            with_column(a.into(), c.into())
        }
        16..=17 => {
            let bound = rng.pick(&[3, 50, 2_000]);
            Matrix([1, rng.range(-bound, bound).into(), 0, 1])
        }
        18 => {
            let bound = rng.pick(&[3, 50, 2_000]);
            Matrix([1, 0, rng.range(-bound, bound).into(), 1])
        }
        _ => {
            // Fibonacci numbers: many short steps.
            let mut x = I;
            for _ in 0..rng.below(15) {
                x = x * Matrix([2, 1, 1, 1]);
            }
            x
        }
    };
    let [a, b, c, d] = x.0;
    let x = match rng.below(4) {
        0 => x.inverse(),
        1 => Matrix([a, c, b, d]),
        _ => x,
    };
    if rng.chance(30) {
        x.negated()
    } else {
        x
    }
}

/// A power of T far out, so that the walk and perhaps its word are long.
pub fn far(rng: &mut Rng) -> Matrix {
    let k = match rng.below(10) {
        0..=3 => rng.range(16_380, 16_390),
        4..=6 => rng.range(1_000, 20_000),
        7..=8 => rng.range(30_000, 100_000),
        _ => MAX_MATRIX_ENTRY - rng.range(0, 1),
    };
    let k = i128::from(rng.pick(&[k, -k]));
    if rng.chance(70) {
        Matrix([1, k, 0, 1])
    } else {
        Matrix([1, 0, k, 1])
    }
}

/// A shortest product of S, R and R^-1 that leads from one coset to another.
fn path(cosets: &Cosets, from: u32, to: u32) -> Matrix {
    let mut reached: Vec<Option<Matrix>> = vec![None; cosets.index()];
    reached[from as usize] = Some(I);
    let mut queue = VecDeque::from([from]);
    while let Some(point) = queue.pop_front() {
        let x = reached[point as usize].expect("queued points are reached");
        if point == to {
            return x;
        }
        let by_r = cosets.r[point as usize];
        let steps = [
            (cosets.s[point as usize], S),
            (by_r, R),
            (cosets.r[by_r as usize], R.inverse()),
        ];
        for (image, step) in steps {
            // Past the limit a path is of no use any more.
            if reached[image as usize].is_none() && fits(x * step) {
                reached[image as usize] = Some(x * step);
                queue.push_back(image);
            }
        }
    }
    Matrix([i128::from(MAX_MATRIX_ENTRY) + 1, -1, 1, 0])
}

/// A and B in the same right coset.
pub fn found_pair(rng: &mut Rng, symbol: &Symbol, cosets: &Cosets) -> ([i64; 4], [i64; 4]) {
    let steps = rng.pick(&[4, 20, 60]);
    let a = short(rng, steps);
    let goal = cosets.number(symbol, a);
    for attempt in 0..8 {
        let y = short(rng, steps >> attempt);
        let b = y * path(cosets, cosets.number(symbol, y), goal);
        if fits(b) {
            let b = if rng.chance(30) { b.negated() } else { b };
            return if rng.chance(50) {
                (small(a), small(b))
            } else {
                (small(b), small(a))
            };
        }
    }
    (small(a), small(a.negated()))
}

/// Any two matrices; `long` lets far powers of T in.
pub fn any_pair(rng: &mut Rng, long: bool) -> ([i64; 4], [i64; 4]) {
    if long {
        let a = if rng.chance(50) { I } else { far(rng) };
        return (small(a), small(far(rng)));
    }
    (small(matrix(rng)), small(matrix(rng)))
}

/// A and B whose rows agree modulo n, or nearly: their quotient B A^-1 lies in
/// Γ(n), or only in Γ1(n), or only in Γ0(n), or beside all three.
pub fn congruent_pair(rng: &mut Rng, n: usize) -> ([i64; 4], [i64; 4]) {
    let n = n as i128;
    let a = matrix(rng);
    let Matrix([_, _, c, d]) = a;
    for _ in 0..20 {
        // The lower row of B is that of A times a number, and mostly plus or
        // minus that row.
        let factor = match rng.below(4) {
            0 => rng.below(n as usize) as i128,
            1 => -1,
            _ => 1,
        };
        let multiples = i128::from(MAX_MATRIX_ENTRY) / (n * (n + 1));
        let mut near = |entry: i128| {
            let far = rng.range(-1 - multiples as i64, multiples as i64);
            entry.rem_euclid(n) + n * i128::from(far)
        };
        let (near_c, near_d) = (near(factor * c), near(factor * d));
        let near_c = near_c + i128::from(rng.chance(10));
        let Matrix([p, q, r, s]) = with_column(near_c, near_d);
        if (p, r) != (near_c, near_d) {
            continue;
        }
        // The upper row of B so that the upper right entry of B A^-1 is 0 modulo
        // n, or another one.
        let b = Matrix([-q, -s, p, r]);
        let Matrix([_, upper, _, _]) = b * a.inverse();
        let turn = match rng.below(4) {
            0 => rng.below(n as usize) as i128,
            _ => (-upper * factor).rem_euclid(n),
        };
        let b = Matrix([1, turn, 0, 1]) * b;
        if fits(b) {
            let b = if rng.chance(30) { b.negated() } else { b };
            return (small(a), small(b));
        }
    }
    (small(a), small(a.negated()))
}

/// Puts an entry that is too large (8) or a wrong determinant (9) into a pair.
pub fn put_matrix_fault(rng: &mut Rng, pair: &mut [i64; 8], fault: u32) {
    let limit = MAX_MATRIX_ENTRY;
    if fault == 8 {
        let i = rng.below(8);
        pair[i] = rng.pick(&[limit + 1, -limit - 1, i64::MAX, i64::MIN, 1 << 32]);
        return;
    }
    let half = 4 * rng.below(2);
    let wrong = rng.pick(&[
        [0, 0, 0, 0],
        [1, 0, 0, -1],
        [0, 1, 1, 0],
        [2, 0, 0, 1],
        [limit, limit, limit, limit],
        [limit, 0, 0, limit],
        [limit, -limit, limit, limit],
        [1, 1, 1, 1],
    ]);
    pair[half..half + 4].copy_from_slice(&wrong);
}

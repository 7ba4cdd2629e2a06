//! From the name of a congruence group to its tables and its symbol.
//!
//! A coset is found by a key, a number that all its matrices have and no other
//! coset's: so each image takes a constant number of steps. With g the greatest
//! common divisor of c and N, a coset of Γ0(N) has the key g and d (c/g)^-1
//! modulo N/g; one of Γ1(N) has its lower row, up to sign, and one of Γ(N) both
//! rows.

use crate::import::{leftmost, symbol_of, symbol_text, wide, Pair, Parts, Way};
use crate::text::{numbers, NAMED};
use crate::Refusal;

/// What the job `named` prints.
pub fn plain_named(text: &[u8]) -> Vec<u8> {
    symbol_text(try_named(text))
}

fn try_named(text: &[u8]) -> Result<Parts, Refusal> {
    let numbers = numbers(text, NAMED)?;
    let [family, n] = numbers[..] else {
        return Err((20, 0));
    };
    let pair = named_tables(family, n)?;
    match symbol_of(&pair, leftmost) {
        Err((16, _)) => symbol_of(&pair, wide),
        answer => answer,
    }
}

/// The symbol of a group by the rule.
pub fn named_symbol(family: i64, n: i64) -> Result<Parts, Refusal> {
    by(leftmost, family, n)
}

/// The symbol of a group by the wide rule.
pub fn named_symbol_wide(family: i64, n: i64) -> Result<Parts, Refusal> {
    by(wide, family, n)
}

fn by(way: Way, family: i64, n: i64) -> Result<Parts, Refusal> {
    symbol_of(&named_tables(family, n)?, way)
}

/// The tables of S and R.
pub fn named_tables(family: i64, n: i64) -> Result<Pair, Refusal> {
    if !(0..=2).contains(&family) || !(1..=1_000).contains(&n) {
        return Err((20, 0));
    }
    let n = n as u32;
    let index = index(family, n);
    if index > 3_066 {
        return Err((21, 0));
    }
    Ok(match family {
        0 => gamma0(n, index),
        1 => gamma1(n, index),
        _ => gamma(n, index),
    })
}

fn index(family: i64, n: u32) -> usize {
    let (mut lines, mut units, mut rest) = (n as usize, n as usize, n as usize);
    let mut p = 2;
    while rest > 1 {
        if p * p > rest {
            p = rest;
        }
        if rest % p == 0 {
            lines += lines / p;
            units -= units / p;
            while rest % p == 0 {
                rest /= p;
            }
        }
        p += 1;
    }
    let rows = if n < 3 { lines } else { lines * (units / 2) };
    match family {
        0 => lines,
        1 => rows,
        _ => rows * n as usize,
    }
}

/// No point yet.
const NEW: u16 = u16::MAX;

/// The tables of cosets that are known by rows (c d), K numbers each: `key` gives
/// the place of a coset in a space of so many.
fn tables<const K: usize>(
    n: u32,
    index: usize,
    start: [u32; K],
    places: usize,
    key: impl Fn([u32; K]) -> usize,
) -> Pair {
    let mut numbers = vec![NEW; places];
    let mut met: Vec<[u32; K]> = Vec::with_capacity(index);
    let (mut s, mut r) = (Vec::with_capacity(index), Vec::with_capacity(index));
    numbers[key(start)] = 0;
    met.push(start);
    let mut at = 0;
    while at < met.len() {
        let (mut by_s, mut by_r) = (met[at], met[at]);
        for i in (0..K).step_by(2) {
            let (c, d) = (met[at][i], met[at][i + 1]);
            (by_s[i], by_s[i + 1]) = (d, if c == 0 { 0 } else { n - c });
            (by_r[i], by_r[i + 1]) = (d, if d >= c { d - c } else { n + d - c });
        }
        for (table, rows) in [(&mut s, by_s), (&mut r, by_r)] {
            let number = &mut numbers[key(rows)];
            if *number == NEW {
                *number = met.len() as u16;
                met.push(rows);
            }
            table.push(*number);
        }
        at += 1;
    }
    Pair { s, r }
}

/// The greatest common divisor g of c and n, and the inverse of c/g modulo n/g.
fn divided(c: u32, n: u32) -> (u32, u32) {
    // Each remainder is a multiple of c, by this factor, modulo n.
    let (mut old, mut new) = (n as i32, c as i32);
    let (mut factor, mut next) = (0, 1);
    while new != 0 {
        let ratio = old / new;
        (old, new) = (new, old - ratio * new);
        (factor, next) = (next, factor - ratio * next);
    }
    let modulus = n as i32 / old;
    (old as u32, factor.rem_euclid(modulus) as u32)
}

fn gamma0(n: u32, index: usize) -> Pair {
    // For each c where the keys of its divisor begin, n/g and the inverse.
    let mut begins = vec![u32::MAX; n as usize + 1];
    let mut places = 0;
    let columns: Vec<(u32, u32, u32)> = (0..n)
        .map(|c| {
            let (g, inverse) = divided(c, n);
            let begin = &mut begins[g as usize];
            if *begin == u32::MAX {
                *begin = places;
                places += n / g;
            }
            (*begin, n / g, inverse)
        })
        .collect();
    tables(n, index, [0, 1 % n], places as usize, |[c, d]| {
        let (begin, modulus, inverse) = columns[c as usize];
        (begin + d * inverse % modulus) as usize
    })
}

fn gamma1(n: u32, index: usize) -> Pair {
    tables(n, index, [0, 1 % n], (n * n) as usize, |row| {
        up_to_sign(n, row)
    })
}

fn gamma(n: u32, index: usize) -> Pair {
    let start = [1 % n, 0, 0, 1 % n];
    tables(n, index, start, n.pow(4) as usize, |rows| {
        up_to_sign(n, rows)
    })
}

/// The smaller of the places of rows and of their negatives.
fn up_to_sign<const K: usize>(n: u32, rows: [u32; K]) -> usize {
    let place = |rows: [u32; K]| rows.into_iter().fold(0, |place, c| place * n + c);
    let negative = rows.map(|c| if c == 0 { 0 } else { n - c });
    place(rows).min(place(negative)) as usize
}

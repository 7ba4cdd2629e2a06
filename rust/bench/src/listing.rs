//! The listing: figures, generators and tables of a symbol.

use crate::polygon::Polygon;
use crate::symbol::{Symbol, EVEN, ODD};
use crate::text::{numbers, put, put_line, LISTING};
use crate::{refused, Refusal};

/// What the listing program prints.
pub fn plain_listing(text: &[u8]) -> Vec<u8> {
    try_listing(text).unwrap_or_else(refused)
}

/// The tables of S, R and T.
pub struct Tables {
    pub s: Vec<u32>,
    pub r: Vec<u32>,
    pub t: Vec<u32>,
}

/// Numbers the positions from H on, along S and then along R.
pub fn tables(polygon: &Polygon) -> Tables {
    const NEW: u32 = u32::MAX;
    let steps = &polygon.steps;
    let index = steps.len();
    let mut number = vec![NEW; index];
    let mut order: Vec<u16> = Vec::with_capacity(index);
    let home = polygon.home();
    number[home as usize] = 0;
    order.push(home);
    let (mut s, mut r) = (Vec::with_capacity(index), Vec::with_capacity(index));
    let mut point = 0;
    while point < order.len() {
        // R is S Q^-1 S.
        let by_s = steps[order[point] as usize].s.to;
        let by_r = steps[steps[by_s as usize].p.to as usize].s.to;
        for (image, table) in [(by_s, &mut s), (by_r, &mut r)] {
            let known = &mut number[image as usize];
            if *known == NEW {
                *known = order.len() as u32;
                order.push(image);
            }
            table.push(*known);
        }
        point += 1;
    }
    let t = s.iter().map(|&image| r[image as usize]).collect();
    Tables { s, r, t }
}

/// Lengths of the cycles, by their smallest points.
fn cycles(table: &[u32]) -> Vec<u32> {
    let mut seen = vec![false; table.len()];
    let mut lengths = Vec::new();
    for start in 0..table.len() {
        if seen[start] {
            continue;
        }
        let mut length = 0;
        let mut point = start;
        while !seen[point] {
            seen[point] = true;
            length += 1;
            point = table[point] as usize;
        }
        lengths.push(length);
    }
    lengths
}

fn fixed(table: &[u32]) -> i64 {
    let points = table.iter().enumerate();
    points.filter(|&(i, &image)| i as u32 == image).count() as i64
}

fn gcd(mut a: u64, mut b: u64) -> u64 {
    while b != 0 {
        (a, b) = (b, a % b);
    }
    a
}

fn level(widths: &[u32]) -> Option<u64> {
    widths.iter().try_fold(1u64, |multiple, &width| {
        let width = u64::from(width);
        (multiple / gcd(multiple, width)).checked_mul(width)
    })
}

fn try_listing(text: &[u8]) -> Result<Vec<u8>, Refusal> {
    let numbers = numbers(text, LISTING)?;
    let symbol = Symbol::new(numbers[0], &numbers[1..])?;
    let Tables { s, r, t } = tables(&Polygon::new(&symbol));
    let widths = cycles(&t);
    let index = s.len() as i64;
    let (e2, e3, cusps) = (fixed(&s), fixed(&r), widths.len() as i64);

    let mut out = Vec::with_capacity(1 << 17);
    put_line(&mut out, "index", [index]);
    put_line(&mut out, "elliptic", [e2, e3]);
    put_line(&mut out, "cusps", [cusps]);
    put_line(&mut out, "widths", widths.iter().map(|&w| w.into()));
    let twelvefold = 12 + index - 3 * e2 - 4 * e3 - 6 * cusps;
    if twelvefold >= 0 && twelvefold % 12 == 0 {
        put_line(&mut out, "genus", [twelvefold / 12]);
    } else {
        out.extend_from_slice(b"genus refused 18 0\n");
    }
    match level(&widths) {
        Some(level) => out.extend_from_slice(format!("level {level}\n").as_bytes()),
        None => out.extend_from_slice(b"level refused 17 0\n"),
    }
    put_line(&mut out, "generators", [symbol.generators as i64]);
    for side in 0..=symbol.v {
        let name: &[u8] = match symbol.pairings[side] {
            EVEN => b" even",
            ODD => b" odd",
            _ if symbol.partner[side] as usize > side => b" free",
            _ => continue,
        };
        // The line begins with its number and not with a blank.
        let at = out.len();
        put(&mut out, symbol.generator[side].into());
        out.remove(at);
        out.extend_from_slice(name);
        for entry in symbol.matrix(side) {
            put(&mut out, entry);
        }
        out.push(b'\n');
    }
    for (name, table) in [("S", &s), ("R", &r), ("T", &t)] {
        put_line(&mut out, name, table.iter().map(|&point| point.into()));
    }
    Ok(out)
}

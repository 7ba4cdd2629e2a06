//! The sides of a symbol for a drawing, and their box; refusal 22.
//!
//! The engine divides, adds and subtracts with the processor's floats. Here no
//! float is computed with: a number is a fraction of integers, and the float next
//! to it is put together from its bits, the even one of two that are equally near.

use crate::refusal::Refusal;
use crate::symbol::{Kind, Pairing, Symbol};

/// The largest size of a vertex entry that is drawn.
pub const MAX_DRAWN: i64 = 33_554_432;
/// The numbers of a side in the result space.
pub const EACH: usize = 4;

/// How many binary digits a float has.
const DIGITS: i32 = 53;

/// The float nearest to num / den times 2^power, for a num that isn't 0. Ties go to
/// the even one. All numbers of a drawing are far from the ends of the range.
fn nearest(negative: bool, num: u128, den: u128, power: i32) -> f64 {
    // Two digits more than are kept, at least, and what is left of the division.
    let wanted = DIGITS + 2 + (128 - den.leading_zeros() as i32);
    let shift = (wanted - (128 - num.leading_zeros() as i32)).max(0);
    let (quotient, rest) = ((num << shift) / den, (num << shift) % den);
    let dropped = 128 - quotient.leading_zeros() as i32 - DIGITS;
    let (kept, cut) = (quotient >> dropped, quotient & ((1 << dropped) - 1));
    let half = 1u128 << (dropped - 1);
    let above = cut > half || (cut == half && rest > 0);
    let tie = cut == half && rest == 0;
    let kept = kept + u128::from(above || (tie && kept % 2 == 1));
    // One digit more where all digits were ones.
    let (kept, carried) = match kept >> DIGITS {
        0 => (kept, 0),
        _ => (kept / 2, 1),
    };
    let exponent = power - shift + dropped + carried + DIGITS - 1 + 1_023;
    assert!((1..2_047).contains(&exponent), "a number out of range");
    let bits = (kept as u64 & ((1 << (DIGITS - 1)) - 1)) | ((exponent as u64) << (DIGITS - 1));
    f64::from_bits(bits | (u64::from(negative) << 63))
}

/// The float nearest to num / den, for a den above 0; 0 is without a sign.
pub fn quotient(num: i128, den: i128) -> f64 {
    match num {
        0 => 0.0,
        _ => nearest(num < 0, num.unsigned_abs(), den.unsigned_abs(), 0),
    }
}

/// A float as an integer times a power of two.
fn parts(x: f64) -> (i128, i32) {
    let bits = x.to_bits();
    let exponent = ((bits >> (DIGITS - 1)) & 2_047) as i32;
    let digits = i128::from(bits & ((1 << (DIGITS - 1)) - 1));
    if exponent == 0 {
        assert_eq!(digits, 0, "a number out of range");
        return (0, 0);
    }
    let whole = digits | (1 << (DIGITS - 1));
    let signed = if bits >> 63 == 1 { -whole } else { whole };
    (signed, exponent - 1_023 - (DIGITS - 1))
}

/// The float nearest to the sum of two floats.
pub fn sum(x: f64, y: f64) -> f64 {
    let ((m, e), (n, d)) = (parts(x), parts(y));
    if m == 0 {
        return y;
    }
    if n == 0 {
        return x;
    }
    let low = e.min(d);
    let both = (m << (e - low)) + (n << (d - low));
    match both {
        0 => 0.0,
        _ => nearest(both < 0, both.unsigned_abs(), 1, low),
    }
}

/// How a side is drawn.
#[derive(Clone, Copy, Debug, PartialEq)]
pub enum Shape {
    Line(f64),
    Arc(f64, f64),
}

/// A drawing: a row for each side, and the box.
#[derive(Clone, Debug, PartialEq)]
pub struct Drawing {
    pub rows: Vec<[f64; EACH]>,
    pub bounds: [f64; 4],
}

fn shape(symbol: &Symbol, i: usize) -> Shape {
    let [c, a, d, b] = symbol.sides[i].frame.0;
    if b == 0 {
        Shape::Line(quotient(c, d))
    } else if d == 0 {
        Shape::Line(quotient(a, b))
    } else {
        Shape::Arc(quotient(a * d + c * b, 2 * b * d), quotient(1, 2 * b * d))
    }
}

fn kind(pairing: Pairing) -> Kind {
    match pairing {
        Pairing::Even => Kind::Even,
        Pairing::Odd => Kind::Odd,
        Pairing::Free(_) => Kind::Free,
    }
}

/// The drawing of a symbol, or refusal 22 with the index of the first vertex entry
/// that is too large.
pub fn drawing(symbol: &Symbol, entries: &[i64]) -> Result<Drawing, Refusal> {
    let too_large = |entry: &i64| entry.unsigned_abs() > MAX_DRAWN.unsigned_abs();
    if let Some(i) = entries[..2 * symbol.v()].iter().position(too_large) {
        return Err(Refusal::new(22, i));
    }
    let shapes: Vec<Shape> = (0..=symbol.v()).map(|i| shape(symbol, i)).collect();
    let rows = shapes.iter().zip(&symbol.sides).map(|(&shape, side)| {
        let kind = match kind(side.pairing) {
            Kind::Free => 1.0,
            Kind::Even => 2.0,
            Kind::Odd => 3.0,
        };
        match shape {
            Shape::Line(place) => [0.0, place, 0.0, kind],
            Shape::Arc(centre, radius) => [1.0, centre, radius, kind],
        }
    });
    let lefts = shapes.iter().map(|&shape| match shape {
        Shape::Line(place) => place,
        Shape::Arc(centre, radius) => sum(centre, -radius),
    });
    let rights = shapes.iter().map(|&shape| match shape {
        Shape::Line(place) => place,
        Shape::Arc(centre, radius) => sum(centre, radius),
    });
    let radii = shapes.iter().filter_map(|&shape| match shape {
        Shape::Line(_) => None,
        Shape::Arc(_, radius) => Some(radius),
    });
    let bounds = [
        lefts.fold(f64::INFINITY, f64::min),
        rights.fold(f64::NEG_INFINITY, f64::max),
        0.0,
        radii.fold(0.0, f64::max),
    ];
    Ok(Drawing {
        rows: rows.collect(),
        bounds,
    })
}

#[cfg(test)]
mod tests {
    use super::*;

    #[test]
    fn gamma0_2() {
        let table = [0, 1, 1, 1, 1, -2, 1];
        let symbol = Symbol::new(2, &table).unwrap();
        let drawn = drawing(&symbol, &table).unwrap();
        let rows = [
            [0.0, 0.0, 0.0, 1.0],
            [1.0, 0.5, 0.5, 2.0],
            [0.0, 1.0, 0.0, 1.0],
        ];
        assert_eq!(drawn.rows, rows);
        assert_eq!(drawn.bounds, [0.0, 1.0, 0.0, 0.5]);
    }

    /// The bits put together by hand are those that the processor finds.
    #[test]
    fn as_the_processor_has_it() {
        let mut state = 1u64;
        let mut next = |bits: u32| {
            state = state
                .wrapping_mul(6_364_136_223_846_793_005)
                .wrapping_add(1);
            i128::from(state >> (64 - bits))
        };
        for case in 0..200_000 {
            let bits = 1 + case % 52;
            let (x, y) = (next(bits) - next(bits), 1 + next(1 + (case / 7) % 51));
            let (q, r) = (quotient(x, y), quotient(1, y));
            assert_eq!(q.to_bits(), (x as f64 / y as f64).to_bits(), "{x} / {y}");
            assert_eq!(sum(q, r).to_bits(), (q + r).to_bits(), "{q} + {r}");
            assert_eq!(sum(q, -r).to_bits(), (q - r).to_bits(), "{q} - {r}");
        }
    }

    #[test]
    fn too_large() {
        let mut table = [0, 1, 1, 1, 1, -2, 1];
        let symbol = Symbol::new(2, &table).unwrap();
        for (entry, expected) in [(MAX_DRAWN, None), (-MAX_DRAWN - 1, Some(2))] {
            table[2] = entry;
            let refused = drawing(&symbol, &table).err().map(|refusal| refusal.place);
            assert_eq!(refused, expected);
        }
    }
}

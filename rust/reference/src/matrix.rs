//! Integer matrices of determinant 1 and the cusps they send 0 and infinity to.
//!
//! | name       | what it is                                              |
//! |------------|---------------------------------------------------------|
//! | `Matrix`   | (a b; c d), four entries row by row                     |
//! | `Cusp`     | a fraction in lowest terms, or infinity as 1/0          |
//! | I, S, T, R | the identity, (0 -1; 1 0), (1 1; 0 1) and S T           |
//! | Q          | (0 -1; 1 -1), the turn infinity, 0, 1 of order 3        |
//!
//! Entries have 128 bits. Vertices stay within 10^9 and the entries of B A^-1
//! within 2 * 10^12. Seen from the frame of the side that it lies beyond, an
//! edge has entries of no more than about 10^16, and carrying it back only
//! shortens them; from outside that makes 10^25, and 10^34 once it is compared
//! with a vertex. A generator of another symbol, with entries of 2 * 10^18, is
//! carried too, and that makes 4 * 10^27 and 4 * 10^36. 2^127 is about
//! 1.7 * 10^38. Overflow is checked all the same.

use std::cmp::Ordering;
use std::collections::HashMap;
use std::hash::{BuildHasherDefault, Hasher};
use std::ops::Mul;

/// (a b; c d) as `[a, b, c, d]`.
#[derive(Clone, Copy, Debug, PartialEq, Eq, Hash)]
pub struct Matrix(pub [i128; 4]);

/// A map from matrices. Its hash is a quick one: the keys are no one's to choose.
pub type ByMatrix<T> = HashMap<Matrix, T, BuildHasherDefault<Quick>>;

/// Eight bytes after the other, each mixed in by a product with an odd number.
#[derive(Default)]
pub struct Quick(u64);

impl Hasher for Quick {
    fn write(&mut self, bytes: &[u8]) {
        for eight in bytes.chunks(8) {
            let mut part = [0; 8];
            part[..eight.len()].copy_from_slice(eight);
            let mixed = self.0.rotate_left(5) ^ u64::from_le_bytes(part);
            self.0 = mixed.wrapping_mul(0x9e37_79b9_7f4a_7c15);
        }
    }

    /// A map looks at the lowest bits and at the highest, and a product mixes upwards.
    fn finish(&self) -> u64 {
        self.0 ^ self.0 >> 32
    }
}

pub const I: Matrix = Matrix([1, 0, 0, 1]);
pub const S: Matrix = Matrix([0, -1, 1, 0]);
pub const T: Matrix = Matrix([1, 1, 0, 1]);
pub const R: Matrix = Matrix([0, -1, 1, 1]);
pub const Q: Matrix = Matrix([0, -1, 1, -1]);

impl Mul for Matrix {
    type Output = Matrix;

    fn mul(self, other: Matrix) -> Matrix {
        // Most entries have 64 bits. A sum of two products then has 128, but where
        // all four numbers are -2^63; a checked product takes long with 128 bits.
        if let (Some([a, b, c, d]), Some([e, f, g, h])) = (self.entries(), other.entries()) {
            let product = |x: i64, y: i64| i128::from(x) * i128::from(y);
            return Matrix([
                product(a, e) + product(b, g),
                product(a, f) + product(b, h),
                product(c, e) + product(d, g),
                product(c, f) + product(d, h),
            ]);
        }
        let [a, b, c, d] = self.0;
        let [e, f, g, h] = other.0;
        Matrix([a * e + b * g, a * f + b * h, c * e + d * g, c * f + d * h])
    }
}

impl Matrix {
    pub fn from_entries(entries: [i64; 4]) -> Matrix {
        Matrix(entries.map(i128::from))
    }

    /// The entries in 64 bits, if they fit.
    pub fn entries(self) -> Option<[i64; 4]> {
        let mut small = [0; 4];
        for (target, entry) in small.iter_mut().zip(self.0) {
            *target = i64::try_from(entry).ok()?;
        }
        Some(small)
    }

    pub fn determinant(self) -> i128 {
        let [a, b, c, d] = self.0;
        a * d - b * c
    }

    /// The inverse of a matrix of determinant 1.
    pub fn inverse(self) -> Matrix {
        let [a, b, c, d] = self.0;
        Matrix([d, -b, -c, a])
    }

    pub fn negated(self) -> Matrix {
        Matrix(self.0.map(|entry| -entry))
    }

    /// The one of the pair x, -x whose first entry other than 0 is positive.
    pub fn up_to_sign(self) -> Matrix {
        match self.0.iter().find(|&&entry| entry != 0) {
            Some(&entry) if entry < 0 => self.negated(),
            _ => self,
        }
    }

    pub fn same_up_to_sign(self, other: Matrix) -> bool {
        self == other || self == other.negated()
    }

    /// x(0), where the edge of x begins.
    pub fn start(self) -> Cusp {
        Cusp::new(self.0[1], self.0[3])
    }

    /// x(infinity), where the edge of x ends.
    pub fn end(self) -> Cusp {
        Cusp::new(self.0[0], self.0[2])
    }
}

/// A fraction in lowest terms with a denominator that isn't negative.
#[derive(Clone, Copy, Debug, PartialEq, Eq)]
pub struct Cusp {
    pub num: i128,
    pub den: i128,
}

impl Cusp {
    /// A column of a matrix of determinant 1, turned to its standard sign.
    pub fn new(num: i128, den: i128) -> Cusp {
        if den < 0 || (den == 0 && num < 0) {
            Cusp {
                num: -num,
                den: -den,
            }
        } else {
            Cusp { num, den }
        }
    }

    pub fn is_infinite(self) -> bool {
        self.den == 0
    }

    /// The order of the rational line; both cusps are finite.
    pub fn compare(self, other: Cusp) -> Ordering {
        debug_assert!(!self.is_infinite() && !other.is_infinite());
        (self.num * other.den).cmp(&(other.num * self.den))
    }
}

#[cfg(test)]
mod tests {
    use super::*;

    #[test]
    fn orders_and_products() {
        assert!((S * S).same_up_to_sign(I));
        assert!((R * R * R).same_up_to_sign(I));
        assert!((Q * Q * Q).same_up_to_sign(I));
        assert_eq!(S * T, R);
        // T is S and then R when one multiplies on the right.
        assert!((S * R).same_up_to_sign(T));
        assert_eq!(S * T.inverse(), Q);
    }

    #[test]
    fn q_turns_infinity_zero_one() {
        assert_eq!(Q.end(), Cusp::new(0, 1));
        assert_eq!(Q.start(), Cusp::new(1, 1));
        assert_eq!((Q * Q).start(), Cusp::new(1, 0));
    }

    #[test]
    fn signs() {
        assert_eq!(S.up_to_sign(), Matrix([0, 1, -1, 0]));
        assert_eq!(Matrix([-3, 2, -2, 1]).up_to_sign(), Matrix([3, -2, 2, -1]));
        assert_eq!(Matrix([1 << 70, 0, 0, 1]).entries(), None);
    }
}

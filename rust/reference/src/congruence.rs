//! The congruence groups Γ0(N), Γ1(N) and Γ(N): their conditions, their indices
//! by formulas, and their permutations from residues modulo N alone.
//!
//! A right coset of Γ1(N) is known by the lower row of its matrices modulo N, up
//! to sign; one of Γ0(N) by the same row up to units, which is a point of the
//! projective line over Z/N; one of Γ(N) by both rows up to sign. Multiplication
//! on the right moves each row by itself: (c d) S = (d -c), and
//! (c d) R = (d d-c). Point 0 is the coset of the identity.
//!
//! `Family::by_condition` finds the same permutations without any of this: it
//! multiplies matrices, and asks of two of them whether their quotient meets the
//! condition.

use crate::matrix::{Matrix, I, R, S};
use crate::permutations::{Action, Imported, Rule};
use crate::random::pairs::Pair;
use crate::refusal::Refusal;
use crate::text::MAX_POINTS;

/// The largest N of a named group.
pub const MAX_LEVEL: usize = 1_000;

/// A family of groups, which an N makes one group.
#[derive(Clone, Copy, Debug, PartialEq, Eq)]
pub enum Family {
    Gamma0,
    Gamma1,
    Gamma,
}

impl Family {
    /// All of them, by their numbers.
    pub const ALL: [Family; 3] = [Family::Gamma0, Family::Gamma1, Family::Gamma];

    /// The name in the stored figures.
    pub fn name(self) -> &'static str {
        match self {
            Family::Gamma0 => "Gamma0",
            Family::Gamma1 => "Gamma1",
            Family::Gamma => "Gamma",
        }
    }

    /// Whether a matrix lies in the group, by its entries modulo n: c is 0; c is 0
    /// and a, d are both 1 or both -1; it is the identity or its negative.
    pub fn contains(self, n: usize, x: Matrix) -> bool {
        let Matrix([a, b, c, d]) = x;
        let is = |entry: i128, residue: i128| (entry - residue) % n as i128 == 0;
        let both = |unit: i128| is(a, unit) && is(d, unit);
        match self {
            Family::Gamma0 => is(c, 0),
            Family::Gamma1 => is(c, 0) && (both(1) || both(-1)),
            Family::Gamma => is(b, 0) && is(c, 0) && (both(1) || both(-1)),
        }
    }

    /// The index by its formula, over the primes p of n: n Π(1 + 1/p) for Γ0, for
    /// Γ1 half of φ(n) times that (from n = 3 on), for Γ n times that of Γ1.
    pub fn index(self, n: usize) -> usize {
        let (mut lines, mut units) = (n, n);
        for p in (2..=n).filter(|p| n % p == 0 && (2..*p).all(|q| p % q != 0)) {
            lines += lines / p;
            units -= units / p;
        }
        let rows = if n < 3 { lines } else { lines * (units / 2) };
        match self {
            Family::Gamma0 => lines,
            Family::Gamma1 => rows,
            Family::Gamma => n * rows,
        }
    }

    /// The permutations of the group.
    pub fn pair(self, n: usize) -> Pair {
        match self {
            Family::Gamma0 => gamma0(n),
            Family::Gamma1 => gamma1(n),
            Family::Gamma => gamma(n),
        }
    }

    /// The permutations by the condition to the letter: two matrices are in one
    /// coset where one times the inverse of the other meets it. The identity is
    /// point 0; then each matrix in order, times S and next times R, gets the
    /// next free number if it is in no coset yet.
    pub fn by_condition(self, n: usize) -> Pair {
        let modulo = |Matrix(entries): Matrix| Matrix(entries.map(|x| x.rem_euclid(n as i128)));
        let mut met = vec![I];
        let number = |x: Matrix, met: &mut Vec<Matrix>| {
            let same = |&other: &Matrix| self.contains(n, x * other.inverse());
            let found = met.iter().position(same);
            found.unwrap_or_else(|| {
                met.push(x);
                met.len() - 1
            }) as i64
        };
        let (mut s, mut r) = (Vec::new(), Vec::new());
        while s.len() < met.len() {
            let x = met[s.len()];
            s.push(number(modulo(x * S), &mut met));
            r.push(number(modulo(x * R), &mut met));
        }
        Pair { s, r }
    }
}

/// The family of a number and the N of a named group within the limits, or
/// refusals 20 and 21.
pub fn named(family: i64, n: i64) -> Result<(Family, usize), Refusal> {
    let number = |number: i64| usize::try_from(number).ok();
    let family = number(family).and_then(|family| Family::ALL.get(family));
    let n = number(n).filter(|n| (1..=MAX_LEVEL).contains(n));
    let (Some(&family), Some(n)) = (family, n) else {
        return Err(Refusal::new(20, 0));
    };
    if family.index(n) > MAX_POINTS as usize {
        return Err(Refusal::new(21, 0));
    }
    Ok((family, n))
}

/// The symbol of a named group by a rule: refusals 20, 21, 16.
pub fn named_symbol(rule: Rule, family: i64, n: i64) -> Result<Imported, Refusal> {
    let (family, n) = named(family, n)?;
    let Pair { s, r } = family.pair(n);
    Action::new(&s, &r)?.by_points(rule)
}

/// Γ0(N).
pub fn gamma0(n: usize) -> Pair {
    let units: Vec<usize> = (1..=n).filter(|&u| gcd(u, n) == 1).collect();
    cosets(n, [0, 1 % n], &units)
}

/// Γ1(N), with -1.
pub fn gamma1(n: usize) -> Pair {
    cosets(n, [0, 1 % n], &[1, n - 1])
}

/// Γ(N), with -1.
pub fn gamma(n: usize) -> Pair {
    cosets(n, [1 % n, 0, 0, 1 % n], &[1, n - 1])
}

/// All rows that S and R lead to from the start, numbered as they are met. Rows
/// that are multiples of each other by one of these factors are one point.
fn cosets<const K: usize>(n: usize, start: [usize; K], factors: &[usize]) -> Pair {
    const NEW: u16 = u16::MAX;
    let place = |rows: [usize; K]| rows.into_iter().fold(0, |place, c| place * n + c);
    let mut numbers = vec![NEW; n.pow(K as u32)];
    let mut met = Vec::new();
    let mut number = |rows: [usize; K], met: &mut Vec<[usize; K]>| {
        if numbers[place(rows)] == NEW {
            for u in factors {
                numbers[place(rows.map(|c| u * c % n))] = met.len() as u16;
            }
            met.push(rows);
        }
        numbers[place(rows)].into()
    };
    number(start, &mut met);
    let (mut s, mut r) = (Vec::new(), Vec::new());
    let mut at = 0;
    while at < met.len() {
        let (mut by_s, mut by_r) = (met[at], met[at]);
        for i in (0..K).step_by(2) {
            let (c, d) = (met[at][i], met[at][i + 1]);
            (by_s[i], by_s[i + 1]) = (d, (n - c) % n);
            (by_r[i], by_r[i + 1]) = (d, (n + d - c) % n);
        }
        s.push(number(by_s, &mut met));
        r.push(number(by_r, &mut met));
        at += 1;
    }
    Pair { s, r }
}

fn gcd(a: usize, b: usize) -> usize {
    if b == 0 {
        a
    } else {
        gcd(b, a % b)
    }
}

#[cfg(test)]
mod tests {
    use super::*;

    #[test]
    fn small_levels() {
        let pair = |s: &[i64], r: &[i64]| Pair {
            s: s.to_vec(),
            r: r.to_vec(),
        };
        for group in [gamma0, gamma1, gamma] {
            assert_eq!(group(1), pair(&[0], &[0]));
        }
        assert_eq!(gamma0(2), pair(&[1, 0, 2], &[2, 0, 1]));
        assert_eq!(gamma(2), pair(&[1, 0, 4, 5, 2, 3], &[2, 3, 5, 4, 1, 0]));
        // Modulo 2, 3, 4 and 6 there is no unit but 1 and -1.
        for n in [2, 3, 4, 6] {
            assert_eq!(gamma1(n), gamma0(n));
        }
        assert_ne!(gamma1(5), gamma0(5));
    }

    /// The indices by their formulas, and by others: with the product over the
    /// primes p of N, those of Γ1(N) and Γ(N) are half of N² Π(1 - 1/p²) and of
    /// N³ Π(1 - 1/p²), for N over 2.
    #[test]
    fn indices() {
        for n in 1..=60 {
            let counted = Family::ALL.map(|family| match family {
                Family::Gamma if n > 18 => family.index(n),
                _ => family.pair(n).points(),
            });
            assert_eq!(Family::ALL.map(|family| family.index(n)), counted, "{n}");
        }
        for n in 3..=MAX_LEVEL {
            let primes = (2..=n).filter(|p| n % p == 0 && (2..*p).all(|q| p % q != 0));
            let rows = primes.fold(n * n, |rows, p| rows - rows / (p * p));
            assert_eq!(Family::Gamma1.index(n), rows / 2, "{n}");
            assert_eq!(Family::Gamma.index(n), n * rows / 2, "{n}");
        }
    }

    /// Rows modulo N and matrices under the condition give the same tables, and a
    /// matrix moves point 0 to itself exactly when it meets the condition.
    #[test]
    fn by_rows_and_by_condition() {
        use crate::random::{matrices::matrix, Rng};

        let mut rng = Rng::new(19);
        let mut met = [0; 2];
        for n in 1..=60 {
            for family in Family::ALL {
                if family.index(n) > 400 {
                    continue;
                }
                let pair = family.pair(n);
                assert_eq!(pair, family.by_condition(n), "{family:?} {n}");
                let action = Action::new(&pair.s, &pair.r).expect("a group's tables");
                let (s, r) = action.numbered();
                let given = |table: &[i64]| table.iter().map(|&x| x as u32).collect::<Vec<_>>();
                assert_eq!((s, r), (given(&pair.s), given(&pair.r)), "{family:?} {n}");
                for _ in 0..20 {
                    let x = matrix(&mut rng);
                    let member = family.contains(n, x);
                    assert_eq!(action.moved(0, x) == 0, member, "{family:?} {n} {x:?}");
                    met[usize::from(member)] += 1;
                }
            }
        }
        assert!(met.iter().all(|&count| count > 100), "{met:?}");
    }

    #[test]
    fn refused_names() {
        let refused = |family, n| named(family, n).map_err(|r| (r.number, r.place));
        for family in 0..3 {
            for n in [0, -1, 1_001, i64::MAX, i64::MIN] {
                assert_eq!(refused(family, n), Err((20, 0)));
            }
        }
        for family in [-1, 3, i64::MAX, i64::MIN] {
            assert_eq!(refused(family, 1), Err((20, 0)));
            assert_eq!(refused(family, 0), Err((20, 0)));
        }
        assert_eq!(refused(0, 1_000), Ok((Family::Gamma0, 1_000)));
        // 19 · 360/2 = 3,420, and 20 · 288/2 = 2,880.
        assert_eq!(refused(2, 19), Err((21, 0)));
        assert_eq!(refused(2, 20), Ok((Family::Gamma, 20)));
        assert_eq!(refused(2, 21), Err((21, 0)));
    }
}

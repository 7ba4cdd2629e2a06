//! Whether two symbols generate the same subgroup: precisely when every
//! generator of each lies in the other's group.
//!
//! `same` asks just that, of the generators as they stand. A matrix lies in a
//! group when its edge is carried to where the edge of I is carried, so no table
//! of cosets is made. The engine makes such tables and compares them; `by_tables`
//! does the same here, for the tests.
//!
//! The runs of a letter in a generator are short. A frame is a way through the
//! v - 1 triangles of its polygon, so the alternating word of a generator has
//! some 4v letters at most, however large its entries are, and each of them
//! carries an edge across one side at most.

use crate::coset::Cosets;
use crate::matrix::I;
use crate::polygon::kept_edge;
use crate::refusal::Refusal;
use crate::symbol::Symbol;

/// Whether every generator of the one symbol lies in the group of the other.
pub fn each_in(one: &Symbol, other: &Symbol) -> bool {
    let home = kept_edge(other, I);
    let mut generators = one.generators.iter();
    generators.all(|generator| kept_edge(other, generator.matrix) == home)
}

/// Whether two symbols generate the same subgroup.
pub fn same_group(one: &Symbol, other: &Symbol) -> bool {
    each_in(one, other) && each_in(other, one)
}

/// Whether two tables hold symbols of the same subgroup, or the refusal of the
/// first of them, or else that of the second.
pub fn same(v1: i64, first: &[i64], v2: i64, second: &[i64]) -> Result<bool, Refusal> {
    let one = Symbol::new(v1, first)?;
    let other = Symbol::new(v2, second)?;
    Ok(same_group(&one, &other))
}

/// Whether the cosets of the two are permuted alike by S and by R, with the
/// numbers that each symbol gives them.
pub fn by_tables(one: &Symbol, other: &Symbol) -> bool {
    let (one, other) = (Cosets::new(one), Cosets::new(other));
    one.s == other.s && one.r == other.r
}

#[cfg(test)]
mod tests {
    use super::*;

    const GAMMA0_2: [i64; 7] = [0, 1, 1, 1, 1, -2, 1];

    #[test]
    fn two_symbols_of_gamma0_2() {
        let moved = [-1, 1, 0, 1, 1, -2, 1];
        assert_eq!(same(2, &GAMMA0_2, 2, &moved), Ok(true));
        assert_eq!(same(2, &moved, 2, &GAMMA0_2), Ok(true));
        // The labels, and the place of the even side.
        assert_eq!(same(2, &GAMMA0_2, 2, &[0, 1, 1, 1, 3, -2, 3]), Ok(true));
        assert_eq!(same(2, &GAMMA0_2, 2, &[0, 1, 1, 1, -2, 1, 1]), Ok(false));
        assert_eq!(same(2, &GAMMA0_2, 2, &[0, 1, 1, 1, 1, 1, -2]), Ok(false));
        assert_eq!(same(2, &GAMMA0_2, 2, &[0, 1, 1, 1, 1, -3, 1]), Ok(false));
    }

    /// Each group has itself within PSL2(Z), and isn't the same.
    #[test]
    fn one_within_the_other() {
        let whole = Symbol::new(1, &[0, 1, -2, -3]).unwrap();
        let turned = Symbol::new(1, &[0, 1, -3, -2]).unwrap();
        let group = Symbol::new(2, &GAMMA0_2).unwrap();
        assert!(each_in(&group, &whole) && !each_in(&whole, &group));
        assert!(!same_group(&group, &whole) && !same_group(&whole, &group));
        assert!(same_group(&whole, &turned));
    }

    #[test]
    fn labels_pairings_and_vertices() {
        let one = [0, 1, 1, 1, 2, 1, 1, 2, 2, 1];
        let renamed = [0, 1, 1, 1, 2, 1, 4, 1, 1, 4];
        let other = [0, 1, 1, 1, 2, 1, 1, 2, 1, 2];
        // Γ(2) is carried into itself by T.
        let moved = [-1, 1, 0, 1, 1, 1, 1, 2, 2, 1];
        assert_eq!(same(3, &one, 3, &renamed), Ok(true));
        assert_eq!(same(3, &one, 3, &other), Ok(false));
        assert_eq!(same(3, &one, 3, &moved), Ok(true));
        assert_eq!(same(3, &one, 1, &[0, 1, -3, -3]), Ok(false));
    }

    #[test]
    fn refusals_in_order() {
        let one = [0, 1, 1, 1, 2, 1, 1, 2, 2, 1];
        assert_eq!(same(3, &one, 0, &[]), Err(Refusal::new(1, 0)));
        assert_eq!(same(1, &[0, 1, -2, -2], 0, &[]), Err(Refusal::new(7, 0)));
        assert_eq!(same(1, &[0, 1], 0, &[]), Err(Refusal::new(2, 2)));
        assert_eq!(same(3, &one, 3, &one[..9]), Err(Refusal::new(2, 9)));
    }
}

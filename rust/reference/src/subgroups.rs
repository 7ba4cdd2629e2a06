//! Two or more subgroups: the intersection of two, whether one contains another,
//! and towers; refusals 24, 25 and 26.
//!
//! A coset of the intersection is known by the two edges that the symbols keep of
//! its matrices. One group contains another when it has each of the other's
//! generators; the engine follows the cosets of the one in those of the other.

use std::collections::HashMap;

use crate::matrix::{Matrix, I, R, S, T};
use crate::polygon::kept_edge;
use crate::refusal::Refusal;
use crate::sameness::each_in;
use crate::symbol::Symbol;
use crate::text::MAX_POINTS;

/// The most entries of a tower.
pub const MAX_ENTRIES: usize = 64;

/// The tables of S, R and T.
pub type Tables = [Vec<u32>; 3];

/// The tables of the intersection, numbered as those of a symbol, or refusal 24.
pub fn intersection(one: &Symbol, other: &Symbol) -> Result<Tables, Refusal> {
    let kept = |(x, y): (Matrix, Matrix), step: Matrix| {
        (kept_edge(one, x * step), kept_edge(other, y * step))
    };
    let home = kept((I, I), I);
    let mut met = vec![home];
    let mut numbers = HashMap::from([(home, 0)]);
    let (mut s, mut r) = (Vec::new(), Vec::new());
    while s.len() < met.len() {
        let edges = met[s.len()];
        for (step, table) in [(S, &mut s), (R, &mut r)] {
            let image = kept(edges, step);
            let number = *numbers.entry(image).or_insert_with(|| {
                met.push(image);
                met.len() as u32 - 1
            });
            table.push(number);
        }
        if met.len() > MAX_POINTS as usize {
            return Err(Refusal::new(24, 0));
        }
    }
    // T by itself, not as S followed by R.
    let t = met.iter().map(|&edges| numbers[&kept(edges, T)]).collect();
    Ok([s, r, t])
}

/// Whether the group of the first table contains that of the second, or the
/// refusal of the first of them, or else that of the second.
pub fn contains(v1: i64, first: &[i64], v2: i64, second: &[i64]) -> Result<bool, Refusal> {
    let one = Symbol::new(v1, first)?;
    let other = Symbol::new(v2, second)?;
    Ok(each_in(&other, &one))
}

/// An entry of a tower: the entry that it names, or -1, and its symbol.
#[derive(Clone, Debug)]
pub struct Entry {
    pub named: i64,
    pub symbol: Symbol,
}

/// The symbols of a tower in listing order, or the first refusal of one.
fn entries(count: usize, mut left: &[i64]) -> Result<Vec<Entry>, Refusal> {
    let mut all = Vec::new();
    for entry in 0..count {
        let &[named, v, ref rest @ ..] = left else {
            return Err(Refusal::new(2, 0));
        };
        let most = usize::try_from(v).map_or(0, |v| v.saturating_mul(3).saturating_add(1));
        let taken = match entry + 1 == count {
            true => rest.len(),
            false => most.min(rest.len()),
        };
        let (table, after) = rest.split_at(taken);
        let symbol = Symbol::new(v, table)?;
        all.push(Entry { named, symbol });
        left = after;
    }
    Ok(all)
}

/// The checks of a tower that go before its work space: 11 with place 64 for a 65th
/// entry, the symbols' refusals in listing order, 25.
pub fn listed(count: usize, table: &[i64]) -> Result<Vec<Entry>, Refusal> {
    if count > MAX_ENTRIES {
        return Err(Refusal::new(11, MAX_ENTRIES));
    }
    let all = entries(count, table)?;
    let before = |i: usize| (-1..i as i64).contains(&all[i].named);
    match (0..count).find(|&i| !before(i)) {
        Some(i) => Err(Refusal::new(25, i)),
        None => Ok(all),
    }
}

/// Refusal 26 for the first entry whose claim is false.
pub fn claims(all: &[Entry]) -> Result<(), Refusal> {
    let holds = |entry: &Entry| match usize::try_from(entry.named) {
        Ok(named) => each_in(&entry.symbol, &all[named].symbol),
        Err(_) => true,
    };
    match all.iter().position(|entry| !holds(entry)) {
        Some(i) => Err(Refusal::new(26, i)),
        None => Ok(()),
    }
}

/// A whole tower. `work` is the answer of the work space's check, which only a tower
/// with an entry meets.
pub fn tower(count: usize, table: &[i64], work: Result<(), Refusal>) -> Result<(), Refusal> {
    let all = listed(count, table)?;
    if !all.is_empty() {
        work?;
    }
    claims(&all)
}

#[cfg(test)]
mod tests {
    use super::*;
    use crate::congruence::Family;
    use crate::coset::Cosets;
    use crate::permutations::{Action, Rule};
    use crate::random::pairs::Pair;

    /// The numbers of a family's symbol by the wide rule, whose entries stay small.
    fn named(family: Family, n: usize) -> Vec<i64> {
        let Pair { s, r } = family.pair(n);
        let action = Action::new(&s, &r).expect("sound permutations");
        action.by_points(Rule::Wide).expect("a symbol").numbers()
    }

    fn symbol(numbers: &[i64]) -> Symbol {
        Symbol::from_numbers(numbers).expect("a sound symbol")
    }

    fn lcm(a: usize, b: usize) -> usize {
        (1..)
            .map(|k| k * a)
            .find(|x| x % b == 0)
            .expect("a common multiple")
    }

    /// Γ0(M) ∩ Γ0(N) is Γ0 of the least common multiple.
    #[test]
    fn gamma0_meets_in_the_least_common_multiple() {
        for m in 1..=12 {
            for n in 1..=12 {
                let (one, other) = (named(Family::Gamma0, m), named(Family::Gamma0, n));
                let [s, r, t] = intersection(&symbol(&one), &symbol(&other)).unwrap();
                let both = Cosets::new(&symbol(&named(Family::Gamma0, lcm(m, n))));
                assert_eq!((&s, &r, &t), (&both.s, &both.r, &both.t), "{m} {n}");
                let inside = contains(one[0], &one[1..], other[0], &other[1..]);
                assert_eq!(inside, Ok(lcm(m, n) == n), "{m} {n}");
            }
        }
    }

    /// Of Γ1 and Γ this is so where one N divides the other. With 3 and 4 a matrix may
    /// be 1 modulo the one and -1 modulo the other, so there are half as many points.
    #[test]
    fn signs_may_differ() {
        let points = |family: Family, m: usize, n: usize| {
            let (one, other) = (symbol(&named(family, m)), symbol(&named(family, n)));
            intersection(&one, &other).unwrap()[0].len()
        };
        for family in [Family::Gamma1, Family::Gamma] {
            assert_eq!(points(family, 2, 6), family.index(6));
            assert_eq!(points(family, 3, 6), family.index(6));
            assert_eq!(points(family, 2, 3), family.index(6));
            assert_eq!(2 * points(family, 3, 4), family.index(12));
        }
    }

    /// An intersection with 3,066 points passes, and one with 3,067 doesn't.
    #[test]
    fn the_most_points() {
        // Γ0(2) and Γ0(1021): 3 times 1,022 points.
        let (two, prime) = (named(Family::Gamma0, 2), named(Family::Gamma0, 1021));
        let [s, _, _] = intersection(&symbol(&two), &symbol(&prime)).unwrap();
        assert_eq!(s.len(), 3066);
        // 1,023 vertices and even sides: 3,066 cosets, and one more with an odd side.
        let whole = symbol(&[1, 0, 1, -2, -3]);
        let mut sides: Vec<i64> = (0..1023).flat_map(|x| [x, 1]).collect();
        sides.extend([-2; 1024]);
        let even = Symbol::new(1023, &sides).unwrap();
        assert_eq!(intersection(&whole, &even).unwrap()[0].len(), 3066);
        sides[2046 + 500] = -3;
        let odd = Symbol::new(1023, &sides).unwrap();
        assert_eq!(intersection(&whole, &odd), Err(Refusal::new(24, 0)));
        assert_eq!(intersection(&odd, &whole), Err(Refusal::new(24, 0)));
    }

    /// The table of a tower: each entry's named one, then the numbers of its symbol.
    fn table(entries: &[(i64, &[i64])]) -> Vec<i64> {
        let all = entries
            .iter()
            .flat_map(|(named, numbers)| [&[*named][..], numbers].concat());
        all.collect()
    }

    #[test]
    fn towers() {
        let [one, two, four, three] = [1, 2, 4, 3].map(|n| named(Family::Gamma, n));
        let tower = |count, table: &[i64]| super::tower(count, table, Ok(()));
        let sound = table(&[(-1, &one), (0, &two), (1, &four), (0, &three)]);
        assert_eq!(tower(4, &sound), Ok(()));
        assert_eq!(tower(0, &sound), Ok(()));
        assert_eq!(tower(0, &[]), Ok(()));
        // A claim that is false, of equal index or not.
        let wrong = table(&[(-1, &one), (0, &two), (1, &three), (-1, &four), (1, &one)]);
        assert_eq!(tower(5, &wrong), Err(Refusal::new(26, 2)));
        // 25 stands before 26, wherever it is; the work space between them.
        let later = table(&[(-1, &one), (0, &two), (1, &three), (3, &four)]);
        assert_eq!(tower(4, &later), Err(Refusal::new(25, 3)));
        let short = Err(Refusal::new(11, 32_768));
        assert_eq!(super::tower(5, &wrong, short), short);
        assert_eq!(super::tower(4, &later, short), Err(Refusal::new(25, 3)));
        // Also where no entry names another, but an empty tower needs no work space.
        assert_eq!(super::tower(1, &table(&[(-1, &one)]), short), short);
        assert_eq!(super::tower(0, &wrong, short), Ok(()));
        for named in [0, 1, -2, i64::MAX, i64::MIN] {
            assert_eq!(tower(1, &table(&[(named, &one)])), Err(Refusal::new(25, 0)));
        }
        // The symbols' own refusals come first, in listing order.
        let mut bad = later.clone();
        bad.pop();
        assert_eq!(tower(4, &bad), Err(Refusal::new(2, four.len() - 2)));
        // 0/1 becomes 7/1 in the first symbol: its sides stay neighbours, and no vertex is 0/1.
        bad[2] = 7;
        assert_eq!(tower(4, &bad), Err(Refusal::new(5, 0)));
        // A 65th entry, ahead of everything.
        assert_eq!(tower(65, &[]), Err(Refusal::new(11, 64)));
        assert_eq!(tower(usize::MAX, &sound), Err(Refusal::new(11, 64)));
    }

    /// What is there of an entry: no v, fewer numbers than 3v + 1, the last one with
    /// all that is left.
    #[test]
    fn parts_of_a_tower() {
        let tower = |count, table: &[i64]| super::tower(count, table, Ok(()));
        assert_eq!(tower(1, &[]), Err(Refusal::new(2, 0)));
        assert_eq!(tower(1, &[-1]), Err(Refusal::new(2, 0)));
        assert_eq!(tower(1, &[-1, 1]), Err(Refusal::new(2, 0)));
        assert_eq!(tower(1, &[-1, 1, 0, 1]), Err(Refusal::new(2, 2)));
        assert_eq!(tower(1, &[-1, 1, 0, 1, -2, -3]), Ok(()));
        assert_eq!(tower(1, &[-1, 1, 0, 1, -2, -3, 5]), Err(Refusal::new(2, 5)));
        assert_eq!(tower(2, &[-1, 1, 0, 1, -2, -3]), Err(Refusal::new(2, 0)));
        assert_eq!(tower(2, &[-1, 1, 0, 1, -2, -3, 0]), Err(Refusal::new(2, 0)));
        assert_eq!(tower(2, &[-1, 1, 0, 1, -2]), Err(Refusal::new(2, 3)));
        for v in [0, -1, 1024, i64::MAX, i64::MIN] {
            assert_eq!(
                tower(2, &[-1, v, 0, 1, -2, -3]),
                Err(Refusal::new(1, 0)),
                "{v}"
            );
        }
    }
}

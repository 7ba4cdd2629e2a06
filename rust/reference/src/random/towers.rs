//! Symbols in relation to each other: two whose groups are intersected, a subgroup of
//! a group, and whole towers, with true claims and false ones.

use super::drafts::{draft, draft_of_size, Draft};
use super::faults::{poke, put_fault, SYMBOL_FAULTS};
use super::pairs::{dice_pair, Pair};
use super::rng::Rng;
use super::twins::{conjugate, imported, same_group, second, RULES};
use crate::congruence::Family;
use crate::permutations::Rule;
use crate::subgroups::{intersection, MAX_ENTRIES};
use crate::symbol::{Symbol, EVEN, MAX_VERTICES, ODD};

fn symbol(draft: &Draft) -> Symbol {
    Symbol::from_numbers(&draft.numbers()).expect("a draft is a sound symbol")
}

/// A symbol of a named group, by the wide rule.
pub fn named(family: Family, n: usize) -> Draft {
    imported(Rule::Wide, &family.pair(n)).expect("small entries")
}

/// PSL2(Z) itself.
pub fn whole() -> Draft {
    Draft {
        vertices: vec![(0, 1)],
        pairings: vec![EVEN, ODD],
    }
}

/// A group of small index: one that has a name, or any.
pub fn small(rng: &mut Rng) -> Draft {
    match rng.below(10) {
        0 => whole(),
        1..=2 => named(Family::Gamma0, 1 + rng.below(16)),
        3 => named(Family::Gamma1, 1 + rng.below(7)),
        4 => named(Family::Gamma, 1 + rng.below(5)),
        _ => {
            let v = 1 + rng.below(7);
            draft_of_size(rng, v)
        }
    }
}

/// Any group of this index.
pub fn of_index(rng: &mut Rng, index: usize) -> Draft {
    loop {
        let pair = dice_pair(rng, index);
        if let Some(found) = imported(Rule::Wide, &pair) {
            return found;
        }
    }
}

/// Two groups that meet in just as many points as an intersection may have, or in
/// a few more.
///
/// The number of points is a multiple of both indices, so coprime indices have their
/// product. 3,067 is a prime: with so many points one of the groups has them all, and the
/// other is the same group or PSL2(Z).
pub fn at_the_limit(rng: &mut Rng, over: bool) -> [Draft; 2] {
    let product = match over {
        false => 2 * 3 * 7 * 73,
        true if rng.chance(50) => return one_more(rng),
        true => 4 * 13 * 59,
    };
    let parts: [usize; 6] = match over {
        false => [2, 3, 6, 7, 42, 73],
        true => [4, 13, 52, 59, 236, 767],
    };
    let part = rng.pick(&parts);
    [of_index(rng, part), of_index(rng, product / part)]
}

/// A group of index 3,067 with itself or with PSL2(Z).
fn one_more(rng: &mut Rng) -> [Draft; 2] {
    let Draft { vertices, .. } = draft_of_size(rng, MAX_VERTICES);
    let mut pairings = vec![EVEN; MAX_VERTICES + 1];
    let odd = rng.below(MAX_VERTICES + 1);
    pairings[odd] = ODD;
    let large = Draft { vertices, pairings };
    match rng.below(3) {
        0 => [large.clone(), large],
        1 => [large, whole()],
        _ => [whole(), large],
    }
}

/// Two groups to be intersected, or of which one may contain the other.
pub fn two_groups(rng: &mut Rng) -> [Draft; 2] {
    let mut two = match rng.below(20) {
        0..=4 => [small(rng), small(rng)],
        5..=8 => {
            let one = small(rng);
            [subgroup(rng, &one), one]
        }
        9..=11 => {
            let one = draft(rng);
            [second(rng, &one), one]
        }
        12..=14 => {
            let v = 1 + rng.below(60);
            let one = draft_of_size(rng, v);
            [conjugate(rng, &one), one]
        }
        15..=17 => [draft(rng), small(rng)],
        18 => [draft(rng), draft(rng)],
        _ => {
            let over = rng.chance(50);
            at_the_limit(rng, over)
        }
    };
    if rng.chance(50) {
        two.swap(0, 1);
    }
    two
}

/// A subgroup: the intersection with another group, by one of the rules, or the group
/// itself by another symbol.
pub fn subgroup(rng: &mut Rng, group: &Draft) -> Draft {
    let other = small(rng);
    let rule = rng.pick(&RULES);
    let made = intersection(&symbol(group), &symbol(&other));
    let found = made
        .ok()
        .filter(|[s, ..]| s.len() <= 600)
        .and_then(|[s, r, _]| {
            let [s, r] = [s, r].map(|table| table.into_iter().map(i64::from).collect());
            imported(rule, &Pair { s, r })
        });
    found.unwrap_or_else(|| same_group(rng, group))
}

/// A tower as it is lent: the count, and the table.
#[derive(Clone, Debug, PartialEq, Eq)]
pub struct Listed {
    pub count: usize,
    pub table: Vec<i64>,
}

impl Listed {
    pub fn new(entries: &[(i64, Vec<i64>)]) -> Listed {
        let table = entries.iter().flat_map(|(named, numbers)| {
            let numbers = numbers.iter().copied();
            std::iter::once(*named).chain(numbers)
        });
        Listed {
            count: entries.len(),
            table: table.collect(),
        }
    }

    /// The count, and then the table.
    pub fn numbers(&self) -> Vec<i64> {
        let count = i64::try_from(self.count).unwrap_or(i64::MAX);
        std::iter::once(count)
            .chain(self.table.iter().copied())
            .collect()
    }
}

/// How many entries: few most of the time, now and then as many as there may be.
fn how_many(rng: &mut Rng) -> usize {
    match rng.below(100) {
        0..=2 => 0,
        3..=4 => MAX_ENTRIES,
        5 => MAX_ENTRIES + 1 + rng.below(3),
        6..=15 => 1,
        _ => 2 + rng.below(5),
    }
}

/// Entries with v first in each symbol's numbers. Most claims are true.
fn entries(rng: &mut Rng) -> Vec<(i64, Vec<i64>)> {
    let count = how_many(rng);
    let mut drafts: Vec<Draft> = Vec::new();
    let mut entries = Vec::new();
    for i in 0..count {
        let named = if i == 0 {
            -1
        } else {
            rng.below(i + 1) as i64 - 1
        };
        let next = match usize::try_from(named).map(|named| drafts[named].clone()) {
            // Small ones where there are many.
            Ok(above) if count > 10 => match rng.below(4) {
                0 => same_group(rng, &above),
                _ => above,
            },
            Ok(above) => match rng.below(12) {
                0 => conjugate(rng, &above),
                1..=7 => subgroup(rng, &above),
                8 => whole(),
                9 => small(rng),
                _ => same_group(rng, &above),
            },
            Err(_) if count <= 10 && rng.chance(5) => draft(rng),
            Err(_) => small(rng),
        };
        entries.push((named, next.numbers()));
        drafts.push(next);
    }
    entries
}

/// A tower, sound or with a fault of any kind.
pub fn tower(rng: &mut Rng) -> Listed {
    let mut entries = entries(rng);
    let count = entries.len();
    // Faults of symbols, of which several may stand in one tower.
    while count > 0 && rng.chance(12) {
        let numbers = &mut entries[rng.below(count)].1;
        match rng.below(4) {
            0 => poke(rng, numbers),
            _ => {
                let fault = rng.pick(&SYMBOL_FAULTS);
                put_fault(rng, numbers, fault);
            }
        }
    }
    // Entries that aren't listed before.
    while count > 0 && rng.chance(12) {
        let i = rng.below(count);
        let wrong = [i as i64, i as i64 + 1, count as i64, -2, i64::MAX, i64::MIN];
        entries[i].0 = rng.pick(&wrong);
    }
    let mut listed = Listed::new(&entries);
    resize(rng, &mut listed);
    listed
}

/// Another length of the table, or another count, now and then.
fn resize(rng: &mut Rng, listed: &mut Listed) {
    let Listed { count, table } = listed;
    match rng.below(40) {
        0 => table.truncate(rng.below(table.len() + 1)),
        1 => {
            table.pop();
        }
        2 => table.push(rng.pick(&[0, 1, -1, -2, -3])),
        3 => *count += 1,
        4 => *count = count.saturating_sub(1),
        // No v behind the entry that is named.
        5 => {
            *count += 1;
            table.push(-1);
        }
        6 => *count = rng.pick(&[MAX_ENTRIES + 1, 1 << 32, 1 << 63, usize::MAX]),
        _ => {}
    }
}

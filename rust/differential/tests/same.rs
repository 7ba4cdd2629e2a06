//! `farey_same` on symbols of one group and of several, and random calls.
//!
//! | module     | what it tests                                                                     |
//! |------------|-----------------------------------------------------------------------------------|
//! | `groups`   | stored groups by both rules of import, other labels, conjugates, all groups of    |
//! |            | small index, the largest symbols                                                  |
//! | `refusals` | damaged tables, and the refusals in their order                                   |
//!
//! What is expected comes from how the groups were made, or from the reference,
//! which asks of each generator whether it lies in the other's group.

#[path = "same/groups.rs"]
mod groups;
#[path = "same/refusals.rs"]
mod refusals;

use std::collections::{BTreeMap, BTreeSet};

use differential::same::case;
use farey::{calls, Refusal, Symbol};
use reference::congruence::{gamma0, gamma1};
use reference::coset::Cosets;
use reference::permutations::Action;
use reference::random::drafts::{draft_of_size, pairings, polygon, Draft, Growth, Style, Zero};
use reference::random::faults::{put_fault, SYMBOL_FAULTS};
use reference::random::pairs::{all_pairs, based, shallow_pair, Pair};
use reference::random::twins::{imported, pair_of, rename, second, RULES};
use reference::random::Rng;
use reference::sameness::same_group;
use reference::symbol::{self, MAX_VERTICES, ODD};

const SYMBOLS: &str = include_str!("../../reference/data/symbols.txt");
const PAIRS: &str = include_str!("../../reference/data/permutations.txt");

/// The numbers of a symbol: v, the vertex entries, the pairings.
type Numbers = Vec<i64>;

fn whole_numbers(field: &str) -> Numbers {
    let read = |piece: &str| piece.parse().expect("these fields hold numbers");
    field.split_whitespace().map(read).collect()
}

/// The fields of the lines that aren't remarks.
fn rows(page: &'static str) -> impl Iterator<Item = Vec<&'static str>> {
    let lines = page.lines().filter(|line| !line.starts_with('#'));
    lines.map(|line| line.split('|').map(str::trim).collect())
}

fn stored_symbols() -> Vec<Numbers> {
    let all = rows(SYMBOLS).map(|fields| whole_numbers(&fields[1..4].join(" ")));
    all.collect()
}

fn stored_pairs() -> Vec<Pair> {
    let all = rows(PAIRS).map(|fields| Pair {
        s: whole_numbers(fields[1]),
        r: whole_numbers(fields[2]),
    });
    all.collect()
}

fn sound(numbers: &[i64]) -> symbol::Symbol {
    symbol::Symbol::from_numbers(numbers).expect("a sound symbol")
}

/// The symbols that the engine's rules make of a pair.
fn by_rules(pair: &Pair) -> Vec<Numbers> {
    let points = |table: &[i64]| table.iter().map(|&x| x as u32).collect::<Vec<u32>>();
    let (s, r) = (points(&pair.s), points(&pair.r));
    let both = [
        Symbol::from_permutations_leftmost(&s, &r),
        Symbol::from_permutations(&s, &r),
    ];
    let found = both.into_iter().flatten();
    found
        .map(|symbol| [&[symbol.vertices() as i64], symbol.table()].concat())
        .collect()
}

/// The engine's answer for two sound symbols. The work space holds other numbers
/// before the call, and none after it.
fn same(one: &[i64], other: &[i64]) -> bool {
    let mut work = vec![0xa5a5; calls::WORK + one.len() % 3];
    let (v, m) = (one[0] as usize, other[0] as usize);
    let came = calls::same(v, &one[1..], m, &other[1..], &mut work);
    assert!(work.iter().all(|&number| number == 0));
    came.unwrap_or_else(|refusal| panic!("{refusal}: {one:?}, {other:?}"))
}

/// The same answer whichever comes first.
fn same_both_ways(one: &[i64], other: &[i64]) -> bool {
    let yes = same(one, other);
    assert_eq!(yes, same(other, one), "{one:?}, {other:?}");
    yes
}

/// Random calls as those of the fixed seed, and more of them: answers and every
/// number of every space.
#[test]
fn random_calls() {
    let mut met: BTreeMap<(u64, &str), usize> = BTreeMap::new();
    for number in 0..6_000 {
        let outcome = case(&mut Rng::for_case(20_261_116, number));
        assert!(outcome.differences.is_empty(), "case {number}\n{outcome}");
        *met.entry((outcome.number(), outcome.about)).or_default() += 1;
    }
    assert!(met[&(0, "yes")] >= 1_000, "{met:?}");
    assert!(met[&(0, "no")] >= 1_000, "{met:?}");
}

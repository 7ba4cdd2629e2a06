//! A second symbol to be compared with a first one: of the same group, of a
//! conjugate of it, or of another.

use super::drafts::{draft, draft_of_size, pairings, Draft, Style};
use super::pairs::{based, Pair};
use super::rng::Rng;
use crate::permutations::{Action, Rule};
use crate::symbol::Symbol;
use crate::text::MAX_POINTS;

pub const RULES: [Rule; 2] = [Rule::Leftmost, Rule::Wide];

/// The symbol that a rule makes of a sound pair, unless it is refused with 16.
pub fn imported(rule: Rule, pair: &Pair) -> Option<Draft> {
    let action = Action::new(&pair.s, &pair.r).expect("the pair is sound");
    let found = action.by_points(rule).ok()?;
    Some(Draft {
        vertices: found.vertices,
        pairings: found.pairings,
    })
}

/// The tables of a symbol, if they are short enough for an import.
pub fn pair_of(one: &Draft) -> Option<Pair> {
    let symbol = Symbol::from_numbers(&one.numbers()).expect("a draft is a sound symbol");
    let pair = Pair::of_symbol(&symbol);
    (pair.points() <= MAX_POINTS as usize).then_some(pair)
}

/// Other labels for the free pairs.
pub fn rename(rng: &mut Rng, pairings: &mut [i64]) {
    let mut labels: Vec<i64> = (1..=pairings.len() as i64).collect();
    rng.shuffle(&mut labels);
    for pairing in pairings.iter_mut().filter(|pairing| **pairing > 0) {
        *pairing = labels[*pairing as usize - 1];
    }
}

/// A symbol of the same group by one of the rules, with labels of its own, or the
/// same symbol where there is none.
pub fn same_group(rng: &mut Rng, one: &Draft) -> Draft {
    let rule = rng.pick(&RULES);
    let found = pair_of(one).and_then(|pair| imported(rule, &pair));
    let mut two = found.unwrap_or_else(|| one.clone());
    rename(rng, &mut two.pairings);
    two
}

/// A symbol of a conjugate of the group: the matrices that fix another coset. It
/// may be the same group.
pub fn conjugate(rng: &mut Rng, one: &Draft) -> Draft {
    let Some(pair) = pair_of(one) else {
        return one.clone();
    };
    let base = rng.below(pair.points());
    let pair = based(rng, &pair, base);
    let rule = rng.pick(&RULES);
    imported(rule, &pair).unwrap_or_else(|| one.clone())
}

/// A second symbol of any of these kinds.
pub fn second(rng: &mut Rng, one: &Draft) -> Draft {
    let mut two = one.clone();
    let sides = one.pairings.len();
    match rng.below(16) {
        0 => {}
        1..=2 => rename(rng, &mut two.pairings),
        3 => {
            rename(rng, &mut two.pairings);
            two.pairings.swap(rng.below(sides), rng.below(sides));
        }
        4 => two.pairings = pairings(rng, sides, Style::AllFree, &[]),
        5 => two = draft_of_size(rng, one.v()),
        6 => two = draft(rng),
        7..=11 => two = same_group(rng, one),
        _ => two = conjugate(rng, one),
    }
    two
}

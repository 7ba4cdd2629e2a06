//! `widths`: those of the cusps, by the smallest coset of each.

use farey::calls;
use reference::coset::Cosets;
use reference::random::Rng;
use reference::symbol::Symbol;

use crate::listed;
use crate::outcome::Outcome;

pub fn case(rng: &mut Rng) -> Outcome {
    listed::case(rng, widths, 1, calls::widths)
}

/// Those of a symbol.
pub(crate) fn widths(symbol: &Symbol) -> Vec<u32> {
    let widths = Cosets::new(symbol).widths();
    widths.into_iter().map(|width| width as u32).collect()
}

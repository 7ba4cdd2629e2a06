//! `generators`: kind and matrix of each.

use farey::calls;
use reference::random::Rng;
use reference::symbol::{Generator, Kind, Symbol};

use crate::listed;
use crate::outcome::Outcome;

/// The numbers of a generator in the result space.
const EACH: usize = 5;

pub fn case(rng: &mut Rng) -> Outcome {
    listed::case(rng, rows, EACH, calls::generators)
}

fn rows(symbol: &Symbol) -> Vec<i64> {
    symbol.generators.iter().flat_map(row).collect()
}

fn row(generator: &Generator) -> [i64; EACH] {
    let kind = match generator.kind {
        Kind::Free => 1,
        Kind::Even => 2,
        Kind::Odd => 3,
    };
    let entries = generator.matrix.entries();
    let [a, b, c, d] = entries.expect("sums of two products within 10^18 fit 64 bits");
    [kind, a, b, c, d]
}

//! `figures`: index, e2, e3, cusps, genus and level; refusals 1 to 7, 11 for
//! the work space.
//!
//! 17 makes the level alone unavailable. 18 would make the genus so, and never comes:
//! the engine promises a genus for every symbol that passes the checks.

use farey::calls;
use reference::coset::Cosets;
use reference::random::drafts::many_cusps;
use reference::random::Rng;
use reference::symbol::Symbol;
use reference::Refusal;

use crate::outcome::{Expected, Outcome};
use crate::spaces::{work, Space};
use crate::symbols::Lent;

/// Index, e2, e3, cusps, then two numbers each for genus and level.
pub(crate) const FIGURES: usize = 8;

pub fn case(rng: &mut Rng) -> Outcome {
    let lent = symbol(rng);
    let figures = lent.symbol().map(|symbol| figures(&symbol));
    let mut work = work(rng);
    let mut out = Space::of_length(rng, FIGURES);
    let expected = Expected::in_order(figures, &work, Ok);
    let space = out.write().try_into().expect("a space of eight numbers");
    let came = calls::figures(lent.v, lent.table.read(), work.write(), space);
    let mut outcome = Outcome::with_work(&expected, |_| 0, came.map(|()| 0), &work);
    outcome.unchanged("table", &lent.table);
    let part = expected.part(|figures: &[u64; FIGURES]| figures);
    outcome.filled("out", &out, 0, part);
    if let &[.., genus, _, level, _] = part {
        outcome.about = unavailable(genus, level);
    }
    outcome.on(|| format!("{}, work {}", lent.told(), work.length()))
}

/// Any symbol, now and then one whose level may be past 64 bits.
pub(crate) fn symbol(rng: &mut Rng) -> Lent {
    if rng.chance(6) {
        let draft = many_cusps(rng);
        return Lent::of(rng, &draft);
    }
    Lent::any(rng)
}

/// The eight numbers of a symbol.
pub(crate) fn figures(symbol: &Symbol) -> [u64; FIGURES] {
    let cosets = Cosets::new(symbol);
    let cusps = cosets.widths().len();
    let counts = [cosets.index(), cosets.e2(), cosets.e3(), cusps].map(|count| count as u64);
    let genus = figure(cosets.genus());
    let level = figure(cosets.level());
    let mut figures = [0; FIGURES];
    figures[..4].copy_from_slice(&counts);
    figures[4..6].copy_from_slice(&genus);
    figures[6..].copy_from_slice(&level);
    figures
}

/// 0 and the value, or the refusal's number and 0.
fn figure(value: Result<u64, Refusal>) -> [u64; 2] {
    match value {
        Ok(value) => [0, value],
        Err(refusal) => [refusal.number.into(), 0],
    }
}

/// Which figure is refused by itself.
pub(crate) fn unavailable(genus: u64, level: u64) -> &'static str {
    match (genus, level) {
        (0, 0) => "",
        (0, 17) => "level 17",
        _ => "genus 18",
    }
}

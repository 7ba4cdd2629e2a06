//! `tables`: the cosets under S, R and T; refusals 1 to 7, 11 for the work
//! space, 11 for the result spaces, s before r before u.

use farey::calls;
use reference::coset::Cosets;
use reference::random::Rng;

use crate::outcome::{Expected, Outcome};
use crate::spaces::{work, Space};
use crate::symbols::Lent;

pub fn case(rng: &mut Rng) -> Outcome {
    let lent = Lent::any(rng);
    let cosets = lent.symbol().map(|symbol| Cosets::new(&symbol));
    let needed = cosets.as_ref().map_or(20, Cosets::index);
    let mut work = work(rng);
    let [mut s, mut r, mut u] = [(); 3].map(|()| table(rng, needed));
    let short = ["s", "r", "u"]
        .into_iter()
        .zip([&s, &r, &u].map(|space| space.enough(needed)))
        .find_map(|(name, enough)| Some((name, enough.err()?)));
    let expected = Expected::in_order(cosets, &work, |cosets| match short {
        Some((_, refusal)) => Err(refusal),
        None => Ok(cosets),
    });
    let came = calls::tables(
        lent.v,
        lent.table.read(),
        work.write(),
        s.write(),
        r.write(),
        u.write(),
    );
    let mut outcome = Outcome::with_work(&expected, Cosets::index, came, &work);
    outcome.unchanged("table", &lent.table);
    outcome.filled("s", &s, 0, expected.part(|cosets| &cosets.s));
    outcome.filled("r", &r, 0, expected.part(|cosets| &cosets.r));
    outcome.filled("u", &u, 0, expected.part(|cosets| &cosets.t));
    if let ("result", Some((name, _))) = (outcome.about, short) {
        outcome.about = name;
    }
    outcome.on(|| {
        let lengths = [work.length(), s.length(), r.length(), u.length()];
        format!("{}, work, s, r, u {lengths:?}", lent.told())
    })
}

/// A space for one table of several: all must be long enough, so most of them
/// are.
pub fn table(rng: &mut Rng, needed: usize) -> Space<u32> {
    if rng.chance(50) {
        Space::of_length(rng, needed)
    } else {
        Space::around(rng, needed)
    }
}

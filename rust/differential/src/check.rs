//! `check`: whether a table holds a symbol, refusals 1 to 7.

use farey::calls;
use reference::random::Rng;

use crate::outcome::Outcome;
use crate::symbols::Lent;

pub fn case(rng: &mut Rng) -> Outcome {
    let lent = Lent::any(rng);
    let expected = lent.symbol().map(|_| 0);
    let came = calls::check(lent.v, lent.table.read()).map(|()| 0);
    let mut outcome = Outcome::new(expected, came);
    outcome.unchanged("table", &lent.table);
    outcome.on(|| lent.told())
}

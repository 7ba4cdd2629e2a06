//! Calls that list numbers of a symbol in one result space: refusals 1 to 7, 11
//! for the work space, 11 for the result space.

use farey::Refusal;
use reference::random::Rng;
use reference::symbol::Symbol;

use crate::outcome::{Expected, Outcome};
use crate::spaces::{work, Number, Space};
use crate::symbols::Lent;

/// One such call. `list` is what it must write, `each` numbers for each thing
/// that it counts.
pub fn case<T: Number>(
    rng: &mut Rng,
    list: impl Fn(&Symbol) -> Vec<T>,
    each: usize,
    call: impl Fn(usize, &[i64], &mut [u16], &mut [T]) -> Result<usize, Refusal>,
) -> Outcome {
    let lent = Lent::any(rng);
    let listed = lent.symbol().map(|symbol| list(&symbol));
    let mut work = work(rng);
    let mut out = Space::around(rng, listed.as_ref().map_or(20, Vec::len));
    let expected = Expected::in_order(listed, &work, |listed| {
        out.enough(listed.len())?;
        Ok(listed)
    });
    let came = call(lent.v, lent.table.read(), work.write(), out.write());
    let mut outcome = Outcome::with_work(&expected, |listed| listed.len() / each, came, &work);
    outcome.unchanged("table", &lent.table);
    outcome.filled("out", &out, 0, expected.part(Vec::as_slice));
    outcome.on(|| {
        let (table, work, out) = (lent.told(), work.length(), out.length());
        format!("{table}, work {work}, out {out}")
    })
}

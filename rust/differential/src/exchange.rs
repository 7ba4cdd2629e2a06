//! `exchange` and `preview`: two labels exchange partners. Refusals 1 to 7, 23, then 11
//! for the work space, which only `preview` has, and 11 for the result space.
//!
//! What is expected of `preview` is what the reference says of the exchanged table,
//! read as a symbol of its own.

use farey::calls;
use reference::exchange::exchange;
use reference::random::Rng;
use reference::symbol::{Symbol, EVEN, ODD};
use reference::Refusal;

use crate::figures::{figures, symbol, unavailable, FIGURES};
use crate::outcome::{Expected, Outcome};
use crate::spaces::{work, Space};
use crate::symbols::Lent;
use crate::widths::widths;

/// Two numbers: in most cases labels of the symbol, which may be the same.
fn labels(rng: &mut Rng, lent: &Lent) -> (i64, i64) {
    let pairings = lent
        .table
        .read()
        .get(2 * lent.v.min(1 << 20)..)
        .unwrap_or(&[]);
    let labels: Vec<i64> = pairings.iter().copied().filter(|&x| x > 0).collect();
    let mut number = || match rng.below(20) {
        0 => EVEN,
        1 => ODD,
        2 => 0,
        3 => (lent.v as i64).wrapping_add(rng.below(4) as i64),
        4 => rng.pick(&[i64::MIN, -1, 1, 2, i64::MAX]),
        _ if labels.is_empty() => 1 + rng.below(3) as i64,
        _ => labels[rng.below(labels.len())],
    };
    (number(), number())
}

/// The exchanged table, or the first of the refusals 1 to 7 and 23.
fn exchanged(lent: &Lent, x: i64, y: i64) -> Result<Vec<i64>, Refusal> {
    let v = i64::try_from(lent.v).unwrap_or(i64::MAX);
    exchange(v, lent.table.read(), x, y)
}

pub fn case(rng: &mut Rng) -> Outcome {
    let lent = Lent::any(rng);
    let (x, y) = labels(rng, &lent);
    let made = exchanged(&lent, x, y);
    let mut out = Space::around(rng, made.as_ref().map_or(20, Vec::len));
    let expected = made.and_then(|table| {
        out.enough(table.len())?;
        Ok(table)
    });
    let came = calls::exchange(lent.v, lent.table.read(), x, y, out.write());
    let count = expected.as_ref().map(|_| lent.v);
    let mut outcome = Outcome::new(count.map_err(|&refusal| refusal), came);
    outcome.unchanged("table", &lent.table);
    outcome.filled("out", &out, 0, expected.as_deref().unwrap_or(&[]));
    outcome.on(|| format!("{}, labels {x} {y}, out {}", lent.told(), out.length()))
}

pub fn preview_case(rng: &mut Rng) -> Outcome {
    let lent = symbol(rng);
    let (x, y) = labels(rng, &lent);
    let asked = exchanged(&lent, x, y).map(|table| {
        let symbol = Symbol::new(lent.v as i64, &table).expect("a symbol, exchanged");
        (figures(&symbol), widths(&symbol))
    });
    let mut work = work(rng);
    let mut listed = Space::around(rng, asked.as_ref().map_or(20, |(_, widths)| widths.len()));
    let mut out = Space::of_length(rng, FIGURES);
    let expected = Expected::in_order(asked, &work, |(figures, widths)| {
        listed.enough(widths.len())?;
        Ok((figures, widths))
    });
    let space = out.write().try_into().expect("a space of eight numbers");
    let came = calls::preview(
        lent.v,
        lent.table.read(),
        x,
        y,
        work.write(),
        listed.write(),
        space,
    );
    let mut outcome = Outcome::with_work(&expected, |(_, widths)| widths.len(), came, &work);
    outcome.unchanged("table", &lent.table);
    let part = expected.part(|(figures, _)| figures.as_slice());
    outcome.filled("out", &out, 0, part);
    outcome.filled(
        "widths",
        &listed,
        0,
        expected.part(|(_, widths)| widths.as_slice()),
    );
    if let &[.., genus, _, level, _] = part {
        outcome.about = unavailable(genus, level);
    }
    outcome.on(|| {
        let (table, work, listed) = (lent.told(), work.length(), listed.length());
        format!("{table}, labels {x} {y}, work {work}, widths {listed}")
    })
}

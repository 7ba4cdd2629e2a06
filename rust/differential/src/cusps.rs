//! `cusps`: the cusp of each coset, and its steps of T from the cusp's smallest
//! one; refusals 1 to 7, 11 for the work space, 11 for the result spaces, cusps
//! before steps.

use farey::calls;
use reference::coset::Cosets;
use reference::random::Rng;

use crate::outcome::{Expected, Outcome};
use crate::spaces::work;
use crate::symbols::Lent;
use crate::tables::table;

/// What is expected in the two spaces.
struct Columns {
    cusps: Vec<u32>,
    steps: Vec<u32>,
}

impl Columns {
    fn index(&self) -> usize {
        self.cusps.len()
    }
}

pub fn case(rng: &mut Rng) -> Outcome {
    let lent = Lent::any(rng);
    let columns = lent.symbol().map(|symbol| {
        let (cusps, steps) = Cosets::new(&symbol).cusps().into_iter().unzip();
        Columns { cusps, steps }
    });
    let needed = columns.as_ref().map_or(20, Columns::index);
    let mut work = work(rng);
    let [mut cusps, mut steps] = [(); 2].map(|()| table(rng, needed));
    let short = ["cusps", "steps"]
        .into_iter()
        .zip([&cusps, &steps].map(|space| space.enough(needed)))
        .find_map(|(name, enough)| Some((name, enough.err()?)));
    let expected = Expected::in_order(columns, &work, |columns| match short {
        Some((_, refusal)) => Err(refusal),
        None => Ok(columns),
    });
    let came = calls::cusps(
        lent.v,
        lent.table.read(),
        work.write(),
        cusps.write(),
        steps.write(),
    );
    let mut outcome = Outcome::with_work(&expected, Columns::index, came, &work);
    outcome.unchanged("table", &lent.table);
    outcome.filled("cusps", &cusps, 0, expected.part(|columns| &columns.cusps));
    outcome.filled("steps", &steps, 0, expected.part(|columns| &columns.steps));
    if let ("result", Some((name, _))) = (outcome.about, short) {
        outcome.about = name;
    }
    outcome.on(|| {
        let lengths = [work.length(), cusps.length(), steps.length()];
        format!("{}, work, cusps, steps {lengths:?}", lent.told())
    })
}

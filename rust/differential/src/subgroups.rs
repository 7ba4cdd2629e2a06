//! `contains`, `intersection` and `tower`: several subgroups.
//!
//! | call           | refusals                                                            |
//! |----------------|---------------------------------------------------------------------|
//! | `contains`     | 1 to 7 for the first, for the second, 11 for the work space         |
//! | `intersection` | the same, 24, 11 for the result spaces, s before r before k         |
//! | `tower`        | 11 for a 65th entry, 1 to 7 in listing order, 25, 11 for the work   |
//! |                | space unless there is no entry, 26                                  |
//!
//! The reference asks of each generator whether it lies in the other group, and lists
//! pairs of edges that its symbols keep; the engine has tables of cosets.

use farey::calls;
use reference::random::towers::{tower, two_groups, Listed};
use reference::random::Rng;
use reference::sameness::each_in;
use reference::subgroups::{claims, intersection, listed, Tables, MAX_ENTRIES};
use reference::symbol::Symbol;
use reference::Refusal;

use crate::outcome::{Expected, Outcome};
use crate::spaces::{work, Space};
use crate::symbols::Lent;
use crate::tables::table;

/// Two symbols as they are lent.
struct Two {
    one: Lent,
    other: Lent,
}

impl Two {
    fn any(rng: &mut Rng) -> Two {
        let [one, other] = two_groups(rng);
        Two {
            one: Lent::of(rng, &one),
            other: Lent::of(rng, &other),
        }
    }

    /// Both symbols, or the refusal of the first, or else that of the second.
    fn symbols(&self) -> Result<(Symbol, Symbol), Refusal> {
        Ok((self.one.symbol()?, self.other.symbol()?))
    }

    fn unchanged(&self, outcome: &mut Outcome) {
        outcome.unchanged("first table", &self.one.table);
        outcome.unchanged("second table", &self.other.table);
    }

    /// What a refusal of a symbol is about.
    fn about(&self, outcome: &Outcome) -> &'static str {
        match outcome.number() {
            1..=7 if self.one.symbol().is_ok() => "second",
            _ => outcome.about,
        }
    }

    fn told(&self) -> String {
        format!("{}\n{}", self.one.told(), self.other.told())
    }
}

pub fn contains_case(rng: &mut Rng) -> Outcome {
    let two = Two::any(rng);
    let mut work = work(rng);
    let expected = Expected::in_order(two.symbols(), &work, |(one, other)| {
        Ok(usize::from(each_in(&other, &one)))
    });
    let came = calls::contains(
        two.one.v,
        two.one.table.read(),
        two.other.v,
        two.other.table.read(),
        work.write(),
    );
    let mut outcome = Outcome::with_work(&expected, |&yes| yes, came.map(usize::from), &work);
    two.unchanged(&mut outcome);
    outcome.about = match expected.answer {
        Ok(1) => "yes",
        Ok(_) => "no",
        Err(_) => two.about(&outcome),
    };
    outcome.on(|| format!("{}\nwork {}", two.told(), work.length()))
}

pub fn intersection_case(rng: &mut Rng) -> Outcome {
    let two = Two::any(rng);
    let both = two.symbols();
    let made = both.map(|(one, other)| intersection(&one, &other));
    let needed = match &made {
        Ok(Ok([s, ..])) => s.len(),
        _ => 20,
    };
    let mut work = work(rng);
    let [mut s, mut r, mut k] = [(); 3].map(|()| table(rng, needed));
    let short = ["s", "r", "k"]
        .into_iter()
        .zip([&s, &r, &k].map(|space| space.enough(needed)))
        .find_map(|(name, enough)| Some((name, enough.err()?)));
    let expected = Expected::in_order(made, &work, |made| {
        let tables = made?;
        match short {
            Some((_, refusal)) => Err(refusal),
            None => Ok(tables),
        }
    });
    let came = calls::intersection(
        two.one.v,
        two.one.table.read(),
        two.other.v,
        two.other.table.read(),
        work.write(),
        s.write(),
        r.write(),
        k.write(),
    );
    let points = |[s, ..]: &Tables| s.len();
    let mut outcome = Outcome::with_work(&expected, points, came, &work);
    two.unchanged(&mut outcome);
    for (i, (name, space)) in [("s", &s), ("r", &r), ("k", &k)].into_iter().enumerate() {
        outcome.filled(name, space, 0, expected.part(|tables| &tables[i]));
    }
    outcome.about = match (outcome.about, short) {
        ("result", Some((name, _))) => name,
        _ => two.about(&outcome),
    };
    outcome.on(|| {
        let lengths = [work.length(), s.length(), r.length(), k.length()];
        format!("{}\nwork, s, r, k {lengths:?}", two.told())
    })
}

pub fn tower_case(rng: &mut Rng) -> Outcome {
    let Listed { count, table } = tower(rng);
    let table = Space::holding(rng, &table);
    let mut work = work(rng);
    let (outcome, _) = tower_call(count, &table, &mut work);
    outcome
}

/// A tower, compared with the reference's answer, and whether it got past the check of
/// its work space.
pub fn tower_call(count: usize, table: &Space<i64>, work: &mut Space<u16>) -> (Outcome, bool) {
    let all = listed(count, table.read());
    let expected = match count {
        // No work space is looked at.
        0 => Expected {
            answer: Ok(()),
            past_work: false,
        },
        _ => Expected::in_order(all, work, |all| claims(&all)),
    };
    let came = calls::tower(count, table.read(), work.write());
    let mut outcome = Outcome::with_work(&expected, |()| 0, came.map(|()| 0), work);
    outcome.unchanged("table", table);
    outcome.about = match outcome.number() {
        0 if count == 0 => "empty",
        11 if count > MAX_ENTRIES => "entries",
        _ => outcome.about,
    };
    let told = || format!("count {count}, table {:?}", table.read());
    (outcome.on(told), expected.past_work)
}

//! `same`: whether two symbols generate the same subgroup; refusals 1 to 7 for
//! the first, then for the second, 11 for the work space.
//!
//! The reference asks of each generator of the one whether it lies in the group of
//! the other; the engine compares tables of cosets.

use farey::calls;
use reference::random::drafts::draft;
use reference::random::twins::second;
use reference::random::Rng;
use reference::sameness::same_group;

use crate::outcome::{Expected, Outcome};
use crate::spaces::work;
use crate::symbols::Lent;

pub fn case(rng: &mut Rng) -> Outcome {
    let one = draft(rng);
    let two = second(rng, &one);
    let (one, two) = (Lent::of(rng, &one), Lent::of(rng, &two));
    let mut work = work(rng);
    let first = one.symbol();
    let both = first.and_then(|first| Ok((first, two.symbol()?)));
    let expected = Expected::in_order(both, &work, |(first, second)| {
        Ok(usize::from(same_group(&first, &second)))
    });
    let came = calls::same(
        one.v,
        one.table.read(),
        two.v,
        two.table.read(),
        work.write(),
    );
    let mut outcome = Outcome::with_work(&expected, |&yes| yes, came.map(usize::from), &work);
    outcome.unchanged("first table", &one.table);
    outcome.unchanged("second table", &two.table);
    outcome.about = match expected.answer {
        Ok(1) => "yes",
        Ok(_) => "no",
        Err(_) if one.symbol().is_ok() && two.symbol().is_err() => "second",
        Err(_) => outcome.about,
    };
    outcome.on(|| format!("{}\n{}\nwork {}", one.told(), two.told(), work.length()))
}

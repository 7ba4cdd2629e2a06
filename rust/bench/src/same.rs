//! Whether two symbols generate the same subgroup.
//!
//! Both polygons are walked at once from the edge from 0 to infinity, along S and
//! along Q. The groups are the same when they have as many positions and each
//! position of the one always goes with one and the same position of the other.
//! No position gets a number, and the walk ends at the first difference.
//!
//! `same_by_tables` has the engine's means: it numbers the cosets of both and
//! compares the tables of S and R.

use crate::listing::tables;
use crate::polygon::Polygon;
use crate::symbol::Symbol;
use crate::Refusal;

/// The answer for v and t, m and u, or a refusal 1 to 7, of the first before the
/// second.
pub fn same(v: i64, t: &[i64], m: i64, u: &[i64]) -> Result<bool, Refusal> {
    let one = Symbol::new(v, t)?;
    let other = Symbol::new(m, u)?;
    Ok(alike(&Polygon::new(&one), &Polygon::new(&other)))
}

/// The same answer from the tables of the two.
pub fn same_by_tables(v: i64, t: &[i64], m: i64, u: &[i64]) -> Result<bool, Refusal> {
    let one = Symbol::new(v, t)?;
    let other = Symbol::new(m, u)?;
    let one = tables(&Polygon::new(&one));
    let other = tables(&Polygon::new(&other));
    Ok(one.s == other.s && one.r == other.r)
}

fn alike(one: &Polygon, other: &Polygon) -> bool {
    const NEW: u16 = u16::MAX;
    let index = one.steps.len();
    if other.steps.len() != index {
        return false;
    }
    // The position of the other that goes with each of the one.
    let mut with = vec![NEW; index];
    let mut waiting: Vec<u16> = Vec::with_capacity(index);
    let home = one.home();
    with[home as usize] = other.home();
    waiting.push(home);
    while let Some(position) = waiting.pop() {
        let here = &one.steps[position as usize];
        let there = &other.steps[with[position as usize] as usize];
        for (to, its) in [(here.s.to, there.s.to), (here.q.to, there.q.to)] {
            let known = &mut with[to as usize];
            if *known == NEW {
                *known = its;
                waiting.push(to);
            } else if *known != its {
                return false;
            }
        }
    }
    true
}

//! Groups by name: every family and every N, with what the reference reckons
//! from residues modulo N, with the figures that SageMath gave, and with the
//! congruence conditions themselves.
//!
//! | module      | what it tests                                              |
//! |-------------|------------------------------------------------------------|
//! | `all_names` | the tables, symbols and figures of every group             |
//! | `refusals`  | the refusals in their order, and spaces that are too short |
//! | `queries`   | words from their start place, and words by congruences     |

#[path = "named/all_names.rs"]
mod all_names;
#[path = "named/queries.rs"]
mod queries;
#[path = "named/refusals.rs"]
mod refusals;

use std::collections::BTreeMap;

use farey::{calls, Family, Refusal, Symbol};
use reference::congruence::{named, Family as Reckoned};
use reference::matrix::Matrix;
use reference::random::matrices::{any_pair, congruent_pair};
use reference::random::Rng;
use reference::symbol::Symbol as Reference;
use reference::word::taken;

const FIGURES: &str = include_str!("../../reference/data/symbols.txt");
const ALL_FIGURES: &str = include_str!("../../reference/data/congruence.txt");
const ONE: [i64; 4] = [1, 0, 0, 1];
/// What stands in a lent space before a call.
const OLD: u8 = 9;

/// Either query by name of `calls`.
type Query =
    fn(u64, u64, &[i64; 4], &[i64; 4], &mut [u16], &mut [i16], usize) -> Result<usize, Refusal>;
/// Either query by name that gives the sign too.
type SignedQuery = fn(
    u64,
    u64,
    &[i64; 4],
    &[i64; 4],
    &mut [u16],
    &mut [i16],
    usize,
    &mut i64,
) -> Result<usize, Refusal>;
/// Either symbol by name of `calls`.
type Named = fn(u64, u64, &mut [u16], &mut [i64]) -> Result<usize, Refusal>;

/// A number and a place, or a count.
type Came = Result<usize, (u64, usize)>;

fn short(answer: Result<usize, Refusal>) -> Came {
    answer.map_err(|refusal| (refusal.number, refusal.place))
}

fn old<T: From<u8> + Clone>(len: usize) -> Vec<T> {
    vec![T::from(OLD); len]
}

fn is_old<T: From<u8> + PartialEq>(space: &[T]) -> bool {
    space.iter().all(|number| *number == T::from(OLD))
}

fn is_zero(work: &[u16]) -> bool {
    work.iter().all(|&number| number == 0)
}

/// The tables of a group, if it is one within the limits.
fn tables(family: u64, n: u64) -> Result<[Vec<u32>; 2], (u64, usize)> {
    let named = named(family as i64, n as i64);
    let (family, n) = named.map_err(|r| (r.number.into(), r.place as usize))?;
    let pair = family.pair(n);
    assert_eq!(pair.points(), family.index(n), "{family:?} {n}");
    let points = |table: &[i64]| table.iter().map(|&point| point as u32).collect();
    Ok([points(&pair.s), points(&pair.r)])
}

//! Random calls of the proved engine, compared with the reference.
//!
//! A case makes each call once, through `farey::calls` and on spaces full of
//! random numbers; beside a query with a sign it makes the same one without, and
//! the one from -A. The answer, and every number of every space afterwards, is
//! compared with what the reference and the order of refusals give: nothing
//! that is expected comes from the engine.
//!
//! | module       | what it holds                                               |
//! |--------------|-------------------------------------------------------------|
//! | `spaces`     | lent spaces: their lengths, random numbers, the comparison  |
//! | `outcome`    | what is expected of a call and what came                    |
//! | `symbols`    | v and a table, sound or damaged                             |
//! | `counts`     | how often each call was answered and refused                |
//! | `listed`     | what `generators` and `widths` have in common               |
//! | the others   | one call each, or a few of a kind: a case makes an input,   |
//! |              | calls and compares                                          |

#![forbid(unsafe_code)]

pub mod check;
pub mod counts;
pub mod cusps;
pub mod cycles;
pub mod drawing;
pub mod exchange;
pub mod figures;
pub mod generators;
pub mod import;
pub mod listed;
pub mod named;
pub mod outcome;
pub mod query;
pub mod same;
pub mod same_coset;
pub mod sheet;
pub mod spaces;
pub mod subgroups;
pub mod symbols;
pub mod tables;
pub mod widths;

use std::ops::Range;
use std::panic::resume_unwind;
use std::thread;

use counts::Tally;
use outcome::Outcome;
use reference::random::Rng;

/// A call's name and its cases.
pub type Call = (&'static str, fn(&mut Rng) -> Outcome);

/// All calls.
pub const CALLS: [Call; 30] = [
    ("check", check::case),
    ("generators", generators::case),
    ("figures", figures::case),
    ("widths", widths::case),
    ("tables", tables::case),
    ("cusps", cusps::case),
    ("import", import::case),
    ("import_wide", import::wide_case),
    ("import_length", import::length_case),
    ("query", query::case),
    ("same", same::case),
    ("drawing", drawing::case),
    ("named_tables", named::tables_case),
    ("named_symbol", named::symbol_case),
    ("named_symbol_wide", named::symbol_wide_case),
    ("named_query", named::query_case),
    ("named_query_wide", named::query_wide_case),
    ("signed_query", query::signed_case),
    ("named_signed_query", named::signed_query_case),
    ("named_signed_query_wide", named::signed_query_wide_case),
    ("sheet", sheet::case),
    ("exchange", exchange::case),
    ("preview", exchange::preview_case),
    ("same_coset", same_coset::case),
    ("same_cosets", same_coset::many_case),
    ("contains", subgroups::contains_case),
    ("intersection", subgroups::intersection_case),
    ("tower", subgroups::tower_case),
    ("read_cycles", cycles::read_case),
    ("write_cycles", cycles::write_case),
];

/// The counts of each call, in the order of `CALLS`.
pub type Tallies = [Tally; CALLS.len()];

/// Makes every call once for each case: the counts, or the first difference in
/// words. The same seed and case always make the same call. Each core has a part
/// of the cases, one in every so many.
pub fn run(seed: u64, cases: Range<u64>) -> Result<Tallies, String> {
    let cores = thread::available_parallelism().map_or(1, usize::from);
    let parts = thread::scope(|scope| {
        let part = |core| {
            let cases = cases.clone().skip(core).step_by(cores);
            scope.spawn(move || run_part(seed, cases))
        };
        let begun: Vec<_> = (0..cores).map(part).collect();
        let ended = begun.into_iter().map(|part| part.join());
        ended
            .map(|part| part.unwrap_or_else(|panic| resume_unwind(panic)))
            .collect::<Vec<_>>()
    });
    let mut all = Tallies::default();
    let mut first: Option<(u64, String)> = None;
    for part in parts {
        match part {
            Ok(tallies) => {
                for (sum, tally) in all.iter_mut().zip(tallies) {
                    sum.join(tally);
                }
            }
            Err(found) if first.as_ref().is_none_or(|first| found.0 < first.0) => {
                first = Some(found);
            }
            Err(_) => {}
        }
    }
    match first {
        None => Ok(all),
        Some((_, difference)) => Err(difference),
    }
}

/// These cases one after the other: the counts, or the first case with a
/// difference, and that in words.
fn run_part(seed: u64, cases: impl Iterator<Item = u64>) -> Result<Tallies, (u64, String)> {
    let mut tallies = Tallies::default();
    for case in cases {
        for (i, (name, make)) in CALLS.iter().enumerate() {
            let stream = case.wrapping_mul(CALLS.len() as u64).wrapping_add(i as u64);
            let outcome = make(&mut Rng::for_case(seed, stream));
            if !outcome.differences.is_empty() {
                let difference = format!("seed {seed}, case {case}, {name}\n{outcome}");
                return Err((case, difference));
            }
            tallies[i].add(&outcome);
        }
    }
    Ok(tallies)
}

/// The counts, a line for each call.
pub fn table(tallies: &Tallies) -> String {
    let lines = CALLS.iter().zip(tallies);
    lines
        .map(|((name, _), tally)| format!("{name}: {tally}\n"))
        .collect()
}

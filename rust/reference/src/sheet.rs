//! A sheet of pairs: single queries in one word space, each from where the last
//! word ended.

use crate::symbol::Symbol;
use crate::word::{pair_query, Found};
use crate::Refusal;

/// The entries of a pair: those of A, then those of B.
pub const ENTRIES: usize = 8;
/// The numbers of a line.
pub const LINE: usize = 4;
/// The pairs of a sheet, at most.
pub const MOST: usize = 256;

/// Refusal 11 for a number of entries that is no sheet.
pub fn check_entries(entries: usize) -> Result<(), Refusal> {
    let most = ENTRIES * MOST;
    if entries % ENTRIES != 0 || entries > most {
        return Err(Refusal::new(11, most));
    }
    Ok(())
}

/// The pairs, one after another.
pub fn pairs(entries: &[i64]) -> impl Iterator<Item = ([i64; 4], [i64; 4])> + '_ {
    entries
        .chunks_exact(ENTRIES)
        .map(|p| ([p[0], p[1], p[2], p[3]], [p[4], p[5], p[6], p[7]]))
}

/// The answers for pairs in a space of so many letters, each beside the place from
/// which its word was asked for.
pub fn answers(
    symbol: &Symbol,
    entries: &[i64],
    space: usize,
) -> Vec<(usize, Result<Found, Refusal>)> {
    let mut next = 0;
    let answer = |(a, b)| {
        let (start, answer) = (next, pair_query(symbol, a, b, space, next));
        next += answer.as_ref().map_or(0, |found| found.letters.len());
        (start, answer)
    };
    pairs(entries).map(answer).collect()
}

/// The line of an answer whose word was asked for from `start` on.
pub fn line(start: usize, answer: &Result<Found, Refusal>) -> [i64; LINE] {
    match answer {
        Ok(found) => [0, start as i64, found.letters.len() as i64, found.sign],
        Err(refusal) => [refusal.number.into(), refusal.place as i64, 0, 0],
    }
}

//! `same_coset` and `same_cosets`: yes exactly where the pair query finds a word in a
//! space without end, no where it gives 10; refusals 1 to 7, 8, 9 and 11 for the work
//! space, and for many pairs 11 for the number of entries before and 11 for the line
//! table behind them.
//!
//! What is expected comes from the reference's queries, which walk letter by letter;
//! beside that the engine's own query must find a word, or none.

use std::cell::OnceCell;

use farey::calls;
use reference::random::Rng;
use reference::sheet::{pairs, ENTRIES};
use reference::symbol::Symbol;
use reference::word::{check_matrices, pair_query};
use reference::Refusal;

use crate::outcome::{Expected, Outcome};
use crate::query::{matrices, symbol};
use crate::spaces::{around, work, Space};

/// The numbers of a line.
const LINE: usize = 2;

/// Yes or no by the reference's query, or the refusal of the pair.
fn answer(symbol: &Symbol, a: [i64; 4], b: [i64; 4]) -> Result<bool, Refusal> {
    match pair_query(symbol, a, b, usize::MAX, 0) {
        Ok(_) => Ok(true),
        Err(refusal) if refusal.number == 10 => Ok(false),
        Err(refusal) => Err(refusal),
    }
}

pub fn case(rng: &mut Rng) -> Outcome {
    let lent = symbol(rng);
    let symbol = lent.symbol();
    let [a, b] = matrices(rng, symbol.as_ref().ok(), &OnceCell::new());
    let (a_lent, b_lent) = (Space::holding(rng, &a), Space::holding(rng, &b));
    let mut work = work(rng);
    let judged = symbol.and_then(|symbol| check_matrices(a, b).map(|_| symbol));
    let expected = Expected::in_order(judged, &work, |symbol| answer(&symbol, a, b));
    let (v, t) = (lent.v, lent.table.read());
    let came = calls::same_coset(v, t, &a, &b, work.write());
    let mut outcome = Outcome::with_work(
        &expected,
        |&yes| usize::from(yes),
        came.map(usize::from),
        &work,
    );
    outcome.unchanged("table", &lent.table);
    outcome.unchanged("a", &a_lent);
    outcome.unchanged("b", &b_lent);
    if let Ok(yes) = came {
        let mut out = vec![0; 1 << 22];
        let mut work = vec![0; calls::WORK];
        let found = calls::query(v, t, &a, &b, &mut work, &mut out, 0);
        let none = found.is_err_and(|refusal| refusal.number == 10);
        if none == yes {
            outcome.differences.push("the query".to_string());
        }
        outcome.about = if yes { "yes" } else { "no" };
    }
    outcome.on(|| format!("{}\npair {a:?} {b:?}", lent.told()))
}

/// How many pairs: few most of the time, and now and then more than a sheet has.
fn how_many(rng: &mut Rng) -> usize {
    match rng.below(100) {
        0..=3 => 0,
        4 => 257 + rng.below(100),
        _ => 1 + rng.below(12),
    }
}

/// The entries of so many pairs; now and then with a part of a pair.
fn entries(rng: &mut Rng, symbol: Option<&Symbol>) -> Vec<i64> {
    let cosets = OnceCell::new();
    let mut entries = Vec::new();
    for _ in 0..how_many(rng) {
        entries.extend(matrices(rng, symbol, &cosets).concat());
    }
    if rng.chance(5) {
        let more = 1 + rng.below(ENTRIES - 1);
        entries.resize(entries.len() + more, 1);
    }
    entries
}

/// The lines that are expected.
fn lines(symbol: &Symbol, entries: &[i64]) -> Vec<i64> {
    let line = |(a, b)| match answer(symbol, a, b) {
        Ok(yes) => [0, i64::from(yes)],
        Err(refusal) => [refusal.number.into(), refusal.place as i64],
    };
    pairs(entries).flat_map(line).collect()
}

pub fn many_case(rng: &mut Rng) -> Outcome {
    let lent = symbol(rng);
    let symbol = lent.symbol();
    let p = entries(rng, symbol.as_ref().ok());
    let p = Space::holding(rng, &p);
    let count = p.length() / ENTRIES;
    let sound = match p.length() % ENTRIES {
        0 => Ok(()),
        _ => Err(Refusal::new(11, ENTRIES * (count + 1))),
    };
    let judged = sound.and(symbol);
    let mut work = work(rng);
    let part = usize::from(rng.chance(30));
    let whole = LINE * around(rng, count);
    let mut table = Space::<i64>::of_length(rng, whole + part);
    let length = table.length();
    let expected = Expected::in_order(judged, &work, |symbol| {
        if length / LINE < count {
            return Err(Refusal::new(11, count));
        }
        Ok(lines(&symbol, p.read()))
    });
    let (v, t) = (lent.v, lent.table.read());
    let came = calls::same_cosets(v, t, p.read(), work.write(), table.write());
    let mut outcome = Outcome::with_work(&expected, |lines| lines.len() / LINE, came, &work);
    outcome.unchanged("table", &lent.table);
    outcome.unchanged("pairs", &p);
    outcome.filled("lines", &table, 0, expected.part(|lines| lines));
    outcome.about = match &expected.answer {
        Err(_) if sound.is_err() => "entries",
        _ if outcome.about == "result" => "lines",
        _ => outcome.about,
    };
    outcome.on(|| {
        let lengths = [work.length(), length];
        format!(
            "{}\npairs {:?}\nwork, lines {lengths:?}",
            lent.told(),
            p.read()
        )
    })
}

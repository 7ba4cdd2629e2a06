//! `query` and `signed_query`: a word from A to B, and its sign; refusals 1 to 7,
//! 8, 9, 11 for the work space, 10, 11 for the word's space from its start place
//! on.

use std::cell::OnceCell;

use farey::calls;
use reference::coset::Cosets;
use reference::matrix::Matrix;
use reference::random::drafts::{draft_of_size, size};
use reference::random::matrices::{any_pair, found_pair, put_matrix_fault};
use reference::random::Rng;
use reference::symbol::Symbol;
use reference::word::{check_matrices, pair_query, taken, Found};
use reference::Refusal;

use crate::outcome::{Answer, Expected, Outcome};
use crate::spaces::{around, work, Space};
use crate::symbols::Lent;

pub fn case(rng: &mut Rng) -> Outcome {
    by(false, rng)
}

pub fn signed_case(rng: &mut Rng) -> Outcome {
    by(true, rng)
}

fn by(signed: bool, rng: &mut Rng) -> Outcome {
    let lent = symbol(rng);
    let symbol = lent.symbol();
    let pair = matrices(rng, symbol.as_ref().ok(), &OnceCell::new());
    let (v, table) = (lent.v, lent.table.read());
    let calls = Calls {
        plain: &|a, b, work, out, start| calls::query(v, table, a, b, work, out, start),
        signed: &|a, b, work, out, start, sign| {
            calls::signed_query(v, table, a, b, work, out, start, sign)
        },
    };
    let judged = judged(&symbol, pair);
    let mut outcome = asked(rng, judged, symbol.as_ref().ok(), pair, calls, signed);
    outcome.unchanged("table", &lent.table);
    let told = outcome.input.clone();
    outcome.on(|| format!("{}, {told}", lent.told()))
}

/// A call on A and B, a work space, a space for the word and a start place.
type Plain<'a> = &'a dyn Fn(&[i64; 4], &[i64; 4], &mut [u16], &mut [i16], usize) -> Answer;

/// The same with a place for the sign.
type Signed<'a> =
    &'a dyn Fn(&[i64; 4], &[i64; 4], &mut [u16], &mut [i16], usize, &mut i64) -> Answer;

/// The two calls that give the same word.
pub struct Calls<'a> {
    pub plain: Plain<'a>,
    pub signed: Signed<'a>,
}

/// What is lent to a query for writing.
#[derive(Clone)]
struct Spaces {
    work: Space<u16>,
    out: Space<i16>,
    sign: Space<i64>,
}

/// Makes the one call or the other, on spaces around what is needed, and compares
/// with what is expected: a refusal that goes before the work space, or what
/// comes behind it. Beside the call with the sign, the call without it must leave
/// the same and answer the same, and so must the call on -A, but for the sign.
pub fn asked(
    rng: &mut Rng,
    judged: Result<Result<Found, Refusal>, Refusal>,
    symbol: Option<&Symbol>,
    [a, b]: [[i64; 4]; 2],
    calls: Calls,
    signed: bool,
) -> Outcome {
    let needed = match &judged {
        Ok(Ok(found)) => found.letters.len(),
        _ => 20,
    };
    let (len, start) = word_space(rng, needed);
    let (a_lent, b_lent) = (Space::holding(rng, &a), Space::holding(rng, &b));
    let before = Spaces {
        work: work(rng),
        out: Space::of_length(rng, len),
        sign: Space::of_length(rng, 1),
    };
    let expected = Expected::in_order(judged, &before.work, |found| {
        let found = found?;
        fits(found.letters.len(), len, start)?;
        Ok(found)
    });
    let plain = |a: &[i64; 4], left: &mut Spaces| {
        let (work, out) = (left.work.write(), left.out.write());
        (calls.plain)(a, four(&b_lent), work, out, start)
    };
    let with_sign = |a: &[i64; 4], left: &mut Spaces| {
        let (work, out) = (left.work.write(), left.out.write());
        (calls.signed)(
            a,
            four(&b_lent),
            work,
            out,
            start,
            &mut left.sign.write()[0],
        )
    };
    let mut left = before.clone();
    let came = match signed {
        true => with_sign(four(&a_lent), &mut left),
        false => plain(four(&a_lent), &mut left),
    };
    let count = |found: &Found| found.letters.len();
    let mut outcome = Outcome::with_work(&expected, count, came, &left.work);
    outcome.unchanged("a", &a_lent);
    outcome.unchanged("b", &b_lent);
    outcome.filled(
        "out",
        &left.out,
        start,
        expected.part(|found| &found.letters),
    );
    if outcome.number() == 0 || outcome.about == "result" {
        outcome.about = start_place(len, start);
    }
    if signed {
        let sign = |found: &Found| vec![found.sign];
        let sign = expected.answer.as_ref().map_or(Vec::new(), sign);
        outcome.filled("sign", &left.sign, 0, &sign);
        // Without the sign: all else is the same.
        let mut other = before.clone();
        let answer = plain(four(&a_lent), &mut other);
        if answer != came || !other.work.same(&left.work) || !other.out.same(&left.out) {
            outcome.differences.push("the call without sign".into());
        }
        // From -A: the other sign, and all else is the same.
        let mut other = before.clone();
        let answer = with_sign(&a.map(i64::wrapping_neg), &mut other);
        let negative: Vec<i64> = sign.iter().map(|sign| -sign).collect();
        outcome.filled("sign from -A", &other.sign, 0, &negative);
        if answer != came || !other.work.same(&left.work) || !other.out.same(&left.out) {
            outcome.differences.push("the call from -A".into());
        }
        outcome.sign = sign.first().copied();
    }
    if let (Some(symbol), Ok(count)) = (symbol, came) {
        let sign = leads(symbol, left.out.read(), start, count, a, b);
        let said = left.sign.read()[0];
        if sign.is_none() || (signed && sign != Some(said)) {
            outcome.differences.push("the word's value".to_string());
        }
    }
    outcome.on(|| {
        let work = before.work.length();
        format!("A {a:?}, B {b:?}, work {work}, out {len}, start {start}")
    })
}

/// A refusal that goes before the work space, or else what comes after it: the
/// word with its sign, or that there is none.
fn judged(
    symbol: &Result<Symbol, Refusal>,
    [a, b]: [[i64; 4]; 2],
) -> Result<Result<Found, Refusal>, Refusal> {
    let symbol = symbol.as_ref().map_err(|&refusal| refusal)?;
    check_matrices(a, b)?;
    // In a space without end every word fits.
    Ok(pair_query(symbol, a, b, usize::MAX, 0))
}

/// Small symbols most of the time: with a large index a pair that wasn't made
/// for it hardly ever has a word.
pub fn symbol(rng: &mut Rng) -> Lent {
    let v = match rng.below(10) {
        0..=5 => 1 + rng.below(6),
        6..=8 => size(rng).min(40),
        _ => size(rng),
    };
    let draft = draft_of_size(rng, v);
    Lent::of(rng, &draft)
}

/// A and B, now and then with one fault or two. The symbol's cosets are made where
/// they are needed and aren't there yet.
pub fn matrices(
    rng: &mut Rng,
    symbol: Option<&Symbol>,
    cosets: &OnceCell<Cosets>,
) -> [[i64; 4]; 2] {
    let (a, b) = match (rng.below(100), symbol) {
        (0..=64, Some(symbol)) => {
            found_pair(rng, symbol, cosets.get_or_init(|| Cosets::new(symbol)))
        }
        (65..=69, _) => {
            // The empty word.
            let (a, _) = any_pair(rng, false);
            let sign = rng.pick(&[1, -1]);
            (a, a.map(|entry| sign * entry))
        }
        (70, _) => any_pair(rng, true),
        _ => any_pair(rng, false),
    };
    let mut pair = [a[0], a[1], a[2], a[3], b[0], b[1], b[2], b[3]];
    if rng.chance(12) {
        for _ in 0..rng.pick(&[1, 1, 2]) {
            let fault = rng.pick(&[8, 9]);
            put_matrix_fault(rng, &mut pair, fault);
        }
    }
    let [a, b, c, d, e, f, g, h] = pair;
    [[a, b, c, d], [e, f, g, h]]
}

/// Length and start place of a space for a word of so many letters.
fn word_space(rng: &mut Rng, needed: usize) -> (usize, usize) {
    let len = around(rng, needed);
    let inside = rng.below(40);
    match rng.below(20) {
        0 => (len, len),
        1 => (len, len + 1),
        2 => (len, len + 2 + inside),
        3 => (len, usize::MAX - rng.below(needed + 2)),
        4 => (len, usize::MAX),
        5..=12 => (len + inside, inside),
        _ => (len, 0),
    }
}

/// Where a word stands, or begins past the end.
fn start_place(len: usize, start: usize) -> &'static str {
    match start {
        0 => "at 0",
        _ if start < len => "inside",
        _ if start == len => "at the end",
        _ => "past the end",
    }
}

/// Refusal 11 for a word of so many letters, unless it fits.
fn fits(letters: usize, len: usize, start: usize) -> Result<(), Refusal> {
    match len.checked_sub(start) {
        Some(room) if room >= letters => Ok(()),
        _ => Err(Refusal::new(11, letters)),
    }
}

fn four(space: &Space<i64>) -> &[i64; 4] {
    space.read().try_into().expect("a space of four numbers")
}

/// The sign with which the product of the letters that came takes A to B, unless
/// one of them is no letter of the symbol or the product takes A to neither.
fn leads(
    symbol: &Symbol,
    out: &[i16],
    start: usize,
    count: usize,
    a: [i64; 4],
    b: [i64; 4],
) -> Option<i64> {
    let word = out.get(start..).and_then(|rest| rest.get(..count))?;
    let known = 1..=symbol.generators.len() as u16;
    if !word.iter().all(|l| known.contains(&l.unsigned_abs())) {
        return None;
    }
    let (a, b) = (Matrix::from_entries(a), Matrix::from_entries(b));
    taken(symbol, word, a, b)
}

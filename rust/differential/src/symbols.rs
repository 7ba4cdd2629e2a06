//! Symbols as they are lent: v and a table, sound or damaged.

use reference::random::drafts::{draft, draft_of_size, Draft};
use reference::random::faults::{poke, put_fault, SYMBOL_FAULTS};
use reference::random::Rng;
use reference::symbol::{Symbol, EVEN, MAX_VERTICES, ODD};
use reference::Refusal;

use crate::spaces::Space;

/// v and the table that is lent with it.
pub struct Lent {
    pub v: usize,
    pub table: Space<i64>,
}

impl Lent {
    /// A symbol of some size, sound in three of four cases.
    pub fn any(rng: &mut Rng) -> Lent {
        let draft = match rng.below(100) {
            // One vertex more than there may be.
            0 => draft_of_size(rng, MAX_VERTICES + 1),
            1 => largest(rng),
            _ => draft(rng),
        };
        Lent::of(rng, &draft)
    }

    /// This symbol, sound in three of four cases.
    pub fn of(rng: &mut Rng, draft: &Draft) -> Lent {
        let numbers = draft.numbers();
        let (mut v, mut table) = (draft.v(), numbers[1..].to_vec());
        if rng.chance(25) {
            (v, table) = damaged(rng, numbers);
        }
        Lent {
            v,
            table: Space::holding(rng, &table),
        }
    }

    /// The symbol that is lent, or the first of the refusals 1 to 7.
    pub fn symbol(&self) -> Result<Symbol, Refusal> {
        let v = i64::try_from(self.v).unwrap_or(i64::MAX);
        Symbol::new(v, self.table.read())
    }

    /// What is lent, in words.
    pub fn told(&self) -> String {
        format!("v {}, table {:?}", self.v, self.table.read())
    }
}

/// A symbol with the most vertices, generators and cosets that there can be.
fn largest(rng: &mut Rng) -> Draft {
    let draft = draft_of_size(rng, MAX_VERTICES);
    Draft {
        pairings: vec![ODD; MAX_VERTICES + 1],
        ..draft
    }
}

/// Numbers (v first) with one fault or several.
fn damaged(rng: &mut Rng, mut numbers: Vec<i64>) -> (usize, Vec<i64>) {
    let draw = rng.below(10);
    if draw < 2 {
        poke(rng, &mut numbers);
    } else if draw < 7 {
        let fault = rng.pick(&SYMBOL_FAULTS);
        put_fault(rng, &mut numbers, fault);
        if rng.chance(40) {
            let second = rng.pick(&SYMBOL_FAULTS[1..5]);
            put_fault(rng, &mut numbers, second);
        }
    }
    // A negative v becomes one far out of range.
    let v = numbers.remove(0) as usize;
    if draw > 7 || rng.chance(10) {
        resize(rng, &mut numbers);
    }
    if draw == 7 || rng.chance(5) {
        return (v_out_of_range(rng, v, numbers.len()), numbers);
    }
    (v, numbers)
}

/// A v that no symbol has, or one that this table doesn't fit.
fn v_out_of_range(rng: &mut Rng, v: usize, len: usize) -> usize {
    // 3v + 1 is the table's length, modulo 2^64: three times the factor is 1.
    let wrapped = len.wrapping_sub(1).wrapping_mul(0xaaaa_aaaa_aaaa_aaab);
    rng.pick(&[
        0,
        MAX_VERTICES,
        MAX_VERTICES + 1,
        v.wrapping_add(1 << 10),
        v.wrapping_add(1 << 16),
        v.wrapping_add(1 << 32),
        v.wrapping_add(1 << 63),
        usize::MAX,
        usize::MAX / 3,
        wrapped,
    ])
}

/// Another length for the table.
fn resize(rng: &mut Rng, table: &mut Vec<i64>) {
    let len = table.len();
    let wrong = rng.pick(&[
        0,
        1,
        len.saturating_sub(3),
        len.saturating_sub(1),
        len + 1,
        len + 2,
        len + 3,
        3 * MAX_VERTICES + 1,
        3 * MAX_VERTICES + 4,
        len + (1 << 16),
    ]);
    let filler = rng.pick(&[EVEN, ODD, 0, 1, i64::MAX, i64::MIN]);
    table.resize(wrong, filler);
}

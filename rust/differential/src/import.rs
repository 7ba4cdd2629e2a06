//! `import` and `import_wide`: from permutations S and R to a symbol; refusals
//! 12 to 15, 11 for the work space, 11 for the result space, 16. `import_length`:
//! the length of the symbol's table; refusals 12 to 15.

use farey::calls;
use reference::permutations::{Action, Rule};
use reference::random::pairs::{pair, put_pair_fault, rows_pair, shallow_pair, PAIR_FAULTS};
use reference::random::Rng;
use reference::symbol::MAX_VERTICES;
use reference::text::MAX_POINTS;

use crate::outcome::{Expected, Outcome};
use crate::spaces::{work, Space};

pub fn case(rng: &mut Rng) -> Outcome {
    by(Rule::Leftmost, rng)
}

pub fn wide_case(rng: &mut Rng) -> Outcome {
    by(Rule::Wide, rng)
}

fn by(rule: Rule, rng: &mut Rng) -> Outcome {
    let [s, r] = tables(rng);
    let action = Action::new(&signed(&s), &signed(&r));
    // Where 16 would follow, a space that is too short still gets 11, with this length.
    let needed = action.as_ref().map_or(20, Action::table_length);
    let (s, r) = (Space::holding(rng, &s), Space::holding(rng, &r));
    let mut work = work(rng);
    let mut out = Space::around(rng, needed);
    let expected = Expected::in_order(action, &work, |action| {
        out.enough(needed)?;
        Ok(action.by_points(rule)?.numbers().split_off(1))
    });
    let call = match rule {
        Rule::Leftmost => calls::import,
        Rule::Wide => calls::import_wide,
    };
    let came = call(s.read(), r.read(), work.write(), out.write());
    let vertices = |table: &Vec<i64>| (table.len() - 1) / 3;
    let mut outcome = Outcome::with_work(&expected, vertices, came, &work);
    outcome.unchanged("s", &s);
    outcome.unchanged("r", &r);
    outcome.filled("out", &out, 0, expected.part(Vec::as_slice));
    outcome.on(|| {
        let (work, out) = (work.length(), out.length());
        format!("s {:?}, r {:?}, work {work}, out {out}", s.read(), r.read())
    })
}

pub fn length_case(rng: &mut Rng) -> Outcome {
    let [s, r] = tables(rng);
    let expected = Action::new(&signed(&s), &signed(&r)).map(|action| action.table_length());
    let (s, r) = (Space::holding(rng, &s), Space::holding(rng, &r));
    let came = calls::import_length(s.read(), r.read());
    let mut outcome = Outcome::new(expected, came);
    outcome.unchanged("s", &s);
    outcome.unchanged("r", &r);
    outcome.on(|| format!("s {:?}, r {:?}", s.read(), r.read()))
}

fn signed(table: &[u32]) -> Vec<i64> {
    table.iter().map(|&point| point.into()).collect()
}

/// The tables of S and R, sound in three of four cases or so.
pub fn tables(rng: &mut Rng) -> [Vec<u32>; 2] {
    let sound = match rng.below(100) {
        0..=1 => shallow_pair(rng, MAX_VERTICES),
        2..=4 => rows_pair(rng),
        _ => pair(rng),
    };
    if rng.chance(30) {
        damaged(rng, sound.numbers())
    } else {
        narrow(&sound.numbers())
    }
}

/// Numbers (n first) as two tables. Bits past the 32nd are dropped, so that a
/// fault may become another one or none.
fn narrow(numbers: &[i64]) -> [Vec<u32>; 2] {
    let (s, r) = numbers[1..].split_at(numbers[0] as usize);
    [s, r].map(|table| table.iter().map(|&point| point as u32).collect())
}

/// Tables with one fault or several, or with none after all.
fn damaged(rng: &mut Rng, mut numbers: Vec<i64>) -> [Vec<u32>; 2] {
    if rng.chance(50) {
        let fault = rng.pick(&PAIR_FAULTS[1..]);
        put_pair_fault(rng, &mut numbers, fault);
    }
    let mut tables = narrow(&numbers);
    if rng.chance(25) {
        exchange(rng, &mut tables);
    }
    if rng.chance(25) {
        poke(rng, &mut tables);
    }
    if rng.chance(20) {
        resize(rng, &mut tables);
    }
    tables
}

/// Exchanges two images in each table: still permutations, but mostly neither S
/// twice nor R three times keeps all points.
fn exchange(rng: &mut Rng, tables: &mut [Vec<u32>; 2]) {
    for table in tables {
        let n = table.len();
        table.swap(rng.below(n), rng.below(n));
    }
}

/// Overwrites a few entries without asking what comes of it.
fn poke(rng: &mut Rng, tables: &mut [Vec<u32>; 2]) {
    for _ in 0..1 + rng.below(3) {
        let table = &mut tables[rng.below(2)];
        let n = table.len();
        let (i, other) = (rng.below(n), table[rng.below(n)]);
        table[i] = rng.pick(&[
            0,
            other,
            n as u32 - 1,
            n as u32,
            n as u32 + 1,
            table[i] | 1 << 16,
            table[i] | 1 << 31,
            u32::MAX - 1,
            u32::MAX,
        ]);
    }
}

/// Other lengths, for one table or for both.
fn resize(rng: &mut Rng, tables: &mut [Vec<u32>; 2]) {
    let n = tables[0].len();
    let most = MAX_POINTS as usize;
    let len = rng.pick(&[0, 0, n - 1, n + 1, most, most + 1, most + 2, n + (1 << 16)]);
    let both = rng.chance(60);
    let first = rng.below(2);
    for table in [first, 1 - first].into_iter().take(1 + usize::from(both)) {
        // New points are fixed.
        let points = n.min(len) as u32..len as u32;
        tables[table].truncate(len);
        tables[table].extend(points);
    }
}

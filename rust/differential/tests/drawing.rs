//! `farey_drawing` bit for bit: random symbols, long and short, entries just as
//! large as a drawing takes and one more, the named groups, and what the floats
//! mean, by fractions of integers.

use std::collections::BTreeMap;

use differential::drawing::{at_the_limit, case};
use farey::{calls, Family, Refusal, Shape, Symbol};
use reference::drawing::{drawing, EACH, MAX_DRAWN};
use reference::random::drafts::{draft_of_size, Draft};
use reference::random::Rng;
use reference::symbol;

const CASES: u64 = 20_000;

/// What the engine gives for a sound symbol with just enough space, or its refusal.
fn drawn(draft: &Draft) -> Result<(Vec<f64>, [f64; 4]), Refusal> {
    let (mut out, mut bounds) = (vec![f64::NAN; EACH * (draft.v() + 1)], [f64::NAN; 4]);
    let count = calls::drawing(draft.v(), &draft.numbers()[1..], &mut out, &mut bounds)?;
    assert_eq!(count, draft.v() + 1);
    Ok((out, bounds))
}

fn bits(numbers: &[f64]) -> Vec<u64> {
    numbers.iter().map(|number| number.to_bits()).collect()
}

/// The engine's floats are those of the reference.
fn agrees(draft: &Draft) {
    let numbers = draft.numbers();
    let sound = symbol::Symbol::from_numbers(&numbers).expect("a sound symbol");
    let expected = drawing(&sound, &numbers[1..]);
    match (drawn(draft), expected) {
        (Ok((out, bounds)), Ok(expected)) => {
            let rows: Vec<f64> = expected.rows.iter().flatten().copied().collect();
            assert_eq!(bits(&out), bits(&rows), "{numbers:?}");
            assert_eq!(bits(&bounds), bits(&expected.bounds), "{numbers:?}");
        }
        (Err(came), Err(expected)) => {
            assert_eq!((came.number, came.place), (22, expected.place as usize));
        }
        (came, expected) => panic!("{came:?}, {expected:?}: {numbers:?}"),
    }
}

#[test]
fn random_calls() {
    let mut met = [0; 23];
    for stream in 0..CASES {
        let outcome = case(&mut Rng::for_case(20_261_116, stream));
        assert!(outcome.differences.is_empty(), "case {stream}\n{outcome}");
        met[outcome.number() as usize] += 1;
    }
    for number in (0..=7).chain([11, 22]) {
        assert!(met[number] >= 40, "{number}: {met:?}");
    }
}

#[test]
fn every_size() {
    let mut rng = Rng::new(91);
    for v in (1..=200).chain([255, 256, 500, 511, 512, 1_000, 1_022, 1_023]) {
        agrees(&draft_of_size(&mut rng, v));
    }
}

/// Entries of 33,554,432, numerators of both signs and denominators, are drawn; one
/// more is refused at its index.
#[test]
fn entries_at_the_limit() {
    let mut rng = Rng::new(92);
    let mut met = BTreeMap::<(bool, usize, bool), usize>::new();
    for round in 0..600 {
        let over = round % 2 == 1;
        let draft = at_the_limit(&mut rng, over);
        agrees(&draft);
        let entries = draft.numbers();
        let sizes: Vec<i64> = entries[1..=2 * draft.v()].iter().map(|x| x.abs()).collect();
        let largest = MAX_DRAWN + i64::from(over);
        assert_eq!(sizes.iter().max(), Some(&largest));
        let place = sizes.iter().position(|&size| size == largest).unwrap();
        let refused = drawn(&draft).err();
        let expected = over.then_some(Refusal { number: 22, place });
        assert_eq!(refused, expected);
        let reason = (over, place % 2, entries.iter().any(|&x| x < -3));
        *met.entry(reason).or_default() += 1;
    }
    assert_eq!(met.len(), 8, "{met:?}");
    assert!(met.values().all(|&count| count >= 20), "{met:?}");
}

#[test]
fn named_groups() {
    for n in 1..=120 {
        let by_both = [Symbol::gamma0(n), Symbol::gamma0_leftmost(n)];
        for symbol in by_both.into_iter().flatten() {
            let (v, table) = (symbol.vertices(), symbol.table());
            agrees(&Draft {
                vertices: table[..2 * v]
                    .chunks(2)
                    .map(|pair| (pair[0], pair[1]))
                    .collect(),
                pairings: table[2 * v..].to_vec(),
            });
        }
    }
}

/// A float as p / 2^q.
fn fraction(float: f64) -> (i128, u32) {
    let bits = float.to_bits();
    if bits << 1 == 0 {
        return (0, 0);
    }
    let digits = i128::from((bits & ((1 << 52) - 1)) | (1 << 52));
    let exponent = ((bits >> 52) & 2_047) as i32 - 1_075;
    let zeros = digits.trailing_zeros() as i32;
    let (digits, exponent) = (digits >> zeros, exponent + zeros);
    let p = if float < 0.0 { -digits } else { digits };
    (p << exponent.max(0), (-exponent.min(0)) as u32)
}

/// The bound of the request, by whole numbers: with the float p/q and the exact
/// number x/y, |py - xq| times 2^53 is at most |x| q.
#[test]
fn near_the_exact_numbers() {
    fn near(float: f64, x: i128, y: i128) {
        let (p, q) = fraction(float);
        assert!(q <= 80, "these numbers are no smaller");
        let difference = (p * y - (x << q)).unsigned_abs();
        assert!(difference.leading_zeros() >= 53);
        assert!(
            difference << 53 <= x.unsigned_abs() << q,
            "{float}: {x} / {y}"
        );
    }
    // By the wide rule entries are small, so that all of it fits 128 bits.
    let tables = Family::Gamma0.tables(997).expect("the tables of S and R");
    let symbol = Symbol::from_permutations_wide(&tables.0, &tables.1).expect("a symbol");
    let table = symbol.table();
    let vertex = |i: usize| (i128::from(table[2 * i]), i128::from(table[2 * i + 1]));
    let drawing = symbol.drawing().expect("small entries");
    let mut arcs = 0;
    for (i, side) in drawing.sides.iter().enumerate() {
        if let Shape::Arc(centre, radius) = side.shape {
            let ((a, b), (c, d)) = (vertex(i - 1), vertex(i));
            near(centre, a * d + c * b, 2 * b * d);
            near(radius, 1, 2 * b * d);
            arcs += 1;
        }
    }
    assert!(arcs >= 300);
}

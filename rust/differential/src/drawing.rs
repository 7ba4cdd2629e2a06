//! `drawing`: the sides and their box, bit for bit; refusals 1 to 7, 22, and 11 for
//! the result space, which is counted in sides. There is no work space.
//!
//! The reference reckons with fractions of integers and rounds by hand; the engine
//! has the processor's floats.

use farey::calls;
use reference::drawing::{drawing, EACH, MAX_DRAWN};
use reference::random::drafts::{pairings, Draft, Style};
use reference::random::Rng;
use reference::symbol::MAX_VERTICES;
use reference::Refusal;

use crate::outcome::Outcome;
use crate::spaces::{around, Float, Space};
use crate::symbols::Lent;

/// The vertices from 0/1 to 1/1 on the way down the Farey tree to num/den, which is
/// the last of them to be made and has the largest denominator; none where there is
/// a common factor or the way is longer than a symbol.
pub fn way_to(num: i64, den: i64) -> Option<Vec<(i64, i64)>> {
    let (mut left, mut right) = (vec![(0, 1)], vec![(1, 1)]);
    while left.len() + right.len() < MAX_VERTICES {
        let ((a, b), (c, d)) = (left[left.len() - 1], right[right.len() - 1]);
        let middle = (a + c, b + d);
        if middle == (num, den) {
            left.push(middle);
            left.extend(right.iter().rev());
            return Some(left);
        }
        match num * middle.1 > middle.0 * den {
            true => left.push(middle),
            false => right.push(middle),
        }
    }
    None
}

/// A symbol whose largest vertex entry is just as large as a drawing takes, or one
/// more: a denominator, or with the polygon moved by one a numerator, of either sign.
pub fn at_the_limit(rng: &mut Rng, over: bool) -> Draft {
    let large = MAX_DRAWN + i64::from(over);
    let mut vertices = loop {
        let other = 1 + rng.below(large as usize - 1) as i64;
        // A numerator below twice its denominator, so that this is a way from 1/1 to 2/1.
        let found = match rng.chance(50) {
            true => way_to(other, large),
            false if 2 * other > large => way_to(large - other, other).map(moved),
            false => None,
        };
        if let Some(vertices) = found {
            break vertices;
        }
    };
    if rng.chance(50) {
        // Reflected in the imaginary axis: -a/b, from the right to the left.
        vertices = vertices.iter().rev().map(|&(a, b)| (-a, b)).collect();
    }
    Draft {
        pairings: pairings(
            rng,
            vertices.len() + 1,
            Style::Mixed { even: 20, odd: 20 },
            &[],
        ),
        vertices,
    }
}

/// The polygon moved by one to the right, with 0/1 put in front again.
fn moved(vertices: Vec<(i64, i64)>) -> Vec<(i64, i64)> {
    let moved = vertices.iter().map(|&(a, b)| (a + b, b));
    std::iter::once((0, 1)).chain(moved).collect()
}

/// A result space for so many sides: none, too few, just enough, more, and now and
/// then with a part of a side.
fn space(rng: &mut Rng, sides: usize) -> Space<Float> {
    let whole = EACH * around(rng, sides);
    let part = if rng.chance(30) { rng.below(EACH) } else { 0 };
    Space::of_length(rng, whole + part)
}

pub fn case(rng: &mut Rng) -> Outcome {
    let lent = match rng.below(20) {
        0 => {
            let draft = at_the_limit(rng, false);
            Lent::of(rng, &draft)
        }
        1 => {
            let draft = at_the_limit(rng, true);
            Lent::of(rng, &draft)
        }
        _ => Lent::any(rng),
    };
    let drawn = lent
        .symbol()
        .and_then(|symbol| drawing(&symbol, lent.table.read()));
    let mut out = space(rng, drawn.as_ref().map_or(4, |drawn| drawn.rows.len()));
    let mut bounds = Space::<Float>::of_length(rng, 4);
    let expected = drawn.and_then(|drawn| match drawn.rows.len() {
        sides if out.length() / EACH < sides => Err(Refusal::new(11, sides)),
        _ => Ok(drawn),
    });
    let (mut floats, mut four) = (floats(out.read()), [0.0; 4]);
    four.copy_from_slice(&self::floats(bounds.read()));
    let came = calls::drawing(lent.v, lent.table.read(), &mut floats, &mut four);
    for (space, numbers) in [(&mut out, &floats[..]), (&mut bounds, &four[..])] {
        for (held, &number) in space.write().iter_mut().zip(numbers) {
            *held = Float(number);
        }
    }
    let count = expected.as_ref().map(|drawn| drawn.rows.len());
    let mut outcome = Outcome::new(count.map_err(|&refusal| refusal), came);
    outcome.unchanged("table", &lent.table);
    let (rows, four): (Vec<Float>, Vec<Float>) = expected.map_or_else(
        |_| (Vec::new(), Vec::new()),
        |drawn| {
            let rows = drawn.rows.iter().flatten().map(|&x| Float(x)).collect();
            (rows, drawn.bounds.map(Float).to_vec())
        },
    );
    outcome.filled("out", &out, 0, &rows);
    outcome.filled("bounds", &bounds, 0, &four);
    outcome.on(|| format!("{}\nout {}", lent.told(), out.length()))
}

/// The lent part as plain floats.
fn floats(space: &[Float]) -> Vec<f64> {
    space.iter().map(|float| float.0).collect()
}

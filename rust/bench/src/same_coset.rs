//! Whether two matrices share a right coset, by the coset tables of S and T, which
//! are built once: each matrix is followed from point 0 by its partial quotients,
//! in one way one T at a time, in the other by one remainder for each quotient.

use crate::listing::tables;
use crate::polygon::Polygon;
use crate::query::Pair;
use crate::symbol::Symbol;
use crate::Refusal;

/// Where S, T and T⁻¹ lead from each point.
pub struct Steps {
    s: Vec<u16>,
    t: Vec<u16>,
    back: Vec<u16>,
}

impl Steps {
    pub fn new(symbol: &Symbol) -> Steps {
        let tables = tables(&Polygon::new(symbol));
        let narrow = |table: &[u32]| table.iter().map(|&x| x as u16).collect::<Vec<u16>>();
        let (s, t) = (narrow(&tables.s), narrow(&tables.t));
        let mut back = vec![0; t.len()];
        for (x, &image) in (0..).zip(&t) {
            back[image as usize] = x;
        }
        Steps { s, t, back }
    }

    /// The point to which T^q leads from x.
    fn run(&self, mut x: u16, q: i64) -> u16 {
        let table = if q < 0 { &self.back } else { &self.t };
        for _ in 0..q.unsigned_abs() {
            x = table[x as usize];
        }
        x
    }

    /// The point to which a matrix leads from point 0.
    pub fn follow(&self, [mut a, mut b, mut c, mut d]: [i64; 4]) -> u16 {
        let mut x = 0;
        while c != 0 {
            // (a b; c d) is T^q S (c d; qc - a, qd - b).
            let q = a / c;
            x = self.s[self.run(x, q) as usize];
            (a, b, c, d) = (c, d, q * c - a, q * d - b);
        }
        self.run(x, a * b)
    }
}

/// The points in the order of the cusps: T leads from each place to the next, and
/// from the last one of a cusp to its first.
pub struct Places {
    /// Where S leads from each place.
    s: Vec<u16>,
    /// The first place of each place's cusp, and how many it has.
    first: Vec<u16>,
    width: Vec<u16>,
    /// The place of point 0.
    zero: u16,
}

impl Places {
    pub fn new(symbol: &Symbol) -> Places {
        let Steps { s, t, .. } = Steps::new(symbol);
        let (mut order, mut first, mut width) = (Vec::new(), Vec::new(), Vec::new());
        let mut place = vec![u16::MAX; t.len()];
        for point in 0..t.len() {
            let (begin, mut x) = (order.len(), point);
            while place[x] == u16::MAX {
                place[x] = order.len() as u16;
                order.push(x);
                x = t[x] as usize;
            }
            let count = order.len() - begin;
            first.resize(order.len(), begin as u16);
            width.resize(order.len(), count as u16);
        }
        let s = order.iter().map(|&x| place[s[x] as usize]).collect();
        let zero = place[0];
        Places {
            s,
            first,
            width,
            zero,
        }
    }

    #[inline]
    fn run(&self, x: u16, q: i64) -> u16 {
        let (first, width) = (self.first[x as usize], self.width[x as usize]);
        let (width, there) = (i32::from(width), i32::from(x - first));
        let mut to = there + q as i32;
        if to < 0 || to >= width {
            to = to.rem_euclid(width);
        }
        first + to as u16
    }

    /// The place to which a matrix leads from that of point 0.
    pub fn follow(&self, [mut a, mut b, mut c, mut d]: [i64; 4]) -> u16 {
        let mut x = self.zero;
        while c != 0 {
            let q = i64::from(a as i32 / c as i32);
            x = self.s[self.run(x, q) as usize];
            (a, b, c, d) = (c, d, q * c - a, q * d - b);
        }
        self.run(x, a * b)
    }
}

/// The line of each pair, eight entries, as the engine has them; `follow` says
/// where a matrix leads.
fn lines(entries: &[i64], follow: impl Fn([i64; 4]) -> u16) -> Result<Vec<[i64; 2]>, Refusal> {
    let line = |entries: &[i64]| match Pair::new(entries) {
        Ok(_) => {
            let four = |i: usize| [entries[i], entries[i + 1], entries[i + 2], entries[i + 3]];
            [0, i64::from(follow(four(0)) == follow(four(4)))]
        }
        Err((number, place)) => [number.into(), place as i64],
    };
    Ok(entries.chunks_exact(8).map(line).collect())
}

fn whole_pairs(entries: &[i64]) -> Result<(), Refusal> {
    match entries.len() % 8 {
        0 => Ok(()),
        _ => Err((11, 8 * (entries.len() / 8 + 1))),
    }
}

/// One T at a time.
pub fn same_cosets_by_steps(
    v: i64,
    table: &[i64],
    entries: &[i64],
) -> Result<Vec<[i64; 2]>, Refusal> {
    whole_pairs(entries)?;
    let steps = Steps::new(&Symbol::new(v, table)?);
    lines(entries, |matrix| steps.follow(matrix))
}

/// One remainder for each quotient.
pub fn same_cosets(v: i64, table: &[i64], entries: &[i64]) -> Result<Vec<[i64; 2]>, Refusal> {
    whole_pairs(entries)?;
    let places = Places::new(&Symbol::new(v, table)?);
    lines(entries, |matrix| places.follow(matrix))
}

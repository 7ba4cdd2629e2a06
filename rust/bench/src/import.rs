//! From two permutations to a symbol, by either rule.
//!
//! A side with the frame M is known by the image m of point 0 under M. It is
//! even where S fixes m, odd where Q does, and pairs with the side at S m.
//! Splitting it gives the sides at m Q S and at m T.
//!
//! From the left a stack of sides to do is enough. The wide rule has a queue of
//! the sides in the order in which they came, a row of sides in which each knows
//! the next one to its right, and a table from points to open sides.

use crate::symbol::{EVEN, MAX_ENTRY, ODD};
use crate::text::{numbers, put, IMPORT};
use crate::{refused, Refusal};

/// What the job `import` prints.
pub fn plain_import(text: &[u8]) -> Vec<u8> {
    symbol_text(try_import(text, leftmost))
}

/// What the job `import-wide` prints.
pub fn plain_import_wide(text: &[u8]) -> Vec<u8> {
    symbol_text(try_import(text, wide))
}

pub(crate) fn symbol_text(answer: Result<Parts, Refusal>) -> Vec<u8> {
    match answer {
        Ok((vertices, pairings)) => {
            let mut out = Vec::with_capacity(24 * vertices.len() + 6 * pairings.len() + 16);
            out.extend_from_slice((vertices.len() / 2).to_string().as_bytes());
            out.push(b'\n');
            for line in [&vertices, &pairings] {
                let at = out.len();
                for &number in line {
                    put(&mut out, number);
                }
                out.remove(at);
                out.push(b'\n');
            }
            out
        }
        Err(refusal) => refused(refusal),
    }
}

/// Vertex entries and pairings.
pub type Parts = (Vec<i64>, Vec<i64>);

/// The table as 16-bit numbers, or the first entry that is outside or repeated.
fn permutation(entries: &[i64]) -> Result<Vec<u16>, Refusal> {
    let n = entries.len();
    let mut seen = vec![false; n];
    let mut table = Vec::with_capacity(n);
    for (i, &entry) in entries.iter().enumerate() {
        if entry < 0 || entry >= n as i64 || seen[entry as usize] {
            return Err((13, i));
        }
        seen[entry as usize] = true;
        table.push(entry as u16);
    }
    Ok(table)
}

fn check(entries: &[i64], n: usize) -> Result<(Vec<u16>, Vec<u16>), Refusal> {
    let s = permutation(&entries[..n])?;
    let r = permutation(&entries[n..])?;
    for (i, &image) in s.iter().enumerate() {
        if s[image as usize] as usize != i {
            return Err((14, i));
        }
    }
    for (i, &image) in r.iter().enumerate() {
        if r[r[image as usize] as usize] as usize != i {
            return Err((14, i));
        }
    }
    let mut reached = vec![false; n];
    reached[0] = true;
    let mut list = Vec::with_capacity(n);
    list.push(0u16);
    while let Some(point) = list.pop() {
        for image in [s[point as usize], r[point as usize]] {
            if !reached[image as usize] {
                reached[image as usize] = true;
                list.push(image);
            }
        }
    }
    match reached.iter().position(|&reached| !reached) {
        Some(point) => Err((15, point)),
        None => Ok((s, r)),
    }
}

/// A side that isn't settled yet: its right end and its point.
#[derive(Clone, Copy)]
pub(crate) struct Open {
    num: i64,
    den: i64,
    point: u16,
}

fn side(num: i64, den: i64, point: u16) -> Open {
    Open { num, den, point }
}

/// The two permutations.
pub struct Pair {
    pub s: Vec<u16>,
    pub r: Vec<u16>,
}

impl Pair {
    fn s(&self, m: u16) -> u16 {
        self.s[m as usize]
    }

    fn r(&self, m: u16) -> u16 {
        self.r[m as usize]
    }

    /// Q is S R^-1 S.
    fn q(&self, m: u16) -> u16 {
        self.s(self.r(self.r(self.s(m))))
    }

    fn t(&self, m: u16) -> u16 {
        self.r(self.s(m))
    }
}

/// The symbol, from where the three first sides are known on.
pub(crate) type Way = fn(&Pair, [Open; 3]) -> Result<Parts, Refusal>;

fn try_import(text: &[u8], way: Way) -> Result<Parts, Refusal> {
    let numbers = numbers(text, IMPORT)?;
    let n = numbers[0];
    if !(1..=3_066).contains(&n) {
        return Err((12, 0));
    }
    let (s, r) = check(&numbers[1..], n as usize)?;
    symbol_of(&Pair { s, r }, way)
}

/// The symbol of permutations that are those of a group's cosets.
pub(crate) fn symbol_of(pair: &Pair, way: Way) -> Result<Parts, Refusal> {
    let s = |m: u16| pair.s(m);
    let q = |m: u16| pair.q(m);
    if s(0) == 0 && pair.t(0) == 0 {
        return Ok((vec![0, 1], vec![EVEN, ODD]));
    }
    let q_fixes = q(0) == 0;
    if q_fixes && s(q(s(0))) == 0 {
        return Ok((vec![0, 1], vec![ODD, ODD]));
    }
    // The frames of the first three sides. S sends infinity to 0, so the side
    // that ends in 0 from infinity has the frame S.
    let first = if !q_fixes {
        // (0 -1; 1 0) = S, (1 0; 1 1) = Q S, (1 1; 0 1) = T.
        [side(0, 1, s(0)), side(1, 1, s(q(0))), side(1, 0, pair.t(0))]
    } else {
        // (-1 -1; 1 0) = S Q S, (0 -1; 1 1) = R, I.
        [
            side(-1, 1, s(q(s(0)))),
            side(0, 1, pair.r(0)),
            side(1, 0, 0),
        ]
    };
    way(pair, first)
}

/// The leftmost open side is split.
pub(crate) fn leftmost(pair: &Pair, first: [Open; 3]) -> Result<Parts, Refusal> {
    let n = pair.s.len();
    let mut held = vec![false; n];
    let mut stack: Vec<Open> = Vec::with_capacity(n + 3);
    for open in first.iter().rev() {
        held[open.point as usize] = true;
        stack.push(*open);
    }
    let mut vertices = Vec::with_capacity(2 * (n / 3 + 1));
    let mut pairings = Vec::with_capacity(n / 3 + 2);
    let mut label = vec![0i64; n];
    let mut labels = 0;
    let (mut left_num, mut left_den) = (-1, 0);
    while let Some(open) = stack.pop() {
        let Open { num, den, point } = open;
        let across = pair.s(point);
        let pairing = if across == point {
            EVEN
        } else if pair.q(point) == point {
            ODD
        } else if held[across as usize] {
            if label[across as usize] == 0 {
                labels += 1;
                label[point as usize] = labels;
                labels
            } else {
                label[across as usize]
            }
        } else {
            let (middle_num, middle_den) = (left_num + num, left_den + den);
            if middle_num.abs() > MAX_ENTRY || middle_den > MAX_ENTRY {
                return Err((16, pairings.len()));
            }
            let (left, right) = (pair.s(pair.q(point)), pair.t(point));
            held[point as usize] = false;
            held[left as usize] = true;
            held[right as usize] = true;
            stack.push(side(num, den, right));
            stack.push(side(middle_num, middle_den, left));
            continue;
        };
        pairings.push(pairing);
        if !stack.is_empty() {
            vertices.extend([num, den]);
        }
        (left_num, left_den) = (num, den);
    }
    Ok((vertices, pairings))
}

/// A side of the row.
#[derive(Clone, Copy)]
struct Cell {
    left: (i64, i64),
    right: (i64, i64),
    point: u16,
    /// The next side to the right.
    next: u16,
    state: State,
}

#[derive(Clone, Copy)]
enum State {
    Open,
    Even,
    Odd,
    /// With the cell of the other side.
    Free(u16),
}

/// No side.
const NONE: u16 = u16::MAX;

struct Row<'a> {
    pair: &'a Pair,
    /// The leftmost side is the first cell.
    cells: Vec<Cell>,
    /// The cell of the open side that has this point.
    open_at: Vec<u16>,
}

impl Row<'_> {
    /// Pairs a new side, if that can be done.
    fn settle(&mut self, cell: u16) {
        let point = self.cells[cell as usize].point;
        let across = self.pair.s(point);
        let state = if let State::Open = self.cells[cell as usize].state {
            if across == point {
                State::Even
            } else if self.pair.q(point) == point {
                State::Odd
            } else if self.open_at[across as usize] != NONE {
                let other = self.open_at[across as usize];
                self.cells[other as usize].state = State::Free(cell);
                self.open_at[across as usize] = NONE;
                State::Free(other)
            } else {
                return;
            }
        } else {
            return;
        };
        self.cells[cell as usize].state = state;
        self.open_at[point as usize] = NONE;
    }

    /// The sides from the left.
    fn sides(&self) -> impl Iterator<Item = u16> + '_ {
        let next = |cell: &u16| Some(self.cells[*cell as usize].next).filter(|&next| next != NONE);
        std::iter::successors(Some(0), next)
    }
}

/// The side that has been open longest is split.
pub(crate) fn wide(pair: &Pair, first: [Open; 3]) -> Result<Parts, Refusal> {
    let n = pair.s.len();
    let mut row = Row {
        pair,
        cells: Vec::with_capacity(n / 3 + 2),
        open_at: vec![NONE; n],
    };
    let mut queue: Vec<u16> = Vec::with_capacity(2 * n);
    let mut left = (-1, 0);
    for (i, open) in first.into_iter().enumerate() {
        let right = (open.num, open.den);
        row.cells.push(Cell {
            left,
            right,
            point: open.point,
            next: if i < 2 { i as u16 + 1 } else { NONE },
            state: State::Open,
        });
        row.open_at[open.point as usize] = i as u16;
        queue.push(i as u16);
        left = right;
    }
    for cell in 0..3 {
        row.settle(cell);
    }
    let mut at = 0;
    while at < queue.len() {
        let cell = queue[at];
        at += 1;
        let Cell {
            left,
            right,
            point,
            next,
            state: State::Open,
        } = row.cells[cell as usize]
        else {
            continue;
        };
        let middle = (left.0 + right.0, left.1 + right.1);
        if middle.0.abs() > MAX_ENTRY || middle.1 > MAX_ENTRY {
            let place = row.sides().position(|other| other == cell);
            return Err((16, place.expect("the side is in the row")));
        }
        // The left part keeps the cell, the right part gets a new one.
        let new = row.cells.len() as u16;
        let (by_q, by_t) = (pair.s(pair.q(point)), pair.t(point));
        row.open_at[point as usize] = NONE;
        row.cells[cell as usize] = Cell {
            left,
            right: middle,
            point: by_q,
            next: new,
            state: State::Open,
        };
        row.cells.push(Cell {
            left: middle,
            right,
            point: by_t,
            next,
            state: State::Open,
        });
        row.open_at[by_q as usize] = cell;
        row.open_at[by_t as usize] = new;
        queue.push(cell);
        queue.push(new);
        row.settle(cell);
        row.settle(new);
    }
    let mut vertices = Vec::with_capacity(2 * row.cells.len());
    let mut pairings = Vec::with_capacity(row.cells.len());
    let mut label = vec![0; row.cells.len()];
    let mut labels = 0;
    for cell in row.sides() {
        let side = &row.cells[cell as usize];
        pairings.push(match side.state {
            State::Even => EVEN,
            State::Odd => ODD,
            State::Free(other) => {
                if label[other as usize] == 0 {
                    labels += 1;
                    label[other as usize] = labels;
                    label[cell as usize] = labels;
                }
                label[cell as usize]
            }
            State::Open => unreachable!("the queue is empty"),
        });
        if side.next != NONE {
            vertices.extend([side.right.0, side.right.1]);
        }
    }
    Ok((vertices, pairings))
}

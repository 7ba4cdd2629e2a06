//! Permutation pairs of long rows of triangles and of trees, which need large entries.

use std::cmp::Ordering;
use std::collections::HashMap;

use super::drafts::{pairings, Style};
use super::pairs::{based, renamed, sound, Pair};
use super::rng::Rng;
use crate::coset::Cosets;
use crate::matrix::{Cusp, Matrix};
use crate::symbol::MAX_ENTRY;

/// The pair of a long row of triangles that turns left and right by turns, all
/// sides even or odd, with a point near one end of the row for 0. Both halves
/// of the row keep small entries when 0 is in its middle; seen from an end they
/// grow like Fibonacci numbers, past 10^9 with 43 splits.
pub fn zigzag_pair(rng: &mut Rng, splits: usize) -> Pair {
    let mut vertices = vec![(-1, 1), (0, 1), (1, 1)];
    let half = splits / 2 + 1;
    // Into the side from 0 to 1, and into the one from -1 to 0.
    for (low, high) in [((0, 1), (1, 1)), ((-1, 1), (0, 1))] {
        let (mut low, mut high) = (low, high);
        for step in 0..half {
            let middle: (i64, i64) = (low.0 + high.0, low.1 + high.1);
            vertices.push(middle);
            if step % 2 == 0 {
                low = middle;
            } else {
                high = middle;
            }
        }
    }
    vertices.sort_unstable_by(|a, b| (a.0 * b.1).cmp(&(b.0 * a.1)));
    let v = vertices.len();
    let even = rng.below(101);
    let style = Style::Mixed {
        even,
        odd: 100 - even,
    };
    let pairings = pairings(rng, v + 1, style, &[]);
    let symbol = sound(&vertices, &pairings);
    let cosets = Cosets::new(&symbol);
    // A side next to the vertex with the largest denominator.
    let deepest = (0..v)
        .max_by_key(|&i| vertices[i].1)
        .expect("there are vertices");
    let base = cosets.number(&symbol, symbol.sides[deepest].frame) as usize;
    based(rng, &Pair::of_symbol(&symbol), base)
}

/// A fraction with an entry just at or just past 10^9, close enough to the
/// golden ratio for few splits to lead to it.
pub fn fraction_at_the_limit(rng: &mut Rng) -> (i64, i64) {
    let large = MAX_ENTRY + rng.pick(&[-1, 0, 1, 2, 1_000]);
    loop {
        let small = 618_033_989 + rng.range(-20_000, 20_000);
        // The sum of the quotients in Euclid's algorithm counts the splits.
        let (mut x, mut y, mut splits) = (large, small, 0);
        while y != 0 {
            splits += x / y;
            (x, y) = (y, x % y);
        }
        if x == 1 && splits < 120 {
            let (num, den) = rng.pick(&[(small, large), (large, small)]);
            return (rng.pick(&[num, -num]), den);
        }
    }
}

/// The pair of a polygon that has 0, 1 and the vertices on the way to a given
/// fraction, all sides even or odd, and the side whose splitting makes that
/// fraction. An import makes just this polygon, and the fraction last.
///
/// The fraction may be too large for a symbol. The tables are therefore taken
/// from the same polygon seen from an edge halfway.
pub fn pair_towards(rng: &mut Rng, num: i64, den: i64) -> (Pair, usize) {
    let target = Cusp::new(num.into(), den.into());
    let mut vertices = vec![Cusp::new(0, 1), Cusp::new(1, 1)];
    let frame = |vertices: &[Cusp], side: usize| {
        let left = match side {
            0 => (-1, 0),
            _ => (vertices[side - 1].num, vertices[side - 1].den),
        };
        let right = vertices
            .get(side)
            .map_or((1, 0), |cusp| (cusp.num, cusp.den));
        Matrix([right.0, left.0, right.1, left.1])
    };
    let mut frames = Vec::new();
    let place = loop {
        let side = vertices.partition_point(|vertex| vertex.compare(target) == Ordering::Less);
        if vertices.get(side) == Some(&target) {
            break side;
        }
        let m = frame(&vertices, side);
        frames.push(m);
        vertices.insert(side, Cusp::new(m.0[0] + m.0[1], m.0[2] + m.0[3]));
    };

    // From the edge halfway the right end of that edge is infinity. The order
    // around the polygon stays.
    let away = frames[frames.len() / 2].inverse();
    let mut seen: Vec<Cusp> = std::iter::once(Cusp::new(1, 0))
        .chain(vertices.iter().copied())
        .map(|cusp| {
            let [a, b, c, d] = away.0;
            Cusp::new(a * cusp.num + b * cusp.den, c * cusp.num + d * cusp.den)
        })
        .collect();
    let infinity = seen.iter().position(|cusp| cusp.is_infinite());
    seen.rotate_left(infinity.expect("an end of the edge goes to infinity"));
    let small = |entry: i128| i64::try_from(entry).expect("halfway entries are small");
    let seen: Vec<(i64, i64)> = seen[1..]
        .iter()
        .map(|cusp| (small(cusp.num), small(cusp.den)))
        .collect();
    let even = rng.below(101);
    let style = Style::Mixed {
        even,
        odd: 100 - even,
    };
    let pairings = pairings(rng, seen.len() + 1, style, &[]);
    let symbol = sound(&seen, &pairings);
    let base = Cosets::new(&symbol).number(&symbol, away) as usize;
    (based(rng, &Pair::of_symbol(&symbol), base), place)
}

/// What lies across an edge, seen from the edge: a side of the polygon, or a
/// triangle with its two further edges, left and right.
#[derive(Clone, Debug)]
pub enum Tree {
    Even,
    Odd,
    /// Paired with the other side of this number.
    Free(usize),
    Triangle(Box<Tree>, Box<Tree>),
}

impl Tree {
    /// Triangles in a row: each lies across the left or the right edge of the
    /// one before, as `turns` says (true for left), and `side` makes what lies
    /// across the other one, and at the end.
    pub fn row(
        turns: impl DoubleEndedIterator<Item = bool>,
        mut side: impl FnMut() -> Tree,
    ) -> Tree {
        turns.rev().fold(side(), |inner, left| {
            let other = Box::new(side());
            match left {
                true => Tree::Triangle(Box::new(inner), other),
                false => Tree::Triangle(other, Box::new(inner)),
            }
        })
    }
}

/// The tables of S and of Q while a tree is followed. S of a point is the point
/// itself until something is hung across its edge.
#[derive(Default)]
struct Edges {
    s: Vec<usize>,
    q: Vec<usize>,
    /// The edges that wait for the other side of their number.
    waiting: HashMap<usize, usize>,
}

impl Edges {
    /// A new triangle's edges, in the order of Q.
    fn triangle(&mut self) -> [usize; 3] {
        let first = self.s.len();
        let edges = [first, first + 1, first + 2];
        self.s.extend(edges);
        self.q.extend([first + 1, first + 2, first]);
        edges
    }

    fn join(&mut self, one: usize, other: usize) {
        self.s[one] = other;
        self.s[other] = one;
    }

    /// A triangle across the edge has its left edge by Q, its right one by Q^-1.
    fn hang(&mut self, edge: usize, tree: &Tree) {
        match tree {
            Tree::Even => {}
            Tree::Odd => {
                let outer = self.s.len();
                self.s.push(outer);
                self.q.push(outer);
                self.join(edge, outer);
            }
            Tree::Free(number) => match self.waiting.remove(number) {
                Some(other) => self.join(edge, other),
                None => {
                    self.waiting.insert(*number, edge);
                }
            },
            Tree::Triangle(left, right) => {
                let [across, by_q, by_q_inverse] = self.triangle();
                self.join(edge, across);
                self.hang(by_q, left);
                self.hang(by_q_inverse, right);
            }
        }
    }
}

/// The pair of a triangle with these trees across its edges, from the left: seen
/// from point 0 it has the vertices 0, 1 and infinity. Entries have no limit
/// here, since no symbol is made.
pub fn tree_pair(rng: &mut Rng, trees: [Tree; 3]) -> Pair {
    let mut edges = Edges::default();
    for (edge, tree) in edges.triangle().into_iter().zip(&trees) {
        edges.hang(edge, tree);
    }
    let Edges { s, q, .. } = edges;
    // R is S Q^-1 S, and Q^-1 is Q twice.
    let r = |point: usize| s[q[q[s[point]]]];
    let pair = Pair {
        s: s.iter().map(|&image| image as i64).collect(),
        r: (0..s.len()).map(|point| r(point) as i64).collect(),
    };
    renamed(rng, &pair)
}

/// Rows of triangles across the three edges of one, and across edges of these,
/// that turn by turns or by dice; the sides are even, odd and free. Long rows
/// that turn by turns need entries over 10^9 by either rule, each at a place of
/// its own.
pub fn rows_pair(rng: &mut Rng) -> Pair {
    let share = rng.pick(&[0, 0, 10, 50]);
    let mut frees = 0;
    let mut side = |rng: &mut Rng| {
        if rng.chance(share) {
            frees += 1;
            // Two sides of one number are near each other.
            Tree::Free((frees - 1) / 2)
        } else if rng.chance(50) {
            Tree::Even
        } else {
            Tree::Odd
        }
    };
    let mut branches = rng.below(5);
    let trees = [(); 3].map(|()| {
        Tree::row(row_turns(rng).into_iter(), || {
            if branches > 0 && rng.chance(10) {
                branches -= 1;
                Tree::row(row_turns(rng).into_iter(), || side(rng))
            } else {
                side(rng)
            }
        })
    });
    tree_pair(rng, trees)
}

/// By turns, or by dice.
fn row_turns(rng: &mut Rng) -> Vec<bool> {
    let length = rng.below(70);
    let first = rng.chance(50);
    let by_dice = rng.chance(30);
    let turn = |step: usize| (step % 2 == 0) == first;
    (0..length)
        .map(|step| if by_dice { rng.chance(50) } else { turn(step) })
        .collect()
}

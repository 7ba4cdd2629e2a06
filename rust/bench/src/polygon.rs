//! The polygon cut into Farey triangles, as tables of single steps.
//!
//! Triangle m has the vertices a < b < c, counting infinity as the leftmost.
//! Its corners are positions: 3m is the edge from a to c, 3m + 1 the edge from
//! b to a, 3m + 2 the edge from c to b, each with the triangle on its right, so
//! that Q leads from each to the next. Behind the corners each odd side taken
//! from left to right has a position. With one vertex there are only those.

use crate::symbol::{Symbol, EVEN, ODD};

/// Where a step leads, and the letter it writes or 0.
#[derive(Clone, Copy, Default)]
pub struct Step {
    pub to: u16,
    pub letter: i16,
}

/// One position's three steps.
#[derive(Clone, Copy, Default)]
pub struct Steps {
    pub s: Step,
    pub q: Step,
    /// Q^-1.
    pub p: Step,
}

pub struct Polygon {
    pub steps: Vec<Steps>,
    /// Where the walk starts.
    pub start: u16,
    /// Whether that is the edge from infinity to 0 and not from 0 to infinity.
    pub turned: bool,
}

/// What lies behind an edge: the triangle's top corner, or a side from here on.
const SIDE: u16 = 1 << 15;

impl Polygon {
    pub fn new(symbol: &Symbol) -> Polygon {
        let v = symbol.v;
        let corners = 3 * (v - 1);
        let odd = symbol.pairings.iter().filter(|&&p| p == ODD).count();
        let mut steps = vec![Steps::default(); corners + odd];
        let step = |to: usize, letter: i16| Step {
            to: to as u16,
            letter,
        };

        // The position of each side seen from inside, and the edge from 0 to
        // infinity once its triangle is cut.
        let mut inside = vec![0u16; v + 1];
        let mut from_zero = 0;
        let mut cut = 0;
        // Denominators from infinity to the vertex reached, and what lies
        // behind the edge to the vertex before.
        let mut stack: Vec<(i64, u16)> = Vec::with_capacity(v + 1);
        stack.push((0, 0));
        let mut join = |steps: &mut Vec<Steps>, corner: usize, behind: u16| {
            if behind >= SIDE {
                inside[(behind - SIDE) as usize] = corner as u16;
            } else {
                steps[corner].s = step(behind as usize, 0);
                steps[behind as usize].s = step(corner, 0);
            }
        };
        for (i, vertex) in symbol.vertices.chunks_exact(2).enumerate() {
            let den = vertex[1];
            let mut behind = SIDE + i as u16;
            // The vertex on top is cut off where it is the mediant of its
            // neighbours.
            while let [.., (before, _), (top, top_behind)] = stack[..] {
                if top != before + den {
                    break;
                }
                let m = 3 * cut;
                join(&mut steps, m + 1, top_behind);
                join(&mut steps, m + 2, behind);
                for (from, next, last) in [(m, m + 1, m + 2), (m + 1, m + 2, m), (m + 2, m, m + 1)]
                {
                    steps[from].q = step(next, 0);
                    steps[from].p = step(last, 0);
                }
                // A triangle at infinity with 0 in the middle.
                if before == 0 && symbol.vertices[2 * i] == 1 && den == 1 {
                    from_zero = m + 1;
                }
                behind = m as u16;
                cut += 1;
                stack.pop();
            }
            stack.push((den, behind));
        }
        if v > 1 {
            // The last triangle's top is the last side.
            inside[v] = 3 * (cut - 1) as u16;
        }

        let mut outer = corners;
        // The outer positions of the sides; 0 where there is none.
        let mut outside = vec![0u16; v + 1];
        for (side, &pairing) in symbol.pairings.iter().enumerate() {
            if pairing == ODD {
                outside[side] = outer as u16;
                outer += 1;
            }
        }
        for side in 0..=v {
            let j = symbol.generator[side];
            let here = inside[side] as usize;
            match symbol.pairings[side] {
                ODD => {
                    let out = outside[side] as usize;
                    steps[out].q = step(out, j);
                    steps[out].p = step(out, -j);
                    if v > 1 {
                        steps[out].s = step(here, 0);
                        steps[here].s = step(out, 0);
                    } else if symbol.pairings[1 - side] == ODD {
                        steps[out].s = step(outside[1 - side] as usize, 0);
                    } else {
                        steps[out].s = step(out, symbol.generator[1 - side]);
                    }
                }
                EVEN if v > 1 => steps[here].s = step(here, j),
                EVEN => {}
                _ => {
                    let partner = symbol.partner[side] as usize;
                    let letter = if side < partner { -j } else { j };
                    steps[here].s = step(inside[partner] as usize, letter);
                }
            }
        }

        let last_at_zero = symbol.vertices[2 * v - 2] == 0;
        let last_odd = symbol.pairings[v] == ODD;
        let turned = last_at_zero && !last_odd;
        let start = match (last_at_zero, last_odd) {
            (false, _) => from_zero as u16,
            (true, true) => outside[v],
            // With one vertex the first side is the one that is odd.
            (true, false) if v == 1 => outside[0],
            (true, false) => inside[v],
        };
        Polygon {
            steps,
            start,
            turned,
        }
    }

    /// The position of the edge from 0 to infinity up to H.
    pub fn home(&self) -> u16 {
        if self.turned {
            self.steps[self.start as usize].s.to
        } else {
            self.start
        }
    }
}

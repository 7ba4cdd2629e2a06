//! Sound symbols. A polygon grows from the single vertex 0/1 by splitting sides
//! at their mediants; splitting the first or the last side adds the next
//! integer on that end. Pairings are then drawn in one of several styles.

use super::rng::Rng;
use crate::symbol::{EVEN, MAX_ENTRY, MAX_VERTICES, ODD};

/// A symbol as numbers, on its way to a text.
#[derive(Clone, Debug, PartialEq, Eq)]
pub struct Draft {
    /// Numerators and denominators.
    pub vertices: Vec<(i64, i64)>,
    pub pairings: Vec<i64>,
}

impl Draft {
    pub fn v(&self) -> usize {
        self.vertices.len()
    }

    /// v, the vertex entries, the pairings.
    pub fn numbers(&self) -> Vec<i64> {
        let mut numbers = vec![self.v() as i64];
        numbers.extend(self.vertices.iter().flat_map(|&(a, b)| [a, b]));
        numbers.extend(&self.pairings);
        numbers
    }
}

/// Where 0/1 is to stand among the vertices.
#[derive(Clone, Copy, Debug, PartialEq, Eq)]
pub enum Zero {
    First,
    Last,
    Anywhere,
}

/// Which sides are split.
#[derive(Clone, Copy, Debug, PartialEq, Eq)]
pub enum Growth {
    /// Any side.
    Even,
    /// One of the two sides made last: entries grow fast.
    Deep,
    /// Only the outer sides: all vertices are integers.
    Integers,
    /// Always beside the same vertex.
    Fan,
    /// Towards a fraction with an entry at or just below 10^9.
    Towards(i64, i64),
}

/// How the sides are paired.
#[derive(Clone, Copy, Debug, PartialEq, Eq)]
pub enum Style {
    AllEven,
    AllOdd,
    /// Free sides, paired at random.
    AllFree,
    /// Free sides, the pairs nested or side by side: genus 0 and many cusps.
    Nested,
    /// Free sides, each with its neighbour.
    Neighbours,
    /// Even, odd and free sides in these shares, the free ones at random.
    Mixed {
        even: usize,
        odd: usize,
    },
}

struct Growing {
    vertices: Vec<(i64, i64)>,
    zero: Zero,
}

impl Growing {
    fn ends(&self, side: usize) -> ((i64, i64), (i64, i64)) {
        let v = self.vertices.len();
        let left = if side == 0 {
            (-1, 0)
        } else {
            self.vertices[side - 1]
        };
        let right = if side == v {
            (1, 0)
        } else {
            self.vertices[side]
        };
        (left, right)
    }

    /// The vertex that splits the side, unless it is too large or would stand
    /// on the wrong side of 0/1.
    fn mediant(&self, side: usize) -> Option<(i64, i64)> {
        if (side == 0 && self.zero == Zero::First)
            || (side == self.vertices.len() && self.zero == Zero::Last)
        {
            return None;
        }
        let ((a, b), (a2, b2)) = self.ends(side);
        let middle = (a + a2, b + b2);
        (middle.0.abs() <= MAX_ENTRY && middle.1 <= MAX_ENTRY).then_some(middle)
    }

    fn split(&mut self, side: usize) -> bool {
        match self.mediant(side) {
            Some(middle) => {
                self.vertices.insert(side, middle);
                true
            }
            None => false,
        }
    }

    /// The side that spans the fraction n/d, if it is no vertex yet.
    fn side_over(&self, n: i64, d: i64) -> Option<usize> {
        let compare = |&(a, b): &(i64, i64)| {
            (i128::from(a) * i128::from(d)).cmp(&(i128::from(n) * i128::from(b)))
        };
        self.vertices.binary_search_by(compare).err()
    }
}

/// A polygon of v vertices with 0/1 among them.
pub fn polygon(rng: &mut Rng, v: usize, zero: Zero, growth: Growth) -> Vec<(i64, i64)> {
    let mut growing = Growing {
        vertices: vec![(0, 1)],
        zero,
    };
    let mut newest = 0;
    let mut hub = (0, 1);
    while growing.vertices.len() < v {
        let sides = growing.vertices.len() + 1;
        let wish = match growth {
            Growth::Even => rng.below(sides),
            Growth::Deep => newest + rng.below(2),
            Growth::Integers => rng.pick(&[0, sides - 1]),
            Growth::Fan => {
                if rng.chance(3) {
                    hub = growing.vertices[rng.below(sides - 1)];
                }
                let index = growing.vertices.iter().position(|&vertex| vertex == hub);
                index.expect("the hub is a vertex") + rng.below(2)
            }
            Growth::Towards(n, d) => growing.side_over(n, d).unwrap_or_else(|| rng.below(sides)),
        };
        if growing.split(wish) {
            newest = wish;
            continue;
        }
        // The wish can't be split; any other side will do. There always is
        // one: the integers alone go on for 1,023 steps.
        let turn = rng.below(sides);
        let side = (0..sides)
            .map(|i| (i + turn) % sides)
            .find(|&side| growing.mediant(side).is_some())
            .expect("some side can be split");
        growing.split(side);
        newest = side;
    }
    growing.vertices
}

/// Pairings for `sides` sides. Pairs in `fixed` are free pairs in any case.
pub fn pairings(rng: &mut Rng, sides: usize, style: Style, fixed: &[(usize, usize)]) -> Vec<i64> {
    let mut pairs = fixed.to_vec();
    let mut taken = vec![false; sides];
    for &(i, k) in fixed {
        taken[i] = true;
        taken[k] = true;
    }
    let open: Vec<usize> = (0..sides).filter(|&side| !taken[side]).collect();
    let mut pairings = vec![0; sides];
    // Sides that are to be free and aren't paired yet.
    let mut single = Vec::new();
    match style {
        Style::AllEven => open.iter().for_each(|&side| pairings[side] = EVEN),
        Style::AllOdd => open.iter().for_each(|&side| pairings[side] = ODD),
        Style::AllFree => single = open,
        Style::Neighbours => {
            let skip = rng.below(2).min(open.len());
            single.extend(&open[..skip]);
            for pair in open[skip..].chunks(2) {
                match *pair {
                    [i, k] => pairs.push((i, k)),
                    _ => single.extend(pair),
                }
            }
        }
        Style::Nested => {
            // Each side either opens a pair or closes the one opened last.
            for side in open {
                match single.pop() {
                    Some(partner) if rng.chance(55) => pairs.push((partner, side)),
                    Some(partner) => single.extend([partner, side]),
                    None => single.push(side),
                }
            }
            while single.len() >= 2 {
                let side = single.pop().expect("two are left");
                let partner = single.pop().expect("one is left");
                pairs.push((partner, side));
            }
        }
        Style::Mixed { even, odd } => {
            for side in open {
                let draw = rng.below(100);
                if draw < even {
                    pairings[side] = EVEN;
                } else if draw < even + odd {
                    pairings[side] = ODD;
                } else {
                    single.push(side);
                }
            }
        }
    }
    rng.shuffle(&mut single);
    let mut rest = single.chunks_exact(2);
    pairs.extend(rest.by_ref().map(|pair| (pair[0], pair[1])));
    for &side in rest.remainder() {
        pairings[side] = rng.pick(&[EVEN, ODD]);
    }

    // Labels from 1 to v + 1, which is the number of sides; in order of the
    // leftmost side or at random.
    let mut labels: Vec<i64> = (1..=sides as i64).collect();
    if rng.chance(30) {
        pairs.sort_by_key(|&(i, k)| i.min(k));
    } else {
        rng.shuffle(&mut labels);
    }
    for (&(i, k), label) in pairs.iter().zip(labels) {
        pairings[i] = label;
        pairings[k] = label;
    }
    // A single vertex needs an odd side.
    if sides == 2 && !pairings.contains(&ODD) {
        pairings = rng.pick(&[[EVEN, ODD], [ODD, EVEN], [ODD, ODD]]).to_vec();
    }
    pairings
}

/// A number of vertices: mostly small, now and then up to the limit.
pub fn size(rng: &mut Rng) -> usize {
    let largest = match rng.below(100) {
        0..=54 => 8,
        55..=84 => 40,
        85..=95 => 200,
        96..=98 => MAX_VERTICES,
        _ => return MAX_VERTICES - rng.below(3),
    };
    1 + rng.below(largest)
}

fn zero(rng: &mut Rng) -> Zero {
    rng.pick(&[Zero::First, Zero::Last, Zero::Anywhere, Zero::Anywhere])
}

fn growth(rng: &mut Rng, zero: Zero) -> Growth {
    match rng.below(10) {
        0..=3 => Growth::Even,
        4..=5 => Growth::Deep,
        6 => Growth::Integers,
        7 => Growth::Fan,
        _ => {
            let big = MAX_ENTRY - if rng.chance(50) { 0 } else { rng.range(0, 9) };
            // Close to the golden ratio few splits lead to the fraction.
            let small = if rng.chance(50) {
                618_033_989 + rng.range(-1_000, 1_000)
            } else {
                rng.range(MAX_ENTRY / 3, MAX_ENTRY)
            };
            let (n, d) = if rng.chance(50) {
                (small, big)
            } else {
                (big, small)
            };
            match zero {
                Zero::First => Growth::Towards(n, d),
                Zero::Last => Growth::Towards(-n, d),
                Zero::Anywhere => Growth::Towards(rng.pick(&[n, -n]), d),
            }
        }
    }
}

fn style(rng: &mut Rng) -> Style {
    match rng.below(12) {
        0 => Style::AllEven,
        1 => Style::AllOdd,
        2 => Style::AllFree,
        3 => Style::Nested,
        4 => Style::Neighbours,
        5 => Style::Mixed { even: 50, odd: 50 },
        6 => Style::Mixed { even: 0, odd: 40 },
        7 => Style::Mixed { even: 40, odd: 0 },
        _ => Style::Mixed {
            even: rng.below(45),
            odd: rng.below(45),
        },
    }
}

/// A sound symbol with v vertices.
pub fn draft_of_size(rng: &mut Rng, v: usize) -> Draft {
    let zero = zero(rng);
    let growth = growth(rng, zero);
    let style = style(rng);
    Draft {
        vertices: polygon(rng, v, zero, growth),
        pairings: pairings(rng, v + 1, style, &[]),
    }
}

/// A sound symbol of some size.
pub fn draft(rng: &mut Rng) -> Draft {
    let v = size(rng);
    draft_of_size(rng, v)
}

/// A symbol with many cusps of prime power width, so that the level comes near
/// 2^64 and often beyond it.
///
/// Over each unit interval stands the vertex k + 1/2. Splitting again and again
/// to its left puts as many triangles at it as wanted, and pairing its two
/// sides with each other makes it a cusp of just that width.
pub fn many_cusps(rng: &mut Rng) -> Draft {
    const WIDTHS: [usize; 20] = [
        2, 3, 5, 7, 11, 13, 17, 19, 23, 29, 31, 37, 41, 43, 47, 53, 59, 61, 64, 49,
    ];
    let mut widths = WIDTHS.to_vec();
    rng.shuffle(&mut widths);
    widths.truncate(12 + rng.below(9));
    let first = rng.range(-(widths.len() as i64), 0);
    let mut vertices = vec![(first, 1)];
    let mut fixed = Vec::new();
    for (k, &width) in (first..).zip(&widths) {
        let middle = (2 * k + 1, 2);
        let mut left = (k, 1);
        for _ in 1..width {
            left = (left.0 + middle.0, left.1 + middle.1);
            vertices.push(left);
        }
        // The sides before and behind the vertex pushed next.
        fixed.push((vertices.len(), vertices.len() + 1));
        vertices.push(middle);
        vertices.push((k + 1, 1));
    }
    let style = rng.pick(&[
        Style::AllEven,
        Style::AllOdd,
        Style::Nested,
        Style::Mixed { even: 30, odd: 30 },
    ]);
    let pairings = pairings(rng, vertices.len() + 1, style, &fixed);
    Draft { vertices, pairings }
}

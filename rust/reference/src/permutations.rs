//! From two permutations to a symbol of the group that fixes point 0.
//!
//! A matrix moves a point along its alternating word: S by the one table, Q as
//! S R^-1 S. The two rules that find a symbol differ in which open side they
//! split, which is what `Rule` says. Each is here twice:
//!
//! - `by_rule` takes it at its word: it forms the matrix of every pairing that
//!   it tries, asks whether that matrix fixes point 0, and begins again after
//!   each split;
//! - `by_points` keeps for each side the point that its frame takes 0 to, which
//!   decides every pairing without a matrix, and after a split visits only the
//!   open sides that one of the two new ones can have changed. It is quick
//!   enough for 3,066 points.

use crate::matrix::{Matrix, Q, S, T};
use crate::refusal::Refusal;
use crate::symbol::{EVEN, MAX_ENTRY, ODD};
use crate::text::MAX_POINTS;
use crate::word::{alternating_word, Turn};

/// Two tables that have passed the checks 12 to 15.
#[derive(Clone, Debug, PartialEq, Eq)]
pub struct Action {
    s: Vec<usize>,
    r: Vec<usize>,
}

/// Which of the open sides is split.
#[derive(Clone, Copy, Debug, PartialEq, Eq)]
pub enum Rule {
    /// The leftmost one: `import`.
    Leftmost,
    /// The one that has been open longest: `import_wide`.
    Wide,
}

impl Rule {
    /// The side to split, if one is open. `since` says of each side when it
    /// came to be, and is read for open sides alone.
    fn choice(self, marks: &[Mark], since: &[usize]) -> Option<usize> {
        let mut open = (0..marks.len()).filter(|&i| marks[i] == Mark::Open);
        match self {
            Rule::Leftmost => open.next(),
            Rule::Wide => open.min_by_key(|&i| since[i]),
        }
    }
}

/// A symbol as numbers.
#[derive(Clone, Debug, PartialEq, Eq)]
pub struct Imported {
    /// Numerators and denominators.
    pub vertices: Vec<(i64, i64)>,
    pub pairings: Vec<i64>,
}

/// The entries as points, or refusal 13 at the first entry that is outside the
/// table or equal to an earlier one.
fn permutation(entries: &[i64]) -> Result<Vec<usize>, Refusal> {
    let mut seen = vec![false; entries.len()];
    let mut points = Vec::new();
    for (i, &entry) in entries.iter().enumerate() {
        let point = usize::try_from(entry).ok();
        match point.filter(|&point| seen.get(point) == Some(&false)) {
            Some(point) => {
                seen[point] = true;
                points.push(point);
            }
            None => return Err(Refusal::new(13, i)),
        }
    }
    Ok(points)
}

impl Action {
    /// Checks 12 to 15 on two tables.
    pub fn new(s: &[i64], r: &[i64]) -> Result<Action, Refusal> {
        let n = s.len();
        if n != r.len() || n < 1 || n > MAX_POINTS as usize {
            return Err(Refusal::new(12, 0));
        }
        let (s, r) = (permutation(s)?, permutation(r)?);
        if let Some(point) = (0..n).find(|&point| s[s[point]] != point) {
            return Err(Refusal::new(14, point));
        }
        if let Some(point) = (0..n).find(|&point| r[r[r[point]]] != point) {
            return Err(Refusal::new(14, point));
        }
        let action = Action { s, r };
        let mut reached = action.order();
        reached.sort_unstable();
        match (0..n).find(|&point| reached.get(point) != Some(&point)) {
            Some(point) => Err(Refusal::new(15, point)),
            None => Ok(action),
        }
    }

    /// The points that are reached from 0, in the order of their discovery
    /// along S and then along R.
    fn order(&self) -> Vec<usize> {
        let mut order = vec![0];
        let mut seen = vec![false; self.s.len()];
        seen[0] = true;
        let mut at = 0;
        while at < order.len() {
            let point = order[at];
            for image in [self.s[point], self.r[point]] {
                if !seen[image] {
                    seen[image] = true;
                    order.push(image);
                }
            }
            at += 1;
        }
        order
    }

    pub fn points(&self) -> usize {
        self.s.len()
    }

    /// The length of the table of each symbol that a rule makes: (index - e3)/3 + 1
    /// vertices, where R fixes e3 points.
    pub fn table_length(&self) -> usize {
        let fixed = (0..self.points()).filter(|&x| self.r[x] == x).count();
        3 * ((self.points() - fixed) / 3 + 1) + 1
    }

    /// The same action with the points numbered as the listing numbers cosets.
    pub fn numbered(&self) -> (Vec<u32>, Vec<u32>) {
        let order = self.order();
        let mut number = vec![0; order.len()];
        for (i, &point) in order.iter().enumerate() {
            number[point] = i as u32;
        }
        let table = |images: &[usize]| order.iter().map(|&point| number[images[point]]).collect();
        (table(&self.s), table(&self.r))
    }

    fn turned(&self, point: usize, turn: Turn) -> usize {
        let s = |point: usize| self.s[point];
        let r = |point: usize| self.r[point];
        match turn {
            Turn::S => s(point),
            Turn::Q => s(r(r(s(point)))),
            Turn::QInverse => s(r(s(point))),
        }
    }

    /// Where x takes a point.
    pub fn moved(&self, point: usize, x: Matrix) -> usize {
        alternating_word(x)
            .into_iter()
            .fold(point, |point, turn| self.turned(point, turn))
    }

    fn fixes(&self, x: Matrix) -> bool {
        self.moved(0, x) == 0
    }

    /// The finished symbol of the two groups that need no triangle, or else the
    /// vertices to start from.
    fn beginning(&self) -> Result<Imported, Vec<(i64, i64)>> {
        let one_vertex = |pairings: [i64; 2]| {
            Ok(Imported {
                vertices: vec![(0, 1)],
                pairings: pairings.to_vec(),
            })
        };
        if self.fixes(S) && self.fixes(T) {
            one_vertex([EVEN, ODD])
        } else if self.fixes(Q) && self.fixes(S * Q * S.inverse()) {
            one_vertex([ODD, ODD])
        } else if !self.fixes(Q) {
            Err(vec![(0, 1), (1, 1)])
        } else {
            Err(vec![(-1, 1), (0, 1)])
        }
    }

    /// The symbol by the rule to the letter, or refusal 16.
    pub fn by_rule(&self, rule: Rule) -> Result<Imported, Refusal> {
        let mut vertices = match self.beginning() {
            Ok(imported) => return Ok(imported),
            Err(vertices) => vertices,
        };
        let mut marks = vec![Mark::Open; vertices.len() + 1];
        let mut came = marks.len();
        let mut since: Vec<usize> = (0..came).collect();
        let mut pairs = 0;
        loop {
            // Visit the open sides from the left.
            for i in 0..marks.len() {
                if marks[i] != Mark::Open {
                    continue;
                }
                let m = frame(&vertices, i);
                if self.fixes(m * S * m.inverse()) {
                    marks[i] = Mark::Even;
                } else if self.fixes(m * Q * m.inverse()) {
                    marks[i] = Mark::Odd;
                } else {
                    let partner = (i + 1..marks.len()).find(|&k| {
                        marks[k] == Mark::Open && self.fixes(frame(&vertices, k) * S * m.inverse())
                    });
                    if let Some(k) = partner {
                        pairs += 1;
                        marks[i] = Mark::Free(pairs);
                        marks[k] = Mark::Free(pairs);
                    }
                }
            }
            // Split one that stays open.
            let Some(side) = rule.choice(&marks, &since) else {
                break;
            };
            let (left, right) = ends(&vertices, side);
            vertices.insert(side, mediant(left, right, side)?);
            marks.insert(side, Mark::Open);
            // The left part came before the right one.
            since[side] = came + 1;
            since.insert(side, came);
            came += 2;
        }
        Ok(Imported {
            vertices,
            pairings: labelled(&marks),
        })
    }

    /// The symbol by the points of the sides, or refusal 16.
    pub fn by_points(&self, rule: Rule) -> Result<Imported, Refusal> {
        let mut vertices = match self.beginning() {
            Ok(imported) => return Ok(imported),
            Err(vertices) => vertices,
        };
        let mut points: Vec<usize> = (0..=vertices.len())
            .map(|i| self.moved(0, frame(&vertices, i)))
            .collect();
        let mut marks = vec![Mark::Open; points.len()];
        let mut came = marks.len();
        let mut since: Vec<usize> = (0..came).collect();
        let mut pairs = 0;
        for i in 0..marks.len() {
            self.visit(&points, &mut marks, i, &mut pairs);
        }
        while let Some(side) = rule.choice(&marks, &since) {
            let (left, right) = ends(&vertices, side);
            vertices.insert(side, mediant(left, right, side)?);
            // The left part has the frame M Q S, the right part M Q^-1 S.
            let [one, other] = [Turn::Q, Turn::QInverse]
                .map(|turn| self.turned(self.turned(points[side], turn), Turn::S));
            points[side] = other;
            points.insert(side, one);
            since[side] = came + 1;
            since.insert(side, came);
            came += 2;
            marks.insert(side, Mark::Open);
            for i in 0..marks.len() {
                let across = self.turned(points[i], Turn::S);
                if i == side || i == side + 1 || across == one || across == other {
                    self.visit(&points, &mut marks, i, &mut pairs);
                }
            }
        }
        Ok(Imported {
            vertices,
            pairings: labelled(&marks),
        })
    }

    /// Pairs a side by its point, if it is open and that can be done now.
    fn visit(&self, points: &[usize], marks: &mut [Mark], i: usize, pairs: &mut usize) {
        if marks[i] != Mark::Open {
            return;
        }
        let across = self.turned(points[i], Turn::S);
        if across == points[i] {
            marks[i] = Mark::Even;
        } else if self.turned(points[i], Turn::Q) == points[i] {
            marks[i] = Mark::Odd;
        } else if let Some(k) =
            (i + 1..marks.len()).find(|&k| marks[k] == Mark::Open && points[k] == across)
        {
            *pairs += 1;
            marks[i] = Mark::Free(*pairs);
            marks[k] = Mark::Free(*pairs);
        }
    }
}

/// What is known of a side.
#[derive(Clone, Copy, Debug, PartialEq, Eq)]
enum Mark {
    Open,
    Even,
    Odd,
    /// Free, with the number of its pair in the order of pairing.
    Free(usize),
}

fn ends(vertices: &[(i64, i64)], side: usize) -> ((i64, i64), (i64, i64)) {
    let left = if side == 0 {
        (-1, 0)
    } else {
        vertices[side - 1]
    };
    let right = vertices.get(side).copied().unwrap_or((1, 0));
    (left, right)
}

fn frame(vertices: &[(i64, i64)], side: usize) -> Matrix {
    let ((a, b), (a2, b2)) = ends(vertices, side);
    Matrix::from_entries([a2, a, b2, b])
}

/// The vertex that splits a side, or refusal 16 for that side.
fn mediant(left: (i64, i64), right: (i64, i64), side: usize) -> Result<(i64, i64), Refusal> {
    let (num, den) = (left.0 + right.0, left.1 + right.1);
    if num.abs() > MAX_ENTRY || den > MAX_ENTRY {
        return Err(Refusal::new(16, side));
    }
    Ok((num, den))
}

/// Pairings of settled sides, labels 1, 2, .. by their leftmost side.
fn labelled(marks: &[Mark]) -> Vec<i64> {
    let mut met = Vec::new();
    marks
        .iter()
        .map(|&mark| match mark {
            Mark::Even => EVEN,
            Mark::Odd => ODD,
            Mark::Free(pair) => {
                let known = met.iter().position(|&other| other == pair);
                let label = known.unwrap_or_else(|| {
                    met.push(pair);
                    met.len() - 1
                });
                label as i64 + 1
            }
            Mark::Open => unreachable!("a finished symbol has no open side"),
        })
        .collect()
}

impl Imported {
    pub fn v(&self) -> usize {
        self.vertices.len()
    }

    /// v, the vertex entries, the pairings.
    pub fn numbers(&self) -> Vec<i64> {
        let mut numbers = vec![self.v() as i64];
        numbers.extend(self.vertices.iter().flat_map(|&(a, b)| [a, b]));
        numbers.extend(&self.pairings);
        numbers
    }
}

/// A whole import with `space` numbers lent for the table of the symbol:
/// refusals 12 to 15, 11, 16.
pub fn import_pair(rule: Rule, s: &[i64], r: &[i64], space: usize) -> Result<Imported, Refusal> {
    let action = Action::new(s, r)?;
    let needed = action.table_length();
    if space < needed {
        return Err(Refusal::new(11, needed));
    }
    action.by_points(rule)
}

#[cfg(test)]
mod tests;

//! Permutation pairs: transitive ones from dice or from symbols, and damaged ones.
//! Those of long rows of triangles and of trees are in `deep`.

pub use super::deep::{
    fraction_at_the_limit, pair_towards, rows_pair, tree_pair, zigzag_pair, Tree,
};
use super::drafts::{draft_of_size, pairings, polygon, size, Growth, Style, Zero};
use super::rng::Rng;
use crate::coset::Cosets;
use crate::permutations::Action;
use crate::symbol::{Symbol, EVEN, ODD};
use crate::text::MAX_POINTS;

/// The tables of S and R as numbers, on their way to a text.
#[derive(Clone, Debug, PartialEq, Eq)]
pub struct Pair {
    pub s: Vec<i64>,
    pub r: Vec<i64>,
}

impl Pair {
    /// n, then S, then R.
    pub fn numbers(&self) -> Vec<i64> {
        let mut numbers = vec![self.s.len() as i64];
        numbers.extend(&self.s);
        numbers.extend(&self.r);
        numbers
    }

    pub fn points(&self) -> usize {
        self.s.len()
    }

    /// The tables of a symbol.
    pub fn of_symbol(symbol: &Symbol) -> Pair {
        let cosets = Cosets::new(symbol);
        let wide = |table: &[u32]| table.iter().map(|&point| point.into()).collect();
        Pair {
            s: wide(&cosets.s),
            r: wide(&cosets.r),
        }
    }

    /// The same pair with point p called names[p].
    pub fn renamed(&self, names: &[usize]) -> Pair {
        let table = |images: &[i64]| {
            let mut table = vec![0; images.len()];
            for (point, &image) in images.iter().enumerate() {
                table[names[point]] = names[image as usize] as i64;
            }
            table
        };
        Pair {
            s: table(&self.s),
            r: table(&self.r),
        }
    }
}

/// All pairs of n points that pass the checks, under every numbering.
pub fn all_pairs(n: usize) -> Vec<Pair> {
    let mut permutations = vec![vec![]];
    for _ in 0..n {
        permutations = permutations
            .into_iter()
            .flat_map(|start: Vec<i64>| {
                let free = (0..n as i64).filter(|image| !start.contains(image));
                let next = |image| [start.clone(), vec![image]].concat();
                free.map(next).collect::<Vec<_>>()
            })
            .collect();
    }
    let of_order = |k: usize| {
        let back =
            |p: &&Vec<i64>| (0..n).all(|start| (0..k).fold(start, |at, _| p[at] as usize) == start);
        permutations.iter().filter(back).collect::<Vec<_>>()
    };
    let (twos, threes) = (of_order(2), of_order(3));
    let pairs = twos
        .iter()
        .flat_map(|&s| threes.iter().map(move |&r| (s, r)));
    pairs
        .filter(|(s, r)| Action::new(s, r).is_ok())
        .map(|(s, r)| Pair {
            s: s.clone(),
            r: r.clone(),
        })
        .collect()
}

/// A random permutation with cycles of one length and this many fixed points.
fn cycles(rng: &mut Rng, n: usize, length: usize, fixed: usize) -> Vec<i64> {
    let mut points: Vec<usize> = (0..n).collect();
    rng.shuffle(&mut points);
    let mut table: Vec<i64> = (0..n as i64).collect();
    for cycle in points[fixed..].chunks_exact(length) {
        for (i, &point) in cycle.iter().enumerate() {
            table[point] = cycle[(i + 1) % length] as i64;
        }
    }
    table
}

/// A transitive pair of n points from dice.
pub fn dice_pair(rng: &mut Rng, n: usize) -> Pair {
    // A few fixed points; with more of them one orbit gets rare, so every
    // attempt has fewer.
    let mut most = n * rng.pick(&[0, 5, 25, 50]) / 100;
    loop {
        let (e2, e3) = (rng.below(most + 1), rng.below(most + 1));
        let pair = Pair {
            s: cycles(rng, n, 2, e2),
            r: cycles(rng, n, 3, e3),
        };
        if Action::new(&pair.s, &pair.r).is_ok() {
            return pair;
        }
        most /= 2;
    }
}

/// New names for all points, or for all but 0.
fn names(rng: &mut Rng, n: usize, move_base: bool) -> Vec<usize> {
    let mut names: Vec<usize> = (0..n).collect();
    if move_base {
        rng.shuffle(&mut names);
    } else {
        rng.shuffle(&mut names[1..]);
    }
    names
}

/// The pair of a random symbol with v vertices, as long as it has at most 3,066
/// points; named anew, and perhaps with another point for 0.
pub fn symbol_pair(rng: &mut Rng, v: usize) -> Pair {
    let mut v = v;
    loop {
        let draft = draft_of_size(rng, v);
        let symbol = Symbol::from_numbers(&draft.numbers()).expect("a draft is sound");
        let pair = Pair::of_symbol(&symbol);
        if pair.points() > MAX_POINTS as usize {
            v -= 1 + v / 20;
            continue;
        }
        let move_base = rng.chance(50);
        let names = names(rng, pair.points(), move_base);
        return pair.renamed(&names);
    }
}

/// Free pairs that leave an import's entries small: the outer sides, the two
/// sides at a vertex that only one triangle has, and a few pairs across.
fn few_free_pairs(rng: &mut Rng, vertices: &[(i64, i64)]) -> Vec<(usize, usize)> {
    let v = vertices.len();
    let mut wishes = Vec::new();
    if rng.chance(50) {
        wishes.push((0, v));
    }
    for _ in 0..rng.below(4) {
        wishes.push((rng.below(v + 1), rng.below(v + 1)));
    }
    let share = rng.pick(&[0, 20, 80]);
    for i in 1..v.saturating_sub(1) {
        if vertices[i].1 == vertices[i - 1].1 + vertices[i + 1].1 && rng.chance(share) {
            wishes.push((i, i + 1));
        }
    }
    let mut taken = vec![false; v + 1];
    wishes.retain(|&(i, k)| {
        let free = i != k && !taken[i] && !taken[k];
        taken[i] |= free;
        taken[k] |= free;
        free
    });
    wishes
}

/// The pair of a polygon with few free pairs across. An import finds nearly
/// this polygon again, so entries mostly stay small, with 3,066 points too.
pub fn shallow_pair(rng: &mut Rng, v: usize) -> Pair {
    let vertices = polygon(rng, v, Zero::First, Growth::Even);
    let fixed = few_free_pairs(rng, &vertices);
    let mut pairings = pairings(rng, v + 1, Style::AllEven, &fixed);
    // Odd sides in place of even ones, as many as the points allow.
    let mut room = (MAX_POINTS as usize).saturating_sub(3 * (v - 1));
    let share = rng.below(101);
    let mut sides: Vec<usize> = (0..=v).collect();
    rng.shuffle(&mut sides);
    for side in sides {
        if pairings[side] == EVEN && room > 0 && rng.chance(share) {
            pairings[side] = ODD;
            room -= 1;
        }
    }
    renamed(rng, &Pair::of_symbol(&sound(&vertices, &pairings)))
}

pub(super) fn sound(vertices: &[(i64, i64)], pairings: &[i64]) -> Symbol {
    let mut table: Vec<i64> = vertices.iter().flat_map(|&(a, b)| [a, b]).collect();
    table.extend(pairings);
    Symbol::new(vertices.len() as i64, &table).expect("the polygon and its pairings are sound")
}

/// The pair with new names, 0 for the same point.
pub fn renamed(rng: &mut Rng, pair: &Pair) -> Pair {
    let names = names(rng, pair.points(), false);
    pair.renamed(&names)
}

/// The pair with new names, 0 for the point `base`.
pub fn based(rng: &mut Rng, pair: &Pair, base: usize) -> Pair {
    let mut names = names(rng, pair.points(), true);
    let holder = names.iter().position(|&name| name == 0);
    names.swap(base, holder.expect("0 is a name"));
    pair.renamed(&names)
}

/// A sound pair of some kind and size.
pub fn pair(rng: &mut Rng) -> Pair {
    match rng.below(20) {
        0..=8 => {
            let most = rng.pick(&[4, 8, 30, 30, 100]);
            let n = 1 + rng.below(most);
            dice_pair(rng, n)
        }
        9 => {
            let n = 1 + rng.below(MAX_POINTS as usize);
            dice_pair(rng, n)
        }
        10..=14 => {
            let v = size(rng);
            symbol_pair(rng, v)
        }
        15..=17 => {
            let v = size(rng);
            shallow_pair(rng, v)
        }
        18 => {
            let splits = 30 + rng.below(30);
            zigzag_pair(rng, splits)
        }
        _ => {
            let (num, den) = fraction_at_the_limit(rng);
            pair_towards(rng, num, den).0
        }
    }
}

/// The refusals that damage to a sound pair brings about.
pub const PAIR_FAULTS: [u32; 4] = [12, 13, 14, 15];

/// Two pairs side by side, their points mixed: no way leads from one to the
/// other.
fn side_by_side(rng: &mut Rng, one: &Pair, other: &Pair) -> Pair {
    let shift = one.points() as i64;
    let beside = |a: &[i64], b: &[i64]| {
        let moved = b.iter().map(|&image| image + shift);
        a.iter().copied().chain(moved).collect()
    };
    let both = Pair {
        s: beside(&one.s, &other.s),
        r: beside(&one.r, &other.r),
    };
    let names = names(rng, both.points(), true);
    both.renamed(&names)
}

/// Puts a fault into the numbers of a sound pair (n first). If true is
/// returned, the refusal has the number asked for. False means that this pair
/// is no place for such a fault.
pub fn put_pair_fault(rng: &mut Rng, numbers: &mut Vec<i64>, fault: u32) -> bool {
    let n = numbers[0] as usize;
    let table = 1 + n * rng.below(2);
    match fault {
        12 => {
            numbers[0] = rng.pick(&[
                0,
                -1,
                MAX_POINTS + 1,
                MAX_POINTS + 2,
                n as i64 + (1 << 16),
                n as i64 + (1 << 32),
                -(n as i64),
                i64::MAX,
                i64::MIN,
            ]);
            if rng.chance(50) {
                let kept = 1 + rng.below(numbers.len());
                numbers.truncate(kept);
            }
            true
        }
        13 => {
            let i = rng.below(n);
            let old = numbers[table + i];
            let twice = numbers[table + rng.below(n)];
            let outside = rng.pick(&[
                -1,
                n as i64,
                n as i64 + 1,
                old + (1 << 16),
                old + (1 << 32),
                old - (1 << 32),
                i64::MAX,
                i64::MIN,
            ]);
            numbers[table + i] = if twice != old && rng.chance(50) {
                twice
            } else {
                outside
            };
            true
        }
        14 => {
            if n < 3 {
                return false;
            }
            // Two images change places; some such changes keep the order.
            let (i, k) = (rng.below(n), rng.below(n));
            numbers.swap(table + i, table + k);
            let (s, r) = (&numbers[1..=n], &numbers[1 + n..]);
            matches!(Action::new(s, r), Err(refusal) if refusal.number == 14)
        }
        15 => {
            let one = Pair {
                s: numbers[1..=n].to_vec(),
                r: numbers[1 + n..].to_vec(),
            };
            let room = MAX_POINTS as usize - n;
            if room == 0 {
                return false;
            }
            let points = 1 + rng.below(room.min(20));
            let other = dice_pair(rng, points);
            *numbers = side_by_side(rng, &one, &other).numbers();
            true
        }
        _ => panic!("no fault {fault} of a pair"),
    }
}

//! `farey_import_wide` on the groups that people bring: congruence groups, large
//! transitive pairs with few and with many fixed points, and deep groups that
//! no order of splitting helps.
//!
//! Of each symbol its own tables (`farey_tables`) are compared with the given
//! permutations, renumbered from point 0 on by the reference; and the answer
//! is compared with the reference's, number by number.

use farey::{calls, Symbol, Tables};
use reference::congruence::{gamma, gamma0, gamma1};
use reference::permutations::{Action, Rule};
use reference::random::pairs::{all_pairs, renamed, rows_pair, tree_pair, zigzag_pair, Pair, Tree};
use reference::random::Rng;

const MOST_POINTS: usize = 3_066;

fn points(table: &[i64]) -> Vec<u32> {
    table
        .iter()
        .map(|&point| point.try_into().expect("points are small"))
        .collect()
}

fn action(pair: &Pair) -> Action {
    Action::new(&pair.s, &pair.r).unwrap_or_else(|r| panic!("{r}"))
}

/// What the call makes of a sound pair is what the reference makes of it, and a
/// symbol's tables are the given ones, renumbered. Its largest entry, or the
/// place of refusal 16.
fn checked(pair: &Pair, name: &str) -> Result<i64, usize> {
    let action = action(pair);
    let expected = action.by_points(Rule::Wide);
    let symbol = match Symbol::from_permutations_wide(&points(&pair.s), &points(&pair.r)) {
        Ok(symbol) => symbol,
        Err(refusal) => {
            let expected = expected.expect_err(name);
            assert_eq!(refusal.number, 16, "{name}");
            assert_eq!(refusal.number, expected.number.into(), "{name}");
            assert_eq!(refusal.place as u64, expected.place, "{name}");
            return Err(refusal.place);
        }
    };
    let Tables { s, r, .. } = symbol.tables();
    assert_eq!((s, r), action.numbered(), "{name}");
    let expected = expected.unwrap_or_else(|r| panic!("{name}: {r}"));
    assert_eq!(symbol.table(), &expected.numbers()[1..], "{name}");
    assert!(symbol.vertices() <= pair.points() / 3 + 1, "{name}");
    let entries = &symbol.table()[..2 * symbol.vertices()];
    let largest = entries.iter().map(|entry| entry.abs()).max();
    Ok(largest.expect("there is a vertex"))
}

/// What was met of a family of groups.
#[derive(Default, Debug, PartialEq)]
struct Met {
    groups: usize,
    /// The largest entry of a symbol by the wide rule.
    largest: i64,
    /// How many the leftmost rule refuses, with 16.
    refused_from_the_left: usize,
}

impl Met {
    /// A group of its index by a formula, with its points named anew. It has a
    /// symbol.
    fn add(&mut self, rng: &mut Rng, pair: &Pair, index: usize, name: &str) {
        assert_eq!(pair.points(), index, "{name}");
        let pair = renamed(rng, pair);
        let entry = checked(&pair, name);
        let entry = entry.unwrap_or_else(|place| panic!("{name}: refused 16 {place}"));
        self.groups += 1;
        self.largest = self.largest.max(entry);
        let leftmost = Symbol::from_permutations_leftmost(&points(&pair.s), &points(&pair.r));
        let expected = action(&pair).by_points(Rule::Leftmost);
        assert_eq!(leftmost.is_err(), expected.is_err(), "{name}");
        self.refused_from_the_left += usize::from(leftmost.is_err());
    }
}

/// N Π(1 + 1/p) and N² Π(1 - 1/p²), over the primes p of N.
fn lines_and_rows(n: usize) -> (usize, usize) {
    let primes = (2..=n).filter(|p| n % p == 0 && (2..*p).all(|q| p % q != 0));
    primes.fold((n, n * n), |(lines, rows), p| {
        (lines + lines / p, rows - rows / (p * p))
    })
}

/// All Γ0(N) for N up to 1,000 have a symbol; no entry is over 545.
#[test]
fn gamma0_to_1000() {
    let mut rng = Rng::new(90);
    let mut met = Met::default();
    for n in 1..=1_000 {
        let (index, _) = lines_and_rows(n);
        met.add(&mut rng, &gamma0(n), index, &format!("Γ0({n})"));
    }
    let expected = Met {
        groups: 1_000,
        largest: 545,
        refused_from_the_left: 778,
    };
    assert_eq!(met, expected);
}

/// All Γ1(N) and Γ(N) within the limit of the index, for N over 2; no entry is
/// over 1,001. The index of Γ1(N) is over 3 N²/10, so that N is at most 101.
#[test]
fn gamma1_and_gamma() {
    let mut rng = Rng::new(91);
    let mut met = Met::default();
    for n in 3..=101 {
        let (_, rows) = lines_and_rows(n);
        for (kind, group, index) in [
            ("Γ1", gamma1 as fn(usize) -> Pair, rows / 2),
            ("Γ", gamma, n * rows / 2),
        ] {
            if index <= MOST_POINTS {
                met.add(&mut rng, &group(n), index, &format!("{kind}({n})"));
            }
        }
    }
    let expected = Met {
        groups: 100,
        largest: 1_001,
        refused_from_the_left: 70,
    };
    assert_eq!(met, expected);
}

/// A permutation of n points with cycles of this length and so many fixed
/// points, or some more if the cycles don't fill the rest.
fn cycles(rng: &mut Rng, n: usize, length: usize, fixed: usize) -> Vec<i64> {
    let mut order: Vec<usize> = (0..n).collect();
    rng.shuffle(&mut order);
    let mut table: Vec<i64> = (0..n as i64).collect();
    for cycle in order[fixed..].chunks_exact(length) {
        for (i, &point) in cycle.iter().enumerate() {
            table[point] = cycle[(i + 1) % length] as i64;
        }
    }
    table
}

/// Points that are thrown together until all are reached from 0: at random with
/// few fixed points, and along a tree with many.
#[test]
fn random_pairs() {
    let mut rng = Rng::new(92);
    let mut largest = [0; 2];
    for case in 0..150 {
        let n = match case {
            0..=9 => MOST_POINTS - case,
            _ => 1 + rng.below(MOST_POINTS),
        };
        let few = loop {
            let (e2, e3) = (rng.below(4), rng.below(4));
            let pair = Pair {
                s: cycles(&mut rng, n, 2, e2.min(n)),
                r: cycles(&mut rng, n, 3, e3.min(n)),
            };
            if Action::new(&pair.s, &pair.r).is_ok() {
                break pair;
            }
        };
        let entry = checked(&few, "few fixed points").expect("no deep row");
        largest[0] = largest[0].max(entry);

        let many = bushy(&mut rng, n.max(3));
        let fixed = |table: &[i64]| (0..table.len()).filter(|&i| table[i] == i as i64).count();
        assert!(fixed(&many.s) + fixed(&many.r) >= n.max(3) / 4);
        let entry = checked(&many, "many fixed points").expect("no deep row");
        largest[1] = largest[1].max(entry);
    }
    // A polygon of a thousand vertices isn't flat, and none of these is deep.
    assert!(
        largest.iter().all(|entry| (100..100_000).contains(entry)),
        "{largest:?}"
    );
}

/// A tree of at most n points, all of whose sides are even or odd: a random side
/// is split while there is room for a triangle, and perhaps an odd side of it.
fn bushy(rng: &mut Rng, n: usize) -> Pair {
    fn grow(rng: &mut Rng, triangles: usize, odd: usize) -> Tree {
        if triangles == 0 {
            return match rng.chance(odd) {
                true => Tree::Odd,
                false => Tree::Even,
            };
        }
        let left = rng.below(triangles);
        let one = grow(rng, left, odd);
        let other = grow(rng, triangles - 1 - left, odd);
        Tree::Triangle(Box::new(one), Box::new(other))
    }
    let odd = rng.pick(&[0, 0, 50, 100]);
    // A triangle has three points; there are two sides more than triangles.
    let per_triangle = if odd > 0 { 4 } else { 3 };
    let triangles = (n / per_triangle).saturating_sub(1);
    let first = rng.below(triangles + 1);
    let second = rng.below(triangles - first + 1);
    let sizes = [first, second, triangles - first - second];
    let trees = sizes.map(|size| grow(rng, size, odd));
    tree_pair(rng, trees)
}

/// Rows of triangles that turn by turns: refused with 16 at the reference's
/// place, and just short of that still answered.
#[test]
fn deep_groups() {
    let mut rng = Rng::new(93);
    let (mut made, mut refused, mut deepest) = (0, 0, 0);
    for case in 0..400 {
        let pair = match case % 2 {
            0 => zigzag_pair(&mut rng, 20 + case / 8),
            _ => rows_pair(&mut rng),
        };
        match checked(&pair, "a deep group") {
            Ok(entry) => {
                deepest = deepest.max(entry);
                made += 1;
            }
            Err(_) => refused += 1,
        }
    }
    assert!(
        made >= 50 && refused >= 150,
        "{made} made, {refused} refused"
    );
    assert!(deepest > 100_000_000, "{deepest}");
}

/// Γ0(120): the leftmost rule needs an entry over 10^9, the wide one doesn't.
#[test]
fn gamma0_120_by_both_rules() {
    let pair = gamma0(120);
    let (s, r) = (points(&pair.s), points(&pair.r));
    let leftmost = Symbol::from_permutations_leftmost(&s, &r).expect_err("too deep");
    let expected = action(&pair)
        .by_points(Rule::Leftmost)
        .expect_err("too deep");
    assert_eq!(leftmost.number, 16);
    assert_eq!(leftmost.place as u64, expected.place);
    assert!(checked(&pair, "Γ0(120)").is_ok_and(|entry| entry < 100));
}

/// Every pair of up to six points.
#[test]
fn all_tiny_pairs() {
    for n in 1..=6 {
        for pair in all_pairs(n) {
            checked(&pair, "a tiny pair").expect("small entries");
        }
    }
}

/// The largest index that Γ0(N) has for N up to 1,000, with spaces that are one
/// number short and just long enough, full of other numbers.
#[test]
fn spaces_for_gamma0_990() {
    let pair = gamma0(990);
    let (s, r) = (points(&pair.s), points(&pair.r));
    let expected = action(&pair).by_points(Rule::Wide).expect("small entries");
    let table = &expected.numbers()[1..];
    assert_eq!(s.len(), 2_592);

    let mut work = vec![7; calls::WORK - 1];
    let mut out = vec![9; table.len() + 1];
    let short = calls::import_wide(&s, &r, &mut work, &mut out);
    assert_eq!(
        short.map_err(|r| (r.number, r.place)),
        Err((11, calls::WORK))
    );
    assert!(work.iter().all(|&number| number == 7));
    assert!(out.iter().all(|&number| number == 9));

    let mut work = vec![7; calls::WORK + 1];
    let mut out = vec![9; table.len() - 1];
    let short = calls::import_wide(&s, &r, &mut work, &mut out);
    assert_eq!(
        short.map_err(|r| (r.number, r.place)),
        Err((11, table.len()))
    );
    assert!(work.iter().all(|&number| number == 0));
    assert!(out.iter().all(|&number| number == 9));

    let mut work = vec![7; calls::WORK];
    let mut out = vec![9; table.len() + 1];
    let came = calls::import_wide(&s, &r, &mut work, &mut out);
    assert_eq!(came, Ok(expected.v()));
    assert!(work.iter().all(|&number| number == 0));
    assert_eq!(&out[..table.len()], table);
    assert_eq!(out[table.len()], 9);
}

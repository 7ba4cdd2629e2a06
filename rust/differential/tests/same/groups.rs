//! Symbols of one group and of several.

use super::*;

#[test]
fn two_symbols_of_gamma0_2() {
    let one = [2, 0, 1, 1, 1, 1, -2, 1];
    let moved = [2, -1, 1, 0, 1, 1, -2, 1];
    assert!(same_both_ways(&one, &moved));
    assert!(same_both_ways(&one, &[2, 0, 1, 1, 1, 3, -2, 3]));
    assert!(same_both_ways(&moved, &[2, 0, 1, 1, 1, 2, -2, 2]));
    assert!(!same_both_ways(&one, &[2, 0, 1, 1, 1, 1, -3, 1]));
}

#[test]
fn stored_groups_by_both_rules() {
    let mut others = 0;
    for one in stored_symbols() {
        let made = by_rules(&Pair::of_symbol(&sound(&one)));
        assert_eq!(made.len(), 2);
        for other in made {
            assert!(same_both_ways(&one, &other), "{one:?}, {other:?}");
            others += usize::from(one != other);
        }
    }
    let mut rng = Rng::new(71);
    for pair in stored_pairs() {
        let [one, other] = &by_rules(&pair)[..] else {
            panic!("the stored pairs are small");
        };
        assert!(same_both_ways(one, other), "{one:?}, {other:?}");
        others += usize::from(one != other);
        // The points under other names, but for point 0.
        for again in by_rules(&based(&mut rng, &pair, 0)) {
            assert!(same(one, &again));
        }
    }
    assert!(others >= 100, "only {others}");
}

#[test]
fn other_labels() {
    let mut rng = Rng::new(72);
    for numbers in stored_symbols() {
        for _ in 0..3 {
            let mut renamed = numbers.clone();
            rename(&mut rng, &mut renamed[2 * numbers[0] as usize + 1..]);
            assert!(same_both_ways(&numbers, &renamed));
        }
    }
    for case in 0..300 {
        let one = draft_of_size(&mut rng, 1 + case % 60);
        let mut other = one.clone();
        rename(&mut rng, &mut other.pairings);
        assert!(same_both_ways(&one.numbers(), &other.numbers()));
    }
}

/// The pair with point `base` called 0.
fn from_base(pair: &Pair, base: usize) -> Pair {
    let mut names: Vec<usize> = (0..pair.points()).collect();
    names.swap(0, base);
    pair.renamed(&names)
}

/// Γ0(2) and its conjugates by S and by S T, which are what fixes the other two
/// points: equal figures, and no two the same. By T it is itself.
#[test]
fn conjugates_of_gamma0_2() {
    let pair = gamma0(2);
    let groups: Vec<Vec<Numbers>> = (0..3).map(|k| by_rules(&from_base(&pair, k))).collect();
    for (i, ones) in groups.iter().enumerate() {
        for (k, others) in groups.iter().enumerate() {
            for one in ones {
                for other in others {
                    assert_eq!(same(one, other), i == k, "{one:?}, {other:?}");
                }
            }
        }
    }
    // By hand: the one with c even, which has T; the one with b even, which has the
    // transpose of T; the one that has S.
    for (i, by_hand) in [
        [2, 0, 1, 1, 1, 1, -2, 1],
        [2, 0, 1, 1, 1, 1, 1, -2],
        [2, 0, 1, 1, 1, -2, 1, 1],
    ]
    .iter()
    .enumerate()
    {
        let found: Vec<bool> = groups
            .iter()
            .map(|group| same(by_hand, &group[0]))
            .collect();
        let expected: Vec<bool> = (0..3).map(|k| k == i).collect();
        assert_eq!(found, expected, "{by_hand:?}");
    }
}

/// What fixes each point of a stored pair, and of Γ0(N) and Γ1(N): the same group
/// exactly where the points are permuted alike from there.
#[test]
fn conjugates() {
    let stored = stored_pairs()
        .into_iter()
        .filter(|pair| pair.points() <= 30);
    let named = (2..=16).flat_map(|n| [gamma0(n), gamma1(n)]);
    let (mut equal, mut different) = (0, 0);
    for pair in stored.chain(named) {
        let numbered = |pair: &Pair| Action::new(&pair.s, &pair.r).unwrap().numbered();
        let one = &by_rules(&pair)[0];
        for base in 0..pair.points() {
            let moved = from_base(&pair, base);
            let alike = numbered(&pair) == numbered(&moved);
            for other in by_rules(&moved) {
                assert_eq!(same(one, &other), alike, "base {base} of {pair:?}");
                assert_eq!(same_group(&sound(one), &sound(&other)), alike);
            }
            *if alike { &mut equal } else { &mut different } += 1;
        }
    }
    assert!(equal >= 150 && different >= 1_000, "{equal}, {different}");
}

/// All subgroups up to index 7, as many as are known (OEIS A005133), by both
/// rules: each is the same as itself alone. Many of them have equal figures.
#[test]
fn all_groups_of_small_index() {
    let mut groups: Vec<Vec<Numbers>> = Vec::new();
    for (n, expected) in (1..).zip([1, 1, 4, 8, 5, 22, 42]) {
        let numbered = |pair: &Pair| Action::new(&pair.s, &pair.r).unwrap().numbered();
        let tables: BTreeSet<(Vec<u32>, Vec<u32>)> = all_pairs(n).iter().map(numbered).collect();
        assert_eq!(tables.len(), expected, "index {n}");
        let wide = |table: &[u32]| table.iter().map(|&point| point.into()).collect();
        for (s, r) in &tables {
            let (s, r) = (wide(s), wide(r));
            groups.push(by_rules(&Pair { s, r }));
        }
    }
    let figures: Vec<Vec<usize>> = groups
        .iter()
        .map(|made| {
            let cosets = Cosets::new(&sound(&made[0]));
            let mut widths: Vec<usize> = cosets.widths().iter().map(|&w| w as usize).collect();
            widths.sort_unstable();
            [vec![cosets.index(), cosets.e2(), cosets.e3()], widths].concat()
        })
        .collect();
    let mut equal_figures = 0;
    for (i, ones) in groups.iter().enumerate() {
        for (k, others) in groups.iter().enumerate() {
            for one in ones {
                for other in others {
                    assert_eq!(same(one, other), i == k, "{one:?}, {other:?}");
                }
            }
            equal_figures += usize::from(i != k && figures[i] == figures[k]);
        }
    }
    assert!(equal_figures >= 300, "only {equal_figures}");
}

/// Symbols with entries near 10^9 and generators with entries near 10^18.
#[test]
fn large_entries() {
    let mut rng = Rng::new(73);
    let mut counts = [0; 2];
    for case in 0..200 {
        let (n, d) = (618_033_989 - case, 1_000_000_000 - 7 * case);
        let v = 45 + case as usize % 30;
        let one = Draft {
            vertices: polygon(&mut rng, v, Zero::First, Growth::Towards(n, d)),
            pairings: pairings(&mut rng, v + 1, Style::Mixed { even: 20, odd: 20 }, &[]),
        };
        let other = match case % 2 {
            0 => {
                let mut other = one.clone();
                rename(&mut rng, &mut other.pairings);
                other
            }
            _ => second(&mut rng, &one),
        };
        let (one, other) = (one.numbers(), other.numbers());
        let yes = same_both_ways(&one, &other);
        assert_eq!(yes, same_group(&sound(&one), &sound(&other)));
        counts[usize::from(yes)] += 1;
    }
    assert!(counts.iter().all(|&count| count >= 20), "{counts:?}");
}

/// Index 3,066 by both rules and by the reference's, conjugates of that, and index
/// 4,090, the largest that there is.
#[test]
fn the_largest_symbols() {
    let mut rng = Rng::new(74);
    let mut groups = 0;
    for _ in 0..8 {
        let pair = shallow_pair(&mut rng, MAX_VERTICES);
        assert_eq!(pair.points(), 3_066);
        // Some are refused from the left, with 16.
        let [one, other] = &by_rules(&pair)[..] else {
            continue;
        };
        groups += 1;
        assert_ne!(one, other);
        assert!(same_both_ways(one, other));
        for rule in RULES {
            let again = imported(rule, &pair).expect("small entries");
            assert!(same(one, &again.numbers()));
        }
        for base in [1, 2, 3_065] {
            for moved in by_rules(&from_base(&pair, base)) {
                let expected = same_group(&sound(one), &sound(&moved));
                assert_eq!(same_both_ways(one, &moved), expected);
            }
        }
    }
    assert!(groups >= 3, "only {groups}");
    let mut odd = draft_of_size(&mut rng, MAX_VERTICES);
    odd.pairings = vec![ODD; MAX_VERTICES + 1];
    assert!(pair_of(&odd).is_none());
    let odd = odd.numbers();
    assert!(same(&odd, &odd));
    let mut other = draft_of_size(&mut rng, MAX_VERTICES);
    other.pairings = vec![ODD; MAX_VERTICES + 1];
    assert!(!same_both_ways(&odd, &other.numbers()));
}

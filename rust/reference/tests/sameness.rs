//! Sameness by generators beside sameness by coset tables: stored groups by both
//! rules of import, conjugates, all groups of small index, random symbols.

use std::collections::BTreeSet;

use reference::permutations::Action;
use reference::random::drafts::{draft, draft_of_size, Draft};
use reference::random::pairs::{all_pairs, shallow_pair, Pair};
use reference::random::twins::{imported, pair_of, rename, second, RULES};
use reference::random::{same_case, Rng};
use reference::sameness::{by_tables, same_group};
use reference::symbol::{Symbol, MAX_VERTICES, ODD};
use reference::{same, Refusal};

const SYMBOLS: &str = include_str!("../data/symbols.txt");
const PAIRS: &str = include_str!("../data/permutations.txt");

fn whole_numbers(field: &str) -> Vec<i64> {
    let read = |piece: &str| piece.parse().expect("these fields hold numbers");
    field.split_whitespace().map(read).collect()
}

/// The fields of the lines that aren't remarks.
fn rows(page: &'static str) -> impl Iterator<Item = Vec<&'static str>> {
    let lines = page.lines().filter(|line| !line.starts_with('#'));
    lines.map(|line| line.split('|').map(str::trim).collect())
}

fn stored_symbols() -> Vec<Symbol> {
    let all = rows(SYMBOLS).map(|fields| whole_numbers(&fields[1..4].join(" ")));
    all.map(|numbers| Symbol::from_numbers(&numbers).expect("stored symbols are sound"))
        .collect()
}

fn stored_pairs() -> Vec<Pair> {
    let all = rows(PAIRS).map(|fields| Pair {
        s: whole_numbers(fields[1]),
        r: whole_numbers(fields[2]),
    });
    all.collect()
}

fn symbol(draft: &Draft) -> Symbol {
    Symbol::from_numbers(&draft.numbers()).expect("a draft is a sound symbol")
}

/// The symbols that the rules make of a pair.
fn by_rules(pair: &Pair) -> Vec<Symbol> {
    let found = RULES.into_iter().filter_map(|rule| imported(rule, pair));
    found.map(|draft| symbol(&draft)).collect()
}

/// The pair with point `base` called 0.
fn from_base(pair: &Pair, base: usize) -> Pair {
    let mut names: Vec<usize> = (0..pair.points()).collect();
    names.swap(0, base);
    pair.renamed(&names)
}

fn numbered(pair: &Pair) -> (Vec<u32>, Vec<u32>) {
    let action = Action::new(&pair.s, &pair.r).expect("the pair is sound");
    action.numbered()
}

#[test]
fn stored_groups_by_both_rules() {
    let (mut groups, mut others) = (0, 0);
    for one in stored_symbols() {
        for other in by_rules(&Pair::of_symbol(&one)) {
            assert!(same_group(&one, &other));
            others += usize::from(one.vertices != other.vertices);
            groups += 1;
        }
    }
    for pair in stored_pairs() {
        let [one, other] = &by_rules(&pair)[..] else {
            panic!("the stored pairs are small");
        };
        assert!(same_group(one, other));
        others += usize::from(one.vertices != other.vertices);
        groups += 1;
    }
    assert_eq!(groups, 2 * 67 + 120);
    // Most of these are two symbols of one group.
    assert!(others >= 100, "{others}");
}

/// Each conjugate of a group, as what fixes another of its points: the same group
/// where the points are permuted alike from there.
#[test]
fn conjugates() {
    let (mut equal, mut different) = (0, 0);
    let stored = stored_symbols()
        .into_iter()
        .map(|one| Pair::of_symbol(&one));
    for pair in stored.chain(stored_pairs()) {
        if pair.points() > 40 {
            continue;
        }
        let one = &by_rules(&pair)[0];
        for base in 0..pair.points() {
            let moved = from_base(&pair, base);
            let alike = numbered(&pair) == numbered(&moved);
            for other in by_rules(&moved) {
                assert_eq!(same_group(one, &other), alike, "base {base} of {pair:?}");
            }
            *if alike { &mut equal } else { &mut different } += 1;
        }
    }
    assert!(equal >= 150 && different >= 1_000, "{equal}, {different}");
}

/// Γ0(2) and its two conjugates, which are no two the same.
#[test]
fn conjugates_of_gamma0_2() {
    let pair = Pair {
        s: vec![1, 0, 2],
        r: vec![2, 0, 1],
    };
    let groups: Vec<Symbol> = (0..3)
        .map(|base| by_rules(&from_base(&pair, base))[1].clone())
        .collect();
    for (i, one) in groups.iter().enumerate() {
        for (k, other) in groups.iter().enumerate() {
            assert_eq!(same_group(one, other), i == k);
        }
    }
    let by_hand = |table: &[i64]| Symbol::new(2, table).expect("a symbol");
    // The one with c even, the one with b even, the one that has S.
    assert!(same_group(&groups[0], &by_hand(&[-1, 1, 0, 1, 1, -2, 1])));
    assert!(same_group(&groups[1], &by_hand(&[0, 1, 1, 1, 1, 1, -2])));
    assert!(same_group(&groups[2], &by_hand(&[0, 1, 1, 1, -2, 1, 1])));
}

/// All subgroups up to index 7: how many there are of each index is known
/// (OEIS A005133), and each is the same as itself alone.
#[test]
fn all_groups_of_small_index() {
    let mut groups: Vec<Vec<Symbol>> = Vec::new();
    for (n, expected) in (1..).zip([1, 1, 4, 8, 5, 22, 42]) {
        let pairs: BTreeSet<(Vec<u32>, Vec<u32>)> = all_pairs(n).iter().map(numbered).collect();
        assert_eq!(pairs.len(), expected, "index {n}");
        let wide = |table: &[u32]| table.iter().map(|&point| point.into()).collect();
        groups.extend(pairs.iter().map(|(s, r)| {
            by_rules(&Pair {
                s: wide(s),
                r: wide(r),
            })
        }));
    }
    for (i, ones) in groups.iter().enumerate() {
        for (k, others) in groups.iter().enumerate() {
            for one in ones {
                for other in others {
                    assert_eq!(same_group(one, other), i == k);
                }
            }
        }
    }
}

#[test]
fn by_generators_and_by_tables() {
    let mut rng = Rng::new(61);
    let mut counts = [0; 2];
    for case in 0..1_500 {
        let one = match case {
            0..=1_199 => draft_of_size(&mut rng, 1 + case % 30),
            _ => draft(&mut rng),
        };
        let other = second(&mut rng, &one);
        let (one, other) = (symbol(&one), symbol(&other));
        let yes = same_group(&one, &other);
        assert_eq!(yes, by_tables(&one, &other), "{one:?}\n{other:?}");
        assert_eq!(yes, same_group(&other, &one));
        counts[usize::from(yes)] += 1;
    }
    assert!(counts.iter().all(|&count| count >= 500), "{counts:?}");
}

/// The largest symbols: index 3,066 by both rules, and 4,090, where neither rule
/// helps.
#[test]
fn the_largest_symbols() {
    let mut rng = Rng::new(62);
    let mut groups = 0;
    for _ in 0..8 {
        let pair = shallow_pair(&mut rng, MAX_VERTICES);
        // Some are refused from the left, with 16.
        let [one, other] = &by_rules(&pair)[..] else {
            continue;
        };
        groups += 1;
        assert!(same_group(one, other));
        for moved in by_rules(&from_base(&pair, 1)) {
            assert_eq!(same_group(one, &moved), by_tables(one, &moved));
        }
    }
    assert!(groups >= 3, "only {groups}");
    let mut odd = draft_of_size(&mut rng, MAX_VERTICES);
    odd.pairings = vec![ODD; MAX_VERTICES + 1];
    assert!(pair_of(&odd).is_none());
    assert!(same_group(&symbol(&odd), &symbol(&odd)));
    let mut free = draft_of_size(&mut rng, MAX_VERTICES);
    assert!(!same_group(&symbol(&odd), &symbol(&free)));
    let one = symbol(&free);
    rename(&mut rng, &mut free.pairings);
    assert!(same_group(&one, &symbol(&free)));
}

/// Texts of every kind have one of the three answers.
#[test]
fn texts() {
    let mut counts = [0; 3];
    for case in 0..3_000 {
        let text = same_case(20_261_116, case);
        let kind = match same(&text).as_str() {
            "same\n" => 0,
            "different\n" => 1,
            refused => {
                assert!(refused.starts_with("refused ") && refused.ends_with('\n'));
                2
            }
        };
        counts[kind] += 1;
    }
    assert!(counts.iter().all(|&count| count >= 400), "{counts:?}");
}

/// The first symbol's refusal goes before the second's, whatever their numbers.
#[test]
fn refusals_in_order() {
    let faults = [
        ("1 0 1 -2 -2", Refusal::new(7, 0)),
        ("2 0 1 1 1 1 -4 1", Refusal::new(6, 1)),
        ("2 1 1 2 1 1 -2 1", Refusal::new(5, 0)),
        ("2 0 1 2 1 1 -2 1", Refusal::new(4, 1)),
        ("2 0 1 1000000001 1 1 -2 1", Refusal::new(3, 2)),
    ];
    let sound = "2 0 1 1 1 1 -2 1";
    for (one, refusal) in faults {
        for other in [sound, "0", "1 0 1 -2 -2"] {
            assert_eq!(
                same(format!("{one} {other}").as_bytes()),
                format!("{refusal}\n")
            );
        }
        assert_eq!(
            same(format!("{sound} {one}").as_bytes()),
            format!("{refusal}\n")
        );
    }
    assert_eq!(same(format!("{sound} 0 7 7").as_bytes()), "refused 1 0\n");
}

//! Pairs of all sizes: both rules, the rule against its quick form, and the way there and back.

use super::*;

#[test]
fn stored_pairs() {
    let mut pairs = 0;
    for line in FIGURES.lines().filter(|line| !line.starts_with('#')) {
        let fields: Vec<&str> = line.split('|').map(str::trim).collect();
        let [index, s, r, e2, e3, genus, widths] = fields[..] else {
            panic!("seven fields expected: {line}");
        };
        for program in PROGRAMS {
            let symbol = program(format!("{index}\n{s}\n{r}\n").as_bytes());
            let listed = listing(symbol.as_bytes());
            let lines: BTreeMap<&str, &str> = listed
                .lines()
                .filter_map(|line| line.split_once(' '))
                .collect();
            assert_eq!(lines["index"], index, "{line}");
            assert_eq!(lines["elliptic"], format!("{e2} {e3}"), "{line}");
            assert_eq!(lines["genus"], genus, "{line}");
            let mut sorted: Vec<u64> = lines["widths"]
                .split(' ')
                .map(|width| width.parse().expect("widths are numbers"))
                .collect();
            sorted.sort_unstable();
            let sorted: Vec<String> = sorted.iter().map(u64::to_string).collect();
            assert_eq!(sorted.join(" "), widths, "{line}");
        }
        pairs += 1;
    }
    assert_eq!(pairs, 120);
}

/// All pairs of up to six points.
#[test]
fn the_rules_and_their_quick_forms_on_all_tiny_pairs() {
    let mut counts = [0; 7];
    for (n, count) in counts.iter_mut().enumerate().skip(1) {
        for pair in all_pairs(n) {
            assert!(RULES.iter().all(|&rule| check_forms(rule, &pair)));
            *count += 1;
        }
    }
    // A subgroup of index n comes with (n - 1)! numberings; there are 1, 1, 4,
    // 8, 5, 22 of them.
    assert_eq!(counts, [0, 1, 1, 8, 48, 120, 2_640]);
}

#[test]
fn the_rules_and_their_quick_forms_on_random_pairs() {
    for rule in RULES {
        let mut rng = Rng::new(71);
        let (mut made, mut refused) = (0, 0);
        for case in 0..3_000 {
            let n = 1 + rng.below(60);
            let v = 1 + rng.below(20);
            let pair = match case % 5 {
                0 | 1 => dice_pair(&mut rng, n),
                2 => symbol_pair(&mut rng, v),
                3 => shallow_pair(&mut rng, v),
                _ if case % 20 == 4 => {
                    let splits = 30 + rng.below(30);
                    zigzag_pair(&mut rng, splits)
                }
                _ => dice_pair(&mut rng, 2 * n),
            };
            if check_forms(rule, &pair) {
                made += 1;
            } else {
                refused += 1;
            }
        }
        assert!(
            made > 2_000 && refused > 20,
            "{rule:?}: {made} made, {refused} refused"
        );
    }
}

/// The two rules on the same pairs: the wide one answers wherever the other
/// does, here, and mostly where that one is refused.
#[test]
fn the_wide_rule_answers_more_often() {
    let mut rng = Rng::new(80);
    let mut counts = BTreeMap::new();
    for _ in 0..200 {
        let n = 100 + rng.below(500);
        let action = action(&dice_pair(&mut rng, n));
        let [leftmost, wide] = RULES.map(|rule| action.by_points(rule).is_ok());
        *counts.entry((leftmost, wide)).or_insert(0) += 1;
    }
    assert_eq!(counts.get(&(true, false)), None, "{counts:?}");
    assert_eq!(counts.get(&(false, false)), None, "{counts:?}");
    assert!(counts[&(false, true)] > 100, "{counts:?}");
}

#[test]
fn large_pairs() {
    for (rule, least, refusals) in [(Rule::Leftmost, 150, 20), (Rule::Wide, 280, 3)] {
        let mut rng = Rng::new(72);
        let (mut made, mut refused) = (0, 0);
        let mut largest = 0;
        for case in 0..300 {
            let pair = match case % 3 {
                0 => dice_pair(&mut rng, 3_066 - case),
                1 => {
                    let v = 1_023 - case;
                    shallow_pair(&mut rng, v)
                }
                _ => pair(&mut rng),
            };
            let action = action(&pair);
            match action.by_points(rule) {
                Ok(imported) => {
                    check_symbol(&action, &imported);
                    made += 1;
                    largest = largest.max(action.points());
                }
                Err(refusal) => {
                    assert_eq!(refusal.number, 16);
                    refused += 1;
                }
            }
        }
        assert!(
            made > least && refused > refusals,
            "{rule:?}: {made} made, {refused} refused"
        );
        assert!(largest > 3_000, "the largest import has {largest} points");
    }
}

/// 3,066 points and no odd side: 1,023 vertices, the most there can be.
#[test]
fn the_largest_pairs() {
    for (rule, least) in [(Rule::Leftmost, 4), (Rule::Wide, 12)] {
        let mut rng = Rng::new(73);
        let (mut made, mut free) = (0, 0);
        for _ in 0..12 {
            let pair = shallow_pair(&mut rng, 1_023);
            assert_eq!(pair.points(), 3_066);
            let action = action(&pair);
            if let Ok(imported) = action.by_points(rule) {
                assert_eq!(imported.v(), 1_023);
                check_symbol(&action, &imported);
                made += 1;
                free += usize::from(imported.pairings.iter().any(|&label| label > 10));
            }
        }
        assert!(
            made >= least && free >= 2,
            "{rule:?}: {made} made, {free} with many free sides"
        );
    }
}

/// Symbol, tables, symbol, tables: both tables are the same.
#[test]
fn there_and_back() {
    for rule in RULES {
        let mut rng = Rng::new(74);
        let (mut made, mut refused) = (0, 0);
        for case in 0..1_500 {
            let draft = match case {
                0..=500 => draft_of_size(&mut rng, 1 + case % 40),
                _ => draft(&mut rng),
            };
            let symbol = Symbol::from_numbers(&draft.numbers()).expect("a draft is sound");
            let first = Pair::of_symbol(&symbol);
            if first.points() > 3_066 {
                continue;
            }
            match action(&first).by_points(rule) {
                Ok(imported) => {
                    let symbol = Symbol::from_numbers(&imported.numbers()).expect("accepted");
                    assert_eq!(Pair::of_symbol(&symbol), first, "{draft:?}");
                    made += 1;
                }
                Err(refusal) => {
                    assert_eq!(refusal.number, 16, "{draft:?}");
                    refused += 1;
                }
            }
        }
        assert!(
            made > 700 && (refused > 10 || rule == Rule::Wide),
            "{rule:?}: {made} made, {refused} refused"
        );
    }
}

/// A symbol that an import made is made again from its own tables.
#[test]
fn an_import_repeats() {
    for rule in RULES {
        let mut rng = Rng::new(75);
        for _ in 0..500 {
            let n = 1 + rng.below(50);
            let pair = dice_pair(&mut rng, n);
            let Ok(imported) = action(&pair).by_points(rule) else {
                continue;
            };
            let symbol = Symbol::from_numbers(&imported.numbers()).expect("accepted");
            let again = action(&Pair::of_symbol(&symbol)).by_points(rule);
            assert_eq!(again, Ok(imported));
        }
    }
}

/// Congruence groups of small level by the rules to the letter.
#[test]
fn congruence_groups() {
    for n in 1..=60 {
        for rule in RULES {
            assert!(check_forms(rule, &gamma0(n)), "Γ0({n})");
            if n <= 12 {
                assert!(check_forms(rule, &gamma1(n)), "Γ1({n})");
            }
            if n <= 6 {
                assert!(check_forms(rule, &gamma(n)), "Γ({n})");
            }
        }
    }
}

/// The first level at which the leftmost open side isn't the one to split.
#[test]
fn gamma0_120() {
    for n in [120, 126, 138] {
        let pair = gamma0(n);
        assert!(!check_forms(Rule::Leftmost, &pair), "Γ0({n})");
        assert!(check_forms(Rule::Wide, &pair), "Γ0({n})");
    }
}

//! From permutations to a symbol by either rule.
//!
//! | module   | what it tests                                                                    |
//! |----------|----------------------------------------------------------------------------------|
//! | `groups` | stored pairs, congruence groups, the rule against its quick form, the way there  |
//! |          | and back                                                                         |
//! | `limits` | entries near 10^9, which rule is refused where, space for the result             |
//!
//! Here: texts, and every refusal of one.

#[path = "imports/groups.rs"]
mod groups;
#[path = "imports/limits.rs"]
mod limits;

use std::collections::BTreeMap;

use reference::congruence::{gamma, gamma0, gamma1};
use reference::coset::Cosets;
use reference::permutations::{import_pair, Action, Imported, Rule};
use reference::random::drafts::{draft, draft_of_size};
use reference::random::pairs::{
    all_pairs, dice_pair, fraction_at_the_limit, pair, pair_towards, put_pair_fault, rows_pair,
    shallow_pair, symbol_pair, tree_pair, zigzag_pair, Pair, Tree, PAIR_FAULTS,
};
use reference::random::{import_case, Rng};
use reference::symbol::{Symbol, MAX_ENTRY};
use reference::{import, import_wide, listing, Refusal};

const FIGURES: &str = include_str!("../data/permutations.txt");
const RULES: [Rule; 2] = [Rule::Leftmost, Rule::Wide];
/// The whole outputs of the two programs.
const PROGRAMS: [fn(&[u8]) -> String; 2] = [import, import_wide];

fn action(pair: &Pair) -> Action {
    Action::new(&pair.s, &pair.r).unwrap_or_else(|r| panic!("{r} for {pair:?}"))
}

/// The symbol generates precisely the matrices that fix point 0: its own tables are
/// the pair, numbered from 0 on.
fn check_symbol(action: &Action, imported: &Imported) {
    let numbers = imported.numbers();
    let symbol = Symbol::from_numbers(&numbers).unwrap_or_else(|r| panic!("{r} for {numbers:?}"));
    let cosets = Cosets::new(&symbol);
    assert_eq!((cosets.s.clone(), cosets.r.clone()), action.numbered());
    // By the symbol's own figures, and by the points that the given R fixes.
    assert_eq!(imported.v(), (action.points() - cosets.e3()) / 3 + 1);
    assert_eq!(3 * imported.v() + 1, action.table_length());
    // Labels count up by their leftmost side.
    let mut labels = 0;
    for &pairing in &imported.pairings {
        assert!(pairing <= labels + 1);
        labels = labels.max(pairing);
    }
}

/// Both forms of a rule give the same symbol or the same refusal.
fn check_forms(rule: Rule, pair: &Pair) -> bool {
    let action = action(pair);
    let by_rule = action.by_rule(rule);
    assert_eq!(by_rule, action.by_points(rule), "{rule:?} for {pair:?}");
    match &by_rule {
        Ok(imported) => check_symbol(&action, imported),
        Err(refusal) => assert_eq!(refusal.number, 16),
    }
    by_rule.is_ok()
}

#[test]
fn each_fault_is_hit() {
    let mut rng = Rng::new(76);
    for fault in PAIR_FAULTS {
        let mut hits = 0;
        for _ in 0..300 {
            let mut numbers = pair(&mut rng).numbers();
            if numbers.len() > 1_000 || !put_pair_fault(&mut rng, &mut numbers, fault) {
                continue;
            }
            let text: Vec<String> = numbers.iter().map(i64::to_string).collect();
            let text = text.join(" ");
            let [answer, wide] = PROGRAMS.map(|program| program(text.as_bytes()));
            let expected = format!("refused {fault} ");
            assert!(answer.starts_with(&expected), "{answer} for {numbers:?}");
            assert_eq!(wide, answer);
            hits += 1;
        }
        assert!(hits >= 80, "fault {fault} was put in {hits} times");
    }
}

#[test]
fn texts() {
    for (text, answer) in [
        ("3\n1 0 2\n2 0 1\n", "2\n0 1 1 1\n1 -2 1\n"),
        ("1 0 0", "1\n0 1\n-2 -3\n"),
        ("2 1 0 0 1", "1\n0 1\n-3 -3\n"),
        ("", "refused 19 0\n"),
        ("3 1 0 2 2 0", "refused 19 11\n"),
        ("3 1 0 2 2 0 1 1", "refused 19 14\n"),
        ("3 1 0 2 2 0 x", "refused 19 12\n"),
        ("0", "refused 12 0\n"),
        ("0 1 2 3", "refused 12 0\n"),
        ("-1", "refused 12 0\n"),
        ("3067", "refused 12 0\n"),
        ("3067 x", "refused 19 5\n"),
        ("3066", "refused 19 4\n"),
        ("1 1 0", "refused 13 0\n"),
        ("1 -1 0", "refused 13 0\n"),
        ("1 0 9223372036854775807", "refused 13 0\n"),
        ("2 0 0 5 5", "refused 13 1\n"),
        ("2 1 0 0 0", "refused 13 1\n"),
        ("2 1 0 1 0", "refused 14 0\n"),
        ("3 1 2 0 1 0 2", "refused 14 0\n"),
        ("2 0 1 0 1", "refused 15 1\n"),
        ("4 1 0 3 2 0 1 2 3", "refused 15 2\n"),
        ("2 4294967297 0 0 1", "refused 13 0\n"),
    ] {
        for program in PROGRAMS {
            assert_eq!(program(text.as_bytes()), answer, "{text}");
        }
    }
}

/// A run of the usual length meets every answer.
#[test]
fn cases_meet_every_answer() {
    for program in PROGRAMS {
        let mut counts: BTreeMap<String, usize> = BTreeMap::new();
        for case in 0..2_000 {
            let answer = program(&import_case(20_260_117, case));
            let key = match answer.strip_prefix("refused ") {
                Some(rest) => rest.split(' ').next().unwrap_or_default(),
                None => "symbol",
            };
            *counts.entry(key.to_string()).or_insert(0) += 1;
        }
        for key in ["symbol", "12", "13", "14", "15", "16", "19"] {
            assert!(
                counts.get(key).is_some_and(|&n| n >= 30),
                "{key}: {counts:?}"
            );
        }
        println!("import: {counts:?}");
    }
    assert_eq!(import_case(5, 77), import_case(5, 77));
    assert_ne!(import_case(5, 100), import_case(6, 100));
}

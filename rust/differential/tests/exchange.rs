//! `farey_exchange` and `farey_preview`: random calls, every size, and what an exchange
//! does, by the wrapper: what stays, and when two of them give the symbol back.

use differential::exchange::{case, preview_case};
use farey::Symbol;
use reference::random::drafts::{draft_of_size, Draft};
use reference::random::Rng;

const CASES: u64 = 20_000;

/// Cases of one call: no difference, and each of the reasons met often.
fn meets(call: fn(&mut Rng) -> differential::outcome::Outcome, cases: u64, least: usize) {
    let mut met = [0; 24];
    for stream in 0..cases {
        let outcome = call(&mut Rng::for_case(20_261_116, stream));
        assert!(outcome.differences.is_empty(), "case {stream}\n{outcome}");
        met[outcome.number() as usize] += 1;
    }
    for number in (0..=7).chain([11, 23]) {
        assert!(met[number] >= least, "{number}: {met:?}");
    }
}

#[test]
fn random_exchanges() {
    meets(case, CASES, 40);
}

#[test]
fn random_previews() {
    meets(preview_case, CASES / 4, 10);
}

/// The labels of a symbol, each with its two sides.
fn labels(draft: &Draft) -> Vec<(i64, usize, usize)> {
    let sides = draft.pairings.iter().enumerate();
    let firsts = sides.filter(|&(i, label)| *label > 0 && !draft.pairings[..i].contains(label));
    let pair = |(i, &label): (usize, &i64)| {
        let other = draft.pairings[i + 1..].iter().position(|&x| x == label);
        (label, i, i + 1 + other.expect("a label is on two sides"))
    };
    firsts.map(pair).collect()
}

/// Random symbols of each size: vertices, index, e2 and e3 stay; the preview is what the
/// exchanged symbol has; twice gives the symbol back exactly where the first side of
/// each label stands before the second one of the other; and three times is once.
#[test]
fn what_stays_and_what_comes_back() {
    let mut rng = Rng::new(111);
    let (mut back, mut not_back, mut genus_changed) = (0, 0, 0);
    for v in (2..=60).chain([200, 511, 1_023]).cycle().take(240) {
        let draft = draft_of_size(&mut rng, v);
        let found = labels(&draft);
        if found.len() < 2 {
            continue;
        }
        let i = rng.below(found.len());
        let j = (i + 1 + rng.below(found.len() - 1)) % found.len();
        let ((x, a, b), (y, c, d)) = (found[i], found[j]);
        let symbol = Symbol::from_table(v, draft.numbers()[1..].to_vec()).expect("a symbol");
        let once = symbol.exchanged(x, y).expect("two labels");
        let mut expected = symbol.table().to_vec();
        expected.swap(2 * v + b, 2 * v + d);
        assert_eq!(once.table(), expected);
        let (before, after) = (symbol.figures(), once.figures());
        assert_eq!(
            (before.index, before.e2, before.e3),
            (after.index, after.e2, after.e3)
        );
        let previewed = symbol.preview(x, y).expect("two labels");
        assert_eq!(previewed, (after, once.widths()));
        genus_changed += usize::from(previewed.0.genus != before.genus);
        let twice = once.exchanged(x, y).expect("the same labels");
        assert_eq!(twice.table() == symbol.table(), a < d && c < b);
        match a < d && c < b {
            true => back += 1,
            false => not_back += 1,
        }
        let thrice = twice.exchanged(x, y).expect("the same labels");
        assert_eq!(thrice.table(), once.table());
    }
    assert!(back >= 20 && not_back >= 20 && genus_changed >= 20);
}

//! Laws that hold for every symbol, on random ones; and the three roads to a
//! word, which must agree.

use reference::coset::Cosets;
use reference::matrix::{Matrix, I, R, S};
use reference::random::drafts::{draft, draft_of_size, many_cusps, Draft};
use reference::random::matrices::{any_pair, found_pair, matrix};
use reference::random::Rng;
use reference::symbol::{Symbol, EVEN, ODD};
use reference::word::{alternating_word, carried_word, exact_sign, related, taken, walk, Turn};

fn sound(draft: &Draft) -> Symbol {
    Symbol::from_numbers(&draft.numbers()).unwrap_or_else(|r| panic!("{r} for {draft:?}"))
}

/// Everything that the tables of a symbol must satisfy.
fn check_tables(draft: &Draft) {
    let symbol = sound(draft);
    let cosets = Cosets::new(&symbol);
    let index = cosets.index();
    let count = |wanted: i64| draft.pairings.iter().filter(|&&p| p == wanted).count();
    let (even, odd) = (count(EVEN), count(ODD));

    assert_eq!(index, 3 * (draft.v() - 1) + odd, "index of {draft:?}");
    assert_eq!(cosets.e2(), even);
    assert_eq!(cosets.e3(), odd);
    let free = (draft.v() + 1 - even - odd) / 2;
    assert_eq!(symbol.generators.len(), even + odd + free);

    let mut largest = 0;
    for point in 0..index {
        let s = |p: usize| cosets.s[p] as usize;
        let r = |p: usize| cosets.r[p] as usize;
        assert_eq!(s(s(point)), point);
        assert_eq!(r(r(r(point))), point);
        assert_eq!(cosets.t[point] as usize, r(s(point)));
        // Numbers are given out in order, so every point is reached.
        assert!(point <= largest);
        for image in [s(point), r(point)] {
            assert!(image <= largest + 1);
            largest = largest.max(image);
        }
    }
    assert_eq!(largest + 1, index);

    let widths = cosets.widths();
    assert_eq!(widths.iter().sum::<u64>(), index as u64);
    // The genus of a surface: Euler's formula on the glued polygon. The free
    // generators number 2g + cusps - 1.
    let genus = cosets.genus().expect("a group has a genus") as usize;
    assert_eq!(free, 2 * genus + widths.len() - 1);
    if let Ok(level) = cosets.level() {
        assert!(widths.iter().all(|width| level % width == 0));
    }

    // Generators have determinant 1, lie in H, and move no coset.
    for generator in &symbol.generators {
        assert_eq!(generator.matrix.determinant(), 1);
        assert_eq!(cosets.number(&symbol, generator.matrix), 0);
        let point = index / 2;
        let moved = generator.matrix * cosets.edges[point];
        assert_eq!(cosets.number(&symbol, moved) as usize, point);
    }
}

#[test]
fn tables_of_random_symbols() {
    let mut rng = Rng::new(1);
    for _ in 0..1_500 {
        check_tables(&draft(&mut rng));
    }
}

#[test]
fn tables_of_every_small_size() {
    let mut rng = Rng::new(2);
    for v in 1..=60 {
        for _ in 0..10 {
            check_tables(&draft_of_size(&mut rng, v));
        }
    }
}

#[test]
fn tables_of_the_largest_symbols() {
    let mut rng = Rng::new(3);
    for v in [1_000, 1_021, 1_022, 1_023, 1_023, 1_023] {
        check_tables(&draft_of_size(&mut rng, v));
    }
}

/// Every pairing of some tiny polygons with every choice of labels, and all
/// short words over each.
#[test]
fn tables_of_all_tiny_symbols() {
    let polygons: [&[(i64, i64)]; 9] = [
        &[(0, 1)],
        &[(0, 1), (1, 1)],
        &[(-1, 1), (0, 1)],
        &[(0, 1), (1, 2), (1, 1)],
        &[(0, 1), (1, 1), (2, 1)],
        &[(-1, 1), (0, 1), (1, 1)],
        &[(-2, 1), (-1, 1), (0, 1)],
        &[(-1, 1), (-1, 2), (0, 1)],
        &[(-1, 1), (-1, 2), (-1, 3), (0, 1)],
    ];
    let mut symbols = 0;
    for vertices in polygons {
        let sides = vertices.len() + 1;
        let choices: Vec<i64> = [EVEN, ODD].into_iter().chain(1..=sides as i64).collect();
        for code in 0..choices.len().pow(sides as u32) {
            let pairings = (0..sides as u32)
                .map(|side| choices[code / choices.len().pow(side) % choices.len()])
                .collect();
            let draft = Draft {
                vertices: vertices.to_vec(),
                pairings,
            };
            if Symbol::from_numbers(&draft.numbers()).is_ok() {
                check_tables(&draft);
                check_short_words(&sound(&draft));
                symbols += 1;
            }
        }
    }
    assert!(symbols > 1_000, "only {symbols} symbols were tried");
}

#[test]
fn levels_beyond_64_bits_occur() {
    let mut rng = Rng::new(4);
    let mut beyond = 0;
    for _ in 0..60 {
        let draft = many_cusps(&mut rng);
        check_tables(&draft);
        beyond += usize::from(Cosets::new(&sound(&draft)).level().is_err());
    }
    assert!(
        (5..=55).contains(&beyond),
        "{beyond} of 60 levels are refused"
    );
}

/// x along the tables, one factor at a time.
fn followed(cosets: &Cosets, x: Matrix) -> u32 {
    let s = |p: u32| cosets.s[p as usize];
    let r = |p: u32| cosets.r[p as usize];
    alternating_word(x)
        .iter()
        .fold(0, |point, turn| match turn {
            Turn::S => s(point),
            // Q is S R^-1 S.
            Turn::Q => s(r(r(s(point)))),
            Turn::QInverse => s(r(s(point))),
        })
}

/// One pair by all roads. Returns whether it has a word.
fn check_pair(symbol: &Symbol, a: Matrix, b: Matrix) -> bool {
    let x = b * a.inverse();
    let turns = alternating_word(x);
    let product = turns
        .iter()
        .fold(I, |product, turn| product * turn.matrix());
    assert!(product.same_up_to_sign(x));
    assert!(turns
        .windows(2)
        .all(|two| (two[0] == Turn::S) != (two[1] == Turn::S)));

    let walked = walk(symbol, x);
    assert_eq!(walked, carried_word(symbol, x), "{x:?} in {symbol:?}");
    assert_eq!(walked.is_some(), related(symbol, a, b));
    if let Some(word) = &walked {
        assert!(word.len() <= turns.len() + 2);
        let sign = taken(symbol, word, a, b);
        assert!(sign.is_some(), "{word:?} from {a:?} to {b:?}");
        assert_eq!(exact_sign(symbol, word, x), sign);
        // The negative of either matrix has the same word and the other sign.
        assert_eq!(walk(symbol, x.negated()), walked);
        let other = sign.map(|sign| -sign);
        assert_eq!(exact_sign(symbol, word, x.negated()), other);
        assert_eq!(taken(symbol, word, a.negated(), b), other);
        assert_eq!(taken(symbol, word, a.negated(), b.negated()), sign);
        // One letter more is one too many, unless it is the identity.
        if word.len() < 100 {
            let longer = [&word[..], &[1]].concat();
            assert_eq!(
                taken(symbol, &longer, a, b).is_some(),
                symbol.letter(1).same_up_to_sign(I)
            );
        }
    }
    walked.is_some()
}

/// All products of at most seven factors S, R, R^-1.
fn check_short_words(symbol: &Symbol) {
    let mut layer = vec![I];
    for _ in 0..7 {
        let mut next = Vec::new();
        for &x in &layer {
            check_pair(symbol, I, x);
            next.extend([x * S, x * R]);
        }
        layer = next;
    }
}

#[test]
fn words_between_random_pairs() {
    let mut rng = Rng::new(5);
    let (mut found, mut none) = (0, 0);
    for _ in 0..600 {
        let symbol = sound(&draft(&mut rng));
        let cosets = Cosets::new(&symbol);
        for _ in 0..6 {
            let (a, b) = if rng.chance(50) {
                found_pair(&mut rng, &symbol, &cosets)
            } else {
                any_pair(&mut rng, false)
            };
            let (a, b) = (Matrix::from_entries(a), Matrix::from_entries(b));
            if check_pair(&symbol, a, b) {
                found += 1;
            } else {
                none += 1;
            }
            assert_eq!(cosets.number(&symbol, a), followed(&cosets, a));
            assert_eq!(cosets.number(&symbol, b), followed(&cosets, b));
        }
    }
    assert!(found > 1_000 && none > 1_000, "{found} found, {none} not");
}

#[test]
fn words_of_far_pairs() {
    let mut rng = Rng::new(6);
    for _ in 0..6 {
        let v = 1 + rng.below(5);
        let symbol = sound(&draft_of_size(&mut rng, v));
        let (a, b) = any_pair(&mut rng, true);
        let (a, b) = (Matrix::from_entries(a), Matrix::from_entries(b));
        check_pair(&symbol, a, b);
    }
}

#[test]
fn random_matrices_are_in_range() {
    let mut rng = Rng::new(8);
    for _ in 0..20_000 {
        let x = matrix(&mut rng);
        assert_eq!(x.determinant(), 1);
        assert!(x.0.iter().all(|entry| entry.abs() <= 1_000_000), "{x:?}");
    }
}

//! The wrapper on the instances of the engine's paper on conventions: what is
//! expected here is what the paper says, not what a run printed.

use farey::{calls, Family, Kind, Refusal, Shape, Symbol, Word};

const ONE: [i64; 4] = [1, 0, 0, 1];
const S: [i64; 4] = [0, -1, 1, 0];
const T: [i64; 4] = [1, 1, 0, 1];

/// A word that is found.
fn word(sign: i64, letters: &[i16]) -> Result<Option<Word>, Refusal> {
    let letters = letters.to_vec();
    Ok(Some(Word { sign, letters }))
}

fn negative(matrix: [i64; 4]) -> [i64; 4] {
    matrix.map(|entry| -entry)
}

fn gamma0_2() -> Symbol {
    Symbol::new(&[(0, 1), (1, 1)], &[1, -2, 1]).expect("a symbol")
}

#[test]
fn one_vertex() {
    let whole = Symbol::new(&[(0, 1)], &[-2, -3]).expect("a symbol");
    assert_eq!(whole.figures().index, 1);
    assert_eq!(whole.word(ONE, S), word(1, &[1]));
    // S twice is -1, so that its inverse is the same letter with a minus.
    assert_eq!(whole.word(S, ONE), word(-1, &[1]));
    let two = Symbol::new(&[(0, 1)], &[-3, -3]).expect("a symbol");
    assert_eq!(two.figures().index, 2);
    assert_eq!(two.tables().s, [1, 0]);
    assert_eq!(two.tables().r, [0, 1]);
    for pairings in [[-2, -2], [1, 1]] {
        let refusal = Symbol::new(&[(0, 1)], &pairings).expect_err("no odd side");
        assert_eq!(
            refusal,
            Refusal {
                number: 7,
                place: 0
            }
        );
        assert_eq!(
            refusal.to_string(),
            "refused 7 0: there is one vertex and no odd side"
        );
    }
}

#[test]
fn gamma_2() {
    let group = Symbol::new(&[(0, 1), (1, 1), (2, 1)], &[1, 2, 2, 1]).expect("a symbol");
    assert_eq!(group.figures().index, 6);
    let generators = group.generators();
    assert_eq!(generators.len(), 2);
    assert_eq!(
        (generators[0].kind, generators[0].matrix),
        (Kind::Free, [1, 2, 0, 1])
    );
    assert_eq!(
        (generators[1].kind, generators[1].matrix),
        (Kind::Free, [3, -2, 2, -1])
    );
    let tables = group.tables();
    assert_eq!(tables.s, [1, 0, 4, 5, 2, 3]);
    assert_eq!(tables.r, [2, 3, 5, 4, 1, 0]);
    assert_eq!(tables.t, [3, 2, 1, 0, 5, 4]);
    let found = group.coset_cusps();
    assert_eq!(found.cusps, [0, 1, 1, 0, 2, 2]);
    assert_eq!(found.steps, [0, 0, 1, 1, 0, 1]);
}

#[test]
fn gamma0_2_whole() {
    let group = gamma0_2();
    let figures = group.figures();
    assert_eq!(
        (figures.index, figures.e2, figures.e3, figures.cusps),
        (3, 1, 0, 2)
    );
    assert_eq!((figures.genus, figures.level), (Ok(0), Ok(2)));
    assert_eq!(group.widths(), [1, 2]);
    let generators = group.generators();
    assert_eq!(
        (generators[0].kind, generators[0].matrix),
        (Kind::Free, [1, 1, 0, 1])
    );
    assert_eq!(
        (generators[1].kind, generators[1].matrix),
        (Kind::Even, [1, -1, 2, -1])
    );
    assert_eq!(group.word(ONE, T), word(1, &[1]));
    assert_eq!(group.word(ONE, negative(T)), word(-1, &[1]));
    assert_eq!(group.word(negative(ONE), T), word(-1, &[1]));
    assert_eq!(group.word(negative(ONE), negative(T)), word(1, &[1]));
    assert_eq!(group.word(ONE, [1, 0, 2, 1]), word(1, &[2, 1]));
    assert_eq!(group.word(S, [1, -1, 1, 0]), word(1, &[1]));
    assert_eq!(group.word(ONE, S), Ok(None));
    assert_eq!(group.word(ONE, negative(S)), Ok(None));
    assert_eq!(group.word(ONE, ONE), word(1, &[]));
    assert_eq!(group.word(ONE, negative(ONE)), word(-1, &[]));
}

#[test]
fn matrices_are_refused() {
    let group = gamma0_2();
    assert_eq!(
        group
            .word(ONE, [1, 1_000_000, 0, 1])
            .map(|word| word.is_some()),
        Ok(true)
    );
    let large = group
        .word(ONE, [1, 1_000_001, 0, 1])
        .expect_err("too large");
    assert_eq!(
        large,
        Refusal {
            number: 8,
            place: 5
        }
    );
    assert_eq!(
        large.sentence(),
        "matrix entry 5 is over 1,000,000 in size; 0 to 3 are those of A, 4 to 7 those of B"
    );
    let zero = group.word([0; 4], ONE).expect_err("determinant 0");
    assert_eq!(
        zero,
        Refusal {
            number: 9,
            place: 0
        }
    );
}

#[test]
fn permutations_and_back() {
    let group = Symbol::from_permutations(&[1, 0, 2], &[2, 0, 1]).expect("a transitive pair");
    assert_eq!(group, gamma0_2());
    let split = Symbol::from_permutations(&[1, 0, 2], &[0, 1, 2]).expect_err("2 isn't reached");
    assert_eq!(
        split,
        Refusal {
            number: 15,
            place: 2
        }
    );
}

/// The same by the leftmost rule, and a group for which the two rules differ: the
/// symbols have other vertices, the same tables and the same subgroup.
#[test]
fn permutations_and_back_by_the_leftmost_rule() {
    let group = Symbol::from_permutations_leftmost(&[1, 0, 2], &[2, 0, 1]);
    assert_eq!(group, Ok(gamma0_2()));
    let split =
        Symbol::from_permutations_leftmost(&[1, 0, 2], &[0, 1, 2]).expect_err("2 isn't reached");
    assert_eq!(
        split,
        Refusal {
            number: 15,
            place: 2
        }
    );
    let gamma0_11 = Symbol::new(
        &[(0, 1), (1, 3), (1, 2), (2, 3), (1, 1)],
        &[1, 2, 3, 2, 3, 1],
    )
    .expect("a symbol");
    let tables = gamma0_11.tables();
    let leftmost = Symbol::from_permutations_leftmost(&tables.s, &tables.r).expect("small entries");
    let wide = Symbol::from_permutations(&tables.s, &tables.r).expect("small entries");
    assert_eq!(
        Symbol::from_permutations_wide(&tables.s, &tables.r),
        Ok(wide.clone())
    );
    assert_ne!(wide, leftmost);
    assert!(wide.is_same(&leftmost) && wide.is_same(&gamma0_11));
    assert_eq!(wide.tables(), tables);
    assert_eq!(leftmost.tables(), tables);
}

/// The vertices 0, 1, 2, .. and all sides even.
fn integers(v: i64) -> Result<Symbol, Refusal> {
    let vertices: Vec<(i64, i64)> = (0..v).map(|k| (k, 1)).collect();
    Symbol::new(&vertices, &vec![-2; vertices.len() + 1])
}

#[test]
fn most_vertices() {
    let largest = integers(1_023).expect("1,023 vertices pass");
    // 3(v - 1), and no odd side.
    assert_eq!(largest.figures().index, 3_066);
    let refusal = integers(1_024).expect_err("1,024 are too many");
    assert_eq!(
        refusal,
        Refusal {
            number: 1,
            place: 0
        }
    );
}

#[test]
fn sameness() {
    let labels = Symbol::new(&[(0, 1), (1, 1)], &[3, -2, 3]).expect("a symbol");
    assert!(gamma0_2().is_same(&labels));
    // Another symbol of the same group: (-1 -1; 2 1) for its even side.
    let moved = Symbol::new(&[(-1, 1), (0, 1)], &[1, -2, 1]).expect("a symbol");
    assert!(gamma0_2().is_same(&moved) && moved.is_same(&gamma0_2()));
    assert_ne!(gamma0_2(), moved);
    // Conjugates of it, and a group within it.
    for pairings in [[1, 1, -2], [-2, 1, 1]] {
        let conjugate = Symbol::new(&[(0, 1), (1, 1)], &pairings).expect("a symbol");
        assert_eq!(conjugate.figures(), gamma0_2().figures());
        assert!(!gamma0_2().is_same(&conjugate));
    }
    let gamma_2 = Symbol::gamma(2).expect("index 6");
    assert!(!gamma0_2().is_same(&gamma_2) && !gamma_2.is_same(&gamma0_2()));
}

/// Many pairs: each answer is that of `word`, over several sheets and with words
/// that are longer than what is lent at first.
#[test]
fn many_pairs() {
    let group = gamma0_2();
    assert_eq!(group.words(&[]), []);
    let mut pairs = vec![(ONE, T), (ONE, S), (ONE, [0; 4]), ([1_000_001, 0, 0, 1], T)];
    pairs.extend((0..600).map(|n| (ONE, [1, n, 0, 1])));
    pairs.extend([(S, [1, -1, 1, 0]), (ONE, [-1, -30_000, 0, -1]), (ONE, T)]);
    let answers = group.words(&pairs);
    let expected: Vec<_> = pairs.iter().map(|&(a, b)| group.word(a, b)).collect();
    assert_eq!(answers, expected);
    assert_eq!(answers[1], Ok(None));
    let place = |place| place_of(&answers[place]);
    assert_eq!([place(2), place(3)], [(9, 1), (8, 0)]);
    assert_eq!(answers[605], word(-1, &[1; 30_000]));
}

/// Number and place of a refusal.
fn place_of(answer: &Result<Option<Word>, Refusal>) -> (u64, usize) {
    let refusal = answer.as_ref().expect_err("a refusal");
    (refusal.number, refusal.place)
}

/// A line, an arc from 0/1 to 1/1, a line; free, even, free.
#[test]
fn drawings() {
    let drawing = gamma0_2().drawing().expect("small entries");
    let shapes: Vec<Shape> = drawing.sides.iter().map(|side| side.shape).collect();
    let arc = Shape::Arc(0.5, 0.5);
    assert_eq!(shapes, [Shape::Line(0.0), arc, Shape::Line(1.0)]);
    let kinds: Vec<Kind> = drawing.sides.iter().map(|side| side.kind).collect();
    assert_eq!(kinds, [Kind::Free, Kind::Even, Kind::Free]);
    let held = drawing.bounds;
    let borders = [held.left, held.right, held.bottom, held.top];
    assert_eq!(borders, [0.0, 1.0, 0.0, 0.5]);
    // Two lines at one place, and no arc.
    let whole = Symbol::new(&[(0, 1)], &[-2, -3]).expect("a symbol");
    let drawing = whole.drawing().expect("small entries");
    assert_eq!(drawing.sides.len(), 2);
    assert_eq!((drawing.bounds.top, drawing.bounds.right), (0.0, 0.0));
}

/// The symbol that an import makes.
fn calls_by(
    import: fn(&[u32], &[u32], &mut [u16], &mut [i64]) -> Result<usize, Refusal>,
    s: &[u32],
    r: &[u32],
) -> Result<Symbol, Refusal> {
    let mut out = vec![0; calls::TABLE];
    let v = import(s, r, &mut vec![0; calls::WORK], &mut out)?;
    out.truncate(3 * v + 1);
    Symbol::from_table(v, out)
}

/// PSL2(Z) by each of its names, and Γ0(2).
#[test]
fn small_named_groups() {
    let whole = Symbol::new(&[(0, 1)], &[-2, -3]).expect("a symbol");
    for group in [Symbol::gamma0, Symbol::gamma1, Symbol::gamma] {
        assert_eq!(group(1), Ok(whole.clone()));
    }
    assert_eq!(Symbol::gamma0(2), Ok(gamma0_2()));
    assert_eq!(Symbol::gamma1(2), Ok(gamma0_2()));
    let tables = Symbol::gamma(2).expect("index 6").tables();
    assert_eq!((tables.s, tables.r), Family::Gamma.tables(2).unwrap());
    assert_eq!(
        Family::Gamma.tables(2),
        Ok((vec![1, 0, 4, 5, 2, 3], vec![2, 3, 5, 4, 1, 0]))
    );
}

/// The wide rule's symbol, and the leftmost rule's by its name: Γ0(11) has two
/// symbols, Γ0(120) is refused by the leftmost rule.
#[test]
fn named_groups_by_which_rule() {
    for (n, by_both) in [(11, true), (120, false)] {
        let (s, r) = Family::Gamma0.tables(n).expect("a small index");
        let leftmost = calls_by(calls::import, &s, &r);
        let wide = calls_by(calls::import_wide, &s, &r);
        assert!(wide.is_ok() && leftmost.is_ok() == by_both);
        assert_ne!(leftmost, wide);
        assert_eq!(Symbol::gamma0(n), wide);
        assert_eq!(Symbol::from_permutations(&s, &r), wide);
        assert_eq!(Symbol::gamma0_leftmost(n), leftmost);
        assert_eq!(Symbol::from_permutations_leftmost(&s, &r), leftmost);
    }
    assert_ne!(Symbol::gamma1(7), Symbol::gamma1_leftmost(7));
    assert_ne!(Symbol::gamma(3), Symbol::gamma_leftmost(3));
}

/// No generator of a Γ0(N) has an entry over 1,000,000 in size: each is taken back
/// by a query, whose word is its own letter.
#[test]
fn generators_are_taken_back() {
    for n in 1..=1_000 {
        let group = Symbol::gamma0(n).expect("a symbol");
        let generators = group.generators();
        let entries = generators.iter().flat_map(|generator| generator.matrix);
        assert!(entries.map(i64::abs).max() <= Some(1_000_000), "{n}");
        let last = generators.len();
        let found = group.word(ONE, generators[last - 1].matrix);
        assert_eq!(found, word(1, &[last as i16]), "{n}");
    }
}

/// N out of range, and an index over 3,066. That of Γ(19) is 19 · 360/2 = 3,420,
/// that of Γ(20) is 20 · 288/2 = 2,880, that of Γ1(89) is 89² - 1 over 2, 3,960,
/// that of Γ1(90) is 90 · 90 · 3/4 · 8/9 · 24/25 over 2, 2,592.
#[test]
fn refused_names() {
    for family in [Family::Gamma0, Family::Gamma1, Family::Gamma] {
        for n in [0, 1_001, 1 << 32, u64::MAX] {
            let refusal = Symbol::named(family, n).expect_err("out of range");
            assert_eq!((refusal.number, refusal.place), (20, 0));
            assert_eq!(
                refusal.to_string(),
                "refused 20 0: N isn't from 1 to 1,000, or the family isn't Γ0, Γ1 or Γ"
            );
            assert_eq!(family.tables(n), Err(refusal));
        }
    }
    let large = Refusal {
        number: 21,
        place: 0,
    };
    assert_eq!(Symbol::gamma(19), Err(large));
    assert_eq!(Symbol::gamma1(89), Err(large));
    assert_eq!(Symbol::gamma1(1_000), Err(large));
    assert_eq!(
        Symbol::gamma(20).map(|group| group.figures().index),
        Ok(2_880)
    );
    assert_eq!(
        Symbol::gamma1(90).map(|group| group.figures().index),
        Ok(2_592)
    );
    assert_eq!(
        Symbol::gamma0(990).map(|group| group.figures().index),
        Ok(2_592)
    );
}

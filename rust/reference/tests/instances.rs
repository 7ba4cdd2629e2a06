//! The instances that the scope names, word for word.

use reference::symbol::Symbol;
use reference::word::{pair_query, Found};
use reference::{listing, query, Refusal};

const I: [i64; 4] = [1, 0, 0, 1];
const S: [i64; 4] = [0, -1, 1, 0];

const GAMMA0_2: &str = "2\n0 1 1 1\n1 -2 1\n";

const MINUS: [i64; 4] = [-1, 0, 0, -1];

fn plus(letters: &[i16]) -> Result<Found, Refusal> {
    let (sign, letters) = (1, letters.to_vec());
    Ok(Found { sign, letters })
}

fn minus(letters: &[i16]) -> Result<Found, Refusal> {
    let (sign, letters) = (-1, letters.to_vec());
    Ok(Found { sign, letters })
}

fn gamma0_2() -> Symbol {
    Symbol::new(2, &[0, 1, 1, 1, 1, -2, 1]).unwrap()
}

#[test]
fn gamma0_2_whole() {
    let expected = "index 3\nelliptic 1 0\ncusps 2\nwidths 1 2\ngenus 0\nlevel 2\n\
                    generators 2\n1 free 1 1 0 1\n2 even 1 -1 2 -1\n\
                    S 1 0 2\nR 2 0 1\nT 0 2 1\n";
    assert_eq!(listing(GAMMA0_2.as_bytes()), expected);
}

#[test]
fn gamma_2_tables() {
    let out = listing(b"3 0 1 1 1 2 1 1 2 2 1");
    let lines: Vec<&str> = out.lines().collect();
    assert_eq!(lines[0], "index 6");
    assert_eq!(lines[7..9], ["1 free 1 2 0 1", "2 free 3 -2 2 -1"]);
    assert_eq!(
        lines[9..],
        ["S 1 0 4 5 2 3", "R 2 3 5 4 1 0", "T 3 2 1 0 5 4"]
    );
}

#[test]
fn one_vertex() {
    let out = listing(b"1 0 1 -2 -3");
    assert!(out.starts_with("index 1\n"));
    assert!(out.ends_with("S 0\nR 0\nT 0\n"));
    let out = listing(b"1 0 1 -3 -3");
    assert!(out.starts_with("index 2\n"));
    assert!(out.ends_with("S 1 0\nR 0 1\nT 1 0\n"));
    assert_eq!(listing(b"1 0 1 -2 -2"), "refused 7 0\n");
    assert_eq!(listing(b"1 0 1 1 1"), "refused 7 0\n");
    assert_eq!(query(b"1 0 1 -2 -3 1 0 0 1 0 -1 1 0"), "word + 1\n");
    // With the odd side first the same step is generator 2.
    assert_eq!(query(b"1 0 1 -3 -2 1 0 0 1 0 -1 1 0"), "word + 2\n");
}

#[test]
fn pairs_in_gamma0_2() {
    let ask = |a, b| pair_query(&gamma0_2(), a, b, 16_384, 0);
    assert_eq!(ask(I, [1, 1, 0, 1]), plus(&[1]));
    assert_eq!(ask(I, [-1, -1, 0, -1]), minus(&[1]));
    assert_eq!(ask(MINUS, [1, 1, 0, 1]), minus(&[1]));
    assert_eq!(ask(MINUS, [-1, -1, 0, -1]), plus(&[1]));
    assert_eq!(ask(I, [1, 0, 2, 1]), plus(&[2, 1]));
    assert_eq!(ask(S, [1, -1, 1, 0]), plus(&[1]));
    // An even generator is its own inverse up to sign, and its letter is never
    // inverted: the inverse has the minus in front.
    assert_eq!(ask(I, [1, -1, 2, -1]), plus(&[2]));
    assert_eq!(ask([1, -1, 2, -1], I), minus(&[2]));
    assert_eq!(ask(I, S), Err(Refusal::new(10, 0)));
    assert_eq!(pair_query(&gamma0_2(), I, I, 0, 0), plus(&[]));
    assert_eq!(pair_query(&gamma0_2(), I, MINUS, 0, 0), minus(&[]));
    let text = |pair: &str| query(format!("{GAMMA0_2}{pair}\n").as_bytes());
    assert_eq!(text("1 0 0 1\n1 1 0 1"), "word + 1\n");
    assert_eq!(text("1 0 0 1\n-1 -1 0 -1"), "word - 1\n");
    assert_eq!(text("1 0 0 1\n1 0 2 1"), "word + 2 1\n");
    assert_eq!(text("1 0 0 1\n0 -1 1 0"), "refused 10 0\n");
    assert_eq!(text("1 0 0 1\n1 0 0 1"), "word +\n");
    assert_eq!(text("1 0 0 1\n-1 0 0 -1"), "word -\n");
}

#[test]
fn letters_and_their_space() {
    let symbol = gamma0_2();
    let ask = |space, start| pair_query(&symbol, I, [1, 0, 2, 1], space, start);
    assert_eq!(ask(2, 0), plus(&[2, 1]));
    assert_eq!(ask(7, 5), plus(&[2, 1]));
    for (space, start) in [(0, 0), (1, 0), (7, 6), (7, 7), (7, 8), (2, usize::MAX)] {
        assert_eq!(ask(space, start), Err(Refusal::new(11, 2)));
    }
    // The empty word needs a start place that isn't past the end.
    assert_eq!(pair_query(&symbol, I, I, 3, 3), plus(&[]));
    assert_eq!(pair_query(&symbol, I, I, 3, 4), Err(Refusal::new(11, 0)));
    // None goes before the space.
    assert_eq!(pair_query(&symbol, I, S, 0, 9), Err(Refusal::new(10, 0)));

    let text = |pair: &str| query(format!("{GAMMA0_2}{pair}\n").as_bytes());
    assert_eq!(
        text("1 0 0 1 1 16384 0 1"),
        format!("word +{}\n", " 1".repeat(16_384))
    );
    assert_eq!(text("1 0 0 1 1 16385 0 1"), "refused 11 16385\n");
    assert_eq!(text("1 0 0 1 1 1000000 0 1"), "refused 11 1000000\n");
    assert_eq!(text("1 -1000000 0 1 1 1000000 0 1"), "refused 11 2000000\n");
}

#[test]
fn sizes_at_the_limit() {
    let text = |v: usize| {
        let vertices: String = (0..v).map(|i| format!("{i} 1 ")).collect();
        format!("{v} {vertices}{}", "-3 ".repeat(v + 1))
    };
    let out = listing(text(1_023).as_bytes());
    assert!(out.starts_with("index 4090\n"));
    assert_eq!(listing(text(1_024).as_bytes()), "refused 1 0\n");
}

#[test]
fn matrices_and_their_refusals() {
    let text = |pair: &str| query(format!("{GAMMA0_2}{pair}\n").as_bytes());
    assert_eq!(text("1 0 0 1 1 1000001 0 1"), "refused 8 5\n");
    assert_eq!(text("1 0 -1000001 1 1 1000001 0 1"), "refused 8 2\n");
    // An entry too large goes before a determinant, A before B under each.
    assert_eq!(text("2 0 0 1 1 0 0 -9223372036854775808"), "refused 8 7\n");
    assert_eq!(text("2 0 0 1 1 0 0 2"), "refused 9 0\n");
    assert_eq!(text("1 0 0 1 1 0 0 -1"), "refused 9 1\n");
    assert_eq!(
        text("1000000 1000000 1000000 1000000 1 0 0 1"),
        "refused 9 0\n"
    );
    assert_eq!(
        text("1000000 -999999 -999999 999998 1000000 -999999 -999999 999998"),
        "refused 9 0\n"
    );
    assert_eq!(text("1000000 999999 1 1 1000000 999999 1 1"), "word +\n");
}

#[test]
fn the_order_of_refusals() {
    // The text before the symbol, the symbol before the matrices.
    assert_eq!(query(b"0 x"), "refused 19 2\n");
    assert_eq!(query(b"0"), "refused 1 0\n");
    assert_eq!(query(b"0 1 2 3 4 5 6 7 8 9 10 11"), "refused 1 0\n");
    assert_eq!(query(b"1 0 1 -2 -2 0 0 0 0 0 0 0 9000000"), "refused 7 0\n");
    assert_eq!(query(b"1 0 1 -2 -3 0 0 0 0 0 0 0"), "refused 19 25\n");
    assert_eq!(listing(b"1 0 1 -2 -3 4"), "refused 19 12\n");
    // The symbol's own checks, lowest number first.
    assert_eq!(listing(b"2 0 1 3 0 7 7 7"), "refused 3 3\n");
    assert_eq!(listing(b"2 1 1 3 1 7 7 7"), "refused 4 1\n");
    assert_eq!(listing(b"2 1 1 2 1 7 7 7"), "refused 5 0\n");
    assert_eq!(listing(b"2 0 1 1 1 -2 7 7"), "refused 6 1\n");
}

/// The last side at 0: the walk starts from the other direction of the edge.
#[test]
fn zero_as_the_last_vertex() {
    for pairings in [[1, -2, 1], [1, -3, 1], [-2, 1, 1], [-2, -2, -2], [1, 1, -2]] {
        let mut table = vec![-1, 1, 0, 1];
        table.extend(pairings);
        let symbol = Symbol::new(2, &table).unwrap();
        assert_eq!(pair_query(&symbol, I, I, 0, 0), plus(&[]));
        assert_eq!(pair_query(&symbol, I, MINUS, 0, 0), minus(&[]));
        for (i, generator) in symbol.generators.iter().enumerate() {
            let entries = generator.matrix.entries().unwrap();
            let j = i as i16 + 1;
            let word = pair_query(&symbol, I, entries, 9, 0);
            assert_eq!(word, plus(&[j]), "generator {j} of {table:?}");
            let word = pair_query(&symbol, I, entries.map(|entry| -entry), 9, 0);
            assert_eq!(word, minus(&[j]), "minus generator {j} of {table:?}");
        }
    }
}

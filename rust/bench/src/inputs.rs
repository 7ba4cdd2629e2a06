//! Texts to measure with, the same ones every time.

use reference::congruence::gamma0;
use reference::random::drafts::{pairings, polygon, Draft, Growth, Style, Zero};
use reference::random::pairs::{dice_pair, Pair};
use reference::random::Rng;

use crate::import::plain_import;
use crate::listing::{tables, Tables};
use crate::polygon::Polygon;
use crate::symbol::Symbol;

/// A text by its file name.
pub struct Input {
    pub name: &'static str,
    pub text: String,
}

const GAMMA0_2: &str = "2\n0 1 1 1\n1 -2 1\n";

fn line(numbers: impl IntoIterator<Item = impl ToString>) -> String {
    let pieces: Vec<String> = numbers.into_iter().map(|n| n.to_string()).collect();
    pieces.join(" ")
}

fn symbol_text(draft: &Draft) -> String {
    let vertices = draft.vertices.iter().flat_map(|&(a, b)| [a, b]);
    let pairings = line(&draft.pairings);
    format!("{}\n{}\n{pairings}\n", draft.v(), line(vertices))
}

fn symbol_tables(draft: &Draft) -> Tables {
    let numbers = draft.numbers();
    let symbol = Symbol::new(numbers[0], &numbers[1..]).expect("a draft is sound");
    tables(&Polygon::new(&symbol))
}

/// A symbol with v vertices, sides of the given style and these pairs.
fn symbol(seed: u64, v: usize, style: Style, fixed: &[(usize, usize)]) -> Draft {
    let mut rng = Rng::new(seed);
    let vertices = polygon(&mut rng, v, Zero::First, Growth::Even);
    let pairings = pairings(&mut rng, v + 1, style, fixed);
    Draft { vertices, pairings }
}

/// The largest symbol, with even, odd and free sides.
fn mixed_symbol() -> Draft {
    symbol(1_023, 1_023, Style::Mixed { even: 20, odd: 20 }, &[])
}

/// Tables of index 3,066, from the first symbol of that index that has an
/// import. All sides but the outer ones are even or odd: with many free sides
/// the import's own polygon grows deep and ends in refusal 16.
fn largest_import() -> String {
    let style = Style::Mixed { even: 50, odd: 50 };
    (0..5_000)
        .map(|seed| symbol_tables(&symbol(seed, 876, style, &[(0, 876)])))
        .filter(|tables| tables.s.len() == 3_066)
        .map(|Tables { s, r, .. }| format!("{}\n{}\n{}\n", s.len(), line(&s), line(&r)))
        .find(|text| !plain_import(text.as_bytes()).starts_with(b"refused"))
        .expect("one of these symbols has an import")
}

fn pair_text(pair: &Pair) -> String {
    format!("{}\n{}\n{}\n", pair.points(), line(&pair.s), line(&pair.r))
}

/// The first pair from dice of 3,066 points of which neither S nor R fixes one:
/// a symbol of 1,023 vertices, with free sides alone.
fn largest_pair() -> Pair {
    let moves_all = |table: &[i64]| (0..).zip(table).all(|(point, &image)| point != image);
    (0..)
        .map(|seed| dice_pair(&mut Rng::new(seed), 3_066))
        .find(|pair| moves_all(&pair.s) && moves_all(&pair.r))
        .expect("there is such a pair")
}

/// The largest symbol with integers for vertices and its outer sides paired with
/// each other by a power of T: a letter only every 1,022 steps of T.
fn wide_symbol() -> Draft {
    let mut rng = Rng::new(1_022);
    let style = Style::Mixed { even: 20, odd: 20 };
    Draft {
        vertices: polygon(&mut rng, 1_023, Zero::Anywhere, Growth::Integers),
        pairings: pairings(&mut rng, 1_024, style, &[(0, 1_023)]),
    }
}

/// All texts.
pub fn inputs() -> Vec<Input> {
    let mixed_text = symbol_text(&mixed_symbol());
    let wide_text = symbol_text(&wide_symbol());
    let input = |name, text| Input { name, text };
    vec![
        input("listing-short.txt", GAMMA0_2.to_string()),
        input("listing-1023.txt", mixed_text.clone()),
        // A word of two letters.
        input("query-short.txt", format!("{GAMMA0_2}1 0 0 1\n1 0 2 1\n")),
        // Two million steps, and a letter at every other one: refusal 11.
        input(
            "query-long.txt",
            format!("{GAMMA0_2}1 0 0 1\n1 1000000 0 1\n"),
        ),
        // One million steps: half a million T, then (1 0; 2 1).
        input(
            "query-near.txt",
            format!("{GAMMA0_2}1 0 0 1\n999999 499999 2 1\n"),
        ),
        // Two million steps and a word that is printed, 978 letters long.
        input(
            "query-1023-word.txt",
            format!("{wide_text}1 0 0 1\n1 {} 0 1\n", 978 * 1_022),
        ),
        // Two million steps and no word, both entries of a row near the limit.
        input(
            "query-1023-none.txt",
            format!("{mixed_text}1 0 0 1\n1000000 999999 1 1\n"),
        ),
        input("import-short.txt", "3\n1 0 2\n2 0 1\n".to_string()),
        input("import-3066.txt", largest_import()),
        input("import_wide-short.txt", "3\n1 0 2\n2 0 1\n".to_string()),
        input("import_wide-2592.txt", pair_text(&gamma0(990))),
        input("import_wide-3066.txt", pair_text(&largest_pair())),
        input("named-short.txt", "0 2\n".to_string()),
        input("named-2592.txt", "0 990\n".to_string()),
        input("named-2880.txt", "2 20\n".to_string()),
    ]
}

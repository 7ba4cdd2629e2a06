//! The engine's programs against the reference, line by line, and against what
//! is known of the groups from elsewhere.
//!
//! | program or job | what it reads and prints                               |
//! |----------------|--------------------------------------------------------|
//! | `listing`      | a symbol's text in, generators, figures and tables out |
//! | `query`        | a symbol and two matrices in, a word out               |
//! | `import`       | two permutations in, a symbol out                      |
//! | `import-wide`  | the same by the wide rule                              |
//! | `named`        | a family and N in, a symbol out                        |
//! | `same`         | two symbols in, whether their subgroups are the same   |
//!
//! Each text gets a process of its own. `child` says how programs are named.

mod child;
#[path = "program/import.rs"]
mod of_import;
#[path = "program/listing.rs"]
mod of_listing;
#[path = "program/named.rs"]
mod of_named;
#[path = "program/query.rs"]
mod of_query;
#[path = "program/same.rs"]
mod of_same;

use std::collections::BTreeMap;

use child::{shown, Program};
use reference::congruence::{gamma, gamma0, gamma1};
use reference::coset::Cosets;
use reference::matrix::Matrix;
use reference::random::drafts::{draft_of_size, many_cusps, pairings, size, Draft, Style};
use reference::random::faults::{
    faulty_text, full_text, poke, put_fault, scratch, typed, SYMBOL_FAULTS, TEXT_FAULTS,
};
use reference::random::matrices::{any_pair, far, found_pair, put_matrix_fault};
use reference::random::pairs::{
    dice_pair, fraction_at_the_limit, pair, pair_towards, put_pair_fault, renamed, rows_pair,
    shallow_pair, symbol_pair, zigzag_pair, Pair, PAIR_FAULTS,
};
use reference::random::twins::{conjugate, imported, rename, same_group, second, RULES};
use reference::random::{import_case, listing_case, query_case, same_case, Rng};
use reference::symbol::{Pairing, Symbol, MAX_ENTRY, MAX_VERTICES};
use reference::text::{numbers, Format, MAX_TEXT};
use reference::word::{taken, Found};
use reference::{import, import_wide, listing, named, query, same};

const FIGURES: &str = include_str!("../data/symbols.txt");
const PAIRS: &str = include_str!("../data/permutations.txt");
const GAMMA0_2: &str = "2\n0 1 1 1\n1 -2 1\n";

/// A group of the stored figures.
struct Group {
    name: &'static str,
    /// v, the vertex entries, the pairings.
    numbers: Vec<i64>,
    index: i64,
    elliptic: [i64; 2],
    genus: i64,
    /// In rising order.
    widths: Vec<i64>,
}

fn whole_numbers(field: &str) -> Vec<i64> {
    field
        .split_whitespace()
        .map(|piece| piece.parse().expect("these fields hold numbers"))
        .collect()
}

fn stored_groups() -> Vec<Group> {
    FIGURES
        .lines()
        .filter(|line| !line.starts_with('#'))
        .map(|line| {
            let fields: Vec<&str> = line.split('|').map(str::trim).collect();
            let one = |field: &str| whole_numbers(field)[0];
            Group {
                name: fields[0],
                numbers: whole_numbers(&fields[1..4].join(" ")),
                index: one(fields[4]),
                elliptic: [one(fields[5]), one(fields[6])],
                genus: one(fields[7]),
                widths: whole_numbers(fields[8]),
            }
        })
        .collect()
}

/// Numbers on three lines: v, the vertex entries, the pairings.
fn three_lines(numbers: &[i64]) -> String {
    let v = numbers[0] as usize;
    let line = |part: &[i64]| {
        let pieces: Vec<String> = part.iter().map(i64::to_string).collect();
        pieces.join(" ")
    };
    let (vertices, pairings) = numbers[1..].split_at(2 * v);
    format!("{v}\n{}\n{}\n", line(vertices), line(pairings))
}

/// How often each answer occurs: a refusal by its number, anything else by its
/// first word.
#[derive(Default)]
struct Counts(BTreeMap<String, usize>);

impl Counts {
    fn add(&mut self, answer: &str) {
        let mut words = answer.split([' ', '\n']);
        let name = words.next().unwrap_or_default();
        let key = match name {
            "refused" => words.next().unwrap_or_default(),
            // By its sign.
            "word" => &answer[..answer.len().min("word +".len())],
            _ if name.bytes().all(|byte| byte.is_ascii_digit()) => "symbol",
            _ => name,
        };
        *self.0.entry(key.to_string()).or_insert(0) += 1;
    }

    /// How many answers aren't refusals.
    fn answered(&self) -> usize {
        let plain = |key: &str| key.parse::<u32>().is_err();
        let counts = self.0.iter().filter(|(key, _)| plain(key));
        counts.map(|(_, count)| count).sum()
    }

    /// Each of these answers occurs this often at least.
    fn at_least(&self, least: usize, keys: &[&str]) {
        for &key in keys {
            assert!(
                self.0.get(key).is_some_and(|&count| count >= least),
                "too few of {key}: {:?}",
                self.0
            );
        }
    }
}

/// The numbers behind a name in a listing.
fn listed(listing: &str, name: &str) -> Vec<i64> {
    let line = listing
        .lines()
        .find_map(|line| line.strip_prefix(name)?.strip_prefix(' '));
    whole_numbers(line.unwrap_or_else(|| panic!("no line {name} in\n{listing}")))
}

/// The family and the N of a group that a congruence describes.
fn family(name: &str) -> Option<(&str, i128)> {
    let (family, level) = name.strip_suffix(')')?.split_once('(')?;
    Some((family, level.parse().ok()?))
}

/// The text filled up with a byte to a length.
fn filled(start: &str, byte: u8, length: usize) -> Vec<u8> {
    let mut text = start.as_bytes().to_vec();
    text.resize(length, byte);
    text
}

/// Whether x lies in the group, by its entries alone.
fn meets_the_condition(family: &str, n: i128, x: Matrix) -> bool {
    let Matrix([a, b, c, d]) = x;
    let divides = |difference: i128| difference % n == 0;
    let unit = |sign: i128| divides(a - sign) && divides(d - sign);
    divides(c)
        && match family {
            "Gamma0" => true,
            "Gamma1" => unit(1) || unit(-1),
            "Gamma" => divides(b) && (unit(1) || unit(-1)),
            _ => panic!("an unknown family: {family}"),
        }
}

//! Whole texts for the programs, by seed and case number. The first cases
//! of each run are fixed; they hold the smallest and the largest symbols.

use super::drafts::{draft, draft_of_size, many_cusps, size, Draft};
use super::faults::{
    faulty_text, full_text, poke, put_fault, scratch, typed, SYMBOL_FAULTS, TEXT_FAULTS,
};
use super::matrices::{any_pair, found_pair, put_matrix_fault};
use super::pairs::{pair, put_pair_fault, PAIR_FAULTS};
use super::rng::Rng;
use super::twins::second;
use crate::coset::Cosets;
use crate::symbol::{Symbol, MAX_VERTICES};

/// v vertices 0, 1, 2, .. in the listing's form, all sides odd.
fn integers(v: usize) -> String {
    let vertices: Vec<String> = (0..v).map(|i| format!("{i} 1")).collect();
    format!(
        "{v}\n{}\n{}\n",
        vertices.join(" "),
        "-3 ".repeat(v + 1).trim_end()
    )
}

const SYMBOLS: [&str; 12] = [
    "2\n0 1 1 1\n1 -2 1\n",
    "3\n0 1 1 1 2 1\n1 2 2 1\n",
    "1\n0 1\n-2 -3\n",
    "1\n0 1\n-3 -2\n",
    "1\n0 1\n-3 -3\n",
    "1\n0 1\n-2 -2\n",
    "1\n0 1\n1 1\n",
    "2\n-1 1 0 1\n1 -2 1\n",
    "2\n-1 1 0 1\n1 -3 1\n",
    "2\n-1 1 0 1\n-2 -2 -2\n",
    "2\n-1 1 0 1\n-3 -3 -3\n",
    "2\n-1 1 0 1\n1 1 -3\n",
];

const PAIRS: [&str; 12] = [
    "1 0 0 1 1 1 0 1",
    "1 0 0 1 1 0 2 1",
    "0 -1 1 0 1 -1 1 0",
    "1 0 0 1 0 -1 1 0",
    "1 0 0 1 1 0 0 1",
    "1 0 0 1 -1 0 0 -1",
    "1 0 0 1 1 1000000 0 1",
    "1 0 0 1 1 1000001 0 1",
    "1 0 0 1 1 16384 0 1",
    "1 0 0 1 1 16385 0 1",
    "0 -1 1 0 1 0 0 1",
    "0 -1 1 -1 1 0 0 1",
];

fn fixed_listing(case: usize) -> Option<Vec<u8>> {
    let text = match case {
        0..=11 => SYMBOLS[case].to_string(),
        12 => integers(MAX_VERTICES),
        13 => integers(MAX_VERTICES + 1),
        14 => String::new(),
        _ => return None,
    };
    Some(text.into_bytes())
}

fn fixed_query(case: usize) -> Option<Vec<u8>> {
    let symbol = SYMBOLS.get(case / PAIRS.len())?;
    Some(format!("{symbol}{}\n", PAIRS[case % PAIRS.len()]).into_bytes())
}

/// Numbers with one or two faults, or with random numbers in random places.
fn damaged(rng: &mut Rng, draft: &Draft) -> Vec<i64> {
    let mut numbers = draft.numbers();
    if rng.chance(25) {
        poke(rng, &mut numbers);
        return numbers;
    }
    let fault = rng.pick(&SYMBOL_FAULTS);
    put_fault(rng, &mut numbers, fault);
    if rng.chance(40) {
        let second = rng.pick(&SYMBOL_FAULTS[1..5]);
        put_fault(rng, &mut numbers, second);
    }
    numbers
}

/// Bytes with a fault that is meant, or with scratches.
fn damaged_text(rng: &mut Rng, numbers: &[i64]) -> Vec<u8> {
    match rng.below(10) {
        0 => full_text(rng, numbers),
        1..=5 => {
            let fault = rng.pick(&TEXT_FAULTS);
            faulty_text(rng, numbers, fault).0
        }
        _ => {
            let mut bytes = typed(rng, numbers).bytes;
            scratch(rng, &mut bytes);
            bytes
        }
    }
}

/// The text of one case for the listing program.
pub fn listing_case(seed: u64, case: u64) -> Vec<u8> {
    if let Some(text) = fixed_listing(case as usize) {
        return text;
    }
    let rng = &mut Rng::for_case(seed, case);
    match rng.below(100) {
        0..=61 => {
            let numbers = draft(rng).numbers();
            typed(rng, &numbers).bytes
        }
        62..=63 => {
            let numbers = many_cusps(rng).numbers();
            typed(rng, &numbers).bytes
        }
        64..=81 => {
            let draft = draft(rng);
            let numbers = damaged(rng, &draft);
            typed(rng, &numbers).bytes
        }
        _ => {
            let v = size(rng).min(60);
            let numbers = draft_of_size(rng, v).numbers();
            damaged_text(rng, &numbers)
        }
    }
}

/// The text of one case for the query program.
pub fn query_case(seed: u64, case: u64) -> Vec<u8> {
    if let Some(text) = fixed_query(case as usize) {
        return text;
    }
    let rng = &mut Rng::for_case(seed ^ 0x7175_6572_7973, case);
    // Small symbols most of the time: with a large index a pair that wasn't
    // made for it hardly ever has a word.
    let v = match rng.below(10) {
        0..=5 => 1 + rng.below(6),
        6..=8 => size(rng).min(40),
        _ => size(rng),
    };
    let draft = draft_of_size(rng, v);
    let mut numbers = draft.numbers();
    let symbol = Symbol::from_numbers(&numbers).expect("a draft is a sound symbol");
    let (a, b) = match rng.below(100) {
        0..=54 => found_pair(rng, &symbol, &Cosets::new(&symbol)),
        55..=56 => any_pair(rng, true),
        _ => any_pair(rng, false),
    };
    let mut pair = [0; 8];
    pair[..4].copy_from_slice(&a);
    pair[4..].copy_from_slice(&b);
    match rng.below(100) {
        0..=9 => {
            let fault = rng.pick(&[8, 9]);
            put_matrix_fault(rng, &mut pair, fault);
            if rng.chance(40) {
                let second = rng.pick(&[8, 9]);
                put_matrix_fault(rng, &mut pair, second);
            }
        }
        10..=13 => numbers = damaged(rng, &draft),
        _ => {}
    }
    numbers.extend(pair);
    if rng.chance(6) {
        damaged_text(rng, &numbers)
    } else {
        typed(rng, &numbers).bytes
    }
}

const SMALL_PAIRS: [&str; 8] = [
    "3\n1 0 2\n2 0 1\n",
    "1\n0\n0\n",
    "2\n1 0\n0 1\n",
    "6\n1 0 4 5 2 3\n2 3 5 4 1 0\n",
    "4\n1 0 2 3\n0 3 1 2\n",
    "2\n0 1\n0 1\n",
    "0\n",
    "",
];

/// The text of one case for either import program.
pub fn import_case(seed: u64, case: u64) -> Vec<u8> {
    if let Some(text) = SMALL_PAIRS.get(case as usize) {
        return text.as_bytes().to_vec();
    }
    let rng = &mut Rng::for_case(seed ^ 0x696d_706f_7274, case);
    let mut numbers = pair(rng).numbers();
    let draw = rng.below(100);
    if draw < 20 {
        let fault = rng.pick(&PAIR_FAULTS);
        put_pair_fault(rng, &mut numbers, fault);
    }
    // A second fault, whatever comes of it.
    if draw < 6 && numbers.len() > 1 {
        let i = 1 + rng.below(numbers.len() - 1);
        numbers[i] = rng.range(-1, numbers.len() as i64);
    }
    // Damage to bytes suits short texts: a long one would only be too long.
    if rng.chance(10) && numbers.len() < 2_000 {
        damaged_text(rng, &numbers)
    } else {
        typed(rng, &numbers).bytes
    }
}

/// The text of one case for the job `same`: first each symbol of the list
/// with each.
pub fn same_case(seed: u64, case: u64) -> Vec<u8> {
    let (one, other) = (case as usize / SYMBOLS.len(), case as usize % SYMBOLS.len());
    if let Some(one) = SYMBOLS.get(one) {
        return format!("{one}{}", SYMBOLS[other]).into_bytes();
    }
    let rng = &mut Rng::for_case(seed ^ 0x7361_6d65, case);
    let v = match rng.below(10) {
        0..=6 => 1 + rng.below(12),
        _ => size(rng),
    };
    let one = draft_of_size(rng, v);
    let other = second(rng, &one);
    let parts = [one, other].map(|draft| match rng.below(100) {
        0..=7 => damaged(rng, &draft),
        _ => draft.numbers(),
    });
    let numbers = parts.concat();
    // Damage to bytes suits short texts.
    if rng.chance(10) && numbers.len() < 2_000 {
        damaged_text(rng, &numbers)
    } else {
        typed(rng, &numbers).bytes
    }
}

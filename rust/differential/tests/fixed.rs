//! A run with a fixed seed: no difference, and everything that a call can
//! answer was met, so that it can't pass by asking nothing.

use std::collections::{BTreeMap, BTreeSet};
use std::io::{stdout, Write};

use differential::counts::{Reason, Tally};
use differential::{run, table, CALLS};

const SEED: u64 = 20_261_115;
const CASES: u64 = 5_000;
/// How often each reason must be met.
const LEAST: usize = 20;

/// These refusals, without a word on what they are about.
fn plain(numbers: impl Iterator<Item = u64>) -> Vec<Reason> {
    numbers.map(|number| (number, "")).collect()
}

/// A word that is found: returned, or too long for its space, from each start
/// place; and 11 for the work space.
fn words() -> Vec<Reason> {
    let places = ["at 0", "inside", "at the end", "past the end"];
    let answers = places[..3].iter().map(|&place| (0, place));
    let short = places.iter().map(|&place| (11, place));
    answers.chain(short).chain([(11, "work")]).collect()
}

/// Everything that a call can answer; number 0 is an answer without refusal.
/// 18 isn't among it: it is proved that no symbol which passes the checks
/// meets it.
fn reachable(call: &str) -> BTreeSet<Reason> {
    let symbol = plain(1..=7);
    let spaces = vec![(11, "work"), (11, "result")];
    let reasons = match call {
        "check" => [vec![(0, "")], symbol].concat(),
        "generators" | "widths" => [vec![(0, "")], symbol, spaces].concat(),
        "figures" => {
            let answers = vec![(0, ""), (0, "level 17")];
            [answers, symbol, vec![(11, "work")]].concat()
        }
        "tables" => {
            let spaces = vec![(11, "work"), (11, "s"), (11, "r"), (11, "u")];
            [vec![(0, "")], symbol, spaces].concat()
        }
        "cusps" => {
            let spaces = vec![(11, "work"), (11, "cusps"), (11, "steps")];
            [vec![(0, "")], symbol, spaces].concat()
        }
        "import" | "import_wide" => [vec![(0, "")], plain(12..=16), spaces].concat(),
        "import_length" => [vec![(0, "")], plain(12..=15)].concat(),
        "query" | "signed_query" => [words(), plain(1..=10)].concat(),
        "same" | "contains" => {
            let second = (1..=7).map(|number| (number, "second")).collect();
            let answers = vec![(0, "yes"), (0, "no")];
            [answers, symbol, second, vec![(11, "work")]].concat()
        }
        "intersection" => {
            let second = (1..=7).map(|number| (number, "second")).collect();
            let spaces = vec![(11, "work"), (11, "s"), (11, "r"), (11, "k")];
            [vec![(0, ""), (24, "")], symbol, second, spaces].concat()
        }
        "tower" => {
            let answers = vec![(0, ""), (0, "empty")];
            let spaces = vec![(11, "entries"), (11, "work")];
            [answers, symbol, plain(25..=26), spaces].concat()
        }
        "sheet" => {
            let answers = vec![(0, ""), (0, "a word without room")];
            let spaces = vec![(11, "entries"), (11, "work"), (11, "lines")];
            [answers, symbol, spaces].concat()
        }
        "exchange" => [vec![(0, ""), (11, "")], symbol, plain(23..=23)].concat(),
        "preview" => {
            let answers = vec![(0, ""), (0, "level 17")];
            [answers, symbol, plain(23..=23), spaces].concat()
        }
        "same_coset" => {
            let answers = vec![(0, "yes"), (0, "no")];
            [answers, symbol, plain(8..=9), vec![(11, "work")]].concat()
        }
        "same_cosets" => {
            let spaces = vec![(11, "entries"), (11, "work"), (11, "lines")];
            [vec![(0, "")], symbol, spaces].concat()
        }
        "drawing" => [vec![(0, ""), (11, "")], symbol, plain(22..=22)].concat(),
        "read_cycles" => {
            let texts = vec![(27, "inside"), (27, "at the end"), (12, "")];
            let spaces = vec![(11, "s"), (11, "r")];
            [vec![(0, "")], texts, plain(14..=15), spaces].concat()
        }
        "write_cycles" => [vec![(0, ""), (11, "")], plain(12..=15)].concat(),
        "named_tables" => {
            let spaces = vec![(11, "work"), (11, "s"), (11, "r")];
            [vec![(0, "")], plain(20..=21), spaces].concat()
        }
        "named_symbol" => [vec![(0, "")], plain(20..=21), plain(16..=16), spaces].concat(),
        // The wide rule refuses no named group with 16.
        "named_symbol_wide" => [vec![(0, "")], plain(20..=21), spaces].concat(),
        "named_query" | "named_signed_query" => {
            [words(), plain(20..=21), plain(8..=10), plain(16..=16)].concat()
        }
        "named_query_wide" | "named_signed_query_wide" => {
            [words(), plain(20..=21), plain(8..=10)].concat()
        }
        _ => panic!("no call {call}"),
    };
    reasons.into_iter().collect()
}

/// Each reason of the call was met often enough, and no other.
fn met_all(call: &str, tally: &Tally) {
    let met: BTreeSet<Reason> = tally.met.keys().copied().collect();
    assert_eq!(met, reachable(call), "{call}");
    for (reason, &count) in &tally.met {
        assert!(count >= LEAST, "{call}: {reason:?} only {count} times");
    }
}

#[test]
fn every_call_is_as_the_reference_has_it() {
    let tallies = run(SEED, 0..CASES).unwrap_or_else(|difference| panic!("{difference}"));
    // Shown also where the test passes, which `println!` isn't.
    writeln!(stdout(), "\n{}", table(&tallies)).expect("standard output is open");
    let names = CALLS.iter().map(|&(name, _)| name);
    let calls: BTreeMap<&str, &Tally> = names.zip(&tallies).collect();
    for (name, tally) in &calls {
        assert_eq!(tally.calls as u64, CASES, "{name}");
        assert!(tally.number(0) > 0 && tally.number(0) < tally.calls);
        met_all(name, tally);
    }
    // The largest symbols that there are, and long words.
    assert_eq!(calls["generators"].largest, 1_024);
    assert_eq!(calls["tables"].largest, 4_090);
    assert_eq!(calls["cusps"].largest, 4_090);
    assert_eq!(calls["import"].largest, 1_023);
    assert_eq!(calls["import_wide"].largest, 1_023);
    assert_eq!(calls["drawing"].largest, 1_024);
    assert_eq!(calls["import_length"].largest, 3_070);
    assert_eq!(calls["sheet"].largest, 256);
    assert!(calls["exchange"].largest >= 1_000);
    assert!(calls["same_cosets"].largest > 256);
    assert_eq!(calls["intersection"].largest, 3_066);
    assert_eq!(calls["read_cycles"].largest, 3_066);
    assert!(calls["write_cycles"].largest > 20_000);
    assert!(calls["widths"].largest >= 500);
    // More letters than the program lends.
    assert!(calls["query"].largest > 16_384);
    assert!(calls["signed_query"].largest > 16_384);
    assert!(calls["named_tables"].largest >= 2_500);
    assert!(calls["named_symbol_wide"].largest >= 800);
    assert!(calls["named_query_wide"].largest >= 300);
    // Over all calls each number but 19; 17 is met by a figure alone, and 18
    // by nothing.
    for number in (1..=16).chain(20..=26).chain([27]) {
        let count: usize = tallies.iter().map(|tally| tally.number(number)).sum();
        assert!(count >= LEAST, "refusal {number} only {count} times");
    }
    assert!(calls["figures"].met[&(0, "level 17")] >= LEAST);
    // Both signs, of words and of named groups.
    let signed = [
        "signed_query",
        "named_signed_query",
        "named_signed_query_wide",
    ];
    for name in signed {
        let Tally { signs, .. } = calls[name];
        assert!(signs.iter().all(|&count| count >= 500), "{name}: {signs:?}");
    }
    for (name, tally) in &calls {
        assert!(signed.contains(name) || tally.signs == [0, 0], "{name}");
    }
}

//! Times of the calls by name, of sameness, of a query and of a sheet of pairs, beside
//! the plain functions of `bench`, without any process: one after the other by turns,
//! and the medians in microseconds. The sheet stands beside as many single queries too.
//!
//!     call-times [RUNS]

use std::env;
use std::hint::black_box;
use std::time::{Duration, Instant};

use bench::named::{named_symbol_wide, named_tables};
use bench::query::signed_query;
use bench::same::{same, same_by_tables};
use bench::sheet::sheet;
use farey::calls;
use reference::coset::Cosets;
use reference::random::matrices::{any_pair, found_pair};
use reference::random::pairs::{shallow_pair, Pair};
use reference::random::Rng;
use reference::sheet::pairs;
use reference::symbol::Symbol;

fn timed(job: &mut dyn FnMut()) -> Duration {
    let begin = Instant::now();
    job();
    begin.elapsed()
}

fn median(mut times: Vec<Duration>) -> f64 {
    times.sort_unstable();
    times[times.len() / 2].as_secs_f64() * 1e6
}

fn main() {
    let runs = env::args().nth(1).map_or(1_001, |runs| {
        runs.parse().expect("usage: call-times [RUNS]")
    });
    let mut work = vec![0; calls::WORK];
    let mut out = vec![0; calls::TABLE];
    let (mut s, mut r) = (vec![0; calls::NAMED], vec![0; calls::NAMED]);
    println!("| group | job | engine | plain Rust | ratio |\n|---|---|---|---|---|");
    for (name, family, n) in [("Γ0(990)", 0, 990), ("Γ1(90)", 1, 90), ("Γ(20)", 2, 20)] {
        let (number, level) = (family as u64, n as u64);
        let mut tables = || {
            let made = calls::named_tables(number, level, &mut work, &mut s, &mut r);
            black_box(made.expect("a group"));
        };
        let mut plain_tables = || {
            let made = named_tables(family, n);
            black_box(made.map(|pair| pair.s.len()).expect("a group"));
        };
        row(name, "tables", runs, &mut tables, &mut plain_tables);
        let mut symbol = || {
            let made = calls::named_symbol_wide(number, level, &mut work, &mut out);
            black_box(made.expect("a group"));
        };
        let mut plain_symbol = || {
            black_box(named_symbol_wide(family, n).expect("a group"));
        };
        row(name, "symbol", runs, &mut symbol, &mut plain_symbol);
    }
    for (name, one, other) in pairs_of_symbols(&mut work) {
        let (v, m) = (one.len() / 3, other.len() / 3);
        let mut engine = || {
            let came = calls::same(v, &one, m, &other, &mut work);
            black_box(came.expect("two symbols"));
        };
        let mut plain = || {
            let came = same(v as i64, &one, m as i64, &other);
            black_box(came.expect("two symbols"));
        };
        row(&name, "same", runs, &mut engine, &mut plain);
        let mut plain = || {
            let came = same_by_tables(v as i64, &one, m as i64, &other);
            black_box(came.expect("two symbols"));
        };
        row(
            &name,
            "same, plain by tables",
            runs,
            &mut engine,
            &mut plain,
        );
    }
    query_rows(runs, &mut work, &mut out);
    sheet_rows(runs, &mut work, &mut out);
}

/// Queries from I, short and long ones, on Γ0(990), of index 2,592.
fn query_rows(runs: usize, work: &mut [u16], table: &mut [i64]) {
    let v = calls::named_symbol_wide(0, 990, work, table).expect("a group");
    let table = &table[..3 * v + 1];
    let one = [1, 0, 0, 1];
    let power = [1, 1_000_000, 0, 1];
    println!(
        "\n| from I to | room | number | engine | plain Rust | ratio |\n|---|---|---|---|---|---|"
    );
    for (name, to, room) in [
        ("T^2", [1, 2, 0, 1], 1_000_000),
        ("T^1000000", power, 0),
        ("T^1000000", power, 1_000_000),
        ("(999999 499999; 2 1)", [999_999, 499_999, 2, 1], 1_000_000),
        ("(1 0; 990000 1)", [1, 0, 990_000, 1], 1_000_000),
    ] {
        let pair = [one, to].concat();
        let (mut out, mut other) = (vec![0; room], Vec::with_capacity(room));
        let mut sign = 0;
        let mut number = 0;
        let mut engine = || {
            let came = calls::signed_query(v, table, &one, &to, work, &mut out, 0, &mut sign);
            number = black_box(came.err().map_or(0, |refusal| refusal.number));
        };
        let mut plain_number = 0;
        let mut plain = || {
            other.clear();
            let came = signed_query(v as i64, table, &pair, room, &mut other);
            plain_number = black_box(came.err().map_or(0, |refusal| refusal.0));
        };
        let [engine, plain] = medians(runs.min(101), &mut engine, &mut plain);
        let ratio = engine / plain;
        assert_eq!(u64::from(plain_number), number as u64);
        if number == 0 {
            assert_eq!(out[..other.len()], other);
        }
        println!("| {name} | {room} | {number} | {engine:.1} | {plain:.1} | {ratio:.2} |");
    }
}

/// A full sheet on Γ0(990), of index 2,592, beside plain Rust that builds once and
/// beside single queries.
fn sheet_rows(runs: usize, work: &mut [u16], table: &mut [i64]) {
    let v = calls::named_symbol_wide(0, 990, work, table).expect("a group");
    let table = &table[..3 * v + 1];
    let symbol = Symbol::new(v as i64, table).expect("a symbol");
    let (cosets, mut rng) = (Cosets::new(&symbol), Rng::new(6));
    println!(
        "\n| pairs | letters | sheet | beside it | its time | ratio |\n|---|---|---|---|---|---|"
    );
    for (name, part) in [
        ("with words", 100),
        ("one in two with a word", 50),
        ("any pair", 0),
        ("from I to powers of T and (1 0; 1 1)", -1),
    ] {
        let mut entries = Vec::new();
        while entries.len() < 8 * calls::SHEET {
            let (a, b) = match (part, rng.chance(part.max(0) as usize)) {
                (-1, _) => power(&mut rng),
                (_, true) => found_pair(&mut rng, &symbol, &cosets),
                (_, false) => any_pair(&mut rng, false),
            };
            entries.extend([a, b].concat());
        }
        let mut lines = vec![0; 4 * calls::SHEET];
        let letters = {
            let mut ask = |out: &mut [i16]| {
                calls::sheet(v, table, &entries, work, &mut lines, out).expect("a sheet");
                let rows = lines.chunks_exact(4);
                rows.map(|row| match row[0] {
                    0 => row[2],
                    11 => row[1],
                    _ => 0,
                })
                .sum::<i64>()
            };
            ask(&mut [])
        };
        let room = letters.min(20_000) as usize;
        let (mut out, mut other) = (vec![0; room], vec![0; room]);
        let mut other_work = vec![0; calls::WORK];
        let mut plain = || {
            let came = sheet(v as i64, table, &entries, &mut other);
            black_box(came.expect("a sheet"));
        };
        let mut whole = || {
            let came = calls::sheet(v, table, &entries, work, &mut lines, &mut out);
            black_box(came.expect("a sheet"));
        };
        let [engine, beside] = medians(runs, &mut whole, &mut plain);
        let ratio = engine / beside;
        println!("| {name} | {letters} | {engine:.1} | plain Rust | {beside:.1} | {ratio:.2} |");
        let mut singles = || {
            let (mut next, mut sign) = (0, 0);
            for (a, b) in pairs(&entries) {
                let work = &mut other_work;
                let came = calls::signed_query(v, table, &a, &b, work, &mut other, next, &mut sign);
                next += black_box(came.unwrap_or(0));
            }
        };
        let [engine, beside] = medians(runs, &mut whole, &mut singles);
        let ratio = engine / beside;
        println!(
            "| {name} | {letters} | {engine:.1} | single queries | {beside:.1} | {ratio:.3} |"
        );
        assert_eq!(out, other);
    }
}

/// I and a power of T or of its transpose, up to a million.
fn power(rng: &mut Rng) -> ([i64; 4], [i64; 4]) {
    let k = 1 + rng.below(1_000_000) as i64;
    let to = match rng.chance(50) {
        true => [1, k, 0, 1],
        false => [1, 0, k, 1],
    };
    ([1, 0, 0, 1], to)
}

/// Two symbols of one group, by `import` and by `import_wide`; and one of them with
/// a symbol of a conjugate that isn't the same group. Each with its index.
fn pairs_of_symbols(work: &mut [u16]) -> Vec<(String, Vec<i64>, Vec<i64>)> {
    let mut rng = Rng::new(19);
    let mut rows = Vec::new();
    // About 300, and the largest that both rules make.
    for vertices in [101, 1_023] {
        let mut made = |pair: &Pair, wide: bool| {
            let points = |table: &[i64]| table.iter().map(|&x| x as u32).collect::<Vec<u32>>();
            let (s, r) = (points(&pair.s), points(&pair.r));
            let mut out = vec![0; calls::TABLE];
            let v = match wide {
                true => calls::import_wide(&s, &r, work, &mut out),
                false => calls::import(&s, &r, work, &mut out),
            };
            out.truncate(3 * v.ok()? + 1);
            Some(out)
        };
        let (pair, one, other) = loop {
            // Some are refused from the left, with 16.
            let pair = shallow_pair(&mut rng, vertices);
            if let Some(one) = made(&pair, false) {
                break (pair.clone(), one, made(&pair, true).expect("small entries"));
            }
        };
        assert_ne!(one, other);
        let mut names: Vec<usize> = (0..pair.points()).collect();
        names.swap(0, pair.s[0].max(pair.r[0]) as usize);
        let conjugate = made(&pair.renamed(&names), true).expect("small entries");
        let plain = |other: &[i64]| {
            let (v, m) = (one.len() / 3, other.len() / 3);
            same(v as i64, &one, m as i64, other)
        };
        assert_eq!([plain(&other), plain(&conjugate)], [Ok(true), Ok(false)]);
        let index = pair.points();
        rows.push((format!("index {index}, one group"), one.clone(), other));
        rows.push((format!("index {index}, a conjugate"), one, conjugate));
    }
    rows
}

/// A row of the table.
fn row(name: &str, job: &str, runs: usize, engine: &mut dyn FnMut(), plain: &mut dyn FnMut()) {
    let [engine, plain] = medians(runs, engine, plain);
    println!(
        "| {name} | {job} | {engine:.1} | {plain:.1} | {:.2} |",
        engine / plain
    );
}

/// The medians of two jobs that are done by turns.
fn medians(runs: usize, engine: &mut dyn FnMut(), plain: &mut dyn FnMut()) -> [f64; 2] {
    let mut times = [Vec::new(), Vec::new()];
    for round in 0..runs.max(1) {
        // Neither of the two always comes behind the other.
        if round % 2 == 0 {
            times[0].push(timed(engine));
            times[1].push(timed(plain));
        } else {
            times[1].push(timed(plain));
            times[0].push(timed(engine));
        }
    }
    times.map(median)
}

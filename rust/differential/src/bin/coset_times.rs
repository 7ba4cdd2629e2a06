//! Times of `same_cosets` beside two plain functions (`bench::same_coset`), one with a
//! remainder for each quotient and one that steps one T at a time, without any process,
//! by turns: the fastest of RUNS, in milliseconds. The tables' share is the time of a call
//! with no pairs.
//!
//!     coset-times [PAIRS] [RUNS]

use std::env;
use std::hint::black_box;
use std::time::Instant;

use bench::same_coset::{same_cosets, same_cosets_by_steps};
use farey::calls;
use reference::random::pairs::{dice_pair, Pair};
use reference::random::Rng;

/// A symbol's number of vertices and table.
type Table = (usize, Vec<i64>);

fn named(family: u64, n: u64) -> Table {
    let mut out = vec![0; calls::TABLE];
    let made = calls::named_symbol_wide(family, n, &mut vec![0; calls::WORK], &mut out);
    let v = made.expect("a group");
    out.truncate(3 * v + 1);
    (v, out)
}

/// The first pair from dice of 3,000 points that has an import.
fn from_dice() -> Table {
    let made = |pair: Pair| {
        let points = |table: &[i64]| table.iter().map(|&x| x as u32).collect::<Vec<u32>>();
        let mut out = vec![0; calls::TABLE];
        let work = &mut vec![0; calls::WORK];
        let v = calls::import_wide(&points(&pair.s), &points(&pair.r), work, &mut out).ok()?;
        out.truncate(3 * v + 1);
        Some((v, out))
    };
    (0..)
        .find_map(|seed| made(dice_pair(&mut Rng::new(seed), 3_000)))
        .expect("there is such a pair")
}

/// x and y with a x + b y = 1, for coprime a and b; else none.
fn multipliers(a: i64, b: i64) -> Option<(i64, i64)> {
    let (mut r, mut x, mut y) = ((a, b), (1, 0), (0, 1));
    while r.1 != 0 {
        let q = r.0 / r.1;
        r = (r.1, r.0 - q * r.1);
        x = (x.1, x.0 - q * x.1);
        y = (y.1, y.0 - q * y.1);
    }
    match r.0 {
        1 => Some((x.0, y.0)),
        -1 => Some((-x.0, -y.0)),
        _ => None,
    }
}

/// A matrix of determinant 1 with a first column of any numbers up to `most` in size.
fn random(rng: &mut Rng, most: usize) -> [i64; 4] {
    loop {
        let [a, c] = [0; 2].map(|_| rng.below(2 * most + 1) as i64 - most as i64);
        if let Some((x, y)) = multipliers(a, c) {
            return [a, -y, c, x];
        }
    }
}

/// A pair with exactly one entry over 100,000: a long run of T.
fn long_run(rng: &mut Rng) -> [[i64; 4]; 2] {
    let small = [[1, 0, 0, 1], [0, -1, 1, 0], [1, 1, 0, 1], [1, 0, 1, 1]];
    let mut n = 100_001 + rng.below(899_000) as i64;
    if rng.chance(50) {
        n = -n;
    }
    let long = if rng.chance(50) {
        [1, n, 0, 1]
    } else {
        [1, 0, n, 1]
    };
    [rng.pick(&small), long]
}

fn milliseconds(job: &mut dyn FnMut()) -> f64 {
    let begin = Instant::now();
    job();
    begin.elapsed().as_secs_f64() * 1e3
}

/// The shortest one: other work on the machine makes times longer, never shorter.
fn fastest(times: Vec<f64>) -> f64 {
    times.into_iter().fold(f64::INFINITY, f64::min)
}

fn main() {
    let numbers: Vec<usize> = env::args()
        .skip(1)
        .map_while(|word| word.parse().ok())
        .collect();
    let count = numbers.first().map_or(100_000, |&pairs| pairs);
    let runs = numbers.get(1).map_or(11, |&runs| runs.max(1));
    println!(
        "| symbol | pairs | yes | engine | tables | plain | ratio | one T at a time | ratio |"
    );
    println!("|---|---|---|---|---|---|---|---|---|");
    let groups = [
        ("index 3,000, from dice", from_dice()),
        ("Γ0(990), index 2,592", named(0, 990)),
        ("Γ(18), index 1,944", named(2, 18)),
    ];
    let kinds = [
        "entries to 1,000,000",
        "entries to 30,000",
        "entries to 1,000",
        "one long run of T",
    ];
    for (place, (name, (v, table))) in groups.iter().enumerate() {
        let mut rng = Rng::new(8);
        for kind in kinds {
            // One T at a time a long run takes milliseconds: all pairs once, on the
            // first symbol, and a tenth of them on the others.
            let (count, runs) = match (kind, place) {
                ("one long run of T", 0) => (count, 1),
                ("one long run of T", _) => (count / 10, 1),
                _ => (count, runs),
            };
            let mut entries = Vec::with_capacity(8 * count);
            for _ in 0..count {
                let pair = match kind {
                    "entries to 1,000,000" => [0; 2].map(|_| random(&mut rng, 1_000_000)),
                    "entries to 30,000" => [0; 2].map(|_| random(&mut rng, 30_000)),
                    "entries to 1,000" => [0; 2].map(|_| random(&mut rng, 1_000)),
                    _ => long_run(&mut rng),
                };
                entries.extend(pair.concat());
            }
            row(name, kind, (*v, table), &entries, runs);
        }
    }
}

/// A row of the table; both must say the same.
fn row(name: &str, kind: &str, (v, table): (usize, &[i64]), entries: &[i64], runs: usize) {
    let mut work = vec![0; calls::WORK];
    let mut lines = vec![0; entries.len() / 4];
    let mut plain_lines = Vec::new();
    let mut stepped = Vec::new();
    let mut times = [const { Vec::new() }; 4];
    for _ in 0..runs {
        times[0].push(milliseconds(&mut || {
            let came = calls::same_cosets(v, table, entries, &mut work, &mut lines);
            black_box(came.expect("a symbol"));
        }));
        times[1].push(milliseconds(&mut || {
            let came = calls::same_cosets(v, table, &[], &mut work, &mut []);
            black_box(came.expect("a symbol"));
        }));
        times[2].push(milliseconds(&mut || {
            plain_lines = same_cosets(v as i64, table, entries).expect("a symbol");
        }));
        times[3].push(milliseconds(&mut || {
            stepped = same_cosets_by_steps(v as i64, table, entries).expect("a symbol");
        }));
    }
    assert_eq!(lines, plain_lines.concat());
    assert_eq!(lines, stepped.concat());
    let pairs = plain_lines.len();
    let yes = plain_lines.iter().filter(|line| line[1] == 1).count();
    let [engine, tables, plain, stepped] = times.map(fastest);
    let (ratio, second) = (engine / plain, engine / stepped);
    print!("| {name} | {pairs}, {kind} | {yes} | {engine:.3} | {tables:.3} ");
    println!("| {plain:.3} | {ratio:.2} | {stepped:.1} | {second:.5} |");
}

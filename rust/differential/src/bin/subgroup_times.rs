//! Times of `intersection`, `contains` and `tower` beside the plain functions of `bench`,
//! without any process: one after the other by turns, and the medians in microseconds.
//!
//!     subgroup-times [RUNS]

use std::env;
use std::hint::black_box;
use std::time::{Duration, Instant};

use bench::subgroups::{contains, intersection, intersection_by_chains};
use farey::{calls, Symbol};

fn timed(job: &mut dyn FnMut()) -> Duration {
    let begin = Instant::now();
    job();
    begin.elapsed()
}

/// The medians of two jobs that are done by turns.
fn medians(runs: usize, one: &mut dyn FnMut(), other: &mut dyn FnMut()) -> [f64; 2] {
    let mut times = [Vec::new(), Vec::new()];
    for round in 0..runs.max(1) {
        // Neither of the two always comes behind the other.
        if round % 2 == 0 {
            times[0].push(timed(one));
            times[1].push(timed(other));
        } else {
            times[1].push(timed(other));
            times[0].push(timed(one));
        }
    }
    times.map(|mut times| {
        times.sort_unstable();
        times[times.len() / 2].as_secs_f64() * 1e6
    })
}

fn row(name: &str, job: &str, runs: usize, engine: &mut dyn FnMut(), plain: &mut dyn FnMut()) {
    let [engine, plain] = medians(runs, engine, plain);
    let ratio = engine / plain;
    println!("| {name} | {job} | {engine:.1} | {plain:.1} | {ratio:.2} |");
}

fn main() {
    let runs = env::args().nth(1).map_or(1_001, |runs| {
        runs.parse().expect("usage: subgroup-times [RUNS]")
    });
    let mut work = vec![0; calls::WORK];
    let [mut s, mut r, mut k] = [(); 3].map(|()| vec![0; calls::INTERSECTION]);
    let gamma0 = |n| Symbol::gamma0(n).expect("a group");
    // From few points to nearly as many as there may be; the last pair has a long chain
    // for each of three cosets.
    let pairs = [
        ("Γ0(16) and Γ0(27), 864 points", gamma0(16), gamma0(27)),
        ("Γ0(27) and Γ0(16), 864 points", gamma0(27), gamma0(16)),
        ("Γ0(25) and Γ0(64), 2,880 points", gamma0(25), gamma0(64)),
        (
            "Γ0(990) and Γ0(495), 2,592 points",
            gamma0(990),
            gamma0(495),
        ),
        ("Γ0(2) and Γ0(997), 2,994 points", gamma0(2), gamma0(997)),
        ("Γ0(997) and Γ0(2), 2,994 points", gamma0(997), gamma0(2)),
    ];
    println!("| groups | job | engine | plain Rust | ratio |\n|---|---|---|---|---|");
    for (name, one, other) in &pairs {
        let (v, t, m, u) = (one.vertices(), one.table(), other.vertices(), other.table());
        let mut engine = || {
            let made = calls::intersection(v, t, m, u, &mut work, &mut s, &mut r, &mut k);
            black_box(made.expect("at most 3,066 points"));
        };
        let mut plain = || {
            let made = intersection(v as i64, t, m as i64, u);
            black_box(made.map(|tables| tables.s.len()).expect("two symbols"));
        };
        row(
            name,
            "intersection, plain by a hash table",
            runs,
            &mut engine,
            &mut plain,
        );
        let mut plain = || {
            let made = intersection_by_chains(v as i64, t, m as i64, u);
            black_box(made.map(|tables| tables.s.len()).expect("two symbols"));
        };
        row(
            name,
            "intersection, plain by chains",
            runs,
            &mut engine,
            &mut plain,
        );
        let mut engine = || {
            let came = calls::contains(m, u, v, t, &mut work);
            black_box(came.expect("two symbols"));
        };
        let mut plain = || {
            let came = contains(m as i64, u, v as i64, t);
            black_box(came.expect("two symbols"));
        };
        row(
            name,
            "the second contains the first",
            runs,
            &mut engine,
            &mut plain,
        );
    }
    // 64 symbols of Γ0(990), each in the one before it.
    let large = gamma0(990);
    let mut table = Vec::new();
    for i in 0..64 {
        table.extend([i - 1, large.vertices() as i64]);
        table.extend_from_slice(large.table());
    }
    let mut engine = || {
        calls::tower(64, &table, &mut work).expect("each contains itself");
    };
    let mut plain = || {
        let (v, t) = (large.vertices() as i64, large.table());
        for _ in 1..64 {
            black_box(contains(v, t, v, t).expect("a symbol"));
        }
    };
    row(
        "Γ0(990), 64 times",
        "tower",
        runs.min(101),
        &mut engine,
        &mut plain,
    );
}

//! Time of one call of each plain function, without any process.
//!
//!     plain-times

use std::hint::black_box;
use std::time::{Duration, Instant};

use bench::inputs::inputs;
use bench::{plain_import, plain_import_wide, plain_listing, plain_named, plain_query};

/// The fastest and the middle one of many calls, in microseconds.
fn times(answer: fn(&[u8]) -> Vec<u8>, text: &[u8]) -> (f64, f64) {
    let mut times = Vec::new();
    let begin = Instant::now();
    while times.len() < 50 || (begin.elapsed() < Duration::from_millis(300) && times.len() < 5_000)
    {
        let begin = Instant::now();
        black_box(answer(black_box(text)));
        times.push(begin.elapsed());
    }
    times.sort_unstable();
    let micro = |time: Duration| time.as_secs_f64() * 1e6;
    (micro(times[0]), micro(times[times.len() / 2]))
}

fn main() {
    for input in inputs() {
        let answer = match input.name.split('-').next() {
            Some("listing") => plain_listing,
            Some("query") => plain_query,
            Some("import_wide") => plain_import_wide,
            Some("named") => plain_named,
            _ => plain_import,
        };
        let (fastest, median) = times(answer, input.text.as_bytes());
        println!(
            "{:20} fastest {fastest:10.1}  median {median:10.1} microseconds",
            input.name
        );
    }
}

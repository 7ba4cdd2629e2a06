//! `differential SEED CASES [FIRST]`: makes every call once for each of so many
//! cases, from case FIRST (or 0) on, and prints the counts. On a difference it
//! prints the seed, the case and both sides, and its exit status is 1.

use std::env;
use std::process::ExitCode;

use differential::{run, table};

fn main() -> ExitCode {
    let numbers: Option<Vec<u64>> = env::args().skip(1).map(|arg| arg.parse().ok()).collect();
    let (seed, cases, first) = match numbers.as_deref() {
        Some(&[seed, cases]) => (seed, cases, 0),
        Some(&[seed, cases, first]) => (seed, cases, first),
        _ => {
            eprintln!("differential SEED CASES [FIRST]");
            return ExitCode::from(2);
        }
    };
    match run(seed, first..first.saturating_add(cases)) {
        Ok(tallies) => {
            print!("{}", table(&tallies));
            println!(
                "{} calls, no difference",
                tallies.iter().map(|t| t.calls).sum::<usize>()
            );
            ExitCode::SUCCESS
        }
        Err(difference) => {
            println!("{difference}");
            ExitCode::FAILURE
        }
    }
}

//! Wall times of two programs over one text, run by turns.
//!
//!     compare ENGINE PLAIN TEXT [RUNS]
//!
//! ENGINE is a program, or in one word a program, a space and its job. Medians and fastest runs of RUNS runs (200 unless given) are printed with
//! their ratios. On a machine that is busy with other things the fastest runs
//! say more. From them the time of a program that does nothing is taken off as
//! well, where enough remains to form a ratio of it.

use std::path::Path;
use std::{env, io};

use bench::timing::Comparison;

fn main() -> io::Result<()> {
    let arguments: Vec<String> = env::args().skip(1).collect();
    let (engine, plain, text, runs) = match &arguments[..] {
        [engine, plain, text] => (engine, plain, text, 200),
        [engine, plain, text, runs] => {
            let runs = runs.parse().map_err(io::Error::other)?;
            (engine, plain, text, runs)
        }
        _ => return Err(io::Error::other("usage: compare ENGINE PLAIN TEXT [RUNS]")),
    };
    let nothing = env::current_exe()?.with_file_name("plain-nothing");
    let (engine, job) = match engine.split_once(' ') {
        Some((engine, job)) => (engine, Some(job)),
        None => (&engine[..], None),
    };
    let (engine, plain) = (Path::new(engine), Path::new(plain));
    let all = Comparison::of(engine, job, plain, &nothing, Path::new(text), runs)?;
    println!("{text}, {runs} runs each, milliseconds:");
    for (name, runs) in [
        ("engine", &all.engine),
        ("plain", &all.plain),
        ("nothing", &all.nothing),
    ] {
        let (median, fastest) = (runs.median(), runs.fastest());
        println!("  {name:8} median {median:9.3}  fastest {fastest:9.3}");
    }
    let fastest = all.engine.fastest() / all.plain.fastest();
    println!(
        "  ratio    median {:9.2}  fastest {fastest:9.2}",
        all.ratio()
    );
    match all.ratio_without_start() {
        Some(ratio) => println!("  without the start of a process: {ratio:.2}"),
        None => println!("  without the start of a process: too little remains"),
    }
    Ok(())
}

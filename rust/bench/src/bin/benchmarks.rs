//! All benchmarks in one run, as the rows of a table.
//!
//!     benchmarks FOLDER [RUNS]
//!
//! FOLDER has the engine's programs `listing`, `query` and `farey`, which has the
//! jobs `import`, `import-wide` and `named`. Each job is run RUNS times (200 unless
//! given) by the engine and by the plain program, by turns.

use std::path::Path;
use std::{env, fs, io, process};

use bench::inputs::inputs;
use bench::timing::Comparison;

fn main() -> io::Result<()> {
    let arguments: Vec<String> = env::args().skip(1).collect();
    let (programs, runs) = match &arguments[..] {
        [programs] => (programs, 200),
        [programs, runs] => (programs, runs.parse().map_err(io::Error::other)?),
        _ => return Err(io::Error::other("usage: benchmarks FOLDER [RUNS]")),
    };
    let here = env::current_exe()?;
    let texts = env::temp_dir().join(format!("farey-benchmarks-{}", process::id()));
    fs::create_dir_all(&texts)?;
    println!("| text | runs | engine | plain Rust | ratio | without the start of a process |");
    println!("|---|---|---|---|---|---|");
    for input in inputs() {
        let text = texts.join(input.name);
        fs::write(&text, &input.text)?;
        let job = input.name.split('-').next().unwrap_or_default();
        let job = job.replace('_', "-");
        let (engine, argument) = match &job[..] {
            "listing" | "query" => (&job[..], None),
            _ => ("farey", Some(&job[..])),
        };
        let all = Comparison::of(
            &Path::new(programs).join(engine),
            argument,
            &here.with_file_name(format!("plain-{job}")),
            &here.with_file_name("plain-nothing"),
            &text,
            runs,
        )?;
        let without = match all.ratio_without_start() {
            Some(ratio) => format!("{ratio:.2}"),
            None => "too little is left".to_string(),
        };
        println!(
            "| {} | {runs} | {:.2} | {:.2} | {:.2} | {without} |",
            input.name,
            all.engine.median(),
            all.plain.median(),
            all.ratio()
        );
    }
    fs::remove_dir_all(&texts)
}

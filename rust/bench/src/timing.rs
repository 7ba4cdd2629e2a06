//! Wall times of two programs over one text, run by turns with each other and
//! with a program that does nothing, so that whatever else the machine does
//! falls on all alike.

use std::fs::File;
use std::io;
use std::path::{Path, PathBuf};
use std::process::{Command, Stdio};
use std::time::{Duration, Instant};

/// Wall times of one program, with its argument where it has one.
pub struct Runs {
    path: PathBuf,
    job: Option<String>,
    times: Vec<Duration>,
}

/// The wall times of the three.
pub struct Comparison {
    pub engine: Runs,
    pub plain: Runs,
    pub nothing: Runs,
}

impl Runs {
    fn new(path: &Path, job: Option<&str>) -> Runs {
        Runs {
            path: path.to_path_buf(),
            job: job.map(str::to_string),
            times: Vec::new(),
        }
    }

    fn command(&self, text: &Path) -> io::Result<Command> {
        let mut command = Command::new(&self.path);
        command.args(&self.job).stdin(File::open(text)?);
        Ok(command)
    }

    fn ended(&self, status: std::process::ExitStatus) -> io::Result<()> {
        if status.success() {
            return Ok(());
        }
        let message = format!("{} ends with {status}", self.path.display());
        Err(io::Error::other(message))
    }

    fn output(&self, text: &Path) -> io::Result<Vec<u8>> {
        let output = self.command(text)?.output()?;
        self.ended(output.status)?;
        Ok(output.stdout)
    }

    fn time(&mut self, text: &Path) -> io::Result<()> {
        let mut command = self.command(text)?;
        command.stdout(Stdio::null());
        let begin = Instant::now();
        let status = command.status()?;
        self.times.push(begin.elapsed());
        self.ended(status)
    }

    /// The middle one of the times, in milliseconds.
    pub fn median(&self) -> f64 {
        let mut times = self.times.clone();
        times.sort_unstable();
        times[times.len() / 2].as_secs_f64() * 1e3
    }

    /// The shortest one, in milliseconds.
    pub fn fastest(&self) -> f64 {
        let fastest = self.times.iter().min();
        fastest.expect("there are runs").as_secs_f64() * 1e3
    }
}

impl Comparison {
    /// Runs both once to see that they print the same, and then each so many
    /// times by turns. `job` is the engine's argument, `nothing` is the program that
    /// does nothing.
    pub fn of(
        engine: &Path,
        job: Option<&str>,
        plain: &Path,
        nothing: &Path,
        text: &Path,
        runs: usize,
    ) -> io::Result<Comparison> {
        let mut all = Comparison {
            engine: Runs::new(engine, job),
            plain: Runs::new(plain, None),
            nothing: Runs::new(nothing, None),
        };
        if all.engine.output(text)? != all.plain.output(text)? {
            let message = format!("{}: the two print different things", text.display());
            return Err(io::Error::other(message));
        }
        for round in 0..runs {
            // Neither of the two always comes behind the other.
            if round % 2 == 0 {
                all.engine.time(text)?;
                all.plain.time(text)?;
            } else {
                all.plain.time(text)?;
                all.engine.time(text)?;
            }
            all.nothing.time(text)?;
        }
        Ok(all)
    }

    /// The ratio of the medians.
    pub fn ratio(&self) -> f64 {
        self.engine.median() / self.plain.median()
    }

    /// The ratio of the fastest runs with the time of the program that does
    /// nothing taken off, where enough remains to form one.
    pub fn ratio_without_start(&self) -> Option<f64> {
        let start = self.nothing.fastest();
        let (engine, plain) = (self.engine.fastest() - start, self.plain.fastest() - start);
        (plain > 0.1 * start).then_some(engine / plain)
    }
}

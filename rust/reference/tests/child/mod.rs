//! Runs one of the engine's programs as a child process: a text in, what it
//! prints and its exit status out.
//!
//! | variable              | its program                                           |
//! |-----------------------|-------------------------------------------------------|
//! | `LISTING_PROGRAM`     | `listing`                                             |
//! | `QUERY_PROGRAM`       | `query`                                               |
//! | `INDEX_TABLE_PROGRAM` | `index_table`                                         |
//! | `JOB_PROGRAM`         | `farey`, which does the job that its argument names   |
//! | `FAREY_PROGRAM`       | the script `./farey`                                  |
//!
//! These environment variables hold paths that are absolute or start at the root of
//! the repository. A test whose program isn't named fails. Only SKIP_PROGRAMS, which
//! lists the variables to be left out or is 1 for all of them, lets it pass, and then
//! it says so.

// Each test file that takes this module in uses a part of it.
#![allow(dead_code)]

use std::env;
use std::fs;
use std::io::{ErrorKind, Read, Write};
use std::path::{Path, PathBuf};
use std::process::{Command, Stdio};
use std::sync::{mpsc, OnceLock};
use std::thread;
use std::time::Duration;

/// How long a program may take over one text before it counts as hanging.
const TIME_LIMIT: Duration = Duration::from_secs(60);
/// How much of a text or an answer is shown when they differ.
const SHOWN: usize = 500;

/// One of the engine's programs, or one of its jobs.
pub struct Program {
    name: String,
    path: PathBuf,
    job: Option<String>,
}

/// What a run brought about.
pub struct Answer {
    pub stdout: Vec<u8>,
    pub stderr: Vec<u8>,
    /// The exit status, or `None` if a signal ended the program.
    pub status: Option<i32>,
}

/// The script `./farey`, named by `FAREY_PROGRAM`. The programs must have been
/// proved already: it may ask for that, but nothing is proved anew.
pub fn farey() -> Option<Program> {
    static PROVED: OnceLock<()> = OnceLock::new();
    let script = Program::named_by("FAREY_PROGRAM", "./farey", None)?;
    PROVED.get_or_init(|| {
        for words in [
            &["listing"][..],
            &["query"],
            &["sheet"],
            &["import"],
            &["import-wide"],
            &["cycles"],
            &["to-cycles"],
            &["gamma0", "1"],
            &["same", "/dev/null", "/dev/null"],
            &["exchange"],
            &["intersection", "/dev/null", "/dev/null"],
            &["tower"],
        ] {
            let came = script.command().args(words).stdin(Stdio::null()).output();
            let came = came.expect("./farey starts");
            let said = String::from_utf8_lossy(&came.stderr);
            assert!(came.status.success(), "{said}");
            assert!(!said.contains("farey: proved "), "{said}");
        }
    });
    Some(script)
}

/// The folder that holds the whole project: that of the run, which cargo names,
/// and not that in which this test was compiled.
pub fn repository() -> PathBuf {
    let here = env::var("CARGO_MANIFEST_DIR").expect("cargo runs the tests");
    let root = Path::new(&here).ancestors().nth(2);
    root.expect("this crate lies two folders deep")
        .to_path_buf()
}

impl Program {
    /// The program of this name, or `farey` with the job of this name; `None` if the
    /// test is to be left out.
    pub fn of(name: &str) -> Option<Program> {
        match name {
            "listing" => Program::named_by("LISTING_PROGRAM", name, None),
            "query" => Program::named_by("QUERY_PROGRAM", name, None),
            "index_table" => Program::named_by("INDEX_TABLE_PROGRAM", name, None),
            _ => Program::named_by("JOB_PROGRAM", name, Some(name)),
        }
    }

    /// The program that the variable names; `None` if the test is to be left
    /// out.
    fn named_by(variable: &str, name: &str, job: Option<&str>) -> Option<Program> {
        let Some(named) = env::var_os(variable).filter(|path| !path.is_empty()) else {
            let left_out = env::var("SKIP_PROGRAMS").unwrap_or_default();
            if left_out == "1" || left_out.split(' ').any(|name| name == variable) {
                eprintln!("LEFT OUT: {variable} names no program, and SKIP_PROGRAMS leaves it out");
                return None;
            }
            panic!(
                "{variable} names no program. Set it to the path of the built program, or set \
                 SKIP_PROGRAMS={variable} to leave out the comparison with that program"
            );
        };
        let path = repository().join(named);
        assert!(
            fs::metadata(&path).is_ok_and(|file| file.is_file()),
            "{variable}: there is no program {}",
            path.display()
        );
        Some(Program {
            name: name.to_string(),
            path,
            job: job.map(str::to_string),
        })
    }

    /// The program with its job, to be started otherwise than here.
    pub fn command(&self) -> Command {
        let mut command = Command::new(&self.path);
        command.args(&self.job);
        command
    }

    /// Runs the program over a text.
    pub fn run(&self, text: &[u8]) -> Answer {
        let mut child = self
            .command()
            .stdin(Stdio::piped())
            .stdout(Stdio::piped())
            .stderr(Stdio::piped())
            .spawn()
            .unwrap_or_else(|e| panic!("{} doesn't start: {e}", self.path.display()));
        let mut stdin = child.stdin.take().expect("stdin is piped");
        let mut stdout = child.stdout.take().expect("stdout is piped");
        let mut stderr = child.stderr.take().expect("stderr is piped");
        // Writing and both readings go on side by side: with all in one thread
        // the program and this test could each wait for the other.
        let (done, finished) = mpsc::channel();
        let reader = thread::spawn(move || {
            let mut bytes = Vec::new();
            stdout.read_to_end(&mut bytes).expect("stdout can be read");
            // The receiver is gone only after the time limit.
            let _ = done.send(());
            bytes
        });
        let errors = thread::spawn(move || {
            let mut bytes = Vec::new();
            stderr.read_to_end(&mut bytes).expect("stderr can be read");
            bytes
        });
        let written = thread::scope(|scope| {
            let writer = scope.spawn(move || stdin.write_all(text));
            if finished.recv_timeout(TIME_LIMIT).is_err() {
                let _ = child.kill();
                let _ = child.wait();
                panic!(
                    "{} doesn't end within {TIME_LIMIT:?} on\n{}",
                    self.name,
                    shown(text)
                );
            }
            writer.join().expect("the writer ends")
        });
        // A program need not read a text that is too long to its end.
        if let Err(e) = written {
            assert_eq!(e.kind(), ErrorKind::BrokenPipe, "{e}");
        }
        let status = child.wait().expect("the child ends").code();
        Answer {
            stdout: reader.join().expect("the reader ends"),
            stderr: errors.join().expect("the reader ends"),
            status,
        }
    }

    /// Runs the program over a text and returns what it prints. The exit
    /// status must be 0, for a refusal too.
    pub fn output(&self, text: &[u8]) -> String {
        let answer = self.run(text);
        assert!(
            answer.status == Some(0),
            "{}: exit status {:?}, standard error {} on\n{}",
            self.name,
            answer.status,
            shown(&answer.stderr),
            shown(text)
        );
        String::from_utf8(answer.stdout).unwrap_or_else(|e| {
            panic!(
                "{}: no text, but {} on\n{}",
                self.name,
                shown(e.as_bytes()),
                shown(text)
            )
        })
    }

    /// The program must print just what is expected.
    pub fn must_print(&self, text: &[u8], expected: &str) {
        let came = self.output(text);
        if came == expected {
            return;
        }
        let first = came
            .bytes()
            .zip(expected.bytes())
            .position(|(a, b)| a != b)
            .unwrap_or(came.len().min(expected.len()));
        let line = came.as_bytes()[..first]
            .iter()
            .filter(|&&byte| byte == b'\n')
            .count();
        panic!(
            "{} differs from byte {first} on, in line {}.\n\
             The text:\n{}\nExpected:\n{}\nWhat came:\n{}\n\
             Expected there:\n{}\nWhat came there:\n{}",
            self.name,
            line + 1,
            shown(text),
            shown(expected.as_bytes()),
            shown(came.as_bytes()),
            shown(&expected.as_bytes()[first..]),
            shown(&came.as_bytes()[first..])
        );
    }
}

/// The start of a text for a message, with unusual bytes written out.
pub fn shown(bytes: &[u8]) -> String {
    let start = &bytes[..bytes.len().min(SHOWN)];
    let rest = bytes.len() - start.len();
    let more = if rest > 0 {
        format!(" .. and {rest} bytes more")
    } else {
        String::new()
    };
    format!("\"{}\"{more}", start.escape_ascii())
}

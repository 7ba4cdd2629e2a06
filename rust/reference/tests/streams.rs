//! Standard input and output that fail: what is read isn't taken for the whole
//! text where it isn't, and an answer that can't be written isn't passed over in
//! silence.
//!
//! | what fails             | what must be so                                                       |
//! |------------------------|-----------------------------------------------------------------------|
//! | a read                 | nothing on standard output, a line `farey: ..` on standard error      |
//! | a write                | a line `farey: ..` on standard error; what was written is a beginning |
//! | a reader that is gone  | the system's signal ends it, unless it is ignored: then as a write    |
//! | nothing, but a pause   | the answer to the whole text                                          |
//!
//! Each test is made of the programs `listing` and `query`, of each job of the program
//! `farey`, and of `./farey` with each of their names, whose exit status isn't 0 then. A
//! program of the engine has no exit status of its own to give. Of `./farey` with the
//! jobs `named`, `same` and `intersection`, for which it doesn't read standard input, it
//! is the tests of writing. No answer of `same` or `tower` is long enough to fill a pipe.
//!
//! `reading` has the tests of standard input, `writing` those of standard output.

mod child;
#[path = "streams/reading.rs"]
mod reading;
#[path = "streams/writing.rs"]
mod writing;

use std::fs::{File, OpenOptions};
use std::io::{Read, Write};
use std::os::fd::{AsRawFd, FromRawFd, OwnedFd};
use std::os::unix::process::CommandExt;
use std::os::unix::process::ExitStatusExt;
use std::path::PathBuf;
use std::process::{Child, Command, ExitStatus, Stdio};
use std::thread;
use std::time::{Duration, Instant};

use child::{farey, repository, shown, Program};
use reference::random::pairs::shallow_pair;
use reference::random::Rng;
use reference::text::MAX_TEXT;
use reference::{cycles, to_cycles};
use reference::{
    exchange, import, import_wide, intersection, listing, named, query, same, sheet, tower,
};

/// How long a program may take before it counts as hanging.
const TIME_LIMIT: Duration = Duration::from_secs(120);

// What fcntl, ioctl and pipe2 are asked, on Linux.
const F_GETFL: i32 = 3;
const F_SETFL: i32 = 4;
const F_SETPIPE_SZ: i32 = 1031;
const FIONREAD: u64 = 0x541B;
const O_NONBLOCK: i32 = 0o4000;
const O_CLOEXEC: i32 = 0o2000000;
const SIGPIPE: i32 = 13;
const SIG_IGN: usize = 1;
/// The room of a small pipe: one page.
const SMALL: i32 = 4096;

extern "C" {
    fn pipe2(fds: *mut i32, flags: i32) -> i32;
    fn fcntl(fd: i32, command: i32, ...) -> i32;
    fn ioctl(fd: i32, request: u64, ...) -> i32;
    fn close(fd: i32) -> i32;
    fn signal(number: i32, handler: usize) -> usize;
}

/// A program or a job, or `./farey` with its name.
struct Subject {
    name: &'static str,
    program: Program,
    by_script: bool,
    reference: fn(&[u8]) -> String,
    /// A text whose last number loses a digit, or its neighbours, when cut short.
    text: &'static str,
}

impl Subject {
    /// Those that read standard input.
    fn reading() -> Vec<Subject> {
        let all = Subject::all().into_iter();
        all.filter(|subject| !subject.reads_nothing()).collect()
    }

    /// Those that have long answers.
    fn at_length() -> Vec<Subject> {
        let all = Subject::all().into_iter();
        all.filter(|subject| !matches!(subject.name, "same" | "tower"))
            .collect()
    }

    /// `./farey` with a group's name or with the names of two files, which doesn't
    /// read standard input.
    fn reads_nothing(&self) -> bool {
        self.by_script && matches!(self.name, "named" | "same" | "intersection")
    }

    fn all() -> Vec<Subject> {
        type Row = (&'static str, fn(&[u8]) -> String, &'static str);
        let rows: [Row; 12] = [
            ("listing", listing, "2\n0 1 1 1\n1 -2 1\n"),
            ("query", query, "2 0 1 1 1 1 -2 1 0 -1 1 0 0 -1 1 20"),
            (
                "sheet",
                sheet,
                "2 0 1 1 1 1 -2 1 1 0 0 1 1 1 0 1 0 -1 1 0 0 -1 1 20",
            ),
            ("import", import, "3\n1 0 2\n2 0 1\n"),
            ("import-wide", import_wide, "3\n1 0 2\n2 0 1\n"),
            ("named", named, "0 11"),
            ("same", same, "2\n0 1 1 1\n1 -2 1\n2\n-1 1 0 1\n1 -2 1\n"),
            ("exchange", exchange, "3\n0 1 1 1 2 1\n1 2 2 1\n1 2\n"),
            (
                "intersection",
                intersection,
                "2\n0 1 1 1\n1 -2 1\n2\n0 1 1 1\n-2 1 1\n",
            ),
            (
                "tower",
                tower,
                "2\n-1\n2\n0 1 1 1\n1 -2 1\n0\n2\n-1 1 0 1\n1 -2 1\n",
            ),
            ("cycles", cycles, "3 (1,2) (1,3,2)"),
            ("to-cycles", to_cycles, "3\n1 0 2\n2 0 1\n"),
        ];
        let mut all = Vec::new();
        for by_script in [false, true] {
            for (name, reference, text) in rows {
                let named = if by_script {
                    farey()
                } else {
                    Program::of(name)
                };
                all.extend(named.map(|program| Subject {
                    name,
                    program,
                    by_script,
                    reference,
                    text,
                }));
            }
        }
        all
    }

    fn command(&self) -> Command {
        let mut command = self.program.command();
        let examples = repository().join("examples");
        match (self.by_script, self.name) {
            (false, _) => &mut command,
            (true, "named") => command.args(["gamma0", "990"]),
            (true, "same") => command.arg("same").args([
                examples.join("gamma0-2.txt"),
                examples.join("gamma0-2-moved.txt"),
            ]),
            (true, "intersection") => command.arg("intersection").args(coprime()),
            (true, name) => command.arg(name),
        };
        command.stderr(Stdio::piped());
        command
    }

    fn called(&self) -> String {
        let by = if self.by_script { "./farey " } else { "" };
        format!("{by}{}", self.name)
    }

    /// Where the text is cut in two. A script takes longer to start, so of its
    /// cuts only some are made.
    fn cuts(&self) -> Vec<usize> {
        let step = if self.by_script { 5 } else { 1 };
        (0..self.text.len()).rev().step_by(step).collect()
    }

    /// A text whose answer has more than `SMALL` bytes.
    fn long_text(&self) -> String {
        match self.name {
            // T to the power 3,000, in a group that has T for a generator.
            "query" | "sheet" => "2 0 1 1 1 1 -2 1 1 0 0 1 1 3000 0 1".to_string(),
            "named" => "0 990".to_string(),
            "intersection" => {
                let read = |path| std::fs::read_to_string(path).expect("an example can be read");
                coprime().map(read).concat()
            }
            _ => {
                let pair = shallow_pair(&mut Rng::new(7), 1_000).numbers();
                let pieces: Vec<String> = pair.iter().map(i64::to_string).collect();
                let pair = pieces.join(" ");
                match self.name {
                    "import" | "import-wide" | "to-cycles" => pair,
                    "cycles" => to_cycles(pair.as_bytes()).trim_end().to_string(),
                    // An import numbers its free labels from 1 on.
                    "exchange" => import(pair.as_bytes()) + "1 2\n",
                    _ => import(pair.as_bytes()),
                }
            }
        }
    }

    /// A failure is told on standard error, and by the status of `./farey`.
    fn must_tell(&self, came: &Came, on: &str) {
        let told = came
            .stderr
            .lines()
            .filter(|line| line.starts_with("farey:"));
        assert_eq!(
            told.count(),
            1,
            "{}, {on}: standard error is {:?}",
            self.called(),
            came.stderr
        );
        if self.by_script {
            assert!(!came.status.success(), "{}, {on}", self.called());
        } else {
            assert_eq!(came.stderr.lines().count(), 1, "{}, {on}", self.called());
        }
    }

    /// A text that can't be read to its end has no answer.
    fn must_not_answer(&self, came: &Came, on: &str) {
        assert_eq!(shown(&came.stdout), "\"\"", "{}, {on}", self.called());
        self.must_tell(came, on);
    }
}

/// Files with symbols of Γ(5), of index 60, and Γ1(7), of index 24, which meet in 1,440 points.
fn coprime() -> [PathBuf; 2] {
    let examples = repository().join("examples/named");
    ["gamma-5.symbol", "gamma1-7.symbol"].map(|name| examples.join(name))
}

/// What a run brought about.
struct Came {
    stdout: Vec<u8>,
    stderr: String,
    status: ExitStatus,
}

/// The end of a child whose standard output, if it has a pipe, is small enough
/// to be read when it has ended.
fn ended(mut child: Child) -> Came {
    let start = Instant::now();
    let status = loop {
        if let Some(status) = child.try_wait().expect("a child can be waited for") {
            break status;
        }
        if start.elapsed() > TIME_LIMIT {
            let _ = child.kill();
            let _ = child.wait();
            panic!("a program doesn't end within {TIME_LIMIT:?}");
        }
        thread::sleep(Duration::from_millis(1));
    };
    let mut stdout = Vec::new();
    if let Some(mut pipe) = child.stdout.take() {
        pipe.read_to_end(&mut stdout).expect("stdout can be read");
    }
    let mut stderr = String::new();
    let mut pipe = child.stderr.take().expect("stderr is piped");
    pipe.read_to_string(&mut stderr).expect("stderr is text");
    Came {
        stdout,
        stderr,
        status,
    }
}

/// The two ends of a new pipe: to read from, to write to. No child holds one that
/// wasn't given to it.
fn new_pipe() -> (OwnedFd, OwnedFd) {
    let mut fds = [0; 2];
    // SAFETY: `pipe2` fills two numbers, which are nobody else's descriptors.
    unsafe {
        assert_eq!(pipe2(fds.as_mut_ptr(), O_CLOEXEC), 0);
        (OwnedFd::from_raw_fd(fds[0]), OwnedFd::from_raw_fd(fds[1]))
    }
}

fn set_non_blocking(end: &OwnedFd) {
    // SAFETY: these calls touch no memory of ours.
    unsafe {
        let flags = fcntl(end.as_raw_fd(), F_GETFL);
        assert!(flags >= 0);
        assert_eq!(fcntl(end.as_raw_fd(), F_SETFL, flags | O_NONBLOCK), 0);
    }
}

/// Waits until nothing is left in a pipe, because its reader has taken it.
fn wait_until_read(end: &OwnedFd) {
    let start = Instant::now();
    loop {
        let mut left = 0i32;
        // SAFETY: the call writes one number, which is ours.
        let answer = unsafe { ioctl(end.as_raw_fd(), FIONREAD, &mut left as *mut i32) };
        assert_eq!(answer, 0);
        if left == 0 {
            return;
        }
        assert!(start.elapsed() < TIME_LIMIT, "nobody reads");
        thread::sleep(Duration::from_millis(1));
    }
}

/// Has the child start with a descriptor closed.
fn without(command: &mut Command, fd: i32) -> &mut Command {
    // SAFETY: `close` may be called between fork and exec.
    unsafe {
        command.pre_exec(move || {
            close(fd);
            Ok(())
        })
    }
}

/// The text on an ordinary pipe.
fn with_text(command: &mut Command, text: &str) -> Child {
    let mut child = command
        .stdin(Stdio::piped())
        .spawn()
        .expect("the program starts");
    let mut stdin = child.stdin.take().expect("stdin is piped");
    stdin
        .write_all(text.as_bytes())
        .expect("the text can be written");
    child
}

//! The script `./farey`: what it hands to which program, and when it proves. Its
//! words, options and sentences are in `words.rs`.
//!
//! The tests of proving run it in a folder of their own, where a small script
//! stands for `rt`: it takes a moment, and what it makes tells which source it
//! read. The others run the repository's own (`FAREY_PROGRAM`).

#[path = "farey/answers.rs"]
mod answers;
mod child;
#[path = "farey/proving.rs"]
mod proving;
#[path = "farey/two_files.rs"]
mod two_files;

use std::env;
use std::ffi::OsStr;
use std::fs;
use std::os::unix::fs::{symlink, PermissionsExt};
use std::path::{Path, PathBuf};
use std::process::{Command, Output, Stdio};
use std::thread;
use std::time::Duration;

use child::{farey, repository, Program};

/// A script that stands for `rt` with two crates, `low` and the one that it is
/// asked for. As `rt` does, it takes a crate's sum before it proves it, calls a
/// crate unchanged whose sum is the one in target/stamp, and then doesn't look at
/// what was made of it. A program that it makes prints the source of `low` that
/// was proved. It fails where another is at work, and `asked` and `proofs` have a
/// line for each time that it was asked and that it proved something. What else
/// it does is for files of these names to say:
///
/// | file       | what is done                                                       |
/// |------------|--------------------------------------------------------------------|
/// | `unproved` | nothing is proved                                                  |
/// | `slow`     | a proof takes longer than `./farey` stays silent                   |
/// | `edit`     | becomes the source of `low` while it is proved                     |
/// | `edits`    | each line likewise, a proof after the other                        |
/// | `brief`    | is the source of `low` before its sum is taken, and until its end  |
const RT: &str = r#"#!/bin/sh
echo "$*" >> asked
mkdir busy || exit 2
mkdir -p target/bin target/stamp
if [ -f unproved ]; then
    echo "rt: low NOT PROVED (exit 1, 3 s)"
    rmdir busy
    exit 1
fi
source=crates/low/src/lib.rt
if [ -f brief ]; then
    cp $source kept
    mv brief $source
fi
sum=$(cat $source)
proved=no
shift
for crate in low "$@"; do
    if [ -f "target/stamp/$crate" ] && [ "$(cat "target/stamp/$crate")" = "$sum" ]; then
        echo "rt: $crate proved (unchanged since it was last proved)"
        continue
    fi
    [ ! -f slow ] || sleep 2
    sleep 0.3
    if [ $crate = low ]; then
        [ ! -f edit ] || mv edit $source
        if [ -s edits ]; then
            head -n 1 edits > $source
            sed -i 1d edits
        fi
    else
        printf '#!/bin/sh\ncat > /dev/null\necho "%s"\n' "$sum" > "target/bin/$crate"
        chmod +x "target/bin/$crate"
    fi
    echo "$sum" > "target/stamp/$crate"
    echo "rt: $crate proved (1 s)"
    proved=yes
done
[ ! -f kept ] || mv kept $source
[ $proved = no ] || echo "$*" >> proofs
rmdir busy
echo "rt: ok, 2 crates proved"
"#;

/// The table of refusals: a line that begins with a number has its sentence.
const SENTENCES: &str = "rust/farey/refusals.txt";

/// A folder that looks like the repository.
struct Folder(PathBuf);

impl Folder {
    fn new(name: &str) -> Folder {
        let path = env::temp_dir().join(format!("farey-{}-{name}", std::process::id()));
        let folder = Folder(path);
        for part in [
            "bin",
            "examples",
            "rust/farey",
            "tools/cli",
            "target/farey",
            "crates/low/src",
            "crates/listing/src",
        ] {
            fs::create_dir_all(folder.at(part)).expect("a folder can be made");
        }
        for file in ["farey", SENTENCES, "examples/gamma0-2.txt"] {
            fs::copy(repository().join(file), folder.at(file)).expect("it can be copied");
        }
        for entry in fs::read_dir(repository().join("tools/cli")).expect("it can be listed") {
            let name = entry.expect("it can be listed").file_name();
            let file = Path::new("tools/cli").join(name);
            fs::copy(repository().join(&file), folder.0.join(&file)).expect("it can be copied");
        }
        // Something was made here before, so that only what a word needs is made.
        folder.put("target/farey/whole", "");
        folder.put(
            "crates.txt",
            "low:\nlisting: low io\nquery: low\nfarey: low os\n",
        );
        folder.put("crates/low/src/lib.rt", "first");
        folder.put("crates/listing/src/main.rt", "");
        folder.put("bin/rt", RT);
        let runnable = fs::Permissions::from_mode(0o755);
        fs::set_permissions(folder.at("bin/rt"), runnable).expect("it can be made a program");
        folder
    }

    fn at(&self, part: &str) -> PathBuf {
        self.0.join(part)
    }

    fn put(&self, part: &str, text: &str) {
        fs::write(self.at(part), text).expect("a file can be written");
    }

    /// `./farey`, with the script for `rt`.
    fn command(&self, words: &[&str]) -> Command {
        let mut command = self.with_rt(self.at("farey"));
        command.args(words);
        command
    }

    /// Any program, with the script for `rt`.
    fn with_rt(&self, program: impl AsRef<OsStr>) -> Command {
        let mut command = Command::new(program);
        let path = env::var("PATH").expect("there is a PATH");
        command
            .env("PATH", format!("{}:{path}", self.at("bin").display()))
            .stdin(Stdio::null())
            .stdout(Stdio::piped())
            .stderr(Stdio::piped());
        command
    }

    fn run(&self, words: &[&str]) -> Output {
        self.command(words).output().expect("./farey starts")
    }

    /// How often something was proved.
    fn proofs(&self) -> usize {
        self.lines("proofs")
    }

    /// How often the script for `rt` was asked.
    fn asked(&self) -> usize {
        self.lines("asked")
    }

    fn lines(&self, part: &str) -> usize {
        let text = fs::read_to_string(self.at(part)).unwrap_or_default();
        text.lines().count()
    }
}

impl Drop for Folder {
    fn drop(&mut self) {
        let _ = fs::remove_dir_all(&self.0);
    }
}

fn text(bytes: &[u8]) -> String {
    String::from_utf8(bytes.to_vec()).expect("this is text")
}

/// The number and sentence of each refusal.
fn sentences() -> Vec<(String, String)> {
    let listed = fs::read_to_string(repository().join(SENTENCES)).expect("it is there");
    let begins = |line: &&str| line.starts_with(|c: char| c.is_ascii_digit());
    let line = |line: &str| {
        let (number, sentence) = line.split_once(' ').expect("a number and a sentence");
        (number.to_string(), sentence.to_string())
    };
    listed.lines().filter(begins).map(line).collect()
}

/// Standard error has one line, that of the refusal in the answer with its cause
/// behind it; where the answer is none, it has nothing.
fn must_explain(answer: &str, said: &str, on: &str) {
    if answer.starts_with("refused ") {
        let begin = format!("{}: ", answer.trim_end());
        assert!(said.starts_with(&begin), "{on}: {said}");
        assert!(said.len() > begin.len() + 8, "{on}: {said}");
        assert_eq!(said.lines().count(), 1, "{on}: {said}");
    } else {
        assert_eq!(said, "", "{on}");
    }
}

#[test]
fn refusals_have_numbers_in_order() {
    let numbers: Vec<String> = sentences().into_iter().map(|(n, _)| n).collect();
    let expected: Vec<String> = (1..=numbers.len()).map(|n| n.to_string()).collect();
    assert!(numbers.len() >= 21);
    assert_eq!(numbers, expected);
}

/// These tests once more as a process, in which cargo seems to have named another
/// repository: they look at that one, wherever they were compiled.
#[test]
fn the_repository_is_that_of_the_run() {
    let folder = Folder::new("repository");
    for (sentences, passes) in [(None, true), (Some("1 the only sentence\n"), false)] {
        if let Some(sentences) = sentences {
            folder.put(SENTENCES, sentences);
        }
        let came = Command::new(env::current_exe().expect("these tests have a path"))
            .args(["--exact", "refusals_have_numbers_in_order"])
            .env("CARGO_MANIFEST_DIR", folder.at("rust/reference"))
            .output()
            .expect("these tests start");
        assert_eq!(came.status.success(), passes, "{}", text(&came.stdout));
        assert!(text(&came.stdout).contains("running 1 test"));
    }
}

/// The script for `rt` was asked for this, and for nothing else.
fn must_ask(folder: &Folder, expected: &str) {
    let asked = fs::read_to_string(folder.at("asked")).expect("rt was asked");
    assert!(asked.lines().all(|line| line == expected), "{asked}");
}

/// Puts a program that prints what it reads in the place of one that was proved,
/// and its sum into the record. Its arguments, a line for each time that it runs, go
/// to the file `jobs`.
fn stand_in(folder: &Folder, name: &str) {
    let program = folder.at(&format!("target/bin/{name}"));
    let jobs = folder.at("jobs");
    let _ = fs::remove_file(&jobs);
    let script = format!("#!/bin/sh\necho \"$*\" >> '{}'\ncat\n", jobs.display());
    fs::write(&program, script).expect("it can be written");
    let record = format!("target/farey/{name}");
    let sources = fs::read_to_string(folder.at(&record)).expect("a record");
    let (sources, _) = sources.split_once("  - ").expect("two sums");
    let sum = Command::new("sh")
        .args(["-c", r#"sha256sum < "$0""#])
        .arg(&program)
        .output()
        .expect("there is sha256sum");
    folder.put(&record, &format!("{sources}  - {}", text(&sum.stdout)));
}

//! The words of `./farey`: files and standard input, and no room for a temporary file.
//!
//! | module   | what it tests                                                            |
//! |----------|--------------------------------------------------------------------------|
//! | `causes` | the cause of each refusal, `--strict` and `-q`                           |
//! | `help`   | help, a page for each word, and what is said of wrong words              |

#[path = "words/causes.rs"]
mod causes;
mod child;
#[path = "words/help.rs"]
mod help;

use std::fs;
use std::io::Write;
use std::process::{Command, Output, Stdio};

use child::{farey, repository, Program};

fn text(bytes: &[u8]) -> String {
    String::from_utf8(bytes.to_vec()).expect("this is text")
}

/// `./farey` in the folder of the repository, with these words and this text.
fn run(farey: &Program, words: &[&str], typed: &str) -> Output {
    let mut command = farey.command();
    command.args(words).current_dir(repository());
    command
        .stdin(Stdio::piped())
        .stdout(Stdio::piped())
        .stderr(Stdio::piped());
    let mut child = command.spawn().expect("./farey starts");
    let mut stdin = child.stdin.take().expect("stdin is piped");
    // A word that reads a file doesn't read this.
    let _ = stdin.write_all(typed.as_bytes());
    drop(stdin);
    child.wait_with_output().expect("it ends")
}

fn held(path: &str) -> String {
    fs::read_to_string(repository().join(path)).expect("an example can be read")
}

/// A file by its name, `-` and nothing: the same answer.
#[test]
fn a_file_or_standard_input() {
    let Some(farey) = farey() else {
        return;
    };
    for (word, path) in [
        ("listing", "examples/gamma0-11.txt"),
        ("query", "examples/queries/gamma0-2-two-letters.query"),
        ("import-wide", "examples/imports/noncongruence.pair"),
        ("cycles", "examples/cycles/gamma0-2.cycles"),
        ("tower", "examples/towers/gamma-2.txt"),
    ] {
        let by_name = run(&farey, &[word, path], "");
        assert!(!by_name.stdout.is_empty(), "{word}");
        for words in [&[word][..], &[word, "-"], &[word, "--", "-"]] {
            let came = run(&farey, words, &held(path));
            assert_eq!(came.stdout, by_name.stdout, "{words:?}");
            assert_eq!(text(&came.stderr), "", "{words:?}");
        }
    }
}

/// One of two files may be standard input, and not both.
#[test]
fn two_files_and_standard_input() {
    let Some(farey) = farey() else {
        return;
    };
    let (one, other) = ("examples/gamma0-2.txt", "examples/index-2.txt");
    for word in ["same", "intersection"] {
        let named = run(&farey, &[word, one, other], "");
        for (words, typed) in [([word, "-", other], one), ([word, one, "-"], other)] {
            let came = run(&farey, &words, &held(typed));
            assert_eq!(came.stdout, named.stdout, "{words:?}");
        }
        let both = run(&farey, &[word, "-", "-"], "");
        assert_eq!(both.status.code(), Some(2));
        assert!(text(&both.stderr).starts_with("farey: only one of the two"));
    }
}

/// Where no text can be kept for a moment, that is told, and there is no answer.
#[test]
fn no_room_for_a_temporary_file() {
    let Some(farey) = farey() else {
        return;
    };
    let mut command = farey.command();
    command.args(["listing", "examples/gamma0-2.txt"]);
    command.current_dir(repository()).env("TMPDIR", "/nowhere");
    let came = command.output().expect("./farey starts");
    assert_eq!(text(&came.stdout), "");
    let said = "farey: there is no room for a temporary file\n";
    assert_eq!(text(&came.stderr), said);
    assert_eq!(came.status.code(), Some(1));
}

//! The program `farey`: which argument is which job, and what it says of an argument
//! that names none. `program.rs`, `sheet.rs`, `subgroups.rs` and `cycle_programs.rs`
//! have the tests of what each job answers.

mod child;

use std::ffi::OsStr;
use std::fs;
use std::os::unix::ffi::OsStrExt;
use std::process::{Command, Output, Stdio};

use child::{repository, Program};
use reference::{
    cycles, exchange, import, import_wide, intersection, named, same, sheet, to_cycles, tower,
};

/// Each job with the reference for it.
const JOBS: [(&str, fn(&[u8]) -> String); 10] = [
    ("sheet", sheet),
    ("import", import),
    ("import-wide", import_wide),
    ("named", named),
    ("same", same),
    ("exchange", exchange),
    ("intersection", intersection),
    ("tower", tower),
    ("cycles", cycles),
    ("to-cycles", to_cycles),
];

/// A file of examples/jobs.
fn held(name: &str) -> String {
    let path = repository().join("examples/jobs").join(name);
    fs::read_to_string(&path).unwrap_or_else(|e| panic!("{}: {e}", path.display()))
}

/// Every job has its text and its answer in examples/jobs, and there is nothing else.
#[test]
fn every_job_has_an_example() {
    let files = fs::read_dir(repository().join("examples/jobs")).expect("the folder can be read");
    let mut names: Vec<String> = files
        .map(|file| file.expect("the folder can be read").file_name())
        .map(|name| name.into_string().expect("names are plain"))
        .collect();
    names.sort();
    let mut expected: Vec<String> = JOBS
        .iter()
        .flat_map(|(job, _)| [format!("{job}.stdin"), format!("{job}.stdout")])
        .collect();
    expected.sort();
    assert_eq!(names, expected);
}

#[test]
fn examples_by_the_reference() {
    for (job, reference) in JOBS {
        let text = held(&format!("{job}.stdin"));
        assert_eq!(
            reference(text.as_bytes()),
            held(&format!("{job}.stdout")),
            "{job}"
        );
    }
}

#[test]
fn examples_by_the_jobs() {
    for (job, _) in JOBS {
        let Some(program) = Program::of(job) else {
            return;
        };
        let text = held(&format!("{job}.stdin"));
        program.must_print(text.as_bytes(), &held(&format!("{job}.stdout")));
    }
}

/// Each job is given the text of each: it answers as its own reference does, so that
/// no two of them can be mixed up.
#[test]
fn each_name_is_its_own_job() {
    let mut answers = Vec::new();
    for (job, reference) in JOBS {
        let Some(program) = Program::of(job) else {
            return;
        };
        let mut all = String::new();
        for (other, _) in JOBS {
            let text = held(&format!("{other}.stdin"));
            let expected = reference(text.as_bytes());
            program.must_print(text.as_bytes(), &expected);
            all.push_str(&expected);
        }
        answers.push(all);
    }
    answers.sort();
    answers.dedup();
    assert_eq!(answers.len(), JOBS.len());
}

/// The program with these arguments in the place of a job, and standard input closed:
/// it doesn't read.
fn given(program: &Program, words: &[&[u8]]) -> Output {
    let mut command = Command::new(program.command().get_program());
    command.args(words.iter().map(|&word| OsStr::from_bytes(word)));
    command.stdin(Stdio::null());
    command.output().expect("the program starts")
}

/// An argument that names no job, none, or more than one: one line on standard error,
/// which begins with `farey:`, and nothing on standard output.
#[test]
fn no_job() {
    let Some(program) = Program::of("same") else {
        return;
    };
    let mut wrong: Vec<Vec<u8>> = Vec::new();
    for (job, _) in JOBS {
        let job = job.as_bytes();
        wrong.push(job[..job.len() - 1].to_vec());
        wrong.push(job[1..].to_vec());
        wrong.push([job, b"s"].concat());
        wrong.push([job, b" "].concat());
        wrong.push([job, b"\n"].concat());
        wrong.push([b" ", job].concat());
        wrong.push(job.to_ascii_uppercase());
        wrong.push([job, &[b' '; 12][..]].concat());
        // Each of its bytes is another one.
        for place in 0..job.len() {
            let mut other = job.to_vec();
            other[place] ^= 1;
            wrong.push(other);
        }
    }
    for word in [
        &b""[..],
        b"listing",
        b"query",
        b"index_table",
        b"import_wide",
        b"to_cycles",
        b"gamma0",
        b"--help",
        b"-",
        b"samesame",
        b"sixteen-bytes-xx",
        b"seventeen-bytes-x",
        b"\xff\xfe",
    ] {
        wrong.push(word.to_vec());
    }
    wrong.push(vec![b'x'; 100_000]);
    let names: Vec<&[u8]> = JOBS.iter().map(|(job, _)| job.as_bytes()).collect();
    let mut lines: Vec<Vec<&[u8]>> = wrong.iter().map(|word| vec![&word[..]]).collect();
    lines.retain(|words| !names.contains(&words[0]));
    assert!(lines.len() > 140, "only {} arguments", lines.len());
    lines.push(vec![]);
    lines.push(vec![b"same", b"same"]);
    lines.push(vec![b"same", b""]);
    lines.push(vec![b"", b"same"]);
    for words in lines {
        let came = given(&program, &words);
        let said = String::from_utf8(came.stderr).expect("standard error is text");
        assert_eq!(came.stdout, b"", "{words:?}");
        assert!(
            said.starts_with("farey: ") && said.ends_with('\n'),
            "{words:?}: {said}"
        );
        assert_eq!(said.lines().count(), 1, "{words:?}: {said}");
        assert_eq!(came.status.code(), Some(0), "{words:?}");
        for (job, _) in JOBS {
            assert!(said.contains(job), "{words:?}: {said}");
        }
    }
}

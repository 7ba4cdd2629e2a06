//! Names of groups, refusals and jobs: what a program is asked, and what is answered.

use super::*;

/// `./farey` with the words for a text of the job `named`.
fn by_name(farey: &Program, text: &str, options: &[&str]) -> Output {
    let (family, n) = text.trim_end().split_once(' ').expect("a family and N");
    let family: usize = family.parse().expect("a family's number");
    let mut command = farey.command();
    command.args([["gamma0", "gamma1", "gamma"][family], n]);
    command.args(options).stdin(Stdio::null());
    command.output().expect("./farey starts")
}

/// A group by its name: the symbol by the wide rule, with `--leftmost` that by the
/// other one, and a sentence where it is refused. A number out of range is, however
/// long it is.
#[test]
fn groups_by_name() {
    let Some(farey) = farey() else {
        return;
    };
    let huge = "9".repeat(5_000);
    let zeros = format!("{}7", "0".repeat(5_000));
    for (words, reads) in [
        ("0 11", "0 11"),
        ("1 7", "1 7"),
        ("2 5", "2 5"),
        ("0 1", "0 1"),
        ("0 1000", "0 1000"),
        ("0 120", "0 120"),
        ("0 0011", "0 11"),
        (&format!("1 {zeros}"), "1 7"),
        ("2 19", "2 19"),
        ("1 1000", "1 1000"),
        ("0 0", "0 0"),
        ("0 000", "0 0"),
        ("2 1001", "2 1001"),
        ("1 18446744073709551617", "1 1001"),
        (&format!("0 {huge}"), "0 1001"),
        ("1 -7", "1 -7"),
        (&format!("2 -{zeros}"), "2 -7"),
    ] {
        for (options, reference) in [
            (&[][..], reference::named_wide as fn(&[u8]) -> String),
            (&["--leftmost"], reference::named_leftmost),
        ] {
            let came = by_name(&farey, words, options);
            let expected = reference(reads.as_bytes());
            let on = format!("{words:.40} {options:?}");
            assert_eq!(text(&came.stdout), expected, "{on}");
            must_explain(&expected, &text(&came.stderr), &on);
            assert!(came.status.success(), "{on}");
        }
    }
}

/// Standard input isn't read for a name: it may be closed, or hold anything.
#[test]
fn a_name_reads_nothing() {
    let Some(farey) = farey() else {
        return;
    };
    let expected = reference::named_wide(b"0 11");
    for line in [
        r#""$0" gamma0 11 <&-"#,
        r#"echo refused 15 2 | "$0" gamma0 11"#,
        r#""$0" gamma0 11 < /"#,
    ] {
        let mut shell = Command::new("bash");
        shell.args(["-c", line]).arg(farey.command().get_program());
        let came = shell.output().expect("there is a shell");
        assert_eq!(text(&came.stdout), expected, "{line}");
        assert_eq!(text(&came.stderr), "", "{line}");
    }
}

/// The jobs of a name: `named` is given the number of the family and N,
/// `intersection` what that prints, twice, and `import-wide` or `import` what this
/// prints.
#[test]
fn the_jobs_of_a_name() {
    for (option, rule) in [(None, "import-wide"), (Some("--leftmost"), "import")] {
        let folder = Folder::new(rule);
        let run = |family| {
            let mut command = folder.command(&[family, "0042"]);
            let came = command.args(option).output().expect("./farey starts");
            text(&came.stdout)
        };
        assert_eq!(run("gamma1"), "first\n");
        must_ask(&folder, "check farey");
        for (family, number) in [("gamma0", 0), ("gamma1", 1), ("gamma", 2)] {
            stand_in(&folder, "farey");
            assert_eq!(run(family), format!("{number} 42\n{number} 42\n"));
            let jobs = fs::read_to_string(folder.at("jobs")).expect("jobs were done");
            assert_eq!(jobs, format!("named\nintersection\n{rule}\n"));
        }
        assert_eq!(folder.proofs(), 1);
    }
}

fn run_on(farey: &Program, name: &str, text: &[u8]) -> Output {
    let path = env::temp_dir().join(format!("farey-text-{}-{name}", std::process::id()));
    fs::write(&path, text).expect("a file can be written");
    let file = fs::File::open(&path).expect("it opens");
    fs::remove_file(&path).expect("it can be removed");
    let mut command = farey.command();
    command.arg(name).stdin(file);
    command.output().expect("./farey starts")
}

/// The line of a refusal is a text like any other, and no number: nothing that is
/// typed or piped in comes out as an answer that no program gave.
#[test]
fn a_refusal_is_read_as_a_text() {
    let Some(farey) = farey() else {
        return;
    };
    for name in [
        "listing",
        "query",
        "sheet",
        "import",
        "import-wide",
        "exchange",
        "tower",
        "to-cycles",
        "draw",
    ] {
        let read: [&[u8]; 14] = [
            b"refused 10 0\n",
            b"refused 15 2\n",
            b"refused 19 65536\n",
            b"refused 26 0\n",
            b"refused 0 0\n",
            b"refused 28 0\n",
            b"refused 999 7\n",
            b"refused 015 2\n",
            b"refused 15 02\n",
            b"refused 15 2",
            b"refused 15 2\n\n",
            b"refused 15 2\0\n",
            b"refused 15\n",
            b"refused 15 2 \n",
        ];
        // One word is given all of them, and the others the first three.
        let count = if name == "query" { read.len() } else { 3 };
        for other in &read[..count] {
            let came = run_on(&farey, name, other);
            assert_eq!(text(&came.stdout), "refused 19 0\n", "{name} {other:?}");
            must_explain("refused 19 0\n", &text(&came.stderr), name);
        }
    }
    let came = run_on(&farey, "cycles", b"refused 10 0\n");
    assert_eq!(text(&came.stdout), "refused 27 0\n");
}

/// In a pipe the first one says its cause, and the second refuses its line.
#[test]
fn a_refusal_in_a_pipe() {
    let Some(farey) = farey() else {
        return;
    };
    let mut shell = Command::new("bash");
    shell.args(["-c", r#""$0" gamma 19 | "$0" listing"#]);
    let came = shell.arg(farey.command().get_program()).output();
    let came = came.expect("there is a shell");
    assert_eq!(text(&came.stdout), "refused 19 0\n");
    let said = text(&came.stderr);
    let mut lines: Vec<&str> = said.lines().collect();
    lines.sort();
    let [second, first] = lines[..] else {
        panic!("{said}");
    };
    // The index is 19 * (19^2 - 1) / 2.
    assert_eq!(first, "refused 21 0: Γ(19) has index 3420, over 3,066");
    assert!(second.starts_with("refused 19 0: 'refused' at byte 0 is no whole number"));
}

/// A text that can't be read has no answer. To the next program in a pipe that
/// is an empty text; the first one's status tells.
#[test]
fn a_failure_in_a_pipe_is_told_by_the_status() {
    let Some(farey) = farey() else {
        return;
    };
    let pipe = r#""$0" import < / | "$0" listing"#;
    for (line, expected) in [
        (
            format!(r#"{pipe}; echo "${{PIPESTATUS[*]}}""#),
            "refused 19 0\n1 0\n",
        ),
        (
            format!("set -o pipefail; {pipe}; echo $?"),
            "refused 19 0\n1\n",
        ),
    ] {
        let mut shell = Command::new("bash");
        shell.args(["-c", &line]).arg(farey.command().get_program());
        let came = shell.output().expect("there is a shell");
        assert_eq!(text(&came.stdout), expected, "{line}");
        assert!(text(&came.stderr).contains("farey: standard input is a folder"));
    }
}

/// Most words are jobs of one program, which is given the word as it is; `listing`
/// and `query` are programs, and are given nothing.
#[test]
fn the_job_of_a_word() {
    let jobs = [
        "sheet",
        "import",
        "import-wide",
        "exchange",
        "tower",
        "cycles",
        "to-cycles",
    ];
    for (words, program) in [
        (&jobs[..], "farey"),
        (&["listing"], "listing"),
        (&["query"], "query"),
    ] {
        let folder = Folder::new(&format!("job-{program}"));
        assert_eq!(text(&folder.run(&words[..1]).stdout), "first\n");
        must_ask(&folder, &format!("check {program}"));
        assert!(folder.at(&format!("target/farey/{program}")).is_file());
        stand_in(&folder, program);
        let mut expected = String::new();
        for word in words {
            assert_eq!(text(&folder.run(&[word]).stdout), "", "{word}");
            let given = if *word == program { "" } else { word };
            expected.push_str(&format!("{given}\n"));
        }
        let given = fs::read_to_string(folder.at("jobs")).expect("the program ran");
        assert_eq!(given, expected);
        assert_eq!(folder.proofs(), 1);
    }
}

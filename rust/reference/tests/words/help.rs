//! Help, a page for each word, and what is said of wrong words.

use super::*;

/// The names in tools/cli/words.txt, with their examples.
fn rows() -> Vec<(String, String)> {
    let table = held("tools/cli/words.txt");
    let rows = table.lines().filter(|line| !line.starts_with('#'));
    rows.map(|row| {
        let cells: Vec<&str> = row.splitn(8, '|').collect();
        assert_eq!(cells.len(), 8, "{row}");
        (cells[0].to_string(), cells[7].to_string())
    })
    .collect()
}

/// Help on one screen, and a page for each word with its example.
#[test]
fn help() {
    let Some(farey) = farey() else {
        return;
    };
    let all = run(&farey, &["--help"], "");
    let said = text(&all.stdout);
    assert_eq!(
        (all.status.code(), text(&all.stderr)),
        (Some(0), String::new())
    );
    assert_eq!(run(&farey, &["-h"], "").stdout, all.stdout);
    assert!(said.lines().count() <= 45, "{said}");
    for line in said.lines() {
        assert!(line.chars().count() <= 120, "{line}");
    }
    let rows = rows();
    assert!(rows.len() >= 19);
    for (name, example) in rows {
        assert!(
            said.lines()
                .any(|line| line.starts_with(&format!("  {name} "))),
            "{name}"
        );
        let page = run(&farey, &["--help", &name], "");
        assert!(
            text(&page.stdout).starts_with(&format!("./farey {name}")),
            "{name}"
        );
        assert!(text(&page.stdout).contains(&example), "{name}");
        assert!(example.starts_with(&format!("./farey {name}")), "{example}");
        assert_eq!(run(&farey, &[&name, "--help"], "").stdout, page.stdout);
    }
    let version = run(&farey, &["--version"], "");
    assert!(text(&version.stdout).starts_with("farey 0.2.0\n"));
}

/// Wrong words have status 2, an empty standard output, what is wrong and the
/// usage on standard error.
#[test]
fn wrong_words() {
    let Some(farey) = farey() else {
        return;
    };
    for (words, said) in [
        (&["list"][..], "there is no word 'list'"),
        (
            &["listng"],
            "there is no word 'listng'; did you mean listing?",
        ),
        (
            &["import_wide"],
            "there is no word 'import_wide'; did you mean import-wide?",
        ),
        (
            &["import wide"],
            "there is no word 'import wide'; did you mean import-wide?",
        ),
        (
            &["sheets"],
            "there is no word 'sheets'; did you mean sheet?",
        ),
        (
            &["towers"],
            "there is no word 'towers'; did you mean tower?",
        ),
        (
            &["Gamma0", "11"],
            "there is no word 'Gamma0'; did you mean gamma0?",
        ),
        (
            &["gamma2", "5"],
            "there is no word 'gamma2'; did you mean gamma",
        ),
        (&["named", "11"], "there is no word 'named'"),
        (&["11", "gamma0"], "there is no word '11'"),
        (
            &["Same", "a", "b"],
            "there is no word 'Same'; did you mean same?",
        ),
        (
            &["listing", "a", "b"],
            "listing takes [FILE], and not 2 of them",
        ),
        (&["gamma0"], "gamma0 takes N, and not 0 of them"),
        (&["gamma0", "11", "12"], "gamma0 takes N, and not 2 of them"),
        (&["gamma0", ""], "N is a whole number, and not ''"),
        (&["gamma0", "x"], "N is a whole number, and not 'x'"),
        (&["gamma1", "--7"], "there is no option --7"),
        (&["gamma1", "-"], "N is a whole number, and not '-'"),
        (&["gamma1", "+7"], "N is a whole number, and not '+7'"),
        (&["gamma", "5.0"], "N is a whole number, and not '5.0'"),
        (&["gamma", " 5"], "N is a whole number, and not ' 5'"),
        (&["gamma", "5\n6"], "N is a whole number"),
        (&["gamma", "\u{b2}"], "N is a whole number"),
        (&["same"], "same takes FILE FILE, and not 0 of them"),
        (
            &["same", "examples/gamma0-2.txt"],
            "same takes FILE FILE, and not 1 of them",
        ),
        (
            &["intersection", "a", "b", "c"],
            "intersection takes FILE FILE, and not 3 of them",
        ),
        (
            &["listing", "--leftmost"],
            "--leftmost is for gamma0, gamma1 and gamma",
        ),
        (
            &["listing", "-other"],
            "there is no option -other; a file of that name is ./-other",
        ),
        (&["--nothing"], "there is no option --nothing"),
        (&["install"], "install needs --prefix DIR"),
        (
            &["build", "all"],
            "build takes no words behind it, and not 1 of them",
        ),
    ] {
        let came = run(&farey, words, "");
        assert_eq!(came.status.code(), Some(2), "{words:?}");
        assert_eq!(text(&came.stdout), "", "{words:?}");
        let stderr = text(&came.stderr);
        assert!(
            stderr.starts_with(&format!("farey: {said}")),
            "{words:?}: {stderr}"
        );
        assert!(
            stderr
                .lines()
                .last()
                .is_some_and(|line| line.starts_with("usage: ./farey ")),
            "{stderr}"
        );
    }
}

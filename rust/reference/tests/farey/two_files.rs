//! Two texts: from files, from standard input, and what can't be read.

use super::*;

/// `./farey same` in a folder, with two texts in files.
fn same_of(farey: &Program, folder: &Folder, one: &[u8], other: &[u8]) -> Output {
    over_files(farey, "same", folder, one, other)
}

/// `./farey` with the name of a program that is given two files.
fn over_files(farey: &Program, name: &str, folder: &Folder, one: &[u8], other: &[u8]) -> Output {
    let paths = [folder.at("one text"), folder.at("-other")];
    for (path, held) in paths.iter().zip([one, other]) {
        fs::write(path, held).expect("a file can be written");
    }
    let mut command = farey.command();
    command.current_dir(&folder.0).stdin(Stdio::null());
    command.args([name, "--", "one text", "-other"]);
    command.output().expect("./farey starts")
}

/// Two files, one after the other: what the reference says of both texts.
#[test]
fn two_files() {
    let Some(farey) = farey() else {
        return;
    };
    let folder = Folder::new("files");
    let (one, moved) = ("2\n0 1 1 1\n1 -2 1\n", "2\n-1 1 0 1\n1 -2 1\n");
    let long = format!("{one}{}", " ".repeat(65_536 - one.len() - moved.len()));
    for (first, second) in [
        (one, moved),
        (moved, one),
        (one, "2 0 1 1 1 1 1 -2"),
        (one, ""),
        ("", one),
        ("", ""),
        ("0\n", one),
        (one, "0 1 2\n"),
        (one, "2 0 1 1 1 1 -2 1 5"),
        ("2 0 1 1 1 1 -2 x\n", one),
        ("1 0 1 -2 -2\n", one),
        (one, "1 0 1 -2 -2"),
        (one, "refused 15 2"),
        (one, "refused 15 2\n\n"),
        ("refused ", "7 0"),
        (&long, moved),
        (&format!("{long}\n"), moved),
        (&" ".repeat(70_000), one),
        (one, &" ".repeat(70_000)),
    ] {
        for name in ["same", "intersection"] {
            let came = over_files(&farey, name, &folder, first.as_bytes(), second.as_bytes());
            let both = format!("{first}{second}");
            let expected = match name {
                "same" => reference::same(both.as_bytes()),
                _ => reference::intersection(both.as_bytes()),
            };
            let texts = format!("{name} {first:.40}, {second:.40}");
            assert_eq!(text(&came.stdout), expected, "{texts}");
            must_explain(&expected, &text(&came.stderr), &texts);
            assert!(came.status.success());
        }
    }
}

/// A first file without a line end: its last number isn't joined with the
/// second's first.
#[test]
fn two_files_without_line_ends() {
    let Some(farey) = farey() else {
        return;
    };
    let folder = Folder::new("ends");
    let (one, moved) = ("2 0 1 1 1 1 -2 1", "2 -1 1 0 1 1 -2 1");
    for between in ["", " ", "\r", "\n", "\r\n", "\n\n"] {
        let first = format!("{one}{between}");
        let came = same_of(&farey, &folder, first.as_bytes(), moved.as_bytes());
        assert_eq!(text(&came.stdout), "same\n", "{between:?}");
        assert_eq!(text(&came.stderr), "", "{between:?}");
    }
    let came = same_of(&farey, &folder, b"2 0 1 1 1 1 -2 1\0", moved.as_bytes());
    assert_eq!(text(&came.stdout), "refused 19 15\n");
}

/// A file that is the line of a refusal is a text like any other.
#[test]
fn a_refusal_in_a_file_is_read_as_a_text() {
    let Some(farey) = farey() else {
        return;
    };
    let folder = Folder::new("passed");
    let one = "2 0 1 1 1 1 -2 1\n";
    for (first, second, answer) in [
        ("refused 16 28\n", one, "refused 19 0\n"),
        (one, "refused 21 0\n", "refused 19 17\n"),
        ("refused 6 0\n", "refused 21 0\n", "refused 19 0\n"),
    ] {
        for name in ["same", "intersection"] {
            let came = over_files(&farey, name, &folder, first.as_bytes(), second.as_bytes());
            assert_eq!(text(&came.stdout), answer);
            must_explain(answer, &text(&came.stderr), name);
            assert!(came.status.success());
        }
    }
}

/// A file that can't be read is told, by its name, and nothing is proved for it.
#[test]
fn files_that_cannot_be_read() {
    let folder = Folder::new("unread");
    folder.put("held", "2 0 1 1 1 1 -2 1\n");
    for (words, said) in [
        (&["same", "held", "none"][..], "there is no file 'none'"),
        (&["same", "none", "held"], "there is no file 'none'"),
        (
            &["same", "held", "crates"],
            "crates is a folder, and same reads a file",
        ),
        (&["same", "", "held"], "there is no file ''"),
        (&["intersection", "held", "none"], "there is no file 'none'"),
        (&["listing", "none"], "there is no file 'none'"),
        (
            &["listing", "crates"],
            "crates is a folder, and listing reads a file",
        ),
    ] {
        let came = folder.command(words).current_dir(&folder.0).output();
        let came = came.expect("./farey starts");
        assert_eq!(text(&came.stdout), "", "{words:?}");
        assert_eq!(came.status.code(), Some(1), "{words:?}");
        assert_eq!(text(&came.stderr), format!("farey: {said}\n"));
    }
    assert_eq!(folder.asked(), 0);
}

/// The job of two files is `same` or `intersection`, and it is given both.
#[test]
fn the_job_of_two_files() {
    for name in ["same", "intersection"] {
        let folder = Folder::new(name);
        folder.put("one", "2 0 1");
        folder.put("other", "7 8\n");
        let run = || {
            let mut command = folder.command(&[name, "one", "other"]);
            let came = command.current_dir(&folder.0).output();
            text(&came.expect("./farey starts").stdout)
        };
        assert_eq!(run(), "first\n");
        must_ask(&folder, "check farey");
        stand_in(&folder, "farey");
        assert_eq!(run(), "2 0 1\n7 8\n");
        let jobs = fs::read_to_string(folder.at("jobs")).expect("a job was done");
        assert_eq!(jobs, format!("{name}\n"));
        assert_eq!(folder.proofs(), 1);
    }
}

/// Texts are kept for a moment in files that are gone afterwards.
#[test]
fn nothing_is_left_behind() {
    let folder = Folder::new("temporary");
    let kept = folder.at("temporary");
    fs::create_dir(&kept).expect("a folder can be made");
    folder.put("one", "2 0 1 1 1 1 -2 1\n");
    for (words, status) in [
        (&["listing"][..], 0),
        (&["listing"], 0),
        (&["same", "one", "one"], 0),
        (&["same", "one", "none"], 1),
    ] {
        let came = folder
            .command(words)
            .current_dir(&folder.0)
            .env("TMPDIR", &kept)
            .output()
            .expect("./farey starts");
        assert_eq!(came.status.code(), Some(status), "{words:?}");
        assert_eq!(count(&kept), 0, "{words:?}");
    }
}

fn count(folder: &Path) -> usize {
    fs::read_dir(folder).expect("it can be listed").count()
}

//! docs/PROMISES.md names files of definitions and files of proofs, and
//! docs/WRONG-PROGRAMS.md wrong programs: each of them is there, and each wrong
//! program is named. The names of definitions mean one thing in all crates. (What a
//! referee reads is counted by `tools/reading-list`, which the Python tests run.)

mod child;

use std::collections::{BTreeMap, BTreeSet};
use std::ffi::OsStr;
use std::fs;
use std::path::{Path, PathBuf};

use child::repository;

fn promises() -> String {
    let path = repository().join("docs/PROMISES.md");
    fs::read_to_string(&path).unwrap_or_else(|e| panic!("{}: {e}", path.display()))
}

/// What stands between backquotes.
fn quoted(text: &str) -> impl Iterator<Item = &str> {
    text.split('`').skip(1).step_by(2)
}

/// Whether it is a path into a crate, as `word/specs/Claim.antt`.
fn in_a_crate(name: &str) -> bool {
    let mut parts = name.split('/').skip(1);
    let second = parts.next();
    matches!(second, Some("specs" | "proofs" | "src" | "must-fail")) && !name.contains(['*', ' '])
}

/// The edits `NAME/LABEL` of all crates, where each crate has them in the
/// folder that `of` names.
fn edits(of: impl Fn(&Path) -> PathBuf, parent: &str) -> BTreeSet<String> {
    let folder = |path: &Path| {
        let entries = fs::read_dir(path).unwrap_or_else(|e| panic!("{}: {e}", path.display()));
        entries.map(|entry| entry.expect("the folder can be read").path())
    };
    let word = |part: Option<&OsStr>| part.and_then(OsStr::to_str).map(str::to_string);
    folder(&repository().join(parent))
        .filter(|path| of(path).is_dir())
        .flat_map(|path| {
            let name = word(path.file_name()).expect("a name");
            folder(&of(&path))
                .filter(|file| file.extension().is_some_and(|end| end == "edit"))
                .map(|file| format!("{name}/{}", word(file.file_stem()).expect("a label")))
                .collect::<Vec<_>>()
        })
        .collect()
}

#[test]
fn named_files_are_there() {
    let page = promises();
    let crates = repository().join("crates");
    let names: BTreeSet<&str> = quoted(&page).filter(|name| in_a_crate(name)).collect();
    assert!(names.len() > 40, "only {} files are named", names.len());
    for name in names {
        let path = crates.join(name);
        assert!(path.exists(), "there is no crates/{name}");
    }
}

/// A row of docs/WRONG-PROGRAMS.md: an edit, whether the gate tries it, and
/// what is wrong.
struct Row {
    name: String,
    label: String,
    gate: bool,
    title: String,
}

/// The rows of the page's last block: a crate's name, and below it a line for each
/// edit, `f label: what is wrong`, with a capital where the gate tries it. A line
/// that is set in goes on with the one above.
fn wrong_programs(page: &str) -> Vec<Row> {
    let (_, block) = page.rsplit_once("```text\n").expect("a block");
    let mut name = String::new();
    let mut rows: Vec<Row> = Vec::new();
    for line in block.lines().take_while(|line| *line != "```") {
        assert!(line.chars().count() <= 120, "{line}");
        if let (Some(more), Some(row)) = (line.strip_prefix("    "), rows.last_mut()) {
            row.title = format!("{} {more}", row.title);
        } else if let Some((edit, title)) = line.split_once(": ") {
            let (kind, label) = edit.split_once(' ').expect("a letter and a label");
            assert!(
                ["f", "p", "s", "x", "u"].contains(&&*kind.to_lowercase()),
                "{line}"
            );
            rows.push(Row {
                name: name.clone(),
                label: label.to_string(),
                gate: kind == kind.to_uppercase(),
                title: title.to_string(),
            });
        } else {
            name = line.to_string();
        }
    }
    rows
}

/// docs/WRONG-PROGRAMS.md has a row for each edit, with whether the gate tries
/// it and its first line; and each row has an edit.
#[test]
fn wrong_programs_are_there_and_named() {
    let path = repository().join("docs/WRONG-PROGRAMS.md");
    let page = fs::read_to_string(&path).unwrap_or_else(|e| panic!("{}: {e}", path.display()));
    let rows = wrong_programs(&page);
    let named = |gate: bool| -> BTreeSet<String> {
        let those = rows.iter().filter(|row| row.gate == gate);
        those
            .map(|row| format!("{}/{}", row.name, row.label))
            .collect()
    };
    let tried = edits(|path| path.join("must-fail"), "crates");
    let further = edits(Path::to_path_buf, "mutants");
    assert!(tried.len() > 40, "only {} edits", tried.len());
    assert!(further.len() > 40, "only {} further edits", further.len());
    assert_eq!(named(true), tried);
    assert_eq!(named(false), further);
    assert_eq!(rows.len(), tried.len() + further.len());
    for row in rows {
        let folder = match row.gate {
            true => repository()
                .join("crates")
                .join(&row.name)
                .join("must-fail"),
            false => repository().join("mutants").join(&row.name),
        };
        let path = folder.join(format!("{}.edit", row.label));
        let edit = fs::read_to_string(&path).unwrap_or_else(|e| panic!("{}: {e}", path.display()));
        let title = edit.lines().next().and_then(|line| line.strip_prefix("# "));
        assert_eq!(title, Some(&*row.title), "{}", path.display());
    }
}

/// The files of definitions, of all crates.
fn definition_files() -> Vec<PathBuf> {
    fn below(folder: &Path, files: &mut Vec<PathBuf>) {
        for entry in fs::read_dir(folder).unwrap_or_else(|e| panic!("{}: {e}", folder.display())) {
            let path = entry.expect("the folder can be read").path();
            if path.is_dir() {
                below(&path, files);
            } else if path.extension().is_some_and(|end| end == "antt") {
                files.push(path);
            }
        }
    }
    let mut files = Vec::new();
    for entry in fs::read_dir(repository().join("crates")).expect("the crates") {
        let specs = entry.expect("the folder can be read").path().join("specs");
        if specs.is_dir() {
            below(&specs, &mut files);
        }
    }
    files
}

/// The name that a line of definitions gives to something, as in
/// `abbrev pub pick : ..` or `pub record Claim (..`.
fn defined(line: &str) -> Option<&str> {
    let forms = ["abbrev pub ", "unfoldable pub ", "pub record ", "pub data "];
    let rest = forms
        .iter()
        .find_map(|form| line.trim_start().strip_prefix(form))?;
    rest.split([' ', ':']).next()
}

/// A name is defined in one crate, and so means one thing. The mediant of two
/// fractions is one thing whether denominators are integers or naturals.
#[test]
fn names_mean_one_thing() {
    let crates = repository().join("crates");
    let mut homes: BTreeMap<String, BTreeSet<String>> = BTreeMap::new();
    for path in definition_files() {
        let inside = path.strip_prefix(&crates).expect("a file of a crate");
        let home = inside
            .iter()
            .next()
            .and_then(OsStr::to_str)
            .expect("a name");
        let text = fs::read_to_string(&path).expect("the file can be read");
        for name in text.lines().filter_map(defined) {
            homes
                .entry(name.to_string())
                .or_default()
                .insert(home.to_string());
        }
    }
    assert!(homes.len() > 400, "only {} names are defined", homes.len());
    let twice: Vec<_> = homes.iter().filter(|(_, homes)| homes.len() > 1).collect();
    let names: Vec<_> = twice.iter().map(|(name, _)| name.as_str()).collect();
    assert_eq!(names, ["mediant"], "{twice:?}");
}

/// Where the page names a file of definitions and then, behind a comma, names,
/// the file has them.
#[test]
fn named_definitions_are_in_their_files() {
    let page = promises();
    let crates = repository().join("crates");
    let parts: Vec<&str> = page.split('`').collect();
    let mut file: Option<String> = None;
    let mut found = 0;
    for k in (1..parts.len()).step_by(2) {
        let (before, name) = (parts[k - 1], parts[k]);
        if name.contains("/specs/") && name.ends_with(".antt") {
            file = fs::read_to_string(crates.join(name)).ok();
        } else if before != ", " || name.contains(['/', '.', ' ']) {
            file = None;
        } else if let Some(text) = &file {
            let word = |c: char| c.is_alphanumeric() || "_-'".contains(c);
            let there = text.split(|c| !word(c)).any(|part| part == name);
            assert!(there, "`{name}` isn't in the file named before it");
            found += 1;
        }
    }
    assert!(found > 30, "only {found} names behind files");
}

//! The files of examples/cycles. They end in a line end.

use super::*;

/// A file of the examples, without the line end that it ends in.
fn held(name: &str) -> Vec<u8> {
    let path = repository().join("examples/cycles").join(name);
    let mut held = fs::read(&path).unwrap_or_else(|e| panic!("{}: {e}", path.display()));
    assert_eq!(held.pop(), Some(b'\n'), "{name}");
    held
}

/// The names of the files that end so.
fn names(extension: &str) -> Vec<String> {
    let files = fs::read_dir(repository().join("examples/cycles")).expect("the examples");
    let paths = files.map(|file| file.expect("it can be listed").path());
    let mut names: Vec<String> = paths
        .filter(|path| path.extension().is_some_and(|end| end == extension))
        .map(|path| path.file_stem().expect("a name").to_string_lossy().into())
        .collect();
    names.sort();
    names
}

/// The examples of one of the two programs: what it reads, and what it prints.
fn examples(input: &str, output: &str) -> Vec<(String, Vec<u8>, String)> {
    assert_eq!(names(input), names(output));
    let example = |name: String| {
        let text = held(&format!("{name}.{input}"));
        let printed = String::from_utf8(held(&format!("{name}.{output}"))).expect("text");
        (name, text, printed + "\n")
    };
    names(input).into_iter().map(example).collect()
}

#[test]
fn examples_by_the_reference() {
    let read = examples("cycles", "tables");
    for (name, text, printed) in &read {
        assert_eq!(cycles(text), *printed, "{name}");
    }
    let written = examples("pair", "export");
    for (name, text, printed) in &written {
        assert_eq!(to_cycles(text), *printed, "{name}");
        // What was written is read as the tables that it was written from.
        if !printed.starts_with("refused") {
            let again = cycles(printed.trim_end().as_bytes());
            assert_eq!(again.trim_end().as_bytes(), text, "{name}");
        }
    }
    assert!(read.len() >= 15 && written.len() >= 6);
}

#[test]
fn examples_by_the_programs() {
    for (job, input, output) in [
        ("cycles", "cycles", "tables"),
        ("to-cycles", "pair", "export"),
    ] {
        if let Some(program) = Program::of(job) {
            for (_, text, printed) in examples(input, output) {
                program.must_print(&text, &printed);
            }
        }
    }
}

/// Answers that are worked out by hand, from the request.
#[test]
fn stated_examples() {
    let expected = |name: &str| String::from_utf8(held(name)).expect("text");
    for name in ["gamma0-2", "gamma0-2-export", "gamma0-2-other-style"] {
        assert_eq!(expected(&format!("{name}.tables")), "3\n1 0 2\n2 0 1");
    }
    assert_eq!(expected("gamma0-2.export"), "3 (1,2);(1,3,2)");
    assert_eq!(expected("psl2z.export"), "1 ();()");
    assert_eq!(expected("index-2.export"), "2 (1,2);()");
    for (name, answer) in [
        ("repeated", "refused 27 13"),
        ("all-points-used", "refused 27 6"),
        ("third-bracket", "refused 27 8"),
        ("identity-not-alone", "refused 27 7"),
        ("stops-short", "refused 27 12"),
        ("blank-in-a-cycle", "refused 27 5"),
        ("no-index", "refused 12 0"),
        ("not-reached", "refused 15 2"),
        ("order-3", "refused 14 0"),
    ] {
        assert_eq!(expected(&format!("{name}.tables")), answer);
    }
}

/// What GAP and Sage printed of Γ0(31): both are the group on the projective line, and
/// GAP's text is that of an export.
#[test]
fn texts_of_other_systems() {
    let group = gamma0(31);
    let numbered = |s: &[i64], r: &[i64]| Action::new(s, r).expect("a pair").numbered();
    for system in ["gap", "sage"] {
        let text = held(&format!("gamma0-31-{system}.cycles"));
        let (s, r) = reference::cycles::read(&text).expect("a right text");
        assert_eq!(numbered(&s, &r), numbered(&group.s, &group.r), "{system}");
        let listed = listing(import(cycles(&text).as_bytes()).as_bytes());
        assert!(listed.starts_with("index 32\nelliptic 0 2\ncusps 2\nwidths 1 31\n"));
    }
    assert_eq!(held("gamma0-31-gap.cycles"), held("gamma0-31.export"));
}

//! Refusals: their causes on standard error, and the exit status with `--strict` and `-q`.

use super::*;

/// With `--strict` an answer that is a refusal has status 3; with `-q` it has no
/// cause on standard error either. Any other answer has status 0.
#[test]
fn strict() {
    let Some(farey) = farey() else {
        return;
    };
    let none = "examples/queries/gamma0-2-none.query";
    let word = "examples/queries/gamma0-2-two-letters.query";
    let said =
        "refused 10 0: there is no word: no product of generators and inverses takes A to B\n";
    for (words, status, stderr) in [
        (&["query", none][..], 0, said),
        (&["query", "--strict", none], 3, said),
        (&["--strict", "query", none], 3, said),
        (&["query", none, "-q"], 3, ""),
        (&["query", "-q", word], 0, ""),
        (
            &["--strict", "gamma0", "0"],
            3,
            "refused 20 0: N is 0, not from 1 to 1,000\n",
        ),
        (&["-q", "gamma0", "11"], 0, ""),
    ] {
        let came = run(&farey, words, "");
        assert_eq!(came.status.code(), Some(status), "{words:?}");
        assert_eq!(text(&came.stderr), stderr, "{words:?}");
        assert!(!came.stdout.is_empty(), "{words:?}");
    }
    // A pair of a sheet, or a figure, that is refused isn't the whole answer.
    let sheet = run(
        &farey,
        &["--strict", "sheet"],
        "2 0 1 1 1 1 -2 1 1 0 0 1 0 -1 1 0 1 0 0 1 1 1 0 1",
    );
    assert_eq!(text(&sheet.stdout), "refused 10 0\nword + 1\n");
    assert_eq!(sheet.status.code(), Some(0));
    let level = run(
        &farey,
        &["--strict", "listing", "examples/refusals/17.txt"],
        "",
    );
    assert_eq!(level.status.code(), Some(0));
}

/// The cause of each refusal, written here by hand from its example.
#[test]
fn causes() {
    let Some(farey) = farey() else {
        return;
    };
    for (word, example, said) in [
        ("listing", "01.txt", "refused 1 0: v is 1024, not from 1 to 1,023"),
        ("tower", "02.tower", "refused 2 6: in entry 1 the table has 6 numbers, and v = 2 asks for 7"),
        ("listing", "03.txt", "refused 3 3: vertex entry 3, the denominator of vertex 1 counted from 0, is 0, not from 1 to 1,000,000,000"),
        ("listing", "04.txt", "refused 4 1: side 1 joins 0/1 and 2/1: a'b - ab' is 2 there, and not 1"),
        ("listing", "05.txt", "refused 5 0: no vertex is 0/1"),
        ("listing", "06.txt", "refused 6 0: label 1, of side 0, is on 1 side, and not on two"),
        ("listing", "07.txt", "refused 7 0: there is one vertex, with pairings -2 and -2, and one of the two must be odd (-3)"),
        ("query", "08.query", "refused 8 5: entry 1 of B is 1,000,001, over 1,000,000 in size"),
        ("query", "09.query", "refused 9 1: B is (1 1; 0 2), whose determinant is 2, and not 1"),
        ("query", "10.query", "refused 10 0: there is no word: no product of generators and inverses takes A to B"),
        ("query", "11.query", "refused 11 20000: the word has 20,000 letters, and the program keeps 16,384"),
        ("import", "12.pair", "refused 12 0: the index is 3067, not from 1 to 3,066"),
        ("import-wide", "12.pair", "refused 12 0: the index is 3067, not from 1 to 3,066"),
        ("import", "13.pair", "refused 13 2: entry 2 of S is 0, as entry 1 is"),
        ("to-cycles", "13.pair", "refused 13 2: entry 2 of S is 0, as entry 1 is"),
        ("import-wide", "14.pair", "refused 14 0: S takes 0 to 1 and 1 to 2: S twice must fix each point"),
        ("import-wide", "15.pair", "refused 15 2: no product of S and R takes point 0 to point 2: S and R must connect all points"),
        ("import-wide", "16.pair", "refused 16 24: side 24 can't be split: a vertex entry would be over 10^9 in size"),
        ("listing", "17.txt", "level refused 17 0: the level is 2^64 or more"),
        ("listing", "19.txt", "refused 19 15: 'x' at byte 15, in line 3, is no whole number"),
        ("draw", "22.drawing", "refused 22 43: vertex entry 43 is 33,554,433, over 33,554,432 in size, too large for a drawing"),
        ("exchange", "23.exchange", "refused 23 1: label 2 is named twice"),
        ("tower", "25.tower", "refused 25 1: entry 1 names entry 1, which isn't listed before it"),
        ("tower", "26.tower", "refused 26 2: entry 2 isn't contained in entry 1, which it names"),
        ("cycles", "27.cycles", "refused 27 13: point 3 at byte 13 was named before in this permutation"),
    ] {
        let path = format!("examples/refusals/{example}");
        let came = run(&farey, &[word, &path], "");
        assert_eq!(text(&came.stderr), format!("{said}\n"), "{example}");
        assert_eq!(came.status.code(), Some(0), "{example}");
        let (line, _) = said.split_once(": ").expect("a line and a cause");
        assert!(text(&came.stdout).lines().any(|answer| answer == line), "{example}");
    }
    for (words, said) in [
        (
            ["gamma0", "1001"],
            "refused 20 0: N is 1001, not from 1 to 1,000",
        ),
        (
            ["gamma", "-7"],
            "refused 20 0: N is -7, not from 1 to 1,000",
        ),
        // (83^2 - 1) / 2, and 19 (19^2 - 1) / 2
        (
            ["gamma1", "83"],
            "refused 21 0: Γ1(83) has index 3444, over 3,066",
        ),
        (
            ["gamma", "19"],
            "refused 21 0: Γ(19) has index 3420, over 3,066",
        ),
    ] {
        let came = run(&farey, &words, "");
        assert_eq!(text(&came.stderr), format!("{said}\n"), "{words:?}");
    }
}

/// Causes of texts that are typed.
#[test]
fn causes_of_texts() {
    let Some(farey) = farey() else {
        return;
    };
    let symbol = "v, 2v vertex entries and v + 1 pairings: 8 numbers for v = 2";
    for (word, typed, said) in [
        ("listing", "", "refused 19 0: the text is empty".to_string()),
        ("cycles", "", "refused 27 0: the text is empty".to_string()),
        ("listing", "2 0 1 1 1 1 -2", format!("refused 19 14: the text ends too early, after 7 numbers: it should be {symbol}")),
        ("listing", "2 0 1 1 1 1 -2 1 5", format!("refused 19 17: '5' at byte 17 is a number too many: the text should be {symbol}")),
        ("listing", "2 0/1 1/1", "refused 19 2: '0/1' at byte 2 is no whole number: numerator and denominator are two numbers".to_string()),
        ("listing", "2, 0", "refused 19 0: '2,' at byte 0 is no whole number: numbers are split by spaces and line ends".to_string()),
        ("listing", "2 9223372036854775808", "refused 19 2: '9223372036854775808' at byte 2 is no number of 64 signed bits".to_string()),
        ("query", "refused 10 0\n", "refused 19 0: 'refused' at byte 0 is no whole number: this is the refusal of an earlier program, and no numbers".to_string()),
        ("import-wide", "3 1 0 3 2 0 1", "refused 13 2: entry 2 of S is 3: points count from 0, so they go up to 2".to_string()),
        ("import-wide", "3 1 0 2 1 0 2", "refused 14 0: R takes 0 to 1, 1 to 0 and 0 to 1: R three times must fix each point".to_string()),
        ("cycles", "3 (1,2) (1,4,2)", "refused 27 11: '4' at byte 11 is no point: points go from 1 to 3".to_string()),
        ("sheet", "2 0 1 1 1 1 -2 1 1 0 0", "refused 11 2048: behind the symbol are 3 entries: a pair has 8, and at most 256 pairs are allowed".to_string()),
    ] {
        let came = run(&farey, &[word], typed);
        assert_eq!(text(&came.stderr), format!("{said}\n"), "{typed:?}");
        let (line, _) = said.split_once(": ").expect("a line and a cause");
        assert_eq!(text(&came.stdout), format!("{line}\n"), "{typed:?}");
    }
}

/// Without python3 a refusal has the sentence of its number, from refusals.txt.
#[test]
fn sentences_without_python() {
    let Some(farey) = farey() else {
        return;
    };
    let folder = std::env::temp_dir().join(format!("farey-words-{}", std::process::id()));
    fs::create_dir_all(&folder).expect("a folder can be made");
    let names =
        "bash cat cmp env find head mktemp od readlink rm sed sha256sum sort tail xargs awk paste";
    for name in names.split(' ') {
        let found = Command::new("sh")
            .args(["-c", &format!("command -v {name}")])
            .output();
        let found = text(&found.expect("there is a shell").stdout);
        std::os::unix::fs::symlink(found.trim_end(), folder.join(name))
            .expect("a link can be made");
    }
    let mut command = farey.command();
    command
        .args(["listing", "examples/refusals/03.txt"])
        .current_dir(repository());
    let came = command.env("PATH", &folder).output();
    fs::remove_dir_all(&folder).expect("it can be removed");
    let came = came.expect("./farey starts");
    assert_eq!(
        text(&came.stdout),
        "refused 3 3\n",
        "{}",
        text(&came.stderr)
    );
    let sentence = "vertex entry 3 is out of range: a numerator over 10^9 in size, or a denominator that isn't from 1 to 10^9";
    assert_eq!(text(&came.stderr), format!("refused 3 3: {sentence}\n"));
}

//! Texts for `cycles`: random ones, long ones, and those that are cut.

use super::*;

#[test]
fn cycles_of_random_texts() {
    let Some(program) = Program::of("cycles") else {
        return;
    };
    let mut counts = Counts::default();
    for case in 0..1_500 {
        let text = text(&mut Rng::for_case(1_427, case));
        let expected = cycles(&text);
        program.must_print(&text, &expected);
        counts.add(&expected);
    }
    counts.at_least(15, &[0, 12, 14, 15, 27]);
}

/// Texts up to the longest that the program reads, and longer ones: of these it sees
/// the first 65,536 bytes, and judges their whole pieces.
#[test]
fn cycles_of_long_texts() {
    let Some(program) = Program::of("cycles") else {
        return;
    };
    let blanks = |count: usize| " ".repeat(count);
    let digits = |digit: &str, count: usize| digit.repeat(count);
    let rest = |front: &str| blanks(MAX_TEXT - front.len());
    let gamma0_2 = "3 (1,2) (1,3,2)";
    let tables = "3\n1 0 2\n2 0 1\n";
    for (text, answer) in [
        (gamma0_2.to_string() + &rest(gamma0_2), tables),
        (rest(gamma0_2) + gamma0_2, tables),
        (rest(gamma0_2)[1..].to_string() + gamma0_2, tables),
        (
            gamma0_2.to_string() + &rest(gamma0_2) + " ",
            "refused 27 65536\n",
        ),
        (rest(gamma0_2) + " " + gamma0_2, "refused 27 65536\n"),
        (rest("3 (1,2);") + "3 (1,2);x", "refused 27 65536\n"),
        (rest("2 ;") + "2 ;", "refused 15 1\n"),
        (blanks(MAX_TEXT), "refused 27 65536\n"),
        (blanks(MAX_TEXT + 1), "refused 27 65536\n"),
        (digits("9", MAX_TEXT), "refused 12 0\n"),
        (digits("9", 3 * MAX_TEXT), "refused 12 0\n"),
        (digits("0", MAX_TEXT), "refused 12 0\n"),
        (digits("0", MAX_TEXT - 2) + "1;", "1\n0\n0\n"),
        (format!("3 (1,{})", digits("9", MAX_TEXT)), "refused 27 5\n"),
        (
            format!("3 (1,{}2);", digits("0", MAX_TEXT - 10)),
            "refused 15 2\n",
        ),
        (format!("3 (1,2)x{}", blanks(MAX_TEXT)), "refused 27 7\n"),
        (format!("0x{}", blanks(MAX_TEXT)), "refused 12 0\n"),
        ("\n".repeat(MAX_TEXT + 5), "refused 27 0\n"),
        // The run of zeros goes on, and the index is 3.
        (digits("0", MAX_TEXT) + gamma0_2, "refused 27 65536\n"),
    ] {
        assert_eq!(
            cycles(text.as_bytes()),
            answer,
            "{}",
            child::shown(text.as_bytes())
        );
        program.must_print(text.as_bytes(), answer);
    }
    let mut rng = Rng::new(1_428);
    for _ in 0..6 {
        let large = shallow_pair(&mut rng, MAX_VERTICES);
        let written = reference::cycles::write(&large.s, &large.r).expect("a pair");
        program.must_print(written.as_bytes(), &cycles(written.as_bytes()));
        let wrong = damaged(&mut rng, written.as_bytes());
        program.must_print(&wrong, &cycles(&wrong));
    }
}

/// A text with blanks in front, so that its first 65,536 bytes end where it has a `|`.
fn cut(text: &str) -> Vec<u8> {
    let (seen, behind) = text.split_once('|').expect("a mark");
    let blanks = " ".repeat(MAX_TEXT - seen.len());
    [blanks.as_str(), seen, behind].concat().into_bytes()
}

/// Of these bytes the whole pieces are judged; a run of digits that goes on, or might, is
/// none.
#[test]
fn cycles_of_cut_texts() {
    let Some(program) = Program::of("cycles") else {
        return;
    };
    for (text, answer) in [
        // Inside the index, which isn't over 3,066 yet.
        ("3|0 ();()", "refused 27 65536\n"),
        ("0|3 ();()", "refused 27 65536\n"),
        ("0| ();()", "refused 27 65536\n"),
        ("306|7 ();()", "refused 27 65536\n"),
        ("3066|7 ();()", "refused 27 65536\n"),
        // It is over 3,066, whatever follows.
        ("3067| ();()", "refused 12 0\n"),
        ("003067|1 ();()", "refused 12 0\n"),
        // The index is whole.
        ("3067 |();()", "refused 12 0\n"),
        ("0 |();()", "refused 12 0\n"),
        ("0(|)", "refused 12 0\n"),
        ("3 |();()", "refused 27 65536\n"),
        ("3x| ", "refused 27 65535\n"),
        // Inside a point: 3 was named, and 30 wasn't.
        ("30 (1,3,3|0);()", "refused 27 65536\n"),
        ("30 (1,3,3|);()", "refused 27 65536\n"),
        ("30 (1,3,3)|;()", "refused 27 65534\n"),
        ("30 (1,0|3);()", "refused 27 65536\n"),
        ("30 (1,0)|;()", "refused 27 65534\n"),
        ("3 (1,3067|);()", "refused 27 65532\n"),
        ("3 (1,4|);()", "refused 27 65536\n"),
        ("3 (1,4)|;()", "refused 27 65534\n"),
        // After a comma: a point can come, or none is left.
        ("3 (1,|2);(1,3,2)", "refused 27 65536\n"),
        ("2 (1,2,|3);()", "refused 27 65535\n"),
        // After a blank.
        ("3 (1,2) |(1,3,2)", "refused 27 65536\n"),
        ("3 (1, |2);(1,3,2)", "refused 27 65535\n"),
        // The bytes are right by themselves; of these tables, 14 and 15 aren't told.
        ("3 (1,2);(1,3,2)| ", "refused 27 65536\n"),
        ("3 (1,2,3);(1,3,2)|;", "refused 27 65536\n"),
        ("3 ;|;", "refused 27 65536\n"),
    ] {
        let long = cut(text);
        assert_eq!(cycles(&long), answer, "{text}");
        program.must_print(&long, answer);
    }
}

/// What is told of a text that is too long, other than 27 with the place 65,536, is what a
/// reader without a limit tells of every text with these bytes in front.
#[test]
fn what_follows_is_free() {
    let Some(program) = Program::of("cycles") else {
        return;
    };
    let (mut told, mut cut_off) = (0, 0);
    for case in 0..150 {
        let mut rng = Rng::for_case(1_431, case);
        let text = text(&mut rng);
        let seen = &text[..rng.below(text.len() + 1)];
        let blanks = vec![b' '; MAX_TEXT - seen.len()];
        for behind in [
            &b"0"[..],
            b" ",
            b"2);()",
            b");()",
            b";",
            b"x",
            &text[seen.len()..],
            b"9",
        ] {
            let long = [&blanks, seen, behind].concat();
            if behind.is_empty() {
                continue;
            }
            let answer = program.output(&long);
            assert_eq!(answer, cycles(&long), "{}", child::shown(&long));
            if answer == "refused 27 65536\n" {
                cut_off += 1;
                continue;
            }
            let refusal = reference::cycles::read(&long).expect_err("it is refused");
            assert_eq!(answer, format!("{refusal}\n"), "{}", child::shown(&long));
            told += 1;
        }
    }
    assert!(told >= 200 && cut_off >= 200, "{told} {cut_off}");
}

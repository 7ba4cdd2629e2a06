use super::*;

fn place(text: &str) -> (u32, u64) {
    let refusal = read(text.as_bytes()).expect_err("this text is refused");
    (refusal.number, refusal.place)
}

/// Γ0(2) in many forms: that of the request, that of an export, with and without
/// blanks, zeros in front, one-point cycles, cycles begun elsewhere.
#[test]
fn gamma0_2() {
    for text in [
        "3 (1,2) (1,3,2)",
        "3 (1,2);(1,3,2)",
        "3(1,2)(1,3,2)",
        "  3  (2,1)   (3,2,1)  ",
        "003(01,0002)(2,1,3)",
        "3 (3)(1,2);(1,3,2)",
        "3 (1,2) (3) ; (1,3,2) ",
    ] {
        let read = read(text.as_bytes());
        assert_eq!(read, Ok((vec![1, 0, 2], vec![2, 0, 1])), "{text}");
    }
    assert_eq!(
        write(&[1, 0, 2], &[2, 0, 1]).as_deref(),
        Ok("3 (1,2);(1,3,2)")
    );
}

#[test]
fn identities() {
    for text in [
        "1;", "1 ()()", "1();()", "1(1)(1)", "1 (1);", "1;()", "1 ; ", "1 () (1)", "01;",
    ] {
        assert_eq!(read(text.as_bytes()), Ok((vec![0], vec![0])), "{text}");
    }
    for text in ["2(1,2)()", "2 (1,2);", "2 (2,1) ; (2)(1)", "2(1,2);(2)"] {
        assert_eq!(
            read(text.as_bytes()),
            Ok((vec![1, 0], vec![0, 1])),
            "{text}"
        );
    }
    assert_eq!(write(&[0], &[0]).as_deref(), Ok("1 ();()"));
    assert_eq!(write(&[1, 0], &[0, 1]).as_deref(), Ok("2 (1,2);()"));
}

/// The places of 27, each reckoned by hand.
#[test]
fn places() {
    let huge = "9".repeat(400);
    for (text, at) in [
        // Texts that stop short.
        ("", 0),
        ("  ", 2),
        ("3", 1),
        ("3 (1,2)", 7),
        ("3 (1,2) (1", 10),
        ("3 (1,2) (1,", 11),
        ("3 (1,2)(", 8),
        // No number, or two; other bytes.
        ("x3", 0),
        ("-3", 0),
        ("(3)", 0),
        (" ;", 1),
        ("3 4 (1,2)", 2),
        ("3 (1,2) (1,3,2)\n", 15),
        ("3\t(1,2)(1,3,2)", 1),
        ("3 (1, 2)(1,3,2)", 5),
        ("3 ( 1,2)(1,3,2)", 3),
        ("3 (1 ,2)(1,3,2)", 4),
        ("3 (+1,2)(1,3,2)", 3),
        ("3 (1,,2)(1,3,2)", 5),
        ("3 (,1)(1,3,2)", 3),
        ("3 (1,)(1,3,2)", 5),
        ("3 1,2", 2),
        ("3 )", 2),
        // Points outside, however long, and points again.
        ("3 (0", 3),
        ("3 (4,1)(1,3,2)", 3),
        ("3 (18446744073709551617,2)", 3),
        (&format!("3 (1,{huge})"), 5),
        ("3 (1,1)(1,3,2)", 5),
        ("3 (1,2)(2);(1,3,2)", 10),
        ("12 (1,1", 6),
        // Every point is used: no comma, no further cycle.
        ("2 (1,2,", 6),
        ("2 (1,2)(1,2,", 11),
        ("2 ;(1,2)(", 8),
        ("1 (1,", 4),
        ("1 (1)(1)(", 8),
        ("2 (1)(2)(", 8),
        // The second bracket repeats a point of the first, so it is R's.
        ("3 (1)(1)(", 8),
        ("3 (1)(1);", 8),
        ("3 (1)(2)(", 9),
        ("3 (1)(2)(1", 9),
        ("3 (1)(2)(3)", 11),
        ("3 (1)(2)();", 9),
        // `()` stands alone.
        ("2 ()(1)(", 7),
        ("2 ()(1);", 7),
        ("2 (1)()(", 7),
        ("2 ;()(", 5),
        ("2 (1)();", 7),
        ("2 ();(1)()", 9),
        ("2 ()()()", 6),
        // Semicolons.
        ("2 ;;", 3),
        ("2 (1)(2);;", 9),
        ("2 (1;", 4),
        ("2 (1,2)(1);", 10),
    ] {
        assert_eq!(place(text), (27, at), "{text}");
    }
}

/// A written index that is none gets 12, whatever follows; 27 is for a text that
/// has no number there.
#[test]
fn no_index() {
    for text in [
        "0",
        "3067",
        " 0(",
        "000 x",
        "3067 (1,2)(1,3,2)",
        "99999999999",
    ] {
        assert_eq!(place(text), (12, 0), "{text}");
    }
    for digits in [20, 400, 70_000] {
        assert_eq!(place(&"9".repeat(digits)), (12, 0));
        assert_eq!(place(&format!(" {}\n", "0".repeat(digits))), (12, 0));
        let one = format!("{}1;", "0".repeat(digits));
        assert_eq!(read(one.as_bytes()), Ok((vec![0], vec![0])));
    }
    assert_eq!(place("3066"), (27, 4));
}

/// What passes 27 goes on to the checks of permutations, whose places are points
/// from 0; nothing is told of the text before it is right.
#[test]
fn checks_behind() {
    assert_eq!(place("3 (1,2,3)(1,3,2)"), (14, 0));
    assert_eq!(place("3 (1,2)(1,3)"), (14, 0));
    assert_eq!(place("4 (3,4);(2,3)"), (14, 1));
    assert_eq!(place("3 (1,2)(3);()"), (15, 2));
    assert_eq!(place("2 ;"), (15, 1));
    assert_eq!(place("3 (1,2,3)(1,3,2);"), (27, 16));
    assert_eq!(write(&[], &[]).expect_err("no points").number, 12);
    assert_eq!(write(&[1, 2, 0], &[0, 1, 2]), Err(Refusal::new(14, 0)));
    assert_eq!(write(&[0, 0], &[0, 1]), Err(Refusal::new(13, 1)));
    assert_eq!(write(&[0, 1], &[0, 1]), Err(Refusal::new(15, 1)));
}

//! Cycle notation by the wrapper, on the instances of the request: what is expected
//! here is what its words say.

use farey::{cycles, read_cycles, write_cycles, Refusal, Symbol};

fn refused(text: &str) -> (u64, usize) {
    let refusal = read_cycles(text.as_bytes()).expect_err("a refusal");
    (refusal.number, refusal.place)
}

/// `3 (1,2) (1,3,2)` is Γ0(2), and its export has one blank, after the index.
#[test]
fn gamma0_2() {
    let tables = (vec![1, 0, 2], vec![2, 0, 1]);
    for text in [
        "3 (1,2) (1,3,2)",
        "3 (1,2);(1,3,2)",
        "3(2,1)(3,2,1)",
        " 03 (3) (1,2) ; (2,1,3) ",
    ] {
        assert_eq!(read_cycles(text.as_bytes()), Ok(tables.clone()), "{text}");
    }
    let text = write_cycles(&tables.0, &tables.1).expect("a pair");
    assert_eq!(text, "3 (1,2);(1,3,2)");
    let symbol = Symbol::from_cycles(text.as_bytes()).expect("a symbol");
    assert!(symbol.is_same(&Symbol::gamma0(2).expect("a group")));
    assert_eq!(symbol.cycles(), Ok(text));
}

#[test]
fn identities() {
    for text in ["1;", "1()()", "1 () ; ()", "1(1)();"] {
        match text {
            "1(1)();" => assert_eq!(refused(text), (27, 6)),
            _ => assert_eq!(read_cycles(text.as_bytes()), Ok((vec![0], vec![0]))),
        }
    }
    assert_eq!(write_cycles(&[0], &[0]).as_deref(), Ok("1 ();()"));
    assert_eq!(write_cycles(&[1, 0], &[0, 1]).as_deref(), Ok("2 (1,2);()"));
}

#[test]
fn refusals() {
    for (text, answer) in [
        ("", (27, 0)),
        ("3 (1,2)", (27, 7)),
        ("3 (1,2) (1,3,2)\n", (27, 15)),
        ("2 (1,2,", (27, 6)),
        ("3 (1)(1)(2)", (27, 8)),
        ("3 (4)", (27, 3)),
        ("3 (18446744073709551617)", (27, 3)),
        ("0 x", (12, 0)),
        ("3067", (12, 0)),
        ("3 (1,2,3) (1,3,2)", (14, 0)),
        ("3 (1,2);", (15, 2)),
    ] {
        assert_eq!(refused(text), answer, "{text}");
    }
    let refusal = read_cycles(b"3 (1,2) (1,3,3)").expect_err("a point again");
    assert_eq!(
        refusal.to_string(),
        "refused 27 13: at byte 13 the text gets too long, breaks the form of cycle notation, \
         repeats a point, names one outside 1 to the index or ends too early"
    );
}

/// Spaces: the index for each table, the length of the text; what is over stays.
#[test]
fn spaces() {
    let (mut s, mut r) = ([9; 4], [9; 4]);
    assert_eq!(cycles::read(b"2 (1,2);", &mut s, &mut r), Ok(2));
    assert_eq!((s, r), ([1, 0, 9, 9], [0, 1, 9, 9]));
    let short = Err(Refusal {
        number: 11,
        place: 3,
    });
    let text = b"3 (1,2) (1,3,2)";
    assert_eq!(cycles::read(text, &mut s[..2], &mut r), short);
    assert_eq!(cycles::read(text, &mut s, &mut r[..2]), short);
    assert_eq!((s, r), ([1, 0, 9, 9], [0, 1, 9, 9]));
    let mut out = [9; 12];
    assert_eq!(cycles::write(&[1, 0], &[0, 1], &mut out), Ok(10));
    assert_eq!(&out, b"2 (1,2);()\x09\x09");
    let short = Err(Refusal {
        number: 11,
        place: 10,
    });
    assert_eq!(cycles::write(&[1, 0], &[0, 1], &mut out[..9]), short);
}

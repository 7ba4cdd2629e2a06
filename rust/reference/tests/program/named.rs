//! The job `named`.

use super::*;

/// Families by the numbers that the program reads.
const FAMILIES: [&str; 3] = ["Gamma0", "Gamma1", "Gamma"];

/// Names of every kind: the program prints what the reference does.
#[test]
fn named_groups() {
    let Some(program) = Program::of("named") else {
        return;
    };
    let mut rng = Rng::new(56);
    let mut counts = Counts::default();
    let large = [496, 720, 840, 960, 990, 997, 998, 999, 1_000, 1_001, 1_002];
    for family in -1..=3 {
        let levels = (-1..=130).chain(large).chain([i64::MIN, i64::MAX, 1 << 32]);
        for n in levels {
            let text = typed(&mut rng, &[family, n]).bytes;
            let expected = named(&text);
            program.must_print(&text, &expected);
            counts.add(&expected);
        }
    }
    counts.at_least(200, &["symbol", "20"]);
    counts.at_least(100, &["21"]);
    assert_eq!(counts.0.len(), 3, "{:?}", counts.0);
}

/// The groups of the stored figures: the listing of what the program prints has
/// SageMath's figures, N for the level, and generators that meet the condition.
#[test]
fn named_groups_have_the_stored_figures() {
    let (Some(lister), Some(program)) = (Program::of("listing"), Program::of("named")) else {
        return;
    };
    let mut groups = 0;
    for group in stored_groups() {
        let Some((family, n)) = family(group.name) else {
            continue;
        };
        let number = FAMILIES.iter().position(|&name| name == family);
        let text = format!("{} {n}\n", number.expect("one of three families"));
        let came = lister.output(program.output(text.as_bytes()).as_bytes());
        let name = group.name;
        assert_eq!(listed(&came, "index"), [group.index], "{name}");
        assert_eq!(listed(&came, "elliptic"), group.elliptic, "{name}");
        assert_eq!(listed(&came, "genus"), [group.genus], "{name}");
        assert_eq!(listed(&came, "level"), [n as i64], "{name}");
        let mut widths = listed(&came, "widths");
        widths.sort_unstable();
        assert_eq!(widths, group.widths, "{name}");
        let count = listed(&came, "generators")[0];
        for j in 1..=count {
            let line = came.lines().find(|line| line.starts_with(&format!("{j} ")));
            let words: Vec<&str> = line.expect("a line for each").split(' ').collect();
            let entries: Vec<i64> = words[2..].iter().map(|x| x.parse().unwrap()).collect();
            let matrix = Matrix::from_entries(entries.try_into().expect("four entries"));
            assert!(meets_the_condition(family, n, matrix), "{name}: {line:?}");
        }
        groups += 1;
    }
    assert_eq!(groups, 65);
}

/// Damaged texts, and answers by hand.
#[test]
fn named_of_odd_texts() {
    let Some(program) = Program::of("named") else {
        return;
    };
    let refused = |number: u32, place: usize| format!("refused {number} {place}\n");
    let psl2z = "1\n0 1\n-2 -3\n".to_string();
    let by_hand: Vec<(Vec<u8>, String)> = vec![
        ("0 2\n".into(), GAMMA0_2.to_string()),
        ("1\r\n2".into(), GAMMA0_2.to_string()),
        ("-0 +2".into(), refused(19, 3)),
        ("-0 002".into(), GAMMA0_2.to_string()),
        ("0 1".into(), psl2z.clone()),
        ("2 1".into(), psl2z.clone()),
        (filled("1 1", b' ', MAX_TEXT), psl2z),
        (filled("1 1", b' ', MAX_TEXT + 1), refused(19, MAX_TEXT)),
        (filled("", b'x', MAX_TEXT + 1), refused(19, MAX_TEXT)),
        (filled("", b'0', MAX_TEXT), refused(19, MAX_TEXT)),
        ("".into(), refused(19, 0)),
        (" \n".into(), refused(19, 2)),
        ("0".into(), refused(19, 1)),
        ("2\n".into(), refused(19, 2)),
        // Another family: the numbers aren't counted.
        ("7\n".into(), refused(20, 0)),
        ("-1".into(), refused(20, 0)),
        ("7 5 3".into(), refused(20, 0)),
        ("-1 5 3 4".into(), refused(20, 0)),
        ("3 5 x".into(), refused(19, 4)),
        ("-9223372036854775809".into(), refused(19, 0)),
        ("0 11 12".into(), refused(19, 5)),
        ("2 0 \n 3 4".into(), refused(19, 6)),
        ("0 11 x".into(), refused(19, 5)),
        ("x 11".into(), refused(19, 0)),
        ("0 x".into(), refused(19, 2)),
        ("0,11".into(), refused(19, 0)),
        ("0\t11".into(), refused(19, 0)),
        ("gamma0 11".into(), refused(19, 0)),
        ("0 9223372036854775808".into(), refused(19, 2)),
        ("0 9223372036854775807".into(), refused(20, 0)),
        ("-9223372036854775808 5".into(), refused(20, 0)),
        ("3 5".into(), refused(20, 0)),
        ("-1 5".into(), refused(20, 0)),
        ("4294967296 5".into(), refused(20, 0)),
        ("0 0".into(), refused(20, 0)),
        ("0 -11".into(), refused(20, 0)),
        ("0 1001".into(), refused(20, 0)),
        ("0 65547".into(), refused(20, 0)),
        ("0 4294967307".into(), refused(20, 0)),
        ("3 1001".into(), refused(20, 0)),
        ("1 1000".into(), refused(21, 0)),
        ("2 19".into(), refused(21, 0)),
    ];
    for (text, expected) in &by_hand {
        assert_eq!(named(text), *expected, "by hand: {}", shown(text));
        program.must_print(text, expected);
    }
    let mut rng = Rng::new(57);
    let mut counts = Counts::default();
    for _ in 0..60 {
        let numbers = [rng.range(0, 2), rng.range(-3, 40)];
        for fault in TEXT_FAULTS {
            let (text, place) = faulty_text(&mut rng, &numbers, fault);
            assert_eq!(named(&text), refused(19, place));
            program.must_print(&text, &refused(19, place));
        }
        let numbers = [rng.range(-1, 3), rng.range(-3, 40)];
        for _ in 0..4 {
            let mut text = typed(&mut rng, &numbers).bytes;
            scratch(&mut rng, &mut text);
            let expected = named(&text);
            program.must_print(&text, &expected);
            counts.add(&expected);
        }
        let text = full_text(&mut rng, &numbers);
        program.must_print(&text, &named(&text));
    }
    counts.at_least(10, &["symbol", "19", "20"]);
}

//! The job `same`.

use super::*;

/// The stored groups: each symbol with those that both rules make of its tables,
/// and with itself under other labels.
#[test]
fn same_of_stored_groups() {
    let Some(program) = Program::of("same") else {
        return;
    };
    let mut rng = Rng::new(58);
    for group in stored_groups() {
        let symbol = Symbol::from_numbers(&group.numbers).expect("stored symbols are sound");
        let pair = Pair::of_symbol(&symbol);
        let mut others: Vec<Vec<i64>> = RULES
            .into_iter()
            .filter_map(|rule| imported(rule, &pair))
            .map(|draft| draft.numbers())
            .collect();
        assert_eq!(others.len(), 2, "{}", group.name);
        let mut labels = group.numbers.clone();
        rename(&mut rng, &mut labels[2 * symbol.v() + 1..]);
        others.push(labels);
        for other in others {
            for numbers in [[&group.numbers[..], &other], [&other, &group.numbers]] {
                let text = typed(&mut rng, &numbers.concat()).bytes;
                program.must_print(&text, "same\n");
            }
        }
    }
}

/// Every group of the stored figures with every other: no two are the same but
/// those that have two names.
#[test]
fn same_of_different_groups() {
    let Some(program) = Program::of("same") else {
        return;
    };
    let groups = stored_groups();
    let (mut equal, mut different) = (0, 0);
    for one in &groups {
        for other in groups.iter().filter(|other| other.index == one.index) {
            let text = format!(
                "{}{}",
                three_lines(&one.numbers),
                three_lines(&other.numbers)
            );
            let expected = same(text.as_bytes());
            program.must_print(text.as_bytes(), &expected);
            if expected == "same\n" {
                equal += 1;
            } else {
                different += 1;
            }
        }
    }
    assert!(
        equal >= groups.len() && different >= 50,
        "{equal}, {different}"
    );
}

/// Symbols of every size: of the same group, of a conjugate and of another.
#[test]
fn same_of_random_symbols() {
    let Some(program) = Program::of("same") else {
        return;
    };
    let mut rng = Rng::new(59);
    let mut counts = Counts::default();
    let mut largest = 0;
    for case in 0..900 {
        let v = match case {
            0..=599 => 1 + case % 40,
            600..=879 => size(&mut rng),
            _ => MAX_VERTICES - case % 2,
        };
        let one = draft_of_size(&mut rng, v);
        let other = match case % 3 {
            0 => same_group(&mut rng, &one),
            1 => conjugate(&mut rng, &one),
            _ => second(&mut rng, &one),
        };
        let text = typed(&mut rng, &[one.numbers(), other.numbers()].concat()).bytes;
        let expected = same(&text);
        assert!(case % 3 != 0 || expected == "same\n" || text.len() > MAX_TEXT);
        program.must_print(&text, &expected);
        if expected == "same\n" {
            largest = largest.max(v);
        }
        counts.add(&expected);
    }
    counts.at_least(200, &["same", "different"]);
    assert!(largest > 500, "{largest}");
}

#[test]
fn same_of_mixed_cases() {
    let Some(program) = Program::of("same") else {
        return;
    };
    let mut counts = Counts::default();
    for case in 0..1_500 {
        let text = same_case(20_260_119, case);
        let expected = same(&text);
        program.must_print(&text, &expected);
        counts.add(&expected);
    }
    counts.at_least(200, &["same", "different"]);
    counts.at_least(5, &["1", "3", "4", "5", "6", "7", "19"]);
}

/// Damage of every kind to either of the two symbols, and to the bytes of both.
#[test]
fn same_of_damaged_texts() {
    let Some(program) = Program::of("same") else {
        return;
    };
    let mut rng = Rng::new(60);
    let mut counts = Counts::default();
    let mut try_text = |text: &[u8], expected: &str| {
        assert_eq!(same(text), expected, "{}", shown(text));
        program.must_print(text, expected);
        counts.add(expected);
    };
    for _ in 0..30 {
        let one = |rng: &mut Rng| {
            let v = size(rng).min(60);
            draft_of_size(rng, v).numbers()
        };
        for fault in SYMBOL_FAULTS {
            let (mut bad, sound) = (one(&mut rng), one(&mut rng));
            if !put_fault(&mut rng, &mut bad, fault) {
                continue;
            }
            for numbers in [[&bad[..], &sound], [&sound, &bad], [&bad, &bad]] {
                let text = typed(&mut rng, &numbers.concat()).bytes;
                let expected = same(&text);
                assert!(expected.starts_with(&format!("refused {fault} ")));
                try_text(&text, &expected);
            }
        }
        for fault in TEXT_FAULTS {
            let numbers = [one(&mut rng), one(&mut rng)].concat();
            let (text, place) = faulty_text(&mut rng, &numbers, fault);
            try_text(&text, &format!("refused 19 {place}\n"));
        }
        for _ in 0..3 {
            let mut numbers = [one(&mut rng), one(&mut rng)].concat();
            let mut text = typed(&mut rng, &numbers).bytes;
            scratch(&mut rng, &mut text);
            try_text(&text, &same(&text));
            poke(&mut rng, &mut numbers);
            let text = typed(&mut rng, &numbers).bytes;
            try_text(&text, &same(&text));
        }
        let numbers = one(&mut rng).repeat(2);
        let text = full_text(&mut rng, &numbers);
        assert_eq!(text.len(), MAX_TEXT);
        try_text(&text, "same\n");
    }
    counts.at_least(30, &["same", "1", "3", "4", "5", "6", "7", "19"]);
}

/// Answers by hand: the first text ends where its v says, and places of 19 are
/// counted over the whole text.
#[test]
fn same_of_odd_texts() {
    let Some(program) = Program::of("same") else {
        return;
    };
    let refused = |number: u32, place: usize| format!("refused {number} {place}\n");
    let (yes, no) = ("same\n".to_string(), "different\n".to_string());
    let moved = "2\n-1 1 0 1\n1 -2 1\n";
    let both = format!("{GAMMA0_2}{moved}");
    let by_hand: Vec<(Vec<u8>, String)> = vec![
        (both.clone().into(), yes.clone()),
        (both.replace('\n', " ").into(), yes.clone()),
        (both.replace('\n', "\r\n").into(), yes.clone()),
        ("2 0 1 1 1 1 -2 1 2 0 1 1 1 3 -2 3".into(), yes.clone()),
        ("2 0 1 1 1 1 -2 1 2 0 1 1 1 1 1 -2".into(), no.clone()),
        ("2 0 1 1 1 1 -2 1 2 0 1 1 1 1 -3 1".into(), no.clone()),
        ("1 0 1 -2 -3 1 0 1 -3 -2".into(), yes.clone()),
        ("1 0 1 -2 -3 1 0 1 -3 -3".into(), no.clone()),
        ("1 0 1 -2 -3 2 0 1 1 1 1 -2 1".into(), no),
        (filled(&both, b' ', MAX_TEXT), yes),
        (filled(&both, b' ', MAX_TEXT + 1), refused(19, MAX_TEXT)),
        (filled("", b'x', MAX_TEXT + 1), refused(19, MAX_TEXT)),
        (filled("", b'0', MAX_TEXT), refused(1, 0)),
        // Nothing, one text alone, and too few or too many numbers.
        ("".into(), refused(19, 0)),
        (" \n".into(), refused(19, 2)),
        ("1".into(), refused(19, 1)),
        ("1 0 1 -2".into(), refused(19, 8)),
        ("1 0 1 -2 -3".into(), refused(19, 11)),
        ("1 0 1 -2 -3\n\n".into(), refused(19, 13)),
        ("1 0 1 -2 -3 1".into(), refused(19, 13)),
        ("1 0 1 -2 -3 1 0 1 -3\n".into(), refused(19, 21)),
        ("1 0 1 -2 -3 1 0 1 -3 -3 \n 5 6".into(), refused(19, 26)),
        ("1 0 1 -2 -2 1 0 1 -3 -3 5".into(), refused(19, 24)),
        ("1 0 1 -2 -2 1 0 1 -3".into(), refused(19, 20)),
        // A first v out of range: what follows isn't counted, but read.
        ("0".into(), refused(1, 0)),
        ("0 1 2 3".into(), refused(1, 0)),
        ("-1 0 1 -2 -3 1 0 1 -2 -3".into(), refused(1, 0)),
        ("1024 5".into(), refused(1, 0)),
        ("9223372036854775807".into(), refused(1, 0)),
        ("0 x".into(), refused(19, 2)),
        // A second one: the first symbol's refusals go before it.
        ("1 0 1 -2 -3 0".into(), refused(1, 0)),
        ("1 0 1 -2 -3 1024 5 5 5".into(), refused(1, 0)),
        ("1 0 1 -2 -3 -2 0 1 1 1 1 -2 1 7".into(), refused(1, 0)),
        ("1 0 1 -2 -2 0".into(), refused(7, 0)),
        ("1 5 1 -2 -2 1024 5 5 5".into(), refused(5, 0)),
        ("1 0 1 -2 -3 0 x".into(), refused(19, 14)),
        // Refusals 3 to 7: first the one, then the other.
        ("1 0 1 -2 -2 1 0 2 -3 -3".into(), refused(7, 0)),
        ("1 0 2 -3 -3 1 0 1 -2 -2".into(), refused(4, 0)),
        ("1 0 1 -3 -3 1 0 1 -2 -2".into(), refused(7, 0)),
        ("1 0 1 -3 -3 1 0 0 -2 -2".into(), refused(3, 1)),
        ("1 0 1 -3 -3 2 0 1 1 1 1 -2 2".into(), refused(6, 0)),
        // No numbers, wherever they stand.
        ("1 0 1 -2 -3 1 0 1 -3 +3".into(), refused(19, 21)),
        ("1 0 1 -2 - 3 1 0 1 -3 x".into(), refused(19, 9)),
        ("1 0 1 -2 -3 1 0 1 -3 -3 5 x".into(), refused(19, 26)),
        ("refused 15 2\n1 0 1 -2 -3".into(), refused(19, 0)),
        ("1 0 1 -2 -3\nrefused 15 2\n".into(), refused(19, 12)),
    ];
    for (text, expected) in &by_hand {
        assert_eq!(same(text), *expected, "by hand: {}", shown(text));
        program.must_print(text, expected);
    }
}

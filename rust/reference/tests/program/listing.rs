//! The listing program.

use super::*;

#[test]
fn listing_of_stored_groups() {
    let Some(program) = Program::of("listing") else {
        return;
    };
    let groups = stored_groups();
    assert_eq!(groups.len(), 67);
    for group in groups {
        let text = three_lines(&group.numbers);
        let came = program.output(text.as_bytes());
        let name = group.name;
        assert_eq!(listed(&came, "index"), [group.index], "index of {name}");
        assert_eq!(listed(&came, "elliptic"), group.elliptic, "{name}");
        assert_eq!(listed(&came, "genus"), [group.genus], "genus of {name}");
        let mut widths = listed(&came, "widths");
        let cusps = widths.len() as i64;
        assert_eq!(listed(&came, "cusps"), [cusps], "cusps of {name}");
        widths.sort_unstable();
        assert_eq!(widths, group.widths, "widths of {name}");
        if let Some((_, level)) = family(name) {
            assert_eq!(listed(&came, "level"), [level as i64], "level of {name}");
        }
        program.must_print(text.as_bytes(), &listing(text.as_bytes()));
    }
}

/// Every size up to 60, then sizes that spread over the rest, then the largest.
fn spread_size(rng: &mut Rng, case: usize) -> usize {
    match case {
        0..=1_259 => 1 + case % 60,
        1_260..=1_999 => {
            let least = rng.pick(&[61, 61, 120, 250, 500]);
            rng.range(least, MAX_VERTICES as i64) as usize
        }
        _ => MAX_VERTICES - case % 2,
    }
}

/// The shares of a symbol's kinds that are wanted.
fn spread_style(rng: &mut Rng, case: usize) -> Style {
    match case % 7 {
        0 => Style::AllEven,
        1 => Style::AllOdd,
        2 => Style::AllFree,
        3 => Style::Nested,
        4 => Style::Neighbours,
        5 => Style::Mixed { even: 50, odd: 50 },
        _ => Style::Mixed {
            even: rng.below(45),
            odd: rng.below(45),
        },
    }
}

fn spread_draft(rng: &mut Rng, case: usize) -> Draft {
    if case % 50 == 49 {
        return many_cusps(rng);
    }
    let v = spread_size(rng, case);
    let mut draft = draft_of_size(rng, v);
    let style = spread_style(rng, case);
    draft.pairings = pairings(rng, v + 1, style, &[]);
    draft
}

#[test]
fn listing_of_random_symbols() {
    let Some(program) = Program::of("listing") else {
        return;
    };
    let mut rng = Rng::new(31);
    let (mut largest, mut next, mut refused_levels) = (0, 0, 0);
    for case in 0..2_040 {
        let draft = spread_draft(&mut rng, case);
        let text = typed(&mut rng, &draft.numbers()).bytes;
        let expected = listing(&text);
        assert!(expected.starts_with("index "), "{draft:?} is sound");
        program.must_print(&text, &expected);
        largest += usize::from(draft.v() == MAX_VERTICES);
        next += usize::from(draft.v() == MAX_VERTICES - 1);
        refused_levels += usize::from(expected.contains("\nlevel refused 17 0\n"));
    }
    assert!(largest >= 10 && next >= 10 && refused_levels >= 10);
}

/// Texts in which v is out of range and the rest would suit a v that differs
/// from it by a multiple of a power of 2, by its sign or by 1.
#[test]
fn listing_with_v_out_of_range() {
    let Some(program) = Program::of("listing") else {
        return;
    };
    let mut rng = Rng::new(32);
    for v in [1, 2, 3, 1_022, 1_023, 1_024] {
        let sound = draft_of_size(&mut rng, v).numbers();
        let small = v as i64;
        for wrong in [
            small + (1 << 10),
            small + (1 << 16),
            small + (1 << 32),
            small + (1 << 48),
            -small,
            small - 1_024,
            small + 1_023,
            i64::MIN + small,
            i64::MAX,
            i64::MIN,
        ] {
            if (1..=MAX_VERTICES as i64).contains(&wrong) {
                continue;
            }
            let mut numbers = sound.clone();
            numbers[0] = wrong;
            for kept in [1, numbers.len() / 2, numbers.len()] {
                let text = typed(&mut rng, &numbers[..kept.max(1)]).bytes;
                program.must_print(&text, "refused 1 0\n");
            }
        }
    }
    // 1,024 vertices as they stand.
    let numbers = draft_of_size(&mut rng, MAX_VERTICES + 1).numbers();
    let text = typed(&mut rng, &numbers).bytes;
    program.must_print(&text, "refused 1 0\n");
}

/// Damage of every kind to the numbers and to the bytes, with the number that
/// its refusal must have where the damage was meant.
#[test]
fn listing_of_damaged_texts() {
    let Some(program) = Program::of("listing") else {
        return;
    };
    let mut rng = Rng::new(33);
    let mut counts = Counts::default();
    let mut try_text = |text: &[u8], number: Option<u32>| {
        let expected = listing(text);
        if let Some(number) = number {
            assert!(expected.starts_with(&format!("refused {number} ")));
        }
        program.must_print(text, &expected);
        counts.add(&expected);
    };
    for round in 0..60 {
        for fault in SYMBOL_FAULTS {
            let v = match round {
                0..=9 => MAX_VERTICES - round % 3,
                _ => size(&mut rng).min(100),
            };
            let mut numbers = draft_of_size(&mut rng, v).numbers();
            if put_fault(&mut rng, &mut numbers, fault) {
                try_text(&typed(&mut rng, &numbers).bytes, Some(fault));
            }
        }
        for fault in TEXT_FAULTS {
            let v = size(&mut rng).min(60);
            let numbers = draft_of_size(&mut rng, v).numbers();
            let (text, place) = faulty_text(&mut rng, &numbers, fault);
            assert_eq!(listing(&text), format!("refused 19 {place}\n"));
            try_text(&text, Some(19));
        }
        // Damage that wasn't meant: it may even leave a sound symbol.
        for _ in 0..3 {
            let v = size(&mut rng).min(60);
            let mut numbers = draft_of_size(&mut rng, v).numbers();
            let mut text = typed(&mut rng, &numbers).bytes;
            scratch(&mut rng, &mut text);
            try_text(&text, None);
            poke(&mut rng, &mut numbers);
            try_text(&typed(&mut rng, &numbers).bytes, None);
        }
        let v = size(&mut rng).min(60);
        let numbers = draft_of_size(&mut rng, v).numbers();
        let text = full_text(&mut rng, &numbers);
        assert_eq!(text.len(), MAX_TEXT);
        try_text(&text, None);
    }
    counts.at_least(40, &["index", "1", "3", "4", "5", "6", "7", "19"]);
}

/// Texts at the edges of the rule on typed numbers, answers by hand where they
/// are given.
#[test]
fn listing_of_odd_texts() {
    let Some(program) = Program::of("listing") else {
        return;
    };
    let refused = |number: u32, place: usize| format!("refused {number} {place}\n");
    let by_hand: Vec<(Vec<u8>, String)> = vec![
        (filled("", b' ', 0), refused(19, 0)),
        (filled("", b' ', 1), refused(19, 1)),
        (filled("", b'\r', 3), refused(19, 3)),
        (filled("", b'\n', MAX_TEXT), refused(19, MAX_TEXT)),
        (filled("", b' ', MAX_TEXT + 1), refused(19, MAX_TEXT)),
        (filled("", b'x', MAX_TEXT), refused(19, 0)),
        (filled("", b'x', MAX_TEXT + 1), refused(19, MAX_TEXT)),
        (filled("", b'0', MAX_TEXT), refused(1, 0)),
        (filled("-", b'0', MAX_TEXT), refused(1, 0)),
        (filled("", b'9', MAX_TEXT), refused(19, 0)),
        (filled("", b'0', MAX_TEXT + 1), refused(19, MAX_TEXT)),
        (filled(GAMMA0_2, b' ', MAX_TEXT + 1), refused(19, MAX_TEXT)),
        (filled(GAMMA0_2, b' ', 1 << 20), refused(19, MAX_TEXT)),
        (filled("", b'1', 3 << 20), refused(19, MAX_TEXT)),
        ("1 ".repeat(MAX_TEXT / 2).into(), refused(19, 10)),
        ("0 ".repeat(MAX_TEXT / 2).into(), refused(1, 0)),
        (
            format!("0 {}x", "0".repeat(MAX_TEXT - 3)).into(),
            refused(19, 2),
        ),
        ("1".into(), refused(19, 1)),
        ("1 0 1 -2".into(), refused(19, 8)),
        ("1 0 1 -2 -3 0".into(), refused(19, 12)),
        ("1 0 1 -2 -3 \r\n 0 0".into(), refused(19, 15)),
        ("+1 0 1 -2 -3".into(), refused(19, 0)),
        ("1 0 1 -2 +3".into(), refused(19, 9)),
        ("1 0 1 -2 - 3".into(), refused(19, 9)),
        ("1 0 1 -2 -3-".into(), refused(19, 9)),
        ("1 0 1 -2 --3".into(), refused(19, 9)),
        ("1\t0 1 -2 -3".into(), refused(19, 0)),
        ("1 0 1 -2 -3\t".into(), refused(19, 9)),
        ("\t1 0 1 -2 -3".into(), refused(19, 0)),
        ("1 0 1 -2 -3\0".into(), refused(19, 9)),
        ("1 0 1 -2 -3 \0".into(), refused(19, 12)),
        ("1 0 1 -2 -3\x0b".into(), refused(19, 9)),
        ("1 0 1 -2 -3 \x0c".into(), refused(19, 12)),
        (b"1 0 1 -2 \x963".to_vec(), refused(19, 9)),
        (b"\xef\xbb\xbf1 0 1 -2 -3".to_vec(), refused(19, 0)),
        ("1 0 1 -2 \u{2212}3".into(), refused(19, 9)),
        ("1 0 1 -2 -3 /".into(), refused(19, 12)),
        ("1 0 1 -2 -3 :".into(), refused(19, 12)),
        ("0".into(), refused(1, 0)),
        ("-1".into(), refused(1, 0)),
        ("9223372036854775807".into(), refused(1, 0)),
        ("9223372036854775808".into(), refused(19, 0)),
        ("-9223372036854775808".into(), refused(1, 0)),
        ("-9223372036854775809".into(), refused(19, 0)),
        (" 18446744073709551617 0 1 -2 -3".into(), refused(19, 1)),
        ("0 18446744073709551616".into(), refused(19, 2)),
        ("0 9223372036854775807".into(), refused(1, 0)),
        ("0 +".into(), refused(19, 2)),
        ("1024 1 x".into(), refused(19, 7)),
        ("1 9223372036854775807 1 -2 -3".into(), refused(3, 0)),
        ("1 0 -9223372036854775808 -2 -3".into(), refused(3, 1)),
        ("1 0 1 -9223372036854775808 -3".into(), refused(6, 0)),
        ("1 0 1 -3 9223372036854775807".into(), refused(6, 1)),
        ("1 0 1 18446744073709551614 -3".into(), refused(19, 6)),
        ("1 0 1 -2 -2".into(), refused(7, 0)),
        ("1 0 1 1 1".into(), refused(7, 0)),
        ("1 0 1 2 2".into(), refused(7, 0)),
        ("1 0 1 3 3".into(), refused(6, 0)),
        ("2 0 1 2 1 1 -2 1".into(), refused(4, 1)),
        ("2 1 1 2 1 1 -2 1".into(), refused(5, 0)),
        ("2 0 1 1 1 4 -2 4".into(), refused(6, 0)),
        ("2 0 1 1 1 1 1 1".into(), refused(6, 0)),
        ("2 0 1 1 1 -1 1 1".into(), refused(6, 0)),
        ("2 0 1 1 1 1 -4 1".into(), refused(6, 1)),
        ("2 0 1 1 1 -2 -2 2".into(), refused(6, 2)),
        ("2 0 1 1000000001 1 1 -2 1".into(), refused(3, 2)),
        ("2 0 1 1000000000 1 1 -2 1".into(), refused(4, 1)),
        ("2 -1000000000 1 -1000000001 1 1 -2 1".into(), refused(3, 2)),
        ("1 1 1000000000 -2 -3".into(), refused(4, 0)),
        ("1 1000000000 1 -2 -3".into(), refused(5, 0)),
        ("1 -1000000000 1 -2 -3".into(), refused(5, 0)),
    ];
    for (text, expected) in &by_hand {
        assert_eq!(listing(text), *expected, "by hand: {}", shown(text));
        program.must_print(text, expected);
    }

    // Readable all the same.
    let plain = listing(GAMMA0_2.as_bytes());
    let zeros = "0".repeat(MAX_TEXT - GAMMA0_2.len());
    for text in [
        GAMMA0_2.replace('\n', "\r\n"),
        GAMMA0_2.replace(['\n', ' '], "\r"),
        GAMMA0_2.replace('0', "-0"),
        GAMMA0_2.replace('0', "-000"),
        GAMMA0_2.replace('1', "00000000000000000000000000001"),
        format!("{zeros}{GAMMA0_2}"),
        format!("{GAMMA0_2}{}", " ".repeat(MAX_TEXT - GAMMA0_2.len())),
        format!("{}{GAMMA0_2}", "\r".repeat(MAX_TEXT - GAMMA0_2.len())),
        GAMMA0_2.trim_end().to_string(),
    ] {
        program.must_print(text.as_bytes(), &plain);
    }
}

#[test]
fn listing_of_mixed_cases() {
    let Some(program) = Program::of("listing") else {
        return;
    };
    for case in 0..600 {
        let text = listing_case(20_260_115, case);
        program.must_print(&text, &listing(&text));
    }
}

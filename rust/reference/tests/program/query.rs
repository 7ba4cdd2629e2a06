//! The query program.

use super::*;

/// A query's text as a symbol and two matrices, if it is one.
fn question(text: &[u8]) -> Option<(Symbol, Matrix, Matrix)> {
    let numbers = numbers(text, Format::Query).ok()?;
    let (table, pair) = numbers.split_at(numbers.len().checked_sub(8)?);
    let symbol = Symbol::from_numbers(table).ok()?;
    let matrix =
        |entries: &[i64]| Matrix::from_entries(entries.try_into().expect("four of eight entries"));
    Some((symbol, matrix(&pair[..4]), matrix(&pair[4..])))
}

/// The sign and the letters of a printed word, if one was printed.
fn printed(answer: &str) -> Option<Found> {
    let mut pieces = answer.strip_suffix('\n')?.split(' ');
    if pieces.next() != Some("word") {
        return None;
    }
    let sign = match pieces.next() {
        Some("+") => 1,
        Some("-") => -1,
        other => panic!("no sign behind `word`: {other:?}"),
    };
    let read = |piece: &str| piece.parse().expect("letters are 16-bit numbers");
    let letters = pieces.map(read).collect();
    Some(Found { sign, letters })
}

/// Whether a word is found: printed, or refused for its space alone.
fn found(answer: &str) -> bool {
    answer.starts_with("word ") || answer.starts_with("refused 11 ")
}

/// If the answer is a word, it must take A to B or to -B, as its sign says, by
/// the generators themselves.
fn check_word(text: &[u8], answer: &str) {
    let Some(Found { sign, letters }) = printed(answer) else {
        return;
    };
    let (symbol, a, b) = question(text).expect("a word needs a symbol and two matrices");
    let range = 1..=symbol.generators.len() as u16;
    assert!(
        letters.iter().all(|l| range.contains(&l.unsigned_abs())),
        "no such generator: {answer} on\n{}",
        shown(text)
    );
    assert_eq!(
        taken(&symbol, &letters, a, b),
        Some(sign),
        "{} doesn't take A to B, with that sign, on\n{}",
        shown(answer.as_bytes()),
        shown(text)
    );
}

/// Whether the walk starts at the edge from infinity to 0.
fn starts_turned(symbol: &Symbol) -> bool {
    let v = symbol.v();
    symbol.vertices[v - 1].num == 0 && symbol.sides[v].pairing != Pairing::Odd
}

fn query_cases(program: &Program, cases: std::ops::Range<u64>) {
    let mut counts = Counts::default();
    // Words and refusals 10, for either start.
    let mut starts = [[0; 2]; 2];
    let mut longest = 0;
    for case in cases {
        let text = query_case(20_260_116, case);
        let expected = query(&text);
        program.must_print(&text, &expected);
        check_word(&text, &expected);
        counts.add(&expected);
        if let Some((symbol, _, _)) = question(&text) {
            let none = expected.starts_with("refused 10 ");
            if none || found(&expected) {
                starts[usize::from(starts_turned(&symbol))][usize::from(none)] += 1;
            }
        }
        longest = longest.max(printed(&expected).map_or(0, |found| found.letters.len()));
    }
    counts.at_least(300, &["word +", "word -", "10"]);
    counts.at_least(5, &["1", "3", "4", "5", "6", "7", "8", "9", "11", "19"]);
    assert!(starts.iter().flatten().all(|&count| count >= 100));
    assert!(longest >= 1_000, "the longest word has {longest} letters");
}

#[test]
fn query_of_random_pairs() {
    let Some(program) = Program::of("query") else {
        return;
    };
    query_cases(&program, 0..2_600);
}

#[test]
fn query_of_more_random_pairs() {
    let Some(program) = Program::of("query") else {
        return;
    };
    query_cases(&program, 2_600..5_200);
}

/// Long words, on symbols with either start and for both signs of B: powers of
/// T and of its transpose around the space lent and up to the largest entry.
#[test]
fn query_of_far_pairs() {
    let Some(program) = Program::of("query") else {
        return;
    };
    let mut rng = Rng::new(41);
    let mut counts = Counts::default();
    let mut try_text = |text: &str| {
        let expected = query(text.as_bytes());
        program.must_print(text.as_bytes(), &expected);
        check_word(text.as_bytes(), &expected);
        counts.add(&expected);
    };
    for symbol in [
        "2 0 1 1 1 1 -2 1",
        "2 -1 1 0 1 1 -2 1",
        "2 -1 1 0 1 1 -3 1",
        "2 -1 1 0 1 1 1 -3",
        "1 0 1 -2 -3",
        "1 0 1 -3 -2",
        "1 0 1 -3 -3",
        "3 0 1 1 1 2 1 1 2 2 1",
    ] {
        for k in [8_191, 8_192, 8_193, 16_384, 16_385, 32_769] {
            try_text(&format!("{symbol} 1 0 0 1 -1 -{k} 0 -1"));
            try_text(&format!("{symbol} 1 0 0 1 1 0 {k} 1"));
        }
        try_text(&format!("{symbol} 0 -1 1 0 1 -65536 0 1"));
    }
    try_text("2 0 1 1 1 1 -2 1 1 -1000000 0 1 1 1000000 0 1");
    try_text("2 -1 1 0 1 1 -2 1 1 0 -1000000 1 1 0 1000000 1");
    try_text("2 0 1 1 1 1 -2 1 1 0 0 1 999999 1000000 -1 -1");
    for _ in 0..25 {
        let v = 1 + rng.below(6);
        let numbers = draft_of_size(&mut rng, v).numbers();
        let (a, b) = if rng.chance(50) {
            any_pair(&mut rng, true)
        } else {
            let b = far(&mut rng).entries().expect("far powers fit");
            (b.map(i64::wrapping_neg), b)
        };
        let all = [numbers, a.to_vec(), b.to_vec()].concat();
        try_text(&String::from_utf8(typed(&mut rng, &all).bytes).expect("plain text"));
    }
    counts.at_least(10, &["word +", "word -"]);
    counts.at_least(20, &["11"]);
    counts.at_least(10, &["10"]);
}

/// Matrices that aren't accepted, with places by hand.
#[test]
fn query_of_refused_matrices() {
    let Some(program) = Program::of("query") else {
        return;
    };
    let mut rng = Rng::new(42);
    for place in 0..8 {
        for entry in [
            1_000_001,
            -1_000_001,
            i64::MAX,
            i64::MIN,
            1 << 32,
            (1 << 32) + 1,
        ] {
            let mut pair = [1, 0, 0, 1, 1, 0, 0, 1];
            pair[place] = entry;
            // Behind it anything may be wrong.
            if rng.chance(50) {
                pair[7] = 5_000_000;
            }
            let pair = pair.map(|entry| entry.to_string()).join(" ");
            let text = format!("{GAMMA0_2}{pair}\n");
            program.must_print(text.as_bytes(), &format!("refused 8 {place}\n"));
        }
    }
    for _ in 0..200 {
        let (a, b) = any_pair(&mut rng, false);
        let mut pair: [i64; 8] = [a, b].concat().try_into().expect("eight entries");
        put_matrix_fault(&mut rng, &mut pair, 9);
        let v = size(&mut rng).min(20);
        let symbol = draft_of_size(&mut rng, v).numbers();
        let text = typed(&mut rng, &[symbol, pair.to_vec()].concat()).bytes;
        let expected = query(&text);
        assert!(expected.starts_with("refused 9 "));
        program.must_print(&text, &expected);
    }
}

/// A word is found exactly when B A^-1 meets the group's congruence condition.
/// What is expected here doesn't come from the reference.
#[test]
fn query_of_congruence_groups() {
    let Some(program) = Program::of("query") else {
        return;
    };
    let mut rng = Rng::new(43);
    let (mut inside, mut outside, mut groups) = (0, 0, 0);
    for group in stored_groups() {
        let Some((family, n)) = family(group.name) else {
            continue;
        };
        groups += 1;
        let symbol = Symbol::from_numbers(&group.numbers).expect("stored symbols are sound");
        let cosets = Cosets::new(&symbol);
        for case in 0..40 {
            let (a, b) = match case % 4 {
                0 | 1 => found_pair(&mut rng, &symbol, &cosets),
                2 => any_pair(&mut rng, false),
                _ => {
                    // B one step of S or T beside a place that has a word.
                    let (a, mut b) = found_pair(&mut rng, &symbol, &cosets);
                    let step = rng.pick(&[[0, -1, 1, 0], [1, 1, 0, 1], [1, 0, 1, 1]]);
                    let product = Matrix::from_entries(b) * Matrix::from_entries(step);
                    if product.0.iter().all(|entry| entry.abs() <= 1_000_000) {
                        b = product.entries().expect("small entries");
                    }
                    (a, b)
                }
            };
            let all = [group.numbers.clone(), a.to_vec(), b.to_vec()].concat();
            let text = typed(&mut rng, &all).bytes;
            let came = program.output(&text);
            let x = Matrix::from_entries(b) * Matrix::from_entries(a).inverse();
            let member = meets_the_condition(family, n, x);
            if member {
                assert!(found(&came), "{}: {came} for {}", group.name, shown(&text));
                check_word(&text, &came);
                inside += 1;
            } else {
                let name = group.name;
                assert_eq!(came, "refused 10 0\n", "{name} for {}", shown(&text));
                outside += 1;
            }
        }
    }
    assert_eq!(groups, 65);
    assert!(
        inside >= 1_000 && outside >= 800,
        "{inside} in, {outside} out"
    );
}

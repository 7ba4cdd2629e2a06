//! The job `sheet` against the reference: a symbol and the
//! entries of pairs in, a line for each pair out.

mod child;

use std::collections::BTreeMap;

use child::{shown, Program};
use reference::coset::Cosets;
use reference::random::drafts::{draft_of_size, size};
use reference::random::faults::{
    faulty_text, full_text, put_fault, scratch, typed, TextFault, SYMBOL_FAULTS, TEXT_FAULTS,
};
use reference::random::matrices::{any_pair, found_pair, put_matrix_fault};
use reference::random::Rng;
use reference::sheet::{ENTRIES, MOST};
use reference::symbol::{Symbol, MAX_ENTRY, MAX_VERTICES};
use reference::text::MAX_TEXT;
use reference::{query, sheet};

const GAMMA0_2: &str = "2\n0 1 1 1\n1 -2 1\n";

fn text_of(numbers: &[i64]) -> String {
    let pieces: Vec<String> = numbers.iter().map(i64::to_string).collect();
    pieces.join(" ")
}

/// How many lines are words, and how many are refusals of each number.
#[derive(Default)]
struct Counts(BTreeMap<String, usize>);

impl Counts {
    fn add(&mut self, answer: &str) {
        for line in answer.lines() {
            let mut words = line.split(' ');
            let key = match words.next() {
                Some("refused") => words.next(),
                word => word,
            };
            let key = key.expect("a line has words");
            *self.0.entry(key.to_string()).or_default() += 1;
        }
    }

    fn at_least(&self, least: usize, keys: &[&str]) {
        for &key in keys {
            let count = self.0.get(key).copied().unwrap_or(0);
            assert!(count >= least, "{key}: {:?}", self.0);
        }
    }
}

/// A symbol of this size and so many pairs for it.
fn random_sheet(rng: &mut Rng, v: usize, pairs: usize, long: bool) -> (Vec<i64>, Vec<i64>) {
    let numbers = draft_of_size(rng, v).numbers();
    let symbol = Symbol::from_numbers(&numbers).expect("a draft is a sound symbol");
    let cosets = Cosets::new(&symbol);
    let mut entries = Vec::new();
    for _ in 0..pairs {
        let (a, b) = match rng.below(10) {
            0..=5 => found_pair(rng, &symbol, &cosets),
            _ => any_pair(rng, long),
        };
        let mut pair = [0; ENTRIES];
        pair[..4].copy_from_slice(&a);
        pair[4..].copy_from_slice(&b);
        if rng.chance(10) {
            let fault = rng.pick(&[8, 9]);
            put_matrix_fault(rng, &mut pair, fault);
        }
        entries.extend(pair);
    }
    (numbers, entries)
}

/// Symbols of every size, with no pair up to 256; the words of some of them don't
/// fit together.
#[test]
fn sheets_of_random_pairs() {
    let Some(program) = Program::of("sheet") else {
        return;
    };
    let mut rng = Rng::new(61);
    let mut counts = Counts::default();
    for case in 0..240 {
        let v = match case {
            0..=189 => 1 + case % 12,
            190..=233 => size(&mut rng),
            _ => MAX_VERTICES - case % 2,
        };
        let pairs = match case % 5 {
            0 => rng.below(3),
            1..=3 => rng.below(40),
            _ => MOST - rng.below(2),
        };
        let (mut numbers, entries) = random_sheet(&mut rng, v, pairs, case % 7 == 0);
        numbers.extend(entries);
        let text = typed(&mut rng, &numbers).bytes;
        let expected = sheet(&text);
        assert!(expected.lines().count() == pairs || text.len() > MAX_TEXT);
        program.must_print(&text, &expected);
        counts.add(&expected);
    }
    counts.at_least(40, &["word", "8", "9", "10", "11"]);
}

/// Where the words fit together, each line is what the query program prints for
/// its pair.
#[test]
fn lines_are_those_of_queries() {
    let Some(program) = Program::of("sheet") else {
        return;
    };
    let single = Program::of("query");
    let mut rng = Rng::new(62);
    for case in 0..40 {
        let (numbers, entries) = random_sheet(&mut rng, 1 + case % 20, 12, false);
        let whole = [&numbers[..], &entries].concat();
        let answer = program.output(text_of(&whole).as_bytes());
        if answer.contains("refused 11") {
            continue;
        }
        assert_eq!(answer.lines().count(), 12);
        for (pair, line) in entries.chunks(ENTRIES).zip(answer.lines()) {
            let text = text_of(&[&numbers[..], pair].concat());
            let expected = format!("{line}\n");
            assert_eq!(query(text.as_bytes()), expected, "{text}");
            if let Some(single) = &single {
                single.must_print(text.as_bytes(), &expected);
            }
        }
    }
}

/// Damage to the symbol, to the number of entries and to the bytes.
#[test]
fn sheets_of_damaged_texts() {
    let Some(program) = Program::of("sheet") else {
        return;
    };
    let mut rng = Rng::new(63);
    let mut counts = Counts::default();
    let mut try_text = |text: &[u8], expected: &str| {
        assert_eq!(sheet(text), expected, "{}", shown(text));
        program.must_print(text, expected);
        counts.add(expected);
    };
    for case in 0..30 {
        let v = size(&mut rng).min(40);
        let pairs = rng.below(6);
        for fault in SYMBOL_FAULTS {
            let (mut bad, entries) = random_sheet(&mut rng, v, pairs, false);
            if !put_fault(&mut rng, &mut bad, fault) {
                continue;
            }
            // A number of entries that is no sheet goes before it, but not before
            // a v that is out of range.
            let odd = 1 + rng.below(ENTRIES - 1);
            for (more, before) in [(0, None), (odd, Some("refused 11 2048\n"))] {
                let mut numbers = [&bad[..], &entries].concat();
                numbers.extend(vec![1; more]);
                let text = typed(&mut rng, &numbers).bytes;
                let expected = sheet(&text);
                match before {
                    Some(line) if fault != 1 => assert_eq!(expected, line),
                    _ => assert!(expected.starts_with(&format!("refused {fault} "))),
                }
                try_text(&text, &expected);
            }
        }
        let (numbers, entries) = random_sheet(&mut rng, v, pairs, false);
        let whole = [&numbers[..], &entries].concat();
        for fault in TEXT_FAULTS {
            match fault {
                // Never too many: without pairs one number more is no sheet.
                TextFault::TooMany => {
                    let (text, _) = faulty_text(&mut rng, &numbers, fault);
                    try_text(&text, &sheet(&text));
                }
                // Too few for the symbol itself.
                TextFault::TooFew => {
                    let (text, place) = faulty_text(&mut rng, &numbers, fault);
                    try_text(&text, &format!("refused 19 {place}\n"));
                }
                _ => {
                    let (text, place) = faulty_text(&mut rng, &whole, fault);
                    try_text(&text, &format!("refused 19 {place}\n"));
                }
            }
        }
        for _ in 0..3 {
            let mut text = typed(&mut rng, &whole).bytes;
            scratch(&mut rng, &mut text);
            try_text(&text, &sheet(&text));
        }
        let text = full_text(&mut rng, &whole);
        assert_eq!(text.len(), MAX_TEXT, "{case}");
        try_text(&text, &sheet(&text));
    }
    counts.at_least(20, &["word", "1", "3", "4", "5", "6", "7", "11", "19"]);
}

/// Answers by hand.
#[test]
fn sheets_of_odd_texts() {
    let Some(program) = Program::of("sheet") else {
        return;
    };
    let refused = |number: u32, place: usize| format!("refused {number} {place}\n");
    let behind = |rest: &str| format!("{GAMMA0_2}{rest}");
    let (to_t, to_s) = ("1 0 0 1 1 1 0 1 ", "1 0 0 1 0 -1 1 0\n");
    let filled = |start: String, byte: u8, length: usize| {
        let mut text = start.into_bytes();
        text.resize(length, byte);
        text
    };
    let by_hand: Vec<(Vec<u8>, String)> = vec![
        // No pair, one, two.
        (GAMMA0_2.into(), String::new()),
        (GAMMA0_2.trim_end().into(), String::new()),
        (behind(to_t).into(), "word + 1\n".into()),
        (behind(to_s).into(), refused(10, 0)),
        (
            behind(&[to_s, to_t].concat()).replace('\n', "\r\n").into(),
            refused(10, 0) + "word + 1\n",
        ),
        // A pair of matrices that are none, a word that is empty.
        (behind("1 0 0 1000001 1 1 0 1").into(), refused(8, 3)),
        (behind("1 0 0 1 1 1 0 -1").into(), refused(9, 1)),
        (
            behind("1 0 0 1 1 0 0 1 1 1 0 1 -1 -1 0 -1").into(),
            "word +\nword -\n".into(),
        ),
        // 256 pairs, and one more; entries that are no pair.
        (behind(&to_t.repeat(256)).into(), "word + 1\n".repeat(256)),
        (behind(&to_t.repeat(257)).into(), refused(11, 2_048)),
        (
            behind(&format!("{}7", to_t.repeat(256))).into(),
            refused(11, 2_048),
        ),
        (behind(&"7 ".repeat(2_049)).into(), refused(11, 2_048)),
        (behind("1 0 0 1 1 1 0").into(), refused(11, 2_048)),
        (behind("7").into(), refused(11, 2_048)),
        (behind(&format!("{to_t}7")).into(), refused(11, 2_048)),
        (behind(&"7 ".repeat(30_000)).into(), refused(11, 2_048)),
        (behind(&"7\n".repeat(32_000)).into(), refused(11, 2_048)),
        // These go before the symbol, but not before a v that is out of range or a
        // symbol that isn't whole.
        ("1 0 1 -2 -2 7".into(), refused(11, 2_048)),
        ("1 0 1 -2 -2".into(), refused(7, 0)),
        (format!("1 0 1 -2 -2 {to_t}").into(), refused(7, 0)),
        ("2 0 1 1 1 1 -2 2 1 0 0 1 1 1 0 1".into(), refused(6, 0)),
        ("1 0 2 -2 -3 1 0 0 1 1 1 0 0".into(), refused(4, 0)),
        ("0".into(), refused(1, 0)),
        ("0 1 2 3".into(), refused(1, 0)),
        (
            format!("1024 {}", "7 ".repeat(30_000)).into(),
            refused(1, 0),
        ),
        ("-1 0 1 -2 -3".into(), refused(1, 0)),
        ("9223372036854775807 1".into(), refused(1, 0)),
        // Too few, and nothing at all.
        ("".into(), refused(19, 0)),
        (" \n".into(), refused(19, 2)),
        ("2".into(), refused(19, 1)),
        ("2 0 1 1 1 1 -2".into(), refused(19, 14)),
        ("2 0 1 1 1 1 -2 \n".into(), refused(19, 16)),
        ("1023 1 0 0 1 1 1 0 1".into(), refused(19, 20)),
        // No number, wherever it stands.
        ("x".into(), refused(19, 0)),
        ("0 x".into(), refused(19, 2)),
        ("2 0 1 +".into(), refused(19, 6)),
        ("2 0 1 1 1 1 -2 1 x".into(), refused(19, 17)),
        ("2 0 1 1 1 1 -2 1 7 1.0".into(), refused(19, 19)),
        (
            "2 0 1 1 1 1 -2 1 9223372036854775808".into(),
            refused(19, 17),
        ),
        (
            behind(&format!("{}x", "7 ".repeat(30_000))).into(),
            refused(19, GAMMA0_2.len() + 60_000),
        ),
        ("refused 15 2\n".into(), refused(19, 0)),
        // The length.
        (filled(behind(to_t), b' ', MAX_TEXT), "word + 1\n".into()),
        (
            filled(behind(to_t), b' ', MAX_TEXT + 1),
            refused(19, MAX_TEXT),
        ),
        (
            filled(String::new(), b'x', MAX_TEXT + 1),
            refused(19, MAX_TEXT),
        ),
        (filled(String::new(), b'0', MAX_TEXT), refused(1, 0)),
        (
            filled(behind(""), b'7', MAX_TEXT),
            refused(19, GAMMA0_2.len()),
        ),
    ];
    for (text, expected) in &by_hand {
        assert_eq!(sheet(text), *expected, "by hand: {}", shown(text));
        program.must_print(text, expected);
    }
}

/// T to the power k is k letters in Γ0(2): words up to the last letter of the word
/// space, and what is then asked.
#[test]
fn one_word_space() {
    let Some(program) = Program::of("sheet") else {
        return;
    };
    let to = |k: usize| format!("1 0 0 1 1 {k} 0 1\n");
    let word = |k: usize| format!("word +{}\n", " 1".repeat(k));
    let short = |k: usize| format!("refused 11 {k}\n");
    let none = "1 0 0 1 0 -1 1 0\n".to_string();
    for (pairs, lines) in [
        (vec![to(16_384)], vec![word(16_384)]),
        (vec![to(16_385)], vec![short(16_385)]),
        (
            vec![to(16_384), to(1), to(0), none.clone(), to(2)],
            vec![
                word(16_384),
                short(1),
                word(0),
                "refused 10 0\n".into(),
                short(2),
            ],
        ),
        // A word that doesn't fit uses no space: a shorter one behind it may fit.
        (
            vec![
                to(10_000),
                to(7_000),
                none,
                to(6_000),
                to(385),
                to(384),
                to(1),
            ],
            vec![
                word(10_000),
                short(7_000),
                "refused 10 0\n".into(),
                word(6_000),
                short(385),
                word(384),
                short(1),
            ],
        ),
        (vec![to(64); 256], vec![word(64); 256]),
        (
            vec![to(65); 256],
            [vec![word(65); 252], vec![short(65); 4]].concat(),
        ),
    ] {
        let text = format!("{GAMMA0_2}{}", pairs.concat());
        let expected = lines.concat();
        assert_eq!(sheet(text.as_bytes()), expected);
        program.must_print(text.as_bytes(), &expected);
    }
}

/// The longest text of a full sheet whose numbers are in range, with one byte behind
/// each number, fits: 256 pairs against 1,023 vertices.
#[test]
fn the_longest_sheet_fits() {
    let Some(program) = Program::of("sheet") else {
        return;
    };
    let vertex = format!("{} {} ", -MAX_ENTRY, MAX_ENTRY);
    let label = format!("{} ", MAX_VERTICES + 1);
    let text = [
        format!("{MAX_VERTICES} "),
        vertex.repeat(MAX_VERTICES),
        label.repeat(MAX_VERTICES + 1),
        "-1000000 ".repeat(ENTRIES * MOST),
    ]
    .concat();
    // 5 for v, 23 for each vertex, 5 for each of the 1,024 pairings, 9 for each entry.
    assert_eq!(text.len(), 5 + 23 * 1_023 + 5 * 1_024 + 9 * 2_048);
    assert_eq!(text.len(), 47_086);
    assert!(text.len() < MAX_TEXT);
    // It is read to its end, and its symbol is none: vertex 0 isn't reduced.
    let expected = sheet(text.as_bytes());
    assert!(!expected.starts_with("refused 19") && !expected.starts_with("refused 11"));
    program.must_print(text.as_bytes(), &expected);
}

//! The jobs `intersection` and `tower`, a process for each text: the examples, random
//! groups and towers, damaged texts, and answers worked out by hand.
//!
//! | job            | what it reads and prints                                    |
//! |----------------|-------------------------------------------------------------|
//! | `intersection` | two symbols in, the index, S and R of the intersection out  |
//! | `tower`        | a count and a table in, `passes` or a refusal out           |

mod child;
mod kind;

use std::collections::BTreeMap;

use child::{shown, Program};
use kind::Kind;
use reference::congruence::Family;
use reference::random::faults::{full_text, put_fault, scratch, typed, SYMBOL_FAULTS};
use reference::random::towers::{at_the_limit, named, small, tower as any_tower, two_groups};
use reference::random::twins::{imported, RULES};
use reference::random::Rng;
use reference::text::MAX_TEXT;
use reference::{import_wide, intersection, listing, tower};

const INTERSECTIONS: Kind = Kind {
    folder: "examples/intersections",
    input: "txt",
    output: "pair",
    reference: intersection,
    least: 10,
};

const TOWERS: Kind = Kind {
    folder: "examples/towers",
    input: "txt",
    output: "answer",
    reference: tower,
    least: 15,
};

/// How often each answer came: a refusal by its number, anything else as "".
#[derive(Default)]
struct Counts(BTreeMap<String, usize>);

impl Counts {
    fn add(&mut self, answer: &str) {
        let refusal = answer.strip_prefix("refused ");
        let number = refusal.and_then(|rest| rest.split(' ').next());
        *self.0.entry(number.unwrap_or("").to_string()).or_default() += 1;
    }

    fn at_least(&self, least: usize, keys: &[&str]) {
        for &key in keys {
            let count = self.0.get(key).copied().unwrap_or(0);
            assert!(count >= least, "too few of {key:?}: {:?}", self.0);
        }
    }
}

#[test]
fn examples_by_the_reference() {
    INTERSECTIONS.by_the_reference();
    TOWERS.by_the_reference();
}

#[test]
fn intersections_by_the_program() {
    INTERSECTIONS.by_the_program("intersection");
}

#[test]
fn towers_by_the_program() {
    TOWERS.by_the_program("tower");
}

/// What is known of the examples by hand.
#[test]
fn stated_intersections() {
    // Γ(2): two conjugates of Γ0(2), and Γ0(2) with the one group of index 2.
    let gamma_2 = "6\n1 0 4 5 2 3\n2 3 5 4 1 0\n";
    for (name, answer) in [
        ("gamma0-2-conjugate", gamma_2),
        ("gamma0-2-index-2", gamma_2),
        ("too-many-points", "refused 24 0\n"),
        ("one-symbol", "refused 19 17\n"),
        ("second-refused", "refused 6 0\n"),
        ("second-out-of-range", "refused 1 0\n"),
    ] {
        assert_eq!(INTERSECTIONS.expected(name), answer, "{name}");
    }
    // The tables of Γ0(12), and of a group within PSL2(Z) its own.
    let pair = Family::Gamma0.pair(12);
    let numbers = pair.numbers();
    let line = |part: &[i64]| {
        let pieces: Vec<String> = part.iter().map(i64::to_string).collect();
        pieces.join(" ") + "\n"
    };
    let gamma0_12 = [&numbers[..1], &numbers[1..25], &numbers[25..]].map(line);
    assert_eq!(
        INTERSECTIONS.expected("gamma0-4-gamma0-6"),
        gamma0_12.concat()
    );
    let own = INTERSECTIONS.expected("psl2z-noncongruence");
    let listed = listing(import_wide(own.as_bytes()).as_bytes());
    assert!(listed.starts_with("index 7\n") && listed.contains("widths 6 1\n"));
    // Coprime indices are multiplied; and half as many as Γ(12) has.
    for (name, points) in [
        ("gamma0-2-noncongruence", "21\n"),
        ("gamma-3-gamma-4", "288\n"),
    ] {
        assert!(INTERSECTIONS.expected(name).starts_with(points), "{name}");
    }
}

#[test]
fn stated_towers() {
    for (name, answer) in [
        ("gamma0", "passes\n"),
        ("gamma", "passes\n"),
        ("gamma-2", "passes\n"),
        ("noncongruence", "passes\n"),
        ("two-symbols-of-gamma0-2", "passes\n"),
        ("empty", "passes\n"),
        ("false-claim", "refused 26 2\n"),
        ("conjugates", "refused 26 1\n"),
        ("named-later", "refused 25 1\n"),
        ("names-itself", "refused 25 1\n"),
        ("symbol-refused", "refused 6 0\n"),
        ("short-table", "refused 2 6\n"),
        ("long-table", "refused 2 5\n"),
        ("no-v", "refused 2 0\n"),
        ("sixty-five-entries", "refused 11 64\n"),
        ("no-number", "refused 19 14\n"),
        ("nothing", "refused 19 1\n"),
    ] {
        assert_eq!(TOWERS.expected(name), answer, "{name}");
    }
}

/// Groups of every kind, now and then with a fault or damage to the bytes.
#[test]
fn intersections_of_random_symbols() {
    let Some(program) = Program::of("intersection") else {
        return;
    };
    let mut rng = Rng::new(131);
    let mut counts = Counts::default();
    for case in 0..900 {
        let [one, other] = match case % 30 {
            0 => at_the_limit(&mut rng, case % 60 == 0),
            _ => two_groups(&mut rng),
        };
        let mut parts = [one, other].map(|draft| draft.numbers());
        if rng.chance(15) {
            let fault = rng.pick(&SYMBOL_FAULTS);
            let which = rng.below(2);
            put_fault(&mut rng, &mut parts[which], fault);
        }
        let mut text = typed(&mut rng, &parts.concat()).bytes;
        if rng.chance(5) {
            scratch(&mut rng, &mut text);
        }
        let expected = intersection(&text);
        program.must_print(&text, &expected);
        counts.add(&expected);
    }
    counts.at_least(300, &[""]);
    counts.at_least(10, &["24", "19"]);
    counts.at_least(3, &["1", "3", "4", "5", "6"]);
}

/// The answer is a text for the import programs, and gives the same tables again.
#[test]
fn what_is_printed_can_be_read() {
    let mut rng = Rng::new(132);
    for _ in 0..60 {
        let [one, other] = [small(&mut rng), small(&mut rng)];
        let text = typed(&mut rng, &[one.numbers(), other.numbers()].concat()).bytes;
        let pair = intersection(&text);
        let listed = listing(import_wide(pair.as_bytes()).as_bytes());
        let mut lines = pair.lines();
        let mut next = || lines.next().expect("three lines");
        let [index, s, r] = [next(), next(), next()];
        assert!(listed.starts_with(&format!("index {index}\n")));
        assert!(listed.contains(&format!("\nS {s}\nR {r}\n")));
    }
}

/// Towers of every kind, sound and not, in texts that fit.
#[test]
fn random_towers() {
    let Some(program) = Program::of("tower") else {
        return;
    };
    let mut rng = Rng::new(133);
    let mut counts = Counts::default();
    for _ in 0..1_500 {
        let numbers = any_tower(&mut rng).numbers();
        let mut text = match rng.below(20) {
            0 if numbers.len() < 2_000 => full_text(&mut rng, &numbers),
            _ => typed(&mut rng, &numbers).bytes,
        };
        if rng.chance(5) {
            scratch(&mut rng, &mut text);
        }
        let expected = tower(&text);
        program.must_print(&text, &expected);
        counts.add(&expected);
    }
    counts.at_least(300, &[""]);
    counts.at_least(20, &["2", "11", "19", "25", "26"]);
    counts.at_least(5, &["1", "3", "4", "5", "6", "7"]);
}

/// 64 entries, and one more; the largest symbols that a text has room for.
#[test]
fn long_towers() {
    let Some(program) = Program::of("tower") else {
        return;
    };
    let groups = [2, 4, 8].map(|n| named(Family::Gamma0, n).numbers());
    for (count, expected) in [(64, "passes\n"), (65, "refused 11 64\n")] {
        let mut numbers = vec![count];
        for i in 0..count {
            numbers.push(i - 1);
            numbers.extend(&groups[(i as usize / 22).min(2)]);
        }
        program.must_print(&typed(&mut Rng::new(1), &numbers).bytes, expected);
    }
    // Γ0(990) by both rules, where there are two, in PSL2(Z).
    let pair = Family::Gamma0.pair(990);
    let symbols: Vec<Vec<i64>> = RULES
        .into_iter()
        .filter_map(|rule| imported(rule, &pair))
        .map(|draft| draft.numbers())
        .collect();
    let mut numbers = vec![1 + symbols.len() as i64, -1, 1, 0, 1, -2, -3];
    for (i, symbol) in symbols.iter().enumerate() {
        numbers.push(i as i64);
        numbers.extend(symbol);
    }
    program.must_print(&typed(&mut Rng::new(2), &numbers).bytes, "passes\n");
}

/// Answers by hand: what the count is, and how far the last table goes.
#[test]
fn towers_of_odd_texts() {
    let Some(program) = Program::of("tower") else {
        return;
    };
    let passes = || "passes\n".to_string();
    let refused = |number: u32, place: usize| format!("refused {number} {place}\n");
    let blown = |start: &str, length: usize| format!("{start}{}", " ".repeat(length - start.len()));
    for (text, expected) in [
        // An empty tower, whatever stands behind the count.
        ("0".to_string(), passes()),
        ("-0 5 5 5\n".to_string(), passes()),
        (blown("0 1 2", MAX_TEXT), passes()),
        (blown("0 1 2", MAX_TEXT + 1), refused(19, MAX_TEXT)),
        ("".to_string(), refused(19, 0)),
        (" \r\n".to_string(), refused(19, 3)),
        ("0 x".to_string(), refused(19, 2)),
        ("65 x".to_string(), refused(19, 3)),
        ("9223372036854775808".to_string(), refused(19, 0)),
        // Counts out of range, ahead of everything else.
        ("65".to_string(), refused(11, 64)),
        ("65 -1 0".to_string(), refused(11, 64)),
        ("9223372036854775807".to_string(), refused(11, 64)),
        // A negative number is no count.
        ("-1".to_string(), refused(19, 0)),
        ("\n -9223372036854775808 1".to_string(), refused(19, 2)),
        ("-1 x".to_string(), refused(19, 3)),
        // One entry: all that is left is its table.
        ("1".to_string(), refused(2, 0)),
        ("1 -1".to_string(), refused(2, 0)),
        ("1 -1 1".to_string(), refused(2, 0)),
        ("1 -1 0".to_string(), refused(1, 0)),
        ("1 -1 1024 5".to_string(), refused(1, 0)),
        ("1 -1 -1 0 1 -2 -3".to_string(), refused(1, 0)),
        ("1 -1 1 0 1 -2".to_string(), refused(2, 3)),
        ("1 -1 1 0 1 -2 -3".to_string(), passes()),
        ("1 -1 1 0 1 -2 -3 -1".to_string(), refused(2, 5)),
        ("1 0 1 0 1 -2 -3".to_string(), refused(25, 0)),
        ("1 -2 1 0 1 -2 -3".to_string(), refused(25, 0)),
        ("1 7 1 0 1 -2 -2".to_string(), refused(7, 0)),
        // Two: the first takes 3v + 1 numbers, or the fewer left.
        ("2 -1 1 0 1 -2 -3".to_string(), refused(2, 0)),
        ("2 -1 1 0 1 -2 -3 0".to_string(), refused(2, 0)),
        ("2 -1 2 0 1 -2 -3".to_string(), refused(2, 4)),
        ("2 -1 9223372036854775807 0 1".to_string(), refused(1, 0)),
        ("2 -1 1 0 1 -2 -3 0 1 0 1 -3 -3".to_string(), passes()),
        ("2 -1 1 0 1 -3 -3 0 1 0 1 -2 -3".to_string(), refused(26, 1)),
        ("2 -1 1 0 1 -3 -3 1 1 0 1 -2 -3".to_string(), refused(25, 1)),
        ("2 3 1 0 1 -3 -3 1 1 0 1 -2 -2".to_string(), refused(7, 0)),
        ("2 3 1 0 1 -3 -3 0 1 0 1 -2 -3".to_string(), refused(25, 0)),
        // What stands behind the entries of a count that is too small belongs to the last one.
        ("1 -1 1 0 1 -2 -3 0 1 0 1 -3 -3".to_string(), refused(2, 10)),
        ("refused 26 1\n".to_string(), refused(19, 0)),
    ] {
        let text = text.as_bytes();
        assert_eq!(tower(text), expected, "by hand: {}", shown(text));
        program.must_print(text, &expected);
    }
}

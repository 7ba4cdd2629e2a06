//! The jobs of cycle notation, `cycles` and `to-cycles`, against the reference; and
//! `./farey cycles`, which takes one line end away first.
//!
//! | module     | what it tests                                                   |
//! |------------|-----------------------------------------------------------------|
//! | `examples` | examples/cycles, answers by hand, what GAP and Sage printed     |
//! | `texts`    | texts of `cycles`: random ones, long ones, those that are cut   |
//!
//! Here: `to-cycles`, both jobs one after the other, and line ends.

mod child;
#[path = "cycle_programs/examples.rs"]
mod examples;
#[path = "cycle_programs/texts.rs"]
mod texts;

use std::collections::BTreeMap;
use std::fs;

use child::{farey, repository, Program};
use reference::congruence::gamma0;
use reference::permutations::Action;
use reference::random::cycles::{damaged, right_text, text};
use reference::random::faults::{faulty_text, TEXT_FAULTS};
use reference::random::pairs::{pair, put_pair_fault, shallow_pair, PAIR_FAULTS};
use reference::random::Rng;
use reference::symbol::MAX_VERTICES;
use reference::text::MAX_TEXT;
use reference::{cycles, import, listing, to_cycles};

/// How often each answer came: a refusal by its number, anything else as 0.
#[derive(Default)]
struct Counts(BTreeMap<u32, usize>);

impl Counts {
    fn add(&mut self, answer: &str) {
        let refused = answer.strip_prefix("refused ");
        let number = refused.and_then(|rest| rest.split(' ').next()?.parse().ok());
        *self.0.entry(number.unwrap_or(0)).or_default() += 1;
    }

    fn at_least(&self, least: usize, numbers: &[u32]) {
        for number in numbers {
            let count = self.0.get(number).copied().unwrap_or(0);
            assert!(count >= least, "too few of {number}: {:?}", self.0);
        }
    }
}

#[test]
fn to_cycles_of_random_pairs() {
    let Some(program) = Program::of("to-cycles") else {
        return;
    };
    let mut counts = Counts::default();
    for case in 0..900 {
        let mut rng = Rng::for_case(1_429, case);
        let mut numbers = match case % 100 {
            0 => shallow_pair(&mut rng, MAX_VERTICES).numbers(),
            _ => pair(&mut rng).numbers(),
        };
        if rng.chance(40) {
            let fault = rng.pick(&PAIR_FAULTS);
            put_pair_fault(&mut rng, &mut numbers, fault);
        }
        let text = match rng.chance(15) {
            true => {
                let fault = rng.pick(&TEXT_FAULTS);
                faulty_text(&mut rng, &numbers, fault).0
            }
            false => {
                let pieces: Vec<String> = numbers.iter().map(i64::to_string).collect();
                pieces.join(" ").into_bytes()
            }
        };
        let expected = to_cycles(&text);
        program.must_print(&text, &expected);
        counts.add(&expected);
    }
    counts.at_least(15, &[0, 12, 13, 14, 15, 19]);
}

/// There and back through both programs.
#[test]
fn there_and_back() {
    let (Some(reader), Some(writer)) = (Program::of("cycles"), Program::of("to-cycles")) else {
        return;
    };
    for case in 0..200 {
        let mut rng = Rng::for_case(1_430, case);
        let read = reader.output(&right_text(&mut rng));
        if !read.starts_with("refused") {
            let written = writer.output(read.as_bytes());
            reader.must_print(written.trim_end().as_bytes(), &read);
        }
    }
}

/// `./farey cycles` takes one line end away, and no more; `./farey to-cycles` is read by
/// it, and the line of a refusal is a text like any other.
#[test]
fn line_ends() {
    let Some(script) = farey() else {
        return;
    };
    let folder = std::env::temp_dir().join(format!("farey-cycles-{}", std::process::id()));
    let run = |name: &str, text: &[u8]| {
        fs::write(&folder, text).expect("a file can be written");
        let file = fs::File::open(&folder).expect("it opens");
        fs::remove_file(&folder).expect("it can be removed");
        let came = script.command().arg(name).stdin(file).output();
        String::from_utf8(came.expect("./farey starts").stdout).expect("an answer is text")
    };
    let tables = "3\n1 0 2\n2 0 1\n";
    let long = format!("{}3 (1,2) (1,3,2)", " ".repeat(MAX_TEXT - 15));
    for (text, answer) in [
        ("3 (1,2) (1,3,2)", tables),
        ("3 (1,2) (1,3,2)\n", tables),
        ("3 (1,2) (1,3,2)\r\n", tables),
        ("3 (1,2) (1,3,2) \n", tables),
        ("3 (1,2) (1,3,2)\n\n", "refused 27 15\n"),
        ("3 (1,2) (1,3,2)\n ", "refused 27 15\n"),
        ("3 (1,2) (1,3,2)\r", "refused 27 15\n"),
        ("\n3 (1,2) (1,3,2)", "refused 27 0\n"),
        ("3 (1,2)\n(1,3,2)\n", "refused 27 7\n"),
        ("", "refused 27 0\n"),
        ("\n", "refused 27 0\n"),
        ("refused 15 2\n", "refused 27 0\n"),
        ("refused 15 2", "refused 27 0\n"),
        (&long, tables),
        (&format!("{long}\n"), tables),
        (&format!("{long}\r\n"), tables),
        (&format!("{long} \n"), "refused 27 65536\n"),
        (&format!("{long}\n\n"), "refused 27 65536\n"),
    ] {
        assert_eq!(run("cycles", text.as_bytes()), answer, "{text:?}");
    }
    let written = run("to-cycles", tables.as_bytes());
    assert_eq!(written, "3 (1,2);(1,3,2)\n");
    assert_eq!(run("cycles", written.as_bytes()), tables);
    assert_eq!(run("to-cycles", b"refused 27 3\n"), "refused 19 0\n");
}

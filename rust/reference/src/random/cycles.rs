//! Texts in cycle notation: every style that the form allows, and damage to them.

use super::pairs::{pair, shallow_pair};
use super::Rng;
use crate::symbol::MAX_VERTICES;

/// How a text is written.
#[derive(Clone, Copy)]
struct Style {
    /// Of a hundred places for blanks, how many have some.
    blanks: usize,
    /// Of a hundred numbers, how many have zeros in front.
    zeros: usize,
    /// Of a hundred fixed points, how many are written.
    fixed: usize,
}

impl Style {
    fn any(rng: &mut Rng) -> Style {
        Style {
            blanks: rng.pick(&[0, 0, 10, 50, 100]),
            zeros: rng.pick(&[0, 0, 0, 10, 50]),
            fixed: rng.pick(&[0, 0, 20, 100]),
        }
    }

    fn gap(self, rng: &mut Rng) -> String {
        let count = rng.pick(&[1, 1, 1, 2, 3]);
        " ".repeat(if rng.chance(self.blanks) { count } else { 0 })
    }

    fn number(self, rng: &mut Rng, number: usize) -> String {
        let zeros = rng.pick(&[1, 2, 4, 25]);
        let zeros = if rng.chance(self.zeros) { zeros } else { 0 };
        "0".repeat(zeros) + &number.to_string()
    }

    /// The cycles of a table in any order, each from any of its points.
    fn cycles(self, rng: &mut Rng, table: &[i64]) -> Vec<String> {
        let mut seen = vec![false; table.len()];
        let mut written = Vec::new();
        for start in 0..table.len() {
            let mut cycle = Vec::new();
            let mut at = start;
            while !std::mem::replace(&mut seen[at], true) {
                cycle.push(at + 1);
                at = table[at] as usize;
            }
            if cycle.len() > 1 || (cycle.len() == 1 && rng.chance(self.fixed)) {
                let first = rng.below(cycle.len());
                cycle.rotate_left(first);
                let points: Vec<String> = cycle.iter().map(|&x| self.number(rng, x)).collect();
                written.push(format!("({})", points.join(",")));
            }
        }
        rng.shuffle(&mut written);
        written
    }
}

/// A text for two permutations of the same points.
pub fn written(rng: &mut Rng, s: &[i64], r: &[i64]) -> String {
    let style = Style::any(rng);
    let tables = [s, r].map(|table| style.cycles(rng, table));
    // The semicolon may be left out where both permutations are one bracket.
    let semicolon = tables.iter().any(|cycles| cycles.len() > 1) || rng.chance(50);
    let number = style.number(rng, s.len());
    let mut text = format!("{}{number}{}", style.gap(rng), style.gap(rng));
    for (i, cycles) in tables.iter().enumerate() {
        if i == 1 && semicolon {
            text += &format!(";{}", style.gap(rng));
        }
        if cycles.is_empty() && (!semicolon || rng.chance(50)) {
            text += &format!("(){}", style.gap(rng));
        }
        for cycle in cycles {
            text += &format!("{cycle}{}", style.gap(rng));
        }
    }
    text
}

/// Two permutations of up to `most` points, of any order: mostly no pair that passes
/// the checks behind the text.
pub fn any_permutations(rng: &mut Rng, most: usize) -> [Vec<i64>; 2] {
    let n = 1 + rng.below(most);
    [(); 2].map(|()| {
        let mut table: Vec<i64> = (0..n as i64).collect();
        match rng.below(4) {
            0 => {}
            1 => table.swap(rng.below(n), rng.below(n)),
            _ => rng.shuffle(&mut table),
        }
        table
    })
}

/// A right text: of a pair that passes the checks behind it, or of any permutations.
pub fn right_text(rng: &mut Rng) -> Vec<u8> {
    let [s, r] = match rng.below(10) {
        0..=2 => any_permutations(rng, 4),
        3 => any_permutations(rng, 40),
        4 if rng.chance(10) => {
            let large = shallow_pair(rng, MAX_VERTICES);
            [large.s, large.r]
        }
        _ => {
            let pair = pair(rng);
            [pair.s, pair.r]
        }
    };
    written(rng, &s, &r).into_bytes()
}

/// The bytes that damage is done with.
const BYTES: &[u8] = b" (),;01234569\n\r\t-+x\0\xff";

/// A text with one byte put in, taken away or overwritten.
pub fn damaged(rng: &mut Rng, text: &[u8]) -> Vec<u8> {
    let mut text = text.to_vec();
    let at = rng.below(text.len() + 1);
    let byte = rng.pick(BYTES);
    match rng.below(3) {
        0 => text.insert(at, byte),
        1 if at < text.len() => {
            text.remove(at);
        }
        _ if at < text.len() => text[at] = byte,
        _ => text.push(byte),
    }
    text
}

/// A text that may be right: damaged once or more often, cut short, one whose index is
/// another number, or as it was.
pub fn text(rng: &mut Rng) -> Vec<u8> {
    let mut text = right_text(rng);
    match rng.below(12) {
        0..=3 => {}
        4..=7 => text = damaged(rng, &text),
        8 => {
            for _ in 0..2 + rng.below(3) {
                text = damaged(rng, &text);
            }
        }
        9 => text.truncate(rng.below(text.len() + 1)),
        10 => {
            let digits = |byte: &u8| byte.is_ascii_digit();
            let first = text.iter().position(digits).unwrap_or(0);
            let length = text[first..].iter().take_while(|byte| digits(byte)).count();
            let n = other_index(rng);
            text.splice(first..first + length, n.into_bytes());
        }
        _ => {
            let pieces: Vec<&[u8]> = vec![b"(", b")", b"()", b",", b";", b" ", b"1", b"2", b"03"];
            let count = rng.below(12);
            text.truncate(rng.below(text.len() + 1));
            for _ in 0..count {
                text.extend(rng.pick(&pieces));
            }
        }
    }
    text
}

/// An index, mostly out of range.
fn other_index(rng: &mut Rng) -> String {
    match rng.below(6) {
        0 => "0".repeat(1 + rng.below(30)),
        1 => rng.pick(&["3066", "3067", "03066", "0003067"]).to_string(),
        2 => rng
            .pick(&["65537", "65539", "4294967297", "4294967299"])
            .to_string(),
        3 => rng
            .pick(&["18446744073709551617", "18446744073709551619"])
            .to_string(),
        4 => format!("{}{}", rng.below(10), "7".repeat(rng.below(300))),
        _ => (1 + rng.below(6)).to_string(),
    }
}

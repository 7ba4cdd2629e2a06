//! `sheet`: the answers for many pairs, line by line those of single queries in the
//! same word space; refusals 11 for the number of entries, 1 to 7, 11 for the work
//! space, 11 for the line table, which is counted in whole lines.
//!
//! What is expected comes from the reference's queries; beside that the engine's
//! own single queries must leave the same, one after another.

use std::cell::OnceCell;

use farey::calls;
use reference::random::Rng;
use reference::sheet::{answers, check_entries, line, pairs, ENTRIES, LINE, MOST};
use reference::symbol::Symbol;

use crate::outcome::{Expected, Outcome};
use crate::query::{matrices, symbol};
use crate::spaces::{around, work, Space};
use crate::symbols::Lent;

/// What is expected in the two result spaces.
struct Sheet {
    lines: Vec<i64>,
    letters: Vec<i16>,
}

impl Sheet {
    /// The sheet in a space of so many letters.
    fn new(symbol: &Symbol, entries: &[i64], space: usize) -> Sheet {
        let (mut lines, mut letters) = (Vec::new(), Vec::new());
        for (start, answer) in answers(symbol, entries, space) {
            lines.extend(line(start, &answer));
            letters.extend(answer.map_or(Vec::new(), |found| found.letters));
        }
        Sheet { lines, letters }
    }

    fn pairs(&self) -> usize {
        self.lines.len() / LINE
    }

    /// Whether a word had no room.
    fn lacks_room(&self) -> bool {
        self.lines.chunks_exact(LINE).any(|line| line[0] == 11)
    }
}

/// How many pairs: few most of the time, and now and then a full sheet.
fn how_many(rng: &mut Rng) -> usize {
    match rng.below(100) {
        0..=3 => 0,
        4 => MOST - rng.below(2),
        5..=9 => rng.below(40),
        _ => 1 + rng.below(6),
    }
}

/// The entries of so many pairs; now and then with a part of a pair, or too many.
fn entries(rng: &mut Rng, symbol: Option<&Symbol>) -> Vec<i64> {
    let cosets = OnceCell::new();
    let mut entries = Vec::new();
    for _ in 0..how_many(rng) {
        entries.extend(matrices(rng, symbol, &cosets).concat());
    }
    let len = match rng.below(100) {
        0..=2 => entries.len().saturating_sub(1 + rng.below(ENTRIES - 1)),
        3..=5 => entries.len() + 1 + rng.below(ENTRIES - 1),
        6 => ENTRIES * MOST + rng.pick(&[1, 4, ENTRIES, ENTRIES * MOST, 1 << 16]),
        _ => entries.len(),
    };
    let filler = rng.pick(&[0, 1, i64::MIN, i64::MAX]);
    entries.resize(len, filler);
    entries
}

pub fn case(rng: &mut Rng) -> Outcome {
    let lent = symbol(rng);
    let symbol = lent.symbol();
    let p = entries(rng, symbol.as_ref().ok());
    let p = Space::holding(rng, &p);
    let count = p.length() / ENTRIES;
    let sound = check_entries(p.length());
    let judged = sound.and(symbol);
    // In a space without end every word fits.
    let needed = judged.as_ref().map_or(20, |symbol| {
        Sheet::new(symbol, p.read(), usize::MAX).letters.len()
    });
    let len = match rng.chance(30) {
        true => rng.below(needed + 1),
        false => around(rng, needed),
    };
    let mut work = work(rng);
    let mut out = Space::<i16>::of_length(rng, len);
    let part = if rng.chance(30) { rng.below(LINE) } else { 0 };
    let whole = LINE * around(rng, count);
    let mut lines = Space::<i64>::of_length(rng, whole + part);
    let (out_before, lines_length) = (out.clone(), lines.length());
    let expected = Expected::in_order(judged, &work, |symbol| {
        if lines_length / LINE < count {
            return Err(reference::Refusal::new(11, count));
        }
        Ok(Sheet::new(&symbol, p.read(), len))
    });
    let came = calls::sheet(
        lent.v,
        lent.table.read(),
        p.read(),
        work.write(),
        lines.write(),
        out.write(),
    );
    let mut outcome = Outcome::with_work(&expected, Sheet::pairs, came, &work);
    outcome.unchanged("table", &lent.table);
    outcome.unchanged("pairs", &p);
    outcome.filled("lines", &lines, 0, expected.part(|sheet| &sheet.lines));
    outcome.filled("out", &out, 0, expected.part(|sheet| &sheet.letters));
    if came.is_ok() {
        let single = single_queries(&lent, p.read(), out_before);
        let same = lines.read().starts_with(&single.0) && single.1.same(&out);
        if !same {
            outcome.differences.push("single queries".to_string());
        }
    }
    outcome.about = match &expected.answer {
        Ok(sheet) if sheet.lacks_room() => "a word without room",
        Err(_) if sound.is_err() => "entries",
        _ if outcome.about == "result" => "lines",
        _ => outcome.about,
    };
    outcome.on(|| {
        let lengths = [work.length(), lines_length, len];
        let pairs = p.read();
        format!(
            "{}\npairs {pairs:?}\nwork, lines, out {lengths:?}",
            lent.told()
        )
    })
}

/// The lines that the engine's single queries give, each from where the last word
/// ended, and the word space after them.
pub fn single_queries(lent: &Lent, p: &[i64], mut out: Space<i16>) -> (Vec<i64>, Space<i16>) {
    let (mut work, mut lines, mut next) = (vec![0; calls::WORK], Vec::new(), 0);
    for (a, b) in pairs(p) {
        let (v, t) = (lent.v, lent.table.read());
        let mut sign = 0;
        let came = calls::signed_query(v, t, &a, &b, &mut work, out.write(), next, &mut sign);
        match came {
            Ok(count) => {
                lines.extend([0, next as i64, count as i64, sign]);
                next += count;
            }
            Err(refusal) => lines.extend([refusal.number as i64, refusal.place as i64, 0, 0]),
        }
    }
    (lines, out)
}

//! Cycle notation: the index, S and R as disjoint cycles over points from 1, read and
//! written; refusal 27.
//!
//! A text is right or not as a whole: `whole` splits it at its semicolon, or into two
//! groups where it has none, and looks at each part by itself. The place of 27 comes
//! from the definition: a beginning that ends between two pieces can be completed
//! where some ending makes a right text of it. Of all endings a few are tried, which
//! are enough: close the open group, before that name one more point where one is
//! wanted, and put a semicolon behind. What can't be completed can't be completed with
//! more behind it either, so the first bad piece is found by halving. The tests try
//! all endings of small indexes.

use std::fmt::Write;
use std::ops::Range;

use crate::permutations::Action;
use crate::refusal::Refusal;
use crate::text::MAX_POINTS;

/// The points of each cycle, from 1; an empty one stands for `()`.
type Groups = Vec<Vec<usize>>;

/// What a right text says.
#[derive(Clone, Debug, PartialEq, Eq)]
pub struct Written {
    pub index: usize,
    pub s: Groups,
    pub r: Groups,
}

/// A run of digits as a number, or `None` where it is empty, has another byte, or is
/// larger than any index.
fn number(digits: &[u8]) -> Option<usize> {
    if digits.is_empty() || !digits.iter().all(u8::is_ascii_digit) {
        return None;
    }
    let zeros = digits.iter().take_while(|&&digit| digit == b'0').count();
    let value = match &digits[zeros..] {
        [] => 0,
        few if few.len() <= 4 => std::str::from_utf8(few).ok()?.parse().ok()?,
        _ => return None,
    };
    (value <= MAX_POINTS as usize).then_some(value)
}

fn without_blanks(text: &[u8]) -> &[u8] {
    let blanks = text.iter().take_while(|&&byte| byte == b' ').count();
    &text[blanks..]
}

/// The run of digits behind the blanks in front, which may be empty, and the rest.
fn front(text: &[u8]) -> (&[u8], &[u8]) {
    let text = without_blanks(text);
    text.split_at(text.iter().take_while(|byte| byte.is_ascii_digit()).count())
}

/// Groups in parentheses, with blanks or none around them.
fn groups(text: &[u8]) -> Option<Groups> {
    let mut rest = without_blanks(text);
    let mut found = Vec::new();
    while !rest.is_empty() {
        let inner = rest.strip_prefix(b"(")?;
        let end = inner.iter().position(|&byte| byte == b')')?;
        found.push(match &inner[..end] {
            [] => Vec::new(),
            points => {
                let points = points.split(|&byte| byte == b',').map(number);
                points.collect::<Option<Vec<usize>>>()?
            }
        });
        rest = without_blanks(&inner[end + 1..]);
    }
    Some(found)
}

/// Whether groups are a permutation of the points 1 to n: `()` alone, or cycles that
/// have no point in common, each point once.
fn is_permutation(groups: &[Vec<usize>], n: usize) -> bool {
    if groups.len() > 1 && groups.iter().any(Vec::is_empty) {
        return false;
    }
    let mut seen = vec![false; n + 1];
    seen[0] = true;
    groups.iter().flatten().all(|&point| match seen.get(point) {
        Some(false) => {
            seen[point] = true;
            true
        }
        _ => false,
    })
}

/// What a text says, if it is right.
pub fn whole(text: &[u8]) -> Option<Written> {
    let (digits, rest) = front(text);
    let index = number(digits).filter(|&index| index >= 1)?;
    let parts: Vec<&[u8]> = rest.split(|&byte| byte == b';').collect();
    let (s, r) = match parts[..] {
        [both] => {
            let mut both = groups(both)?;
            let r = both.pop()?;
            (both, vec![r])
        }
        [s, r] => (groups(s)?, groups(r)?),
        _ => return None,
    };
    // Without a semicolon each permutation is one bracket.
    let grouped = parts.len() == 2 || s.len() == 1;
    let right = grouped && is_permutation(&s, index) && is_permutation(&r, index);
    right.then_some(Written { index, s, r })
}

/// The pieces of a text, each a whole run of digits or one other byte.
pub fn pieces(text: &[u8]) -> Vec<Range<usize>> {
    let mut found: Vec<Range<usize>> = Vec::new();
    for (at, byte) in text.iter().enumerate() {
        match found.last_mut() {
            Some(last) if byte.is_ascii_digit() && text[last.start].is_ascii_digit() => {
                last.end = at + 1;
            }
            _ => found.push(at..at + 1),
        }
    }
    found
}

/// The smallest point from 1 to n that isn't among these numbers; n + 1 if all are.
fn unnamed(text: &[u8], n: usize) -> usize {
    let runs = text.split(|byte| !byte.is_ascii_digit());
    let named: Vec<usize> = runs.filter_map(number).collect();
    let mut seen = vec![false; n + 1];
    for point in named.into_iter().filter(|&point| point <= n) {
        seen[point] = true;
    }
    (1..=n).find(|&point| !seen[point]).unwrap_or(n + 1)
}

/// Whether some ending makes these whole pieces a right text.
pub fn completes(start: &[u8]) -> bool {
    let (digits, rest) = front(start);
    let digits_last = start.last().is_some_and(u8::is_ascii_digit);
    // A point that the permutation of the last group hasn't named: all groups behind
    // the semicolon may be its, or the last one alone.
    let index = number(digits).unwrap_or(0);
    let points = [b';', b'('].map(|mark| {
        let behind = rest.iter().rposition(|&byte| byte == mark);
        unnamed(&rest[behind.map_or(0, |at| at + 1)..], index)
    });
    // Nothing, the end of a group, or a point and the end; `1` is an index.
    let mut closings = vec!["".to_string(), ")".to_string(), "1".to_string()];
    closings.extend(points.map(|point| format!("{point})")));
    // An ending doesn't go on with a run of digits.
    closings.retain(|closing| !digits_last || !closing.starts_with(|c: char| c.is_ascii_digit()));
    closings.iter().any(|closing| {
        let ends = |last: &&str| whole(&[start, closing.as_bytes(), last.as_bytes()].concat());
        ["", ";"].iter().any(|last| ends(last).is_some())
    })
}

/// What a text says, or refusal 12 or 27.
pub fn verdict(text: &[u8]) -> Result<Written, Refusal> {
    let (digits, _) = front(text);
    if !digits.is_empty() && number(digits).unwrap_or(0) == 0 {
        return Err(Refusal::new(12, 0));
    }
    if let Some(written) = whole(text) {
        return Ok(written);
    }
    let pieces = pieces(text);
    // The first `good` pieces can be completed, the first `bad` can't.
    let (mut good, mut bad) = (0, pieces.len() + 1);
    while bad - good > 1 {
        let middle = (good + bad) / 2;
        match completes(&text[..pieces[middle - 1].end]) {
            true => good = middle,
            false => bad = middle,
        }
    }
    let place = pieces.get(good).map_or(text.len(), |piece| piece.start);
    Err(Refusal::new(27, place))
}

/// The refusal of every text that goes on behind these bytes, if their whole pieces have
/// one. A run of digits at their end may go on, and counts where it is larger than any
/// index already.
pub fn beginning(seen: &[u8]) -> Option<Refusal> {
    let begun = seen.iter().rev().take_while(|byte| byte.is_ascii_digit());
    let (before, run) = seen.split_at(seen.len() - begun.count());
    let fault = |pieces: &[u8]| match verdict(pieces) {
        Err(refusal) if refusal.number == 12 || refusal.place < pieces.len() as u64 => {
            Some(refusal)
        }
        _ => None,
    };
    let too_large = !run.is_empty() && number(run).is_none();
    fault(before).or_else(|| fault(seen).filter(|_| too_large))
}

/// The images of the points 0, 1, 2, .. under a permutation in cycles.
fn images(cycles: &[Vec<usize>], n: usize) -> Vec<i64> {
    let mut table: Vec<i64> = (0..n as i64).collect();
    for cycle in cycles {
        for (i, &point) in cycle.iter().enumerate() {
            table[point - 1] = cycle[(i + 1) % cycle.len()] as i64 - 1;
        }
    }
    table
}

/// The tables of S and R that a text says, or the first of the refusals 27 and 12, 14
/// and 15. (Cycles give permutations, so 13 doesn't come.)
pub fn read(text: &[u8]) -> Result<(Vec<i64>, Vec<i64>), Refusal> {
    let Written { index, s, r } = verdict(text)?;
    let (s, r) = (images(&s, index), images(&r, index));
    Action::new(&s, &r)?;
    Ok((s, r))
}

/// The cycles of more than one point, from their smallest ones; `()` without any.
fn permutation(table: &[i64]) -> String {
    let mut out = String::new();
    for start in 0..table.len() {
        let mut cycle = vec![start];
        while table[cycle[cycle.len() - 1]] as usize != start {
            cycle.push(table[cycle[cycle.len() - 1]] as usize);
        }
        if cycle.len() > 1 && cycle.iter().all(|&point| point >= start) {
            let points: Vec<String> = cycle.iter().map(|x| (x + 1).to_string()).collect();
            write!(out, "({})", points.join(",")).expect("a string takes any text");
        }
    }
    match out.is_empty() {
        true => "()".to_string(),
        false => out,
    }
}

/// The text of two tables, or the first of the refusals 12 to 15.
pub fn write(s: &[i64], r: &[i64]) -> Result<String, Refusal> {
    Action::new(s, r)?;
    Ok(format!("{} {};{}", s.len(), permutation(s), permutation(r)))
}

#[cfg(test)]
mod tests;

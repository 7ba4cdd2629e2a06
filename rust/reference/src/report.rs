//! The whole output of the programs, from the bytes of standard input.

use std::fmt::{Display, Write};

use crate::congruence::named_symbol;
use crate::coset::Cosets;
use crate::cycles::{beginning, read, write};
use crate::exchange::exchange as exchanged;
use crate::permutations::{import_pair, Imported, Rule};
use crate::refusal::Refusal;
use crate::sameness::same_group;
use crate::sheet::{answers, check_entries};
use crate::subgroups;
use crate::symbol::{Symbol, MAX_VERTICES};
use crate::text::{
    count_and_more, numbers, symbol_and_more, two_symbols, Format, MAX_POINTS, MAX_TEXT,
};
use crate::word::{pair_query, Found};

/// The letters that the programs `query` and `sheet` lend.
pub const LENT_LETTERS: usize = 16_384;

/// A name and the items behind it, with single spaces between and no space at
/// the end.
fn line(out: &mut String, name: &str, items: impl IntoIterator<Item = impl Display>) {
    out.push_str(name);
    for item in items {
        write!(out, " {item}").expect("a string takes any text");
    }
    out.push('\n');
}

/// A figure that may be refused by itself.
fn figure(out: &mut String, name: &str, value: Result<u64, Refusal>) {
    match value {
        Ok(value) => line(out, name, [value]),
        Err(refusal) => line(out, name, [refusal]),
    }
}

/// What the listing program prints.
pub fn listing(text: &[u8]) -> String {
    try_listing(text).unwrap_or_else(|refusal| format!("{refusal}\n"))
}

fn try_listing(text: &[u8]) -> Result<String, Refusal> {
    let symbol = Symbol::from_numbers(&numbers(text, Format::Listing)?)?;
    let cosets = Cosets::new(&symbol);
    let widths = cosets.widths();
    let mut out = String::new();
    line(&mut out, "index", [cosets.index()]);
    line(&mut out, "elliptic", [cosets.e2(), cosets.e3()]);
    line(&mut out, "cusps", [widths.len()]);
    line(&mut out, "widths", &widths);
    figure(&mut out, "genus", cosets.genus());
    figure(&mut out, "level", cosets.level());
    line(&mut out, "generators", [symbol.generators.len()]);
    for (i, generator) in symbol.generators.iter().enumerate() {
        let head = format!("{} {}", i + 1, generator.kind.name());
        let entries = generator
            .matrix
            .entries()
            .expect("sums of two products within 10^18 fit 64 bits");
        line(&mut out, &head, entries);
    }
    line(&mut out, "S", &cosets.s);
    line(&mut out, "R", &cosets.r);
    line(&mut out, "T", &cosets.t);
    Ok(out)
}

/// What the query program prints.
pub fn query(text: &[u8]) -> String {
    answer_line(&try_query(text))
}

/// The line for the answer of a query.
fn answer_line(answer: &Result<Found, Refusal>) -> String {
    match answer {
        Ok(found) => {
            let mut out = String::new();
            let name = match found.sign {
                1 => "word +",
                _ => "word -",
            };
            line(&mut out, name, &found.letters);
            out
        }
        Err(refusal) => format!("{refusal}\n"),
    }
}

fn try_query(text: &[u8]) -> Result<Found, Refusal> {
    let numbers = numbers(text, Format::Query)?;
    // With v out of range the count is free, and refusal 1 comes first.
    let table_end = numbers.len().saturating_sub(8).max(1);
    let symbol = Symbol::from_numbers(&numbers[..table_end])?;
    let mut matrices = [[0; 4]; 2];
    for (i, &entry) in numbers[table_end..].iter().enumerate() {
        matrices[i / 4][i % 4] = entry;
    }
    let [a, b] = matrices;
    pair_query(&symbol, a, b, LENT_LETTERS, 0)
}

/// What the job `sheet` prints: a line for each pair, as the query program
/// prints it, in one word space for all of them.
pub fn sheet(text: &[u8]) -> String {
    try_sheet(text).unwrap_or_else(|refusal| format!("{refusal}\n"))
}

fn try_sheet(text: &[u8]) -> Result<String, Refusal> {
    let (symbol, entries) = symbol_and_more(text)?;
    check_entries(entries.len())?;
    let symbol = Symbol::from_numbers(&symbol)?;
    let answers = answers(&symbol, &entries, LENT_LETTERS);
    Ok(answers.iter().map(|(_, a)| answer_line(a)).collect())
}

/// What the job `exchange` prints: the exchanged symbol as `import` prints one.
pub fn exchange(text: &[u8]) -> String {
    match try_exchange(text) {
        Ok(numbers) => {
            let join = |numbers: &[i64]| {
                let pieces: Vec<String> = numbers.iter().map(i64::to_string).collect();
                pieces.join(" ")
            };
            let (vertices, pairings) = numbers[1..].split_at(2 * numbers[0] as usize);
            format!("{}\n{}\n{}\n", numbers[0], join(vertices), join(pairings))
        }
        Err(refusal) => format!("{refusal}\n"),
    }
}

/// v and the table, after the exchange.
fn try_exchange(text: &[u8]) -> Result<Vec<i64>, Refusal> {
    let numbers = numbers(text, Format::Exchange)?;
    // With v out of range the count is free, and refusal 1 comes first.
    let end = numbers.len().saturating_sub(2).max(1);
    let label = |i: usize| numbers.get(end + i).copied().unwrap_or(0);
    let table = exchanged(numbers[0], &numbers[1..end], label(0), label(1))?;
    Ok([&numbers[..1], &table].concat())
}

/// What the import program prints: v, the vertices and the pairings, a line
/// each.
pub fn import(text: &[u8]) -> String {
    symbol_text(try_import(Rule::Leftmost, text))
}

/// What the job `import-wide` prints: the same by the wide rule.
pub fn import_wide(text: &[u8]) -> String {
    symbol_text(try_import(Rule::Wide, text))
}

fn symbol_text(answer: Result<Imported, Refusal>) -> String {
    match answer {
        Ok(imported) => {
            let join = |numbers: Vec<i64>| {
                let pieces: Vec<String> = numbers.iter().map(i64::to_string).collect();
                pieces.join(" ")
            };
            let vertices = imported.vertices.iter().flat_map(|&(a, b)| [a, b]);
            format!(
                "{}\n{}\n{}\n",
                imported.v(),
                join(vertices.collect()),
                join(imported.pairings)
            )
        }
        Err(refusal) => format!("{refusal}\n"),
    }
}

fn try_import(rule: Rule, text: &[u8]) -> Result<Imported, Refusal> {
    let (s, r) = pair(text)?;
    // The program lends space for the largest symbol.
    import_pair(rule, &s, &r, 3 * MAX_VERTICES + 1)
}

/// The two tables of a text for `import`, or refusal 19 or 12.
fn pair(text: &[u8]) -> Result<(Vec<i64>, Vec<i64>), Refusal> {
    let numbers = numbers(text, Format::Import)?;
    let n = numbers[0];
    if !(1..=MAX_POINTS).contains(&n) {
        return Err(Refusal::new(12, 0));
    }
    let (s, r) = numbers[1..].split_at(n as usize);
    Ok((s.to_vec(), r.to_vec()))
}

/// What the job `cycles` prints: the tables of a text in cycle notation as
/// `import` reads them.
pub fn cycles(text: &[u8]) -> String {
    match try_cycles(text) {
        Ok((s, r)) => {
            let mut out = format!("{}\n", s.len());
            for table in [s, r] {
                let pieces: Vec<String> = table.iter().map(i64::to_string).collect();
                out += &(pieces.join(" ") + "\n");
            }
            out
        }
        Err(refusal) => format!("{refusal}\n"),
    }
}

/// Of a longer text the first 65,536 bytes are read; where no ending of these helps, that
/// is told, and else the text is refused where it gets too long.
fn try_cycles(text: &[u8]) -> Result<(Vec<i64>, Vec<i64>), Refusal> {
    match text.get(..MAX_TEXT) {
        Some(seen) if text.len() > MAX_TEXT => {
            Err(beginning(seen).unwrap_or(Refusal::new(27, MAX_TEXT)))
        }
        _ => read(text),
    }
}

/// What the job `to-cycles` prints: the tables of a text for `import` in cycle
/// notation, on a line.
pub fn to_cycles(text: &[u8]) -> String {
    match pair(text).and_then(|(s, r)| write(&s, &r)) {
        Ok(written) => format!("{written}\n"),
        Err(refusal) => format!("{refusal}\n"),
    }
}

/// What the job `named` prints: the symbol by the rule, or where that is
/// refused with 16 the one by the wide rule.
pub fn named(text: &[u8]) -> String {
    symbol_text(try_named(text))
}

/// What `./farey gamma0 N`, `gamma1 N` and `gamma N` print for the text of
/// `named`: the symbol by the wide rule.
pub fn named_wide(text: &[u8]) -> String {
    symbol_text(try_named_by(Rule::Wide, text))
}

/// The same with `--leftmost`: the symbol by the leftmost rule, or refusal 16.
pub fn named_leftmost(text: &[u8]) -> String {
    symbol_text(try_named_by(Rule::Leftmost, text))
}

fn try_named_by(rule: Rule, text: &[u8]) -> Result<Imported, Refusal> {
    let numbers = numbers(text, Format::Named)?;
    named_symbol(rule, numbers[0], numbers.get(1).copied().unwrap_or(0))
}

fn try_named(text: &[u8]) -> Result<Imported, Refusal> {
    let numbers = numbers(text, Format::Named)?;
    // With another family the count is free, and refusal 20 comes first.
    let (family, n) = (numbers[0], numbers.get(1).copied().unwrap_or(0));
    match named_symbol(Rule::Leftmost, family, n) {
        Err(refusal) if refusal.number == 16 => named_symbol(Rule::Wide, family, n),
        answer => answer,
    }
}

/// What the job `same` prints.
pub fn same(text: &[u8]) -> String {
    match try_same(text) {
        Ok(true) => "same\n".to_string(),
        Ok(false) => "different\n".to_string(),
        Err(refusal) => format!("{refusal}\n"),
    }
}

fn try_same(text: &[u8]) -> Result<bool, Refusal> {
    let (first, second) = two_symbols(text)?;
    let one = Symbol::from_numbers(&first)?;
    let other = Symbol::from_numbers(&second)?;
    Ok(same_group(&one, &other))
}

/// What the job `intersection` prints: the number of points, S and R, a line
/// each, as the import programs read them.
pub fn intersection(text: &[u8]) -> String {
    match try_intersection(text) {
        Ok([s, r, _]) => {
            let mut out = format!("{}\n", s.len());
            for table in [s, r] {
                let pieces: Vec<String> = table.iter().map(u32::to_string).collect();
                out.push_str(&pieces.join(" "));
                out.push('\n');
            }
            out
        }
        Err(refusal) => format!("{refusal}\n"),
    }
}

fn try_intersection(text: &[u8]) -> Result<subgroups::Tables, Refusal> {
    let (first, second) = two_symbols(text)?;
    let one = Symbol::from_numbers(&first)?;
    let other = Symbol::from_numbers(&second)?;
    subgroups::intersection(&one, &other)
}

/// What the job `tower` prints.
pub fn tower(text: &[u8]) -> String {
    match try_tower(text) {
        Ok(()) => "passes\n".to_string(),
        Err(refusal) => format!("{refusal}\n"),
    }
}

fn try_tower(text: &[u8]) -> Result<(), Refusal> {
    let (count, table) = count_and_more(text)?;
    // The program lends work space enough.
    subgroups::tower(count, &table, Ok(()))
}

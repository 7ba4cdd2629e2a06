//! The table of the index of Γ0(N): what the program `index_table` writes, the
//! constant that the engine holds, but for its line breaks, which `rt fmt` sets, and
//! the table of the handbook's page docs/INDEX-TABLE.md are one, and its numbers
//! are those of an own reckoning.

mod child;

use std::fs;

use child::{repository, Program};

fn page(path: &str) -> String {
    fs::read_to_string(repository().join(path)).unwrap_or_else(|e| panic!("{path}: {e}"))
}

/// The numbers between the first line and the last one of the constant, as many
/// in a line as there may be.
fn entries(source: &str) -> Vec<u64> {
    let lines: Vec<&str> = source.lines().collect();
    let (first, rest) = lines.split_first().expect("a first line");
    let (last, numbers) = rest.split_last().expect("a last line");
    assert_eq!(*first, "pub const INDEX: [u16; 1000] = [");
    assert_eq!(*last, "];");
    let number = |digits: &str| {
        digits
            .parse()
            .unwrap_or_else(|_| panic!("{digits:?} is no entry"))
    };
    let inside = |line: &&'_ str| {
        let entries = line.strip_prefix("    ").and_then(|l| l.strip_suffix(','));
        let entries = entries.unwrap_or_else(|| panic!("{line:?} has no entries"));
        entries.split(", ").map(number).collect::<Vec<u64>>()
    };
    numbers.iter().flat_map(inside).collect()
}

/// A text without its spaces and line breaks.
fn unbroken(text: &str) -> String {
    text.split_whitespace().collect()
}

fn gcd(a: u64, b: u64) -> u64 {
    if b == 0 {
        a
    } else {
        gcd(b, a % b)
    }
}

/// The index of Γ0(n) as the sum of the widths of its cusps: for each divisor d
/// of n there are φ(gcd(d, n/d)) cusps of denominator d, each n/gcd(d², n) wide.
fn sum_of_widths(n: u64) -> u64 {
    let phi = |m: u64| (1..=m).filter(|&u| gcd(u, m) == 1).count() as u64;
    let divisors = (1..=n).filter(|d| n % d == 0);
    divisors
        .map(|d| phi(gcd(d, n / d)) * (n / gcd(d * d, n)))
        .sum()
}

#[test]
fn the_program_writes_the_constant() {
    let Some(program) = Program::of("index_table") else {
        return;
    };
    let answer = program.run(b"");
    assert_eq!(answer.status, Some(0));
    assert!(answer.stderr.is_empty());
    let constant = page("crates/family_index/src/gamma0.rt");
    let written = String::from_utf8(answer.stdout).expect("text");
    assert_eq!(written.lines().count(), 1002, "a line for each number");
    assert_eq!(entries(&written), entries(&constant));
    assert!(
        unbroken(&written) == unbroken(&constant),
        "the constant isn't what the program writes"
    );
}

#[test]
fn entries_are_sums_of_widths() {
    let entries = entries(&page("crates/family_index/src/gamma0.rt"));
    assert_eq!(entries.len(), 1000);
    for (n, &entry) in (1..).zip(&entries) {
        assert_eq!(entry, sum_of_widths(n), "N = {n}");
    }
}

/// All that stands between the two marks of the handbook's table.
fn printed(entries: &[u64]) -> String {
    let mut text = String::from("\n| first N |");
    for k in 0..10 {
        text += &format!(" +{k} |");
    }
    text += &format!("\n|{}\n", "---|".repeat(11));
    for (row, numbers) in entries.chunks(10).enumerate() {
        text += &format!("| {} |", 10 * row + 1);
        for number in numbers {
            text += &format!(" {number} |");
        }
        text += "\n";
    }
    text + "\n"
}

#[test]
fn the_handbook_has_the_same_numbers() {
    let index_page = page("docs/INDEX-TABLE.md");
    let handbook = page("docs/HANDBOOK.md");
    assert!(
        handbook.contains("](INDEX-TABLE.md)"),
        "no link to the page"
    );
    let begin = "\n<!-- index table: written by tools/index-table, a row for ten numbers N -->\n";
    let end = "<!-- end of the index table -->\n";
    assert_eq!(index_page.matches(begin).count(), 1);
    assert_eq!(index_page.matches(end).count(), 1);
    let (_, rest) = index_page.split_once(begin).expect("the table's beginning");
    let (table, _) = rest.split_once(end).expect("its end");
    let entries = entries(&page("crates/family_index/src/gamma0.rt"));
    assert_eq!(table, printed(&entries));
}

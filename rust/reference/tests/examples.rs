//! The folder `examples`: every input has its output beside it, the reference
//! gives that output, and so do the engine's programs, byte for byte.

mod child;
mod kind;

use kind::Kind;
use reference::congruence::gamma0;
use reference::{exchange, import, import_wide, listing, named, query, same, sheet};

const LISTINGS: Kind = Kind {
    folder: "examples",
    input: "txt",
    output: "listing",
    reference: listing,
    least: 7,
};
const QUERIES: Kind = Kind {
    folder: "examples/queries",
    input: "query",
    output: "answer",
    reference: query,
    least: 7,
};
const IMPORTS: Kind = Kind {
    folder: "examples/imports",
    input: "pair",
    output: "symbol",
    reference: import,
    least: 7,
};

/// The same inputs by the wide rule.
const WIDE_IMPORTS: Kind = Kind {
    output: "wide",
    reference: import_wide,
    ..IMPORTS
};

const NAMED: Kind = Kind {
    folder: "examples/named",
    input: "group",
    output: "symbol",
    reference: named,
    least: 6,
};

const SAMES: Kind = Kind {
    folder: "examples/same",
    input: "txt",
    output: "answer",
    reference: same,
    least: 7,
};

const SHEETS: Kind = Kind {
    folder: "examples/sheets",
    input: "sheet",
    output: "lines",
    reference: sheet,
    least: 7,
};

const EXCHANGES: Kind = Kind {
    folder: "examples/exchanges",
    input: "txt",
    output: "symbol",
    reference: exchange,
    least: 5,
};

#[test]
fn by_the_reference() {
    for kind in [
        LISTINGS,
        QUERIES,
        IMPORTS,
        WIDE_IMPORTS,
        NAMED,
        SAMES,
        SHEETS,
    ] {
        kind.by_the_reference();
    }
}

#[test]
fn listings_by_the_program() {
    LISTINGS.by_the_program("listing");
}

#[test]
fn queries_by_the_program() {
    QUERIES.by_the_program("query");
}

#[test]
fn imports_by_the_program() {
    IMPORTS.by_the_program("import");
}

#[test]
fn wide_imports_by_the_program() {
    WIDE_IMPORTS.by_the_program("import-wide");
}

#[test]
fn named_by_the_program() {
    NAMED.by_the_program("named");
}

#[test]
fn exchanges_by_the_reference() {
    EXCHANGES.by_the_reference();
}

#[test]
fn exchanges_by_the_program() {
    EXCHANGES.by_the_program("exchange");
}

/// Exchanged and exchanged again: back where the labels cross, and not where they stand
/// apart; worked out by hand.
#[test]
fn stated_exchanges() {
    for (name, pairings) in [
        ("gamma-2", "1 2 1 2"),
        ("gamma-2-again", "1 2 2 1"),
        ("apart", "1 2 2 1"),
        ("apart-again", "1 2 1 2"),
    ] {
        let expected = format!("3\n0 1 1 1 2 1\n{pairings}\n");
        assert_eq!(EXCHANGES.expected(name), expected, "{name}");
    }
    assert_eq!(EXCHANGES.expected("no-label"), "refused 23 1\n");
}

#[test]
fn same_by_the_program() {
    SAMES.by_the_program("same");
}

#[test]
fn sheets_by_the_program() {
    SHEETS.by_the_program("sheet");
}

/// What document and hand say of the sheets.
#[test]
fn stated_sheets() {
    let lines = "word + 2 1\nrefused 10 0\nword - 1\nword -\n";
    for (name, answer) in [
        ("gamma0-2", lines),
        ("gamma0-2-no-pairs", ""),
        ("gamma0-2-seven-entries", "refused 11 2048\n"),
        ("gamma0-2-not-whole", "refused 19 15\n"),
        ("gamma0-2-no-number", "refused 19 23\n"),
        ("refused-symbol", "refused 6 0\n"),
        ("v-out-of-range", "refused 1 0\n"),
    ] {
        assert_eq!(SHEETS.expected(name), answer, "{name}");
    }
}

/// The two symbols of Γ0(2) that the request has, and what the others are of.
#[test]
fn stated_sameness() {
    for (name, answer) in [
        ("gamma0-2-moved", "same\n"),
        ("gamma0-2-relabelled", "same\n"),
        ("gamma0-2-conjugate", "different\n"),
        ("gamma0-11-two-symbols", "same\n"),
        ("gamma0-11-gamma1-7", "different\n"),
        ("one-symbol", "refused 19 17\n"),
        ("second-refused", "refused 6 0\n"),
        ("second-out-of-range", "refused 1 0\n"),
    ] {
        assert_eq!(SAMES.expected(name), answer, "{name}");
    }
    // Γ0(11): the listed symbol, and the one of its name.
    let listed = LISTINGS.examples();
    let listed = listed.iter().find(|one| one.name == "gamma0-11");
    let listed = &listed.expect("the group is among the examples").text;
    let both = [&listed[..], NAMED.expected("gamma0-11").as_bytes()].concat();
    let asked = SAMES.examples();
    let asked = asked.iter().find(|one| one.name == "gamma0-11-two-symbols");
    assert_eq!(asked.expect("it is among the examples").text, both);
}

/// A group's name gives the symbol that the imports make of its permutations:
/// the one by the rule, or for Γ0(120) the one by the wide rule.
#[test]
fn names_and_permutations() {
    assert_eq!(NAMED.expected("psl2z"), IMPORTS.expected("psl2z"));
    assert_eq!(
        NAMED.expected("gamma0-120"),
        WIDE_IMPORTS.expected("gamma0-120")
    );
    assert_eq!(NAMED.expected("refused"), "refused 21 0\n");
    // Γ0(11) has two cusps and genus 1; modulo 7 and up to sign there are three
    // units, so Γ1(7) has the index 3 · 8; Γ(5) has that of the icosahedral group.
    for (name, lines) in [
        ("gamma0-11", ["index 12", "widths 1 11", "genus 1"]),
        ("gamma1-7", ["index 24", "level 7", "genus 0"]),
        (
            "gamma-5",
            ["index 60", "widths 5 5 5 5 5 5 5 5 5 5 5 5", "genus 0"],
        ),
    ] {
        let listed = listing(NAMED.expected(name).as_bytes());
        for line in lines {
            assert!(listed.lines().any(|other| other == line), "{name}: {line}");
        }
    }
}

/// Γ0(120), from the projective line over Z/120 alone: refused by the one rule,
/// and by the other a symbol whose cosets are permuted as those of the group.
#[test]
fn gamma0_120() {
    let pair = gamma0(120);
    let line = |table: &[i64]| {
        let pieces: Vec<String> = table.iter().map(i64::to_string).collect();
        pieces.join(" ")
    };
    let (s, r) = (line(&pair.s), line(&pair.r));
    let examples = IMPORTS.examples();
    let example = examples.iter().find(|one| one.name == "gamma0-120");
    let example = example.expect("the pair is among the examples");
    let text = format!("288\n{s}\n{r}\n");
    assert_eq!(String::from_utf8_lossy(&example.text), text);
    assert!(example.expected.starts_with("refused 16 "));
    // The pair has the numbers of the listing already.
    let listed = listing(WIDE_IMPORTS.expected("gamma0-120").as_bytes());
    assert!(listed.contains(&format!("\nS {s}\nR {r}\nT ")), "{listed}");
}

/// The lines that the engine's paper on conventions states.
#[test]
fn stated_outputs() {
    assert_eq!(
        LISTINGS.expected("gamma0-2"),
        "index 3\nelliptic 1 0\ncusps 2\nwidths 1 2\ngenus 0\nlevel 2\n\
         generators 2\n1 free 1 1 0 1\n2 even 1 -1 2 -1\n\
         S 1 0 2\nR 2 0 1\nT 0 2 1\n"
    );
    for (name, lines) in [
        (
            "gamma-2",
            &[
                "index 6",
                "1 free 1 2 0 1",
                "2 free 3 -2 2 -1",
                "S 1 0 4 5 2 3",
                "R 2 3 5 4 1 0",
                "T 3 2 1 0 5 4",
            ][..],
        ),
        ("psl2z", &["index 1"]),
        ("index-2", &["index 2", "S 1 0", "R 0 1"]),
        ("one-vertex-even", &["refused 7 0"]),
        ("one-vertex-free", &["refused 7 0"]),
    ] {
        let expected = LISTINGS.expected(name);
        for &line in lines {
            let found = expected.lines().any(|other| other == line);
            assert!(found, "{name} has no line {line}");
        }
    }
    for (name, answer) in [
        ("psl2z-s", "word + 1\n"),
        ("gamma0-2-t", "word + 1\n"),
        ("gamma0-2-minus-t", "word - 1\n"),
        ("gamma0-2-two-letters", "word + 2 1\n"),
        ("gamma0-2-from-s", "word + 1\n"),
        ("gamma0-2-none", "refused 10 0\n"),
        ("gamma0-2-identity", "word +\n"),
        ("gamma0-2-minus", "word -\n"),
        ("gamma0-2-largest-entry", "word + 1\n"),
        ("gamma0-2-entry-too-large", "refused 8 5\n"),
    ] {
        assert_eq!(QUERIES.expected(name), answer, "{name}");
    }
    for kind in [IMPORTS, WIDE_IMPORTS] {
        assert_eq!(kind.expected("gamma0-2"), "2\n0 1 1 1\n1 -2 1\n");
    }
}

/// The group called so contains no whole congruence group of its level: its
/// level is 6, and an element of Γ(6) has no word.
#[test]
fn the_noncongruence_group_is_one() {
    let listed = LISTINGS.expected("noncongruence");
    assert!(listed.contains("index 7\n") && listed.contains("level 6\n"));
    let (a, b, c, d) = (-17i64, -12i64, -24i64, -17i64);
    assert_eq!(a * d - b * c, 1);
    let residues = [a, b, c, d].map(|entry| entry.rem_euclid(6));
    assert_eq!(residues, [1, 0, 0, 1]);
    let queries = QUERIES.examples();
    let asked = queries.iter().find(|one| one.name == "noncongruence-none");
    let asked = asked.expect("the query is among the examples");
    let symbol = LISTINGS.examples();
    let symbol = symbol.iter().find(|one| one.name == "noncongruence");
    let mut text = symbol
        .expect("the group is among the examples")
        .text
        .clone();
    text.extend(format!("1 0 0 1\n{a} {b} {c} {d}\n").bytes());
    assert_eq!(asked.text, text);
    assert_eq!(asked.expected, "refused 10 0\n");
}

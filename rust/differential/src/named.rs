//! `named_tables`, `named_symbol`, `named_query`, `named_signed_query` and the
//! wide forms of the last three: groups by family and N. Refusals 20 and 21; for
//! a query 8 and 9; 11 for the work space; for a symbol 11 for the result space and
//! then 16; for a query 16, 10, and then 11 for the word; for tables 11 for the
//! result spaces in their order.

use farey::calls;
use reference::congruence::named;
use reference::permutations::{Action, Imported, Rule};
use reference::random::matrices::{any_pair, congruent_pair, put_matrix_fault};
use reference::random::pairs::Pair;
use reference::random::Rng;
use reference::symbol::Symbol;
use reference::word::{check_matrices, pair_query, Found};
use reference::Refusal;

use crate::outcome::{Expected, Outcome};
use crate::query::{asked, Calls};
use crate::spaces::{work, Space};

/// A family's number and an N, mostly those of a group within the limits.
struct Name {
    family: u64,
    n: u64,
}

impl Name {
    fn any(rng: &mut Rng) -> Name {
        let name = |family, n: usize| Name {
            family,
            n: n as u64,
        };
        match rng.below(40) {
            // An index over the limit, or just below it.
            0 | 1 => name(1, 30 + rng.below(971)),
            2 => name(2, 12 + rng.below(989)),
            // Large indices, and entries over 10^9 by the rule.
            3 | 4 => name(0, 100 + rng.below(901)),
            5 => name(1, 20 + rng.below(60)),
            6 => name(2, 7 + rng.below(14)),
            // Out of range.
            7 | 8 => Name {
                family: rng.below(3) as u64,
                n: out_of_range(rng, 1_001),
            },
            9 | 10 => Name {
                family: out_of_range(rng, 3),
                n: rng.below(1_002) as u64,
            },
            11..=24 => name(0, 1 + rng.below(60)),
            25..=32 => name(1, 1 + rng.below(12)),
            _ => name(2, 1 + rng.below(6)),
        }
    }

    /// The group's tables, or refusals 20 and 21.
    fn pair(&self) -> Result<Pair, Refusal> {
        // What is over 2^63 is out of range as -1 is.
        let signed = |number: u64| i64::try_from(number).unwrap_or(-1);
        let (family, n) = named(signed(self.family), signed(self.n))?;
        Ok(family.pair(n))
    }

    fn action(&self) -> Result<Action, Refusal> {
        let Pair { s, r } = self.pair()?;
        Action::new(&s, &r)
    }

    /// The symbol of the tables by a rule, or refusal 16; before that 20 and 21.
    fn symbol(&self, rule: Rule) -> Result<Result<Imported, Refusal>, Refusal> {
        Ok(self.action()?.by_points(rule))
    }

    fn told(&self) -> String {
        format!("family {}, N {}", self.family, self.n)
    }
}

/// A number that is too large by one, by a power of two or by far; or for an N
/// 0.
fn out_of_range(rng: &mut Rng, first: u64) -> u64 {
    let by = rng.pick(&[0, 0, 1, 2, 9, (1 << 16) - 1, (1 << 32) - 1, 1 << 63]);
    match rng.below(8) {
        0 if first > 3 => 0,
        1 => u64::MAX - by % 10,
        2 => (1 << rng.pick(&[16, 32, 63])) + rng.below(3) as u64,
        _ => first + by,
    }
}

pub fn tables_case(rng: &mut Rng) -> Outcome {
    let name = Name::any(rng);
    let pair = name.pair();
    let needed = pair.as_ref().map_or(20, Pair::points);
    let mut work = work(rng);
    let [mut s, mut r] = [(); 2].map(|()| Space::around(rng, needed));
    let short = ["s", "r"]
        .into_iter()
        .zip([&s, &r].map(|space| space.enough(needed)))
        .find_map(|(name, enough)| Some((name, enough.err()?)));
    let expected = Expected::in_order(pair, &work, |pair| match short {
        Some((_, refusal)) => Err(refusal),
        None => Ok([&pair.s, &pair.r].map(|table| points(table))),
    });
    let came = calls::named_tables(name.family, name.n, work.write(), s.write(), r.write());
    let index = |[s, _]: &[Vec<u32>; 2]| s.len();
    let mut outcome = Outcome::with_work(&expected, index, came, &work);
    outcome.filled("s", &s, 0, expected.part(|tables| &tables[0]));
    outcome.filled("r", &r, 0, expected.part(|tables| &tables[1]));
    if let ("result", Some((name, _))) = (outcome.about, short) {
        outcome.about = name;
    }
    outcome.on(|| {
        let lengths = [work.length(), s.length(), r.length()];
        format!("{}, work, s, r {lengths:?}", name.told())
    })
}

fn points(table: &[i64]) -> Vec<u32> {
    table.iter().map(|&point| point as u32).collect()
}

pub fn symbol_case(rng: &mut Rng) -> Outcome {
    symbol_by(Rule::Leftmost, rng)
}

pub fn symbol_wide_case(rng: &mut Rng) -> Outcome {
    symbol_by(Rule::Wide, rng)
}

fn symbol_by(rule: Rule, rng: &mut Rng) -> Outcome {
    let name = Name::any(rng);
    let action = name.action();
    let needed = action.as_ref().map_or(20, Action::table_length);
    let mut work = work(rng);
    let mut out = Space::around(rng, needed);
    let expected = Expected::in_order(action, &work, |action| {
        out.enough(needed)?;
        Ok(action.by_points(rule)?.numbers().split_off(1))
    });
    let call = match rule {
        Rule::Leftmost => calls::named_symbol,
        Rule::Wide => calls::named_symbol_wide,
    };
    let came = call(name.family, name.n, work.write(), out.write());
    let vertices = |table: &Vec<i64>| (table.len() - 1) / 3;
    let mut outcome = Outcome::with_work(&expected, vertices, came, &work);
    outcome.filled("out", &out, 0, expected.part(Vec::as_slice));
    outcome.on(|| {
        let (work, out) = (work.length(), out.length());
        format!("{}, work {work}, out {out}", name.told())
    })
}

pub fn query_case(rng: &mut Rng) -> Outcome {
    query_by(Rule::Leftmost, false, rng)
}

pub fn query_wide_case(rng: &mut Rng) -> Outcome {
    query_by(Rule::Wide, false, rng)
}

pub fn signed_query_case(rng: &mut Rng) -> Outcome {
    query_by(Rule::Leftmost, true, rng)
}

pub fn signed_query_wide_case(rng: &mut Rng) -> Outcome {
    query_by(Rule::Wide, true, rng)
}

fn query_by(rule: Rule, signed: bool, rng: &mut Rng) -> Outcome {
    let name = Name::any(rng);
    let Name { family, n } = name;
    let pair = matrices(rng, &name);
    let made = name.symbol(rule);
    let judged = judged(&made, pair);
    let symbol = match &made {
        Ok(Ok(imported)) => Some(accepted(imported)),
        _ => None,
    };
    let calls = match rule {
        Rule::Leftmost => Calls {
            plain: &|a, b, work, out, start| calls::named_query(family, n, a, b, work, out, start),
            signed: &|a, b, work, out, start, sign| {
                calls::named_signed_query(family, n, a, b, work, out, start, sign)
            },
        },
        Rule::Wide => Calls {
            plain: &|a, b, work, out, start| {
                calls::named_query_wide(family, n, a, b, work, out, start)
            },
            signed: &|a, b, work, out, start, sign| {
                calls::named_signed_query_wide(family, n, a, b, work, out, start, sign)
            },
        },
    };
    let outcome = asked(rng, judged, symbol.as_ref(), pair, calls, signed);
    let told = outcome.input.clone();
    outcome.on(|| format!("{}, {told}", name.told()))
}

fn accepted(imported: &Imported) -> Symbol {
    Symbol::from_numbers(&imported.numbers()).unwrap_or_else(|r| panic!("{r}"))
}

/// A refusal that goes before the work space, or else what comes after it: the
/// word with its sign, or that the rule makes no symbol, or that there is no word.
fn judged(
    symbol: &Result<Result<Imported, Refusal>, Refusal>,
    [a, b]: [[i64; 4]; 2],
) -> Result<Result<Found, Refusal>, Refusal> {
    let made = symbol.as_ref().map_err(|&refusal| refusal)?;
    check_matrices(a, b)?;
    Ok(made
        .as_ref()
        .map_err(|&refusal| refusal)
        // In a space without end every word fits.
        .and_then(|imported| pair_query(&accepted(imported), a, b, usize::MAX, 0)))
}

/// A and B, congruent modulo N or nearly, now and then with one fault or two.
fn matrices(rng: &mut Rng, name: &Name) -> [[i64; 4]; 2] {
    let (a, b) = match (rng.below(20), name.n) {
        (0..=1, _) => {
            // The empty word.
            let (a, _) = any_pair(rng, false);
            let sign = rng.pick(&[1, -1]);
            (a, a.map(|entry| sign * entry))
        }
        (2..=17, 1..=1_000) => congruent_pair(rng, name.n as usize),
        _ => any_pair(rng, false),
    };
    let mut pair = [a[0], a[1], a[2], a[3], b[0], b[1], b[2], b[3]];
    if rng.chance(12) {
        for _ in 0..rng.pick(&[1, 1, 2]) {
            let fault = rng.pick(&[8, 9]);
            put_matrix_fault(rng, &mut pair, fault);
        }
    }
    let [a, b, c, d, e, f, g, h] = pair;
    [[a, b, c, d], [e, f, g, h]]
}

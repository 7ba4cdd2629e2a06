//! Figures of known groups, computed by SageMath, against the reference.

use reference::coset::Cosets;
use reference::symbol::Symbol;

const FIGURES: &str = include_str!("../data/symbols.txt");

fn numbers(field: &str) -> Vec<i64> {
    field
        .split_whitespace()
        .map(|piece| piece.parse().expect("the stored figures are numbers"))
        .collect()
}

#[test]
fn stored_figures() {
    let mut groups = 0;
    for line in FIGURES.lines().filter(|line| !line.starts_with('#')) {
        let fields: Vec<&str> = line.split('|').map(str::trim).collect();
        let [name, v, vertices, pairings, index, e2, e3, genus, widths] = fields[..] else {
            panic!("nine fields expected: {line}");
        };
        let table = [numbers(vertices), numbers(pairings)].concat();
        let symbol = Symbol::new(numbers(v)[0], &table).unwrap_or_else(|r| panic!("{name}: {r}"));
        let cosets = Cosets::new(&symbol);
        let mut found = cosets.widths();
        found.sort_unstable();
        let found: Vec<i64> = found.into_iter().map(|width| width as i64).collect();
        assert_eq!(
            vec![cosets.index() as i64],
            numbers(index),
            "index of {name}"
        );
        assert_eq!(vec![cosets.e2() as i64], numbers(e2), "e2 of {name}");
        assert_eq!(vec![cosets.e3() as i64], numbers(e3), "e3 of {name}");
        assert_eq!(
            vec![cosets.genus().unwrap() as i64],
            numbers(genus),
            "genus of {name}"
        );
        assert_eq!(found, numbers(widths), "widths of {name}");
        // The level of a congruence group whose name holds it.
        let named = name
            .strip_prefix("Gamma0(")
            .or(name.strip_prefix("Gamma1("))
            .or(name.strip_prefix("Gamma("));
        if let Some(level) = named.and_then(|rest| rest.strip_suffix(')')) {
            assert_eq!(
                cosets.level().unwrap().to_string(),
                level,
                "level of {name}"
            );
        }
        groups += 1;
    }
    assert_eq!(groups, 67);
}

/// The tables of Gamma0(N) and Gamma(N) hold for matrices whose membership can
/// be read off their entries.
#[test]
fn membership_by_congruence() {
    use reference::matrix::Matrix;
    use reference::random::{matrices::matrix, Rng};
    use reference::word::related;

    let mut rng = Rng::new(7);
    let mut inside = 0;
    for line in FIGURES.lines() {
        let (wide, rest) = match (line.strip_prefix("Gamma0("), line.strip_prefix("Gamma(")) {
            (Some(rest), _) => (true, rest),
            (_, Some(rest)) => (false, rest),
            _ => continue,
        };
        let fields: Vec<&str> = rest.split('|').collect();
        let level: i128 = fields[0].trim().trim_end_matches(')').parse().unwrap();
        let table = [numbers(fields[2]), numbers(fields[3])].concat();
        let symbol = Symbol::new(numbers(fields[1])[0], &table).unwrap();
        for _ in 0..25 {
            let (a, b) = (matrix(&mut rng), matrix(&mut rng));
            let x = b * a.inverse();
            let Matrix([p, q, r, s]) = x;
            let member = if wide {
                r % level == 0
            } else {
                let unit = |sign: i128| (p - sign) % level == 0 && (s - sign) % level == 0;
                q % level == 0 && r % level == 0 && (unit(1) || unit(-1))
            };
            assert_eq!(related(&symbol, a, b), member, "{x:?} in {rest}");
            inside += usize::from(member);
        }
    }
    assert!(inside > 50, "only {inside} members were drawn");
}

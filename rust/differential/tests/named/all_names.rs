//! The tables, symbols and figures of every group.

use super::*;

/// All names, those that are refused too.
fn names() -> impl Iterator<Item = (u64, u64)> {
    (0..4).flat_map(|family| (0..=1_001).map(move |n| (family, n)))
}

/// The tables of every group; a number over 1,000 or 0, another family, and an
/// index over the limit are refused, and change nothing.
#[test]
fn tables_of_all_names() {
    let mut met: BTreeMap<(u64, u64), usize> = BTreeMap::new();
    for (family, n) in names() {
        let name = format!("family {family}, N {n}");
        let expected = tables(family, n);
        let (mut work, mut s, mut r) = (old(calls::WORK + 1), old(3_067), old(3_067));
        let came = short(calls::named_tables(family, n, &mut work, &mut s, &mut r));
        assert_eq!(
            came,
            expected.as_ref().map(|[s, _]| s.len()).map_err(|&r| r)
        );
        match &expected {
            Ok([by_s, by_r]) => {
                for (space, table) in [(&s, by_s), (&r, by_r)] {
                    let (front, rest) = space.split_at(table.len());
                    assert_eq!(front, table, "{name}");
                    assert!(is_old(rest), "{name}");
                }
                assert!(is_zero(&work), "{name}");
            }
            Err(_) => {
                assert!(is_old(&s) && is_old(&r) && is_old(&work), "{name}");
            }
        }
        let number = expected.map_or_else(|(number, _)| number, |_| 0);
        *met.entry((family, number)).or_default() += 1;
    }
    // Of Γ1 and Γ those that `wide.rs` counts, and for each N = 1 and N = 2.
    assert_eq!((met[&(0, 0)], met[&(0, 20)]), (1_000, 2));
    assert_eq!(met[&(1, 0)] + met[&(2, 0)], 100 + 4);
    assert_eq!(met[&(1, 21)] + met[&(2, 21)], 2_000 - 104);
    assert_eq!((met[&(1, 20)], met[&(2, 20)], met[&(3, 20)]), (2, 2, 1_002));
    assert_eq!(met.len(), 9, "{met:?}");
}

/// The symbols of every group are those that the imports make of its tables. The
/// rule refuses 848 of them with 16, as many as in `wide.rs`, the wide rule
/// none.
#[test]
fn symbols_of_all_names() {
    let (mut groups, mut refused) = (0, 0);
    for (family, n) in names() {
        let name = format!("family {family}, N {n}");
        let mut work: Vec<u16> = old(calls::WORK);
        let mut out: Vec<i64> = old(calls::TABLE);
        let [s, r] = match tables(family, n) {
            Ok(tables) => tables,
            Err(refusal) => {
                for call in [calls::named_symbol, calls::named_symbol_wide] {
                    let came = short(call(family, n, &mut work, &mut out));
                    assert_eq!(came, Err(refusal), "{name}");
                    assert!(is_old(&work) && is_old(&out), "{name}");
                }
                continue;
            }
        };
        let length = calls::import_length(&s, &r).expect("a group's tables");
        let mut expected: Vec<i64> = old(calls::TABLE);
        let made = short(calls::import(&s, &r, &mut work, &mut expected));
        work.fill(OLD.into());
        let came = short(calls::named_symbol(family, n, &mut work, &mut out));
        assert_eq!(came, made, "{name}");
        assert_eq!(out, expected, "{name}");
        assert!(is_zero(&work), "{name}");
        match made {
            Ok(v) => assert_eq!(3 * v + 1, length, "{name}"),
            Err((number, _)) => {
                assert_eq!(number, 16, "{name}");
                refused += 1;
                // One number too short, and an entry over 10^9: 11 comes first.
                let mut less: Vec<i64> = old(length - 1);
                let came = short(calls::named_symbol(family, n, &mut work, &mut less));
                assert_eq!(came, Err((11, length)), "{name}");
                assert!(is_old(&less) && is_zero(&work), "{name}");
            }
        }

        let (mut out, mut expected): (Vec<i64>, Vec<i64>) = (old(calls::TABLE), old(calls::TABLE));
        let made = short(calls::import_wide(&s, &r, &mut work, &mut expected));
        work.fill(OLD.into());
        let came = short(calls::named_symbol_wide(family, n, &mut work, &mut out));
        assert_eq!(came.map(|v| 3 * v + 1), Ok(length), "{name}");
        assert_eq!(came, made, "{name}");
        assert_eq!(out, expected, "{name}");
        assert!(is_zero(&work), "{name}");
        groups += 1;
    }
    assert_eq!((groups, refused), (1_104, 778 + 70));
}

/// The groups of the stored figures by name: SageMath's index, elliptic counts,
/// genus and widths, and N for the level.
#[test]
fn stored_figures_by_name() {
    let families = [Family::Gamma0, Family::Gamma1, Family::Gamma];
    let mut groups = [0; 3];
    for line in FIGURES.lines().filter(|line| !line.starts_with('#')) {
        let fields: Vec<&str> = line.split('|').map(str::trim).collect();
        let [name, .., index, e2, e3, genus, widths] = fields[..] else {
            panic!("nine fields expected: {line}");
        };
        let Some((kind, n)) = name.strip_suffix(')').and_then(|name| name.split_once('(')) else {
            continue;
        };
        let found = Reckoned::ALL.iter().position(|one| one.name() == kind);
        let at = found.unwrap_or_else(|| panic!("no family {kind}"));
        let n: u64 = n.parse().expect("N is a number");
        let symbol = Symbol::named(families[at], n).unwrap_or_else(|r| panic!("{name}: {r}"));
        let figures = symbol.figures();
        let came = [figures.index, figures.e2, figures.e3].map(|figure| figure.to_string());
        assert_eq!(came, [index, e2, e3], "{name}");
        assert_eq!(figures.genus.unwrap().to_string(), genus, "{name}");
        assert_eq!(figures.level, Ok(n), "{name}");
        let mut found = symbol.widths();
        found.sort_unstable();
        let found: Vec<String> = found.iter().map(u32::to_string).collect();
        assert_eq!(found.join(" "), widths, "{name}");
        groups[at] += 1;
    }
    assert_eq!(groups.iter().sum::<usize>(), 65);
    assert!(groups.iter().all(|&count| count >= 4), "{groups:?}");
}

/// SageMath's figures of every group: it has as many as there are here, and the
/// level is N.
#[test]
fn figures_of_all_names() {
    let families = [Family::Gamma0, Family::Gamma1, Family::Gamma];
    let mut groups = 0;
    for line in ALL_FIGURES.lines().filter(|line| !line.starts_with('#')) {
        let fields: Vec<&str> = line.split(' ').collect();
        let found = Reckoned::ALL.iter().position(|one| one.name() == fields[0]);
        let family = families[found.unwrap_or_else(|| panic!("no family in {line}"))];
        let numbers: Vec<u64> = fields[1..].iter().map(|x| x.parse().unwrap()).collect();
        let [n, index, e2, e3, cusps, genus] = numbers[..] else {
            panic!("seven fields expected: {line}");
        };
        let symbol = Symbol::named(family, n).unwrap_or_else(|r| panic!("{line}: {r}"));
        let figures = symbol.figures();
        let counts = [figures.index, figures.e2, figures.e3, figures.cusps];
        let expected = [index, e2, e3, cusps].map(|figure| figure as usize);
        assert_eq!(counts, expected, "{line}");
        assert_eq!((figures.genus, figures.level), (Ok(genus), Ok(n)), "{line}");
        groups += 1;
    }
    assert_eq!(groups, 1_104);
}

//! The yardstick prints what the reference prints: a fast program that gave
//! other answers would be no measure.

use bench::inputs::inputs;
use bench::named::{named_symbol, named_symbol_wide, named_tables};
use bench::{plain_import, plain_import_wide, plain_listing, plain_named, plain_query};
use reference::congruence;
use reference::permutations::Rule;
use reference::random::drafts::{draft, draft_of_size};
use reference::random::faults::{faulty_text, poke, scratch, typed, TEXT_FAULTS};
use reference::random::pairs::rows_pair;
use reference::random::twins::second;
use reference::random::{import_case, listing_case, query_case, Rng};
use reference::sameness;
use reference::{import, import_wide, listing, named, query};

fn same(text: &[u8], plain: &[u8], reference: &str) {
    let start = &text[..text.len().min(500)];
    assert!(
        plain == reference.as_bytes(),
        "text: {}\nplain: {:.500}\nreference: {reference:.500}",
        start.escape_ascii(),
        String::from_utf8_lossy(plain)
    );
}

#[test]
fn listings() {
    for case in 0..3_000 {
        let text = listing_case(61, case);
        same(&text, &plain_listing(&text), &listing(&text));
    }
}

#[test]
fn queries() {
    for case in 0..3_000 {
        let text = query_case(62, case);
        same(&text, &plain_query(&text), &query(&text));
    }
}

#[test]
fn imports() {
    for case in 0..3_000 {
        let text = import_case(63, case);
        same(&text, &plain_import(&text), &import(&text));
        same(&text, &plain_import_wide(&text), &import_wide(&text));
    }
}

/// Rows of triangles, where the place of refusal 16 depends on the rule.
#[test]
fn deep_imports() {
    let mut rng = Rng::new(64);
    let mut refused = 0;
    for _ in 0..300 {
        let numbers = rows_pair(&mut rng).numbers();
        let pieces: Vec<String> = numbers.iter().map(i64::to_string).collect();
        let text = pieces.join(" ").into_bytes();
        same(&text, &plain_import(&text), &import(&text));
        let expected = import_wide(&text);
        same(&text, &plain_import_wide(&text), &expected);
        refused += usize::from(expected.starts_with("refused 16 "));
    }
    assert!(refused >= 100, "only {refused}");
}

/// Every family and every N: tables and both symbols.
#[test]
fn named_groups() {
    let mut groups = 0;
    for family in -1..=3 {
        for n in -1..=1_002 {
            let pair = match congruence::named(family, n) {
                Ok((family, n)) => family.pair(n),
                Err(refusal) => {
                    let came = named_tables(family, n).err();
                    let expected = (refusal.number, refusal.place as usize);
                    assert_eq!(came, Some(expected), "{family} {n}");
                    continue;
                }
            };
            let came = named_tables(family, n).expect("a group");
            let wide = |table: Vec<u16>| table.into_iter().map(i64::from).collect::<Vec<_>>();
            assert_eq!(
                (wide(came.s), wide(came.r)),
                (pair.s, pair.r),
                "{family} {n}"
            );
            // For each tenth group, and each small one, the symbols too.
            if n > 40 && n % 10 > 0 {
                continue;
            }
            for (rule, plain) in [
                (Rule::Leftmost, named_symbol as fn(i64, i64) -> _),
                (Rule::Wide, named_symbol_wide),
            ] {
                let expected = congruence::named_symbol(rule, family, n);
                let expected = expected.map_err(|r| (r.number, r.place as usize));
                let expected = expected.map(|made| {
                    let vertices = made.vertices.iter().flat_map(|&(a, b)| [a, b]);
                    (vertices.collect(), made.pairings)
                });
                assert_eq!(plain(family, n), expected, "{family} {n}");
            }
            groups += 1;
        }
    }
    assert!(groups >= 190, "only {groups}");
}

#[test]
fn names() {
    let mut rng = Rng::new(65);
    for _ in 0..500 {
        let numbers = [rng.range(-1, 3), rng.range(-2, 40)];
        let mut text = typed(&mut rng, &numbers).bytes;
        same(&text, &plain_named(&text), &named(&text));
        scratch(&mut rng, &mut text);
        same(&text, &plain_named(&text), &named(&text));
        for fault in TEXT_FAULTS {
            let (text, _) = faulty_text(&mut rng, &numbers, fault);
            same(&text, &plain_named(&text), &named(&text));
        }
    }
}

/// Whether two symbols generate the same subgroup, and the refusals.
#[test]
fn sameness() {
    let mut rng = Rng::new(66);
    let mut counts = [0; 3];
    for case in 0..2_000 {
        let one = match case {
            0..=1_499 => draft_of_size(&mut rng, 1 + case % 30),
            _ => draft(&mut rng),
        };
        let other = second(&mut rng, &one);
        let mut tables = [one.numbers(), other.numbers()];
        if rng.chance(10) {
            let numbers = &mut tables[rng.below(2)];
            poke(&mut rng, numbers);
        }
        let [one, other] = &tables;
        let expected = sameness::same(one[0], &one[1..], other[0], &other[1..]);
        let came = bench::same::same(one[0], &one[1..], other[0], &other[1..]);
        let by_tables = bench::same::same_by_tables(one[0], &one[1..], other[0], &other[1..]);
        assert_eq!(came, by_tables, "{one:?} {other:?}");
        let refused = |refusal: reference::Refusal| (refusal.number, refusal.place as usize);
        assert_eq!(came, expected.map_err(refused), "{one:?} {other:?}");
        counts[came.map_or(2, usize::from)] += 1;
    }
    assert!(counts.iter().all(|&count| count >= 100), "{counts:?}");
}

/// The texts to measure with are what their names say.
#[test]
fn measured_texts() {
    for input in inputs() {
        let text = input.text.as_bytes();
        let (plain, reference) = match input.name.split('-').next() {
            Some("listing") => (plain_listing(text), listing(text)),
            Some("query") => (plain_query(text), query(text)),
            Some("import_wide") => (plain_import_wide(text), import_wide(text)),
            Some("named") => (plain_named(text), named(text)),
            _ => (plain_import(text), import(text)),
        };
        same(text, &plain, &reference);
        let expected = match input.name {
            "listing-short.txt" => "index 3\n",
            "listing-1023.txt" => "index ",
            "query-short.txt" => "word + 2 1\n",
            "query-long.txt" => "refused 11 1000000\n",
            "query-near.txt" => "refused 11 ",
            "query-1023-word.txt" => "word + ",
            "query-1023-none.txt" => "refused 10 0\n",
            "import-short.txt" => "2\n0 1 1 1\n1 -2 1\n",
            "import-3066.txt" => "876\n",
            "import_wide-short.txt" => "2\n0 1 1 1\n1 -2 1\n",
            "import_wide-2592.txt" => "865\n",
            "import_wide-3066.txt" => "1023\n",
            "named-short.txt" => "2\n0 1 1 1\n1 -2 1\n",
            "named-2592.txt" => "865\n",
            "named-2880.txt" => "961\n",
            name => panic!("{name} isn't known here"),
        };
        assert!(
            reference.starts_with(expected),
            "{}: {reference:.80}",
            input.name
        );
    }
}

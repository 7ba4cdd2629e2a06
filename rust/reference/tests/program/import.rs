//! The import programs.

use super::*;

/// One of the two, and what the reference says in its place.
struct Importer {
    program: Program,
    import: fn(&[u8]) -> String,
    /// Whether it splits the side that has been open longest.
    wide: bool,
}

impl Importer {
    fn all() -> Vec<Importer> {
        let rows: [(&'static str, fn(&[u8]) -> String, bool); 2] = [
            ("import", import, false),
            ("import-wide", import_wide, true),
        ];
        rows.into_iter()
            .filter_map(|(job, import, wide)| {
                let program = Program::of(job)?;
                Some(Importer {
                    program,
                    import,
                    wide,
                })
            })
            .collect()
    }
}

/// The stored pairs: the program's symbol is that of the reference, and its
/// listing has the stored figures.
#[test]
fn import_of_stored_pairs() {
    for Importer {
        program, import, ..
    } in Importer::all()
    {
        let mut pairs = 0;
        for line in PAIRS.lines().filter(|line| !line.starts_with('#')) {
            let fields: Vec<&str> = line.split('|').map(str::trim).collect();
            let text = format!("{}\n{}\n{}\n", fields[0], fields[1], fields[2]);
            let came = program.output(text.as_bytes());
            let list = listing(came.as_bytes());
            assert_eq!(listed(&list, "index"), whole_numbers(fields[0]), "{line}");
            let elliptic = [whole_numbers(fields[3]), whole_numbers(fields[4])].concat();
            assert_eq!(listed(&list, "elliptic"), elliptic, "{line}");
            assert_eq!(listed(&list, "genus"), whole_numbers(fields[5]), "{line}");
            let mut widths = listed(&list, "widths");
            widths.sort_unstable();
            assert_eq!(widths, whole_numbers(fields[6]), "{line}");
            program.must_print(text.as_bytes(), &import(text.as_bytes()));
            pairs += 1;
        }
        assert_eq!(pairs, 120);
    }
}

/// Transitive pairs of every kind, from one point to 3,066.
#[test]
fn import_of_random_pairs() {
    for Importer {
        program,
        import,
        wide,
    } in Importer::all()
    {
        let mut rng = Rng::new(51);
        let mut counts = Counts::default();
        let mut largest = 0;
        for case in 0..2_200 {
            let sample = match case {
                // Every small size from dice.
                0..=599 => dice_pair(&mut rng, 1 + case % 60),
                600..=899 => symbol_pair(&mut rng, 1 + case % 60),
                900..=999 => zigzag_pair(&mut rng, 20 + case % 40),
                1_000..=1_059 => shallow_pair(&mut rng, 1_023 - case % 10),
                1_060..=1_119 => dice_pair(&mut rng, 3_066 - case % 7),
                1_120..=1_219 => rows_pair(&mut rng),
                _ => pair(&mut rng),
            };
            let text = typed(&mut rng, &sample.numbers()).bytes;
            let expected = import(&text);
            program.must_print(&text, &expected);
            if !expected.starts_with("refused") {
                largest = largest.max(sample.points());
            }
            counts.add(&expected);
        }
        let least = if wide { 1_900 } else { 1_500 };
        assert!(counts.answered() >= least, "{:?}", counts.0);
        counts.at_least(50, &["16"]);
        assert_eq!(largest, 3_066);
    }
}

/// Polygons whose last vertex has an entry of 10^9, or of one less or more. The
/// place of the refusal is that of the vertex, which is known beforehand.
#[test]
fn import_at_the_largest_entry() {
    for Importer {
        program, import, ..
    } in Importer::all()
    {
        let mut rng = Rng::new(54);
        let mut counts = Counts::default();
        for _ in 0..120 {
            let (num, den) = fraction_at_the_limit(&mut rng);
            let (sample, place) = pair_towards(&mut rng, num, den);
            let text = typed(&mut rng, &sample.numbers()).bytes;
            let expected = import(&text);
            if num.abs().max(den) > MAX_ENTRY {
                assert_eq!(expected, format!("refused 16 {place}\n"));
            }
            program.must_print(&text, &expected);
            counts.add(&expected);
        }
        counts.at_least(30, &["symbol", "16"]);
    }
}

#[test]
fn import_of_damaged_pairs() {
    for Importer {
        program, import, ..
    } in Importer::all()
    {
        let mut rng = Rng::new(52);
        let mut counts = Counts::default();
        let mut try_text = |text: &[u8], number: Option<u32>| {
            let expected = import(text);
            if let Some(number) = number {
                assert!(expected.starts_with(&format!("refused {number} ")));
            }
            program.must_print(text, &expected);
            counts.add(&expected);
        };
        for _ in 0..60 {
            for fault in PAIR_FAULTS {
                let mut numbers = pair(&mut rng).numbers();
                if put_pair_fault(&mut rng, &mut numbers, fault) {
                    try_text(&typed(&mut rng, &numbers).bytes, Some(fault));
                }
            }
            for fault in TEXT_FAULTS {
                let n = 1 + rng.below(60);
                let numbers = dice_pair(&mut rng, n).numbers();
                let (text, place) = faulty_text(&mut rng, &numbers, fault);
                assert_eq!(import(&text), format!("refused 19 {place}\n"));
                try_text(&text, Some(19));
            }
            let n = 1 + rng.below(60);
            let numbers = dice_pair(&mut rng, n).numbers();
            let mut text = typed(&mut rng, &numbers).bytes;
            scratch(&mut rng, &mut text);
            try_text(&text, None);
            try_text(&full_text(&mut rng, &numbers), None);
        }
        for case in 0..600 {
            try_text(&import_case(20_260_118, case), None);
        }
        counts.at_least(40, &["12", "13", "14", "15", "19"]);
        counts.at_least(20, &["16"]);
    }
}

/// Answers by hand.
#[test]
fn import_of_odd_texts() {
    for Importer {
        program, import, ..
    } in Importer::all()
    {
        for (text, expected) in [
            ("3\n1 0 2\n2 0 1\n", GAMMA0_2),
            ("3 1 0 2 2 0 1", GAMMA0_2),
            ("003\r\n1 -0 2\r\n2 0 1\r\n", GAMMA0_2),
            ("1 0 0", "1\n0 1\n-2 -3\n"),
            ("2 1 0 0 1", "1\n0 1\n-3 -3\n"),
            ("", "refused 19 0\n"),
            ("3 1 0 2 2 0", "refused 19 11\n"),
            ("3 1 0 2 2 0 1 1", "refused 19 14\n"),
            ("3 1 0 2 2 0 x", "refused 19 12\n"),
            ("3 1 0 2 2 0 +1", "refused 19 12\n"),
            ("3 1 0 2 2 0 1\t", "refused 19 12\n"),
            ("0", "refused 12 0\n"),
            ("0 1 2 3", "refused 12 0\n"),
            ("-3 1 0 2 2 0 1", "refused 12 0\n"),
            ("3067", "refused 12 0\n"),
            ("65539 1 0 2 2 0 1", "refused 12 0\n"),
            ("4294967299 1 0 2 2 0 1", "refused 12 0\n"),
            ("9223372036854775807", "refused 12 0\n"),
            ("9223372036854775808", "refused 19 0\n"),
            ("3067 x", "refused 19 5\n"),
            ("3066", "refused 19 4\n"),
            ("1 1 0", "refused 13 0\n"),
            ("1 0 1", "refused 13 0\n"),
            ("1 -1 0", "refused 13 0\n"),
            ("1 0 9223372036854775807", "refused 13 0\n"),
            ("1 -9223372036854775808 0", "refused 13 0\n"),
            ("2 0 0 5 5", "refused 13 1\n"),
            ("2 1 0 0 0", "refused 13 1\n"),
            ("2 65537 0 0 1", "refused 13 0\n"),
            ("2 4294967297 0 0 1", "refused 13 0\n"),
            ("2 1 0 0 4294967297", "refused 13 1\n"),
            ("2 1 0 1 0", "refused 14 0\n"),
            ("3 1 2 0 1 0 2", "refused 14 0\n"),
            ("3 0 2 1 0 2 1", "refused 14 1\n"),
            ("4 0 2 3 1 1 0 2 3", "refused 14 1\n"),
            ("2 0 1 0 1", "refused 15 1\n"),
            ("4 1 0 3 2 0 1 2 3", "refused 15 2\n"),
            ("4 0 2 1 3 0 2 3 1", "refused 15 1\n"),
        ] {
            assert_eq!(import(text.as_bytes()), expected, "by hand: {text}");
            program.must_print(text.as_bytes(), expected);
        }
    }
}

/// A symbol's tables, the symbol made from them, and that symbol's tables: both
/// programs together lead back to where they began.
#[test]
fn listing_and_import_there_and_back() {
    let Some(lister) = Program::of("listing") else {
        return;
    };
    for importer in Importer::all() {
        trips(&lister, &importer.program);
    }
}

/// The tables of S and R in a listing, as text.
fn tables(list: &str) -> (String, String) {
    let lines: Vec<&str> = list.lines().collect();
    let [.., s, r, _] = lines[..] else {
        panic!("no tables in {list}");
    };
    let part = |line: &str, name: &str| line.strip_prefix(name).map(str::to_string);
    let (s, r) = (part(s, "S "), part(r, "R "));
    (s.expect("the table of S"), r.expect("the table of R"))
}

fn trips(lister: &Program, importer: &Program) {
    let mut rng = Rng::new(53);
    let drafts = (0..250).map(|case| {
        let v = if case < 100 {
            1 + case % 50
        } else {
            size(&mut rng)
        };
        draft_of_size(&mut rng, v).numbers()
    });
    let stored = stored_groups().into_iter().map(|group| group.numbers);
    let mut trips = 0;
    for numbers in drafts.chain(stored) {
        let first = tables(&lister.output(three_lines(&numbers).as_bytes()));
        let index = first.0.split(' ').count();
        if index > 3_066 {
            continue;
        }
        let symbol = importer.output(format!("{index}\n{}\n{}\n", first.0, first.1).as_bytes());
        if symbol.starts_with("refused 16 ") {
            continue;
        }
        let second = tables(&lister.output(symbol.as_bytes()));
        assert_eq!(first, second, "{}", three_lines(&numbers));
        trips += 1;
    }
    assert!(trips >= 150, "only {trips} trips");
}

/// Congruence groups, their points named anew: the program prints the
/// reference's symbol, and the listing of that has the tables of the group.
#[test]
fn wide_import_of_congruence_groups() {
    let (Some(lister), Some(importer)) = (Program::of("listing"), Program::of("import-wide"))
    else {
        return;
    };
    let mut rng = Rng::new(55);
    let levels = (1..=30).chain([120, 126, 138, 495, 840, 960, 990, 997, 1_000]);
    let groups = levels.map(gamma0);
    let groups = groups.chain([
        gamma1(24),
        gamma1(67),
        gamma1(84),
        gamma(7),
        gamma(16),
        gamma(18),
    ]);
    for pair in groups {
        let numbers = renamed(&mut rng, &pair).numbers();
        let text = typed(&mut rng, &numbers).bytes;
        let symbol = import_wide(&text);
        importer.must_print(&text, &symbol);
        let line = |table: &[i64]| {
            let pieces: Vec<String> = table.iter().map(i64::to_string).collect();
            pieces.join(" ")
        };
        let (s, r) = tables(&lister.output(symbol.as_bytes()));
        assert_eq!((s, r), (line(&pair.s), line(&pair.r)));
    }
}

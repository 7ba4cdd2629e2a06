//! The plain sheet of pairs gives the reference's lines and letters.

use bench::sheet::sheet;
use reference::coset::Cosets;
use reference::random::drafts::draft_of_size;
use reference::random::matrices::{any_pair, found_pair, put_matrix_fault};
use reference::random::Rng;
use reference::sheet::{answers, line};
use reference::symbol::Symbol;

#[test]
fn lines_and_letters() {
    let mut rng = Rng::new(2_606);
    let mut met = [0; 12];
    for case in 0..300 {
        let draft = draft_of_size(&mut rng, 1 + case % 12);
        let numbers = draft.numbers();
        let symbol = Symbol::from_numbers(&numbers).expect("a symbol");
        let cosets = Cosets::new(&symbol);
        let mut entries = Vec::new();
        for _ in 0..rng.below(20) {
            let (a, b) = match rng.chance(60) {
                true => found_pair(&mut rng, &symbol, &cosets),
                false => any_pair(&mut rng, false),
            };
            let mut pair: [i64; 8] = [a, b].concat().try_into().expect("eight entries");
            if rng.chance(20) {
                let fault = rng.pick(&[8, 9]);
                put_matrix_fault(&mut rng, &mut pair, fault);
            }
            entries.extend(pair);
        }
        let space = rng.pick(&[0, 3, 20, 200, 100_000]);
        let mut out = vec![77; space];
        let lines = sheet(draft.v() as i64, &numbers[1..], &entries, &mut out).expect("a sheet");
        let expected = answers(&symbol, &entries, space);
        let mut left = vec![77; space];
        for (start, answer) in &expected {
            if let Ok(found) = answer {
                left[*start..][..found.letters.len()].copy_from_slice(&found.letters);
            }
        }
        let by_reference: Vec<_> = expected
            .iter()
            .map(|(s, answer)| line(*s, answer))
            .collect();
        assert_eq!((&lines, &out), (&by_reference, &left));
        for line in &lines {
            met[line[0] as usize] += 1;
        }
    }
    for number in [0, 8, 9, 10, 11] {
        assert!(met[number] >= 50, "{met:?}");
    }
}

/// Numbers of entries that are no sheet, before the symbol.
#[test]
fn bad_counts() {
    let table = [0, 1, 1, 1, 1, -2, 1];
    for (count, expected) in [
        (0, (1, 0)),
        (2_048, (1, 0)),
        (7, (11, 2_048)),
        (2_056, (11, 2_048)),
    ] {
        assert_eq!(sheet(0, &table, &vec![1; count], &mut []), Err(expected));
    }
}

//! Tables with a fault, and the refusals in their order.

use super::*;

/// A table with one of the faults 1 to 7, and its place.
fn faults() -> Vec<(usize, Vec<i64>, Refusal)> {
    let rows: [(usize, &[i64], u64, usize); 9] = [
        (0, &[], 1, 0),
        (1_024, &[0, 1, -3, -3], 1, 0),
        (2, &[0, 1, 1, 1, 1, -2], 2, 6),
        (2, &[0, 1, 1_000_000_001, 1, 1, -2, 1], 3, 2),
        (2, &[0, 1, 2, 1, 1, -2, 1], 4, 1),
        (2, &[1, 1, 2, 1, 1, -2, 1], 5, 0),
        (2, &[0, 1, 1, 1, 1, -4, 1], 6, 1),
        (2, &[0, 1, 1, 1, 1, 2, 1], 6, 1),
        (1, &[0, 1, -2, -2], 7, 0),
    ];
    let row = |(v, table, number, place): (usize, &[i64], u64, usize)| {
        (v, table.to_vec(), Refusal { number, place })
    };
    rows.into_iter().map(row).collect()
}

/// 1 to 7 of the first, then of the second, then the work space, which is touched
/// in no such case.
#[test]
fn refusals_in_order() {
    let (v, table) = (2, [0, 1, 1, 1, 1, -2, 1]);
    let short = calls::WORK - 1;
    let refused = |v: usize, t: &[i64], m: usize, u: &[i64], length: usize| {
        let mut work = vec![0xa5a5; length];
        let came = calls::same(v, t, m, u, &mut work);
        assert!(work.iter().all(|&number| number == 0xa5a5));
        came.expect_err("one of the tables, or the space, is at fault")
    };
    for (n, bad, refusal) in faults() {
        for length in [0, short, calls::WORK, calls::WORK + 1] {
            assert_eq!(refused(n, &bad, v, &table, length), refusal);
            assert_eq!(refused(v, &table, n, &bad, length), refusal);
            for (m, other, _) in faults() {
                assert_eq!(refused(n, &bad, m, &other, length), refusal);
            }
        }
    }
    let place = calls::WORK;
    for length in [0, 1, short] {
        let came = refused(v, &table, v, &table, length);
        assert_eq!(came, Refusal { number: 11, place });
        let came = refused(v, &table, 1, &[0, 1, -3, -3], length);
        assert_eq!(came, Refusal { number: 11, place });
    }
}

/// Damage to either table: the refusal is the reference's.
#[test]
fn damaged_tables() {
    let mut rng = Rng::new(75);
    let mut met: BTreeMap<u64, usize> = BTreeMap::new();
    for case in 0..200 {
        for fault in SYMBOL_FAULTS {
            let one = draft_of_size(&mut rng, 1 + case % 40);
            let other = second(&mut rng, &one);
            let mut tables = [one.numbers(), other.numbers()];
            let bad = rng.below(2);
            if !put_fault(&mut rng, &mut tables[bad], fault) {
                continue;
            }
            let expected = symbol::check(tables[bad][0], &tables[bad][1..]);
            let expected = expected.expect_err("a fault was put");
            let [one, other] = &tables;
            let mut work = vec![7; calls::WORK];
            let (v, m) = (one[0] as usize, other[0] as usize);
            let came = calls::same(v, &one[1..], m, &other[1..], &mut work);
            let came = came.expect_err("a fault was put");
            assert_eq!(came.number, expected.number.into());
            assert_eq!(came.place as u64, expected.place);
            assert!(work.iter().all(|&number| number == 7));
            *met.entry(came.number).or_default() += 1;
        }
    }
    assert_eq!(met.len(), SYMBOL_FAULTS.len(), "{met:?}");
    assert!(met.values().all(|&count| count >= 20), "{met:?}");
}

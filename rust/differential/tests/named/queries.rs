//! Words from their start place, and words exactly where the congruence holds.

use super::*;

/// A word stands from its start place on, and nothing else is changed.
#[test]
fn a_word_from_its_start_place() {
    // Γ0(2) has the generators (1 1; 0 1) and (1 -1; 2 -1), and (1 0; 2 1) is
    // the second times the first.
    let lower = [1, 0, 2, 1];
    for call in [calls::named_query, calls::named_query_wide] {
        let (mut work, mut out) = (old(calls::WORK), old(5));
        let came = short(call(0, 2, &ONE, &lower, &mut work, &mut out, 2));
        assert_eq!(came, Ok(2));
        assert_eq!(out, [9, 9, 2, 1, 9]);
        for start in [4, 5, 6, usize::MAX] {
            let mut out: Vec<i16> = old(5);
            let came = short(call(0, 2, &ONE, &lower, &mut work, &mut out, start));
            assert_eq!(came, Err((11, 2)));
            assert!(is_old(&out));
        }
    }
    // The same with the sign, from 1 and from -1 to it and to its negative.
    let negative = |matrix: [i64; 4]| matrix.map(|entry| -entry);
    for call in [calls::named_signed_query, calls::named_signed_query_wide] {
        for (a, b, expected) in [
            (ONE, lower, 1),
            (ONE, negative(lower), -1),
            (negative(ONE), lower, -1),
            (negative(ONE), negative(lower), 1),
        ] {
            let (mut work, mut out, mut sign) = (old(calls::WORK), old(5), 77);
            let came = short(call(0, 2, &a, &b, &mut work, &mut out, 2, &mut sign));
            assert_eq!((came, sign), (Ok(2), expected));
            assert_eq!(out, [9, 9, 2, 1, 9]);
            for start in [4, 5, 6, usize::MAX] {
                let (mut out, mut sign): (Vec<i16>, i64) = (old(5), 77);
                let came = short(call(0, 2, &a, &b, &mut work, &mut out, start, &mut sign));
                assert_eq!((came, sign), (Err((11, 2)), 77));
                assert!(is_old(&out));
            }
        }
    }
}

/// What was met of the queries on a family.
#[derive(Default, Debug)]
struct Met {
    words: usize,
    nones: usize,
    /// Refused with 16, by the rule alone.
    sixteen: usize,
    longest: usize,
    /// Words with a plus, and with a minus.
    signs: [usize; 2],
}

/// Matrices with entries up to 10^6: a word is found exactly when B A^-1 meets
/// the condition, and multiplied out it takes A to B, up to the sign that comes
/// with it.
#[test]
fn queries_by_congruence() {
    let mut rng = Rng::new(94);
    for (family, reckoned) in Reckoned::ALL.into_iter().enumerate() {
        let family = family as u64;
        let mut met = [Met::default(), Met::default()];
        for case in 0..1_500 {
            let n = match case % 3 {
                0 => 1 + rng.below(12),
                1 => 1 + rng.below(100),
                _ => 1 + rng.below(1_000),
            };
            if reckoned.index(n) > 3_066 {
                continue;
            }
            let (a, b) = match rng.below(10) {
                0 => any_pair(&mut rng, false),
                _ => congruent_pair(&mut rng, n),
            };
            let [a_matrix, b_matrix] = [a, b].map(Matrix::from_entries);
            let member = reckoned.contains(n, b_matrix * a_matrix.inverse());
            let told = format!("{reckoned:?} {n}, A {a:?}, B {b:?}");
            for (wide, met) in met.iter_mut().enumerate() {
                let (query, signed, symbol): (Query, SignedQuery, Named) = match wide {
                    0 => (
                        calls::named_query,
                        calls::named_signed_query,
                        calls::named_symbol,
                    ),
                    _ => (
                        calls::named_query_wide,
                        calls::named_signed_query_wide,
                        calls::named_symbol_wide,
                    ),
                };
                let mut work = old(calls::WORK);
                let level = n as u64;
                let asked = query(family, level, &a, &b, &mut work, &mut [], 0);
                let length = match short(asked) {
                    Ok(count) => count,
                    Err((11, length)) => length,
                    Err((10, 0)) => {
                        assert!(!member, "{told}");
                        met.nones += 1;
                        continue;
                    }
                    Err((16, _)) if wide == 0 => {
                        met.sixteen += 1;
                        continue;
                    }
                    refused => panic!("{told}: {refused:?}"),
                };
                assert!(member, "{told}");
                let mut out: Vec<i16> = old(length);
                let came = query(family, level, &a, &b, &mut work, &mut out, 0);
                assert_eq!(came, Ok(length), "{told}");
                let mut table: Vec<i64> = old(calls::TABLE);
                let made = symbol(family, level, &mut work, &mut table);
                let v = made.expect("the query has a symbol");
                let symbol = Reference::new(v as i64, &table[..3 * v + 1]).expect("a symbol");
                let (mut same, mut sign): (Vec<i16>, i64) = (old(length), 77);
                let came = signed(family, level, &a, &b, &mut work, &mut same, 0, &mut sign);
                assert_eq!((came, &same), (Ok(length), &out), "{told}");
                let expected = taken(&symbol, &out, a_matrix, b_matrix);
                assert_eq!(Some(sign), expected, "{told}: {out:?}");
                met.signs[usize::from(sign < 0)] += 1;
                met.words += 1;
                met.longest = met.longest.max(length);
            }
        }
        let [leftmost, wide] = met;
        assert!(
            wide.words >= 250 && wide.nones >= 150,
            "{reckoned:?}: {wide:?}"
        );
        assert!(
            leftmost.words >= 200 && leftmost.sixteen >= 10,
            "{reckoned:?}: {leftmost:?}"
        );
        assert!(wide.longest >= 1_000, "{reckoned:?}: {wide:?}");
        assert_eq!(wide.sixteen, 0);
        let signs = [leftmost.signs, wide.signs].concat();
        assert!(signs.iter().all(|&count| count >= 20), "{signs:?}");
        println!("{reckoned:?}: by the rule {leftmost:?}, by the wide rule {wide:?}");
    }
}

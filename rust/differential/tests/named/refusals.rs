//! The refusals in their order, and spaces that are too short.

use super::*;

/// What a query is asked: the family's number, N, A, B, and the lengths of the
/// work space and of the space for the word.
type Asked = (u64, u64, [i64; 4], [i64; 4], usize, usize);

/// Spaces that are one number short, those behind them shorter still, so that
/// the order shows; and spaces that are just long enough.
#[test]
fn short_spaces_in_their_order() {
    for (family, n) in [
        (0, 1),
        (0, 2),
        (0, 11),
        (0, 990),
        (1, 7),
        (1, 90),
        (2, 5),
        (2, 20),
    ] {
        let [by_s, by_r] = tables(family, n).expect("a small index");
        let index = by_s.len();
        let work_short = Err((11, calls::WORK));
        let ask = |work_len: usize, s_len: usize, r_len: usize| {
            let (mut work, mut s, mut r) = (old(work_len), old(s_len), old(r_len));
            let came = short(calls::named_tables(family, n, &mut work, &mut s, &mut r));
            if came.is_err() {
                assert!(is_old(&s) && is_old(&r));
            } else {
                assert_eq!((&s[..index], &r[..index]), (&by_s[..], &by_r[..]));
                assert!(is_old(&s[index..]) && is_old(&r[index..]));
            }
            match work_len < calls::WORK {
                true => assert!(is_old(&work)),
                false => assert!(is_zero(&work)),
            }
            came
        };
        let enough = calls::WORK;
        assert_eq!(ask(enough - 1, 0, 0), work_short);
        assert_eq!(ask(0, index, index), work_short);
        assert_eq!(ask(enough, index - 1, 0), Err((11, index)));
        assert_eq!(ask(enough, 0, index), Err((11, index)));
        assert_eq!(ask(enough, index, index - 1), Err((11, index)));
        assert_eq!(ask(enough, index, 0), Err((11, index)));
        assert_eq!(ask(enough, index, index), Ok(index));
        assert_eq!(ask(enough + 1, index + 3, index + 5), Ok(index));

        let ask = |work_len: usize, out_len: usize| {
            let mut work: Vec<u16> = old(work_len);
            let mut out: Vec<i64> = old(out_len);
            let came = short(calls::named_symbol_wide(family, n, &mut work, &mut out));
            match came {
                Ok(v) => assert!(is_old(&out[3 * v + 1..])),
                Err(_) => assert!(is_old(&out)),
            }
            match work_len < calls::WORK {
                true => assert!(is_old(&work)),
                false => assert!(is_zero(&work)),
            }
            came
        };
        let v = ask(enough, calls::TABLE).expect("the wide rule answers");
        assert_eq!(ask(enough - 1, 0), work_short);
        assert_eq!(ask(enough, 0), Err((11, 3 * v + 1)));
        assert_eq!(ask(enough, 3 * v), Err((11, 3 * v + 1)));
        assert_eq!(ask(enough, 3 * v + 1), Ok(v));
    }
}

/// 20 and 21 come before the spaces, which have no room at all here; and no
/// number is taken for its remainder.
#[test]
fn refused_names_without_spaces() {
    let mut names = vec![(2, 19, 21), (1, 1_000, 21), (0, 0, 20), (2, 1_001, 20)];
    for power in [16, 31, 32, 48, 63] {
        for family in 0..3 {
            names.push((family + (1 << power), 11, 20));
            names.push((family, 11 + (1 << power), 20));
        }
    }
    names.extend([(u64::MAX, 11, 20), (0, u64::MAX, 20)]);
    for (family, n, number) in names {
        let refused = Err((number, 0));
        let told = format!("family {family}, N {n}");
        let tables = calls::named_tables(family, n, &mut [], &mut [], &mut []);
        assert_eq!(short(tables), refused, "{told}");
        for symbol in [calls::named_symbol, calls::named_symbol_wide] {
            assert_eq!(
                short(symbol(family, n, &mut [], &mut [])),
                refused,
                "{told}"
            );
        }
        for query in [calls::named_query, calls::named_query_wide] {
            let asked = query(family, n, &ONE, &ONE, &mut [], &mut [], 0);
            assert_eq!(short(asked), refused, "{told}");
        }
    }
}

/// Γ0(120) by the rule: 16 comes behind the work space and behind the space for the
/// symbol, whose length is known though there is no symbol: the index is 288, and R
/// fixes no point.
#[test]
fn sixteen_in_its_place() {
    let ask = |work_len: usize, out_len: usize| {
        let mut work: Vec<u16> = old(work_len);
        let mut out: Vec<i64> = old(out_len);
        let came = short(calls::named_symbol(0, 120, &mut work, &mut out));
        assert!(is_old(&out));
        match work_len < calls::WORK {
            true => assert!(is_old(&work)),
            false => assert!(is_zero(&work)),
        }
        came
    };
    assert_eq!(ask(calls::WORK - 1, 0), Err((11, calls::WORK)));
    let length = 3 * (288 / 3 + 1) + 1;
    assert_eq!(ask(calls::WORK, 0), Err((11, length)));
    assert_eq!(ask(calls::WORK, length - 1), Err((11, length)));
    // The place is the one of the handbook's example, by the reference.
    assert_eq!(ask(calls::WORK, length), Err((16, 28)));
    assert_eq!(ask(calls::WORK, calls::TABLE), Err((16, 28)));
}

/// All faults at once, and then one after another made good: 20, 21, 8 and 9
/// with A before B, the work space, 16, 10, the space for the word.
#[test]
fn queries_are_refused_in_order() {
    let large = [1, 0, 0, 1_000_001];
    let double = [2, 0, 0, 1];
    // (1 0; 120 1) is in Γ0(120), (0 -1; 1 0) isn't.
    let (s, member) = ([0, -1, 1, 0], [1, 0, 120, 1]);
    let full = calls::WORK;
    let rows: [Asked; 13] = [
        (3, 0, large, large, 0, 0),
        (3, 120, large, large, 0, 0),
        (0, 0, large, large, 0, 0),
        (0, 1_001, large, large, 0, 0),
        (2, 19, large, large, 0, 0),
        (0, 120, large, large, 0, 0),
        (0, 120, double, large, 0, 0),
        (0, 120, double, double, 0, 0),
        (0, 120, ONE, double, full - 1, 0),
        (0, 120, ONE, s, full - 1, 0),
        (0, 120, ONE, s, full, 0),
        (0, 120, ONE, member, full, 0),
        (0, 120, ONE, ONE, full, 0),
    ];
    let before = [
        Err((20, 0)),
        Err((20, 0)),
        Err((20, 0)),
        Err((20, 0)),
        Err((21, 0)),
        Err((8, 3)),
        Err((8, 7)),
        Err((9, 0)),
        Err((9, 1)),
        Err((11, full)),
    ];
    // By the rule there is no symbol. By the wide rule there is; S has no word,
    // and the empty word needs no space.
    let leftmost = [Err((16, 28)); 3];
    let length = word(calls::named_query_wide, 0, 120, member).len();
    assert!(length > 0);
    let wide = [Err((10, 0)), Err((11, length)), Ok(0)];
    for (call, signed, behind) in [
        (
            calls::named_query as Query,
            calls::named_signed_query as SignedQuery,
            leftmost,
        ),
        (
            calls::named_query_wide,
            calls::named_signed_query_wide,
            wide,
        ),
    ] {
        let answers = before.iter().chain(&behind);
        for ((family, n, a, b, work_len, out_len), expected) in rows.into_iter().zip(answers) {
            let mut work: Vec<u16> = old(work_len);
            let mut out: Vec<i16> = old(out_len + 2);
            let lent = &mut out[..out_len];
            let came = short(call(family, n, &a, &b, &mut work, lent, 0));
            let told = format!("family {family}, N {n}, A {a:?}, B {b:?}, work {work_len}");
            assert_eq!(came, *expected, "{told}");
            assert!(is_old(&out), "{told}");
            match work_len < full {
                true => assert!(is_old(&work), "{told}"),
                false => assert!(is_zero(&work), "{told}"),
            }
            // With the sign, which a refusal leaves as it was.
            let mut work: Vec<u16> = old(work_len);
            let mut sign = 77;
            let lent = &mut out[..out_len];
            let came = short(signed(family, n, &a, &b, &mut work, lent, 0, &mut sign));
            assert_eq!(came, *expected, "{told}");
            assert_eq!(sign, if came.is_ok() { 1 } else { 77 }, "{told}");
            assert!(is_old(&out), "{told}");
        }
    }

    /// The word for a member, in a space that is long enough.
    fn word(call: Query, family: u64, n: u64, b: [i64; 4]) -> Vec<i16> {
        let (mut work, mut out) = (old(calls::WORK), old(5_000));
        let count = call(family, n, &ONE, &b, &mut work, &mut out, 0).expect("a word");
        out.truncate(count);
        out
    }
}

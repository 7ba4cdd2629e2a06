//! One matrix with entries up to 10^18: whether it is in Γ0(N), by its lower left
//! entry, its word multiplied out with every number exact, and input that is hostile.

use farey::{calls, Refusal};
use reference::random::Rng;

const MOST: i64 = 1_000_000_000_000_000_000;

/// The table of the symbol of Γ0(n), with its vertices.
fn gamma0(n: u64) -> (usize, Vec<i64>) {
    let (mut work, mut table) = (vec![0; calls::WORK], vec![0; calls::TABLE]);
    let v = calls::named_symbol_wide(0, n, &mut work, &mut table).expect("a symbol");
    table.truncate(3 * v + 1);
    (v, table)
}

/// (a b; c d) of determinant 1 from a and c, which are coprime, by Euclid's algorithm:
/// b and d are no larger than a and c.
fn completed(a: i64, c: i64) -> Option<[i64; 4]> {
    let (mut x, mut y) = ((a as i128, 1, 0), (c as i128, 0, 1));
    while y.0 != 0 {
        let q = x.0 / y.0;
        (x, y) = (y, (x.0 - q * y.0, x.1 - q * y.1, x.2 - q * y.2));
    }
    // x.0 is a x.1 + c x.2
    let (d, b) = (x.1 * x.0, -x.2 * x.0);
    (x.0.abs() == 1 && a as i128 * d - b * c as i128 == 1).then(|| [a, b as i64, c, d as i64])
}

fn times(x: [i128; 4], y: [i128; 4]) -> [i128; 4] {
    let dot = |i: usize, j: usize| x[i] * y[j] + x[i + 1] * y[j + 2];
    [dot(0, 0), dot(0, 1), dot(2, 0), dot(2, 1)]
}

fn wide(m: [i64; 4]) -> [i128; 4] {
    m.map(i128::from)
}

/// Whether matrices with entries of every size are in Γ0(N), and their words.
#[test]
fn members_of_gamma0() {
    let mut rng = Rng::new(2_818);
    let (mut work, mut out) = (vec![7; calls::WORK], vec![0; 4_000]);
    let (mut met, mut fitting) = ([0; 2], 0);
    for n in [1, 2, 3, 5, 11, 12, 37, 48, 210] {
        let (v, t) = gamma0(n);
        let mut rows = vec![0; calls::GENERATORS];
        let count = calls::generators(v, &t, &mut work, &mut rows).expect("a symbol");
        let generators: Vec<[i64; 4]> =
            rows[..5 * count].chunks_exact(5).map(|r| [r[1], r[2], r[3], r[4]]).collect();
        for case in 0..400 {
            let size = [10, 1_000, 1_000_000, MOST as u64 / n / 2, MOST as u64][case % 5];
            let step = if case % 2 == 0 { n as i64 } else { 1 };
            let a = rng.below(size as usize) as i64 + 1;
            let c = rng.below((size / step as u64 + 1) as usize) as i64 * step * [1, -1][case / 5 % 2];
            let Some(m) = completed(a, c) else { continue };
            assert!(m.iter().all(|x| x.abs() <= MOST));
            let member = c % n as i64 == 0;
            assert_eq!(calls::contains_matrix(v, &t, &m, &mut work), Ok(member), "{n} {m:?}");
            assert!(work.iter().all(|&x| x == 0));
            met[member as usize] += 1;
            let mut sign = 7;
            let told = calls::signed_matrix_word(v, &t, &m, &mut work, &mut out, 3, &mut sign);
            match told {
                Ok(letters) => {
                    assert!(member);
                    let mut product = [1, 0, 0, 1];
                    for &j in &out[3..3 + letters] {
                        let [a, b, c, d] = wide(generators[j.unsigned_abs() as usize - 1]);
                        let letter = if j > 0 { [a, b, c, d] } else { [d, -b, -c, a] };
                        product = times(product, letter);
                    }
                    assert_eq!(product, wide(m).map(|x| sign as i128 * x), "{n} {m:?}");
                    fitting += 1;
                }
                Err(Refusal { number: 10, place: 0 }) => assert!(!member),
                Err(Refusal { number: 11, place }) => assert!(member && place > out.len() - 3),
                Err(other) => panic!("{n} {m:?}: {other:?}"),
            }
        }
    }
    assert!(met.iter().all(|&x| x > 500) && fitting > 300, "{met:?} {fitting}");
}

/// Lengths are told in full: T to the power k has k letters where T is a generator, and
/// two for each T, but for its ends, in the whole group.
#[test]
fn lengths_in_full() {
    let (mut work, mut out) = (vec![7; calls::WORK], [5; 3]);
    let (v, t) = gamma0(11);
    for k in [4, 1_000_001, 1 << 32, (1 << 32) + 1, MOST - 1, MOST] {
        for m in [[1, k, 0, 1], [-1, k, 0, -1], [1, -k, 0, 1]] {
            let told = calls::matrix_word(v, &t, &m, &mut work, &mut out, 0);
            assert_eq!(told, Err(Refusal { number: 11, place: k as usize }));
        }
    }
    let (v, t) = gamma0(1);
    let told = calls::matrix_word(v, &t, &[1, MOST, 0, 1], &mut work, &mut out, 0);
    let Err(Refusal { number: 11, place }) = told else { panic!("{told:?}") };
    assert!((2 * MOST - 2..=2 * MOST + 2).contains(&(place as i64)) && place > 1 << 60);
    assert_eq!(out, [5; 3]);
}

/// Entries beyond the bound, determinants that are 1 modulo 2^64 only, short spaces.
#[test]
fn hostile_input() {
    let (v, t) = gamma0(2);
    let mut work = vec![7; calls::WORK];
    let mut ask = |m: [i64; 4]| {
        let (mut out, mut sign) = ([9; 4], 9);
        let word = calls::signed_matrix_word(v, &t, &m, &mut work, &mut out, 1, &mut sign);
        let member = calls::contains_matrix(v, &t, &m, &mut work);
        if let Err(refusal) = word {
            assert_eq!((out, sign), ([9; 4], 9));
            if refusal.number != 10 && refusal.number != 11 {
                assert_eq!(member, Err(refusal));
            }
        }
        word.map(|_| 0).map_err(|refusal| (refusal.number, refusal.place))
    };
    for place in 0..4 {
        for x in [i64::MIN, i64::MIN + 1, -MOST - 1, MOST + 1, i64::MAX] {
            let mut m = [1, 0, 0, 1];
            m[place] = x;
            assert_eq!(ask(m), Err((28, place)));
            // the first one counts
            m[3] = i64::MIN;
            assert_eq!(ask(m), Err((28, place)));
        }
    }
    // a d - b c is 1 modulo 2^32 and 2^64, and not 1
    for m in [
        [1 << 32, 0, 1, 1 << 32],
        [(1 << 32) + 1, 1 << 32, 1 << 32, (1 << 32) + 1],
        [(1 << 59) + 1, 0, 0, (1 << 59) + 1],
        [(1 << 32) + 1, 0, 7, 1 - (1 << 32)],
        [MOST, MOST, MOST, MOST],
        [MOST, -MOST, MOST, MOST],
        [-MOST, MOST - 1, MOST - 1, -MOST],
        [0, 0, 0, 0],
        [0, 1, 1, 0],
        [1, 0, 0, -1],
        [-1, 0, 0, 1],
    ] {
        assert_eq!(ask(m), Err((9, 0)), "{m:?}");
    }
    // a d is b c + 1 with products of 120 bits, in each pair of signs
    let m = completed(999_999_999_999_999_989, 999_999_999_999_999_988).expect("coprime");
    for m in [m, m.map(|x| -x), [m[0], -m[1], -m[2], m[3]], [-m[0], m[1], m[2], -m[3]]] {
        assert!(matches!(ask(m), Ok(_) | Err((11, _))), "{m:?}");
        for i in 0..4 {
            let mut near = m;
            near[i] += 1;
            assert_eq!(ask(near), Err((9, 0)), "{near:?}");
        }
    }
    for m in [[0, -1, 1, 0], [0, 1, -1, 0], [0, 1, -1, MOST], [0, -1, 1, -MOST]] {
        assert!(matches!(ask(m), Ok(_) | Err((10 | 11, _))), "{m:?}");
    }
    let one = [1, 0, 0, 1];
    let short = Err(Refusal { number: 11, place: calls::WORK });
    let mut work = vec![7; calls::WORK - 1];
    assert_eq!(calls::contains_matrix(v, &t, &one, &mut work), short);
    assert_eq!(calls::matrix_word(v, &t, &one, &mut work, &mut [], 0), short.map(|_: bool| 0));
    assert!(work.iter().all(|&x| x == 7));
    let mut work = vec![7; calls::WORK];
    // the start place is past the end: even the empty word has no room
    let told = calls::matrix_word(v, &t, &one, &mut work, &mut [4; 2], 3);
    assert_eq!(told, Err(Refusal { number: 11, place: 0 }));
    assert_eq!(calls::matrix_word(v, &t, &one, &mut work, &mut [4; 2], 2), Ok(0));
}

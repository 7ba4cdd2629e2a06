//! The sign of a word, by the engine's own generators and with every number
//! exact: the product of the letters times A is the sign times B.

use farey::calls;
use reference::coset::Cosets;
use reference::random::drafts::{draft_of_size, Draft};
use reference::random::matrices::found_pair;
use reference::random::Rng;
use reference::symbol::Symbol;

const ONE: [i64; 4] = [1, 0, 0, 1];

/// A symbol as it is lent, and its generators as the library gives them.
struct Group {
    v: usize,
    table: Vec<i64>,
    /// Kind (1 free, 2 even, 3 odd) and matrix of each.
    generators: Vec<(i64, [i64; 4])>,
}

impl Group {
    fn new(draft: &Draft) -> Group {
        let (v, table) = (draft.v(), draft.numbers()[1..].to_vec());
        let (mut work, mut out) = (vec![0; calls::WORK], vec![0; calls::GENERATORS]);
        let count = calls::generators(v, &table, &mut work, &mut out).expect("a symbol");
        let rows = out[..5 * count].chunks_exact(5);
        Group {
            v,
            table,
            generators: rows
                .map(|row| (row[0], [row[1], row[2], row[3], row[4]]))
                .collect(),
        }
    }

    /// The word and its sign, by the call that gives both; the other call gives
    /// the same word, and before that its length.
    fn word(&self, a: [i64; 4], b: [i64; 4]) -> (i64, Vec<i16>) {
        let (mut work, mut sign) = (vec![0; calls::WORK], 77);
        let (v, t) = (self.v, &self.table[..]);
        let length = match calls::query(v, t, &a, &b, &mut work, &mut [], 0) {
            Ok(_) => 0,
            Err(refusal) if refusal.number == 11 => refusal.place,
            Err(refusal) => panic!("{refusal}: {a:?} {b:?} in {t:?}"),
        };
        let (mut out, mut other) = (vec![0; length], vec![0; length]);
        let came = calls::signed_query(v, t, &a, &b, &mut work, &mut out, 0, &mut sign);
        assert_eq!(came, Ok(length));
        let came = calls::query(v, t, &a, &b, &mut work, &mut other, 0);
        assert_eq!((came, &other), (Ok(length), &out));
        (sign, out)
    }

    /// The product of the letters times a, in 128 bits; `None` where a number on
    /// the way doesn't fit.
    fn product(&self, word: &[i16], a: [i64; 4]) -> Option<[i128; 4]> {
        word.iter().rev().try_fold(a.map(i128::from), |right, &j| {
            let (_, matrix) = self.generators[usize::from(j.unsigned_abs()) - 1];
            let [a, b, c, d] = matrix.map(i128::from);
            let [a, b, c, d] = if j > 0 { [a, b, c, d] } else { [d, -b, -c, a] };
            let [e, f, g, h] = right;
            let dot = |x: i128, y: i128, z: i128, w: i128| {
                x.checked_mul(y)?.checked_add(z.checked_mul(w)?)
            };
            Some([
                dot(a, e, b, g)?,
                dot(a, f, b, h)?,
                dot(c, e, d, g)?,
                dot(c, f, d, h)?,
            ])
        })
    }
}

/// Symbols of few vertices, turned starts, one vertex and odd last sides among
/// them: each word that is found, multiplied out.
#[test]
fn words_multiplied_out() {
    let mut rng = Rng::new(2_605);
    // Words by their sign, for either start of the walk.
    let mut met = [[0; 2]; 2];
    for case in 0..1_200 {
        let draft = draft_of_size(&mut rng, 1 + case % 9);
        let group = Group::new(&draft);
        let symbol = Symbol::from_numbers(&draft.numbers()).expect("a symbol");
        let cosets = Cosets::new(&symbol);
        for _ in 0..4 {
            let (a, b) = found_pair(&mut rng, &symbol, &cosets);
            let (sign, word) = group.word(a, b);
            let product = group.product(&word, a).expect("small numbers");
            assert_eq!(product, b.map(|entry| i128::from(sign * entry)));
            // The negative of either has the same word and the other sign, and so
            // has the way back, read as the inverse.
            let negative = |matrix: [i64; 4]| matrix.map(|entry| -entry);
            assert_eq!(group.word(negative(a), b), (-sign, word.clone()));
            assert_eq!(group.word(a, negative(b)), (-sign, word.clone()));
            assert_eq!(group.word(negative(a), negative(b)), (sign, word));
            let (back, word) = group.word(b, a);
            let product = group.product(&word, b).expect("small numbers");
            assert_eq!(product, a.map(|entry| i128::from(back * entry)));
            met[usize::from(turned(&draft))][usize::from(sign < 0)] += 1;
        }
    }
    assert!(met.iter().flatten().all(|&count| count >= 150), "{met:?}");
}

/// Whether the last side starts at 0/1 and isn't odd.
fn turned(draft: &Draft) -> bool {
    draft.vertices.last() == Some(&(0, 1)) && draft.pairings.last() != Some(&-3)
}

/// Generator j is the word j with a plus, and the inverse is -j with a plus; but
/// of an even generator, whose square is -1, it is j with a minus.
#[test]
fn generators_and_inverses() {
    let mut rng = Rng::new(2_606);
    let mut met = [0; 4];
    for case in 0..600 {
        let group = Group::new(&draft_of_size(&mut rng, 1 + case % 40));
        assert_eq!(group.word(ONE, ONE), (1, vec![]));
        assert_eq!(group.word(ONE, [-1, 0, 0, -1]), (-1, vec![]));
        for (j, &(kind, matrix)) in (1..).zip(&group.generators) {
            if matrix.iter().any(|entry| entry.abs() > 1_000_000) {
                continue;
            }
            assert_eq!(group.word(ONE, matrix), (1, vec![j]));
            assert_eq!(group.word(ONE, matrix.map(|entry| -entry)), (-1, vec![j]));
            let inverse = match kind {
                2 => (-1, vec![j]),
                _ => (1, vec![-j]),
            };
            assert_eq!(group.word(matrix, ONE), inverse);
            met[kind as usize] += 1;
        }
    }
    assert!(met[1..].iter().all(|&count| count >= 500), "{met:?}");
}

/// Refusals of every kind leave the sign as it was.
#[test]
fn refusals_leave_the_sign() {
    let table = [0, 1, 1, 1, 1, -2, 1];
    let (t, s) = ([1, 1, 0, 1], [0, -1, 1, 0]);
    let full = calls::WORK;
    let rows = [
        (1, ONE, t, full, 9, 0, (2, 7)),
        (2, [1, 0, 0, 1_000_001], t, full, 9, 0, (8, 3)),
        (2, ONE, [2, 0, 0, 1], full, 9, 0, (9, 1)),
        (2, ONE, t, full - 1, 9, 0, (11, full)),
        (2, ONE, s, full, 9, 0, (10, 0)),
        (2, ONE, t, full, 0, 0, (11, 1)),
        (2, ONE, t, full, 9, 9, (11, 1)),
        (2, ONE, ONE, full, 9, 10, (11, 0)),
    ];
    for (v, a, b, work_len, len, start, expected) in rows {
        for before in [77, 0, -1, i64::MIN] {
            let (mut work, mut out, mut sign) = (vec![5; work_len], vec![6; len], before);
            let came =
                calls::signed_query(v, &table, &a, &b, &mut work, &mut out, start, &mut sign);
            let refusal = came.expect_err("a refusal");
            assert_eq!((refusal.number, refusal.place), expected);
            assert_eq!((sign, out), (before, vec![6; len]));
        }
    }
}

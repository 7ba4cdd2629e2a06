//! A sheet of pairs by hand: the order of its refusals, what each line says, what
//! is left; and full sheets beside single queries.

use differential::sheet::single_queries;
use differential::spaces::Space;
use differential::symbols::Lent;
use farey::{calls, Refusal};
use reference::coset::Cosets;
use reference::random::drafts::draft_of_size;
use reference::random::matrices::{any_pair, found_pair};
use reference::random::Rng;
use reference::symbol::Symbol;

/// Γ0(2).
const TABLE: [i64; 7] = [0, 1, 1, 1, 1, -2, 1];
const ONE: [i64; 4] = [1, 0, 0, 1];
const T: [i64; 4] = [1, 1, 0, 1];
const S: [i64; 4] = [0, -1, 1, 0];
const LOWER: [i64; 4] = [1, 0, 2, 1];

/// Entries of pairs from the identity.
fn from_one(to: &[[i64; 4]]) -> Vec<i64> {
    to.iter().flat_map(|&b| [ONE, b]).flatten().collect()
}

/// A call on spaces of these lengths, and what it leaves.
struct Asked {
    came: Result<usize, Refusal>,
    work: Vec<u16>,
    lines: Vec<i64>,
    out: Vec<i16>,
}

fn asked(v: usize, table: &[i64], p: &[i64], work: usize, lines: usize, out: usize) -> Asked {
    let (mut work, mut lines, mut out) = (vec![5; work], vec![6; lines], vec![7; out]);
    let came = calls::sheet(v, table, p, &mut work, &mut lines, &mut out);
    Asked {
        came,
        work,
        lines,
        out,
    }
}

/// v, table, entries, lengths of work space and line table, and the refusal.
type Row<'a> = (usize, &'a [i64], &'a [i64], usize, usize, (u64, usize));

/// Each refusal of the whole sheet, with every later fault there too. Behind the
/// work space's length it is all zero, and lines and letters are never touched.
#[test]
fn refusals_in_order() {
    let sound = from_one(&[T, LOWER]);
    let odd = &sound[..15];
    let many = from_one(&[T; 257]);
    let full = calls::WORK;
    let unpaired = [0, 1, 1, 1, 1, -2, 2];
    let entries = (11, 2_048);
    let rows: [Row; 13] = [
        (0, &TABLE, odd, 0, 0, entries),
        (2, &TABLE, odd, full, 8, entries),
        (2, &TABLE, &sound[..1], full, 8, entries),
        (2, &TABLE, &sound[..12], full, 8, entries),
        (0, &TABLE, &many, 0, 0, entries),
        (2, &TABLE, &many, full, 2_000, entries),
        (0, &TABLE, &sound, 0, 0, (1, 0)),
        (1, &TABLE, &sound, 0, 0, (2, 7)),
        (2, &unpaired, &sound, 0, 0, (6, 0)),
        (2, &TABLE, &sound, 0, 0, (11, full)),
        (2, &TABLE, &sound, full - 1, 7, (11, full)),
        (2, &TABLE, &sound, full, 7, (11, 2)),
        (2, &TABLE, &many[..2_048], full + 3, 1_023, (11, 256)),
    ];
    for (v, table, p, work, lines, (number, place)) in rows {
        for out in [0, 20] {
            let left = asked(v, table, p, work, lines, out);
            assert_eq!(left.came, Err(Refusal { number, place }));
            let past = work >= full && p.len() % 8 == 0 && p.len() <= 2_048 && v == 2;
            let zero = past && table == TABLE;
            assert_eq!(left.work, vec![if zero { 0 } else { 5 }; work]);
            assert_eq!(left.lines, vec![6; lines]);
            assert_eq!(left.out, vec![7; out]);
        }
    }
}

/// Words, none, refusals 8, 9 and 11: a pair that is refused uses no word space, and
/// one that has no room doesn't keep the next from having it.
#[test]
fn lines_and_letters() {
    let mut p = from_one(&[LOWER, S, [2, 0, 0, 1], [-1, -1, 0, -1]]);
    p.extend([1, 0, 0, 1_000_001, 1, 0, 0, 1]);
    p.extend(from_one(&[
        [1, 5, 0, 1],
        ONE,
        T,
        [1, 2, 0, 1],
        [-1, 0, 0, -1],
    ]));
    let left = asked(2, &TABLE, &p, calls::WORK, 43, 5);
    assert_eq!(left.came, Ok(10));
    let lines = [
        [0, 0, 2, 1],
        [10, 0, 0, 0],
        [9, 1, 0, 0],
        [0, 2, 1, -1],
        [8, 3, 0, 0],
        [11, 5, 0, 0],
        [0, 3, 0, 1],
        [0, 3, 1, 1],
        [11, 2, 0, 0],
        [0, 4, 0, -1],
    ];
    assert_eq!(left.lines, [&lines.concat()[..], &[6; 3]].concat());
    assert_eq!(left.out, [2, 1, 1, 1, 7]);
    assert!(left.work.iter().all(|&number| number == 0));
    // Without any letter: empty words alone, and the lengths of the others.
    let left = asked(2, &TABLE, &p, calls::WORK, 40, 0);
    assert_eq!(left.came, Ok(10));
    let firsts: Vec<i64> = left.lines.chunks(4).map(|line| line[0]).collect();
    assert_eq!(firsts, [11, 10, 9, 11, 8, 11, 0, 11, 11, 0]);
    // No pair at all.
    let left = asked(2, &TABLE, &[], calls::WORK, 3, 1);
    assert_eq!(
        (left.came, left.lines, left.out),
        (Ok(0), vec![6; 3], vec![7])
    );
    assert!(left.work.iter().all(|&number| number == 0));
}

/// Full sheets on symbols of every size: just enough letters, too few, and none.
#[test]
fn full_sheets_are_single_queries() {
    let mut rng = Rng::new(606);
    for size in [1, 2, 3, 7, 40, 300, 1_023] {
        let draft = draft_of_size(&mut rng, size);
        let numbers = draft.numbers();
        let symbol = Symbol::from_numbers(&numbers).expect("a symbol");
        let cosets = Cosets::new(&symbol);
        let mut p = Vec::new();
        while p.len() < 8 * calls::SHEET {
            let (a, b) = match rng.chance(75) {
                true => found_pair(&mut rng, &symbol, &cosets),
                false => any_pair(&mut rng, false),
            };
            p.extend([a, b].concat());
        }
        let lent = Lent {
            v: draft.v(),
            table: Space::holding(&mut rng, &numbers[1..]),
        };
        let lengths = asked(lent.v, &numbers[1..], &p, calls::WORK, 1_024, 0);
        let rows = lengths.lines.chunks(4);
        let all: i64 = rows.filter(|row| row[0] == 11).map(|row| row[1]).sum();
        let all = all as usize;
        for space in [all, all.saturating_sub(1), all / 2, all / 10, all + 9] {
            let mut out = Space::of_length(&mut rng, space);
            let (lines, after) = single_queries(&lent, &p, out.clone());
            let (mut work, mut table) = (vec![3; calls::WORK], vec![0; 1_024]);
            let t = lent.table.read();
            let came = calls::sheet(lent.v, t, &p, &mut work, &mut table, out.write());
            assert_eq!(came, Ok(256));
            assert_eq!(table, lines);
            assert!(out.same(&after), "size {size}, {space} letters");
            assert!(work.iter().all(|&number| number == 0));
            let short = table.chunks(4).any(|line| line[0] == 11);
            assert_eq!(short, space < all);
        }
    }
}

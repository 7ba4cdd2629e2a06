//! Entries near 10^9, which rule is refused where, and space for the result.

use super::*;

/// A row of triangles that turns by turns: with few splits it is imported, and
/// past 43 of them an entry passes 10^9. No rule helps: one side is open at a
/// time.
#[test]
fn fibonacci_entries() {
    let mut rng = Rng::new(77);
    for splits in 20..80 {
        let pair = zigzag_pair(&mut rng, splits);
        for rule in RULES {
            let made = check_forms(rule, &pair);
            if splits <= 36 {
                assert!(made, "{splits} splits stay below 10^9");
            }
            if splits >= 50 {
                assert!(!made, "{splits} splits don't");
            }
        }
    }
}

/// Two rows: one goes left along the integers from 0, the other turns by turns
/// from 1 to infinity, all sides even or odd. The 43rd split of the second row
/// would be at 1134903170/701408733, two Fibonacci numbers. Leftmost first, the
/// first row is at its end by then; by the wide rule it has had as many splits
/// as the second, and this one. Left of the open side of the second row lie the
/// sides of the first, one more than its splits; the side from 0 to 1; and 21
/// sides of the second row.
#[test]
fn two_rows_by_turns() {
    let mut rng = Rng::new(81);
    for first in [0, 1, 2, 10, 41, 42, 43, 44, 45, 100, 600] {
        for second in [42, 43, 44, 80] {
            let even = rng.below(101);
            let mut side = || match rng.chance(even) {
                true => Tree::Even,
                false => Tree::Odd,
            };
            let integers = Tree::row((0..first).map(|_| true), &mut side);
            let by_turns = Tree::row((0..second).map(|step| step % 2 == 0), &mut side);
            let trees = [integers, side(), by_turns];
            let action = action(&tree_pair(&mut rng, trees));
            for (rule, splits) in [(Rule::Leftmost, first), (Rule::Wide, first.min(43))] {
                let answer = action.by_points(rule);
                if second < 43 {
                    let imported = answer.unwrap_or_else(|r| panic!("{r}"));
                    assert_eq!(imported.v(), 2 + first + second);
                    assert_eq!(imported.vertices[0].0, -(first as i64));
                    check_symbol(&action, &imported);
                } else {
                    let place = splits + 1 + 1 + 21;
                    assert_eq!(answer, Err(Refusal::new(16, place)), "{rule:?}, {first}");
                }
            }
        }
    }
}

/// Rows in many directions: the wide rule goes down all of them by turns, and is
/// refused where the first of them gets too deep.
#[test]
fn rows_that_branch() {
    let mut rng = Rng::new(82);
    let mut counts = BTreeMap::new();
    let (mut other_place, mut largest) = (0, 0);
    for case in 0..400 {
        let pair = rows_pair(&mut rng);
        let action = action(&pair);
        let answers = RULES.map(|rule| action.by_points(rule));
        for answer in &answers {
            match answer {
                Ok(imported) => check_symbol(&action, imported),
                Err(refusal) => assert_eq!(refusal.number, 16),
            }
        }
        let made = answers.each_ref().map(Result::is_ok);
        *counts.entry(made).or_insert(0) += 1;
        other_place += usize::from(made == [false, false] && answers[0] != answers[1]);
        largest = largest.max(pair.points());
        // To the letter it takes long for the large ones.
        if case % 4 == 0 && pair.points() < 600 {
            for rule in RULES {
                check_forms(rule, &pair);
            }
        }
    }
    for made in [[true, true], [false, true], [false, false]] {
        assert!(counts[&made] >= 10, "{counts:?}");
    }
    assert!(other_place >= 100, "only {other_place}; {counts:?}");
    assert!(largest > 500, "the largest has {largest} points");
}

/// Entries of just 10^9 are made; the first one past it is refused, at the side
/// that would have been split for it.
#[test]
fn entries_at_the_limit() {
    let mut rng = Rng::new(79);
    let (mut at, mut past) = (0, 0);
    for _ in 0..200 {
        let (num, den) = fraction_at_the_limit(&mut rng);
        let (pair, place) = pair_towards(&mut rng, num, den);
        let action = action(&pair);
        let largest = num.abs().max(den);
        for rule in RULES {
            let answer = action.by_points(rule);
            if largest > MAX_ENTRY {
                assert_eq!(answer, Err(Refusal::new(16, place)), "{num}/{den}");
                past += usize::from(largest == MAX_ENTRY + 1);
            } else {
                let imported = answer.unwrap_or_else(|r| panic!("{r} for {num}/{den}"));
                assert_eq!(imported.vertices[place], (num, den));
                check_symbol(&action, &imported);
                at += usize::from(largest == MAX_ENTRY);
            }
        }
    }
    assert!(at >= 20 && past >= 20);
    for _ in 0..10 {
        let (num, den) = fraction_at_the_limit(&mut rng);
        let pair = pair_towards(&mut rng, num, den).0;
        for rule in RULES {
            check_forms(rule, &pair);
        }
    }
}

#[test]
fn space_for_the_result() {
    let mut rng = Rng::new(78);
    for _ in 0..50 {
        let pair = shallow_pair(&mut rng, 12);
        let needed = 3 * 12 + 1;
        for rule in RULES {
            assert!(import_pair(rule, &pair.s, &pair.r, needed).is_ok());
            for space in [0, 1, needed - 1] {
                let refusal = import_pair(rule, &pair.s, &pair.r, space);
                assert_eq!(refusal, Err(Refusal::new(11, needed)));
            }
        }
    }
}

/// An entry over 10^9 and a space that is one number too short: the space is told
/// first, and the length that it needs. With that length it is 16.
#[test]
fn space_before_the_entry() {
    let mut rng = Rng::new(79);
    for rule in RULES {
        let mut met = 0;
        for _ in 0..100 {
            let pair = rows_pair(&mut rng);
            let needed = action(&pair).table_length();
            let [short, whole] =
                [needed - 1, needed].map(|space| import_pair(rule, &pair.s, &pair.r, space));
            assert_eq!(short, Err(Refusal::new(11, needed)));
            match whole {
                Ok(imported) => assert_eq!(3 * imported.v() + 1, needed),
                Err(refusal) => {
                    assert_eq!(refusal.number, 16);
                    met += 1;
                }
            }
        }
        assert!(met >= 20, "{rule:?} met 16 only {met} times");
    }
}

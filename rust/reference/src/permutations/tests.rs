use super::*;
use crate::matrix::{I, R};

fn gamma0_2() -> Action {
    Action::new(&[1, 0, 2], &[2, 0, 1]).unwrap()
}

#[test]
fn matrices_move_points() {
    let action = gamma0_2();
    for point in 0..3 {
        assert_eq!(action.moved(point, I), point);
        assert_eq!(action.moved(point, S), [1, 0, 2][point]);
        assert_eq!(action.moved(point, R), [2, 0, 1][point]);
        assert_eq!(action.moved(point, T), [0, 2, 1][point]);
    }
}

#[test]
fn each_check_with_its_place() {
    let refusal = |s: &[i64], r: &[i64]| {
        let refusal = Action::new(s, r).expect_err("this pair is refused");
        (refusal.number, refusal.place)
    };
    assert_eq!(refusal(&[], &[]), (12, 0));
    assert_eq!(refusal(&[0], &[]), (12, 0));
    assert_eq!(refusal(&[0; 2], &[0; 3]), (12, 0));
    assert_eq!(refusal(&[0; 3_067], &[0; 3_067]), (12, 0));
    assert_eq!(refusal(&[1], &[0]), (13, 0));
    assert_eq!(refusal(&[0, 0], &[7, 7]), (13, 1));
    assert_eq!(refusal(&[1, 0], &[0, -1]), (13, 1));
    assert_eq!(refusal(&[1, 0], &[i64::MAX, 0]), (13, 0));
    assert_eq!(refusal(&[0, 2, 3, 1], &[1, 0, 2, 3]), (14, 1));
    assert_eq!(refusal(&[0, 1, 3, 2], &[0, 2, 1, 3]), (14, 1));
    assert_eq!(refusal(&[0, 2, 1, 3], &[0, 2, 3, 1]), (15, 1));
    assert_eq!(refusal(&[1, 0, 3, 2], &[0, 1, 2, 3]), (15, 2));
}

const RULES: [Rule; 2] = [Rule::Leftmost, Rule::Wide];

#[test]
fn the_named_instance() {
    for rule in RULES {
        let imported = gamma0_2().by_rule(rule).unwrap();
        assert_eq!(imported.numbers(), [2, 0, 1, 1, 1, 1, -2, 1]);
        assert_eq!(gamma0_2().by_points(rule), Ok(imported));
        let short = import_pair(rule, &[1, 0, 2], &[2, 0, 1], 6);
        assert_eq!(short, Err(Refusal::new(11, 7)));
        assert!(import_pair(rule, &[1, 0, 2], &[2, 0, 1], 7).is_ok());
    }
}

#[test]
fn groups_without_a_triangle() {
    for rule in RULES {
        let one = Action::new(&[0], &[0]).unwrap();
        assert_eq!(one.by_rule(rule).unwrap().numbers(), [1, 0, 1, -2, -3]);
        assert_eq!(one.by_points(rule), one.by_rule(rule));
        let two = Action::new(&[1, 0], &[0, 1]).unwrap();
        assert_eq!(two.by_rule(rule).unwrap().numbers(), [1, 0, 1, -3, -3]);
        assert_eq!(two.by_points(rule), two.by_rule(rule));
    }
}

/// The side that each rule takes.
#[test]
fn the_choice_of_a_side() {
    let (open, done) = (Mark::Open, Mark::Even);
    let chosen = |marks: &[Mark], since: &[usize]| RULES.map(|rule| rule.choice(marks, since));
    let since = [5, 3, 4, 0, 2];
    assert_eq!(chosen(&[open; 5], &since), [Some(0), Some(3)]);
    let marks = [done, open, open, done, open];
    assert_eq!(chosen(&marks, &since), [Some(1), Some(4)]);
    assert_eq!(chosen(&[done; 5], &since), [None, None]);
}

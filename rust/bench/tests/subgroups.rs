//! The plain intersections and containments are the reference's.

use bench::subgroups::{contains, intersection, intersection_by_chains};
use reference::random::towers::two_groups;
use reference::random::Rng;
use reference::subgroups;
use reference::symbol::Symbol;

#[test]
fn tables_and_answers() {
    let mut rng = Rng::new(2_613);
    let mut met = [0; 4];
    for _ in 0..1_200 {
        let [one, other] = two_groups(&mut rng).map(|draft| draft.numbers());
        let symbol = |numbers: &[i64]| Symbol::from_numbers(numbers).expect("a symbol");
        let expected = subgroups::intersection(&symbol(&one), &symbol(&other));
        for plain in [intersection, intersection_by_chains] {
            let came = plain(one[0], &one[1..], other[0], &other[1..]);
            let came = came.map(|tables| [tables.s, tables.r, tables.t]);
            let expected = expected.as_ref().map_err(|r| (r.number, r.place as usize));
            assert_eq!(came.as_ref().map_err(|&refusal| refusal), expected);
        }
        let yes = subgroups::contains(one[0], &one[1..], other[0], &other[1..]);
        let yes = yes.expect("two symbols");
        let came = contains(one[0], &one[1..], other[0], &other[1..]);
        assert_eq!(came, Ok(yes));
        met[usize::from(yes)] += 1;
        met[2 + usize::from(expected.is_ok())] += 1;
    }
    assert!(met.iter().all(|&count| count >= 50), "{met:?}");
    // Refusals of the first before the second.
    assert_eq!(contains(0, &[], 1, &[]), Err((1, 0)));
    assert_eq!(contains(1, &[0, 1, -2, -3], 1, &[0]), Err((2, 1)));
}

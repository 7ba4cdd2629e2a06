//! `farey_intersection` and `farey_tower` with faults in every combination: the answer is
//! that of the first in order. And towers without an entry.

use differential::spaces::{Space, WORK};
use differential::subgroups::tower_call;
use farey::{calls, Refusal};
use reference::congruence::Family as Named;
use reference::random::towers::{named, whole, Listed};
use reference::random::Rng;

fn refused(number: u64, place: usize) -> Refusal {
    Refusal { number, place }
}

/// All faults of an intersection, in every combination: the answer is that of the first in
/// order, and no space is touched.
#[test]
fn every_order_of_faults_of_an_intersection() {
    let mut rng = Rng::new(24);
    let sound = [named(Named::Gamma0, 4), named(Named::Gamma0, 6)];
    let large = [named(Named::Gamma0, 53), named(Named::Gamma0, 59)];
    for faults in 0..1_u32 << 7 {
        let [bad_first, bad_second, no_work, over, no_s, no_r, no_k] =
            [0, 1, 2, 3, 4, 5, 6].map(|bit| faults >> bit & 1 == 1);
        let groups = if over { &large } else { &sound };
        let [mut one, mut other] = [0, 1].map(|i| groups[i].numbers()[1..].to_vec());
        let (v, m) = (groups[0].v(), groups[1].v());
        if bad_first {
            one[2 * v] = -7;
        }
        if bad_second {
            other[2 * m + 1] = 0;
        }
        let mut work: Space<u16> = Space::of_length(&mut rng, WORK - usize::from(no_work));
        let [mut s, mut r, mut k] =
            [no_s, no_r, no_k].map(|short| Space::of_length(&mut rng, 24 - usize::from(short)));
        let [one, other] = [one, other].map(|table| Space::holding(&mut rng, &table));
        let came = calls::intersection(
            v,
            one.read(),
            m,
            other.read(),
            work.write(),
            s.write(),
            r.write(),
            k.write(),
        );
        let expected = match faults.trailing_zeros() {
            0 => Err(refused(6, 0)),
            1 => Err(refused(6, 1)),
            2 => Err(refused(11, WORK)),
            3 => Err(refused(24, 0)),
            4..=6 => Err(refused(11, 24)),
            _ => Ok(24),
        };
        assert_eq!(came, expected, "{faults:07b}");
        let left = match bad_first || bad_second || no_work {
            true => vec![],
            false => vec![0; WORK],
        };
        assert_eq!(work.difference(0, &left), None, "{faults:07b}");
        for space in [&s, &r, &k].into_iter().filter(|_| faults > 0) {
            assert_eq!(space.difference(0, &[]), None, "{faults:07b}");
        }
        for table in [&one, &other] {
            assert_eq!(table.difference(0, &[]), None, "{faults:07b}");
        }
    }
}

/// All faults of a tower, in every combination.
#[test]
fn every_order_of_faults_of_a_tower() {
    let mut rng = Rng::new(25);
    let [one, two, three, six] = [1, 2, 3, 6].map(|n| named(Named::Gamma0, n).numbers());
    for faults in 0..1_u32 << 8 {
        let has = |bit: u32| faults >> bit & 1 == 1;
        let mut entries = vec![
            (-1, one.clone()),
            (0, two.clone()),
            (0, three.clone()),
            (1, six.clone()),
        ];
        // 1 to 7 in listing order; 25 in order; 26 in order.
        if has(1) {
            entries[1].1[1] = 1_000_000_001;
        }
        if has(2) {
            // The odd side of Γ0(3), between two free ones.
            entries[2].1[6] = 0;
        }
        if has(3) {
            entries[1].0 = 1;
        }
        if has(4) {
            entries[3].0 = -2;
        }
        if has(6) {
            entries[2].0 = 1;
        }
        if has(7) && !has(4) {
            entries[3] = (2, two.clone());
        }
        let mut listed = Listed::new(&entries);
        if has(0) {
            listed.count = 65;
        }
        let table = Space::holding(&mut rng, &listed.table);
        let mut work = Space::of_length(&mut rng, WORK - usize::from(has(5)));
        let (outcome, past_work) = tower_call(listed.count, &table, &mut work);
        assert!(outcome.differences.is_empty(), "{faults:08b}\n{outcome}");
        let expected = match faults.trailing_zeros() {
            0 => Err(refused(11, 64)),
            1 => Err(refused(3, 0)),
            2 => Err(refused(6, 1)),
            3 => Err(refused(25, 1)),
            4 => Err(refused(25, 3)),
            5 => Err(refused(11, WORK)),
            6 => Err(refused(26, 2)),
            7 => Err(refused(26, 3)),
            _ => Ok(0),
        };
        assert_eq!(outcome.came, expected, "{faults:08b}");
        assert_eq!(past_work, faults.trailing_zeros() >= 6, "{faults:08b}");
    }
}

/// An empty tower passes with whatever is lent, and leaves it as it was.
#[test]
fn empty_towers() {
    let mut rng = Rng::new(26);
    for length in [0, 1, WORK - 1, WORK, WORK + 1] {
        for numbers in [&[][..], &[-1], &[5, i64::MIN, 7]] {
            let table = Space::holding(&mut rng, numbers);
            let mut work: Space<u16> = Space::of_length(&mut rng, length);
            assert_eq!(calls::tower(0, table.read(), work.write()), Ok(()));
            assert_eq!(work.difference(0, &[]), None);
            assert_eq!(table.difference(0, &[]), None);
        }
    }
    // One entry alone has its work space tested, though it names nothing.
    let mut table = vec![-1];
    table.extend(whole().numbers());
    let mut short = vec![1; WORK - 1];
    assert_eq!(calls::tower(1, &table, &mut short), Err(refused(11, WORK)));
    assert_eq!(short, vec![1; WORK - 1]);
    let mut work = vec![1; WORK + 3];
    assert_eq!(calls::tower(1, &table, &mut work), Ok(()));
    assert_eq!(work, vec![0; WORK + 3]);
}

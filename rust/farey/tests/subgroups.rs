//! Containment, intersections and towers through the wrapper, on groups whose
//! answers are known by their conditions.

use farey::{tower, Family, Refusal, Symbol};

fn gamma0(n: u64) -> Symbol {
    Symbol::gamma0(n).expect("a small index")
}

fn whole() -> Symbol {
    Symbol::new(&[(0, 1)], &[-2, -3]).expect("a symbol")
}

fn refused(number: u64, place: usize) -> Result<(), Refusal> {
    Err(Refusal { number, place })
}

fn lcm(a: u64, b: u64) -> u64 {
    (1..=b).map(|k| k * a).find(|x| x % b == 0).unwrap_or(a)
}

#[test]
fn gamma0_by_divisors() {
    for m in 1..=20 {
        for n in 1..=20 {
            let (one, other) = (gamma0(m), gamma0(n));
            assert_eq!(one.contains(&other), n % m == 0, "{m} {n}");
            let both = one.intersection(&other).expect("a small index");
            assert_eq!(both, gamma0(lcm(m, n)).tables(), "{m} {n}");
        }
    }
}

/// T is S first and then R.
#[test]
fn the_three_tables() {
    let both = gamma0(4).intersection(&Symbol::gamma(3).expect("index 12"));
    let both = both.expect("a small index");
    assert_eq!(both.s.len(), 72);
    for x in 0..72 {
        assert_eq!(both.t[x], both.r[both.s[x] as usize]);
    }
}

/// The families meet in the least common multiple only up to signs: modulo 12 a matrix
/// may be 1 modulo 3 and -1 modulo 4.
#[test]
fn signs() {
    for family in [Family::Gamma1, Family::Gamma] {
        let named = |n| Symbol::named(family, n).expect("a small index");
        let both = named(3).intersection(&named(4)).expect("a small index");
        assert_eq!(2 * both.s.len(), named(12).figures().index);
        let both = Symbol::from_permutations_wide(&both.s, &both.r).expect("small entries");
        assert!(both.contains(&named(12)) && !named(12).contains(&both));
        // 5 and 29 are -1 modulo 3 and 1 modulo 4.
        assert!(both.same_coset(&[1, 0, 0, 1], &[5, 12, 12, 29]).unwrap());
        assert!(!named(12)
            .same_coset(&[1, 0, 0, 1], &[5, 12, 12, 29])
            .unwrap());
    }
}

/// Vertices 0, 1, 2, .., all sides even but one that may be odd: 3,066 points, or one more.
#[test]
fn the_most_points() {
    let vertices: Vec<(i64, i64)> = (0..1_023).map(|k| (k, 1)).collect();
    let mut pairings = vec![-2; 1_024];
    let even = Symbol::new(&vertices, &pairings).expect("a symbol");
    let both = even.intersection(&whole()).expect("3,066 points");
    assert_eq!(both, even.tables());
    pairings[700] = -3;
    let odd = Symbol::new(&vertices, &pairings).expect("a symbol");
    assert_eq!(odd.intersection(&whole()).map(|_| ()), refused(24, 0));
    assert_eq!(whole().intersection(&odd).map(|_| ()), refused(24, 0));
    // Containment has no such limit.
    assert!(whole().contains(&odd) && !odd.contains(&whole()) && odd.contains(&odd));
}

#[test]
fn towers() {
    let [one, two, three, six] = [1, 2, 3, 6].map(gamma0);
    assert_eq!(tower(&[]), Ok(()));
    assert_eq!(tower(&[(&six, None)]), Ok(()));
    let sound = [
        (&one, None),
        (&two, Some(0)),
        (&three, Some(0)),
        (&six, Some(1)),
        (&six, Some(2)),
        (&six, Some(4)),
    ];
    assert_eq!(tower(&sound), Ok(()));
    let mut wrong = sound;
    wrong[3].1 = Some(2);
    wrong[2].1 = Some(1);
    assert_eq!(tower(&wrong), refused(26, 2));
    // 25 for all entries before 26 for any.
    wrong[5].1 = Some(5);
    assert_eq!(tower(&wrong), refused(25, 5));
    wrong[4].1 = Some(usize::MAX);
    assert_eq!(tower(&wrong), refused(25, 4));
    // As many as there may be, and one more.
    let many: Vec<_> = (0..65).map(|i: usize| (&two, i.checked_sub(1))).collect();
    assert_eq!(tower(&many[..64]), Ok(()));
    assert_eq!(tower(&many), refused(11, 64));
}

/// Of one index, and not one within the other: the three conjugates of Γ0(2).
#[test]
fn by_the_groups_and_not_by_their_index() {
    let conjugates = [[1, -2, 1], [-2, 1, 1], [1, 1, -2]];
    let conjugates =
        conjugates.map(|pairings| Symbol::new(&[(0, 1), (1, 1)], &pairings).expect("a symbol"));
    for (i, one) in conjugates.iter().enumerate() {
        for (j, other) in conjugates.iter().enumerate() {
            assert_eq!(one.contains(other), i == j);
            let claim = tower(&[(one, None), (other, Some(0))]);
            assert_eq!(claim.is_ok(), i == j);
        }
        // All of them contain Γ(2), which is where any two meet.
        assert!(one.contains(&Symbol::gamma(2).expect("index 6")));
    }
    let both = conjugates[0].intersection(&conjugates[1]).expect("index 6");
    assert_eq!(both, Symbol::gamma(2).expect("index 6").tables());
}

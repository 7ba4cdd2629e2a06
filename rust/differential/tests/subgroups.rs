//! `farey_contains`, `farey_intersection` and `farey_tower`: random calls, groups by name,
//! at the limit of 3,066 points, and all groups of small index.

use differential::spaces::WORK;
use differential::subgroups::{contains_case, intersection_case, tower_case};
use farey::{calls, tower, Family, Refusal, Symbol};
use reference::congruence::Family as Named;
use reference::random::drafts::Draft;
use reference::random::pairs::{all_pairs, Pair};
use reference::random::towers::{at_the_limit, named, small, subgroup};
use reference::random::twins::{conjugate, imported, same_group};
use reference::random::Rng;
use reference::sameness::each_in;
use reference::subgroups::intersection;

fn refused(number: u64, place: usize) -> Refusal {
    Refusal { number, place }
}

/// The engine's symbol of a draft.
fn lent(draft: &Draft) -> Symbol {
    let numbers = draft.numbers();
    Symbol::from_table(draft.v(), numbers[1..].to_vec()).expect("a symbol")
}

fn read(draft: &Draft) -> reference::symbol::Symbol {
    reference::symbol::Symbol::from_numbers(&draft.numbers()).expect("a symbol")
}

/// Both answers for two groups, each way round, against the reference.
fn both_ways(one: &Draft, other: &Draft) {
    let (a, b) = (read(one), read(other));
    let (x, y) = (lent(one), lent(other));
    for (a, b, x, y) in [(&a, &b, &x, &y), (&b, &a, &y, &x)] {
        assert_eq!(x.contains(y), each_in(b, a));
        let expected = intersection(a, b).map_err(|r| refused(r.number.into(), r.place as usize));
        let came = x
            .intersection(y)
            .map(|tables| [tables.s, tables.r, tables.t]);
        assert_eq!(came, expected);
    }
}

/// Cases of one call: no difference.
fn agree(call: fn(&mut Rng) -> differential::outcome::Outcome, cases: u64) {
    for stream in 0..cases {
        let outcome = call(&mut Rng::for_case(20_261_117, stream));
        assert!(outcome.differences.is_empty(), "case {stream}\n{outcome}");
    }
}

#[test]
fn random_containments() {
    agree(contains_case, 4_000);
}

#[test]
fn random_intersections() {
    agree(intersection_case, 3_000);
}

#[test]
fn random_towers() {
    agree(tower_case, 6_000);
}

fn lcm(a: u64, b: u64) -> u64 {
    (1..=b).map(|k| k * a).find(|x| x % b == 0).unwrap_or(a)
}

/// Γ0(M) contains Γ0(N) where M divides N, and they meet in Γ0 of the least common
/// multiple, whose tables are those that the group has by its name.
#[test]
fn gamma0_by_name() {
    let pairs = (1..=24).flat_map(|m| (1..=24).map(move |n| (m, n)));
    let more = [
        (16, 27),
        (25, 32),
        (7, 142),
        (2, 499),
        (60, 90),
        (720, 45),
        (990, 2),
    ];
    for (m, n) in pairs.chain(more) {
        let [one, other] = [m, n].map(|n| Symbol::gamma0(n).expect("a symbol"));
        assert_eq!(one.contains(&other), n % m == 0, "{m} {n}");
        let both = one.intersection(&other).expect("at most 3,066 points");
        let (s, r) = Family::Gamma0
            .tables(lcm(m, n))
            .expect("at most 3,066 points");
        assert_eq!((&both.s, &both.r), (&s, &r), "{m} {n}");
        let t: Vec<u32> = s.iter().map(|&x| r[x as usize]).collect();
        assert_eq!(both.t, t, "{m} {n}");
    }
}

/// The families, one in the other: Γ(N) in Γ1(N) in Γ0(N). Γ0(N) meets Γ(M) in what
/// the matrices say: both conditions at once.
#[test]
fn families() {
    for n in 1..=12 {
        let [g0, g1, g] = Named::ALL.map(|family| named(family, n));
        for (one, other) in [(&g0, &g1), (&g1, &g), (&g0, &g)] {
            assert!(lent(one).contains(&lent(other)));
            both_ways(one, other);
        }
        for m in 2..=4 {
            both_ways(&g0, &named(Named::Gamma, m));
            both_ways(&g1, &named(Named::Gamma1, m));
        }
    }
}

/// Every group of index at most 6, and at most 7 against those of index at most 3, with every
/// other: congruence groups and others, 7 being the least index of one that is none.
#[test]
fn all_small_groups() {
    let groups: Vec<Vec<Draft>> = (1..=7).map(groups_of_index).collect();
    let count: Vec<usize> = groups.iter().map(Vec::len).collect();
    // The subgroups of PSL2(Z) by their index.
    assert_eq!(count, [1, 1, 4, 8, 5, 22, 42]);
    let mut yes = 0;
    for (i, ones) in groups.iter().enumerate() {
        for (k, others) in groups.iter().enumerate().take(i + 1) {
            for one in ones {
                for other in others.iter().filter(|_| i < 6 || k < 3) {
                    both_ways(one, other);
                    yes += usize::from(lent(other).contains(&lent(one)));
                }
            }
        }
    }
    assert!(yes > 83, "{yes}");
}

/// One symbol for each group of this index: the pairs whose points are numbered by the rule.
fn groups_of_index(n: usize) -> Vec<Draft> {
    let pairs = all_pairs(n).into_iter();
    let numbered = pairs.filter(|pair| {
        let order = order(pair);
        order.iter().enumerate().all(|(i, &point)| i == point)
    });
    let made = numbered.map(|pair| imported(reference::permutations::Rule::Wide, &pair));
    made.map(|draft| draft.expect("small entries")).collect()
}

/// The points as they are met from 0.
fn order(pair: &Pair) -> Vec<usize> {
    let mut order = vec![0];
    let mut i = 0;
    while i < order.len() {
        for image in [pair.s[order[i]], pair.r[order[i]]] {
            if !order.contains(&(image as usize)) {
                order.push(image as usize);
            }
        }
        i += 1;
    }
    order
}

/// 3,066 points pass and 3,067 don't, by groups of many kinds; and Γ0(2) with Γ0 of the
/// prime 1,021, which is 3 times 1,022.
#[test]
fn the_most_points() {
    let mut rng = Rng::new(3_066);
    for round in 0..24 {
        let over = round % 2 == 1;
        let [one, other] = at_the_limit(&mut rng, over);
        let came = lent(&one).intersection(&lent(&other));
        match over {
            false => assert_eq!(came.expect("3,066 points").s.len(), 3_066),
            true => assert_eq!(came, Err(refused(24, 0))),
        }
        both_ways(&one, &other);
    }
    let prime = imported(
        reference::permutations::Rule::Wide,
        &Named::Gamma0.pair(1_021),
    );
    let prime = prime.expect("small entries");
    let both = Symbol::gamma0(2)
        .expect("index 3")
        .intersection(&lent(&prime));
    let both = both.expect("3,066 points");
    let Pair { s, r } = Named::Gamma0.pair(2_042);
    let points = |table: Vec<i64>| table.into_iter().map(|x| x as u32).collect::<Vec<u32>>();
    assert_eq!((both.s, both.r), (points(s), points(r)));
}

/// What is contained in both is contained in the intersection, a group lies in another
/// exactly where the two meet in it, and symbols of one group are alike.
#[test]
fn laws() {
    let mut rng = Rng::new(13);
    let mut met = [0; 2];
    for _ in 0..400 {
        let one = small(&mut rng);
        let other = match rng.below(3) {
            0 => small(&mut rng),
            1 => conjugate(&mut rng, &one),
            _ => subgroup(&mut rng, &one),
        };
        let (x, y) = (lent(&one), lent(&other));
        let Ok(both) = x.intersection(&y) else {
            continue;
        };
        assert_eq!(both, y.intersection(&x).expect("as many points"));
        let Ok(meet) = Symbol::from_permutations_wide(&both.s, &both.r) else {
            continue;
        };
        assert_eq!(meet.tables(), both);
        assert!(x.contains(&meet) && y.contains(&meet));
        let inside = x.contains(&y);
        assert_eq!(inside, both == y.tables());
        assert_eq!(inside, meet.is_same(&y));
        met[usize::from(inside)] += 1;
        // Another symbol of the same group.
        let twin = lent(&same_group(&mut rng, &other));
        assert!(twin.contains(&y) && y.contains(&twin));
        assert_eq!(x.contains(&twin), inside);
        assert_eq!(x.intersection(&twin).as_ref(), Ok(&both));
    }
    assert!(met.iter().all(|&count| count >= 60), "{met:?}");
}

/// Γ(N), by the divisors of N: each listed under each of the others.
#[test]
fn towers_of_divisors() {
    let levels: [u64; 7] = [1, 2, 3, 4, 6, 8, 12];
    let groups = levels.map(|n| Symbol::gamma(n).expect("a small index"));
    for (i, one) in groups.iter().enumerate() {
        for (k, other) in groups.iter().enumerate() {
            let came = tower(&[(one, None), (other, Some(0))]);
            let expected = match levels[k] % levels[i] {
                0 => Ok(()),
                _ => Err(refused(26, 1)),
            };
            assert_eq!(came, expected);
        }
    }
    // 64 entries, each in the one before it.
    let chain: Vec<(&Symbol, Option<usize>)> = (0..64_usize)
        .map(|i| (&groups[[0, 1, 3, 5][i / 16]], i.checked_sub(1)))
        .collect();
    assert_eq!(tower(&chain), Ok(()));
    let mut wrong = chain.clone();
    wrong[40].0 = &groups[2];
    assert_eq!(tower(&wrong), Err(refused(26, 40)));
    // The largest symbols there are: 64 of them, with 4,090 cosets each.
    let mut table = Vec::new();
    let odd: Vec<(i64, i64)> = (0..1_023).map(|k| (k, 1)).collect();
    let odd = Symbol::new(&odd, &vec![-3; 1_024]).expect("a symbol");
    for i in 0..64 {
        table.extend([i - 1, 1_023]);
        table.extend_from_slice(odd.table());
    }
    assert_eq!(calls::tower(64, &table, &mut vec![1; WORK]), Ok(()));
    table.push(-3);
    assert_eq!(
        calls::tower(64, &table, &mut vec![1; WORK]),
        Err(refused(2, 3_071))
    );
}

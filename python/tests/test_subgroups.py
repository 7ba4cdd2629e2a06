"""Several subgroups: `<=`, `&`, the tables of intersections, and towers, against pairs of points by hand and
against the conditions of congruence groups."""

import copy
import math
import pickle
import unittest
from concurrent.futures import ThreadPoolExecutor

import farey
from farey import Refusal, Symbol

from . import reckoning as by_hand

WHOLE = ([0], [-2, -3])


class Other(Symbol):
    """A class that stands on Symbol."""


def both(one, other):
    """S and R on the pairs of points that are reached from both base points, numbered by the rule."""
    pairs, tables = [(0, 0)], ([], [])
    number = {(0, 0): 0}
    for x, y in pairs:  # pairs grows
        for table, s, t in zip(tables, one, other):
            image = s[x], t[y]
            if image not in number:
                number[image] = len(pairs)
                pairs.append(image)
            table.append(number[image])
    return tuple(map(tuple, tables))


def is_within(H, K):
    """Whether every generator of H is in K, one by one."""
    return all(generator.matrix in K for generator in H.generators)


def small_groups(seed, count):
    """Groups of a small index, congruence groups and others."""
    rng = by_hand.seeded(seed)
    groups = [Symbol(*WHOLE), Symbol([0], [-3, -3])]
    groups += [make(N) for make in (Symbol.gamma0, Symbol.gamma1, Symbol.gamma) for N in (2, 3, 4)]
    while len(groups) < count:
        groups.append(Symbol.from_permutations(*by_hand.random_pair(rng, rng.randint(2, 12))))
    return groups


class Containment(unittest.TestCase):
    def test_by_divisors(self):
        """Γ0(M) contains Γ0(N) exactly where M divides N, and so it is with Γ1 and Γ."""
        for make in (Symbol.gamma0, Symbol.gamma1, Symbol.gamma):
            groups = {N: make(N) for N in range(1, 11)}
            for M, H in groups.items():
                for N, K in groups.items():
                    with self.subTest(make.__name__, M=M, N=N):
                        inside = N % M == 0
                        self.assertIs(K <= H, inside)
                        self.assertIs(H >= K, inside)
                        self.assertIs(H.contains_subgroup(K), inside)
                        self.assertIs(K < H, inside and M != N)
                        self.assertIs(H > K, inside and M != N)

    def test_families(self):
        """Γ(N) lies in Γ1(N), and that in Γ0(N)."""
        for N in range(1, 9):
            self.assertTrue(Symbol.gamma(N) <= Symbol.gamma1(N) <= Symbol.gamma0(N) <= Symbol(*WHOLE))
            self.assertIs(Symbol.gamma1(N) < Symbol.gamma0(N), N > 4 and N != 6)

    def test_by_generators(self):
        """Yes exactly where every generator is in the other group, and consistent with ==."""
        met = set()
        groups = small_groups("containment", 40)
        for H in groups:
            for K in groups:
                inside, around = is_within(H, K), is_within(K, H)
                self.assertEqual((H <= K, H >= K), (inside, around))
                self.assertEqual((H < K, H > K, H == K), (inside and not around, around and not inside, inside and around))
                met.add((inside, around, H.index <= K.index))
        self.assertGreaterEqual(len(met), 5)

    def test_not_by_the_index(self):
        """Conjugates of Γ0(2), all of index 3, and Γ0(2) with groups whose index 3 divides."""
        groups = [Symbol([0, 1], pairings) for pairings in ([1, -2, 1], [-2, 1, 1], [1, 1, -2])]
        for i, H in enumerate(groups):
            for k, K in enumerate(groups):
                self.assertEqual((H <= K, H < K), (i == k, False))
        self.assertEqual([Symbol.gamma0(N) <= Symbol.gamma0(2) for N in (5, 8, 11, 12)], [False, True, False, True])

    def test_largest(self):
        """4,090 cosets: all sides odd, 1,023 vertices. Containment has no limit of its own."""
        H = Symbol(list(range(1023)), [-3] * 1024)
        self.assertEqual(H.index, 4090)
        self.assertTrue(H <= Symbol(*WHOLE) and H <= H and not Symbol(*WHOLE) <= H)

    def test_other_things(self):
        H = Symbol.gamma0(2)
        for other in (None, 0, "Gamma0(2)", (1, 0, 2, 1), object()):
            for ask in (H.__le__, H.__ge__, H.__lt__, H.__gt__, H.__and__):
                self.assertIs(ask(other), NotImplemented)
            for ask in (lambda: H <= other, lambda: H > other, lambda: H & other, lambda: other & H):
                self.assertRaises(TypeError, ask)
            for ask in (H.contains_subgroup, H.intersection_tables):
                with self.assertRaises(TypeError) as caught:
                    ask(other)
                self.assertIn("a Symbol is wanted", str(caught.exception))

    def test_never_made(self):
        H, K = Symbol.gamma0(2), Symbol.__new__(Symbol)
        for ask in (lambda: H <= K, lambda: K <= H, lambda: H & K, lambda: K & H, lambda: farey.tower([(K, None)])):
            with self.assertRaises(TypeError) as caught:
                ask()
            self.assertIn("this Symbol was never made", str(caught.exception))


class Intersections(unittest.TestCase):
    def test_gamma0(self):
        """Γ0(M) ∩ Γ0(N) is Γ0 of the least common multiple, by name and by congruences."""
        for M in range(1, 13):
            for N in range(1, 13):
                with self.subTest(M=M, N=N):
                    H, K, expected = Symbol.gamma0(M), Symbol.gamma0(N), by_hand.named_tables(f"Gamma0({math.lcm(M, N)})")
                    S, R, T = H.intersection_tables(K)
                    self.assertEqual((S, R), expected)
                    self.assertEqual(T, tuple(R[x] for x in S))
                    self.assertTrue(H & K == Symbol.gamma0(math.lcm(M, N)))

    def test_pairs_by_hand(self):
        """The pairs of points that are reached, for groups of all kinds; the intersection lies in both."""
        rng = by_hand.seeded("intersections")
        groups = small_groups("pairs", 30)
        for H in groups:
            for K in rng.sample(groups, 12):
                S, R, T = H.intersection_tables(K)
                self.assertEqual((S, R), both((H.S, H.R), (K.S, K.R)))
                self.assertEqual(T, tuple(R[x] for x in S))
                L = H & K
                self.assertEqual((L.S, L.R, L.T), (S, R, T))
                self.assertTrue(L <= H and L <= K and L == K & H)
                self.assertEqual(L == H, H <= K)

    def test_members(self):
        """A matrix fixes point 0 exactly when it is in both."""
        rng = by_hand.seeded("members of both")
        groups = small_groups("members", 16)
        met = {True: 0, False: 0}
        for H in groups:
            for K in groups:
                S, R, _ = H.intersection_tables(K)
                for _ in range(12):
                    word, X = by_hand.random_word(rng, rng.randint(0, 14))
                    fixes = by_hand.followed(S, R, word) == 0
                    self.assertEqual(fixes, X in H and X in K)
                    met[fixes] += 1
        self.assertGreater(min(met.values()), 100)

    def test_signs(self):
        """Γ1 and Γ, which have -1 here, meet in the least common multiple only where the signs can't differ: with 3
        and 4 the intersection has half as many cosets."""
        for make in (Symbol.gamma1, Symbol.gamma):
            for M, N in ((2, 3), (2, 6), (3, 6), (2, 8), (4, 2)):
                self.assertTrue(make(M) & make(N) == make(math.lcm(M, N)))
            H = make(3) & make(4)
            self.assertEqual(2 * H.index, make(12).index)
            self.assertTrue(make(12) < H)
            self.assertEqual([(5, 12, 12, 29) in G for G in (make(3), make(4), H, make(12))], [True, True, True, False])

    def test_most_points(self):
        """3,066 points are given, and more are refused with 24, place 0."""
        # Γ0(2) has 3 cosets, and that of the prime 1,021 has 1,022
        H = Symbol.from_permutations(*by_hand.named_tables("Gamma0(1021)"))
        S, R, _ = H.intersection_tables(Symbol.gamma0(2))
        self.assertEqual((S, R), by_hand.named_tables("Gamma0(2042)"))
        self.assertEqual(len(S), 3066)
        even = Symbol(list(range(1023)), [-2] * 1024)
        S, R, T = even.intersection_tables(Symbol(*WHOLE))
        self.assertEqual((S, R, T), (even.S, even.R, even.T))
        self.assertEqual(len(S), 3066)
        odd = Symbol(list(range(1023)), [-2] * 500 + [-3] + [-2] * 523)
        for one, other in ((odd, Symbol(*WHOLE)), (Symbol(*WHOLE), odd), (Symbol.gamma0(64), Symbol.gamma0(81))):
            for ask in (one.intersection_tables, one.__and__):
                with self.assertRaises(Refusal) as caught:
                    ask(other)
                self.assertEqual((caught.exception.number, caught.exception.place), (24, 0))

    def test_classes_that_stand_on_it(self):
        H = Other.gamma0(4)
        self.assertIs(type(H & Symbol.gamma0(6)), Other)
        self.assertIs(type(Symbol.gamma0(6) & H), Symbol)
        for again in (copy.copy(H), pickle.loads(pickle.dumps(H))):
            self.assertTrue(again <= H <= again and again & H == H)


class Towers(unittest.TestCase):
    def refused(self, number, place, entries):
        with self.assertRaises(Refusal) as caught:
            farey.tower(entries)
        self.assertEqual((caught.exception.number, caught.exception.place), (number, place))

    def test_named_groups(self):
        """Γ(N) by divisors: a lattice listed from the top passes, whatever entry is named."""
        chain = [1, 2, 3, 4, 6, 12]
        groups = {N: Symbol.gamma(N) for N in chain}
        for named in ([None, 0, 0, 1, 2, 3], [None, 0, 0, 0, 1, 4], [None] * 6):
            self.assertIsNone(farey.tower([(groups[N], name) for N, name in zip(chain, named)]))
        # 4 isn't a divisor of 6
        self.refused(26, 4, [(groups[N], name) for N, name in zip(chain, [None, 0, 0, 1, 3, 2])])
        self.assertIsNone(farey.tower([]))
        self.assertIsNone(farey.tower(iter([(groups[6], None), [groups[12], 0]])))

    def test_random(self):
        """Each claim by its generators; the first that is false, or the first entry that names none before it."""
        rng = by_hand.seeded("towers")
        groups = small_groups("towers", 24)
        met = {}
        for _ in range(300):
            entries = []
            for i in range(rng.randint(0, 6)):
                known = [k for k, (H, _) in enumerate(entries) for G in groups if G <= H]
                if known and rng.random() < 0.7:
                    named = rng.choice(known)
                    group = rng.choice([G for G in groups if G <= entries[named][0]])
                else:
                    named, group = rng.choice([None, rng.randint(0, i), rng.randrange(i) if i else None]), rng.choice(groups)
                entries.append((group, named))
            unlisted = [i for i, (_, named) in enumerate(entries) if named is not None and named >= i]
            untrue = [i for i, (H, named) in enumerate(entries) if not unlisted and named is not None and not is_within(H, entries[named][0])]
            expected = (25, unlisted[0]) if unlisted else (26, untrue[0]) if untrue else None
            if expected is None:
                self.assertIsNone(farey.tower(entries))
            else:
                self.refused(*expected, entries)
            met[expected and expected[0]] = met.get(expected and expected[0], 0) + 1
        self.assertTrue(all(met.get(key, 0) >= 20 for key in (None, 25, 26)), met)

    def test_order(self):
        """25 is tested for all entries before 26 for any."""
        one, two, three = Symbol(*WHOLE), Symbol.gamma0(2), Symbol.gamma0(3)
        self.refused(26, 1, [(two, None), (three, 0), (one, 0)])
        self.refused(25, 2, [(two, None), (three, 0), (one, 2)])
        for named in (0, 1, -1, -2, 2**63 - 1, 2**63, 10**30, -(10**30)):
            self.refused(25, 0, [(one, named)])

    def test_many(self):
        """64 entries, and one more; what stands behind it doesn't matter."""
        H = Symbol.gamma0(11)
        entries = [(H, i - 1 if i else None) for i in range(64)]
        self.assertIsNone(farey.tower(entries))
        self.refused(11, 64, entries + [(H, 63)])
        self.refused(11, 64, entries + [(H, 10**30)] * 10)

    def test_arguments(self):
        H = Symbol.gamma0(2)
        for wrong in (None, 5, "tower", H, {(H, None)}, [H], [(H, 0.0)], [(H, True)], [(H, "0")], [("H", None)], [((0, 1), None)]):
            self.assertRaises(TypeError, farey.tower, wrong)
        for wrong in ([(H,)], [(H, None, 0)], [()]):
            self.assertRaises(ValueError, farey.tower, wrong)


class Threads(unittest.TestCase):
    def test_at_once(self):
        """Answers that are asked for by four threads at a time are those of one."""
        groups = [Symbol.gamma0(N) for N in (4, 6, 9, 11, 16, 27)]
        pairs = [(H, K) for H in groups for K in groups] * 4

        def ask(pair):
            H, K = pair
            tables = H.intersection_tables(K)
            try:
                farey.tower([(H, None), (K, 0)])
                return tables, H >= K, True
            except Refusal:
                return tables, H >= K, False

        alone = [ask(pair) for pair in pairs]
        with ThreadPoolExecutor(4) as threads:
            self.assertEqual(list(threads.map(ask, pairs)), alone)
        self.assertTrue(all(inside == passes for _, inside, passes in alone))

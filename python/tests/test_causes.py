"""The cause of a refusal from what was given: its sentences, and what they rest on against the engine."""

import ctypes
import random
import unittest

import farey

from farey import Refusal, Symbol, causes, library
from farey.causes import cause


def engine_fault(v, table):
    """Number and place by the engine's own check, `None` for a symbol."""
    place = ctypes.c_size_t(0)
    lent = (ctypes.c_int64 * len(table))(*table)
    number = library.load().farey_check(v, lent, len(table), ctypes.byref(place))
    return (number, place.value) if number else None


class Faults(unittest.TestCase):
    def test_against_the_engine(self):
        """The check of a symbol that picks the sentence is the engine's, on symbols with some numbers changed."""
        chance = random.Random(20)
        seen = set()
        for round_ in range(3000):
            symbol = Symbol.gamma0(chance.choice((1, 2, 3, 5, 6, 11, 13, 30)))
            v, table = len(symbol.vertices), [*(n for vertex in symbol.vertices for n in vertex), *symbol.pairings]
            for _ in range(chance.randrange(3)):
                wrong = (-3, -2, -1, 0, 1, 2, 7, 10**9, 10**9 + 1, -(10**9) - 1)
                table[chance.randrange(len(table))] = chance.choice(wrong)
            if chance.random() < 0.1:
                table = table[: chance.randrange(len(table))]
            if chance.random() < 0.05:
                v, table = 1, [0, 1, *chance.choices((-3, -2, 1), k=2)]
            v = chance.choice((0, 1024, v, v + 1)) if chance.random() < 0.1 else v
            expected = engine_fault(v, table)
            self.assertEqual(causes.fault(v, table), expected, (v, table))
            if expected is not None:
                said = cause(*expected, {"v": v, "table": table})
                self.assertIsInstance(said, str, (expected, v, table))
                seen.add(expected[0])
        self.assertEqual(seen, {1, 2, 3, 4, 5, 6, 7})

    def test_index(self):
        """The index by the formula is that of the engine's tables, for every group whose tables it makes."""
        place = ctypes.c_size_t(0)
        work, s, r = (ctypes.c_uint16 * library.WORK)(), *((ctypes.c_uint32 * library.NAMED)() for _ in "SR")
        made = 0
        for number, family in enumerate(("Γ0", "Γ1", "Γ")):
            for N in (*range(1, 60), 97, 210, 360, 720, 997, 1000):
                arguments = (work, library.WORK, s, library.NAMED, r, library.NAMED, ctypes.byref(place))
                answer = library.load().farey_named_tables(number, N, *arguments)
                self.assertEqual(answer == 21, causes.index_of(family, N) > 3066, (family, N))
                if answer == 0:
                    self.assertEqual(causes.index_of(family, N), place.value, (family, N))
                    made += 1
        self.assertGreater(made, 100)


class Sentences(unittest.TestCase):
    def test_by_hand(self):
        symbol = {"v": 2, "table": [0, 1, 1, 1, 1, -2, 1]}
        for number, place, given, said in (
            (20, 0, {"family": "Γ", "N": 0}, "N is 0, not from 1 to 1,000"),
            (21, 0, {"family": "Γ", "N": 19}, "Γ(19) has index 3420, over 3,066"),
            (12, 0, {"S": [0, 1], "R": [0]}, "S has 2 entries and R has 1"),
            (12, 0, {"S": [], "R": []}, "the index is 0, not from 1 to 3,066"),
            (13, 1, {"S": [0, 1], "R": [0, 2]}, "entry 1 of R is 2: points count from 0, so they go up to 1"),
            (13, 0, {"S": [-1], "R": [0]}, "entry 0 of S is -1: points count from 0, so they go up to 0"),
            (8, 3, {"A": [1, 0, 0, -1000001], "B": [1, 0, 0, 1]}, "entry 3 of A is -1,000,001, over 1,000,000 in size"),
            (9, 0, {"A": [1, 2, 3, 4], "B": [1, 0, 0, 1]}, "A is (1 2; 3 4), whose determinant is -2, and not 1"),
            (23, 0, dict(symbol, labels=[3, 1]), "3 is no side's free label"),
            (23, 0, dict(symbol, labels=[-2, 1]), "-2 is no side's free label"),
            (
                6,
                1,
                {"v": 2, "table": [0, 1, 1, 1, 1, -4, 1]},
                "side 1 has pairing -4, and allowed are -2, -3 and labels from 1 to 3",
            ),
            (
                4,
                0,
                dict(symbol, second=(1, [0, 2, -2, -3])),
                "in the second symbol side 0 joins -1/0 and 0/2: a'b - ab' is 2 there, and not 1",
            ),
            (5, 0, dict(symbol, second=(1, [1, 1, -2, -3])), "in the second symbol no vertex is 0/1"),
        ):
            self.assertEqual(cause(number, place, given), said)

    def test_what_does_not_bear_it_out(self):
        """A refusal that what was given doesn't show has no cause here, and nothing is raised whatever is given."""
        chance = random.Random(5)
        values = [None, 0, -1, 5, "x", b"\xff", [], [1], [1, 2, 3], (1, [2]), {}, [None], 10**40]
        keys = "v table second A B S R family N labels entries text wants rule index".split()
        for _ in range(4000):
            given = {key: chance.choice(values) for key in chance.sample(keys, chance.randrange(6))}
            said = cause(chance.randrange(30), chance.choice((0, 1, 3, 70000)), given)
            self.assertTrue(said is None or isinstance(said, str))
        self.assertIsNone(cause(4, 1, {"v": 2, "table": [0, 1, 1, 1, 1, -2, 1]}))
        self.assertIsNone(cause(10, 0, {"A": [1, 0, 0, 1], "B": [0, -1, 1, 0]}))
        self.assertIsNone(cause(20, 0, {"family": "Γ0", "N": 7}))

    def test_a_refusal_of_the_engine(self):
        """What the engine refuses of two permutations, and the sentence for it."""
        for s, r, said in (
            ([1, 0, 2], [2, 0, 0], "entry 2 of R is 0, as entry 1 is"),
            ([1, 2, 0], [2, 0, 1], "S takes 0 to 1 and 1 to 2: S twice must fix each point"),
            ([1, 0, 2], [0, 1, 2], "no product of S and R takes point 0 to point 2: S and R must connect all points"),
        ):
            with self.assertRaises(Refusal) as raised:
                Symbol.from_permutations(s, r)
            refusal = raised.exception
            self.assertEqual(cause(refusal.number, refusal.place, {"S": s, "R": r}), said)


class FromPython(unittest.TestCase):
    """The exceptions of the package say the cause at hand."""

    def test_sentences(self):
        symbol = farey.Symbol([0, 1, 2], [1, 2, 2, 1])
        for call, said in (
            (lambda: farey.gamma0(1001), "refused 20 0: N is 1001, not from 1 to 1,000"),
            (lambda: farey.gamma(19), "refused 21 0: Γ(19) has index 3420, over 3,066"),
            (lambda: farey.named_tables("gamma1", 0), "refused 20 0: N is 0, not from 1 to 1,000"),
            (
                lambda: farey.Symbol.from_permutations([1, 0, 5], [0, 1, 2]),
                "refused 13 2: entry 2 of S is 5: points count from 0, so they go up to 2",
            ),
            (lambda: farey.Symbol.from_permutations([1, 0], [0]), "refused 12 0: S has 2 entries and R has 1"),
            (
                lambda: farey.Symbol([0, (1, 3)], [1, -2, 1]),
                "refused 4 2: side 2 joins 1/3 and 1/0: a'b - ab' is 3 there, and not 1",
            ),
            (lambda: symbol.exchanged(1, 3), "refused 23 1: 3 is no side's free label"),
            (lambda: symbol.preview(7, 1), "refused 23 0: 7 is no side's free label"),
        ):
            with self.subTest(said), self.assertRaises(farey.Refusal) as caught:
                call()
            self.assertEqual(str(caught.exception), said)

    def test_two_rules(self):
        for wide, rule in ((True, "leftmost"),):
            with self.assertRaises(ValueError):
                farey.Symbol.from_permutations([1, 0, 2], [2, 0, 1], wide, rule=rule)
        self.assertEqual(farey.Symbol.from_permutations([1, 0, 2], [2, 0, 1], False).index, 3)

    def test_longer_than_a_list(self):
        with self.assertRaises(farey.Refusal) as caught:
            farey.gamma0(11).word((1, 10**30, 0, 1), most=10**40)
        self.assertEqual((caught.exception.number, caught.exception.place), (11, 10**30))


"""`==` and the hash of symbols, copies of them, classes that stand on Symbol, and attributes."""

import copy
import pickle
import unittest
from unittest import mock

from farey import Refusal, Symbol

from . import reckoning as by_hand


class Other(Symbol):
    """A class that stands on Symbol."""


class Sameness(unittest.TestCase):
    """`==`, the hash, and what copies are."""

    def test_labels_may_differ(self):
        one, other = Symbol(*by_hand.GAMMA0_2), Symbol([0, 1], [3, -2, 3])
        self.assertTrue(one == other)
        self.assertFalse(one != other)
        self.assertEqual(hash(one), hash(other))
        self.assertEqual(len({one, other}), 1)

    def test_random_labels(self):
        rng = by_hand.seeded("labels")
        for name, vertices, pairings, *_ in by_hand.stored_symbols():
            labels = rng.sample(range(1, len(pairings) + 1), len(pairings))
            renamed = [p if p < 0 else labels[p - 1] for p in pairings]
            one, other = Symbol(vertices, pairings), Symbol(vertices, renamed)
            self.assertTrue(one == other, name)
            self.assertEqual(hash(one), hash(other), name)

    def test_two_symbols_of_one_group(self):
        """Γ0(2) moved by T has the same H, and is another symbol."""
        one, other = Symbol(*by_hand.GAMMA0_2), Symbol([-1, 0], [1, -2, 1])
        self.assertTrue(all(generator.matrix in other for generator in one.generators))
        self.assertTrue(all(generator.matrix in one for generator in other.generators))
        self.assertNotEqual(one.vertices, other.vertices)
        self.assertTrue(one == other)
        self.assertFalse(one != other)
        self.assertEqual(hash(one), hash(other))
        self.assertEqual(len({one, other}), 1)
        self.assertEqual({one: "Γ0(2)"}[other], "Γ0(2)")

    def test_both_rules(self):
        """The stored groups by both rules: equal, with equal hashes, and mostly other vertices."""
        others = 0
        for name, vertices, pairings, *_ in by_hand.stored_symbols():
            H = Symbol(vertices, pairings)
            for wide in (False, True):
                K = Symbol.from_permutations(H.S, H.R, wide=wide)
                self.assertTrue(H == K and K == H, name)
                self.assertEqual(hash(H), hash(K), name)
                others += H.vertices != K.vertices
        self.assertGreaterEqual(others, 50)

    def test_conjugates(self):
        """Γ0(2), and what fixes its other two points: equal figures, and no two equal."""
        groups = [Symbol.from_permutations(*by_hand.renamed((1, 0, 2), (2, 0, 1), base)) for base in range(3)]
        self.assertEqual({(H.index, H.e2, H.e3, tuple(sorted(H.widths))) for H in groups}, {(3, 1, 0, (1, 2))})
        for i, H in enumerate(groups):
            for k, K in enumerate(groups):
                self.assertEqual(H == K, i == k)
        self.assertEqual(len(set(groups)), 3)
        self.assertEqual(set(groups), {Symbol(*by_hand.GAMMA0_2), Symbol([0, 1], [1, 1, -2]), Symbol([0, 1], [-2, 1, 1])})

    def test_a_group_within_another(self):
        H, K = Symbol(*by_hand.GAMMA0_2), Symbol.gamma(2)
        self.assertTrue(all(generator.matrix in H for generator in K.generators))
        self.assertFalse(H == K)
        self.assertFalse(K == H)

    def test_stored_groups(self):
        """Two stored groups are equal precisely when every generator of each is in the other."""
        groups = [Symbol(vertices, pairings) for _, vertices, pairings, *_ in by_hand.stored_symbols()]
        small = [H for H in groups if H.index <= 24]
        for H in small:
            for K in small:
                inside = [all(generator.matrix in B for generator in A.generators) for A, B in ((H, K), (K, H))]
                self.assertEqual(H == K, all(inside))
                self.assertFalse(H == K and hash(H) != hash(K))

    def test_other_things(self):
        H = Symbol(*by_hand.GAMMA0_2)
        for other in (None, 0, "Gamma0(2)", by_hand.GAMMA0_2, object()):
            self.assertFalse(H == other)
            self.assertTrue(H != other)
            # so that the other one is asked
            self.assertIs(H.__eq__(other), NotImplemented)

        class Equal:
            def __eq__(self, other):
                return True

        self.assertTrue(H == Equal())

    def test_copies(self):
        H = Symbol(*by_hand.GAMMA0_2)
        for other in (copy.copy(H), copy.deepcopy(H), pickle.loads(pickle.dumps(H)), eval(repr(H), {"Symbol": Symbol})):
            self.assertTrue(H == other)
            self.assertEqual((other.vertices, other.pairings), (H.vertices, H.pairings))
            self.assertEqual(other.word(by_hand.I, (1, 0, 2, 1)), [2, 1])

    def test_hashes_differ(self):
        self.assertNotEqual(hash(Symbol(*by_hand.GAMMA0_2)), hash(Symbol([0, 1], [1, 1, -2])))

    def test_classes_that_stand_on_it(self):
        """A copy is of the same class, with the attributes that it was given."""
        H = Other(*by_hand.GAMMA0_2)
        H.name = "Γ0(2)"
        for again in (copy.copy(H), copy.deepcopy(H), pickle.loads(pickle.dumps(H))):
            self.assertIs(type(again), Other)
            self.assertEqual((again.vertices, again.pairings, again.name), (H.vertices, H.pairings, "Γ0(2)"))
        self.assertIs(type(Other.parse(H.text())), Other)
        self.assertIs(type(Other.from_permutations(H.S, H.R)), Other)

    def test_never_made(self):
        for H in (Symbol.__new__(Symbol), object.__new__(Symbol)):
            for ask in (lambda: H.index, lambda: H.vertices, lambda: H.word(by_hand.I, by_hand.I), lambda: by_hand.I in H, lambda: H == H, lambda: hash(H), lambda: str(H), lambda: copy.copy(H)):
                with self.assertRaises(TypeError) as caught:
                    ask()
                self.assertEqual(str(caught.exception), "this Symbol was never made: Symbol(vertices, pairings) or one of its class methods makes one")

    def test_figures_that_are_refused(self):
        """18 is of the genus, 17 of the level."""
        with mock.patch.object(Symbol, "_figures", lambda H: (3, 1, 0, 2, 18, 0, 17, 0)):
            for name, number in (("genus", 18), ("level", 17)):
                with self.assertRaises(Refusal) as caught:
                    getattr(Symbol(*by_hand.GAMMA0_2), name)
                self.assertEqual((caught.exception.number, caught.exception.place), (number, 0))

    def test_attributes_stay(self):
        H = Symbol(*by_hand.GAMMA0_2)
        for name in ("index", "S", "vertices", "something"):
            with self.assertRaises(AttributeError):
                setattr(H, name, 1)

"""`Symbol.from_membership`: a subgroup from a test for its matrices."""

import unittest

from farey import Refusal, Symbol

from . import reckoning as by_hand


def congruence(name):
    return lambda M: by_hand.is_in(name, M)


class Membership(unittest.TestCase):
    def test_named_groups(self):
        """The congruences themselves: the group's own tables, reckoned from rows modulo N."""
        names = ["Gamma0(1)", "Gamma0(2)", "Gamma0(11)", "Gamma0(30)", "Gamma0(97)"]
        for name in names + ["Gamma1(7)", "Gamma1(12)", "Gamma(3)", "Gamma(7)"]:
            H = Symbol.from_membership(congruence(name))
            self.assertEqual((H.S, H.R), by_hand.named_tables(name), name)

    def test_up_to_sign(self):
        """A test for a group without -1, as SL2(Z) has them, is taken with -1."""
        H = Symbol.from_membership(lambda M: M[2] % 7 == 0 and M[0] % 7 == 1)
        self.assertTrue(H == Symbol.gamma1(7))
        self.assertEqual(H.index, 24)

    def test_groups_by_permutations(self):
        """A matrix is in where it fixes point 0: random pairs, with `farey.evidence` not asked; by both rules."""
        rng = by_hand.seeded("membership")
        for _ in range(30):
            s, r = by_hand.random_pair(rng, rng.randint(1, 24))
            K = Symbol.from_permutations(s, r)
            for rule in ("wide", "leftmost"):
                H = Symbol.from_membership(lambda M: M in K, rule=rule)
                self.assertEqual((H.S, H.R), by_hand.renumbered(s, r))
                expected = Symbol.from_permutations(H.S, H.R, rule=rule)
                self.assertEqual((H.vertices, H.pairings), (expected.vertices, expected.pairings))

    def test_another_group(self):
        """A subgroup that no family names: the matrices that are the identity, up to sign, or of order 3 modulo 2."""
        H = Symbol.from_membership(lambda M: [x % 2 for x in M] in ([1, 0, 0, 1], [0, 1, 1, 1], [1, 1, 1, 0]))
        self.assertEqual((H.index, H.e2, H.e3, H.cusps), (2, 0, 2, 1))

    def test_what_the_test_is_given(self):
        """Four integers with determinant 1."""
        asked = []

        def test(M):
            asked.append(M)
            return M[2] % 6 == 0

        self.assertEqual(Symbol.from_membership(test).index, 12)
        self.assertTrue(all(type(M) is tuple and list(map(type, M)) == [int] * 4 for M in asked))
        self.assertEqual({M[0] * M[3] - M[1] * M[2] for M in asked}, {1})

    def test_bound(self):
        for most in (1, 5, 11):
            with self.assertRaises(Refusal) as caught:
                Symbol.from_membership(congruence("Gamma0(11)"), most=most)
            self.assertEqual((caught.exception.number, caught.exception.place), (12, 0))
            self.assertIn(f"more than {most} cosets", str(caught.exception))
        self.assertEqual(Symbol.from_membership(congruence("Gamma0(11)"), most=12).index, 12)
        # an infinite index
        with self.assertRaises(Refusal):
            Symbol.from_membership(lambda M: M[2] == 0 or M[1:3] == (0, 0), most=60)

    def test_no_subgroups(self):
        """Tests that are those of no subgroup: no symbol, and a sentence."""
        for test, said in (
            (lambda M: False, "it fails the identity"),
            (lambda M: M[1] % 5 == 0 or M[2] % 5 == 0, None),
            (lambda M: M[0] % 5 == 1, None),
            (lambda M: abs(M[0]) < 3, "it fails"),
            (lambda M: M[2] % 7 in (0, 1), "it fails"),
            (lambda M: (M[0] + M[3]) % 3 == 2, "it "),
        ):
            with self.assertRaises(ValueError) as caught:
                Symbol.from_membership(test, most=300)
            if said:
                self.assertIn(said, str(caught.exception))

    def test_wrong_arguments(self):
        for wrong in (None, 5, "Gamma0(11)", [1]):
            with self.assertRaisesRegex(TypeError, "test is of type"):
                Symbol.from_membership(wrong)
        for wrong in (0, -1, 3067):
            with self.assertRaisesRegex(ValueError, "from 1 to 3,066"):
                Symbol.from_membership(lambda M: True, most=wrong)
        with self.assertRaisesRegex(TypeError, "most is"):
            Symbol.from_membership(lambda M: True, most=1.5)
        with self.assertRaisesRegex(ValueError, "rule is"):
            Symbol.from_membership(lambda M: True, rule="left")

        def fails(M):
            raise KeyError("mine")

        with self.assertRaises(KeyError):
            Symbol.from_membership(fails)

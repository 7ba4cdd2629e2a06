"""Random subgroups and random elements: each with the same chance.

Every pair of permutations with S² = R³ = 1 of up to seven points is listed, and so every subgroup of index
up to seven: by its tables, numbered from 0 on.
"""

import itertools
import math
import random
import unittest
from collections import Counter

import farey
from farey import Symbol, random_groups, random_subgroup

from . import reckoning as by_hand


def permutations_of_order(n, order):
    """All permutations of n points that move nothing when followed so many times."""
    points = range(n)
    for images in itertools.permutations(points):
        followed = list(points)
        for _ in range(order):
            followed = [images[x] for x in followed]
        if followed == list(points):
            yield images


def subgroups(n):
    """How many transitive pairs of n points have each pair of tables, numbered from 0 on."""
    pairs = itertools.product(permutations_of_order(n, 2), permutations_of_order(n, 3))
    return Counter(by_hand.renumbered(s, r) for s, r in pairs if len(by_hand.numbered(s, r)) == n)


#: How many subgroups of each index PSL2(Z) has, from the literature (OEIS A005133).
NUMBERS = [1, 1, 4, 8, 5, 22, 42]


class Subgroups(unittest.TestCase):
    @classmethod
    def setUpClass(cls):
        cls.found = {n: subgroups(n) for n in range(1, 8)}

    def test_each_has_as_many_pairs(self):
        """(n - 1)! pairs for each subgroup of index n, and as many subgroups as there are."""
        for n, found in self.found.items():
            self.assertEqual(set(found.values()), {math.factorial(n - 1)})
            self.assertEqual(len(found), NUMBERS[n - 1])

    def test_counts(self):
        """The numbers of permutations with so many fixed points."""
        for n in range(1, 7):
            for order in (2, 3):
                met = Counter(sum(x == y for x, y in enumerate(images)) for images in permutations_of_order(n, order))
                self.assertEqual(met, {fixed: random_groups.count(n, order, fixed) for fixed in met})
                choices = sorted(met)
                self.assertEqual(choices, list(range(n % order, n + 1, order)))

    def is_uniform(self, drawn, expected):
        """Every subgroup is met, no other, and the squares of the errors are those of equal chances: the sum is
        over its mean by less than five of its own standard deviations."""
        self.assertEqual(set(drawn), set(expected))
        mean = sum(drawn.values()) / len(expected)
        errors = sum((count - mean) ** 2 / mean for count in drawn.values())
        free = len(expected) - 1
        self.assertLess(abs(errors - free), 5 * math.sqrt(2 * free) + 1, drawn)

    def test_uniform(self):
        for n, found in self.found.items():
            rng = by_hand.seeded(f"subgroups {n}")
            drawn = Counter()
            for _ in range(60 * len(found)):
                H = random_subgroup(n, rng=rng)
                drawn[H.S, H.R] += 1
            self.is_uniform(drawn, found)

    def test_uniform_of_a_type(self):
        types = [(4, 0, 1), (4, 2, 1), (6, 0, 0), (6, 2, 0), (6, None, 3), (6, 2, None)]
        for n, e2, e3 in types + [(7, 1, 1), (7, 1, None), (7, 3, 1), (7, None, 1)]:
            wanted = [
                (s, r) for s, r in self.found[n]
                if e2 in (None, by_hand.figures_of(s, r)[0]) and e3 in (None, by_hand.figures_of(s, r)[1])
            ]
            rng = by_hand.seeded(f"type {n} {e2} {e3}")
            drawn = Counter()
            for _ in range(60 * len(wanted)):
                H = random_subgroup(n, e2, e3, rng)
                drawn[H.S, H.R] += 1
            self.is_uniform(drawn, wanted)

    def test_which_types_there_are(self):
        """Exactly those that some subgroup has; the others are told at once."""
        for n, found in self.found.items():
            types = {by_hand.figures_of(s, r)[:2] for s, r in found}
            for e2, e3 in itertools.product(range(-1, n + 2), repeat=2):
                if (e2, e3) in types:
                    H = random_subgroup(n, e2, e3, by_hand.seeded("types"))
                    self.assertEqual((H.index, H.e2, H.e3), (n, e2, e3))
                else:
                    with self.assertRaisesRegex(ValueError, f"no subgroup of index {n} has e2 = {e2} and e3 = {e3}"):
                        random_subgroup(n, e2, e3)

    def test_large(self):
        rng = by_hand.seeded("large subgroups")
        for n in (100, 1000, 3066):
            H = random_subgroup(n, rng=rng)
            e2, e3, genus, widths = by_hand.figures_of(H.S, H.R)
            self.assertEqual((H.index, H.e2, H.e3, H.genus, sorted(H.widths)), (n, e2, e3, genus, widths))
        for n, e2, e3 in ((300, 10, 6), (1000, 50, 100), (3066, 0, 0), (3066, 40, 60)):
            H = random_subgroup(n, e2, e3, rng)
            self.assertEqual((H.index, H.e2, H.e3), (n, e2, e3))

    def test_same_numbers_same_group(self):
        one, other = (farey.random_subgroup(40, rng=random.Random(5)) for _ in range(2))
        self.assertEqual((one.vertices, one.pairings), (other.vertices, other.pairings))
        self.assertEqual(random_subgroup(7).index, 7)

    def test_wrong_arguments(self):
        for wrong in (0, -3, 3067):
            with self.assertRaisesRegex(ValueError, "from 1 to 3,066"):
                random_subgroup(wrong)
        for given in ((1.5,), (True,), (6, 0.0), (6, 0, "0")):
            with self.assertRaises(TypeError):
                random_subgroup(*given)
        with self.assertRaisesRegex(TypeError, "rng is of type"):
            random_subgroup(6, rng=5)
        # a tree of 75 triangles, with two even and 75 odd sides: nearly all pairs of this type fall apart
        with self.assertRaisesRegex(RuntimeError, "30 pairs of permutations"):
            random_subgroup(300, 2, 75, by_hand.seeded("trees"), tries=30)


class Elements(unittest.TestCase):
    def test_uniform(self):
        """All reduced words of three letters are listed; each of their matrices is met as often as the others."""
        for pairings in ([1, -2, 1], [-3, -3], [-2, -3], [1, -3, 1], [-2, -3, -3, -2]):
            H = Symbol(range(len(pairings) - 1), pairings)
            kinds, matrices = zip(*by_hand.generators_of(H.vertices, pairings))
            letters = [sign * j for j in range(1, len(kinds) + 1) for sign in (1, -1)]
            words = [word for word in itertools.product(letters, repeat=3) if by_hand.is_reduced(word, kinds)]
            expected = {by_hand.value(word, matrices) for word in words}
            self.assertEqual(len(expected), len(words))
            rng = by_hand.seeded(f"elements {pairings}")
            drawn = Counter(H.random_element(3, rng) for _ in range(60 * len(expected)))
            Subgroups.is_uniform(self, drawn, expected)

    def test_length(self):
        rng = by_hand.seeded("lengths")
        for N in (1, 2, 3, 13, 60, 1000):
            H = Symbol.gamma0(N)
            for length in (0, 1, 2, 25, 200):
                M = H.random_element(length, rng)
                self.assertTrue(M[2] % N == 0 and M[0] * M[3] - M[1] * M[2] == 1)
                self.assertEqual(len(H.word(M)), length)
        self.assertTrue(H.random_element() in H)

    def test_wrong_arguments(self):
        H = Symbol.gamma0(11)
        for wrong in (-1, 1001):
            with self.assertRaisesRegex(ValueError, "from 0 to 1,000"):
                H.random_element(wrong)
        for given in ((1.5,), ("3",), (3, 7)):
            with self.assertRaises(TypeError):
                H.random_element(*given)

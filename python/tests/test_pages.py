"""The handbook: Python blocks and sentences of docs/HANDBOOK.md; and the docstrings of the
module. README.md and docs/TUTORIAL.md: `test_first_pages`.

| block of the handbook | what is done                                                              |
|-----------------------|---------------------------------------------------------------------------|
| `python`              | a session: each line prints what is shown; all blocks in order            |
| `sage python`         | run as Python: `test_recipes`                                             |
| `sage recipe`         | run as Python with stand-ins that give SageMath's answers: `test_recipes` |
| all but `python`      | what the systems said to them: `test_systems`                             |
"""

import doctest
import importlib
import pkgutil
import re
import unittest

import farey
from farey import Symbol

from . import reckoning as by_hand
from .pages import Session, blocks, page


class Sessions(Session):
    def test_handbook(self):
        self.assertGreater(self.run_page("docs/HANDBOOK.md")[1], 20)

    def test_docstrings(self):
        attempted = {}
        for module in pkgutil.iter_modules(farey.__path__):
            loaded = importlib.import_module(f"farey.{module.name}")
            result = doctest.testmod(loaded, verbose=False)
            self.assertEqual(result.failed, 0, module.name)
            attempted[module.name] = result.attempted
        result = doctest.testmod(farey, verbose=False)
        self.assertEqual(result.failed, 0)
        self.assertGreater(result.attempted, 0)
        names = "symbol making figures cosets words records random_groups refusal evidence cycles cycle_notation named"
        for name in names.split() + ["permutations", "subgroups", "systems"]:
            self.assertGreater(attempted[name], 1, name)

    def test_public_names_have_examples(self):
        named = "from_permutations from_cycles from_membership gamma0 gamma1 gamma parse text cycles generators word words"
        named += " normal_form reduce random_element why_none coset_of cusp_of permutation same_coset same_cosets"
        named += " contains_subgroup intersection_tables __contains__ __eq__ __and__ __le__ __str__ __repr__"
        for name in named.split():
            self.assertIn(">>>", getattr(Symbol, name).__doc__, name)
        self.assertIn(">>>", farey.random_subgroup.__doc__)


class Prose(unittest.TestCase):
    """Sentences of the handbook that say a matrix, a product or a way through the tables are worked out from their own words."""

    MATRIX = r"\((-?\d+ -?\d+; -?\d+ -?\d+)\)"

    def found(self, pattern):
        """The groups of a pattern that is in the handbook exactly once. A space in it may be the end of a line."""
        matches = re.findall(pattern.replace(" ", r"\s+"), page("docs/HANDBOOK.md"))
        self.assertEqual(len(matches), 1, pattern)
        return matches[0]

    def matrix(self, text):
        return tuple(map(int, text.replace(";", " ").split()))

    def factors(self, text, names):
        """Matrices with their powers, as in `S T⁻² S`."""
        made = []
        for factor in text.split():
            name, power = re.fullmatch(r"([A-Z]\d?)([⁻⁰¹²³⁴⁵⁶⁷⁸⁹]*)", factor).groups()
            power = int(power.translate(str.maketrans("⁻⁰¹²³⁴⁵⁶⁷⁸⁹", "-0123456789")) or "1")
            made.append((names[name], power))
        return made

    def product(self, factors):
        return by_hand.product(*(by_hand.inverse(M) if n < 0 else M for M, n in factors for _ in range(abs(n))))

    def test_the_worked_example(self):
        """A none that anybody can check: generators, tables, the product, and each step through the tables."""
        H = Symbol([0, 1], [1, -2, 1])
        first, second, S, R = self.found(
            rf"Take Γ0\(2\), A = I and B = S\. The generators are {self.MATRIX} and {self.MATRIX}, and the tables of the three points 0, 1, 2 are S = (\d \d \d) and R = (\d \d \d)\."
        )
        self.assertEqual(tuple(generator.matrix for generator in H.generators), (self.matrix(first), self.matrix(second)))
        s, r = by_hand.numbers(S), by_hand.numbers(R)
        self.assertEqual((H.S, H.R), (tuple(s), tuple(r)))
        named, letters, by_s, by_r = self.found(rf"{self.MATRIX} is T = ([SR] [SR]): 0 goes to (\d) by S and back to (\d) by R\.")
        self.assertEqual(self.matrix(named), by_hand.T)
        names = {"S": by_hand.S, "R": by_hand.R, "T": by_hand.T}
        self.assertTrue(by_hand.alike(self.product(self.factors(letters, names)), by_hand.T))
        self.assertEqual([s[0], r[s[0]]], [int(by_s), int(by_r)])
        whole, written = self.found(rf"By Euclid's algorithm {self.MATRIX} = ([^()]*?) up to sign")
        factors = self.factors(written, names)
        self.assertEqual(self.matrix(whole), self.matrix(second))
        self.assertTrue(by_hand.alike(self.product(factors), self.matrix(whole)))
        steps = self.found(
            r"sign: 0 goes to (\d) by (\S+), two steps along the cycle of (\d) and (\d) by (\S+), which end at (\d) again, back to (\d) by (\S+), and (\S+) leaves it there\."
        )
        self.assertEqual([steps[1], steps[4], steps[7], steps[8]], written.split())
        t = [r[x] for x in s]
        points = [0]
        for M, n in factors:
            table = {by_hand.S: s, by_hand.T: t}[M]
            if n < 0:
                table = [table.index(x) for x in range(3)]
            points.append(points[-1])
            for _ in range(abs(n)):
                points[-1] = table[points[-1]]
        self.assertEqual(points, [0, int(steps[0]), int(steps[5]), int(steps[6]), 0])
        one, two = int(steps[2]), int(steps[3])
        self.assertEqual((t[one], t[two]), (two, one))
        last = self.found(r"would be B A⁻¹ = S up to sign, which takes 0 to (\d)\. Hence there is none\.")
        self.assertEqual(int(last), s[0])

    def test_two_rules(self):
        """How many groups by name the leftmost rule refuses, and the largest entries by the wide rule."""
        refused, all_groups, of_gamma0, first = self.found(
            r"so for (\d+) of the ([\d,]+) groups by name, (\d+) of them Γ0\(N\), the first Γ0\((\d+)\)\."
        )
        largest, largest0 = self.found(r"no vertex of one has an entry over ([\d,]+), no Γ0\(N\) one over (\d+)\.")
        left, entries = {}, {}
        for family in (farey.gamma0, farey.gamma1, farey.gamma):
            for N in range(1, 1001):
                try:
                    H = family(N)
                except farey.Refusal as refusal:
                    self.assertEqual(refusal.number, 21)
                    continue
                entries[family, N] = max(abs(entry) for vertex in H.vertices for entry in vertex)
                try:
                    family(N, rule="leftmost")
                except farey.Refusal as refusal:
                    left[family, N] = refusal.number
        self.assertEqual(set(left.values()), {16})
        self.assertEqual((len(left), len(entries)), (int(refused), int(all_groups.replace(",", ""))))
        gamma0 = [N for family, N in left if family == farey.gamma0]
        self.assertEqual((len(gamma0), min(gamma0)), (int(of_gamma0), int(first)))
        self.assertEqual(max(entries.values()), int(largest.replace(",", "")))
        self.assertEqual(max(entry for (family, _), entry in entries.items() if family == farey.gamma0), int(largest0))

    def test_which_matrices(self):
        """The recipes' S, T and R, and Sage's names."""
        S, T, R = self.found(rf"\*\*Which matrices\.\*\* S = {self.MATRIX}, T = {self.MATRIX} and R = S T = {self.MATRIX}\.")
        self.assertEqual([self.matrix(M) for M in (S, T, R)], [by_hand.S, by_hand.T, by_hand.R])
        self.assertTrue(by_hand.alike(by_hand.product(by_hand.S, by_hand.T), by_hand.R))
        one, other, R, S3 = self.found(
            rf"Sage calls the first two `(\w+)` and `(\w+)`, and has no name for R: what Sage calls `R` is {self.MATRIX}, and its `S3` is {self.MATRIX}\."
        )
        self.assertEqual((one, other), ("S2", "L"))
        names = {one: by_hand.S, other: by_hand.T, "S3": self.matrix(S3), "R": self.matrix(R)}
        ours, too, sages = self.found(r"Up to sign, our R is ([^,.]*), which is ([^,.]*), and Sage's R is ([^,.]*)\.")
        self.assertTrue(by_hand.alike(self.product(self.factors(ours, names)), by_hand.R))
        self.assertTrue(by_hand.alike(self.product(self.factors(too, names)), by_hand.R))
        self.assertTrue(by_hand.alike(self.product(self.factors(sages, names)), names["R"]))
        taken = self.found(r"So take `(\w+)` and `(\w+)` from Sage and nothing else; R is then S followed by T\.")
        recipe = blocks("sage recipe")[1]
        self.assertEqual(taken, (one, other))
        self.assertEqual(set(re.findall(r"G\.(\w+)\(\)", recipe)), {*taken, "index"})

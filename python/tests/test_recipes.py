"""To other systems and from them: the Sage cells and recipes of docs/HANDBOOK.md, run as Python with stand-ins that give
SageMath's answers; PARI's polygons and Magma's texts by `farey.systems`. What the systems themselves say: `test_systems`.
"""

import contextlib
import io
import re
import unittest

import farey
from farey import Symbol, cycles, systems

from . import reckoning as by_hand
from .pages import blocks


class Rational:
    """As Sage's: numerator and denominator are methods."""

    def __init__(self, pair):
        self.pair = pair

    def numerator(self):
        return self.pair[0]

    def denominator(self):
        return self.pair[1]


class SageSymbol:
    """What FareySymbol gives of a stored group."""

    def __init__(self, vertices, pairings):
        self.answers = vertices, pairings

    def fractions(self):
        return [Rational(pair) for pair in self.answers[0]]

    def pairings(self):
        return self.answers[1]


class SagePermutations:
    """What ArithmeticSubgroup_Permutation gives of two permutations S2 and L: these
    are functions on points from 1."""

    def __init__(self, S2, L):
        count = max(map(int, re.findall(r"\d+", S2 + L)), default=1)
        self.tables = cycles.images(S2, count), cycles.images(L, count)

    def index(self):
        return len(self.tables[0])

    def S2(self):
        return lambda point: self.tables[0][point - 1] + 1

    def L(self):
        return lambda point: self.tables[1][point - 1] + 1


class Sage(unittest.TestCase):
    def recipes(self):
        names = {"Symbol": Symbol, "cycles": cycles, "ArithmeticSubgroup_Permutation": SagePermutations}
        found = blocks("sage recipe")
        self.assertEqual(len(found), 2)
        for block in found:
            exec(block, names)
        return names

    def test_cell_of_a_none(self):
        (cell,) = blocks("sage python")
        said = io.StringIO()
        with contextlib.redirect_stdout(said):
            exec(cell, {})
        self.assertEqual(said.getvalue(), "no product of the generators takes A to B\n")

    def test_cell_rejects_false_evidence(self):
        """A table, a generator or a pair altered in the cell stops it."""
        (cell,) = blocks("sage python")
        for right, wrong in (
            ("S, R = [1, 0, 2]", "S, R = [1, 2, 0]"),
            ("[2, 0, 1]", "[0, 2, 1]"),
            ("(1, -1, 2, -1)", "(1, -1, 1, 0)"),
            ("(1, -1, 2, -1)", "(2, 0, 0, 1)"),
            ("(0, -1, 1, 0)", "(1, 0, 2, 1)"),
        ):
            self.assertEqual(cell.count(right), 1)
            with self.assertRaises(AssertionError), contextlib.redirect_stdout(io.StringIO()):
                exec(cell.replace(right, wrong), {})

    def test_from_farey_symbol(self):
        make = self.recipes()["from_sage_symbol"]
        count = 0
        for name, vertices, pairings, index, e2, e3, genus, widths in by_hand.stored_symbols():
            H = make(SageSymbol(vertices, pairings))
            self.assertEqual((H.index, H.e2, H.e3, H.genus, sorted(H.widths)), (index, e2, e3, genus, widths), name)
            count += 1
        self.assertGreaterEqual(count, 67)

    def test_from_permutations_and_back(self):
        """S2 and L of each stored pair, L being T: S and then R. There and back it is the
        same group, numbered by the engine's rule."""
        names = self.recipes()
        count = 0
        for index, s, r, e2, e3, genus, widths in by_hand.stored_pairs():
            G = SagePermutations(cycles.text(s), cycles.text([r[x] for x in s]))
            H = names["from_sage_permutations"](G)
            self.assertEqual((H.index, H.e2, H.e3, H.genus, sorted(H.widths)), (index, e2, e3, genus, widths))
            again = names["to_sage"](H)
            self.assertEqual(tuple(map(tuple, again.tables)), (H.S, H.T))
            self.assertEqual(names["from_sage_permutations"](again).S, H.S)
            self.assertEqual(names["from_sage_permutations"](again).R, H.R)
            count += 1
        self.assertGreaterEqual(count, 120)

    def test_which_matrices(self):
        """The recipe's S2 and L are (0 -1; 1 0) and (1 1; 0 1): from the rows (c : d) of
        Γ0(N) it makes Γ0(N), and Sage's R = (1 0; 1 1) in the place of ours doesn't."""
        make = self.recipes()["from_sage_permutations"]
        for N in (2, 5, 11, 12, 30, 37):
            s, t = by_hand.gamma0_tables(N, by_hand.S, by_hand.T)
            H = make(SagePermutations(cycles.text(s), cycles.text(t)))
            (stored,) = (each for each in by_hand.stored_symbols() if each[0] == f"Gamma0({N})")
            sage = Symbol(stored[1], stored[2])
            self.assertEqual((H.S, H.R), (sage.S, sage.R))
            self.assertTrue(all(generator.matrix in sage for generator in H.generators))
            self.assertTrue(all(generator.matrix in H for generator in sage.generators))
            (lower,) = by_hand.gamma0_tables(N, (1, 0, 1, 1))
            with self.assertRaises(farey.Refusal) as caught:
                Symbol.from_permutations(s, lower)
            self.assertEqual(caught.exception.number, 14)

    def test_cell_of_sages_own(self):
        """The short cell isn't run, but its two permutations are those of the tables."""
        (cell,) = [block for block in blocks("sage") if "SL2Z" in block]
        S2, L = re.search(r'S2="([^"]*)", L="([^"]*)"', cell).groups()
        H = Symbol([0, 1], [1, -2, 1])
        self.assertEqual((S2, L), (cycles.text(H.S), cycles.text(H.T)))


class Pari(unittest.TestCase):
    def polygon(self, vertices, pairings, rotate, rng):
        """[edges, partners, pairing matrices] by PARI's description of mspolygon: an edge
        from a/c to b/d is (a b; c d) with determinant 1; the matrix of an edge takes
        its partner, turned round, to it."""
        ends = [(1, 0), *vertices, (1, 0)]
        edges = []
        for (a, c), (b, d) in zip(ends, ends[1:]):
            sign = a * d - b * c
            self.assertIn(sign, (1, -1))
            edges.append((sign * a, b, sign * c, d))
        partner, glued = [], []
        for side, pairing in enumerate(pairings):
            other = [i for i, label in enumerate(pairings) if label == pairing and i != side] if pairing > 0 else []
            partner.append(other[0] if other else side)
            # an edge is its side's frame times S up to sign, and an odd side has the frame's M Q M^-1
            turn = by_hand.product(by_hand.inverse(by_hand.S), by_hand.Q, by_hand.S) if pairing == -3 else by_hand.S
            matrix = by_hand.product(edges[side], turn, by_hand.inverse(edges[partner[side]]))
            glued.append(by_hand.negative(matrix) if rng.random() < 0.5 else matrix)
        count = len(edges)
        order = [(i + rotate) % count for i in range(count)]
        new = {old: i for i, old in enumerate(order)}
        return [edges[i] for i in order], [new[partner[i]] + 1 for i in order], [glued[i] for i in order]

    def test_stored_symbols(self):
        rng = by_hand.seeded("pari")
        for name, vertices, pairings, *_ in by_hand.stored_symbols():
            for _ in range(3):
                given = self.polygon(vertices, pairings, rng.randrange(len(pairings)), rng)
                with self.subTest(name):
                    found, stored = systems.from_mspolygon(*given), Symbol(vertices, pairings)
                    self.assertEqual(by_hand.symbol_itself(found), by_hand.symbol_itself(stored))

    def test_the_example_of_paris_description(self):
        """It is of Γ0(3), and its matrices pair the edges as PARI says."""
        edges, partners = [(-1, 1, -1, 0), (1, 0, 0, 1), (0, 1, -1, 1)], [2, 1, 3]
        glued = [(-1, -1, 0, -1), (1, -1, 0, 1), (1, -1, 3, -2)]
        for i, matrix in enumerate(glued):
            self.assertEqual(matrix[0] * matrix[3] - matrix[1] * matrix[2], 1)
            self.assertEqual(matrix[2] % 3, 0)
            if partners[i] != i + 1:
                turned = by_hand.product(edges[partners[i] - 1], by_hand.S)
                self.assertTrue(by_hand.alike(by_hand.product(matrix, turned), edges[i]))
        H = systems.from_mspolygon(edges, partners, glued)
        (stored,) = (each for each in by_hand.stored_symbols() if each[0] == "Gamma0(3)")
        self.assertEqual(by_hand.symbol_itself(H), by_hand.symbol_itself(Symbol(stored[1], stored[2])))

    def test_wrong(self):
        edges, partners = [(-1, 1, -1, 0), (1, 0, 0, 1), (0, 1, -1, 1)], [2, 1, 3]
        glued = [(-1, -1, 0, -1), (1, -1, 0, 1), (1, -1, 3, -2)]
        for given, part in (
            ((edges[:2], partners, glued), "not as many"),
            ((edges, [2, 1], glued), "not as many"),
            ((edges, [2, 3, 1], glued), "no involution"),
            ((edges, [0, 1, 2], glued), "no involution"),
            (([edges[0], edges[2], edges[1]], partners, glued), "doesn't end where"),
            (([edges[0], edges[2], edges[2]], partners, glued), "0 edges begin at infinity"),
            ((edges, partners, [glued[0], glued[1], (2, -1, 5, -2)]), "doesn't pair edge"),
            ((edges, partners, [glued[0], glued[1], (1, 0, 3, 1)]), "order 2 or 3"),
            ((edges, partners, [(1, 0, 1, 1), glued[1], glued[2]]), "doesn't pair edge"),
            ((edges, partners, [(1, 0, 0, 1), (1, 0, 0, 1), glued[2]]), "doesn't pair edge"),
            ((edges, partners, [(1, 5, 0, 1), (1, 0, 0, 1), glued[2]]), "doesn't pair edge"),
            # the first side of a pair, and the second
            ((edges, partners, [glued[0], (1, 5, 0, 1), glued[2]]), "pairings[1] doesn't pair edge 2"),
            ((edges, partners, [(1, 5, 0, 1), glued[1], glued[2]]), "pairings[0] doesn't pair edge 1"),
            (([], [], []), "0 edges"),
            # edges that are no matrices of determinant 1: a column 0/0, a path that is none, fractions that can be cancelled
            (([(-1, 1, -1, 0), (0, 0, 0, 1), (0, 1, -1, 1)], partners, glued), "the determinant of edges[1] isn't 1"),
            (([(-1, 0, -1, 0), (1, 0, 0, 1), (0, 1, -1, 1)], partners, glued), "the determinant of edges[0] isn't 1"),
            (([(-7, 1, -7, 0), (1, 0, 0, 1), (0, 1, -3, 1)], partners, glued), "the determinant of edges[0] isn't 1"),
            (([(-1, 1, -1, 0), (1, 0, 0, 1), (0, 1, -3, 1)], partners, glued), "the determinant of edges[2] isn't 1"),
            ((edges, partners, [glued[0], (1, 0, 0, 2), glued[2]]), "the determinant of pairings[1] isn't 1"),
            ((edges, partners, [glued[0], glued[1], (1, -1, 3, 10**5000)]), "the determinant of pairings[2] isn't 1"),
            # from infinity to 0 and back, twice
            (([(1, 0, 0, 1), (0, -1, 1, 0)] * 2, [2, 1, 4, 3], [(1, 0, 0, 1)] * 4), "2 edges begin at infinity"),
            # from infinity to 0, 1 and 2, with the matrices of a symbol
            (([(1, 0, 0, 1), (0, 1, -1, 1), (-1, 2, -1, 1)], [3, 2, 1], [glued[1], glued[2], glued[0]]), "edge 3 doesn't end where edge 1 begins"),
        ):
            with self.assertRaises(ValueError) as caught:
                systems.from_mspolygon(*given)
            self.assertIn(part, str(caught.exception))
        for given in ((5, partners, glued), (edges, [2.0, 1, 3], glued), (edges, partners, "abc"), ([None] * 3, partners, glued)):
            with self.assertRaises(TypeError):
                systems.from_mspolygon(*given)


class Magma(unittest.TestCase):
    def test_stored_symbols(self):
        """The text has the tables as cycles from 1, and the generators."""
        for name, vertices, pairings, index, *_ in by_hand.stored_symbols():
            H = Symbol(vertices, pairings)
            lines = systems.to_magma(H).splitlines()
            self.assertEqual(lines[0], f"N := Sym({index});")
            for letter, table in (("S", H.S), ("R", H.R)):
                (written,) = re.findall(rf"^{letter} := N!(.*);$", "\n".join(lines), re.M)
                self.assertEqual(cycles.images("()" if written == "1" else written, index), list(table), name)
            entries = re.findall(r"\[(-?\d+),(-?\d+),(-?\d+),(-?\d+)\]", lines[-1])
            expected = [matrix for _, matrix in by_hand.generators_of(vertices, pairings)]
            self.assertEqual([tuple(map(int, matrix)) for matrix in entries], expected)

    def test_wrong(self):
        for wrong in (None, "H", ([0, 1], [1, -2, 1])):
            with self.assertRaises(TypeError):
                systems.to_magma(wrong)

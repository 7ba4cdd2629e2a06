"""What Python users expect: how symbols are shown, the forms of arguments, notebooks."""

import copy
import pickle
import re
import unittest
import xml.etree.ElementTree as ElementTree
from base64 import b64decode

import farey
from farey import Refusal, Symbol, named_tables

from . import reckoning as by_hand


class Shown(unittest.TestCase):
    def test_repr(self):
        """The call that makes it, or its figures in one short line."""
        calls = 0
        for name, vertices, pairings, index, e2, e3, genus, widths in by_hand.stored_symbols():
            H = Symbol(vertices, pairings)
            said = repr(H)
            self.assertLessEqual(len(said), 88, name)
            if said.startswith("Symbol("):
                again = eval(said, {"Symbol": Symbol})
                self.assertEqual((again.vertices, again.pairings), (H.vertices, H.pairings))
                calls += 1
            else:
                cusps = f"{len(widths)} cusp" + ("s" if len(widths) > 1 else "")
                self.assertEqual(said, f"<Symbol of index {index}, genus {genus}, {cusps}, {len(vertices)} vertices>")
        self.assertGreater(calls, 20)

    def test_print(self):
        """Six lines, none of them long; the figures are SageMath's."""
        for name, vertices, pairings, index, e2, e3, genus, widths in by_hand.stored_symbols():
            H = Symbol(vertices, pairings)
            lines = str(H).split("\n")
            self.assertEqual(len(lines), 6)
            self.assertLessEqual(max(map(len, lines)), 100)
            self.assertRegex(lines[0], f"^subgroup of index {index} in PSL2\\(Z\\), genus {genus}, level {H.level}$")
            self.assertRegex(lines[1], f"^cusps: {len(widths)}, of widths? ")
            if not lines[1].endswith(".."):
                told = re.findall(r"(\d+)(?: \((\d+) times\))?", lines[1].partition("width")[2])
                self.assertEqual([int(width) for width, count in told for _ in range(int(count or 1))], sorted(widths))
            points = [f"{count} of order {order}" for count, order in ((e2, 2), (e3, 3)) if count]
            self.assertEqual(lines[2], "elliptic points: " + (", ".join(points) or "none"))
            kinds = [kind for kind, _ in by_hand.generators_of(vertices, pairings)]
            for kind in ("free", "even", "odd"):
                self.assertEqual(f"{kinds.count(kind)} {kind}" in lines[3], kind in kinds)
            fractions = [f"{a}/{b}" if b > 1 else str(a) for a, b in vertices]
            for line, whole in zip(lines[4:], (fractions, list(map(str, pairings)))):
                words = line.split()[1:]
                if words[-1] == "..":
                    self.assertGreater(len(whole), len(words[:-1]))
                    self.assertEqual(words[:-1], whole[: len(words) - 1])
                else:
                    self.assertEqual(words, whole)

    def test_level_that_is_refused(self):
        H = Symbol.parse((by_hand.REPOSITORY / "examples/refusals/17.txt").read_text("utf-8"))
        self.assertIn("level 2^64 or more", str(H))

    def test_notebooks(self):
        """A picture and a table of figures. A symbol that can't be drawn has the table alone."""
        H = Symbol.gamma0(11)
        self.assertEqual(H._repr_svg_(), H.svg())
        found = H._repr_html_()
        # an image has no end in HTML
        root = ElementTree.fromstring(re.sub(r"(<img [^>]*)>", r"\1/>", found))
        self.assertEqual(root.tag, "div")
        data = re.search(r'src="data:image/svg\+xml;base64,([^"]*)"', found)[1]
        self.assertEqual(b64decode(data).decode("utf-8"), H.svg())
        cells = [cell.text for cell in root.iter("td")]
        self.assertEqual(cells[0], "subgroup of index 12 in PSL2(Z), genus 1, level 11")
        self.assertEqual(len(cells), 6)
        deep = Symbol.parse((by_hand.REPOSITORY / "examples/refusals/22.drawing").read_text("utf-8"))
        self.assertIsNone(deep._repr_svg_())
        self.assertNotIn("<img", deep._repr_html_())
        self.assertIn(f"index {deep.index}", deep._repr_html_())


class Arguments(unittest.TestCase):
    def test_one_matrix(self):
        """`word(M)` is `word(I, M)`."""
        for H in (Symbol.gamma0(2), Symbol.gamma(3), Symbol([0], [-3, -2])):
            for M in by_hand.small_matrices(2):
                one, two = H.word(M), H.word(by_hand.I, M)
                self.assertEqual((one, one and one.sign), (two, two and two.sign))
                self.assertEqual(H.normal_form(M), two)
        with self.assertRaisesRegex(TypeError, "B is None"):
            Symbol.gamma0(2).word(by_hand.I, None)

    def test_s_and_t(self):
        """T is S and then R: from S and T, from S and R, and from all three the same symbol."""
        rng = by_hand.seeded("S and T")
        for _ in range(40):
            s, r = by_hand.random_pair(rng, rng.randint(1, 30))
            t = [r[x] for x in s]
            expected = Symbol.from_permutations(s, r)
            self.assertEqual(expected.T, Symbol.from_permutations(S=s, T=t).T)
            for given in ({"T": t}, {"R": r}, {"R": r, "T": t}):
                H = Symbol.from_permutations(S=s, **given)
                self.assertEqual((H.vertices, H.pairings), (expected.vertices, expected.pairings))
            leftmost = Symbol.from_permutations(S=s, T=t, rule="leftmost")
            self.assertEqual((leftmost.S, leftmost.R), by_hand.renumbered(s, r))
        N = 30
        s, t = by_hand.gamma0_tables(N, by_hand.S, by_hand.T)
        self.assertTrue(Symbol.from_permutations(S=s, T=t) == Symbol.gamma0(N))

    def test_s_and_t_refused(self):
        for s, t, number, place in (
            ([], [], 12, 0),
            ([0], [0, 1], 12, 0),
            ([1, 0, 3], [0, 2, 1], 13, 2),
            ([1, 0, 2], [0, 0, 1], 13, 1),
            ([1, 0, 2], [0, 2, -1], 13, 2),
            # S twice moves a point; R three times; and two parts
            ([1, 2, 0], [1, 2, 0], 14, 0),
            ([1, 0, 2], [0, 1, 2], 14, 0),
            ([1, 0, 2], [1, 0, 2], 15, 2),
        ):
            with self.assertRaises(Refusal) as caught:
                Symbol.from_permutations(S=s, T=t)
            self.assertEqual((caught.exception.number, caught.exception.place), (number, place), (s, t))
        with self.assertRaisesRegex(ValueError, "T isn't S and then R"):
            Symbol.from_permutations([1, 0, 2], [2, 0, 1], T=[0, 1, 2])
        with self.assertRaisesRegex(TypeError, "R is None"):
            Symbol.from_permutations([1, 0, 2])
        with self.assertRaisesRegex(TypeError, r"T\[0\]"):
            Symbol.from_permutations([1, 0, 2], T=[0.5, 0, 1])

    def test_permutation(self):
        """Those of S, R and T are the tables, and a product acts by its left factor first."""
        rng = by_hand.seeded("permutation")
        for H in (Symbol.gamma0(30), Symbol.gamma(4), Symbol.from_permutations(*by_hand.random_pair(rng, 25))):
            for M, table in ((by_hand.S, H.S), (by_hand.R, H.R), (by_hand.T, H.T), (by_hand.I, tuple(range(H.index)))):
                self.assertEqual(H.permutation(M), table)
                self.assertEqual(H.permutation(by_hand.negative(M)), table)
            _, M = by_hand.random_word(rng, 60)
            _, N = by_hand.random_word(rng, 60)
            first, second = H.permutation(M), H.permutation(N)
            self.assertEqual(H.permutation(by_hand.product(M, N)), tuple(second[x] for x in first))
        with self.assertRaises(Refusal):
            H.permutation((1, 0, 0, 2))

    def test_rules(self):
        """`rule` and the older `wide` say the same."""
        s, r = named_tables("gamma0", 36)
        wide, leftmost = (Symbol.from_permutations(s, r, rule=rule) for rule in ("wide", "leftmost"))
        self.assertNotEqual(wide.vertices, leftmost.vertices)
        self.assertEqual(Symbol.from_permutations(s, r).vertices, wide.vertices)
        self.assertEqual(Symbol.from_permutations(s, r, wide=False).vertices, leftmost.vertices)
        self.assertEqual(Symbol.from_permutations(s, r, False).vertices, leftmost.vertices)
        self.assertEqual(farey.gamma0(36).vertices, wide.vertices)
        self.assertEqual(farey.gamma0(36, rule="leftmost").vertices, leftmost.vertices)
        self.assertLessEqual(max(abs(x) for g in wide.generators for x in g.matrix), 10**6)
        self.assertGreater(max(abs(x) for g in leftmost.generators for x in g.matrix), 10**6)

    def test_copies_answer(self):
        """A copy, also of a symbol that was asked before, answers as it does."""
        H = Symbol.gamma0(11)
        before = H.index, (1, 0, 11 * 10**9, 1) in H
        for again in (copy.copy(H), copy.deepcopy(H), pickle.loads(pickle.dumps(H))):
            self.assertEqual((again.index, (1, 0, 11 * 10**9, 1) in again), before)

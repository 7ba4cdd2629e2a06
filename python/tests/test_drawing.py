"""Sides for a drawing: floats by Python's own division of integers; `./farey draw`; the plates."""

import os
import re
import subprocess
import sys
import tempfile
import unittest
from pathlib import Path

from farey import Box, Refusal, Side, Symbol, library, named_tables

from . import reckoning as by_hand


def by_division(H):
    """The sides and the box. Python rounds a quotient of integers once, whatever their size."""
    kinds = {-2: "even", -3: "odd"}
    closed = ((-1, 0),) + H.vertices + ((1, 0),)
    sides = []
    for i, pairing in enumerate(H.pairings):
        (a, b), (c, d) = closed[i], closed[i + 1]
        kind = kinds.get(pairing, "free")
        if b == 0 or d == 0:
            sides.append(Side(kind, float(a if d == 0 else c), None, None))
        else:
            sides.append(Side(kind, None, (a * d + c * b) / (2 * b * d), 1 / (2 * b * d)))
    lefts = [side.place if side.radius is None else side.centre - side.radius for side in sides]
    rights = [side.place if side.radius is None else side.centre + side.radius for side in sides]
    return tuple(sides), Box(min(lefts), max(rights), 0.0, max([0.0] + [side.radius for side in sides if side.radius]))


def way_to(num, den):
    """The vertices from 0/1 to 1/1 on the way down the Farey tree to num/den."""
    left, right = [(0, 1)], [(1, 1)]
    while left[-1] != (num, den):
        middle = (left[-1][0] + right[-1][0], left[-1][1] + right[-1][1])
        (left if middle[0] * den <= num * middle[1] else right).append(middle)
    return left + right[::-1]


class Sides(unittest.TestCase):
    def test_stored_symbols(self):
        for name, vertices, pairings, *_ in by_hand.stored_symbols():
            with self.subTest(name):
                H = Symbol(vertices, pairings)
                self.assertEqual((H.sides(), H.box()), by_division(H))

    def test_named_groups(self):
        """By the leftmost rule entries grow, and some groups are refused with 22."""
        met = {True: 0, False: 0}
        for N in range(1, 200):
            try:
                H = Symbol.from_permutations(*named_tables("gamma0", N), wide=False)
            except Refusal:
                H = Symbol.from_permutations(*named_tables("gamma0", N))
            entries = [entry for pair in H.vertices for entry in pair]
            large = [i for i, entry in enumerate(entries) if abs(entry) > 33554432]
            if large:
                with self.assertRaises(Refusal) as came:
                    H.sides()
                self.assertEqual((came.exception.number, came.exception.place), (22, large[0]))
            else:
                self.assertEqual((H.sides(), H.box()), by_division(H))
            met[bool(large)] += 1
        self.assertGreater(min(met.values()), 10)

    def test_at_the_limit(self):
        for num, den in ((20737779, 2**25), (20737780, 2**25 + 1)):
            vertices = way_to(num, den)
            H = Symbol(vertices, [-3] * (len(vertices) + 1))
            if den == 2**25:
                self.assertEqual((H.sides(), H.box()), by_division(H))
                continue
            for ask in (H.sides, H.box, H.svg):
                with self.assertRaises(Refusal) as came:
                    ask()
                place = 2 * vertices.index((num, den)) + 1
                self.assertEqual((came.exception.number, came.exception.place), (22, place))


class Commands(unittest.TestCase):
    def test_farey_draw(self):
        def draw(text):
            command = [by_hand.REPOSITORY / "farey", "draw"]
            return subprocess.run(command, input=text, capture_output=True, text=True, timeout=600)

        H = Symbol.parse((by_hand.REPOSITORY / "examples/gamma0-11.txt").read_text("utf-8"))
        came = draw(H.text())
        self.assertEqual((came.returncode, came.stdout), (0, H.svg()), came.stderr)
        large = (by_hand.REPOSITORY / "examples/refusals/22.drawing").read_text("utf-8")
        table = (by_hand.REPOSITORY / "rust/farey/refusals.txt").read_text("utf-8")
        row = re.search(r"^  example: examples/refusals/22.drawing: (.*)$", table, re.M)
        for text, answer in (
            (large, row.group(1) + "\n"),
            ("2 0 1 1 1 1 -2", "refused 19 14\n"),
            ("1 0 1 -2 -2", "refused 7 0\n"),
            ("refused 16 3\n", "refused 19 0\n"),
        ):
            came = draw(text)
            self.assertEqual((came.returncode, came.stdout), (0, answer), came.stderr)

    def test_options(self):
        """The words that the module is given are the arguments of `svg`."""
        H = Symbol.gamma0(15)

        def draw(*words):
            command = [sys.executable, "-B", "-m", "farey.picture", *words]
            settings = dict(os.environ, FAREY_LIBRARY=str(library.path().resolve()))
            settings["PYTHONPATH"] = str(by_hand.REPOSITORY / "python")
            return subprocess.run(command, input=H.text().encode(), capture_output=True, timeout=60, env=settings)

        pictures = set()
        for words in ((), ("--disc",), ("--cusps", "--disc"), ("--cusps",)):
            came = draw(*words)
            expected = H.svg(disc="--disc" in words, cusps="--cusps" in words)
            self.assertEqual((came.returncode, came.stderr, came.stdout.decode("utf-8")), (0, b"", expected))
            pictures.add(came.stdout)
        self.assertEqual(len(pictures), 4)
        came = draw("--ball")
        self.assertEqual((came.returncode, came.stdout), (2, b""))
        self.assertIn(b"usage:", came.stderr)

    def test_plates(self):
        """docs/plates has what tools/plates writes, and no more. Each is of the group that its name says."""
        with tempfile.TemporaryDirectory() as folder:
            command = [sys.executable, "-B", by_hand.REPOSITORY / "tools/plates", folder]
            came = subprocess.run(command, capture_output=True, text=True, timeout=120)
            self.assertEqual((came.returncode, came.stderr), (0, ""))
            made = {path.name: path.read_text("utf-8") for path in Path(folder).iterdir()}
        there = {path.name: path.read_text("utf-8") for path in (by_hand.REPOSITORY / "docs/plates").iterdir()}
        self.assertEqual(sorted(made), sorted(there))
        for name, text in made.items():
            self.assertTrue(text == there[name], f"docs/plates/{name} isn't what tools/plates writes")
            family, N = re.match(r"(gamma[01]?)-(\d+)", name).groups()
            H = getattr(Symbol, family)(int(N))
            self.assertIn(f'data-cosets="{H.index}"', text)

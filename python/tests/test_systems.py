"""Sage, GAP and PARI: what they printed, stored in `data`, and what they print now where they are on the PATH.

| stored                    | what it is                                                              |
|---------------------------|-------------------------------------------------------------------------|
| `sage-permutations.txt`   | groups as SageMath has them: S2, S3, L, R, and FareySymbol              |
| `pari-polygons.txt`       | PARI's mspolygon                                                        |
| `gap.said`, `gp.said`, .. | a program, a line `----`, and what the system printed when it was given |

The programs are the cells of docs/HANDBOOK.md, in Sage's case with lines behind them that use the recipes. What is asked of an answer is asked of the stored one
at every run, and of the system's own where it is there. Nothing is left out where it isn't.
"""

import json
import os
import re
import shutil
import subprocess
import tempfile
import unittest

from farey import Refusal, Symbol, cycles, library, systems

from . import reckoning as by_hand
from .pages import blocks

HANDBOOK = (by_hand.REPOSITORY / "docs/HANDBOOK.md").read_text("utf-8")
DATA = by_hand.REPOSITORY / "python/tests/data"

#: The matrices of sage/modular/arithgroup/arithgroup_perm.py, in the docstring of ArithmeticSubgroup_Permutation.
S2, S3, L, R = (0, -1, 1, 0), (0, 1, -1, 1), (1, 1, 0, 1), (1, 0, 1, 1)

#: What asks a program who it is, and how the answer begins.
WHO = {
    "sage": (["sage", "-c", "import sys; print(SL2Z, sys.version_info >= (3, 9))"], "", "Modular Group SL(2,Z) True"),
    "gap": (["gap", "-q", "-A", "-r"], 'Print("GAP ", GAPInfo.Version, "\\n");\n', "GAP "),
    "gp": (["gp", "-q", "-f"], 'print("PARI ", version());\n', "PARI "),
}
#: Behind the handbook's Sage cells: the recipes with Sage's own groups, where a group without -I is made even. Each line is what
#: came to the engine, S and R; then whether Sage finds the same group in what goes back, and has the generators in it, and whether
#: Sage's own symbol of what goes back is of the same group. The last line is the refusal of a group that isn't made even.
USE = """
example = ArithmeticSubgroup_Permutation(S2="(1,2)(3,4)", S3="(1,2,3)")
other = ArithmeticSubgroup_Permutation(S2="(1,9)(2,5)(3,6)", S3="(1,4,6)(2,3,7)(5,9,8)")
for P in [Gamma0(11).as_permutation_group(), Gamma1(5).as_permutation_group().to_even_subgroup(), Gamma(3).as_permutation_group().to_even_subgroup(), example, other]:
    H, K = from_sage_permutations(P), from_sage_symbol(FareySymbol(P))
    again = from_sage_symbol(FareySymbol(to_sage(H)))
    print(*H.S, "|", *H.R, "|", *K.S, "|", *K.R, "|", to_sage(H) == P, all(SL2Z(list(g.matrix)) in P for g in H.generators), (again.S, again.R) == (H.S, H.R))
try:
    from_sage_permutations(Gamma1(5).as_permutation_group())
except Exception as refusal:
    print(refusal)
"""


def rows(name):
    """The fields of each line of a stored table."""
    lines = (DATA / name).read_text("utf-8").splitlines()
    return [[field.strip() for field in line.split("|")] for line in lines if line and not line.startswith("#")]


def is_here(name):
    """Whether the program of that name on the PATH is that system, and Sage one with a Python for `farey`."""
    command, text, begin = WHO[name]
    if shutil.which(name) is None:
        return False
    try:
        came = subprocess.run(command, input=text, capture_output=True, text=True, timeout=120)
    except (OSError, subprocess.SubprocessError):
        return False
    return came.returncode == 0 and came.stdout.startswith(begin)


def then(first, second):
    """Two permutations, one after the other."""
    return [second[x] for x in first]


def back(table):
    return [table.index(x) for x in range(len(table))]


class FourRows:
    """A group of Sage by its four rows, as ArithmeticSubgroup_Permutation has them."""

    def __init__(self, S2, S3, L, R):
        self.rows = {"S2": S2, "S3": S3, "L": L, "R": R}

    def __getattr__(self, name):
        images = self.rows[name]
        return lambda: lambda point: images[point - 1] + 1

    def index(self):
        return len(self.rows["S2"])


class Systems(unittest.TestCase):
    def answers(self, name, command, text, file=None, **settings):
        """What the system was seen to print to this text and, where it is here, what it prints now."""
        file = f"{file or name}.said"
        stored, said = (DATA / file).read_text("utf-8").split("----\n")
        asked = "".join(line for line in stored.splitlines(True) if not line.startswith("# "))
        self.assertEqual(asked.strip(), text.strip(), f"{file} is of another program than the handbook's")
        found = [said]
        if is_here(name):
            given = dict(input=text) if text not in command else dict(stdin=subprocess.DEVNULL)
            came = subprocess.run(command, env=dict(os.environ, **settings), capture_output=True, text=True, timeout=300, **given)
            self.assertEqual(came.returncode, 0, came.stderr)
            found.append(came.stdout)
        return found

    def recipes(self):
        names = {}
        for block in blocks("sage recipe"):
            exec(block, names)
        return names


class SagesRows(Systems):
    def groups(self):
        found = []
        for name, *fields in rows("sage-permutations.txt"):
            *tables, entries, pairings = map(by_hand.numbers, fields)
            tables = [[point - 1 for point in table] for table in tables]
            found.append((name, tables, list(zip(entries[::2], entries[1::2])), pairings))
        self.assertEqual(len(found), 29)
        return found

    def example(self):
        """The four rows of the docstring, S2, S3, L and R, from points 0."""
        name, tables, _, _ = self.groups()[0]
        self.assertEqual(name, "docstring")
        documented = "(1,2)(3,4)", "(1,2,3)", "(1,4,3)", "(2,4,3)"
        for table, cycle in zip(tables, documented):
            expected = {x: x for x in range(1, 5)}
            for part in re.findall(r"\(([^)]*)\)", cycle):
                points = list(map(int, part.split(",")))
                expected.update(zip(points, points[1:] + points[:1]))
            self.assertEqual([point + 1 for point in table], [expected[x] for x in range(1, 5)])
        return tables

    def test_the_example_is_of_these_matrices(self):
        """The cosets of the matrices with b = 0 modulo 3 are the rows (a : b). A matrix moves
        a row by multiplication from the right, and each of the four moves them as documented."""
        points = [(1, 0), (0, 1), (1, 2), (1, 1)]

        def place(a, b):
            (found,) = (i for i, (x, y) in enumerate(points) if (a * y - b * x) % 3 == 0)
            return found

        def moved(matrix):
            e, f, g, h = matrix
            return [place(a * e + b * g, a * f + b * h) for a, b in points]

        self.assertEqual([moved(matrix) for matrix in (S2, S3, L, R)], self.example())
        # and so the recipe's S and R are those of the engine's matrices, by the same action
        s, r = moved(by_hand.S), moved(by_hand.R)
        H = self.recipes()["from_sage_permutations"](FourRows(*self.example()))
        self.assertEqual((H.S, H.R), by_hand.renumbered(s, r))
        for M in by_hand.small_matrices(4):
            self.assertEqual(M in H, M[1] % 3 == 0, M)

    def test_products(self):
        """l = s3^-1 s2^-1, r = s3 s2 and r = s2^-1 l^-1 s2 are relations of the matrices. The documented rows
        fit them where a product acts by its left factor first, and don't where it acts by its right one."""
        multiply, invert, alike = by_hand.product, by_hand.inverse, by_hand.alike
        self.assertTrue(alike(L, multiply(invert(S3), invert(S2))))
        self.assertTrue(alike(R, multiply(S3, S2)))
        self.assertTrue(alike(R, multiply(invert(S2), invert(L), S2)))
        self.assertTrue(alike(by_hand.R, multiply(S2, L)))
        self.assertTrue(alike(by_hand.R, multiply(S2, invert(S3), S2)))
        for name, (s2, s3, l, r), _, _ in self.groups():
            with self.subTest(name):
                self.assertEqual(l, then(back(s3), back(s2)))
                self.assertEqual(r, then(s3, s2))
                self.assertEqual(r, then(then(back(s2), back(l)), s2))
                # the engine's R by its two forms
                self.assertEqual(then(s2, l), then(then(s2, back(s3)), s2))
        s2, s3, l, r = self.example()
        self.assertNotEqual(l, then(back(s2), back(s3)))
        self.assertNotEqual(r, then(s2, s3))

    def test_the_recipe(self):
        """Of each group: the symbol that the recipe makes is of the group that Sage's own
        symbol has, and of the one that its name says. With another of Sage's rows in
        the place of L it isn't, or is refused."""
        make = self.recipes()["from_sage_permutations"]
        told = {"the inverse of L for L": [], "R for L": [], "S3 for our R": []}
        for name, (s2, s3, l, r), fractions, pairings in self.groups():
            with self.subTest(name):
                H, K = make(FourRows(s2, s3, l, r)), Symbol(fractions, pairings)
                self.assertEqual((H.S, H.R), (K.S, K.R))
                self.assertEqual(H.index, len(s2))
                for _, matrix in by_hand.generators_of(fractions, pairings):
                    self.assertIn(matrix, H)
                for generator in H.generators:
                    self.assertIn(by_hand.is_in(name, generator.matrix), (True, None))
                for wrong, table in zip(told, (then(s2, back(l)), then(s2, r), s3)):
                    try:
                        other = Symbol.from_permutations(s2, table)
                        same = (other.S, other.R) == (H.S, H.R)
                    except Refusal as refusal:
                        self.assertEqual(refusal.number, 14)
                        same = False
                    if not same:
                        told[wrong].append(name)
        # the first 21 are their own mirror images, and so only the others tell L from its inverse
        self.assertEqual(told["the inverse of L for L"], ["random"] * 8)
        self.assertEqual(told["S3 for our R"], ["random"] * 8)
        self.assertGreaterEqual(len(told["R for L"]), 20)


class SagesCells(Systems):
    def test_all_cells(self):
        """The four Sage cells of the handbook, and the recipes with Sage's own groups."""
        cells = blocks("sage python") + blocks("sage") + blocks("sage recipe")
        self.assertEqual(len(cells), 4)
        text = "\n".join(cells) + USE
        own = tempfile.TemporaryDirectory()
        self.addCleanup(own.cleanup)
        place = {"PYTHONPATH": str(by_hand.REPOSITORY / "python"), "PYTHONDONTWRITEBYTECODE": "1", "DOT_SAGE": own.name}
        place[library.VARIABLE] = str(library.path().resolve())
        for said in self.answers("sage", ["sage", "-c", text], text, **place):
            none, short, *groups, odd = said.splitlines()
            self.assertEqual(odd, "refused 14 0: S twice or R three times moves point 0")
            self.assertEqual(none, "no product of the generators takes A to B")
            self.assertEqual(short, "True False")
            self.assertIn(f"With Sage's own permutations it is shorter. It prints `{short}`:\n\n```sage\n", HANDBOOK)
            self.assertEqual(len(groups), 5)
            names = "Gamma0(11)", "Gamma1(5)", "Gamma(3)", "example", "other"
            # the last isn't its own mirror image. Our R is S2 S3^-1 S2, as SagesRows has it of the matrices
            s2, s3 = cycles.images("(1,9)(2,5)(3,6)", 9), cycles.images("(1,4,6)(2,3,7)(5,9,8)", 9)
            other = s2, then(then(s2, back(s3)), s2)
            for name, line in zip(names, groups):
                *tables, same = [field.split() for field in line.split("|")]
                s, r, s_too, r_too = [list(map(int, table)) for table in tables]
                self.assertEqual(same, ["True"] * 3, name)
                self.assertEqual((s, r), (s_too, r_too), name)
                # the tables are of that group: a word leads from 0 to 0 just where its matrix is in it
                rng, fixed = by_hand.seeded(name), 0
                for _ in range(600):
                    letters, M = by_hand.random_word(rng, rng.randint(0, 9))
                    if name == "example":
                        expected = M[1] % 3 == 0
                    else:
                        expected = by_hand.followed(*other, letters) == 0 if name == "other" else by_hand.is_in(name, M)
                    self.assertEqual(by_hand.followed(s, r, letters) == 0, expected, (name, M))
                    fixed += expected
                self.assertGreater(fixed, 20, name)


class Gap(Systems):
    def test_the_cell(self):
        """GAP reads the cycles as `cycles.images` does, its S and R are those of the rows
        (c : d) modulo 5, and its product acts by the left factor first: S*R is T."""
        (cell,) = blocks("gap")
        for said in self.answers("gap", ["gap", "-q", "-A", "-r"], cell):
            s, r, t = [cycles.images(part, 6) for part in said.split()]
            self.assertEqual(by_hand.renumbered(s, r), tuple(map(tuple, by_hand.gamma0_tables(5, by_hand.S, by_hand.R))))
            self.assertEqual(t, then(s, r))
            self.assertNotEqual(t, then(r, s))
            # what the page says of this: the line, its third part, and the order of the factors
            self.assertIn(f"{cell}```\n\nIt prints `{said.strip()}`; the third is T.\n", HANDBOOK)
            self.assertIn("In Sage and GAP, as here, permutations act from the right: a product acts by its left factor first", HANDBOOK)
            self.assertIn("With S and T at hand, R is `S*T` in GAP.", HANDBOOK)
            self.assertEqual(r, then(s, t))
            session = "\n".join(blocks("python"))
            self.assertIn(f'cycles.images("{cycles.text(s)}", 6), cycles.images("{cycles.text(r)}", 6)', session)


class Pari(Systems):
    def agrees(self, N, edges, partners, glued):
        """The lists are as the description of mspolygon has them, and make a symbol of Γ0(N)."""
        for i, matrix in enumerate(glued):
            self.assertEqual(matrix[0] * matrix[3] - matrix[1] * matrix[2], 1)
            self.assertEqual(matrix[2] % N, 0)
            if partners[i] == i + 1 and abs(matrix[0] + matrix[3]) == 1:
                # of order 3: it, or its square, takes the edge's beginning a/c to its end b/d
                a, b, c, d = edges[i]
                ends = [(x * a + y * c, z * a + w * c) for x, y, z, w in (matrix, by_hand.product(matrix, matrix))]
                self.assertEqual([p * d == q * b for p, q in ends].count(True), 1, (N, i))
            else:
                turned = by_hand.product(edges[partners[i] - 1], by_hand.S)
                self.assertTrue(by_hand.alike(by_hand.product(matrix, turned), edges[i]), (N, i))
        H = systems.from_mspolygon(edges, partners, glued)
        s, r = by_hand.gamma0_tables(N, by_hand.S, by_hand.R)
        self.assertEqual((H.S, H.R), by_hand.renumbered(s, r), N)
        self.assertTrue(all(generator.matrix[2] % N == 0 for generator in H.generators))
        return H

    def test_stored_polygons(self):
        """Edges, partners and matrices of PARI's own, and the symbol of each."""
        kinds = set()
        levels = []
        for N, *lists in rows("pari-polygons.txt"):
            H = self.agrees(int(N), *map(json.loads, lists))
            kinds.update(generator.kind for generator in H.generators)
            levels.append(int(N))
        self.assertEqual(levels, [1, 2, 3, 4, 5, 7, 11, 12, 13, 30, 37, 60])
        self.assertEqual(kinds, {"free", "even", "odd"})

    def test_the_cells(self):
        """PARI's product of permutations acts by the right factor first: T*S is R. What it prints of
        mspolygon(3) is of Γ0(3), and is what the handbook's session is given."""
        product, polygon = blocks("gp")
        seen = []
        for said in self.answers("gp", ["gp", "-q", "-f"], product + polygon):
            first, *lists = said.splitlines()
            r = [int(point) - 1 for point in re.fullmatch(r"Vecsmall\(\[(.*)\]\)", first)[1].split(",")]
            s, t = [[int(point) - 1 for point in each.split(",")] for each in re.findall(r"Vecsmall\(\[(.*?)\]\)", product)]
            self.assertEqual(r, then(s, t))
            self.assertNotEqual(r, then(t, s))
            self.assertEqual(by_hand.renumbered(s, r), tuple(map(tuple, by_hand.gamma0_tables(5, by_hand.S, by_hand.R))))
            # and so the page's sentences are right: r is what gp printed of T*S, and acts as s and then t
            self.assertIn("print(T*S)\n", product)
            self.assertIn("In PARI `p*q` acts by q first, so R is `T*S` there.", HANDBOOK)
            self.assertIn("In `gp` it is `T*S`; for the same group:\n\n```gp\n" + product, HANDBOOK)
            self.assertEqual(len(lists), 3)
            self.agrees(3, *map(json.loads, lists))
            seen.append(lists)
        session = "\n".join(blocks("python"))
        self.assertIn("edges = {}\n>>> systems.from_mspolygon(edges, {}, {})\n".format(*seen[0]), session)

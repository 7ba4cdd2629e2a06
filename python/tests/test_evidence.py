"""The check of a 'none' accepts evidence that holds, and nothing else."""

import ast
import unittest

from farey import Symbol, evidence

from . import reckoning as by_hand

S_OF_2, R_OF_2 = [1, 0, 2], [2, 0, 1]
GENERATORS_OF_2 = [(1, 1, 0, 1), (1, -1, 2, -1)]


def why_not(*claimed):
    """The sentence with which evidence is rejected, or None where it is accepted."""
    try:
        return None if evidence.check(*claimed) is True else "not True"
    except ValueError as error:
        return str(error)


class Image(unittest.TestCase):
    """The point x·M by Euclid's algorithm is where M's letters lead."""

    def test_random_words(self):
        rng = by_hand.seeded("image")
        for _ in range(400):
            s, r = by_hand.random_pair(rng, rng.randint(1, 30))
            letters, matrix = by_hand.random_word(rng, rng.randint(0, 60))
            start = rng.randrange(len(s))
            expected = by_hand.followed(s, r, letters, start)
            self.assertEqual(evidence.image(s, r, start, matrix), expected)
            self.assertEqual(evidence.image(s, r, start, by_hand.negative(matrix)), expected)

    def test_right_action(self):
        rng = by_hand.seeded("action")
        moved = 0
        for _ in range(200):
            s, r = by_hand.random_pair(rng, rng.randint(1, 30))
            (_, M), (_, N) = by_hand.random_word(rng, 15), by_hand.random_word(rng, 15)
            x = rng.randrange(len(s))
            there = evidence.image(s, r, evidence.image(s, r, x, M), N)
            self.assertEqual(evidence.image(s, r, x, by_hand.product(M, N)), there)
            moved += there != evidence.image(s, r, x, by_hand.product(N, M))
        # the order of the factors matters, so that the other one would have been noticed
        self.assertGreater(moved, 100)

    def test_named_matrices(self):
        s, r = by_hand.random_pair(by_hand.seeded("named"), 20)
        for x in range(20):
            self.assertEqual(evidence.image(s, r, x, by_hand.S), s[x])
            self.assertEqual(evidence.image(s, r, x, by_hand.R), r[x])
            self.assertEqual(evidence.image(s, r, x, by_hand.T), r[s[x]])
            # Q is S, R, R, S in this order (docs/CONVENTIONS.md, 1.6)
            self.assertEqual(evidence.image(s, r, x, by_hand.Q), s[r[r[s[x]]]])

    def test_gamma0(self):
        """On the rows (c : d) modulo N every matrix acts by multiplication."""
        rng = by_hand.seeded("rows")
        for N in (2, 5, 11, 12, 30):
            s, r = by_hand.gamma0_tables(N, by_hand.S, by_hand.R)
            for _ in range(20):
                _, matrix = by_hand.random_word(rng, 25)
                (expected,) = by_hand.gamma0_tables(N, matrix)
                self.assertEqual([evidence.image(s, r, x, matrix) for x in range(len(s))], expected)


class True_evidence(unittest.TestCase):
    """What the engine gives for a 'none' is accepted."""

    def test_random_groups(self):
        rng = by_hand.seeded("none")
        nones = words = 0
        for _ in range(80):
            s, r = by_hand.random_pair(rng, rng.randint(1, 40))
            H = Symbol.from_permutations(s, r)
            for _ in range(6):
                (over, A), (under, B) = by_hand.random_word(rng, 8), by_hand.random_word(rng, 8)
                if by_hand.followed(s, r, over) == by_hand.followed(s, r, under):
                    self.assertIsNotNone(H.word(A, B))
                    with self.assertRaises(ValueError) as caught:
                        H.why_none(A, B)
                    self.assertIn("there is a word", str(caught.exception))
                    words += 1
                else:
                    why = H.why_none(A, B)
                    self.assertEqual((why.S, why.R, why.A, why.B), (H.S, H.R, A, B))
                    self.assertEqual(why.generators, tuple(matrix for _, matrix in H.generators))
                    self.assertIs(evidence.check(*why), True)
                    nones += 1
        self.assertGreater(min(nones, words), 60)

    def test_stored_groups(self):
        rng = by_hand.seeded("stored")
        nones = 0
        for name, vertices, pairings, *_ in by_hand.stored_symbols():
            H = Symbol(vertices, pairings)
            _, X = by_hand.random_word(rng, 14)
            if by_hand.is_in(name, X) is False:
                self.assertIs(evidence.check(*H.why_none(by_hand.I, X)), True)
                nones += 1
        self.assertGreater(nones, 30)

    def test_any_tables_will_do(self):
        """No generator at all, two points: S is no product of nothing."""
        self.assertIs(evidence.check([], [1, 0], [0, 1], by_hand.I, by_hand.S), True)

    def test_large_entries(self):
        """Larger than the engine takes: T to a power that isn't a multiple of the width."""
        n = 10**30
        self.assertIs(evidence.check([(1, 0, 2, 1)], S_OF_2, R_OF_2, by_hand.I, (1, 0, n + 1, 1)), True)
        self.assertIn("fixes point 0", why_not([(1, 0, 2, 1)], S_OF_2, R_OF_2, by_hand.I, (1, 0, n, 1)))


class False_evidence(unittest.TestCase):
    """What proves nothing is rejected."""

    def test_a_pair_with_a_word(self):
        rng = by_hand.seeded("false")
        for _ in range(60):
            s, r = by_hand.random_pair(rng, rng.randint(1, 30))
            H = Symbol.from_permutations(s, r)
            matrices = [matrix for _, matrix in H.generators]
            X = by_hand.value([rng.choice([1, -1]) * rng.randint(1, len(matrices)) for _ in range(4)], matrices)
            _, A = by_hand.random_word(rng, 8)
            self.assertIn("B A^-1 fixes point 0", why_not(matrices, H.S, H.R, A, by_hand.product(X, A)))

    def test_altered_tables(self):
        """Each other entry in each place. An altered table is no permutation."""
        H = Symbol.from_permutations(*by_hand.gamma0_tables(5, by_hand.S, by_hand.R))
        why = H.why_none(by_hand.I, by_hand.S)
        count = 0
        for name in ("S", "R"):
            for place in range(H.index):
                for entry in range(-1, H.index + 1):
                    table = list(getattr(why, name))
                    if table[place] == entry:
                        continue
                    table[place] = entry
                    said = why_not(*why._replace(**{name: table}))
                    self.assertIn("no point" if entry in (-1, H.index) else "moves a point", said)
                    count += 1
        self.assertEqual(count, 2 * H.index * (H.index + 1))

    def test_exchanged_tables(self):
        why = Symbol([0, 1], [1, -2, 1]).why_none(by_hand.I, by_hand.S)
        self.assertIn("moves a point", why_not(*why._replace(S=why.R, R=why.S)))

    def test_tables_of_another_group(self):
        """Γ0(5)'s tables with Γ0(7)'s generators, which aren't all in Γ0(5)."""
        five, seven = (Symbol.from_permutations(*by_hand.gamma0_tables(N, by_hand.S, by_hand.R)) for N in (5, 7))
        matrices = [matrix for _, matrix in seven.generators]
        self.assertIn("moves point 0", why_not(matrices, five.S, five.R, by_hand.I, by_hand.S))

    def test_altered_generators(self):
        """A generator times T, S or R on a side, where that leaves H."""
        rng = by_hand.seeded("altered")
        count = 0
        for _ in range(60):
            s, r = by_hand.random_pair(rng, rng.randint(3, 30))
            H = Symbol.from_permutations(s, r)
            generators = [matrix for _, matrix in H.generators]
            _, B = by_hand.random_word(rng, 9)
            letter, matrix = rng.choice([("S", by_hand.S), ("R", by_hand.R)])
            if by_hand.followed(s, r, [letter]) == 0 or B in H:
                continue
            self.assertIs(evidence.check(generators, H.S, H.R, by_hand.I, B), True)
            place = rng.randrange(len(generators))
            generators[place] = by_hand.product(matrix, generators[place])
            self.assertIn("moves point 0", why_not(generators, H.S, H.R, by_hand.I, B))
            count += 1
        self.assertGreater(count, 20)

    def test_one_more_generator(self):
        self.assertIn("moves point 0", why_not(GENERATORS_OF_2 + [by_hand.S], S_OF_2, R_OF_2, by_hand.I, by_hand.S))

    def test_generators_that_can_be_read_once(self):
        """An iterator isn't empty at the second reading: the false one in it is seen."""
        false = iter(GENERATORS_OF_2 + [by_hand.S])
        self.assertIn("moves point 0", why_not(false, S_OF_2, R_OF_2, by_hand.I, by_hand.S))
        self.assertIsNone(why_not(iter(GENERATORS_OF_2), S_OF_2, R_OF_2, iter(by_hand.I), iter(by_hand.S)))

    def test_the_other_order(self):
        """A^-1 B in place of B A^-1: here the first is in H and the second isn't, and
        the other way round."""
        H = Symbol([0, 1], [1, -2, 1])
        A, B = by_hand.R, by_hand.product(by_hand.R, by_hand.T)
        self.assertTrue(by_hand.product(by_hand.inverse(A), B) in H)
        self.assertFalse(by_hand.product(B, by_hand.inverse(A)) in H)
        self.assertIs(evidence.check(*H.why_none(A, B)), True)
        A, B = by_hand.inverse(A), by_hand.inverse(B)
        self.assertIsNotNone(H.word(A, by_hand.product(by_hand.T, A)))
        self.assertIn("fixes point 0", why_not(GENERATORS_OF_2, S_OF_2, R_OF_2, A, by_hand.product(by_hand.T, A)))

    def test_no_matrices(self):
        fine = [GENERATORS_OF_2, S_OF_2, R_OF_2, by_hand.I, by_hand.S]
        self.assertIsNone(why_not(*fine))
        for wrong in ((2, 0, 0, 1), (0, 1, 1, 0), (1, 0, 0), (1, 0, 0, 1, 0), ()):
            for place, claimed in ((0, [wrong]), (0, GENERATORS_OF_2 + [wrong]), (3, wrong), (4, wrong)):
                given = list(fine)
                given[place] = claimed
                self.assertIn("no matrix of determinant 1", why_not(*given))

    def test_no_tables(self):
        for s, r in (([], []), ([0], []), ([0], [0, 1]), ([1, 0, 2, 3], R_OF_2), (S_OF_2, [2, 0, 1, 3])):
            self.assertIn("tables of one length", why_not(GENERATORS_OF_2, s, r, by_hand.I, by_hand.S))

    def test_no_integers(self):
        for wrong in (1.0, True, "1", None, 1j):
            for given in (
                ([(wrong, 1, 0, 1)], S_OF_2, R_OF_2, by_hand.I, by_hand.S),
                (GENERATORS_OF_2, [wrong, 0, 2], R_OF_2, by_hand.I, by_hand.S),
                (GENERATORS_OF_2, S_OF_2, [2, 0, wrong], by_hand.I, by_hand.S),
                (GENERATORS_OF_2, S_OF_2, R_OF_2, (wrong, 0, 0, 1), by_hand.S),
                (GENERATORS_OF_2, S_OF_2, R_OF_2, by_hand.I, (0, -1, wrong, 0)),
            ):
                with self.assertRaises(TypeError):
                    evidence.check(*given)

    def test_bools(self):
        """Python's and NumPy's, which has `__index__` in some releases."""
        for wrong in (True, NUMPYS(1), type("bool", (Whole,), {})(1)):
            with self.assertRaises(TypeError) as caught:
                evidence.check(GENERATORS_OF_2, [wrong, 0, 2], R_OF_2, by_hand.I, by_hand.S)
            self.assertEqual(str(caught.exception), "S is no row of integers")

    def test_the_argument_is_named(self):
        fine = dict(generators=GENERATORS_OF_2, S=S_OF_2, R=R_OF_2, A=by_hand.I, B=by_hand.S)
        rows = [[1, 0], [0, 1]]
        for name, wrong, kind, sentence in (
            ("generators", 5, TypeError, "generators is no list of matrices"),
            ("generators", [by_hand.I, (1, 0, 0, 1.0)], TypeError, "generator 2 is no row of integers"),
            ("generators", [by_hand.I, 7], TypeError, "generator 2 is no row of integers"),
            ("generators", [by_hand.I, (1, 0, 0, 2)], ValueError, "generator 2 is no matrix of determinant 1"),
            ("generators", [by_hand.I, by_hand.S], ValueError, "generator 2 moves point 0, so this is no evidence"),
            ("S", None, TypeError, "S is no row of integers"),
            ("R", "201", TypeError, "R is no row of integers"),
            ("S", [1, 0, 3], ValueError, "an entry of S is no point"),
            ("R", [2, 0, -1], ValueError, "an entry of R is no point"),
            ("S", [1, 2, 0], ValueError, "S followed twice moves a point"),
            ("R", [1, 0, 2], ValueError, "R followed three times moves a point"),
            ("A", 5, TypeError, "A is no row of integers"),
            ("A", rows, TypeError, "A is no row of integers"),
            ("B", rows, TypeError, "B is no row of integers"),
            ("generators", [rows], TypeError, "generator 1 is no row of integers"),
            ("A", (2, 0, 0, 1), ValueError, "A is no matrix of determinant 1"),
            ("B", (1, 0), ValueError, "B is no matrix of determinant 1"),
        ):
            with self.assertRaises(kind) as caught:
                evidence.check(**{**fine, name: wrong})
            self.assertEqual(str(caught.exception), sentence)

    def test_many_generators(self):
        """The last of them is looked at, however many there are."""
        for count in (1, 30, 60, 500, 5000):
            many = (GENERATORS_OF_2 * count)[:count]
            self.assertIsNone(why_not(many, S_OF_2, R_OF_2, by_hand.I, by_hand.S))
            self.assertIn(f"generator {count + 1} moves point 0", why_not(many + [by_hand.S], S_OF_2, R_OF_2, by_hand.I, by_hand.S))


class Whole:
    """An integer of another system, as Sage's: it has `__index__`."""

    def __init__(self, number):
        self.number = number

    def __index__(self):
        return self.number


#: A stand-in for NumPy's bool: the name of its type is all that tells it.
NUMPYS = type("bool_", (Whole,), {})


class Integers_of_other_systems(unittest.TestCase):
    def test_they_count_as_integers(self):
        rows = [[Whole(x) for x in row] for row in (S_OF_2, R_OF_2, by_hand.I, by_hand.S)]
        generators = [[Whole(x) for x in M] for M in GENERATORS_OF_2]
        self.assertTrue(evidence.check(generators, *rows))
        rows[3] = [Whole(x) for x in (1, 0, 2, 1)]
        with self.assertRaises(ValueError):
            evidence.check(generators, *rows)

    def test_huge_entries_get_a_sentence(self):
        with self.assertRaises(ValueError) as caught:
            evidence.check([(10**5000, 0, 0, 1)], S_OF_2, R_OF_2, by_hand.I, by_hand.S)
        self.assertEqual(str(caught.exception), "generator 1 is no matrix of determinant 1")


class For_a_sceptic(unittest.TestCase):
    """The file is short, and takes nothing from elsewhere."""

    def test_it_stands_alone(self):
        source = (by_hand.REPOSITORY / "python/farey/evidence.py").read_text("utf-8")
        tree = ast.parse(source)
        imports = [node for node in ast.walk(tree) if isinstance(node, (ast.Import, ast.ImportFrom))]
        self.assertEqual([ast.unparse(node) for node in imports], ["from operator import index", "from typing import Iterable, List, Sequence"])
        functions = [node for node in tree.body if isinstance(node, ast.FunctionDef)]
        self.assertEqual([function.name for function in functions], ["check", "whole", "image", "power"])
        code = 0
        for function in functions:
            code += 1 + function.end_lineno - function.body[1].lineno + 1
        self.assertLessEqual(code, 45)

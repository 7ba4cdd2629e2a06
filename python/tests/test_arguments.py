"""Wrong arguments: an exception with clear words, and never a crash."""

import itertools
import unittest
from decimal import Decimal
from fractions import Fraction

from farey import Refusal, Symbol, cycles, evidence

from . import reckoning as by_hand

HUGE = (10**6 + 1, 10**9 + 1, 2**31, 2**32, 2**63 - 1, 2**63, 2**64, 2**64 + 1, 10**5000)


class Spiteful:
    """Something whose every use fails, also when it is to be shown."""

    def __repr__(self):
        raise RuntimeError("no")

    def __iter__(self):
        raise TypeError("no")


class NumpysBool:
    """As NumPy's, which has `__index__` in some releases; its type is called `bool_` or `bool`."""

    def __index__(self):
        return 1


NUMPYS = [type(name, (NumpysBool,), {})() for name in ("bool_", "bool")]


class Wrong(unittest.TestCase):
    def refused(self, number, place, call, *arguments, **named):
        with self.assertRaises(Refusal) as caught:
            call(*arguments, **named)
        self.assertEqual((caught.exception.number, caught.exception.place), (number, place))

    def told(self, kind, part, call, *arguments, **named):
        with self.assertRaises(kind) as caught:
            call(*arguments, **named)
        self.assertIn(part, str(caught.exception))


class Vertices(Wrong):
    def test_no_integers(self):
        for wrong in (0.0, 1.5, float("nan"), float("inf"), True, *NUMPYS, None, "0", b"0", 1j, Decimal(0), object(), Spiteful()):
            self.told(TypeError, "vertices[0]", Symbol, [wrong, 1], [1, -2, 1])
            self.told(TypeError, "vertices[1]", Symbol, [0, (wrong, 1)], [1, -2, 1])
            self.told(TypeError, "vertices[1]", Symbol, [0, (1, wrong)], [1, -2, 1])
            self.told(TypeError, "pairings[2]", Symbol, [0, 1], [1, -2, wrong])

    def test_what_is_long_is_cut(self):
        for wrong in ("x" * 10_000, [[1] * 10_000], b"y" * 10_000):
            with self.assertRaises(TypeError) as caught:
                Symbol([0, 1], [1, -2, wrong])
            self.assertIn("...", str(caught.exception))
            self.assertLess(len(str(caught.exception)), 120)

    def test_rational_numbers(self):
        """Numerator and denominator are integers, whatever a class says of itself."""
        for wrong in (None, True, 1.0, "1", NUMPYS[0], lambda: None, lambda: True):
            for name in ("numerator", "denominator"):
                other = type("Odd", (Fraction,), {name: wrong if not callable(wrong) else staticmethod(wrong)})
                self.told(TypeError, f"the {name} of vertices[1] is", Symbol, [0, other(1, 2), 1], [1, -2, -2, 1])

    def test_wrong_nesting(self):
        for wrong in ((), (1,), (1, 1, 1)):
            self.told(ValueError, "vertices[1]", Symbol, [0, wrong], [1, -2, 1])
        for wrong in ([[1, 1]], [[1], [1]], [(1, 1), 1]):
            self.told((TypeError, ValueError), "vertices[1]", Symbol, [0, wrong], [1, -2, 1])
        self.told(TypeError, "pairings[0]", Symbol, [0, 1], [[1, -2, 1]])
        self.told(TypeError, "pairings[0]", Symbol, [0, 1], [(1,), -2, 1])

    def test_no_lists(self):
        for wrong in (None, 5, 0.5, "01", b"01", bytearray(b"01"), {0: 1}, {0, 1}, frozenset([0]), memoryview(b"01"), object(), Spiteful()):
            self.told(TypeError, "vertices", Symbol, wrong, [1, -2, 1])
            self.told(TypeError, "pairings", Symbol, [0, 1], wrong)

    def test_short_and_long_lists(self):
        self.refused(1, 0, Symbol, [], [])
        self.refused(1, 0, Symbol, [], [1, 2])
        self.refused(1, 0, Symbol, range(1024), [1] * 1025)
        self.refused(1, 0, Symbol, range(50_000), [])
        self.refused(2, 4, Symbol, [0, 1], [])
        self.refused(2, 6, Symbol, [0, 1], [1, -2])
        self.refused(2, 8, Symbol, [0, 1], [1, -2, 1, 1])
        self.refused(2, 100_004, Symbol, [0, 1], [1] * 100_000)
        self.told(ValueError, "over 1,000,000", Symbol, itertools.count(), [1])
        self.told(ValueError, "over 1,000,000", Symbol, [0, 1], itertools.repeat(1))

    def test_no_arguments(self):
        for arguments in ((), ([0, 1],), ([0, 1], [1, -2, 1], 5)):
            with self.assertRaises(TypeError):
                Symbol(*arguments)

    def test_huge_numbers(self):
        for huge in HUGE:
            for number in (huge, -huge):
                # a label of that size isn't allowed
                self.refused(6, 0, Symbol, [0, 1], [number, -2, number])
                self.refused(6, 1, Symbol, [0, 1], [1, number, 1])
                # a denominator: out of range from 10^9 + 1 on, and below 1
                if number < 0 or number > 10**9:
                    self.refused(3, 3, Symbol, [0, (1, number)], [1, -2, 1])
                if abs(number) > 10**9:
                    self.refused(3, 2, Symbol, [0, number], [1, -2, 1])
                    self.refused(3, 0, Symbol, [Fraction(7 * number + 1, 7), 1], [1, -2, 1])
        # of two huge numbers the first is told, and a huge one isn't taken for its remainder
        self.refused(3, 0, Symbol, [10**30, (1, 10**30)], [1, -2, 1])
        self.refused(3, 2, Symbol, [0, 2**64 + 1], [1, -2, 1])
        self.refused(6, 0, Symbol, [0, 1], [2**64 + 1, -2, 2**64 + 1])

    def test_no_symbols(self):
        self.refused(3, 1, Symbol, [(0, 0), 1], [1, -2, 1])
        self.refused(3, 1, Symbol, [(0, -1), 1], [1, -2, 1])
        self.refused(4, 1, Symbol, [1, 0], [1, -2, 1])
        self.refused(4, 1, Symbol, [0, 2], [1, -2, 1])
        self.refused(4, 1, Symbol, [0, (2, 2)], [1, -2, 1])
        self.refused(5, 0, Symbol, [1, 2], [1, -2, 1])
        self.refused(6, 0, Symbol, [0, 1], [1, -2, -2])
        self.refused(6, 0, Symbol, [0, 1], [0, 0, -2])
        self.refused(6, 2, Symbol, [0, 1], [-2, -2, -1])
        self.refused(7, 0, Symbol, [0], [-2, -2])
        self.refused(7, 0, Symbol, [0], [1, 1])


class Matrices(Wrong):
    def setUp(self):
        self.H = Symbol([0, 1], [1, -2, 1])

    def test_no_integers(self):
        for wrong in (1.0, float("nan"), True, *NUMPYS, None, "1", Fraction(1), Decimal(1), 1j, object()):
            self.told(TypeError, "A[3]", self.H.word, (1, 0, 0, wrong), by_hand.I)
            self.told(TypeError, "B[0]", self.H.word, by_hand.I, (wrong, 0, 0, 1))
            self.told(TypeError, "B[1][1]", self.H.word, by_hand.I, ((1, 0), (0, wrong)))
            self.told(TypeError, "A[3]", self.H.why_none, (1, 0, 0, wrong), by_hand.I)
            self.told(TypeError, "M[2]", self.H.__contains__, (1, 0, wrong, 1))

    def test_short_and_long(self):
        for wrong in ((), (1,), (1, 0, 0), (1, 0, 0, 1, 0), [1] * 1000):
            self.told(ValueError, "a matrix has four", self.H.word, wrong, by_hand.I)
            self.told(ValueError, "a matrix has four", self.H.word, by_hand.I, wrong)
            self.told(ValueError, "a matrix has four", self.H.__contains__, wrong)
        self.told(ValueError, "rows of two", self.H.word, ((1, 0), (0,)), by_hand.I)
        self.told(ValueError, "rows of two", self.H.word, ((1, 0, 0), (0, 1, 0)), by_hand.I)
        self.told(ValueError, "a matrix has four", self.H.word, (1, 0), by_hand.I)
        self.told(ValueError, "over 1,000,000", self.H.word, itertools.count(), by_hand.I)

    def test_wrong_nesting(self):
        self.told(TypeError, "A[0]", self.H.word, (((1, 0), (0, 1)),), by_hand.I)
        self.told(TypeError, "A[1]", self.H.word, (1, (0, 0), 1), by_hand.I)
        self.told(TypeError, "A[0]", self.H.word, ((1, 0), (0, 1), (0, 0)), by_hand.I)
        self.told(TypeError, "A[0]", self.H.word, (((1,), (0,)), ((0,), (1,))), by_hand.I)
        self.told(TypeError, "A[0]", self.H.word, ("10", "01"), by_hand.I)

    def test_no_matrices(self):
        for wrong in (None, 1, 1.5, "1001", b"1001", {1: 0}, {1, 0}, object(), Spiteful()):
            self.told(TypeError, "A is", self.H.word, wrong, by_hand.I)
            self.told(TypeError, "B is", self.H.word, by_hand.I, wrong)
            self.told(TypeError, "M is", self.H.__contains__, wrong)
        with self.assertRaises(TypeError):
            self.H.word()
        with self.assertRaises(TypeError):
            "abc" in self.H

    def test_huge_numbers(self):
        for huge in HUGE:
            for number in (huge, -huge):
                self.assertTrue((1, number, 0, 1) in self.H)
                self.assertIs((1, 0, number, 1) in self.H, number % 2 == 0)
                # T^number has as many letters
                if huge > 10**7:
                    self.refused(11, huge, self.H.word, (1, number, 0, 1), by_hand.I)
                if number % 2:
                    self.assertIsNone(self.H.word(by_hand.I, (1, 0, number, 1)))
                    why = self.H.why_none(by_hand.I, (1, 0, number, 1))
                    self.assertTrue(evidence.check(*why))
                else:
                    self.told(ValueError, "there is a word", self.H.why_none, by_hand.I, (1, 0, number, 1))
        # 2^64 + 1 isn't taken for 1
        self.refused(9, 0, self.H.word, (2**64 + 1, 0, 0, 1), by_hand.I)

    def test_determinants(self):
        self.refused(9, 0, self.H.word, (2, 0, 0, 1), (2, 0, 0, 1))
        self.refused(9, 1, self.H.word, by_hand.I, (0, 1, 1, 0))
        self.refused(9, 1, self.H.why_none, by_hand.I, (0, 0, 0, 0))
        self.refused(9, 0, self.H.__contains__, (1, 0, 0, -1))
        self.refused(9, 0, self.H.word, (2, 0, 0, 1), (10**6 + 1, 0, 0, 1))
        self.refused(9, 1, self.H.word, by_hand.I, (10**6 + 1, 0, 0, 1))
        self.refused(9, 0, self.H.same_coset, (10**6 + 1, 0, 0, 1), by_hand.I)
        self.refused(9, 1, self.H.same_coset, by_hand.I, (10**6 + 1, 0, 0, 1))

    def test_one_matrix_is_told_by_its_name(self):
        """`M in H`, `word(M)` and `permutation(M)` have no A and no B, and say nothing of them."""
        self.told(Refusal, "refused 9 0: the determinant of M isn't 1", self.H.__contains__, ((2, 0), (0, 1)))
        for wrong in ((10**6 + 1, 0, 0, 1), (2, 0, 0, 1), (1, 0, 0, 0.5), (1, 0, 0), None):
            for ask in (self.H.__contains__, self.H.word, self.H.normal_form, self.H.permutation):
                with self.assertRaises((TypeError, ValueError)) as caught:
                    ask(wrong)
                self.assertNotRegex(str(caught.exception), r"\b[AB]\b")
                self.assertRegex(str(caught.exception), r"\bM\b")


class Tables(Wrong):
    def test_no_integers(self):
        for wrong in (0.0, True, *NUMPYS, None, "0", Fraction(0), (0,), [0], object()):
            self.told(TypeError, "S[1]", Symbol.from_permutations, [1, wrong, 2], [2, 0, 1])
            self.told(TypeError, "R[0]", Symbol.from_permutations, [1, 0, 2], [wrong, 0, 1])

    def test_no_lists(self):
        for wrong in (None, 3, "102", b"102", {1: 0}, {1, 0}, object(), Spiteful()):
            self.told(TypeError, "S is", Symbol.from_permutations, wrong, [2, 0, 1])
            self.told(TypeError, "R is", Symbol.from_permutations, [1, 0, 2], wrong)

    def test_wide(self):
        for wrong in (0, 1, "yes", [], 1.0):
            self.told(TypeError, "wide is", Symbol.from_permutations, [0], [0], wrong)
            if not isinstance(wrong, str):
                self.told(TypeError, "rule is", Symbol.from_permutations, [0], [0], rule=wrong)
                self.told(TypeError, "rule is", Symbol.gamma0, 2, rule=wrong)
        self.told(ValueError, "rule is 'yes'", Symbol.from_permutations, [0], [0], rule="yes")
        self.told(ValueError, "rule is 'yes'", Symbol.gamma, 2, rule="yes")

    def test_refusals(self):
        make = Symbol.from_permutations
        for wide in (True, False):
            self.refused(12, 0, make, [], [], wide)
            self.refused(12, 0, make, [1, 0, 2], [0, 1], wide)
            self.refused(12, 0, make, [0] * 3067, [0] * 3067, wide)
            self.refused(12, 0, make, [0] * 100_000, [0] * 100_000, wide)
            self.refused(13, 2, make, [1, 0, 3], [2, 0, 1], wide)
            self.refused(13, 1, make, [1, 0, 2], [2, 2, 1], wide)
            self.refused(13, 0, make, [-1, 0, 2], [2, 0, 1], wide)
            self.refused(14, 0, make, [1, 2, 0], [2, 0, 1], wide)
            self.refused(14, 0, make, [1, 0, 2], [1, 0, 2], wide)
            self.refused(15, 2, make, [1, 0, 2], [0, 1, 2], wide)
            for huge in HUGE:
                self.refused(13, 1, make, [1, huge, 2], [2, 0, 1], wide)
                self.refused(13, 1, make, [1, -huge, 2], [2, 0, 1], wide)
                self.refused(13, 2, make, [1, 0, 2], [2, 0, huge], wide)
        # 2^32 isn't taken for 0
        self.refused(13, 1, make, [1, 2**32, 2], [2, 0, 1])


class Text(Wrong):
    def test_no_text(self):
        for wrong in (None, 2, 2.0, b"1 0 1 -2 -3", ["1"], object(), Spiteful()):
            self.told(TypeError, "a string is wanted", Symbol.parse, wrong)

    def test_lone_surrogates(self):
        self.refused(19, 2, Symbol.parse, "1 \ud800")


class Cycles(Wrong):
    def test_there_and_back(self):
        rng = by_hand.seeded("cycles")
        for _ in range(200):
            table = rng.sample(range(12), 12)
            self.assertEqual(cycles.images(cycles.text(table), 12), table)

    def test_forms(self):
        self.assertEqual(cycles.images(" ( 1 , 3 )\n(2,4,5) ", 6), [2, 3, 0, 4, 1, 5])
        self.assertEqual(cycles.images("", 3), [0, 1, 2])
        self.assertEqual(cycles.images("()(2)", 3), [0, 1, 2])
        self.assertEqual(cycles.text([2, 3, 0, 4, 1, 5]), "(1,3)(2,4,5)")
        self.assertEqual(cycles.text([]), "()")

    def test_wrong(self):
        for wrong in ("(1,2", "1,2", "(1 2)", "(1,,2)", "(1,2)x", "(-1,2)", "(1.0,2)", "(" * 1000, "(1234567890123)"):
            self.told(ValueError, "there is no cycle at", cycles.images, wrong, 5)
        self.told(ValueError, "point 0 isn't", cycles.images, "(0,1)", 5)
        self.told(ValueError, "point 6 isn't", cycles.images, "(1,6)", 5)
        self.told(ValueError, "named twice", cycles.images, "(1,2)(2,3)", 5)
        self.told(ValueError, "named twice", cycles.images, "(1,1)", 5)
        for wrong in (0, -1, 10**30):
            self.told(ValueError, "from 1 to 1,000,000", cycles.images, "()", wrong)
        for wrong in (1.0, None, True, "5"):
            self.told(TypeError, "points is", cycles.images, "()", wrong)
        for wrong in (None, 5, [(1, 2)], b"()"):
            self.told(TypeError, "a string as", cycles.images, wrong, 5)
        for wrong in ([1], [0, 0], [-1, 0], [1, 2, 3]):
            self.told(ValueError, "no permutation", cycles.text, wrong)
        self.told(TypeError, "images[0]", cycles.text, [0.0])
        self.told(TypeError, "images is", cycles.text, "01")


class Row(list):
    """A row that has `__index__`, as NumPy's arrays have, and stands for no integer."""

    def __index__(self):
        raise TypeError("only integer scalar arrays can be converted to a scalar index")


class RowsWithIndex(unittest.TestCase):
    def test_a_matrix_and_a_vertex_of_such_rows(self):
        H = Symbol([Row([0, 1]), Row([1, 1])], [1, -2, 1])
        self.assertEqual(H.vertices, ((0, 1), (1, 1)))
        self.assertEqual(H.word([Row([1, 0]), Row([0, 1])], [Row([1, 1]), Row([0, 1])]), [1])

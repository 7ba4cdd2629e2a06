"""Symbols: figures, generators, tables, membership; the forms of a vertex; texts. Words: `test_words`; sameness: `test_sameness`."""

import math
import subprocess
import unittest
from fractions import Fraction
from numbers import Rational

from farey import Generator, Refusal, Symbol

from . import reckoning as by_hand


class StoredSymbols(unittest.TestCase):
    """The groups of rust/reference/data/symbols.txt, with SageMath's figures."""

    def test_figures(self):
        count = 0
        for name, vertices, pairings, index, e2, e3, genus, widths in by_hand.stored_symbols():
            with self.subTest(name):
                H = Symbol(vertices, pairings)
                self.assertEqual((H.index, H.e2, H.e3, H.genus), (index, e2, e3, genus))
                self.assertEqual(sorted(H.widths), widths)
                self.assertEqual(H.cusps, len(widths))
                self.assertEqual(H.level, math.lcm(*widths))
                count += 1
        self.assertGreaterEqual(count, 67)

    def test_generators(self):
        for name, vertices, pairings, *_ in by_hand.stored_symbols():
            with self.subTest(name):
                expected = by_hand.generators_of(vertices, pairings)
                self.assertEqual(Symbol(vertices, pairings).generators, tuple(Generator(*each) for each in expected))

    def test_tables(self):
        """They are numbered by the rule, have the figures, and each generator fixes 0."""
        for name, vertices, pairings, index, e2, e3, genus, widths in by_hand.stored_symbols():
            with self.subTest(name):
                H = Symbol(vertices, pairings)
                self.assertEqual([len(H.S), len(H.R), len(H.T)], [index] * 3)
                self.assertEqual(by_hand.numbered(H.S, H.R), list(range(index)))
                self.assertEqual(by_hand.figures_of(H.S, H.R), (e2, e3, genus, widths))
                self.assertEqual(H.T, tuple(H.R[x] for x in H.S))

    def test_words_and_members_by_congruence(self):
        rng = by_hand.seeded("congruence")
        met = {True: 0, False: 0}
        for name, vertices, pairings, *_ in by_hand.stored_symbols():
            H = Symbol(vertices, pairings)
            matrices = [generator for _, generator in by_hand.generators_of(vertices, pairings)]
            for _ in range(12):
                if rng.random() < 0.5:
                    X = by_hand.value([rng.choice([1, -1]) * rng.randint(1, len(matrices)) for _ in range(3)], matrices)
                else:
                    _, X = by_hand.random_word(rng, 12)
                expected = by_hand.is_in(name, X)
                _, A = by_hand.random_word(rng, 6)
                B = by_hand.product(X, A)
                if expected is None or max(map(abs, X + A + B)) > 1_000_000:
                    continue
                with self.subTest(name, A=A, B=B):
                    self.assertEqual(X in H, expected)
                    self.assertEqual(by_hand.negative(X) in H, expected)
                    word = H.word(A, B)
                    self.assertEqual(word is not None, expected)
                    if word is not None:
                        self.assertEqual(by_hand.product(by_hand.value(word, matrices), A), by_hand.times(word.sign, B))
                    met[expected] += 1
        self.assertGreater(min(met.values()), 100)


class Vertices(unittest.TestCase):
    """The forms of a vertex, and of an integer."""

    def test_forms(self):
        class Whole:
            """An integer of another system, as Sage's."""

            def __init__(self, number):
                self.number = number

            def __index__(self):
                return self.number

        @Rational.register
        class SagesRational:
            """Its numerator and denominator are methods."""

            def __init__(self, numerator, denominator):
                self.pair = Whole(numerator), Whole(denominator)

            def numerator(self):
                return self.pair[0]

            def denominator(self):
                return self.pair[1]

        expected = Symbol([(0, 1), (1, 2), (1, 1)], [1, -2, -2, 1])
        for vertices in (
            [0, Fraction(1, 2), 1],
            ((0, 1), [1, 2], Fraction(1)),
            iter([0, (1, 2), 1]),
            [Whole(0), (Whole(1), Whole(2)), Whole(1)],
            [SagesRational(0, 1), SagesRational(1, 2), SagesRational(1, 1)],
        ):
            made = Symbol(vertices, (Whole(1), -2, -2, 1))
            self.assertEqual(made.vertices, ((0, 1), (1, 2), (1, 1)))
            self.assertEqual(made.pairings, (1, -2, -2, 1))
            self.assertTrue(made == expected)
            self.assertTrue(all(type(entry) is int for pair in made.vertices for entry in pair))


class Texts(unittest.TestCase):
    """`parse` and `text`."""

    def test_there_and_back(self):
        for name, vertices, pairings, *_ in by_hand.stored_symbols():
            H = Symbol(vertices, pairings)
            again = Symbol.parse(H.text())
            self.assertEqual((again.vertices, again.pairings), (tuple(vertices), tuple(pairings)), name)

    def test_examples(self):
        """The files of examples/ and what is listed beside them."""
        met = set()
        for file in sorted((by_hand.REPOSITORY / "examples").glob("*.txt")):
            lines = file.with_suffix(".listing").read_text("utf-8").splitlines()
            words = lines[0].split()
            with self.subTest(file.name):
                met.add(words[0])
                if words[0] == "refused":
                    with self.assertRaises(Refusal) as caught:
                        Symbol.parse(file.read_text("utf-8"))
                    self.assertEqual([caught.exception.number, caught.exception.place], by_hand.numbers(" ".join(words[1:])))
                    continue
                H = Symbol.parse(file.read_text("utf-8"))
                listed = {line.split()[0]: line.split()[1:] for line in lines}
                said = {
                    "index": [H.index],
                    "elliptic": [H.e2, H.e3],
                    "cusps": [H.cusps],
                    "widths": H.widths,
                    "genus": [H.genus],
                    "level": [H.level],
                    "generators": [len(H.generators)],
                    "S": H.S,
                    "R": H.R,
                    "T": H.T,
                }
                for number, (kind, matrix) in enumerate(H.generators, 1):
                    said[str(number)] = (kind, *matrix)
                self.assertEqual({name: list(map(str, line)) for name, line in said.items()}, listed)
        self.assertEqual(met, {"index", "refused"})

    def test_leading_zeros_and_line_ends(self):
        H = Symbol.parse("\r\n 002 000 01 1 " + "0" * 5000 + "1\n\n1 -2 1 ")
        self.assertEqual((H.vertices, H.pairings), (((0, 1), (1, 1)), (1, -2, 1)))

    def test_refusals(self):
        """By docs/CONVENTIONS.md, 10.2."""
        fine = "2 0 1 1 1 1 -2 1"
        for text, number, place in (
            ("", 19, 0),
            ("  \n", 19, 3),
            (fine + " ", 0, 0),
            (fine + " 5", 19, 17),
            (fine[:-2], 19, 14),
            ("2 0 1 1 x 1 -2 1", 19, 8),
            ("2 0 1 1 +1 1 -2 1", 19, 8),
            ("2\t0 1 1 1 1 -2 1", 19, 0),
            ("2 0 1 1 1 1 - 1", 19, 12),
            ("2 0 1 1 1 1 -2 ⅓", 19, 15),
            ("é 2", 19, 0),
            ("2 é 2", 19, 2),
            ("2 9223372036854775808", 19, 2),
            ("2 -9223372036854775809", 19, 2),
            ("2 0 1 9223372036854775807 1 1 -2 1", 3, 2),
            ("2 0 1 -9223372036854775808 1 1 -2 1", 3, 2),
            ("2 " + "9" * 6000, 19, 2),
            ("0", 1, 0),
            ("1024 1 2 3", 1, 0),
            ("-5", 1, 0),
            (fine + " " * 65536, 19, 65536),
            (fine + " " * (65536 - len(fine)), 0, 0),
            # 65,536 characters, which are 65,537 bytes
            (fine + " " * (65535 - len(fine)) + "é", 19, 65536),
            # a byte order mark is no number
            ("\ufeff" + fine, 19, 0),
            ("1 0 1 -2 -2", 7, 0),
        ):
            with self.subTest(text[:40]):
                if number == 0:
                    H = Symbol.parse(text)
                    self.assertEqual((H.vertices, H.pairings), (((0, 1), (1, 1)), (1, -2, 1)))
                    continue
                with self.assertRaises(Refusal) as caught:
                    Symbol.parse(text)
                self.assertEqual((caught.exception.number, caught.exception.place), (number, place))

    def test_against_the_program(self):
        """Damaged texts: `parse` refuses as target/bin/listing does, number and place."""
        rng = by_hand.seeded("damaged")
        program = by_hand.REPOSITORY / "target/bin/listing"
        pieces = ["", " ", "\n", "\r", "\t", "-", "+", "0", "1", "-2", "-3", "7", "x", "é", " 9223372036854775808 ", " 99999999999999999999 ", ",", "\0"]
        stored = [symbol for symbol in by_hand.stored_symbols() if len(symbol[1]) < 12]
        met = {}
        for _ in range(300):
            _, vertices, pairings, *_ = rng.choice(stored)
            text = Symbol(vertices, pairings).text().replace("\n", " ")
            if rng.random() < 0.4:
                given = text.split(" ")
                given[rng.choice([0, rng.randrange(len(given))])] = str(rng.choice([-1, 0, 1, 3, 5, -2, -3, 1023, 1024, 10**9, 10**9 + 1]))
                text = " ".join(given)
            for _ in range(rng.choice([0, 0, 1, 2])):
                start = rng.randrange(len(text) + 1)
                text = text[:start] + rng.choice(pieces) + text[start + rng.choice([0, 0, 1, 2, 5]) :]
            came = subprocess.run([program], input=text.encode("utf-8"), capture_output=True, timeout=60)
            first = came.stdout.decode("utf-8").splitlines()[0]
            try:
                said = f"index {Symbol.parse(text).index}"
            except Refusal as refusal:
                said = f"refused {refusal.number} {refusal.place}"
            self.assertEqual(said, first, repr(text))
            kind = " ".join(first.split()[:2]) if first.startswith("refused") else "index"
            met[kind] = met.get(kind, 0) + 1
        for kind in ("index", "refused 1", "refused 3", "refused 4", "refused 6", "refused 19"):
            self.assertGreater(met.get(kind, 0), 3, met)

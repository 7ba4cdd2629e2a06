"""Normal forms: the only reduced word of an element, and reducing a word."""

import itertools
import unittest

from farey import Refusal, Symbol, Word

from . import reckoning as by_hand

#: Symbols with generators of each kind, with the start upright and turned round: Γ0(2), one vertex three times, Γ(2), Γ0(3), Γ0(2) from -1 to 0 and Γ0(7).
SMALL = [
    ([(0, 1), (1, 1)], [1, -2, 1]),
    ([(0, 1)], [-2, -3]),
    ([(0, 1)], [-3, -2]),
    ([(0, 1)], [-3, -3]),
    ([(0, 1), (1, 1), (2, 1)], [1, 2, 2, 1]),
    ([(0, 1), (1, 1)], [1, -3, 1]),
    ([(-1, 1), (0, 1)], [1, -2, 1]),
    ([(0, 1), (1, 2), (1, 1)], [1, -3, -3, 1]),
]


def letters(count):
    return [sign * j for j in range(1, count + 1) for sign in (1, -1)]


def kinds_and_matrices(vertices, pairings):
    made = by_hand.generators_of(vertices, pairings)
    return [kind for kind, _ in made], [tuple(matrix) for _, matrix in made]


class AllShortWords(unittest.TestCase):
    """All words of a few letters, multiplied out: what the theorem says of them."""

    def test_one_reduced_word_for_each_product(self):
        """Of the words of up to five letters with one product up to sign exactly one is reduced, and none is shorter; the engine and `reduce` find it."""
        for vertices, pairings in SMALL:
            with self.subTest(vertices=vertices, pairings=pairings):
                H = Symbol(vertices, pairings)
                kinds, matrices = kinds_and_matrices(vertices, pairings)
                classes = {}
                for length in range(6 if len(kinds) < 3 else 5):
                    for word in itertools.product(letters(len(kinds)), repeat=length):
                        product = by_hand.value(word, matrices)
                        classes.setdefault(max(product, by_hand.negative(product)), []).append(word)
                self.assertGreater(len(classes), 20)
                for product, words in classes.items():
                    reduced = [word for word in words if by_hand.is_reduced(word, kinds)]
                    self.assertEqual(len(reduced), 1, words)
                    self.assertEqual(len(reduced[0]), min(map(len, words)))
                    self.assertEqual(H.normal_form(product), list(reduced[0]))
                    for word in words[:8]:
                        self.assertEqual(H.reduce(word), list(reduced[0]))


class LongWords(unittest.TestCase):
    def test_reduced_with_its_sign(self):
        """A random word and what it is reduced to: four clauses, product with sign, no more letters, and the engine's word where the entries allow it."""
        rng = by_hand.seeded("normal forms")
        asked = 0
        for name, vertices, pairings, *_ in by_hand.stored_symbols():
            H = Symbol(vertices, pairings)
            kinds, matrices = kinds_and_matrices(vertices, pairings)
            for length in (1, 3, 8, 40):
                word = [rng.choice(letters(len(kinds))) for _ in range(length)]
                with self.subTest(name, word=word):
                    reduced = H.reduce(word)
                    self.assertIsInstance(reduced, Word)
                    self.assertTrue(by_hand.is_reduced(reduced, kinds))
                    self.assertLessEqual(len(reduced), len(word))
                    product = by_hand.value(word, matrices)
                    self.assertEqual(by_hand.value(reduced, matrices), by_hand.times(reduced.sign, product))
                    self.assertEqual(H.reduce(reduced), reduced)
                    self.assertEqual(H.reduce(reduced).sign, 1)
                    self.assertEqual(H.reduce(word + [-letter for letter in reversed(word)]), [])
                    if max(map(abs, product)) <= 1000000:
                        asked += 1
                        found = H.normal_form(product)
                        self.assertEqual((found, found.sign), (reduced, reduced.sign))
        self.assertGreater(asked, 100)

    def test_words_between_matrices_are_reduced(self):
        """A word of `word` is the normal form of B A⁻¹."""
        rng = by_hand.seeded("reduced words")
        for name, vertices, pairings, *_ in by_hand.stored_symbols():
            H = Symbol(vertices, pairings)
            kinds, matrices = kinds_and_matrices(vertices, pairings)
            A = by_hand.product(*(rng.choice([by_hand.S, by_hand.T, by_hand.R]) for _ in range(6)))
            B = by_hand.product(by_hand.value([rng.choice(letters(len(kinds))) for _ in range(2)], matrices), A)
            if max(map(abs, B)) > 1000000:
                continue
            with self.subTest(name):
                word = H.word(A, B)
                self.assertTrue(by_hand.is_reduced(word, kinds))
                between = by_hand.product(B, by_hand.inverse(A))
                if max(map(abs, between)) <= 1000000:
                    self.assertEqual((word, word.sign), (H.normal_form(between), H.normal_form(between).sign))


class Refused(unittest.TestCase):
    def test_what_is_no_element(self):
        H = Symbol(*SMALL[0])
        self.assertIsNone(H.normal_form(by_hand.S))
        self.assertIsNone(H.normal_form((1, 0, 1000001, 1)))
        with self.assertRaises(Refusal) as caught:
            H.normal_form((2, 0, 0, 1))
        self.assertEqual((caught.exception.number, caught.exception.place), (9, 0))

    def test_what_is_no_letter(self):
        H = Symbol(*SMALL[0])
        for word in ([0], [3], [1, -3], [2**70]):
            with self.subTest(word=word), self.assertRaises(ValueError):
                H.reduce(word)
        for word in ("1", [1.0], [True], None):
            with self.subTest(word=word), self.assertRaises(TypeError):
                H.reduce(word)


if __name__ == "__main__":
    unittest.main()

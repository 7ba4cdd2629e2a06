"""Words: the instances of docs/CONVENTIONS.md, signs, long words, and what a word is as a list."""

import copy
import json
import pickle
import unittest

from farey import Symbol, Word

from . import reckoning as by_hand


class Words(unittest.TestCase):
    """Words by docs/CONVENTIONS.md, 12, and long ones."""

    def test_instances(self):
        H = Symbol(*by_hand.GAMMA0_2)
        self.assertEqual(H.word(by_hand.I, by_hand.T), [1])
        self.assertEqual(H.word(by_hand.I, (1, 0, 2, 1)), [2, 1])
        self.assertEqual(H.word(by_hand.S, (1, -1, 1, 0)), [1])
        self.assertEqual(H.word(by_hand.I, by_hand.I), [])
        self.assertEqual(H.word(by_hand.I, (-1, 0, 0, -1)), [])
        self.assertIsNone(H.word(by_hand.I, by_hand.S))
        self.assertEqual(Symbol([0], [-2, -3]).word(by_hand.I, by_hand.S), [1])

    def test_signs(self):
        """I to -T in Γ0(2) is the word 1 with a minus, I to -I the empty word with a minus."""
        H = Symbol(*by_hand.GAMMA0_2)
        minus = by_hand.negative(by_hand.I)
        for A, B, letters, sign in (
            (by_hand.I, by_hand.T, [1], 1),
            (by_hand.I, by_hand.negative(by_hand.T), [1], -1),
            (minus, by_hand.T, [1], -1),
            (minus, by_hand.negative(by_hand.T), [1], 1),
            (by_hand.I, by_hand.I, [], 1),
            (by_hand.I, minus, [], -1),
            (by_hand.I, (1, 0, 2, 1), [2, 1], 1),
            (by_hand.S, (1, -1, 1, 0), [1], 1),
            # the square of an even generator is -1
            (by_hand.I, (1, -1, 2, -1), [2], 1),
            ((1, -1, 2, -1), by_hand.I, [2], -1),
        ):
            with self.subTest(A=A, B=B):
                word = H.word(A, B)
                self.assertEqual((word, word.sign), (letters, sign))
                self.assertIs(type(word.sign), int)

    def test_signs_of_all_small_matrices(self):
        """Every pair of I with a matrix of small entries, in groups with each kind of last side: the product is the sign times B, in whole numbers."""
        met = {1: 0, -1: 0}
        for vertices, pairings in (
            by_hand.GAMMA0_2,
            ([-1, 0], [1, -2, 1]),
            ([-1, 0], [1, 1, -2]),
            ([-1, 0], [1, 1, -3]),
            ([-1, 0], [-3, -2, -2]),
            ([0], [-2, -3]),
            ([0], [-3, -2]),
            ([0], [-3, -3]),
            ([0, 1, 2], [1, 2, 2, 1]),
            ([-2, -1, 0], [-3, 1, 1, -2]),
        ):
            H = Symbol(vertices, pairings)
            matrices = [matrix for _, matrix in by_hand.generators_of(H.vertices, list(pairings))]
            for B in by_hand.small_matrices(3):
                word = H.word(by_hand.I, B)
                if word is not None:
                    self.assertEqual(by_hand.value(word, matrices), by_hand.times(word.sign, B), (vertices, pairings, B))
                    other = H.word(by_hand.I, by_hand.negative(B))
                    self.assertEqual((other, other.sign), (word, -word.sign))
                    met[word.sign] += 1
        self.assertEqual(met[1], met[-1])
        self.assertGreater(met[1], 100)

    def test_a_word_is_a_list(self):
        """It compares, prints, grows, is copied and stored as one; copies keep the sign."""
        word = Symbol(*by_hand.GAMMA0_2).word(by_hand.I, (-1, 0, -2, -1))
        self.assertIsInstance(word, list)
        self.assertEqual((repr(word), str(word), len(word), word[0], word + [5]), ("[2, 1]", "[2, 1]", 2, 2, [2, 1, 5]))
        self.assertEqual(json.loads(json.dumps(word)), [2, 1])
        self.assertTrue(word == [2, 1] and [2, 1] == word and word != [1, 2])
        self.assertEqual(word.sign, -1)
        for made in (copy.copy(word), copy.deepcopy(word), *(pickle.loads(pickle.dumps(word, protocol)) for protocol in range(2, 6))):
            self.assertEqual((type(made), made, made.sign), (Word, [2, 1], -1))
        self.assertIs(type(word[:]), list)
        with self.assertRaises(AttributeError):
            word.signs = 1

    def test_long_words(self):
        """T^n has n letters in Γ0(2), more than a query is lent at first."""
        H = Symbol(*by_hand.GAMMA0_2)
        for n in (1023, 1024, 1025, 300_000, 1_000_000):
            self.assertEqual(H.word(by_hand.I, (1, n, 0, 1)), [1] * n)
            self.assertTrue((1, n, 0, 1) in H)
            self.assertEqual(H.word((1, n, 0, 1), by_hand.I), [-1] * n)

    def test_rows(self):
        """A matrix as two rows is the same as its four entries."""
        H = Symbol(*by_hand.GAMMA0_2)
        self.assertEqual(H.word([[1, 0], [0, 1]], ((1, 0), (2, 1))), [2, 1])
        self.assertTrue([[1, 0], [2, 1]] in H)
        self.assertFalse([[0, -1], [1, 0]] in H)

    def test_what_is_given_back_is_the_callers(self):
        H = Symbol(*by_hand.GAMMA0_2)
        word = H.word(by_hand.I, (1, 0, 2, 1))
        word.append(9)
        self.assertEqual(H.word(by_hand.I, (1, 0, 2, 1)), [2, 1])
        kept = (H.S, H.R, H.T, H.widths, H.generators)
        del H
        for N in (3, 5, 7):
            other = Symbol.from_permutations(*by_hand.gamma0_tables(N, by_hand.S, by_hand.R))
            self.assertNotEqual(other.S, kept[0])
        self.assertEqual(kept[:4], ((1, 0, 2), (2, 0, 1), (0, 2, 1), (1, 2)))
        self.assertTrue(all(type(x) is int for table in kept[:4] for x in table))

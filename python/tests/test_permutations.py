"""From permutations to a symbol by either rule, and `import_length`."""

import unittest

from farey import Refusal, Symbol, import_length, named_tables

from . import reckoning as by_hand


class Lengths(unittest.TestCase):
    """How long the table of a symbol will be, before it is made."""

    def test_stored_pairs(self):
        """(index - e3)/3 + 1 vertices by the stored figures, and so many in the symbol of each rule that is made."""
        met = 0
        for index, s, r, _, e3, _, _ in by_hand.stored_pairs():
            length = 3 * ((index - e3) // 3 + 1) + 1
            self.assertEqual(import_length(s, r), length)
            for wide in (True, False):
                try:
                    H = Symbol.from_permutations(s, r, wide)
                except Refusal as refusal:
                    self.assertEqual(refusal.number, 16)
                    continue
                self.assertEqual(2 * len(H.vertices) + len(H.pairings), length)
                met += 1
        self.assertGreater(met, 20)

    def test_where_no_symbol_is_made(self):
        """Γ0(120): from the left it is refused with 16, and the length is there all the same."""
        s, r = named_tables("gamma0", 120)
        with self.assertRaises(Refusal) as told:
            Symbol.from_permutations(s, r, wide=False)
        self.assertEqual(told.exception.number, 16)
        self.assertEqual(import_length(s, r), 3 * len(Symbol.from_permutations(s, r).vertices) + 1)

    def test_refusals(self):
        for s, r, number, place in (
            ([], [], 12, 0),
            ([0], [0, 1], 12, 0),
            ([0] * 3067, [0] * 3067, 12, 0),
            ([0, 0], [0, 1], 13, 1),
            ([1, 0], [0, 2**40], 13, 1),
            ([1, 2, 0], [0, 1, 2], 14, 0),
            ([0, 1], [1, 0], 14, 0),
            ([0, 1], [0, 1], 15, 1),
        ):
            with self.assertRaises(Refusal) as told:
                import_length(s, r)
            self.assertEqual((told.exception.number, told.exception.place), (number, place))

    def test_wrong_kinds(self):
        for s, r, word in (([1, 0.5], [0, 1], r"S\[1\]"), ([1, 0], [True, 1], r"R\[0\]"), (None, [0], "S is"), ([0], 7, "R is")):
            with self.assertRaisesRegex(TypeError, word):
                import_length(s, r)


class Permutations(unittest.TestCase):
    """Symbols from permutations."""

    def test_stored_pairs(self):
        count = 0
        for index, s, r, e2, e3, genus, widths in by_hand.stored_pairs():
            for wide in (True, False):
                with self.subTest(index=index, wide=wide):
                    H = Symbol.from_permutations(s, r, wide=wide)
                    self.assertEqual((H.index, H.e2, H.e3, H.genus), (index, e2, e3, genus))
                    self.assertEqual(sorted(H.widths), widths)
                    count += 1
        self.assertGreaterEqual(count, 240)

    def test_random_pairs(self):
        """The symbol's own tables are the given ones, renumbered; and a matrix is in
        H exactly when the letters that it was made of lead from 0 to 0."""
        rng = by_hand.seeded("pairs")
        met = {True: 0, False: 0}
        for _ in range(60):
            s, r = by_hand.random_pair(rng, rng.randint(1, 40))
            for wide in (True, False):
                H = Symbol.from_permutations(s, r, wide)
                self.assertEqual((H.S, H.R), by_hand.renumbered(s, r))
                matrices = [matrix for _, matrix in by_hand.generators_of(H.vertices, list(H.pairings))]
                for _ in range(10):
                    letters, X = by_hand.random_word(rng, rng.randint(0, 20))
                    expected = by_hand.followed(s, r, letters) == 0
                    self.assertEqual(X in H, expected)
                    word = H.word(by_hand.I, X)
                    self.assertEqual(word is not None, expected)
                    if word is not None:
                        self.assertEqual(by_hand.value(word, matrices), by_hand.times(word.sign, X))
                    met[expected] += 1
        self.assertGreater(min(met.values()), 100)

    def test_gamma0(self):
        """Γ0(N) from its action on the rows (c : d), also where N is large."""
        for N in (1, 2, 3, 11, 30, 97, 990):
            s, r = by_hand.gamma0_tables(N, by_hand.S, by_hand.R)
            H = Symbol.from_permutations(s, r)
            expected = N
            for p in (p for p in range(2, N + 1) if N % p == 0 and all(p % q for q in range(2, p))):
                expected = expected * (p + 1) // p
            self.assertEqual(H.index, expected)
            self.assertTrue((1, 0, N, 1) in H)
            self.assertTrue(all(generator.matrix[2] % N == 0 for generator in H.generators))

    def test_both_rules_are_of_one_group(self):
        """The stored Γ0(11) and the two symbols from its rows: three symbols, one group."""
        pair = by_hand.gamma0_tables(11, by_hand.S, by_hand.R)
        symbols = [Symbol.from_permutations(*pair, wide=True), Symbol.from_permutations(*pair, wide=False)]
        symbols += [Symbol(v, p) for name, v, p, *_ in by_hand.stored_symbols() if name == "Gamma0(11)"]
        self.assertEqual(len(symbols), 3)
        for one in symbols:
            for other in symbols:
                self.assertTrue(all(generator.matrix in other for generator in one.generators))
                self.assertEqual((one.S, one.R, one.T), (other.S, other.R, other.T))

    def test_from_the_left_stays_from_the_left(self):
        """However many points there are: Γ0(990), which the wide rule makes, is refused."""
        pair = by_hand.gamma0_tables(990, by_hand.S, by_hand.R)
        self.assertEqual(Symbol.from_permutations(*pair).index, 2592)
        with self.assertRaises(Refusal) as caught:
            Symbol.from_permutations(*pair, wide=False)
        self.assertEqual(caught.exception.number, 16)

    def test_largest(self):
        """3,066 points, and one more."""
        # a row of triangles, joined by S: 0 1 2 | 3 4 5 | ..
        s, r = list(range(3066)), [x + 1 if x % 3 < 2 else x - 2 for x in range(3066)]
        for x in range(2, 3063, 3):
            s[x], s[x + 1] = x + 1, x
        H = Symbol.from_permutations(s, r)
        self.assertEqual((H.index, len(H.vertices)), (3066, 1023))
        with self.assertRaises(Refusal) as caught:
            Symbol.from_permutations(s + [3066], r + [3066])
        self.assertEqual((caught.exception.number, caught.exception.place), (12, 0))

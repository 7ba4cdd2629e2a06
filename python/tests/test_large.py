"""Matrices of any size: `in`, `coset_of`, `same_coset`, `word` and the evidence of a none.

A word is judged by its product in whole numbers and by the four clauses of a reduced word, both
reckoned here; there is one reduced word for each element. Whether there is one is judged by
congruences, or by following the letters that a matrix was made of.
"""

import time
import unittest
from unittest import mock

from farey import Refusal, Symbol, evidence, large, library, named_tables

from . import reckoning as by_hand


def power_of_t(n):
    return (1, n, 0, 1)


def some_symbols():
    """Symbols of every kind: stored ones, one vertex three times, the start turned round, deep ones."""
    for name, vertices, pairings, *_ in by_hand.stored_symbols():
        if len(vertices) < 40:
            yield name, Symbol(vertices, pairings)
    for vertices, pairings in (([0], [-2, -3]), ([0], [-3, -2]), ([0], [-3, -3])):
        yield str(pairings), Symbol(vertices, pairings)
    for pairings in ([1, -2, 1], [1, 1, -2], [1, 1, -3]):
        yield str(pairings), Symbol([-1, 0], pairings)
    yield "-2 to 0", Symbol([-2, -1, 0], [-3, 1, 1, -2])
    for N in (36, 60, 97, 119):
        yield f"Gamma0({N})", Symbol.gamma0(N, rule="leftmost")
    rng = by_hand.seeded("polygons")
    for number in range(25):
        yield f"polygon {number}", random_symbol(rng)


def random_symbol(rng):
    """Integers about 0 with mediants between them, and sides paired at random."""
    vertices = [(x, 1) for x in range(rng.randint(-3, -1), rng.randint(1, 4))]
    for _ in range(rng.randint(0, 20)):
        i = rng.randrange(len(vertices) - 1)
        (a, b), (c, d) = vertices[i : i + 2]
        vertices.insert(i + 1, (a + c, b + d))
    pairings, sides = [0] * (len(vertices) + 1), rng.sample(range(len(vertices) + 1), len(vertices) + 1)
    while sides:
        # how many sides are left is a label of its own
        kind = rng.choice([-2, -3, len(sides)] if len(sides) > 1 else [-2, -3])
        for _ in range(2 if kind > 0 else 1):
            pairings[sides.pop()] = kind
    return Symbol(vertices, pairings)


class Words(unittest.TestCase):
    def is_the_word(self, H, word, X):
        kinds, matrices = zip(*by_hand.generators_of(H.vertices, list(H.pairings)))
        self.assertTrue(by_hand.is_reduced(word, kinds))
        self.assertEqual(by_hand.value(word, matrices), by_hand.times(word.sign, X))

    def test_products_of_generators(self):
        """Long random words, whose entries have up to some hundred digits, and such matrices A and B."""
        rng = by_hand.seeded("large words")
        digits = 0
        for name, H in some_symbols():
            matrices = [matrix for _, matrix in by_hand.generators_of(H.vertices, list(H.pairings))]
            for length in (1, 7, 30, 120):
                given = [rng.choice([1, -1]) * rng.randint(1, len(matrices)) for _ in range(length)]
                X = by_hand.value(given, matrices)
                _, A = by_hand.random_word(rng, rng.choice([0, 200]))
                with self.subTest(name, length=length):
                    self.assertTrue(X in H)
                    self.is_the_word(H, H.word(X), X)
                    word = H.word(A, by_hand.product(X, A))
                    self.is_the_word(H, word, X)
                    self.assertEqual(word, H.reduce(given))
                    other = H.word(by_hand.negative(X))
                    self.assertEqual((other, other.sign), (word, -word.sign))
                    digits = max(digits, len(str(max(X))))
        self.assertGreater(digits, 100)

    def test_as_the_engine(self):
        """What is followed here for large matrices, asked of small ones: the engine's words with their signs."""
        rng = by_hand.seeded("walks")
        met = 0
        for name, H in some_symbols():
            matrices = [matrix for _, matrix in by_hand.generators_of(H.vertices, list(H.pairings))]
            for X in by_hand.small_matrices(2) + [by_hand.product(*rng.choices(matrices, k=2)) for _ in range(10)]:
                if max(map(abs, X)) <= 10**6 and X in H:
                    expected, found = H.word(X), H._walk().word(X)
                    told = found.letters(), found.sign, found.length
                    self.assertEqual(told, (expected, expected.sign, len(expected)), (name, X))
                    met += 1
        self.assertGreater(met, 800)

    def test_none_by_congruence(self):
        rng = by_hand.seeded("large congruences")
        met = {True: 0, False: 0}
        groups = {"Gamma0(6)": Symbol.gamma0(6), "Gamma0(11)": Symbol.gamma0(11), "Gamma1(7)": Symbol.gamma1(7)}
        for name, H in {**groups, "Gamma(4)": Symbol.gamma(4)}.items():
            matrices = [generator.matrix for generator in H.generators]
            for _ in range(60):
                _, A = by_hand.random_word(rng, rng.choice([10, 300]))
                if rng.random() < 0.4:
                    X = by_hand.product(*rng.choices(matrices + list(map(by_hand.inverse, matrices)), k=30))
                else:
                    _, X = by_hand.random_word(rng, 200)
                expected = by_hand.is_in(name, X)
                B = by_hand.product(X, A)
                self.assertIs(X in H, expected)
                self.assertIs(H.coset_of(A) == H.coset_of(B), expected)
                self.assertIs(H.same_coset(A, B), expected)
                self.assertIs(H.word(A, B) is not None, expected)
                if not expected:
                    self.assertTrue(evidence.check(*H.why_none(A, B)))
                self.assertEqual(H.same_cosets([(A, B), (by_hand.I, by_hand.I)]), [expected, True])
                met[expected] += 1
        self.assertGreater(min(met.values()), 60)

    def test_cosets_by_letters(self):
        """A matrix leads where the letters that it was made of lead, and moves all cosets as they do."""
        rng = by_hand.seeded("large cosets")
        for _ in range(20):
            s, r = by_hand.random_pair(rng, rng.randint(1, 30))
            H = Symbol.from_permutations(s, r)
            letters, M = by_hand.random_word(rng, 250)
            expected = tuple(by_hand.followed(H.S, H.R, letters, point) for point in range(H.index))
            self.assertEqual(H.permutation(M), expected)
            self.assertEqual(H.coset_of(M), expected[0])
            self.assertIs(M in H, expected[0] == 0)


class Lengths(unittest.TestCase):
    """Long runs: a word's length is told where the word has no room."""

    def length(self, H, M):
        """How many letters the engine's word has, from a question with small entries."""
        word = H.word(M)
        return None if word is None else len(word)

    def test_runs_at_a_cusp(self):
        """F T^(n w) F⁻¹ has a length that rises by the same number for each further round: so the lengths for
        n up to 12, which the engine tells, say those for n = 10^30."""
        for name, H in some_symbols():
            action, walk = H._action(), H._walk()
            self.assertIs(H._walk(), walk)
            done = set()
            for F in large.frames(H.vertices, H.pairings):
                cusp = H.coset_cusps[action.image(0, F)]
                if max(map(abs, F)) > 30 or cusp in done:
                    continue
                done.add(cusp)
                lengths = []
                for n in (9, 10, 11, 12):
                    M = by_hand.product(F, power_of_t(n * H.widths[cusp]), by_hand.inverse(F))
                    lengths.append(self.length(H, M))
                (step,) = {b - a for a, b in zip(lengths, lengths[1:])}
                M = by_hand.product(F, power_of_t(10**30 * H.widths[cusp]), by_hand.inverse(F))
                with self.subTest(name, F=F), self.assertRaises(Refusal) as caught:
                    H.word(M)
                expected = lengths[0] + (10**30 - 9) * step
                self.assertEqual((caught.exception.number, caught.exception.place), (11, expected))

    def test_several_long_runs(self):
        """A product of two runs, with so many rounds that the words can still be written, and their lengths."""
        turned = Symbol([-1, 0], [1, -2, 1])
        for H in (Symbol.gamma0(2), Symbol.gamma0(13), Symbol.gamma(3), Symbol([0], [-2, -3]), turned):
            level = H.level
            for n, m in ((20_000, 3), (7, 30_000), (10_000, -10_000), (-40, 20_001)):
                X = by_hand.product(power_of_t(n * level), (1, 0, m * level, 1), power_of_t(-n * level))
                word = H.word(X)
                kinds, matrices = zip(*by_hand.generators_of(H.vertices, list(H.pairings)))
                self.assertTrue(by_hand.is_reduced(word, kinds))
                # T^n L^m T^-n, multiplied as what it is: n letters at a time would take long
                half = H.word(power_of_t(n * level))
                middle = H.word((1, 0, m * level, 1))
                whole = H.reduce(half + middle + [-letter for letter in reversed(half)])
                self.assertEqual(word, whole)
                for bound in (len(word), len(word) + 5):
                    self.assertEqual(H.word(X, most=bound), word)
                for bound in (len(word) - 1, 0, -1):
                    with self.assertRaises(Refusal) as caught:
                        H.word(X, most=bound)
                    self.assertEqual((caught.exception.number, caught.exception.place), (11, len(word)))

    def test_at_once(self):
        """Long quotients cost no time: entries of 3,000 digits, and (n - 1)/n, which is near 1."""
        H, start = Symbol.gamma0(11), time.monotonic()
        X = by_hand.product(power_of_t(10**1500), (1, 0, 11 * 10**1499, 1), power_of_t(-(10**1400)))
        with self.assertRaises(Refusal) as caught:
            H.word(X)
        self.assertGreater(caught.exception.place, 10**1499)
        self.assertIn(f"the word has {caught.exception.place} letters", str(caught.exception))
        with self.assertRaises(Refusal) as caught:
            H.word(power_of_t(10**6000))
        self.assertEqual(caught.exception.place, 10**6000)
        self.assertIn("the word has (about 2^19932) letters", str(caught.exception))
        n = 11 * 10**40
        M = (n - 1, n - 2, n, n - 1)
        self.assertEqual(M[0] * M[3] - M[1] * M[2], 1)
        self.assertTrue(M in H and by_hand.is_in("Gamma0(11)", M))
        self.assertEqual(H.coset_of((10**40 - 1, -1, 10**40, -1)), H.coset_of((10**40 % 11 - 1, -1, 10**40 % 11, -1)))
        self.assertLess(time.monotonic() - start, 5)

    def test_a_wrong_word_does_not_leave(self):
        """With one letter of the tables altered nothing is answered but the right word."""
        rng = by_hand.seeded("altered")
        for H in (Symbol.gamma0(11), Symbol.gamma0(13), Symbol.gamma(3)):
            X = by_hand.product(*(g.matrix for g in rng.choices(H.generators, k=120)))
            self.assertGreater(max(map(abs, X)), 10**18)
            steps = H._walk().steps
            wrong = 0
            for name, table in steps.items():
                for point, (image, letters) in enumerate(table):
                    for place, letter in enumerate(letters):
                        other = letters[:place] + [letter % len(H.generators) + 1] + letters[place + 1 :]
                        altered = {**steps, name: table[:point] + [(image, other)] + table[point + 1 :]}
                        with mock.patch.object(H._walk(), "steps", altered):
                            try:
                                word = H.word(X)
                            except ArithmeticError:
                                wrong += 1
                            else:
                                found = by_hand.value(word, [g.matrix for g in H.generators])
                                self.assertEqual(found, by_hand.times(word.sign, X))
            self.assertGreater(wrong, 10)


class Kept(unittest.TestCase):
    """What a symbol was once asked is not asked of the engine again."""

    def test_tables_are_built_once(self):
        H, asked, answer = Symbol.gamma0(30), [], library.answer

        def counted(name, *arguments):
            asked.append(name)
            return answer(name, *arguments)

        with mock.patch.object(library, "answer", counted):
            for _ in range(3):
                for N in range(50):
                    self.assertIs((1, 0, N, 1) in H, N % 30 == 0)
                H.coset_of(by_hand.S), H.permutation(by_hand.R), H.cusp_of(by_hand.T), hash(H)
                H.index, H.genus, H.level, H.widths, H.generators, H.S, H.R, H.T, H.coset_steps, H.sides(), H.box()
                H.word(by_hand.product(*(g.matrix for g in H.generators * 5)))
        self.assertEqual(len(asked), len(set(asked)), asked)

    def test_the_engine_is_asked_where_it_can_be(self):
        """Of large A and B the engine is asked for B A⁻¹ where its entries are up to 10^18."""
        H, asked, answer = Symbol.gamma0(30), [], library.answer

        def noted(name, *arguments):
            asked.append(name)
            return answer(name, *arguments)

        A = by_hand.product((1, 10**9, 0, 1), (1, 0, 10**9, 1))
        for X in ((1, 1, 0, 1), (1, 0, 30, 1), (1, 0, 29, 1), (1, 0, 10**18, 1), (1, 0, 10**18 + 1, 1)):
            del asked[:]
            with mock.patch.object(library, "answer", noted):
                B = by_hand.product(X, A)
                self.assertEqual((H.same_coset(A, B), H.word(A, B)), (X[2] % 30 == 0, H.word(X)))
            one = "farey_contains_matrix" in asked and "farey_signed_matrix_word" in asked
            self.assertEqual(one, max(X) <= 10**18)

    def test_generators_of_deep_symbols(self):
        """By the leftmost rule generators have entries over 1,000,000: each is in its group, and is its own letter."""
        met = 0
        for N in (36, 60, 84, 96, 108, 119):
            H = Symbol.from_permutations(*named_tables("gamma0", N), rule="leftmost")
            self.assertTrue(all(generator.matrix in H for generator in H.generators))
            for j, generator in enumerate(H.generators, 1):
                if max(map(abs, generator.matrix)) > 10**6:
                    self.assertEqual(H.word(generator.matrix), [j])
                    back = [j] if generator.kind == "even" else [-j]
                    self.assertEqual(H.word(by_hand.inverse(generator.matrix)), back)
                    met += 1
        self.assertGreater(met, 20)

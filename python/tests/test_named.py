"""Groups by name: `Symbol.gamma0`, `gamma1`, `gamma`, and `named_tables`."""

import math
import unittest
from decimal import Decimal
from fractions import Fraction

import farey
from farey import Refusal, Symbol, named_tables

from . import reckoning as by_hand

#: The name of a family in the stored figures, its method and its word.
FAMILIES = (("Gamma0", Symbol.gamma0, "gamma0"), ("Gamma1", Symbol.gamma1, "gamma1"), ("Gamma", Symbol.gamma, "gamma"))
#: For each family some N, small and large.
LEVELS = {
    "Gamma0": [*range(1, 41), 97, 120, 210, 496, 990, 997, 1000],
    "Gamma1": [*range(1, 20), 24, 67, 84, 90],
    "Gamma": [*range(1, 8), 12, 16, 18, 20],
}


def itself(H):
    return H.vertices, H.pairings


def groups():
    """Name, N, method and word of many groups."""
    for kind, make, word in FAMILIES:
        for N in LEVELS[kind]:
            yield f"{kind}({N})", N, make, word


class Named(unittest.TestCase):
    def test_stored_figures(self):
        """SageMath's figures, and N for the level."""
        methods = {kind: make for kind, make, _ in FAMILIES}
        met = {kind: 0 for kind in methods}
        for name, _, _, index, e2, e3, genus, widths in by_hand.stored_symbols():
            kind, _, rest = name.partition("(")
            if kind not in methods:
                continue
            with self.subTest(name):
                N = int(rest.rstrip(")"))
                H = methods[kind](N)
                self.assertEqual((H.index, H.e2, H.e3, H.genus, H.level), (index, e2, e3, genus, N))
                self.assertEqual(sorted(H.widths), widths)
                met[kind] += 1
        self.assertEqual(met, {"Gamma0": 45, "Gamma1": 13, "Gamma": 7})

    def test_figures_of_all(self):
        """SageMath's figures of every group within the limit of the index: rust/reference/data/congruence.txt."""
        methods = {kind: make for kind, make, _ in FAMILIES}
        text = (by_hand.REPOSITORY / "rust/reference/data/congruence.txt").read_text("utf-8")
        lines = [line.split() for line in text.splitlines() if not line.startswith("#")]
        for kind, *numbers in lines:
            N, *figures = map(int, numbers)
            H = methods[kind](N)
            self.assertEqual([H.index, H.e2, H.e3, H.cusps, H.genus], figures, f"{kind}({N})")
        self.assertEqual(len(lines), 1104)

    def test_tables(self):
        """Those of the cosets modulo N; the symbol's own tables are the same, and its generators meet the condition."""
        for name, N, make, word in groups():
            with self.subTest(name):
                expected = by_hand.named_tables(name)
                self.assertEqual(named_tables(word, N), expected)
                H = make(N)
                self.assertEqual((H.S, H.R), expected)
                self.assertTrue(all(by_hand.is_in(name, generator.matrix) for generator in H.generators))

    def test_index(self):
        """N times 1 + 1/p for each prime p of N; times half of φ(N); times N."""
        for name, N, make, _ in groups():
            primes = [p for p in range(2, N + 1) if N % p == 0 and all(p % q for q in range(2, p))]
            lines = N * math.prod(p + 1 for p in primes) // math.prod(primes)
            units = sum(math.gcd(u, N) == 1 for u in range(1, N + 1))
            rows = lines * (units // 2) if N > 2 else lines
            expected = {"Gamma0": lines, "Gamma1": rows, "Gamma": rows * N}[name.partition("(")[0]]
            self.assertEqual(make(N).index, expected, name)

    def test_by_which_rule(self):
        """The wide rule's symbol, or by name the leftmost rule's; what that refuses with 16 is refused by name too."""
        met = {True: 0, False: 0}
        for name, N, make, word in groups():
            S, R = named_tables(word, N)
            for H in (make(N), make(N, rule="wide")):
                self.assertEqual(itself(H), itself(Symbol.from_permutations(S, R)), name)
            answers = []
            for ask in (lambda: make(N, rule="leftmost"), lambda: Symbol.from_permutations(S, R, rule="leftmost")):
                try:
                    answers.append(itself(ask()))
                except Refusal as refusal:
                    answers.append((refusal.number, refusal.place))
            self.assertEqual(answers[0], answers[1], name)
            met[answers[0][0] != 16] += 1
        self.assertGreater(min(met.values()), 10)

    def test_generators_are_taken_back(self):
        """A generator is in its group, and its word is one letter, by either rule; by the wide rule the engine
        itself takes it: no entry is over 1,000,000 in size."""
        large = 0
        for name, N, make, _ in groups():
            for rule in ("wide", "leftmost"):
                try:
                    H = make(N, rule=rule)
                except Refusal as refusal:
                    self.assertEqual((refusal.number, rule), (16, "leftmost"))
                    continue
                sizes = [max(map(abs, generator.matrix)) for generator in H.generators]
                large += max(sizes) > 1_000_000
                if rule == "wide":
                    self.assertLessEqual(max(sizes), 1_000_000, name)
                for j in {1, 1 + sizes.index(max(sizes)), len(sizes)}:
                    matrix = H.generators[j - 1].matrix
                    self.assertTrue(matrix in H, name)
                    self.assertEqual(H.word(matrix), [j], name)
        self.assertGreater(large, 3)

    def test_words_and_members_by_congruence(self):
        rng = by_hand.seeded("named")
        met = {True: 0, False: 0}
        for name, N, make, _ in groups():
            H = make(N)
            matrices = [generator.matrix for generator in H.generators]
            for case in range(12):
                if case % 2:
                    X = by_hand.product(*(by_hand.inverse(M) if rng.random() < 0.5 else M for M in rng.choices(matrices, k=2)))
                else:
                    _, X = by_hand.random_word(rng, 12)
                _, A = by_hand.random_word(rng, 6)
                B = by_hand.product(X, A)
                if max(map(abs, X + A + B)) > 1_000_000:
                    continue
                expected = by_hand.is_in(name, X)
                with self.subTest(name, A=A, B=B):
                    self.assertEqual(X in H, expected)
                    word = H.word(A, B)
                    self.assertEqual(word is not None, expected)
                    if word is not None:
                        self.assertEqual(by_hand.product(by_hand.value(word, matrices), A), by_hand.times(word.sign, B))
                    met[expected] += 1
        self.assertGreater(min(met.values()), 100, met)

    def test_made_as_any_other(self):
        """By a class that stands on Symbol it is one of that class."""

        class Other(Symbol):
            pass

        self.assertIs(type(Other.gamma0(11)), Other)
        self.assertEqual(itself(Symbol.parse(Symbol.gamma0(11).text())), itself(Symbol.gamma0(11)))

    def test_by_the_module(self):
        """`farey.gamma0` and its like are those of Symbol."""
        for name in ("gamma0", "gamma1", "gamma"):
            for rule in ("wide", "leftmost"):
                H = getattr(farey, name)(6, rule=rule)
                self.assertEqual((type(H), itself(H)), (Symbol, itself(getattr(Symbol, name)(6, rule=rule))))


class Wrong(unittest.TestCase):
    def refused(self, number, call, *arguments):
        with self.assertRaises(Refusal) as caught:
            call(*arguments)
        self.assertEqual((caught.exception.number, caught.exception.place), (number, 0))

    def test_out_of_range(self):
        for _, make, word in FAMILIES:
            for N in (0, -1, -11, 1001, 1002, 2**16 + 11, 2**32 + 11, 2**63, 2**64, 2**64 + 11, -(2**64) + 11, 10**5000, -(10**5000)):
                self.refused(20, make, N)
                self.refused(20, named_tables, word, N)

    def test_large_index(self):
        """19 * 360/2 = 3,420 and 89 * 89 - 1 over 2 = 3,960 are over 3,066; 20 * 288/2 = 2,880 isn't."""
        self.refused(21, Symbol.gamma, 19)
        self.refused(21, named_tables, "gamma", 19)
        self.refused(21, Symbol.gamma1, 89)
        self.refused(21, Symbol.gamma1, 1000)
        self.refused(21, Symbol.gamma, 1000)
        self.assertEqual(Symbol.gamma(20).index, 2880)

    def test_no_integer(self):
        for wrong in (11.0, 0.5, float("nan"), True, None, "11", b"11", Fraction(11), Decimal(11), 1j, [11], (11,), object()):
            for _, make, word in FAMILIES:
                for call, arguments in ((make, (wrong,)), (named_tables, (word, wrong))):
                    with self.assertRaises(TypeError) as caught:
                        call(*arguments)
                    self.assertTrue(str(caught.exception).startswith("N is "), caught.exception)
        for _, make, _ in FAMILIES:
            for arguments in ((), (11, 12)):
                with self.assertRaises(TypeError):
                    make(*arguments)

    def test_no_family(self):
        for wrong in ("Gamma0", "gamma2", "", "gamma0 ", "Γ0"):
            with self.assertRaises(ValueError) as caught:
                named_tables(wrong, 11)
            self.assertIn("'gamma0', 'gamma1' or 'gamma' is wanted", str(caught.exception))
        for wrong in (0, None, b"gamma0", ["gamma0"], Symbol.gamma0):
            with self.assertRaises(TypeError) as caught:
                named_tables(wrong, 11)
            self.assertIn("'gamma0', 'gamma1' or 'gamma' is wanted", str(caught.exception))

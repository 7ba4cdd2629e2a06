"""The coset record: the cusp and the steps of each coset, and the cusp of a matrix."""

import math
import unittest

from farey import Cusp, Refusal, Symbol

from . import reckoning as by_hand


class Record(unittest.TestCase):
    """The columns of cusps and steps."""

    def test_stored_symbols(self):
        """Followed from each cusp's smallest coset, T comes to every coset after its steps."""
        for name, vertices, pairings, index, *_ in by_hand.stored_symbols():
            with self.subTest(name):
                H = Symbol(vertices, pairings)
                self.assertEqual(len(H.coset_cusps), index)
                self.assertEqual(len(H.coset_steps), index)
                met = 0
                for number, width in enumerate(H.widths):
                    point = H.coset_cusps.index(number)
                    for steps in range(width):
                        self.assertEqual((H.coset_cusps[point], H.coset_steps[point]), (number, steps))
                        point = H.T[point]
                        met += 1
                self.assertEqual(met, index)
                smallest = [H.coset_cusps.index(number) for number in range(H.cusps)]
                self.assertEqual(smallest, sorted(smallest))


def representatives(H):
    """A matrix for each coset, by the tables of S and R."""
    found = {0: by_hand.I}
    for x in range(H.index):
        for image, M in (H.S[x], (0, -1, 1, 0)), (H.R[x], (0, -1, 1, 1)):
            found.setdefault(image, by_hand.product(found[x], M))
    return [found[x] for x in range(H.index)]


class Fractions(unittest.TestCase):
    """Which cusp a matrix sends infinity to."""

    def test_widths_of_gamma0(self):
        """The cusp a/c of Γ0(N) has the width N / gcd(c², N), and every cusp is met."""
        for N in [1, 2, 4, 6, 9, 11, 12, 25, 30, 36, 60]:
            H = Symbol.gamma0(N)
            met = set()
            for A in representatives(H):
                cusp = H.cusp_of(A)
                self.assertEqual(cusp.width, N // math.gcd(A[2] ** 2, N), (N, A))
                met.add(cusp)
            self.assertEqual(met, {Cusp(number, width) for number, width in enumerate(H.widths)})

    def test_classes_of_gamma0(self):
        """a/c and a'/c' are one cusp of Γ0(N) exactly when s c' and s' c agree modulo gcd(c c', N), where s and s' are inverse to a
        modulo c and to a' modulo c'. In 25 and 36 cusps of one width, and even of one denominator, lie apart."""
        rng = by_hand.seeded("classes")
        for N in [4, 6, 9, 12, 16, 25, 36, 49, 60]:
            H = Symbol.gamma0(N)
            matrices = representatives(H)
            pairs = [(A, B) for A in matrices for B in matrices]
            for A, B in rng.sample(pairs, min(len(pairs), 600)):
                # d is inverse to a modulo c, for the determinant is 1
                same = (A[3] * B[2] - B[3] * A[2]) % math.gcd(A[2] * B[2], N) == 0
                self.assertEqual(H.cusp_of(A) == H.cusp_of(B), same, (N, A, B))

    def test_cosets(self):
        """Two matrices have one coset exactly when B A⁻¹ is in the group."""
        rng = by_hand.seeded("cosets")
        matrices = by_hand.small_matrices(3)
        for N in (5, 6, 11):
            H = Symbol.gamma0(N)
            self.assertEqual({H.coset_of(A) for A in by_hand.small_matrices(6)}, set(range(H.index)))
            for _ in range(300):
                A, B = rng.choice(matrices), rng.choice(matrices)
                same = by_hand.product(B, by_hand.inverse(A))[2] % N == 0
                self.assertEqual(H.coset_of(A) == H.coset_of(B), same, (N, A, B))

    def test_moved_by_the_group(self):
        """An element of H, and a power of T behind, leave the cusp as it is."""
        rng = by_hand.seeded("moved")
        matrices = by_hand.small_matrices(3)
        for name, vertices, pairings, *_ in by_hand.stored_symbols():
            H = Symbol(vertices, pairings)
            for _ in range(5):
                A = rng.choice(matrices)
                g = rng.choice(H.generators).matrix
                n = rng.randrange(-50, 51)
                B = by_hand.product(g, A, (1, n, 0, 1))
                if max(map(abs, B)) <= 1000000:
                    self.assertEqual(H.cusp_of(B), H.cusp_of(A), (name, A, g, n))
                self.assertEqual(H.cusp_of(by_hand.negative(A)), H.cusp_of(A))

    def test_long_runs(self):
        """A million steps of T are one remainder."""
        H = Symbol.gamma(7)
        self.assertEqual(H.coset_of((1, 1000000, 0, 1)), H.coset_of((1, 1000000 % 7, 0, 1)))
        self.assertEqual(H.coset_of((1, -1000000, 0, 1)), H.coset_of((1, -1000000 % 7, 0, 1)))

    def test_refused(self):
        H = Symbol.gamma0(11)
        for A, number, place in [((1, 0, 0, 2), 9, 0), ((2, 0, 0, -1000001), 9, 0)]:
            with self.assertRaises(Refusal) as caught:
                H.cusp_of(A)
            self.assertEqual((caught.exception.number, caught.exception.place), (number, place))
        with self.assertRaises(TypeError):
            H.cusp_of((1, 0, 0.5, 1))
        with self.assertRaises(ValueError):
            H.coset_of((1, 0, 0))

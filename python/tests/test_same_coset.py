"""Yes or no without a word: `same_coset`, `same_cosets` and `in`."""

import unittest

from farey import Refusal, Symbol

from . import reckoning as by_hand


def single(H, A, B):
    """True where there is a word, False where there is none, or the refusal."""
    try:
        return H.word(A, B) is not None
    except Refusal as refusal:
        return refusal.number, refusal.place


def told(answer):
    return (answer.number, answer.place) if isinstance(answer, Refusal) else answer


class SameCoset(unittest.TestCase):
    def test_as_words(self):
        """One by one and all at once, as single queries: pairs of each kind, more than a sheet has."""
        rng = by_hand.seeded("same cosets")
        matrices = by_hand.small_matrices(4)
        wrong = [(2, 0, 0, 1), (1, 0, 0, 10**6 + 1), (-(10**30), 1, 0, 1), (1, 0, 10**6 + 1, 1), (1, 0, 66 * 10**5, 1)]
        met = {True: 0, False: 0, (9, 0): 0, (9, 1): 0}
        for H, count in zip([Symbol([0], [-2, -3]), Symbol.gamma0(2), Symbol.gamma0(11), Symbol.gamma(3)], [0, 40, 300, 600]):
            pairs = [[rng.choice(matrices), rng.choice(matrices)] for _ in range(count)]
            for pair in pairs:
                if rng.random() < 0.1:
                    pair[rng.randrange(2)] = rng.choice(wrong)
            expected = [single(H, *pair) for pair in pairs]
            self.assertEqual([told(answer) for answer in H.same_cosets(pairs)], expected)
            for pair, answer in zip(pairs, expected):
                if isinstance(answer, bool):
                    self.assertIs(H.same_coset(*pair), answer)
                else:
                    with self.assertRaises(Refusal) as caught:
                        H.same_coset(*pair)
                    self.assertEqual(told(caught.exception), answer)
                met[answer] = met.get(answer, 0) + 1
        self.assertTrue(all(count >= 5 for count in met.values()), met)

    def test_by_the_condition(self):
        """Γ0(N): A and B share a coset exactly where N divides the lower left entry of B A^-1. Long runs of T."""
        for n in (2, 6, 11, 100):
            H = Symbol.gamma0(n)
            for k in (1, n - 1, n, 5 * n, 999_999, 10**6 // n * n):
                self.assertIs(H.same_coset(by_hand.I, (1, 0, k, 1)), k % n == 0)
                self.assertIs((1, 0, -k, 1) in H, k % n == 0)
                self.assertTrue(H.same_coset((1, k, 0, 1), by_hand.I))
                self.assertIs(H.same_coset((1, 0, 1, 1), (1, 0, k, 1)), (k - 1) % n == 0)

    def test_many(self):
        """More pairs than a sheet has, in one call."""
        H = Symbol.gamma0(7)
        pairs = [(by_hand.I, (1, 0, k, 1)) for k in range(100_000)]
        self.assertEqual(H.same_cosets(pairs), [k % 7 == 0 for k in range(100_000)])
        self.assertEqual(H.same_cosets([]), [])

"""Partners exchanged, against a swap by hand: the exchanged symbols, what stays, when an
exchange made twice gives the symbol back, previews and refusal 23."""

import itertools
import random
import unittest

from farey import Preview, Refusal, Symbol


def by_hand(pairings, x, y):
    """The pairings after their second sides have traded labels."""
    second = {label: max(i for i, pairing in enumerate(pairings) if pairing == label) for label in (x, y)}
    return [{second[x]: y, second[y]: x}.get(i, pairing) for i, pairing in enumerate(pairings)]


def all_pairings(labels):
    """The ways to put two sides of each label in a row, first labels in order or not."""
    row = [label for label in labels for _ in range(2)]
    return sorted(set(itertools.permutations(row)))


class Exchanged(unittest.TestCase):
    def test_all_with_two_and_three_labels(self):
        """Every order of the sides of two labels, and of three: just the swap, index, e2, e3
        and vertices stay, and twice gives the symbol back exactly where the pairs cross."""
        back = 0
        for labels in ((1, 2), (2, 5, 3)):
            for pairings in all_pairings(labels):
                H = Symbol(list(range(len(pairings) - 1)), pairings)
                sides = {label: [i for i, pairing in enumerate(pairings) if pairing == label] for label in labels}
                for x, y in itertools.permutations(labels, 2):
                    with self.subTest(pairings=pairings, x=x, y=y):
                        once = H.exchanged(x, y)
                        self.assertEqual(list(once.pairings), by_hand(pairings, x, y))
                        self.assertEqual(once.vertices, H.vertices)
                        self.assertEqual((once.index, once.e2, once.e3), (H.index, H.e2, H.e3))
                        self.assertEqual(H.exchanged(y, x).pairings, once.pairings)
                        twice = once.exchanged(x, y)
                        crossed = sides[x][0] < sides[y][1] and sides[y][0] < sides[x][1]
                        self.assertEqual(list(twice.pairings) == list(pairings), crossed)
                        self.assertEqual(twice.exchanged(x, y).pairings, once.pairings)
                        back += crossed
        self.assertGreater(back, 100)

    def test_apart(self):
        """1 1 2 2, whose pairs stand apart, is not given back."""
        H = Symbol([0, 1, 2], [1, 1, 2, 2])
        once = H.exchanged(1, 2)
        self.assertEqual(list(once.pairings), [1, 2, 2, 1])
        self.assertEqual(list(once.exchanged(1, 2).pairings), [1, 2, 1, 2])


class Previews(unittest.TestCase):
    def test_a_copy_and_its_figures(self):
        """What the exchanged symbol has, for random ones of all kinds of sides."""
        rng = random.Random(11)
        met = set()
        for _ in range(300):
            v = rng.randrange(2, 40)
            labels = rng.randrange(2, v // 2 + 2) if v > 2 else 1
            sides = [label for label in range(1, labels + 1) for _ in range(2)][: v + 1]
            if len(sides) % 2:
                sides.pop()
            sides += [rng.choice((-2, -3)) for _ in range(v + 1 - len(sides))]
            rng.shuffle(sides)
            H = Symbol(list(range(v)), sides)
            there = sorted({label for label in sides if label > 0})
            if len(there) < 2:
                continue
            x, y = rng.sample(there, 2)
            changed = H.exchanged(x, y)
            self.assertEqual(H.preview(x, y), Preview(len(changed.widths), changed.widths, changed.genus, changed.level))
            met.add(changed.genus - H.genus)
        self.assertTrue({-1, 0, 1} <= met, met)

    def test_refused(self):
        H = Symbol([0, 1, 2, 3], [1, -2, 2, 2, 1])
        for x, y, place in ((3, 1, 0), (-2, 1, 0), (0, 0, 0), (2**70, 2**70, 0), (1, -3, 1), (1, 5, 1), (1, 1, 1), (2, 2, 1)):
            for call in (H.exchanged, H.preview):
                with self.subTest(x=x, y=y), self.assertRaises(Refusal) as caught:
                    call(x, y)
                self.assertEqual((caught.exception.number, caught.exception.place), (23, place))
        for wrong in (1.0, "1", None, True):
            with self.assertRaises(TypeError):
                H.exchanged(wrong, 1)


if __name__ == "__main__":
    unittest.main()

"""Cycle notation: texts read and written against a reckoning by regular expressions, with the place of 27 by trying endings; and
what GAP and Sage print of their own permutations, stored in `data`, read as the groups that they are of."""

import itertools
import re
import unittest

import farey
from farey import Refusal, Symbol, cycles, library

from . import reckoning as by_hand
from .pages import blocks
from .test_systems import DATA, HANDBOOK, Systems, then

CYCLE = rb"\([0-9]+(?:,[0-9]+)*\)"
WRITTEN = rb"(\(\)|(?:" + CYCLE + rb" *)*)"
SINGLE = rb"(\(\)|" + CYCLE + rb")"
WITH_SEMICOLON = re.compile(rb" *([0-9]+) *" + WRITTEN + rb" *; *" + WRITTEN + rb" *")
WITHOUT = re.compile(rb" *([0-9]+) *" + SINGLE + rb" *" + SINGLE + rb" *")


def right(text):
    """The index and the cycles of S and R, or None."""
    for form in (WITH_SEMICOLON, WITHOUT):
        found = form.fullmatch(text)
        if found and 1 <= int(found[1]) <= 3066:
            index = int(found[1])
            parts = [[list(map(int, cycle.split(b","))) for cycle in re.findall(rb"\(([0-9,]+)\)", found[k])] for k in (2, 3)]
            points = [sum(part, []) for part in parts]
            if all(len(set(each)) == len(each) and all(1 <= x <= index for x in each) for each in points):
                return index, parts
    return None


def pieces(text):
    """The offset and the bytes of each whole run of digits and of each other byte."""
    return [(found.start(), found.group()) for found in re.finditer(rb"[0-9]+|[^0-9]", text, re.S)]


class Endings:
    """Which beginnings some ending makes right, for points up to 4: the endings of up to three pieces are tried, all of them."""

    ALPHABET = [b" ", b"(", b")", b",", b";", b"1", b"2", b"3", b"4"]

    def __init__(self):
        self.known = {}

    def completes(self, start):
        if start not in self.known:
            self.known[start] = any(
                right(start + b"".join(ending)) is not None
                for size in range(4)
                for ending in itertools.product(self.ALPHABET, repeat=size)
                if not any(a[-1:].isdigit() and b[:1].isdigit() for a, b in zip((start,) + ending, ending))
            )
        return self.known[start]

    def place(self, text):
        ends = [(at, at + len(piece)) for at, piece in pieces(text)]
        return next((at for at, end in ends if not self.completes(text[:end])), len(text))


def tables(index, parts):
    """The images of the points from 0."""
    made = []
    for part in parts:
        table = list(range(index))
        for cycle in part:
            for x, y in zip(cycle, cycle[1:] + cycle[:1]):
                table[x - 1] = y - 1
        made.append(tuple(table))
    return tuple(made)


def checked(s, r):
    """The refusal of the checks behind a right text, or None."""
    for table, twice in ((s, then(s, s)), (r, then(then(r, r), r))):
        moved = [x for x in range(len(s)) if twice[x] != x]
        if moved:
            return 14, moved[0]
    missing = sorted(set(range(len(s))) - set(by_hand.numbered(s, r)))
    return (15, missing[0]) if missing else None


def a_text(rng, index):
    """A right text of an index, in some style."""

    def gap():
        return b" " * rng.choice([0, 0, 1, 2])

    def permutation(semicolon):
        points = rng.sample(range(1, index + 1), index)
        kind = rng.random()
        if kind < 0.2:
            return b"()"
        if kind < 0.3 and semicolon:
            return b""
        out = []
        for _ in range(rng.randint(1, 3) if semicolon else 1):
            if points:
                size = rng.randint(1, min(3, len(points)))
                cycle, points = points[:size], points[size:]
                out.append(b"(" + b",".join(rng.choice([b"", b"0"]) + b"%d" % x for x in cycle) + b")")
        return gap().join(out)

    semicolon = rng.random() < 0.6
    number = rng.choice([b"", b"00"]) + b"%d" % index
    return gap() + number + gap() + permutation(semicolon) + gap() + (b";" if semicolon else b"") + gap() + permutation(semicolon) + gap()


def damaged(rng, text):
    """The text with one byte put in, taken away or overwritten."""
    at = rng.randrange(len(text) + 1)
    byte = bytes([rng.choice(b" (),;01234\nx-\x00\xc3")])
    return rng.choice([text[:at] + byte + text[at:], text[:at] + text[at + 1 :], text[:at] + byte + text[at + 1 :]])


class Reading(unittest.TestCase):
    def refused(self, text):
        with self.assertRaises(Refusal) as caught:
            farey.read_cycles(text)
        return caught.exception.number, caught.exception.place

    def test_damaged_texts(self):
        """Random texts of the form in every style, each then damaged by one byte, and cut short."""
        endings, rng, met = Endings(), by_hand.seeded("cycles"), {}
        for _ in range(250):
            text = a_text(rng, rng.randint(1, 3))
            self.assertIsNotNone(right(text), text)
            for each in (text, damaged(rng, text), text[: rng.randrange(len(text) + 1)]):
                index = re.match(rb" *([0-9]+)", each)
                if index and not 1 <= int(index[1]) <= 3066:
                    expected = 12, 0
                elif right(each):
                    found = tables(*right(each))
                    expected = checked(*found)
                elif index and int(index[1]) > 4:
                    continue
                else:
                    expected = 27, endings.place(each)
                if expected is None:
                    self.assertEqual(farey.read_cycles(each), found, each)
                else:
                    self.assertEqual(self.refused(each), expected, each)
                number = 0 if expected is None else expected[0]
                met[number] = met.get(number, 0) + 1
        self.assertTrue(all(met.get(number, 0) >= 5 for number in (0, 12, 14, 15, 27)), met)

    def test_stated_places(self):
        for text, place in (
            ("", 0),
            ("3 (1,2)", 7),
            ("3 (1,2) (1,3,2)\n", 15),
            ("2 (1,2,", 6),
            ("2 (1)(2)(", 8),
            ("3 (1)(1)(", 8),
            ("2 ()(1)(", 7),
            ("2 (1)();", 7),
            ("3 (1, 2)(1,3,2)", 5),
            ("3 (18446744073709551617,2)", 3),
            ("3 (1,2) é", 8),
            ("3 (1,2) \ud800", 8),
            ("3\x00", 1),
        ):
            self.assertEqual(self.refused(text), (27, place), text)
        for text in ("0", "3067 x", "9" * 400 + "(", "0" * 100_000):
            self.assertEqual(self.refused(text), (12, 0))

    def test_of_any_length(self):
        """The library has no limit of 65,536 bytes."""
        blanks = " " * 100_000
        self.assertEqual(farey.read_cycles(f"{blanks}3{blanks}(1,2){blanks}(1,3,2){blanks}"), ((1, 0, 2), (2, 0, 1)))
        self.assertEqual(farey.read_cycles(b"0" * 100_000 + b"1;"), ((0,), (0,)))
        self.assertEqual(self.refused(blanks), (27, 100_000))

    def test_wrong_kinds(self):
        for wrong in (None, 3, ["3 (1,2) (1,3,2)"], bytearray(b"1;"), 1.5):
            with self.assertRaisesRegex(TypeError, "a string is wanted"):
                farey.read_cycles(wrong)
            with self.assertRaisesRegex(TypeError, "a string is wanted"):
                Symbol.from_cycles(wrong)
        with self.assertRaisesRegex(TypeError, "wide is"):
            Symbol.from_cycles("1;", wide=1)
        with self.assertRaisesRegex(ValueError, "rule is 'left'"):
            Symbol.from_cycles("1;", rule="left")
        with self.assertRaises(TypeError):
            Symbol.from_cycles("1;", True)


class Writing(unittest.TestCase):
    def test_there_and_back(self):
        """The text of each stored pair is the index and what `farey.cycles` writes of S and of R, and is read as both."""
        count = 0
        for index, s, r, *_ in by_hand.stored_pairs():
            text = farey.write_cycles(s, r)
            self.assertEqual(text, f"{index} {cycles.text(s)};{cycles.text(r)}")
            self.assertEqual(farey.read_cycles(text), (tuple(s), tuple(r)))
            self.assertEqual(farey.read_cycles(text.encode()), (tuple(s), tuple(r)))
            count += 1
        self.assertGreater(count, 10)

    def test_symbols(self):
        for H in (Symbol.gamma0(1), Symbol.gamma0(31), Symbol.gamma1(7), Symbol.gamma(5), Symbol([0, 1, 2], [1, 2, 2, 1])):
            text = H.cycles()
            self.assertEqual(text, f"{H.index} {cycles.text(H.S)};{cycles.text(H.R)}")
            for wide in (True, False):
                K = Symbol.from_cycles(text, wide=wide)
                self.assertEqual((K.S, K.R), (H.S, H.R))
                other = Symbol.from_permutations(H.S, H.R, wide)
                self.assertEqual(by_hand.symbol_itself(K), by_hand.symbol_itself(other))
                named = Symbol.from_cycles(text, rule="wide" if wide else "leftmost")
                self.assertEqual((named.vertices, named.pairings), (other.vertices, other.pairings))
        large = Symbol([(x, 1) for x in range(1023)], [-3] * 1024)
        with self.assertRaises(Refusal) as caught:
            large.cycles()
        self.assertEqual((large.index, caught.exception.number, caught.exception.place), (4090, 12, 0))

    def test_the_longest(self):
        """3,066 points, none of them fixed: the length that the header names."""
        r = [3 * (x // 3) + (x + 1) % 3 for x in range(3066)]
        s = [0] * 3066
        for i in range(1022):
            s[3 * i + 1], s[3 * ((i + 1) % 1022)], s[3 * i + 2] = 3 * ((i + 1) % 1022), 3 * i + 1, 3 * (i ^ 1) + 2
        text = farey.write_cycles(s, r)
        self.assertEqual(len(text), library.CYCLES)
        self.assertEqual(farey.read_cycles(text), (tuple(s), tuple(r)))

    def test_refusals(self):
        for s, r, number, place in (([], [], 12, 0), ([0], [0, 1], 12, 0), ([0, 0], [0, 1], 13, 1), ([1, 0], [0, 2**40], 13, 1), ([0, 1], [1, 0], 14, 0), ([0, 1], [0, 1], 15, 1)):
            with self.assertRaises(Refusal) as caught:
                farey.write_cycles(s, r)
            self.assertEqual((caught.exception.number, caught.exception.place), (number, place))
        with self.assertRaisesRegex(TypeError, r"S\[1\]"):
            farey.write_cycles([1, 0.5], [0, 1])


class OtherSystems(Systems):
    """The cells of the handbook, and what they printed: `gap-cycles.said` and `sage-cycles.said`."""

    def group(self, text, name, index):
        """A text, pasted, is a symbol of the group of that name."""
        H = Symbol.from_cycles(text)
        s, r = by_hand.named_tables(name)
        self.assertEqual((H.S, H.R), by_hand.renumbered(s, r), name)
        self.assertEqual(H.index, index)
        return H

    def test_gap(self):
        (cell,) = blocks("gap cycles")
        for said in self.answers("gap", ["gap", "-q", "-A", "-r"], cell, "gap-cycles"):
            whole, two, one, padded = said.splitlines()
            H = self.group(whole, "Gamma0(31)", 32)
            self.assertEqual((H.e2, H.e3, H.widths, H.genus), (0, 2, (1, 31), 2))
            # fixed points are left out: R fixes two, and 64 - 2 points are named
            self.assertEqual(len(re.findall(r"\d+", whole)), 1 + 32 + 30)
            # GAP writes as the engine does
            self.assertEqual(farey.write_cycles(*farey.read_cycles(whole)), whole)
            self.group(two, "Gamma0(2)", 3)
            self.assertEqual((two, one), ("3 (1,2);(1,3,2)", "2 (1,2);()"))
            self.assertEqual(farey.read_cycles(one), ((1, 0), (0, 1)))
            # Print by itself puts blanks in front of points, and that is refused
            self.assertEqual(padded, "10 ( 1, 2)( 3,10)")
            with self.assertRaises(Refusal) as caught:
                farey.read_cycles(padded + ";")
            self.assertEqual((caught.exception.number, caught.exception.place), (27, 4))
            self.assertIn(f"as in `{padded}`", HANDBOOK)
            self.assertEqual((by_hand.REPOSITORY / "examples/cycles/gamma0-31-gap.cycles").read_text("utf-8"), whole + "\n")

    def test_sage(self):
        (cell,) = blocks("sage cycles")
        for said in self.answers("sage", ["sage", "-c", cell], cell, "sage-cycles"):
            whole, gamma1, other, identity, two, one = said.splitlines()
            H = self.group(whole, "Gamma0(31)", 32)
            self.assertEqual((H.e2, H.e3, H.widths, H.genus), (0, 2, (1, 31), 2))
            self.group(gamma1, "Gamma1(5)", 12)
            # this one isn't its own mirror image: our R is S2 S3^-1 S2
            s2, s3 = cycles.images("(1,9)(2,5)(3,6)", 9), cycles.images("(1,4,6)(2,3,7)(5,9,8)", 9)
            back = [s3.index(x) for x in range(9)]
            self.assertEqual(farey.read_cycles(other), (tuple(s2), tuple(then(then(s2, back), s2))))
            self.assertEqual((identity, two, one), ("1 ();()", "3 (1,2) (1,3,2)", "2 (1,2) ()"))
            self.assertEqual(farey.read_cycles(identity), ((0,), (0,)))
            self.group(two, "Gamma0(2)", 3)
            self.assertEqual(farey.read_cycles(one), ((1, 0), (0, 1)))
            self.assertEqual((by_hand.REPOSITORY / "examples/cycles/gamma0-31-sage.cycles").read_text("utf-8"), whole + "\n")

"""Matrices of determinant 1 with Python's integers, which are of any size: (a, b, c, d) for (a b; c d)."""

from __future__ import annotations

from typing import Iterator, List, Sequence, Tuple

from .refusal import Refusal

Entries = Tuple[int, int, int, int]

I: Entries = (1, 0, 0, 1)
S: Entries = (0, -1, 1, 0)
R: Entries = (0, -1, 1, 1)
Q: Entries = (0, -1, 1, -1)

#: The engine's queries take entries up to this size.
LARGEST = 1_000_000
#: The largest entry, in size, of the one matrix of the engine's call for one.
MOST_ENTRY = 10**18


def times(x: Entries, y: Entries) -> Entries:
    (a, b, c, d), (e, f, g, h) = x, y
    return a * e + b * g, a * f + b * h, c * e + d * g, c * f + d * h


def inverse(x: Entries) -> Entries:
    a, b, c, d = x
    return d, -b, -c, a


def negative(x: Entries) -> Entries:
    a, b, c, d = x
    return -a, -b, -c, -d


def product(factors: Sequence[Entries]) -> Entries:
    """The product of a list. Neighbours are multiplied first, so that the entries stay small for long."""
    level: List[Entries] = list(factors) or [I]
    while len(level) > 1:
        pairs = [times(x, y) for x, y in zip(level[::2], level[1::2])]
        level = pairs + level[len(pairs) * 2 :]
    return level[0]


def power(x: Entries, n: int) -> Entries:
    """x to the power n, from 0 on, by squaring."""
    found = I
    while n:
        if n & 1:
            found = times(found, x)
        x, n = times(x, x), n >> 1
    return found


def fits(*entries: int) -> bool:
    """Whether the engine's queries take these."""
    return max(map(abs, entries)) <= LARGEST


def fits_alone(x: Entries) -> bool:
    """Whether the engine's call for one matrix takes it."""
    return max(map(abs, x)) <= MOST_ENTRY


def unit(x: Entries, name: str, place: int = 0) -> Entries:
    """The matrix, if its determinant is 1; else refusal 9 with its name."""
    a, b, c, d = x
    if a * d - b * c != 1:
        raise Refusal(9, place, f"the determinant of {name} isn't 1")
    return x


def quotients(x: Entries) -> Iterator[Tuple[int, bool]]:
    """The matrix up to sign as a product of T^q or T^q S: q, and whether S follows. The
    quotients go to the nearest multiple, so that there are few of them.
    (a b; c d) is T^q S (c d; qc-a qd-b), and T^(ab) up to sign where c is 0."""
    a, b, c, d = x
    while c:
        q = (2 * a + c) // (2 * c)
        yield q, True
        a, b, c, d = c, d, q * c - a, q * d - b
    yield a * b, False


def runs(x: Entries) -> Iterator[Tuple[str, int]]:
    """The matrix up to sign as T^q L^q' T^q'' .., where L = (1 0; 1 1) and all quotients but
    the first and the last are over 0, by the continued fraction of a/c; or as T^q S T^q'."""
    a, b, c, d = x if x[2] >= 0 else negative(x)
    while c:
        q = a // c
        if q:
            yield "T", q
            a, b = a - q * c, b - q * d
        if a == 0:
            # the determinant is 1: this is (0 -1; 1 d), which is S T^d
            yield "S", 1
            yield "T", d
            return
        q = c // a
        yield "L", q
        c, d = c - q * a, d - q * b
    yield "T", a * b

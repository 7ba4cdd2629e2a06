"""What a caller passes, as lists of Python's own integers.

Each function here takes anything at all, and gives integers or raises: a
TypeError where something is of the wrong kind (a float, a bool, a string, wrong
nesting), a ValueError where there are too few or too many numbers for the
engine's own refusals to speak of.
"""

from __future__ import annotations

import operator
from itertools import islice
from numbers import Rational
from typing import Any, Iterable, List, Sequence, Tuple, Union

#: A vertex: a pair (numerator, denominator), a Fraction or another rational number, or an integer.
Vertex = Union[int, Rational, Tuple[int, int], Sequence[int]]
#: A matrix (a b; c d): its four entries row by row, or its two rows.
Matrix = Union[Sequence[int], Sequence[Sequence[int]]]
#: A pair of matrices, A and B.
Pair = Tuple[Matrix, Matrix]

#: More numbers than any list of the engine has; what is longer isn't read on.
MOST = 1_000_000


def shown(thing: Any) -> str:
    """What was passed, in few letters."""
    try:
        text = repr(thing)
    except Exception:  # a huge integer, or another's repr that fails
        text = "a thing"
    return f"{text if len(text) <= 40 else text[:37] + '...'} ({type(thing).__name__})"


def integer(thing: Any, what: str) -> int:
    """An integer: an int, or what has `__index__` (Sage's, NumPy's), and no bool, NumPy's neither."""
    if type(thing).__name__ in ("bool", "bool_"):
        raise TypeError(f"{what} is {shown(thing)}, and an integer is wanted")
    try:
        return int(operator.index(thing))
    except TypeError:
        raise TypeError(f"{what} is {shown(thing)}, and an integer is wanted") from None


def items(thing: Any, what: str) -> List[Any]:
    """The members of a list, a tuple or another finite sequence."""
    if isinstance(thing, (str, bytes, bytearray, memoryview, dict, set, frozenset)):
        raise TypeError(f"{what} is {shown(thing)}, and a list or a tuple is wanted")
    try:
        members = iter(thing)
    except TypeError:
        raise TypeError(f"{what} is {shown(thing)}, and a list or a tuple is wanted") from None
    read = list(islice(members, MOST + 1))
    if len(read) > MOST:
        raise ValueError(f"{what} has over {MOST:,} members")
    return read


def integers(thing: Any, what: str) -> List[int]:
    """A list of integers."""
    members = items(thing, what)
    if all(type(member) is int for member in members):
        return members
    return [integer(member, f"{what}[{i}]") for i, member in enumerate(members)]


def counts(thing: Any) -> bool:
    """Whether it stands for an integer. A row of numbers may have `__index__` and still stand for none."""
    try:
        operator.index(thing)
    except TypeError:
        return False
    return True


def vertices(thing: Any, what: str) -> List[Tuple[int, int]]:
    """Numerators and denominators of vertices."""
    return [
        each if type(each) is tuple and list(map(type, each)) == [int, int] else vertex(each, f"{what}[{i}]")
        for i, each in enumerate(items(thing, what))
    ]


def vertex(thing: Any, what: str) -> Tuple[int, int]:
    """Numerator and denominator of a vertex. Sage's rationals have them as methods."""
    if counts(thing):
        return integer(thing, what), 1
    if isinstance(thing, Rational):
        top, bottom = thing.numerator, thing.denominator
        return (
            integer(top() if callable(top) else top, f"the numerator of {what}"),
            integer(bottom() if callable(bottom) else bottom, f"the denominator of {what}"),
        )
    if isinstance(thing, (float, complex)) or not isinstance(thing, Iterable):
        raise TypeError(f"{what} is {shown(thing)}, and a pair (numerator, denominator), a rational number or an integer is wanted")
    pair = integers(thing, what)
    if len(pair) != 2:
        raise ValueError(f"{what} has {len(pair)} numbers, and a vertex has two: numerator and denominator")
    return pair[0], pair[1]


def matrix(thing: Any, what: str) -> Tuple[int, int, int, int]:
    """The entries a, b, c, d of a matrix, from these four or from two rows."""
    members = items(thing, what)
    if len(members) == 2 and not any(counts(row) for row in members):
        rows = [integers(row, f"{what}[{i}]") for i, row in enumerate(members)]
        if [len(row) for row in rows] != [2, 2]:
            raise ValueError(f"{what} has rows of {len(rows[0])} and {len(rows[1])} numbers, and a matrix has rows of two")
        entries = rows[0] + rows[1]
    else:
        entries = [integer(member, f"{what}[{i}]") for i, member in enumerate(members)]
    if len(entries) != 4:
        raise ValueError(f"{what} has {len(entries)} numbers, and a matrix has four: a, b, c, d")
    a, b, c, d = entries
    return a, b, c, d


def pairs(thing: Any, what: str) -> List[Tuple[int, ...]]:
    """The eight entries of each pair of matrices."""
    read = []
    for i, each in enumerate(items(thing, what)):
        pair = items(each, f"{what}[{i}]")
        if len(pair) != 2:
            raise ValueError(f"{what}[{i}] has {len(pair)} members, and a pair has two matrices, A and B")
        read.append(matrix(pair[0], f"A of {what}[{i}]") + matrix(pair[1], f"B of {what}[{i}]"))
    return read


def clamped(numbers: Iterable[int], low: int, high: int, other: int) -> List[int]:
    """The numbers, with `other` for one that isn't from low to high.

    A space of the engine can't hold a larger one. `other` is out of every range
    that the engine checks too, so its refusal has the number and the place that
    the number itself would have.
    """
    return [number if low <= number <= high else other for number in numbers]

"""Pairs of permutations, S and R, as the images of the points 0, 1, 2, .."""

from __future__ import annotations

from ctypes import c_uint32
from typing import Any, List, Optional, Sequence

from . import library
from .arguments import clamped, integers
from .refusal import Refusal

_NO_POINT = 2**32 - 1


def points(images: Sequence[int], name: str) -> Any:
    """A table as the library takes it; what is no 32-bit number becomes one that is outside every table."""
    numbers = clamped(integers(images, name), 0, _NO_POINT, _NO_POINT)
    return (c_uint32 * len(numbers))(*numbers)


def with_r(S: Sequence[int], R: Optional[Sequence[int]], T: Optional[Sequence[int]]) -> Any:
    """R as it is given, or where T is given the R that makes T: S and then R. A table T that
    has no entry for each point, or one that is no point or stands there twice, is
    refused with 12 or 13; a ValueError where R and T are both given and don't fit."""
    if T is None:
        return R
    s, t = integers(S, "S"), integers(T, "T")
    if len(s) != len(t) or not 1 <= len(s) <= library.NAMED:
        raise Refusal(12, 0)
    for name, table in (("S", s), ("T", t)):
        seen = set()
        for place, image in enumerate(table):
            if not 0 <= image < len(s) or image in seen:
                raise Refusal(13, place, f"entry {{place}} of {name} is no point or is equal to an earlier one")
            seen.add(image)
    made: List[int] = [0] * len(s)
    for x, image in enumerate(s):
        made[image] = t[x]
    if R is not None and integers(R, "R") != made:
        raise ValueError("T isn't S and then R")
    return made


def import_length(S: Sequence[int], R: Sequence[int]) -> int:
    """How many numbers the table of a symbol for S and R has, without making it:
    3v + 1, where v = (index - e3)/3 + 1 is the number of vertices and R fixes e3
    points. It is the same for both rules of `Symbol.from_permutations`. Refusals 12
    to 15; 16 may still follow, when the symbol is made.

    >>> import_length([1, 0, 2], [2, 0, 1])
    7
    >>> import_length([1, 0], [0, 1])
    4
    >>> import_length([0, 1], [0, 1])
    Traceback (most recent call last):
    farey.refusal.Refusal: refused 15 1: point 1 isn't reached from point 0
    """
    return library.call("farey_import_length", points(S, "S"), points(R, "R"))

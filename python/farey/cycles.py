"""Permutations as Sage, GAP and Magma write them: cycles, points from 1.

>>> images("(1,2)(4,5)", 5)
[1, 0, 2, 4, 3]
>>> text([1, 0, 2, 4, 3])
'(1,2)(4,5)'
"""

from __future__ import annotations

import re
from typing import Any, List, Sequence

from .arguments import integer, integers, shown

_CYCLE = re.compile(r"\(\s*([0-9]{1,9}(?:\s*,\s*[0-9]{1,9})*)?\s*\)")


def images(cycles: str, points: int) -> List[int]:
    """The images of the points 0 to points - 1, from cycles over 1 to points.

    What isn't named stays where it is, so the number of points has to be said.

    >>> images("()", 2)
    [0, 1]
    >>> images("(1,2,3)", 2)
    Traceback (most recent call last):
    ValueError: point 3 isn't from 1 to 2
    """
    if not isinstance(cycles, str):
        raise TypeError(f"cycles is {shown(cycles)}, and a string as '(1,2)(3,4)' is wanted")
    count = integer(points, "points")
    if not 1 <= count <= 1_000_000:
        raise ValueError(f"points is {shown(count)}, and a number from 1 to 1,000,000 is wanted")
    rest = cycles.strip()
    moved: Any = {}
    while rest:
        found = _CYCLE.match(rest)
        if found is None:
            raise ValueError(f"there is no cycle at {rest[:20]!r}")
        cycle = [int(point) for point in (found[1] or "").split(",") if point.strip()]
        for point, after in zip(cycle, cycle[1:] + cycle[:1]):
            if not 1 <= point <= count:
                raise ValueError(f"point {point} isn't from 1 to {count}")
            if point in moved:
                raise ValueError(f"point {point} is named twice")
            moved[point] = after
        rest = rest[found.end():].lstrip()
    return [moved.get(point, point) - 1 for point in range(1, count + 1)]


def text(images: Sequence[int]) -> str:
    """The cycles of two points or more, over points from 1; '()' where there are none.

    >>> text([0, 1])
    '()'
    """
    table = integers(images, "images")
    if sorted(table) != list(range(len(table))):
        raise ValueError("images is no permutation of 0, 1, 2, ..")
    seen = set()
    written = ""
    for start in range(len(table)):
        cycle = []
        point = start
        while point not in seen:
            seen.add(point)
            cycle.append(point + 1)
            point = table[point]
        if len(cycle) > 1:
            written += "(" + ",".join(map(str, cycle)) + ")"
    return written or "()"

"""Pairs of permutations in cycle notation, as one text: the index, then S and R as
disjoint cycles over points from 1, as Sage, GAP and Magma write them.

The engine reads and writes these texts; `farey.cycles` is for a permutation by
itself, and works without the engine.
"""

from __future__ import annotations

from ctypes import c_uint8, c_uint32
from typing import Sequence, Tuple, Union

from . import library
from .arguments import shown
from .permutations import points


def read_cycles(text: Union[str, bytes]) -> Tuple[Tuple[int, ...], Tuple[int, ...]]:
    """The images of the points 0, 1, 2, .. under S, and those under R, from a text
    whose points begin at 1.

    Cycles stand in any order, those of one point may be written, and `()` is the
    identity. Blanks may stand around the index, the cycles and the semicolon between
    S and R, and not inside a cycle; a line end is no blank. The semicolon may be left
    out where S and R are each one cycle or `()`; beside it no cycle is the identity.

    Refusals: 12 where a written index isn't from 1 to 3,066; 27 where no ending could
    make the text right, with the place of the first piece of which that is so, or the
    text's length where it stops short; then 14 and 15, whose places are points from 0.

    >>> read_cycles("3 (1,2) (1,3,2)")
    ((1, 0, 2), (2, 0, 1))
    >>> read_cycles("2 (1,2);")
    ((1, 0), (0, 1))
    >>> read_cycles("3 (1,2) (1,3,3)")
    Traceback (most recent call last):
    farey.refusal.Refusal: refused 27 13: at byte 13 the text gets too long, breaks the form of cycle notation, repeats a point, names one outside 1 to the index or ends too early
    """
    if isinstance(text, str):
        held = text.encode("utf-8", "surrogatepass")
    elif isinstance(text, bytes):
        held = text
    else:
        raise TypeError(f"text is {shown(text)}, and a string is wanted")
    spaces = [(c_uint32 * library.NAMED)() for _ in range(2)]
    index = library.call("farey_read_cycles", (c_uint8 * len(held)).from_buffer_copy(held), *spaces)
    return tuple(spaces[0][:index]), tuple(spaces[1][:index])


def write_cycles(S: Sequence[int], R: Sequence[int]) -> str:
    """The text of two permutations, from the images of the points 0, 1, 2, ..; it is
    what `read_cycles` reads as these. A cycle begins at its smallest point, cycles are
    in the order of these, fixed points are left out, and `()` is the identity.
    Refusals 12 to 15.

    >>> write_cycles([1, 0, 2], [2, 0, 1])
    '3 (1,2);(1,3,2)'
    >>> write_cycles([0], [0])
    '1 ();()'
    """
    out = (c_uint8 * library.CYCLES)()
    length = library.call("farey_write_cycles", points(S, "S"), points(R, "R"), out)
    return bytes(out[:length]).decode("ascii")

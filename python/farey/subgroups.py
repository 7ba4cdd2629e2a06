"""Several subgroups: whether one contains another, intersections and towers."""

from __future__ import annotations

from ctypes import c_int64, c_uint32
from typing import Any, Iterable, List, Optional, Tuple, TypeVar

from . import library
from .arguments import integer, items, shown
from .held import HIGH, Held

#: What is lent for an entry that is none: no table lists it, and it isn't -1, which is for no claim.
_NOT_LISTED = -2

_Own = TypeVar("_Own", bound="Subgroup")


class Subgroup(Held):
    """What `Symbol` asks of two subgroups. H <= K is that K contains H, by the groups
    themselves and not by their index, and H & K is their intersection."""

    __slots__ = ()

    # What `Symbol` has: the import of two permutations.
    from_permutations: Any

    def contains_subgroup(self, other: Subgroup) -> bool:
        """Whether this subgroup contains the other one: every generator of the other is, up to
        sign, a word in the generators of this one. The same is `self >= other`.

        >>> from farey import Symbol
        >>> H, K = Symbol.gamma0(2), Symbol.gamma0(6)
        >>> H.contains_subgroup(K), K.contains_subgroup(H), H.contains_subgroup(Symbol.gamma0(11))
        (True, False, False)
        """
        _symbol(other, "other")
        return library.call("farey_contains", self._v, self._space, other._v, other._space, library.work()) == 1

    def intersection_tables(self, other: Subgroup) -> Tuple[Tuple[int, ...], Tuple[int, ...], Tuple[int, ...]]:
        """For each right coset of the intersection of the two, its images under S = (0 -1; 1 0),
        R = (0 -1; 1 1) and T = (1 1; 0 1): three tables, numbered as those of a symbol. A matrix
        fixes point 0 exactly when it belongs to both. Refusal 24 where there are
        more than 3,066 points.

        >>> from farey import Symbol
        >>> S, R, T = Symbol([0, 1], [1, -2, 1]).intersection_tables(Symbol([0, 1], [-2, 1, 1]))
        >>> S, R, T
        ((1, 0, 4, 5, 2, 3), (2, 3, 5, 4, 1, 0), (3, 2, 1, 0, 5, 4))
        """
        _symbol(other, "other")
        spaces = [(c_uint32 * library.INTERSECTION)() for _ in range(3)]
        points = library.call("farey_intersection", self._v, self._space, other._v, other._space, library.work(), *spaces)
        S, R, T = (tuple(space[:points]) for space in spaces)
        return S, R, T

    def __and__(self: _Own, other: object) -> _Own:
        """A symbol of the intersection: the one that `from_permutations` makes of its tables.
        Refusals 24 (more than 3,066 points) and 16.

        >>> from farey import Symbol
        >>> Symbol.gamma0(4) & Symbol.gamma0(6) == Symbol.gamma0(12)
        True
        """
        if not isinstance(other, Subgroup):
            return NotImplemented
        S, R, _ = self.intersection_tables(other)
        made: _Own = type(self).from_permutations(S, R)
        return made

    def __ge__(self, other: object) -> bool:
        """Whether this subgroup contains the other one.

        >>> from farey import Symbol
        >>> Symbol.gamma0(2) >= Symbol.gamma0(6), Symbol.gamma0(2) >= Symbol([-1, 0], [1, -2, 1])
        (True, True)
        """
        if not isinstance(other, Subgroup):
            return NotImplemented
        return self.contains_subgroup(other)

    def __le__(self, other: object) -> bool:
        """Whether the other subgroup contains this one. Of two groups that are in no such
        relation neither `H <= K` nor `K <= H` is true.

        >>> from farey import Symbol
        >>> Symbol.gamma(6) <= Symbol.gamma0(2), Symbol.gamma0(2) <= Symbol.gamma0(3), Symbol.gamma0(3) <= Symbol.gamma0(2)
        (True, False, False)
        """
        if not isinstance(other, Subgroup):
            return NotImplemented
        return other.contains_subgroup(self)

    def __gt__(self, other: object) -> bool:
        """Whether this subgroup contains the other one and is another."""
        if not isinstance(other, Subgroup):
            return NotImplemented
        return self.contains_subgroup(other) and not other.contains_subgroup(self)

    def __lt__(self, other: object) -> bool:
        """Whether the other subgroup contains this one and is another."""
        if not isinstance(other, Subgroup):
            return NotImplemented
        return other > self


def tower(entries: Iterable[Tuple[Subgroup, Optional[int]]]) -> None:
    """A tower of symbols: each entry is a pair of a symbol and the number of an entry listed
    before it that should contain it, or None. Entries are counted from 0. Where each claim is
    true, this returns; the claims are judged by the groups themselves and not by
    their index.

    Refusals 11 with place 64 (more than 64 entries), 25 (an entry names one that isn't listed
    before it) and 26 (a claim that is false), the last two with the first entry at fault. A
    negative number names no entry, so that it is refused with 25.

    >>> from farey import Symbol
    >>> tower([(Symbol.gamma0(2), None), (Symbol.gamma0(6), 0), (Symbol.gamma(6), 1)])
    >>> tower([(Symbol.gamma0(2), None), (Symbol.gamma0(6), 0), (Symbol.gamma0(10), 1)])
    Traceback (most recent call last):
    farey.refusal.Refusal: refused 26 2: entry 2 of the tower isn't contained in the one that it names
    """
    pairs: List[Tuple[Any, int]] = []
    for i, entry in enumerate(items(entries, "entries")):
        pair = items(entry, f"entries[{i}]")
        if len(pair) != 2:
            raise ValueError(f"entries[{i}] has {len(pair)} members, and an entry has two: a symbol, and the number of an entry or None")
        pairs.append((_symbol(pair[0], f"entries[{i}][0]"), _named(pair[1], f"entries[{i}][1]")))
    # what stands behind a 65th entry isn't looked at
    numbers = [number for symbol, named in pairs[: library.TOWER] for number in (named, symbol._v, *symbol._space)]
    library.call("farey_tower", len(pairs), (c_int64 * len(numbers))(*numbers), library.work())


def _symbol(thing: Any, what: str) -> Any:
    if not isinstance(thing, Subgroup):
        raise TypeError(f"{what} is {shown(thing)}, and a Symbol is wanted")
    return thing


def _named(thing: Any, what: str) -> int:
    """The number of an entry as the library takes it: -1 for None, and one that no table lists for one that is negative or too large."""
    if thing is None:
        return -1
    number = integer(thing, what)
    return number if 0 <= number <= HIGH else _NOT_LISTED

"""Random subgroups of a given index, each with the same chance.

WHY IT IS UNIFORM. A subgroup of index n is the stabiliser of point 0 for some pair of
permutations S and R of the points 0 to n - 1 with S² = R³ = 1 that lead from 0 to every
point: number its right cosets, with 0 for the subgroup. The other n - 1 cosets can be
numbered in (n - 1)! ways, and no two of them give the same pair, since a renumbering that
changes nothing and fixes 0 fixes every point that is reached from it. So each subgroup has
exactly (n - 1)! such pairs, and of a pair taken with equal chances among all of them the
stabiliser of 0 is a subgroup taken with equal chances.

Such a pair is found by rejection: pairs are drawn with equal chances from a larger set, and
the first one that leads from 0 to every point is kept. Where n is over 2, S moves every point that
R fixes, to a point that R moves; otherwise the two would be all that is reached from there.
The larger set is that of all pairs of which this is so. To draw from it: R, a permutation of order 1
or 3; then for each point that R fixes another point, one that R moves; then S on the points
that are left, any involution of them. How many points are fixed is drawn first, by the
exact number of pairs for which it is so many, in whole numbers.
"""

from __future__ import annotations

from functools import lru_cache
from math import factorial, prod
from typing import List, Optional, Sequence, Tuple

from .arguments import integer
from .random_words import Randrange, source
from .symbol import Symbol


def random_subgroup(
    index: int,
    e2: Optional[int] = None,
    e3: Optional[int] = None,
    rng: Optional[Randrange] = None,
    *,
    tries: int = 10_000,
    rule: str = "wide",
) -> Symbol:
    """A random subgroup of that index, from 1 to 3,066: of all of them, or of those with e2
    classes of elliptic points of order 2 and e3 of order 3, each has the same chance.
    `rng` is a `random.Random`, or anything else with its `randrange`; without it
    Python's own is asked.

    A ValueError where there is no such subgroup: index - e2 is even, index - e3 is a
    multiple of 3 and 3 e2 + 4 e3 is at most index + 6 exactly where there is one. Where it
    has nearly as many elliptic points as it can have and the index isn't small, most pairs
    of permutations fall apart, and a RuntimeError tells that `tries` of them have.
    Refusal 16, as `Symbol.from_permutations`.

    >>> import random
    >>> H = random_subgroup(30, e2=2, e3=0, rng=random.Random(7))
    >>> H.index, H.e2, H.e3
    (30, 2, 0)
    >>> random_subgroup(7, e2=2)
    Traceback (most recent call last):
    ValueError: no subgroup of index 7 has e2 = 2
    """
    n = integer(index, "index")
    if not 1 <= n <= 3066:
        raise ValueError(f"index is {n}, and a number from 1 to 3,066 is wanted")
    twos, threes = (None if given is None else integer(given, name) for given, name in ((e2, "e2"), (e3, "e3")))
    if not _exists(n, twos, threes):
        said = " and ".join(f"{name} = {given}" for name, given in (("e2", twos), ("e3", threes)) if given is not None)
        raise ValueError(f"no subgroup of index {n} has {said}")
    ask = source(rng)
    for _ in range(tries):
        S, R = _pair(n, twos, threes, ask)
        if _is_transitive(S, R):
            return Symbol.from_permutations(S, R, rule=rule)
    raise RuntimeError(f"{tries:,} pairs of permutations were drawn, and none led from 0 to every point")


def _exists(n: int, e2: Optional[int], e3: Optional[int]) -> bool:
    """Whether some subgroup of that index has so many classes of elliptic points."""
    least = [n % order if given is None else given for order, given in ((2, e2), (3, e3))]
    fits = all(given >= 0 and (n - given) % order == 0 for order, given in zip((2, 3), least))
    return fits and 3 * least[0] + 4 * least[1] <= n + 6


def count(n: int, order: int, fixed: int) -> int:
    """How many permutations of n points have that many fixed points and else cycles of that
    length, a prime.

    >>> [count(4, 2, fixed) for fixed in (0, 2, 4)], count(4, 3, 1)
    ([3, 6, 1], 8)
    """
    cycles = (n - fixed) // order
    return factorial(n) // (factorial(fixed) * factorial(cycles) * order**cycles)


@lru_cache(maxsize=4)
def _counts(n: int, order: int) -> Tuple[int, ...]:
    """`count` for each number of fixed points, from the least on."""
    counts = [count(n, order, n % order)]
    for fixed in range(n % order, n - order + 1, order):
        # one cycle less, and its points are fixed too
        more = counts[-1] * order * ((n - fixed) // order)
        counts.append(more // prod(range(fixed + 1, fixed + order + 1)))
    return tuple(counts)


@lru_cache(maxsize=4)
def _pairs(n: int, e2: Optional[int]) -> Tuple[int, ...]:
    """How many pairs are drawn from, with e2 points that S fixes or any number, for each number of points
    that R fixes, from the least on."""
    involutions = [1, 1]
    for k in range(2, n + 1):
        involutions.append(involutions[-1] + (k - 1) * involutions[-2])
    found = []
    for fixed, permutations in zip(range(n % 3, n // 2 + 1, 3), _counts(n, 3)):
        left = n - 2 * fixed
        partners = factorial(n - fixed) // factorial(left)
        rest = involutions[left] if e2 is None else count(left, 2, e2) if e2 <= left else 0
        found.append(permutations * partners * rest)
    return tuple(found)


def _pair(n: int, e2: Optional[int], e3: Optional[int], ask: Randrange) -> Tuple[List[int], List[int]]:
    """S and R, with equal chances among the pairs of the larger set."""
    S, R = list(range(n)), list(range(n))
    if n <= 2:
        # one group each, and R is the identity
        return S[::-1], R
    fixed = n % 3 + 3 * _place(_pairs(n, e2), ask) if e3 is None else e3
    points = _shuffled(R, ask)
    for start in range(fixed, n, 3):
        x, y, z = points[start : start + 3]
        R[x], R[y], R[z] = y, z, x
    others = _shuffled(points[fixed:], ask)
    left = n - 2 * fixed
    stay = left % 2 + 2 * _place(_counts(left, 2), ask) if e2 is None else e2
    rest = others[fixed + stay :]
    for x, y in [*zip(points[:fixed], others), *zip(rest[::2], rest[1::2])]:
        S[x], S[y] = y, x
    return S, R


def _place(weights: Sequence[int], ask: Randrange) -> int:
    """A place, with the chance that its weight says."""
    number = ask.randrange(sum(weights))
    for place, weight in enumerate(weights):
        number -= weight
        if number < 0:
            return place
    raise AssertionError("a number below the sum of the weights")


def _shuffled(points: Sequence[int], ask: Randrange) -> List[int]:
    """The points in random order."""
    found = list(points)
    for i in range(len(found) - 1, 0, -1):
        j = ask.randrange(i + 1)
        found[i], found[j] = found[j], found[i]
    return found


def _is_transitive(S: Sequence[int], R: Sequence[int]) -> bool:
    """Whether S and R lead from 0 to every point."""
    seen, waiting = {0}, [0]
    while waiting:
        x = waiting.pop()
        for y in (S[x], R[x]):
            if y not in seen:
                seen.add(y)
                waiting.append(y)
    return len(seen) == len(S)

"""That no word exists: a check of the evidence, without the engine.

THE STATEMENT. No product of the generators and their inverses, of whatever
length, times A is B up to sign.

WHY THE EVIDENCE PROVES IT. PSL2(Z) is the free product of the group of order 2
of S = (0 -1; 1 0) and the group of order 3 of R = (0 -1; 1 1). So two tables, S
that moves nothing when it is followed twice and R that moves nothing when it is
followed three times, make every matrix act on the points 0, 1, 2, .., from the
right: x·(M N) = (x·M)·N. The matrices that fix point 0 are a group. If each
generator fixes point 0, then so does every product of them and of their
inverses. If a product w had w A = ±B, it would be B A⁻¹ up to sign. So where
B A⁻¹ moves point 0 there is no such product.

The tables needn't be those of a subgroup's cosets, and nobody need believe
where they come from: any tables that pass the check prove the statement.
"""

from operator import index
from typing import Iterable, List, Sequence


def check(generators: Iterable[Sequence[int]], S: Sequence[int], R: Sequence[int], A: Sequence[int], B: Sequence[int]) -> bool:
    """True where the evidence proves that no product of the matrices in
    `generators` and their inverses, times A, is B up to sign; otherwise a
    ValueError that says what fails, or a TypeError for what is no integer. That
    these matrices generate your group is yours to see.

    A matrix is its four entries a, b, c, d in one row; two rows aren't taken.
    `generators`, as all else, is read once, and copied before anything is asked.

    >>> check([(1, 1, 0, 1), (1, -1, 2, -1)], [1, 0, 2], [2, 0, 1], (1, 0, 0, 1), (0, -1, 1, 0))
    True
    >>> check([(1, 1, 0, 1), (1, -1, 2, -1)], [1, 0, 2], [2, 0, 1], (1, 0, 0, 1), (1, 0, 2, 1))
    Traceback (most recent call last):
    ValueError: B A^-1 fixes point 0, so this is no evidence
    """
    S, R, A, B = whole("S", S), whole("R", R), whole("A", A), whole("B", B)
    if not isinstance(generators, Iterable):
        raise TypeError("generators is no list of matrices")
    matrices = [whole(f"generator {j}", M) for j, M in enumerate(generators, 1)]
    points = range(len(S))
    if len(S) == 0 or len(R) != len(S):
        raise ValueError("S and R aren't tables of one length from 1 on")
    for name, table in [("S", S), ("R", R)]:
        if any(x not in points for x in table):
            raise ValueError(f"an entry of {name} is no point")
    if any(S[S[x]] != x for x in points):
        raise ValueError("S followed twice moves a point")
    if any(R[R[R[x]]] != x for x in points):
        raise ValueError("R followed three times moves a point")
    for name, M in [("A", A), ("B", B)] + [(f"generator {j}", M) for j, M in enumerate(matrices, 1)]:
        if len(M) != 4 or M[0] * M[3] - M[1] * M[2] != 1:
            raise ValueError(f"{name} is no matrix of determinant 1")
    for j, M in enumerate(matrices, 1):
        if image(S, R, 0, M) != 0:
            raise ValueError(f"generator {j} moves point 0, so this is no evidence")
    (a, b, c, d), (e, f, g, h) = A, B
    if image(S, R, 0, [e * d - f * c, f * a - e * b, g * d - h * c, h * a - g * b]) == 0:
        raise ValueError("B A^-1 fixes point 0, so this is no evidence")
    return True


def whole(name: str, row: Sequence[int]) -> List[int]:
    """The row, each number as a plain int: what has `__index__`, as Sage's integers
    have, and no float and no bool, NumPy's neither."""
    try:
        numbers = list(row)
        if any(type(number).__name__ in ("bool", "bool_") for number in numbers):
            raise TypeError
        return [int(index(number)) for number in numbers]
    except TypeError:
        raise TypeError(f"{name} is no row of integers") from None


def image(S: List[int], R: List[int], x: int, M: List[int]) -> int:
    """The point x·M. By Euclid's algorithm (a b; c d) = T^q S (c d; qc-a qd-b)
    with the integer q nearest to a/c, until c is 0, and then it is T^(ab) up to
    sign. The left factor acts first.
    """
    a, b, c, d = M
    while c != 0:
        q = (2 * a + c) // (2 * c)
        x = S[power(S, R, x, q)]
        a, b, c, d = c, d, q * c - a, q * d - b
    return power(S, R, x, a * b)


def power(S: List[int], R: List[int], x: int, q: int) -> int:
    """The point x·T^q. T is S R up to sign, and acts as S and then R."""
    cycle = [x]
    while R[S[cycle[-1]]] != x:
        cycle.append(R[S[cycle[-1]]])
    return cycle[q % len(cycle)]

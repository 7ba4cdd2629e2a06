"""A symbol's fundamental polygon, apart from where it is drawn: its Farey triangles, the
triangle of each coset, the partners of its sides, the cusp of each vertex, and the points
that elliptic generators turn about. Reckoned from the symbol and its tables; tested, not proved.
"""

from __future__ import annotations

from typing import TYPE_CHECKING, Dict, Iterator, List, NamedTuple, Sequence, Tuple

if TYPE_CHECKING:
    from .symbol import Symbol

#: Numerator and denominator of a cusp; infinity is (1, 0) or (-1, 0).
Cusp = Tuple[int, int]
INFINITY: Cusp = (1, 0)
#: The centre of the triangle 0, 1, infinity.
_CENTRE = complex(0.5, 3**0.5 / 2)


class Third(NamedTuple):
    """A coset's triangle: an edge of a Farey triangle, which has the triangle on its
    right, the edge's middle, and the Farey triangle's centre."""

    start: Cusp
    end: Cusp
    middle: complex
    centre: complex


def _negative(x: Cusp) -> Cusp:
    return -x[0], -x[1]


def _sum(x: Cusp, y: Cusp) -> Cusp:
    return x[0] + y[0], x[1] + y[1]


def third(x: Cusp, y: Cusp, z: Cusp) -> Third:
    """The third at the edge from x to y of the Farey triangle x, y, z."""
    y_column = y if _sum(x, y) in (z, _negative(z)) else _negative(y)

    def image(point: complex) -> complex:
        # infinity goes to x, 0 to y and 1 to z; mirrored where the determinant is -1
        (a, c), (b, d) = x, y_column
        if a * d - b * c < 0:
            point = point.conjugate()
        return (a * point + b) / (c * point + d)

    return Third(x, y, image(1j), image(_CENTRE))


def farey_triangles(vertices: Sequence[Cusp]) -> Iterator[Tuple[Cusp, Cusp, Cusp]]:
    """The Farey triangles of a polygon. Each is turned so that its edges, from the
    first vertex to the second and so on, have it on their right."""
    whole = [i for i, (_, den) in enumerate(vertices) if den == 1]
    place = {vertex: i for i, vertex in enumerate(vertices)}
    for i, k in zip(whole, whole[1:]):
        yield vertices[k], vertices[i], INFINITY
        waiting = [(i, k)]
        while waiting:
            left, right = waiting.pop()
            if right - left > 1:
                # the mediant is a vertex: no side crosses an edge of the Farey tessellation
                middle = place[_sum(vertices[left], vertices[right])]
                yield vertices[left], vertices[right], vertices[middle]
                waiting += [(left, middle), (middle, right)]


def ends(vertices: Sequence[Cusp], i: int) -> Tuple[Cusp, Cusp]:
    """The left and the right end of side i, infinity as (-1, 0) on the left."""
    left = vertices[i - 1] if i > 0 else _negative(INFINITY)
    return left, vertices[i] if i < len(vertices) else INFINITY


def beyond(vertices: Sequence[Cusp], i: int) -> Third:
    """The third beyond side i: its middle is the point that an even generator turns about,
    and its centre the one that an odd generator does."""
    left, right = ends(vertices, i)
    return third(left, right, _sum(left, right))


def thirds(vertices: Sequence[Cusp], kinds: Sequence[str]) -> Iterator[Third]:
    """The triangles of all cosets: three of each Farey triangle, and one beyond each odd side."""
    for x, y, z in farey_triangles(vertices):
        yield from (third(x, y, z), third(y, z, x), third(z, x, y))
    for i, kind in enumerate(kinds):
        if kind == "odd":
            yield beyond(vertices, i)


def generator_numbers(pairings: Sequence[int]) -> List[int]:
    """The number of each side's generator: from 1, by its leftmost side.

    >>> generator_numbers([2, -3, 1, 2, 1])
    [1, 2, 3, 1, 3]
    """
    labels: Dict[int, int] = {}
    numbers: List[int] = []
    count = 0
    for pairing in pairings:
        if pairing not in labels:
            count += 1
            if pairing > 0:
                labels[pairing] = count
            numbers.append(count)
        else:
            numbers.append(labels[pairing])
    return numbers


def partner_sides(pairings: Sequence[int]) -> List[int]:
    """The other side of each free pair; an even or an odd side is its own.

    >>> partner_sides([2, -3, 1, 2, 1])
    [3, 1, 4, 0, 2]
    """
    first: Dict[int, int] = {}
    partners = list(range(len(pairings)))
    for i, pairing in enumerate(pairings):
        if pairing > 0:
            partners[i] = first.setdefault(pairing, i)
            partners[partners[i]] = i
    return partners


def cusp_numbers(symbol: Symbol, cusps: Sequence[Cusp]) -> List[int]:
    """The number, in the order of `widths`, of the cusp of H that each fraction belongs to.

    A fraction is A∞ for a matrix A with it as first column. By continued fractions A is a
    product of powers of T and of S, which is followed in the tables from coset 0: the coset
    H A that it leads to is one of the fraction's cusp. What T adds at the end doesn't count.
    """
    S, cusp_of, steps, widths = symbol.S, symbol.coset_cusps, symbol.coset_steps, symbol.widths
    cosets = {place: coset for coset, place in enumerate(zip(cusp_of, steps))}
    found: List[int] = []
    for a, c in cusps:
        coset = 0
        while c:
            q = a // c
            cusp = cusp_of[coset]
            coset = S[cosets[cusp, (steps[coset] + q) % widths[cusp]]]
            a, c = c, q * c - a
        found.append(cusp_of[coset])
    return found

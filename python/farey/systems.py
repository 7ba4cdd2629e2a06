"""From PARI's polygons, and to Magma. (Sage and GAP need no function: see the
recipes in docs/HANDBOOK.md.)"""

from __future__ import annotations

from typing import Dict, List, Sequence, Tuple

from . import cycles
from .arguments import Matrix, integers, items, matrix
from .symbol import Symbol


def from_mspolygon(edges: Sequence[Matrix], partners: Sequence[int], pairings: Sequence[Matrix]) -> Symbol:
    """The symbol in PARI's `mspolygon(N)`, which is [edges, partners, pairings]:
    an edge (a b; c d) goes from a/c to b/d, partners are counted from 1, and an
    edge that is its own partner is even or odd as its pairing matrix has the
    order 2 or 3.

    A ValueError where a matrix hasn't the determinant 1, where the edges are no
    closed path that is once at infinity, or where a pairing matrix isn't, up to
    sign, the symbol's generator for that edge or its inverse; a `Refusal` where
    what they make is no symbol.

    >>> edges = [(-1, 1, -1, 0), (1, 0, 0, 1), (0, 1, -1, 1)]
    >>> from_mspolygon(edges, [2, 1, 3], [(-1, -1, 0, -1), (1, -1, 0, 1), (1, -1, 3, -2)])
    Symbol([(0, 1), (1, 1)], [1, -3, 1])
    """
    paths = [matrix(edge, f"edges[{i}]") for i, edge in enumerate(items(edges, "edges"))]
    numbers = integers(partners, "partners")
    glued = [matrix(each, f"pairings[{i}]") for i, each in enumerate(items(pairings, "pairings"))]
    count = len(paths)
    if not count == len(numbers) == len(glued):
        raise ValueError(f"there are {count} edges, {len(numbers)} partners and {len(glued)} pairings, and not as many of each")
    if sorted(numbers) != list(range(1, count + 1)) or any(numbers[j - 1] != i for i, j in enumerate(numbers, 1)):
        raise ValueError("partners is no involution of 1, 2, 3, ..")
    for what, matrices in (("edges", paths), ("pairings", glued)):
        for i, (a, b, c, d) in enumerate(matrices):
            if a * d - b * c != 1:
                raise ValueError(f"the determinant of {what}[{i}] isn't 1")
    starts = [i for i, (a, b, c, d) in enumerate(paths) if c == 0]
    if len(starts) != 1:
        raise ValueError(f"{len(starts)} edges begin at infinity, and one is wanted")
    order = [(starts[0] + i) % count for i in range(count)]
    for i, j in zip(order, order[1:] + order[:1]):
        if paths[i][1] * paths[j][2] != paths[i][3] * paths[j][0]:
            raise ValueError(f"edge {i + 1} doesn't end where edge {j + 1} begins")
    vertices = [(paths[i][1], paths[i][3]) for i in order[:-1]]
    labels: Dict[int, int] = {}
    written: List[int] = []
    for i in order:
        if numbers[i] != i + 1:
            label = min(i + 1, numbers[i])
            written.append(labels.setdefault(label, len(labels) + 1))
        else:
            trace = abs(glued[i][0] + glued[i][3])
            if trace > 1:
                raise ValueError(f"edge {i + 1} is its own partner, and pairings[{i}] hasn't the order 2 or 3")
            written.append(-2 if trace == 0 else -3)
    made = Symbol([(-p, -q) if q < 0 else (p, q) for p, q in vertices], written)
    generators = iter(made.generators)
    paired: Dict[int, Tuple[int, int, int, int]] = {}
    for i, pairing in zip(order, written):
        if pairing < 0:
            found = next(generators).matrix
        else:
            if pairing not in paired:
                paired[pairing] = next(generators).matrix
            found = paired[pairing]
        a, b, c, d = found
        if glued[i] not in ((a, b, c, d), (-a, -b, -c, -d), (d, -b, -c, a), (-d, b, c, -a)):
            raise ValueError(f"pairings[{i}] doesn't pair edge {i + 1} with its partner")
    return made


def to_magma(H: Symbol) -> str:
    """Lines for Magma: the permutations S and R of the right cosets, points from
    1; the subgroup of the free product that fixes point 1; the generators.

    >>> print(to_magma(Symbol([0, 1], [1, -2, 1])))
    N := Sym(3);
    S := N!(1,2);
    R := N!(1,3,2);
    P<s, r> := Group< s, r | s^2, r^3 >;
    f := hom< P -> N | s -> S, r -> R >;
    H := Stabilizer(sub< N | S, R >, 1) @@ f;
    g := [ Matrix(Integers(), 2, 2, m) : m in [ [1,1,0,1], [1,-1,2,-1] ] ];
    """
    if not isinstance(H, Symbol):
        raise TypeError(f"H is of type {type(H).__name__}, and a Symbol is wanted")
    entries = ", ".join("[" + ",".join(map(str, generator.matrix)) + "]" for generator in H.generators)

    def element(table: Sequence[int]) -> str:
        written = cycles.text(table)
        return "N!1" if written == "()" else "N!" + written

    return "\n".join(
        [
            f"N := Sym({H.index});",
            f"S := {element(H.S)};",
            f"R := {element(H.R)};",
            "P<s, r> := Group< s, r | s^2, r^3 >;",
            "f := hom< P -> N | s -> S, r -> R >;",
            "H := Stabilizer(sub< N | S, R >, 1) @@ f;",
            f"g := [ Matrix(Integers(), 2, 2, m) : m in [ {entries} ] ];",
        ]
    )

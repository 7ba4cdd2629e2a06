"""Farey symbols, and what can be asked of them.

| module    | what it gives `Symbol`                                                     |
|-----------|----------------------------------------------------------------------------|
| `held`    | its numbers, and what was answered so far                                  |
| `making`  | `from_permutations`, `from_cycles`, `from_membership`, `gamma0`, .., `parse` |
| `figures` | index, genus, cusps, generators, tables, sides, the picture                |
| `cosets`  | `in`, `coset_of`, `cusp_of`, `permutation`, `same_coset`                   |
| `words`   | `word`, `words`, `normal_form`, `reduce`, `random_element`, `why_none`     |
| `subgroups` | `<=`, `&` and what goes with them                                        |
| `records` | what the answers are: `Generator`, `Cusp`, `Word`, ..                      |

Below these: `matrices` and `action` (a matrix as a product, and where it leads), `large` and
`normal_forms` (words of any size), `membership`, `random_words`, `printing`.
"""

from __future__ import annotations

from ctypes import c_int64, c_uint32, c_uint64
from typing import Any, List, Sequence, Tuple

from . import arguments, library, printing
from .arguments import Vertex, clamped, integers
from .held import HIGH, LOW
from .library import Fixed
from .making import Making
from .records import Box, Cusp, Evidence, Generator, Preview, Side, Word
from .refusal import Refusal, because
from .subgroups import Subgroup

__all__ = ["Box", "Cusp", "Evidence", "Generator", "Preview", "Side", "Symbol", "Word"]


class Symbol(Making, Subgroup):
    """An accepted Farey symbol, and the subgroup H that its generators generate.
    Two are equal when their subgroups are, H <= K where K contains H, and H & K is the
    intersection.

    `vertices` are the finite ones from left to right: pairs (numerator,
    denominator), Fractions or integers. `pairings` has one number more, for the
    sides from left to right: -2 (even), -3 (odd), or a label that stands on
    exactly two sides. What isn't a symbol raises a `Refusal`, 1 to 7.

    A matrix (a b; c d) is passed as a, b, c, d or as two rows, with entries of any size, and
    counts up to sign; the `sign` of a word is the one place where the sign is told. A symbol
    never changes, and keeps what it was once asked.

    >>> gamma0_2 = Symbol([0, 1], [1, -2, 1])
    >>> gamma0_2.index, gamma0_2.e2, gamma0_2.e3, gamma0_2.cusps, gamma0_2.genus
    (3, 1, 0, 2, 0)
    >>> Symbol([0], [-2, -2])
    Traceback (most recent call last):
    farey.refusal.Refusal: refused 7 0: there is one vertex, with pairings -2 and -2, and one of the two must be odd (-3)
    """

    __slots__ = ()

    def __init__(self, vertices: Sequence[Vertex], pairings: Sequence[int]) -> None:
        pairs = arguments.vertices(vertices, "vertices")
        numbers = [entry for pair in pairs for entry in pair] + integers(pairings, "pairings")
        self._accept(len(pairs), clamped(numbers, LOW, HIGH, HIGH))

    def exchanged(self, x: int, y: int) -> Symbol:
        """The symbol in which the free labels x and y have exchanged partners: their
        first sides stay, and their second sides trade labels. Vertices, index, e2
        and e3 stay; cusps, genus and level may change. Refusal 23, with place 0 or
        1, where one of the two is no side's label, or they are the same.

        >>> gamma_2 = Symbol([0, 1, 2], [1, 2, 2, 1])
        >>> torus = gamma_2.exchanged(1, 2)
        >>> torus, gamma_2.genus, torus.genus
        (Symbol([(0, 1), (1, 1), (2, 1)], [1, 2, 1, 2]), 0, 1)
        >>> gamma_2.exchanged(1, 3)
        Traceback (most recent call last):
        farey.refusal.Refusal: refused 23 1: 3 is no side's free label
        """
        out = (c_int64 * library.TABLE)()
        with because(v=self._v, table=self._space[:], labels=(x, y)):
            v = library.call("farey_exchange", self._v, self._space, *_labels(x, y), out)
        made: Symbol = self._of(v, out[: 3 * v + 1])
        return made

    def preview(self, x: int, y: int) -> Preview:
        """Cusps, widths, genus and level that `exchanged(x, y)` would have; no symbol is
        made. Refusal 23, as there.

        >>> Symbol([0, 1, 2], [1, 2, 2, 1]).preview(1, 2)
        Preview(cusps=1, widths=(6,), genus=1, level=6)
        """
        widths, out = (c_uint32 * library.COSETS)(), (c_uint64 * 8)()
        with because(v=self._v, table=self._space[:], labels=(x, y)):
            count = library.call(
                "farey_preview", self._v, self._space, *_labels(x, y), library.work(), widths, Fixed(out)
            )
        genus, level = (value if number == 0 else Refusal(number, 0) for number, value in (out[4:6], out[6:8]))
        return Preview(out[3], tuple(widths[:count]), genus, level)

    def __eq__(self, other: object) -> bool:
        """Whether the two generate the same subgroup: every generator of each is, up
        to sign, a word in the other's. Vertices and labels may differ; compare
        `vertices` and `pairings` where the symbol itself is meant.

        >>> Symbol([0, 1], [1, -2, 1]) == Symbol([-1, 0], [1, -2, 1])
        True
        >>> Symbol([0, 1], [1, -2, 1]) == Symbol([0, 1], [1, 1, -2])
        False
        """
        if not isinstance(other, Symbol):
            return NotImplemented
        return library.call("farey_same", self._v, self._space, other._v, other._space, library.work()) == 1

    def __hash__(self) -> int:
        """That of the tables of S and R, which are equal for two symbols precisely
        when their subgroups are."""
        return self._once("hash", lambda: hash((self.S, self.R)))

    def text(self) -> str:
        """The symbol in three lines, which `parse` and `./farey listing` read.

        >>> print(Symbol([0, 1], [1, -2, 1]).text())
        2
        0 1 1 1
        1 -2 1
        """
        vertices, pairings = self._numbers[: 2 * self._v], self.pairings
        return "\n".join(" ".join(map(str, line)) for line in ([self._v], vertices, pairings))

    def __str__(self) -> str:
        """For a reader: the figures, the generators and the symbol in a few lines. `text`
        is what programs read.

        >>> print(Symbol([0, (1, 3), (1, 2), (2, 3), 1], [1, 2, 3, 2, 3, 1]))
        subgroup of index 12 in PSL2(Z), genus 1, level 11
        cusps: 2, of widths 1 11
        elliptic points: none
        generators: 3 free
        vertices: 0 1/3 1/2 2/3 1
        pairings: 1 2 3 2 3 1
        """
        return printing.lines(self)

    def __repr__(self) -> str:
        """The call that makes it, or where that is long its figures in angle brackets.

        >>> Symbol([0, 1], [1, -2, 1]), Symbol.gamma0(990)
        (Symbol([(0, 1), (1, 1)], [1, -2, 1]), <Symbol of index 2592, genus 201, 32 cusps, 865 vertices>)
        """
        return printing.short(self)

    def _repr_html_(self) -> str:
        """Picture and figures, for a notebook."""
        return printing.html(self)

    def __reduce__(self) -> Tuple[Any, ...]:
        return type(self), (self.vertices, self.pairings), getattr(self, "__dict__", None)


def _labels(x: Any, y: Any) -> List[int]:
    """Two labels, or numbers that are none."""
    return clamped((arguments.integer(x, "x"), arguments.integer(y, "y")), LOW, HIGH, HIGH)

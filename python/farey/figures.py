"""What a symbol says of its subgroup H: figures, generators, tables, sides."""

from __future__ import annotations

from ctypes import c_double, c_int64, c_uint32, c_uint64
from typing import Any, Dict, Optional, Tuple

from . import library
from .arguments import shown
from .cycle_notation import write_cycles
from .held import Held
from .library import Fixed
from .records import Box, Generator, Side
from .refusal import Refusal

KINDS: Dict[int, str] = {1: "free", 2: "even", 3: "odd"}


class Figures(Held):
    """Each answer comes from the engine once, and is then kept."""

    __slots__ = ()

    @property
    def vertices(self) -> Tuple[Tuple[int, int], ...]:
        """The finite vertices from left to right, as numerator and denominator."""
        entries = self._numbers[: 2 * self._v]
        return tuple(zip(entries[::2], entries[1::2]))

    @property
    def pairings(self) -> Tuple[int, ...]:
        """The pairings of the sides from left to right."""
        return self._numbers[2 * self._v :]

    @property
    def index(self) -> int:
        """The index of H in PSL2(Z)."""
        return self._figures()[0]

    @property
    def e2(self) -> int:
        """The number of classes of elliptic points of order 2: the cosets that S fixes."""
        return self._figures()[1]

    @property
    def e3(self) -> int:
        """The number of classes of elliptic points of order 3: the cosets that R fixes."""
        return self._figures()[2]

    @property
    def cusps(self) -> int:
        """The number of cusps."""
        return self._figures()[3]

    @property
    def genus(self) -> int:
        """The genus: a whole number from 0 for every symbol."""
        return self._figure(4)

    @property
    def level(self) -> int:
        """The least common multiple of the widths; refusal 17 where it is 2^64 or more."""
        return self._figure(6)

    @property
    def widths(self) -> Tuple[int, ...]:
        """The widths of the cusps, by the smallest coset of each."""

        def ask() -> Tuple[int, ...]:
            out = (c_uint32 * library.COSETS)()
            count = library.call("farey_widths", self._v, self._space, library.work(), out)
            return tuple(out[:count])

        return self._once("widths", ask)

    @property
    def generators(self) -> Tuple[Generator, ...]:
        """The generators of H, by their leftmost side. Letter j of a word stands
        for the j-th, counted from 1.

        >>> from farey import Symbol
        >>> for generator in Symbol([0, 1], [1, -2, 1]).generators:
        ...     print(generator.kind, generator.matrix)
        free (1, 1, 0, 1)
        even (1, -1, 2, -1)
        """

        def ask() -> Tuple[Generator, ...]:
            out = (c_int64 * library.GENERATORS)()
            count = library.call("farey_generators", self._v, self._space, library.work(), out)
            rows = [out[5 * i : 5 * i + 5] for i in range(count)]
            return tuple(Generator(KINDS[kind], (a, b, c, d)) for kind, a, b, c, d in rows)

        return self._once("generators", ask)

    @property
    def S(self) -> Tuple[int, ...]:
        """For each right coset of H, its image under S = (0 -1; 1 0). H itself is 0."""
        return self._tables()[0]

    @property
    def R(self) -> Tuple[int, ...]:
        """For each right coset of H, its image under R = (0 -1; 1 1), which isn't Sage's R."""
        return self._tables()[1]

    @property
    def T(self) -> Tuple[int, ...]:
        """For each right coset of H, its image under T = (1 1; 0 1): S and then R."""
        return self._tables()[2]

    def cycles(self) -> str:
        """S and R in cycle notation, points from 1, as Sage and GAP read them; `from_cycles`
        makes a symbol of H of it. Refusal 12 where the index is over 3,066.

        >>> from farey import Symbol
        >>> Symbol([0, 1], [1, -2, 1]).cycles()
        '3 (1,2);(1,3,2)'
        """
        return write_cycles(self.S, self.R)

    @property
    def coset_cusps(self) -> Tuple[int, ...]:
        """For each right coset of H, the number of its cusp, from 0, in the order of `widths`."""
        return self._record()[0]

    @property
    def coset_steps(self) -> Tuple[int, ...]:
        """For each right coset of H, how many steps of T lead to it from the smallest coset of
        its cusp. T keeps the cusp and adds one step, back to 0 after the width.

        >>> from farey import Symbol
        >>> H = Symbol.gamma0(6)
        >>> steps, widths = H.coset_steps, [H.widths[cusp] for cusp in H.coset_cusps]
        >>> all(steps[H.T[x]] == (steps[x] + 1) % widths[x] for x in range(H.index))
        True
        """
        return self._record()[1]

    def sides(self) -> Tuple[Side, ...]:
        """The sides of the polygon from left to right, for a drawing. A line's place is
        its finite vertex; for any other side from a/b to c/d the centre is
        (ad + cb) / 2bd and the radius 1 / 2bd, each by one division of floats.
        Refusal 22 where a vertex entry is over 33,554,432 in size.

        >>> from farey import Symbol
        >>> for side in Symbol([0, 1], [1, -2, 1]).sides():
        ...     print(*side)
        free 0.0 None None
        even None 0.5 0.5
        free 1.0 None None
        """
        return self._drawing()[0]

    def box(self) -> Box:
        """The box that holds these sides: left, right, a bottom of 0, and as top the
        largest radius, or 0 without arcs. Refusal 22, as `sides`.

        >>> from farey import Symbol
        >>> Symbol([0, 1], [1, -2, 1]).box()
        Box(left=0.0, right=1.0, bottom=0.0, top=0.5)
        """
        return self._drawing()[1]

    def svg(self, width: float = 960.0, **how: bool) -> str:
        """A picture of the polygon, at most that many pixels wide (but 1 is never under 60
        pixels long), as the text of an SVG file: `farey.picture.svg` says what it shows, and
        what else it takes. Refusal 22, as `sides`.

        >>> from farey import Symbol
        >>> picture = Symbol([0, 1], [1, -2, 1]).svg()
        >>> picture.count('class="side'), picture.count('class="coset"')
        (3, 3)
        """
        from . import picture

        if isinstance(width, bool) or not isinstance(width, (int, float)) or not 200 <= width <= 100000:
            raise ValueError(f"width is {shown(width)}, and a number of pixels from 200 to 100,000 is wanted")
        return picture.svg(self, float(width), **how)

    def html(self, **how: bool) -> str:
        """A page for H, as the text of one HTML file: the picture as `svg` draws it, or why there
        is none, the figures, generators, cusps and coset tables, the symbol, and what is proved.

        >>> from farey import Symbol
        >>> page = Symbol([0, 1], [1, -2, 1]).html()
        >>> page.count("<svg"), "(1 −1; 2 −1)" in page, "<title>Γ0(2), of index 3 and genus 0 in PSL2(Z)" in page
        (1, True, True)
        """
        from . import page

        return page.html(self, **how)

    def _repr_svg_(self) -> Optional[str]:
        """The picture, for a notebook; None where it is refused with 22."""
        try:
            return self.svg()
        except Refusal:
            return None

    def _figures(self) -> Tuple[int, ...]:
        def ask() -> Tuple[int, ...]:
            out = (c_uint64 * 8)()
            library.call("farey_figures", self._v, self._space, library.work(), Fixed(out))
            return tuple(out)

        return self._once("figures", ask)

    def _figure(self, place: int) -> int:
        """Genus or level: its own refusal, or its value."""
        number, value = self._figures()[place : place + 2]
        if number != 0:
            raise Refusal(number, 0)
        return value

    def _drawing(self) -> Tuple[Tuple[Side, ...], Box]:
        def ask() -> Tuple[Tuple[Side, ...], Box]:
            out, bounds = (c_double * library.DRAWING)(), (c_double * 4)()
            count = library.call("farey_drawing", self._v, self._space, out, Fixed(bounds))
            rows = [out[4 * i : 4 * i + 4] for i in range(count)]
            return tuple(_side(*row) for row in rows), Box(*bounds)

        return self._once("drawing", ask)

    def _tables(self) -> Tuple[Tuple[int, ...], ...]:
        return self._columns("farey_tables", 3)

    def _record(self) -> Tuple[Tuple[int, ...], ...]:
        return self._columns("farey_cusps", 2)

    def _columns(self, call: str, count: int) -> Tuple[Tuple[int, ...], ...]:
        """So many tables, each with an entry for each coset."""

        def ask() -> Tuple[Tuple[int, ...], ...]:
            spaces: Any = [(c_uint32 * library.COSETS)() for _ in range(count)]
            index = library.call(call, self._v, self._space, library.work(), *spaces)
            return tuple(tuple(space[:index]) for space in spaces)

        return self._once(call, ask)


def _side(arc: float, first: float, second: float, kind: float) -> Side:
    """A side from its four floats."""
    name = KINDS[int(kind)]
    return Side(name, None, first, second) if arc else Side(name, first, None, None)

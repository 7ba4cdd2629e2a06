"""The upper half plane as a picture shows it: where points are, lines between them, and the
room for labels. `disc` has the same for the unit disc.

Pixels are complex numbers, the imaginary part downwards. A point of the plane is a complex
number, and a cusp a pair (numerator, denominator).
"""

from __future__ import annotations

from typing import TYPE_CHECKING, List, NamedTuple, Optional, Sequence, Tuple, Union

from .polygon import Cusp, beyond

if TYPE_CHECKING:
    from .symbol import Box, Side

Place = Union[complex, Cusp]

#: Up to which height the plane is shown, for so many sides or where a line has a point that its
#: generator turns about, and otherwise.
_SMALL, _HIGH, _LOW = 8, 1.3, 0.62
#: In pixels: the plane's part at most, the margin at the left and at the right, the room above.
_MOST, _MARGIN, _ABOVE = 560.0, 44.0, 4.0
#: In pixels: the least length of 1, for which a wide polygon gets a wider picture, and how far
#: apart two lines at one place are drawn.
_LEAST, _APART = 60.0, 3.0
#: Triangles narrower than so many pixels are left out.
_NARROW = 0.5


class Drawn(NamedTuple):
    """What is drawn: the symbol's vertices, and the sides and the box of the engine's call."""

    vertices: Tuple[Cusp, ...]
    sides: Tuple[Side, ...]
    box: Box


def arc(side: Side) -> Tuple[float, float]:
    """Centre and radius of a side that is no line."""
    if side.centre is None or side.radius is None:
        raise ValueError("a line has no centre")
    return side.centre, side.radius


def pixel(place: complex) -> str:
    """A place on the picture, as a path has it."""
    return f"{place.real:.3f} {place.imag:.3f}"


class HalfPlane:
    """The upper half plane, from the left end of the polygon to its right end."""

    infinity: Optional[float] = None

    def __init__(self, drawn: Drawn, width: float) -> None:
        self.drawn = drawn
        sides, box = drawn.sides, drawn.box
        # the third beyond an outer side that is odd goes half a unit further
        self.left = box.left - (0.5 if sides[0].kind == "odd" else 0.0)
        right = box.right + (0.5 if sides[-1].kind == "odd" else 0.0)
        high = len(sides) <= _SMALL or sides[0].kind != "free" or sides[-1].kind != "free"
        height = _HIGH if high else _LOW
        self.unit = max(min((width - 2 * _MARGIN) / (right - self.left), _MOST / height), _LEAST)
        self.width = (right - self.left) * self.unit + 2 * _MARGIN
        self.axis = height * self.unit + _ABOVE
        #: Between which places along the axis labels may stand.
        self.low, self.high = 4.0, self.width - 4.0

    def at(self, point: complex) -> complex:
        return complex((point.real - self.left) * self.unit + _MARGIN, self.axis - point.imag * self.unit)

    def along(self, cusp: Cusp) -> float:
        """How far to the right a finite cusp is."""
        return self.at(complex(cusp[0] / cusp[1])).real

    def middle(self, i: int) -> float:
        """How far to the right the label of an arc stands at best."""
        return self.at(complex(arc(self.drawn.sides[i])[0])).real

    def band(self, along: float, depth: float) -> complex:
        """The place that is so far to the right, and so far below the axis."""
        return complex(along, self.axis + depth)

    @staticmethod
    def extent(width: float, height: float) -> Tuple[float, float]:
        """What a box takes along the axis, and across it."""
        return width, height

    def is_narrow(self, start: Cusp, end: Cusp) -> bool:
        return start[1] != 0 and end[1] != 0 and abs(self.along(start) - self.along(end)) < _NARROW

    def size(self, i: int) -> float:
        """How large a side is on the picture, in pixels."""
        radius = self.drawn.sides[i].radius
        return self.axis if radius is None else radius * self.unit

    def path(self, places: Sequence[Place], closed: bool = True) -> str:
        """The path along the geodesics from each place to the next. Infinity is above the picture:
        vertical lines lead there and back."""
        top = -self.axis
        line = [place if isinstance(place, complex) else self._finite(place) for place in places]
        if closed:
            line.append(line[0])
        written: List[str] = []
        for here, there in zip(line, line[1:]):
            if here is not None and not written:
                written.append(f"M {pixel(self.at(here))}")
            if here is not None and there is not None:
                written.append(self._geodesic(here, there))
            elif here is not None:
                written.append(f"L {pixel(complex(self.at(here).real, top))}")
            elif there is not None:
                written.append("L" if written else "M")
                written.append(f"{pixel(complex(self.at(there).real, top))} L {pixel(self.at(there))}")
        return " ".join(written) + (" Z" if closed else "")

    @staticmethod
    def _finite(cusp: Cusp) -> Optional[complex]:
        return complex(cusp[0] / cusp[1]) if cusp[1] else None

    def _geodesic(self, start: complex, end: complex) -> str:
        """The rest of a path from start to end: a line, or part of a circle about a point of the axis."""
        across = end.real - start.real
        if abs(across) * self.unit < 1e-6:
            return f"L {pixel(self.at(end))}"
        centre = (abs(end) ** 2 - abs(start) ** 2) / (2 * across)
        radius = f"{abs(start - centre) * self.unit:.3f}"
        return f"A {radius} {radius} 0 0 {int(across > 0)} {pixel(self.at(end))}"

    def side(self, i: int) -> str:
        """The path of a side, from the floats of the engine. Two lines at one place are drawn side by side."""
        side, box = self.drawn.sides[i], self.drawn.box
        if side.place is None:
            centre, radius = arc(side)
            return self.path([complex(centre - radius), complex(centre + radius)], closed=False)
        apart = _APART / 2 * (1 if i else -1) if box.left == box.right else 0.0
        x = self.at(complex(side.place)).real + apart
        return f"M {x:.3f} {self.axis:.3f} L {x:.3f} 0"

    def in_place(self, i: int, width: float, height: float, gap: float) -> Optional[complex]:
        """The middle of a label of that size at its side, so far from it or from the point that its
        generator turns about: outside the polygon, beside a line and below an arc; None without room."""
        side = self.drawn.sides[i]
        if side.place is not None:
            x = self.at(complex(side.place)).real
            return complex(x - width / 2 - gap if i == 0 else x + width / 2 + gap, 1.5 * height)
        centre, radius = arc(side)
        foot, radius = self.at(complex(centre)), radius * self.unit
        apex = complex(foot.real, foot.imag - radius)
        if side.kind == "odd":
            apex = self.at(beyond(self.drawn.vertices, i).centre)
        corner = complex(apex.real + width / 2, apex.imag + gap)
        if corner.imag + height > foot.imag - 2 or abs(corner - foot) > radius - 2:
            return None
        return complex(apex.real, apex.imag + gap + height / 2)

    def bounds(self, depth: float) -> Tuple[float, float, float, float]:
        """Left, top, right and bottom of the picture, where labels go so far below the axis."""
        return 0.0, 0.0, self.width, self.axis + depth

    def frame(self) -> str:
        """The axis."""
        return f'<line class="axis" x1="0" y1="{self.axis:.3f}" x2="{self.width:.3f}" y2="{self.axis:.3f}"/>'

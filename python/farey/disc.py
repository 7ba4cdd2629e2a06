"""The unit disc as a picture shows it, with what `half_plane` has for the upper half plane.

The Cayley transform z -> i (z - p) / (z - p') takes the upper half plane to the disc, infinity
to its uppermost point and p to its centre; p' is the conjugate of p. Geodesics are arcs of circles
that meet the boundary at right angles. With p the mean of the vertices on the boundary, infinity
among them, is the disc's centre, so that they are spread as evenly as they can be.
"""

from __future__ import annotations

import math
from typing import List, Optional, Sequence, Tuple

from .half_plane import Drawn, Place, arc, pixel
from .polygon import Cusp, beyond

#: In pixels: the picture's width at most, the room about the disc, how far apart two lines at one place are drawn.
_MOST, _MARGIN, _APART = 800.0, 78.0, 3.0
#: In how many steps the vertices are spread.
_STEPS = 64
#: Triangles narrower than so many pixels are left out, and shorter lines are straight.
_NARROW, _SHORT = 0.5, 0.05


def _middle(vertices: Sequence[float]) -> complex:
    """The point p, in some steps: each takes the mean of the vertices to the disc's centre. Of one vertex
    and infinity it is the point at height 1 above the vertex."""
    point = complex(sum(vertices) / len(vertices), max(1.0, vertices[-1] - vertices[0]) / 2)
    if len(vertices) == 1:
        return complex(vertices[0], 1.0)
    for _ in range(_STEPS):
        # without the factor i: infinity goes to 1
        images = [(vertex - point) / (vertex - point.conjugate()) for vertex in vertices]
        mean = (sum(images) + 1) / (len(images) + 1)
        point = (point - mean * point.conjugate()) / (1 - mean)
    return point


class Disc:
    """The unit disc. A place along its boundary is counted in pixels from the lowermost point, to the
    right; so infinity is half the circumference away, on both sides."""

    def __init__(self, drawn: Drawn, width: float) -> None:
        self.drawn = drawn
        self.width = min(width, _MOST)
        self.radius = self.width / 2 - _MARGIN
        self.centre = complex(self.width / 2, self.width / 2)
        self.point = _middle([a / b for a, b in drawn.vertices])
        self.infinity: Optional[float] = math.pi * self.radius
        self.low, self.high = 16.0 - self.infinity, self.infinity - 16.0

    def _angle(self, number: float) -> float:
        """The angle of a number of the real axis, from the lowermost point to the right."""
        return 2 * math.atan((number - self.point.real) / self.point.imag)

    def _ends(self, i: int) -> Tuple[float, float]:
        """The angles at which a side begins and ends, by the floats of the engine."""
        side = self.drawn.sides[i]
        if side.place is None:
            centre, radius = arc(side)
            return self._angle(centre - radius), self._angle(centre + radius)
        return (-math.pi, self._angle(side.place)) if i == 0 else (self._angle(side.place), math.pi)

    def _boundary(self, angle: float, radius: float) -> complex:
        return self.centre + radius * complex(math.sin(angle), math.cos(angle))

    def at(self, point: complex) -> complex:
        image = 1j * (point - self.point) / (point - self.point.conjugate())
        return self.centre + self.radius * image.conjugate()

    def along(self, cusp: Cusp) -> float:
        if cusp[1] == 0:
            return math.copysign(math.pi, cusp[0]) * self.radius
        return self._angle(cusp[0] / cusp[1]) * self.radius

    def middle(self, i: int) -> float:
        return sum(self._ends(i)) / 2 * self.radius

    def band(self, along: float, depth: float) -> complex:
        """The place at that way along the boundary, and so far outside it."""
        return self._boundary(along / self.radius, self.radius + depth)

    @staticmethod
    def extent(width: float, height: float) -> Tuple[float, float]:
        """What a box takes along the boundary, and across it, wherever it stands."""
        return math.hypot(width, height), math.hypot(width, height)

    def is_narrow(self, start: Cusp, end: Cusp) -> bool:
        return abs(self.at_cusp(start) - self.at_cusp(end)) < _NARROW

    def at_cusp(self, cusp: Cusp) -> complex:
        return self.band(self.along(cusp), 0.0)

    def size(self, i: int) -> float:
        left, right = self._ends(i)
        return (right - left) / 2 * self.radius

    def path(self, places: Sequence[Place], closed: bool = True) -> str:
        line = [self.at(place) if isinstance(place, complex) else self.at_cusp(place) for place in places]
        if closed:
            line.append(line[0])
        written: List[str] = [f"M {pixel(line[0])}"]
        written += [self._geodesic(here, there) for here, there in zip(line, line[1:])]
        return " ".join(written) + (" Z" if closed else "")

    def _geodesic(self, start: complex, end: complex) -> str:
        """The rest of a path from start to end: a line through the disc's centre, or part of the circle
        through both whose centre c has |c|² = 1 + r² for its radius r."""
        p, q = (start - self.centre) / self.radius, (end - self.centre) / self.radius
        det = p.real * q.imag - p.imag * q.real
        if abs(det) < 1e-6 or abs(start - end) < _SHORT:
            return f"L {pixel(end)}"
        # 2 c·p = 1 + |p|² and 2 c·q = 1 + |q|²
        s, t = (1 + abs(p) ** 2) / 2, (1 + abs(q) ** 2) / 2
        c = complex(s * q.imag - t * p.imag, t * p.real - s * q.real) / det
        turn = ((p - c).conjugate() * (q - c)).imag
        radius = f"{abs(p - c) * self.radius:.3f}"
        return f"A {radius} {radius} 0 0 {int(turn > 0)} {pixel(end)}"

    def side(self, i: int) -> str:
        """The path of a side, from the floats of the engine. Two lines at one place are drawn side by side."""
        start, end = (self._boundary(angle, self.radius) for angle in self._ends(i))
        if len(self.drawn.vertices) == 1:
            apart = _APART / 2 * (1 if i else -1)
            start, end = start + apart, end + apart
        return f"M {pixel(start)} {self._geodesic(start, end)}"

    def in_place(self, i: int, width: float, height: float, gap: float) -> Optional[complex]:
        """The middle of a label between its side, or the point that its generator turns about, and the boundary."""
        left, right = self._ends(i)
        angle, half = (left + right) / 2, (right - left) / 2
        inner = math.tan(math.pi / 4 - half / 2) * self.radius
        if self.drawn.sides[i].kind == "odd":
            place = self.at(beyond(self.drawn.vertices, i).centre) - self.centre
            angle, inner = math.atan2(place.real, place.imag), abs(place)
        across = math.hypot(width, height)
        if inner + gap + across + 2 > self.radius:
            return None
        # near its side where there is more room than it needs
        return self._boundary(angle, inner + gap + min((self.radius - inner - gap) / 2, across))

    def bounds(self, depth: float) -> Tuple[float, float, float, float]:
        least, most = self.centre.real - self.radius - depth, self.centre.real + self.radius + depth
        return least, least, most, most

    def frame(self) -> str:
        """The boundary."""
        x, y = self.centre.real, self.centre.imag
        return f'<circle class="axis" cx="{x:.3f}" cy="{y:.3f}" r="{self.radius:.3f}"/>'

"""The marks of a picture, the colours of cusps, and the legend below it."""

from __future__ import annotations

import colorsys
from typing import Dict, List, NamedTuple, Sequence, Tuple

from .labels import fraction_texts, text_width
from .polygon import Cusp

#: In pixels: the size of letters, the room of a mark, between two entries, and of a line.
_SIZE, _MARK, _BETWEEN, _LINE = 13.0, 18.0, 20.0, 20.0
#: The legend has so many cusps at most.
_CUSPS = 60
#: Colours that are told apart by most people, dark enough for letters.
_FIRST = ("#0b6bb0", "#c24a00", "#007a58", "#a8418a", "#8f6b00", "#3b3fa8", "#7a2f1d", "#4d7a1f", "#00788c", "#b3123c")


class Entry(NamedTuple):
    """A line of the legend: what is shown, 'free', 'even', 'odd' or 'cusp', its colour, and what it means."""

    kind: str
    colour: str
    text: str


def cusp_colours(count: int) -> List[str]:
    """A colour for each cusp: ten that are chosen, and then hues that go round by the golden angle."""
    made = list(_FIRST[:count])
    for k in range(len(made), count):
        red, green, blue = colorsys.hls_to_rgb((k * 0.6180339887498949) % 1.0, 0.30 + 0.06 * (k % 3), 0.65)
        made.append(f"#{round(red * 255):02x}{round(green * 255):02x}{round(blue * 255):02x}")
    return made


def mark(kind: str, place: complex, size: float, colour: str, more: str = "") -> str:
    """A filled dot for a point of order 2, an open triangle for one of order 3."""
    x, y = place.real, place.imag
    if kind == "even":
        return f'<circle class="point" cx="{x:.3f}" cy="{y:.3f}" r="{size:.3f}" fill="{colour}"{more}/>'
    wide, high = 1.15 * size, 1.3 * size
    corners = f"{x:.3f},{y - high:.3f} {x + wide:.3f},{y + high / 2:.3f} {x - wide:.3f},{y + high / 2:.3f}"
    return f'<polygon class="point" points="{corners}" fill="#ffffff" stroke="{colour}" stroke-width="1.3"{more}/>'


def cusp_entries(numbers: Dict[Cusp, int], widths: Sequence[int], palette: Sequence[str]) -> List[Entry]:
    """The cusps with their widths: infinity first, each other by its vertex of the smallest denominator."""
    names: Dict[int, str] = {}
    for cusp in sorted(numbers, key=lambda cusp: (cusp[1], abs(cusp[0]), cusp[0])):
        names.setdefault(numbers[cusp], "/".join(fraction_texts(cusp)))
    made = [Entry("cusp", palette[k], f"{names[k]}: width {widths[k]}") for k in sorted(names)]
    return made if len(made) <= _CUSPS else made[:_CUSPS] + [Entry("", "", f"and {len(made) - _CUSPS} more cusps")]


def legend_lines(entries: Sequence[Entry], left: float, right: float, top: float) -> Tuple[List[str], float]:
    """The legend in lines between these places, from `top` down, and where it ends."""
    made: List[str] = []
    start = left + 16
    x, y = start, top + _LINE / 2
    for entry in entries:
        wide = _MARK + text_width(entry.text, _SIZE)
        if x > start and x + wide > right - 8:
            x, y = start, y + _LINE
        middle = complex(x + 5, y)
        if entry.kind == "free":
            made.append(f'<path stroke="{entry.colour}" stroke-width="2" d="M {x:.3f} {y:.3f} h 12"/>')
        elif entry.kind == "cusp":
            made.append(f'<circle cx="{middle.real:.3f}" cy="{y:.3f}" r="5" fill="{entry.colour}"/>')
        elif entry.kind:
            made.append(mark(entry.kind, middle, 4.0, entry.colour))
        at = f'x="{x + _MARK:.3f}" y="{y + 0.33 * _SIZE:.3f}" font-size="{_SIZE:g}"'
        made.append(f'<text class="legend" {at}>{entry.text}</text>')
        x += wide + _BETWEEN
    return made, y + _LINE / 2 + 4 if entries else top

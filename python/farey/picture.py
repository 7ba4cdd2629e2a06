"""A symbol's fundamental polygon as a picture in SVG: in the upper half plane, or in the unit disc.

The sides are drawn from the floats of the engine (`Symbol.sides`): each element of class `side`
has them as `data-place`, or as `data-centre` and `data-radius`, in the form that reads back as
the same float. What else is drawn is reckoned here from the vertices, and is tested and not proved.

- A free side is a full line; the two sides of a pair have one number, that of their generator,
  and one colour. An even side is dashed, with a filled dot at the point that its generator turns
  about. An odd side is dotted, with an open triangle at that point, which lies outside the polygon.
- Each coset has a triangle: a third of a Farey triangle of the polygon, or for an odd side the
  third beyond it. Half of it is shaded, from where its edge begins to the edge's middle.
- The number of a side stands at the side where it has room, and otherwise below the axis, where a
  line leads to it; below these stand the vertices. No text covers another. Where there are too many
  for all, pairs with a larger side and vertices with a smaller denominator are labelled first,
  the sides of a pair both or none.
- By cusps: what touches a vertex has the colour of its cusp, and vertices have one colour exactly
  when H takes one to the other. The legend has the width of each cusp.

`python3 -m farey.picture [--disc] [--cusps] < TEXT > FILE.svg` reads a symbol as `./farey listing`
does; `./farey draw` runs it.
"""

from __future__ import annotations

import sys
from typing import TYPE_CHECKING, Callable, Dict, List, Optional, Sequence, Tuple, Union

from .arguments import shown
from .disc import Disc
from .half_plane import Drawn, HalfPlane, pixel
from .labels import Item, Rows, fraction_texts, rows, text_width
from .legend import Entry, cusp_colours, cusp_entries, legend_lines, mark
from .polygon import INFINITY, beyond, cusp_numbers, generator_numbers, partner_sides, thirds
from .refusal import Refusal

if TYPE_CHECKING:
    from .symbol import Symbol

#: In pixels, the size of letters: of a number at its side, of one below the axis, of a vertex.
_AT_SIDE, _BELOW, _VERTEX = 15.0, 12.0, 13.0
#: In pixels: how far from its place a label may stand, the room for lines that lead to it, and between two labels.
_FAR, _LEAD, _BETWEEN = 56.0, 13.0, 4.0
#: How high a digit is, for letters of size 1.
_HIGH = 0.72

_COLOURS = (
    "#1b6ca8", "#b5541c", "#2e7d32", "#8e3b8e", "#8a6b00", "#00796b", "#a63a50", "#4e5ba6", "#6d4c41", "#546e7a",
)
_PLAIN = {"even": "#222222", "odd": "#c62828"}
_STYLE = """
    .farey .ground { fill: #ffffff }
    .farey .polygon { fill: #f6f3ea }
    .farey .coset { fill: #ddd7c4 }
    .farey .edge { fill: none; stroke: #aaa187; stroke-width: 0.6 }
    .farey .side { fill: none; stroke-width: 2; stroke-linecap: round }
    .farey .even { stroke-dasharray: 7 4 }
    .farey .odd { stroke-dasharray: 1 4.5 }
    .farey .axis { fill: none; stroke: #333333; stroke-width: 1 }
    .farey .lead { fill: none; stroke: #8a8a8a; stroke-width: 0.6 }
    .farey .bar { stroke: #222222; stroke-width: 0.8 }
    .farey text { font-family: "Times New Roman", "Liberation Serif", serif; text-anchor: middle; fill: #222222 }
    .farey .halo { stroke: #ffffff; stroke-width: 3; stroke-linejoin: round; paint-order: stroke }
    .farey .legend { text-anchor: start }
"""

Model = Union[HalfPlane, Disc]


def _text(kind: str, place: complex, size: float, text: str, more: str = "") -> str:
    """A text of which the digits' middle is at the place."""
    at = f'x="{place.real:.3f}" y="{place.imag + _HIGH / 2 * size:.3f}" font-size="{size:g}"'
    return f'<text class="{kind}" {at}{more}>{text}</text>'


def _vertex(place: complex, cusp: Tuple[int, int], colour: Optional[str]) -> str:
    """A vertex as an integer or a fraction with a bar, with its middle at the place."""
    texts = fraction_texts(cusp)
    fill = "" if colour is None else f' style="fill: {colour}"'
    name = "/".join(texts)
    if len(texts) == 1:
        return f'<g class="vertex" data-vertex="{name}">{_text("number", place, _VERTEX, name, fill)}</g>'
    half = 0.45 * max(text_width(text, _VERTEX) for text in texts)
    away = (_HIGH * _VERTEX / 2 + 3) * 1j
    bar = f'<path class="bar" d="M {place.real - half:.3f} {place.imag:.3f} h {2 * half:.3f}"/>'
    above, below = (_text("number", place + way, _VERTEX, text, fill) for text, way in zip(texts, (-away, away)))
    return f'<g class="vertex" data-vertex="{name}">{above}{bar}{below}</g>'


def _vertex_box(cusp: Tuple[int, int]) -> Tuple[float, float]:
    texts = fraction_texts(cusp)
    height = _HIGH * _VERTEX * len(texts) + (6 if len(texts) == 2 else 0)
    return max(text_width(text, _VERTEX) for text in texts), height


class _Picture:
    """A picture that is being made: what it is of, and where its labels stand."""

    def __init__(self, symbol: Symbol, model: Model, cusps: bool) -> None:
        self.symbol, self.model = symbol, model
        self.drawn = model.drawn
        self.vertices = self.drawn.vertices
        self.numbers = generator_numbers(symbol.pairings)
        self.partners = partner_sides(symbol.pairings)
        self.cusps: Optional[Dict[Tuple[int, int], int]] = None
        if cusps:
            points = self.vertices + (INFINITY, (-1, 0))
            self.cusps = dict(zip(points, cusp_numbers(symbol, points)))
        self.palette = cusp_colours(len(symbol.widths)) if cusps else []
        self.colours = [self._side_colour(i) for i in range(len(self.drawn.sides))]
        self.places = [self._in_place(i) for i in range(len(self.drawn.sides))]
        self.rows = self._rows()

    def _side_colour(self, i: int) -> str:
        if self.cusps is not None:
            return "#222222"
        return _PLAIN.get(self.drawn.sides[i].kind) or _COLOURS[(self.numbers[i] - 1) % len(_COLOURS)]

    def _in_place(self, i: int) -> Optional[complex]:
        gap = {"free": 5.0, "even": 8.0, "odd": 9.0}[self.drawn.sides[i].kind]
        return self.model.in_place(i, text_width(str(self.numbers[i]), _AT_SIDE), _HIGH * _AT_SIDE, gap)

    def _rows(self) -> Rows:
        """The labels below the axis: the numbers of sides that have no room for it, and all vertices."""
        items: List[Item] = []
        for i in range(len(self.drawn.sides)):
            if self.places[i] is None:
                width = self.model.extent(text_width(str(self.numbers[i]), _BELOW), _HIGH * _BELOW)[0] + _BETWEEN
                other = self.partners[i]
                size = max(self.model.size(i), self.model.size(other))
                items.append(Item(("side", i), self.model.middle(i), width, 0.0, min(i, other), size))
            if i < len(self.vertices):
                width = self.model.extent(*_vertex_box(self.vertices[i]))[0] + _BETWEEN
                along, size = self.model.along(self.vertices[i]), max(self.model.size(i), self.model.size(i + 1))
                items.append(Item(("vertex", i), along, _BETWEEN, width, len(self.numbers) + i, size))
        return rows(items, self.model.low, self.model.high, _FAR)

    def is_labelled(self, i: int) -> bool:
        """Whether a side and its partner have places for their number."""
        return all(self.places[k] is not None or ("side", k) in self.rows.first for k in (i, self.partners[i]))

    def cosets(self) -> Tuple[List[str], List[str], int]:
        """The shaded halves and the edges of the cosets' triangles, and how many cosets there are."""
        shades: List[str] = []
        edges: List[str] = []
        count = 0
        path = self.model.path
        for start, end, middle, centre in thirds(self.vertices, [side.kind for side in self.drawn.sides]):
            count += 1
            if self.model.is_narrow(start, end):
                continue
            if self.cusps is None:
                shades.append(f'<path class="coset" d="{path([middle, start, centre])}"/>')
            else:
                for kind, cusp, tint in (("coset", start, "0.55"), ("rest", end, "0.25")):
                    fill = f"fill: {self.palette[self.cusps[cusp]]}; fill-opacity: {tint}"
                    shades.append(f'<path class="{kind}" style="{fill}" d="{path([middle, cusp, centre])}"/>')
            edges.append(f'<path class="edge" d="{path([middle, start, centre], closed=False)}"/>')
        return shades, edges, count

    def ground(self) -> Tuple[List[str], List[str]]:
        """The polygon with the thirds beyond its odd sides, which belong to the domain, and their outer edges."""
        ground = [f'<path class="polygon" d="{self.model.path([INFINITY, *self.vertices])}"/>']
        edges: List[str] = []
        for i, side in enumerate(self.drawn.sides):
            if side.kind == "odd":
                start, end, middle, centre = beyond(self.vertices, i)
                ground.append(f'<path class="polygon" d="{self.model.path([middle, start, centre, end])}"/>')
                edges.append(f'<path class="edge" d="{self.model.path([start, centre, end], closed=False)}"/>')
        return ground, edges

    def sides(self) -> Tuple[List[str], List[str]]:
        """The sides, each with a title, and the points that even and odd generators turn about."""
        drawn: List[str] = []
        points: List[str] = []
        for i, side in enumerate(self.drawn.sides):
            number, colour = self.numbers[i], self.colours[i]
            if side.place is not None:
                data = f'data-place="{side.place!r}"'
            else:
                data = f'data-centre="{side.centre!r}" data-radius="{side.radius!r}"'
            kind = f"paired with {self.partners[i]}" if side.kind == "free" else side.kind
            title = f"<title>side {i}, {kind}, generator {number}</title>"
            names = f'class="side {side.kind}" data-side="{i}" data-generator="{number}" {data}'
            drawn.append(f'<path {names} stroke="{colour}" d="{self.model.side(i)}">{title}</path>')
            if side.kind != "free":
                third = beyond(self.vertices, i)
                place = self.model.at(third.middle if side.kind == "even" else third.centre)
                size = min(4.0, max(1.2, 0.3 * self.model.size(i)))
                points.append(mark(side.kind, place, size, colour, f' data-side="{i}"'))
        return drawn, points

    def labels(self) -> Tuple[List[str], float]:
        """The numbers of the sides and the vertices, with the lines that lead to them, and how deep they go."""
        model, first, second = self.model, self.rows.first, self.rows.second
        numbers = [i for i in range(len(self.numbers)) if self.is_labelled(i)]
        leads: List[str] = []
        texts: List[str] = []
        boxes = [(text_width(str(self.numbers[i]), _BELOW), _HIGH * _BELOW) for i in numbers if self.places[i] is None]
        across = max((model.extent(*box)[1] for box in boxes), default=0.0)
        vertices = [k for k in range(len(self.vertices)) if ("vertex", k) in second]
        moved = [abs(first["side", i] - model.middle(i)) for i in numbers if self.places[i] is None]
        moved += [abs(first["vertex", k] - model.along(self.vertices[k])) for k in vertices]
        # the first row is lower where lines lead to it; the second one too
        upper = (_LEAD if max(moved, default=0.0) > 1 else 3.0) if boxes else 0.0
        lower = upper + across + (2.0 if boxes else 0.0)
        spread = max((abs(second["vertex", k] - first["vertex", k]) for k in vertices), default=0.0)
        top = lower + (_LEAD if spread > 1 else 5.0)
        depth = max((model.extent(*_vertex_box(cusp))[1] for cusp in self.vertices), default=0.0)
        for i in numbers:
            style = f' style="fill: {self.colours[i]}" data-side="{i}"'
            place = self.places[i]
            if place is not None:
                texts.append(_text("pair halo", place, _AT_SIDE, str(self.numbers[i]), style))
                continue
            at = first["side", i]
            if upper > 3:
                leads.append(self._lead((model.middle(i), 0.0), (at, upper - 1)))
            texts.append(_text("pair", model.band(at, upper + across / 2), _BELOW, str(self.numbers[i]), style))
        for k in vertices:
            cusp = self.vertices[k]
            along, over, at = model.along(cusp), first["vertex", k], second["vertex", k]
            leads.append(self._lead((along, 0.0), (over, upper), (over, lower), (at, top - 2)))
            # the upper edges of fractions and integers are at one height
            room = model.extent(*_vertex_box(cusp))[1] if isinstance(model, HalfPlane) else depth
            texts.append(_vertex(model.band(at, top + room / 2), cusp, self._vertex_colour(cusp)))
        if model.infinity is not None:
            leads.append(self._lead((model.infinity, 0.0), (model.infinity, top - 2)))
            place = model.band(model.infinity, top + _HIGH * _VERTEX / 2)
            texts.append(_vertex(place, INFINITY, self._vertex_colour(INFINITY)))
        return leads + texts, top + depth

    def _vertex_colour(self, cusp: Tuple[int, int]) -> Optional[str]:
        return None if self.cusps is None else self.palette[self.cusps[cusp]]

    def _lead(self, *places: Tuple[float, float]) -> str:
        line = " L ".join(pixel(self.model.band(along, depth)) for along, depth in places)
        return f'<path class="lead" d="M {line}"/>'

    def dots(self) -> List[str]:
        """By cusps, a dot at each vertex."""
        if self.cusps is None:
            return []
        made: List[str] = []
        points = self.vertices if self.model.infinity is None else self.vertices + (INFINITY,)
        for cusp in points:
            number = self.cusps[cusp]
            place = self.model.band(self.model.along(cusp), 0.0)
            at = f'cx="{place.real:.3f}" cy="{place.imag:.3f}" r="3"'
            told = f"{'/'.join(fraction_texts(cusp))}, cusp {number}, width {self.symbol.widths[number]}"
            names = f'class="cusp" data-cusp="{number}" fill="{self.palette[number]}"'
            made.append(f"<circle {names} {at}><title>{told}</title></circle>")
        return made

    def legend(self) -> List[Entry]:
        """What the marks and the colours mean, as far as they are there."""
        kinds = {side.kind for side in self.drawn.sides}
        entries = [Entry("free", "#222222", "equal numbers: paired sides")] if "free" in kinds else []
        entries += [Entry("even", self._mark_colour("even"), "order 2")] if "even" in kinds else []
        entries += [Entry("odd", self._mark_colour("odd"), "order 3")] if "odd" in kinds else []
        if self.cusps is not None:
            entries += cusp_entries(self.cusps, self.symbol.widths, self.palette)
        return entries

    def _mark_colour(self, kind: str) -> str:
        return _PLAIN[kind] if self.cusps is None else "#222222"

    def description(self) -> str:
        """The polygon in words."""
        vertices = ", ".join("/".join(fraction_texts(cusp)) for cusp in (INFINITY, *self.vertices))
        numbers = ", ".join(map(str, self.numbers))
        return f"Vertices: {vertices}. Generators of the sides, from left to right: {numbers}."

    def svg(self) -> str:
        model, box = self.model, self.drawn.box
        ground, outer = self.ground()
        shades, edges, count = self.cosets()
        drawn, points = self.sides()
        labels, depth = self.labels()
        left, top, right, bottom = model.bounds(depth + 6)
        legend, bottom = legend_lines(self.legend(), left, right, bottom + 8)
        scale = min(1.0, model.width / (right - left))
        inside = f"{left:.3f} {top:.3f} {right - left:.3f} {bottom - top:.3f}"
        size = f'width="{scale * (right - left):.0f}" height="{scale * (bottom - top):.0f}" viewBox="{inside}"'
        data = f'data-box="{box.left!r} {box.right!r} {box.bottom!r} {box.top!r}" data-cosets="{count}"'
        where = "upper half plane" if model.infinity is None else "unit disc"
        told = f"A fundamental polygon of {len(drawn)} sides in the {where}; the subgroup has index {self.symbol.index}"
        return "\n".join(
            [
                f'<svg xmlns="http://www.w3.org/2000/svg" class="farey" role="img" {size} {data}>',
                f"<title>{told}</title>",
                f"<desc>{self.description()}</desc>",
                f"<style>{_STYLE}</style>",
                '<rect class="ground" x="{}" y="{}" width="{}" height="{}"/>'.format(*inside.split()),
                *ground,
                *shades,
                *edges,
                *outer,
                model.frame(),
                *drawn,
                *points,
                *self.dots(),
                *labels,
                *legend,
                "</svg>",
            ]
        )


def svg(symbol: Symbol, width: float = 960.0, disc: bool = False, cusps: bool = False) -> str:
    """The picture as the text of an SVG file, at most that many pixels wide unless the polygon is so wide that
    its height would be lost. `disc` draws it in the unit disc, and `cusps` colours it by cusps."""
    if isinstance(width, bool) or not isinstance(width, (int, float)) or not 200 <= width <= 100000:
        raise ValueError(f"width is {shown(width)}, and a number of pixels from 200 to 100,000 is wanted")
    drawn = Drawn(symbol.vertices, symbol.sides(), symbol.box())
    model: Model = Disc(drawn, float(width)) if disc else HalfPlane(drawn, float(width))
    return '<?xml version="1.0" encoding="UTF-8"?>\n' + _Picture(symbol, model, bool(cusps)).svg() + "\n"


def answer(words: Sequence[str], module: str, suffix: str, make: Callable[..., str]) -> int:
    """Writes what `make` makes of the symbol on standard input, or the line of its refusal; the exit status."""
    from .symbol import Symbol

    if not set(words) <= {"--disc", "--cusps"}:
        print(f"usage: python3 -m {module} [--disc] [--cusps] < TEXT > FILE{suffix}", file=sys.stderr)
        return 2
    text = sys.stdin.buffer.read(65537).decode("utf-8", "surrogateescape")
    try:
        written = make(Symbol.parse(text), disc="--disc" in words, cusps="--cusps" in words)
    except Refusal as refusal:
        written = f"refused {refusal.number} {refusal.place}\n"
    sys.stdout.buffer.write(written.encode("utf-8"))
    sys.stdout.buffer.flush()
    return 0


def main(words: Sequence[str]) -> int:
    """The picture of the symbol on standard input, or the line of its refusal."""
    return answer(words, "farey.picture", ".svg", svg)


if __name__ == "__main__":
    sys.exit(main(sys.argv[1:]))

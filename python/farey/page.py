"""A page for a subgroup, as one HTML file without scripts, fonts or anything else from elsewhere: the
picture, the figures, the generators as matrices, the cusps, the coset tables, the symbol, and what is proved.

`python3 -m farey.page [--disc] [--cusps] < TEXT > FILE.html` reads a symbol as `./farey listing` does; the
words are those of the picture. The page is tested and not proved; what it takes from the engine, it names.
"""

from __future__ import annotations

import sys
from html import escape
from typing import TYPE_CHECKING, Dict, List, Optional, Sequence, Tuple

from . import picture
from .labels import fraction_texts
from .named import FAMILIES, named_tables
from .polygon import INFINITY, cusp_numbers, generator_numbers
from .refusal import Refusal

if TYPE_CHECKING:
    from .symbol import Generator, Symbol

_STYLE = """
body { margin: 0; color: #222; background: #fff; font: 17px/1.5 "Times New Roman", "Liberation Serif", serif }
main { max-width: 60rem; margin: 0 auto; padding: 1.5rem 1.25rem 3rem }
h1 { font-size: 1.9rem; font-weight: normal; line-height: 1.2; margin: 0 0 0.4rem }
h2 { font-size: 1.3rem; font-weight: normal; border-bottom: 1px solid #bbb; margin: 2.2rem 0 0.8rem }
sub, sup { line-height: 0 }
figure { margin: 1rem 0; overflow-x: auto; text-align: center }
figcaption { text-align: left; font-size: 0.92rem; color: #444 }
svg.fits { max-width: 100%; height: auto }
table { border-collapse: collapse; font-variant-numeric: tabular-nums }
th, td { padding: 0.2rem 0.8rem; border-bottom: 1px solid #ddd; text-align: right; vertical-align: top }
th { font-weight: normal; color: #444; border-bottom-color: #888 }
td.text, th.text { text-align: left }
table.figures th { text-align: left; border-bottom-color: #ddd }
.scroll { overflow-x: auto }
ol.generators { list-style: none; margin: 0; padding: 0; display: flex; flex-wrap: wrap; gap: 1rem 2.4rem }
ol.generators li { break-inside: avoid }
ol.generators p { margin: 0.2rem 0 0; font-size: 0.88rem; color: #444 }
.matrix { display: inline-grid; grid-template-columns: auto auto; gap: 0 0.8em; text-align: right;
  vertical-align: middle; line-height: 1.3; padding: 0.15em 0.5em; border: solid #222; border-width: 0 1.5px;
  border-radius: 0.8em / 50% }
pre, code { font: 0.85rem/1.45 "DejaVu Sans Mono", "Liberation Mono", monospace }
pre { background: #f6f3ea; padding: 0.7rem 0.9rem; margin: 0.6rem 0; white-space: pre-wrap; overflow-wrap: anywhere }
code { overflow-wrap: anywhere }
summary { cursor: pointer }
blockquote { margin: 0.6rem 0; padding: 0.1rem 1rem; border-left: 3px solid #bbb }
@media print {
  body { font-size: 11pt }
  main { max-width: none; padding: 0 }
  svg.farey { max-width: 100%; height: auto }
  figure, table.figures, tr, li, blockquote { break-inside: avoid }
  h2 { break-after: avoid }
}
"""
#: How wide the picture is in pixels, so that on paper its letters can be read.
_WIDTH = 800.0
#: The names of the families, as text and in HTML.
_NAMES: Dict[str, Tuple[str, str]] = {
    "gamma0": ("Γ0", "Γ<sub>0</sub>"),
    "gamma1": ("Γ1", "Γ<sub>1</sub>"),
    "gamma": ("Γ", "Γ"),
}
_PSL = "PSL<sub>2</sub>(<b>Z</b>)"
_PROVED = (
    "The index, <i>e</i><sub>2</sub>, <i>e</i><sub>3</sub>, the cusps with their widths, the genus, the level, the "
    "generators and the coset tables are answers of the engine. Its code is proved: for every symbol that it accepts, "
    "these are the figures, generators and tables of the subgroup H that the symbol's generators generate. The numbers "
    "that the sides are drawn from are proved too. In the engine's repository <code>docs/PROMISES.md</code> names each "
    "statement and where it is proved, and <code>docs/HANDBOOK.md</code> what the proofs rest on."
)
_TESTED = (
    "All else on this page, as which vertices belong to a cusp and where a generator turns, is worked out from these "
    "answers by the Python package. That part is tested and not proved."
)
_COSETS = (
    "The right cosets of H, of which H itself is 0, and where multiplication on the right by <i>S</i> = (0 −1; 1 0), "
    "<i>R</i> = (0 −1; 1 1) and <i>T</i> = (1 1; 0 1) takes each; its cusp, and how many steps of <i>T</i> lead to it "
    "from the cusp's smallest coset."
)
_SYMBOL = (
    "The number of finite vertices; the vertices from left to right, each as numerator and denominator; the pairings "
    "of the sides: −2 for an even one, −3 for an odd one, a label on both sides of a free pair."
)
_AGAIN = (
    "Saved as <code>group.txt</code>, it gives the figures, generators and tables again by "
    "<code>./farey listing &lt; group.txt</code>, and this page by <code>./farey page group.txt</code>."
)


def group_name(symbol: Symbol) -> Optional[Tuple[str, int]]:
    """The family and N where H is Γ0(N), Γ1(N) or Γ(N), the last two with -1; else None. The level of such a
    group is N, and two subgroups with the same tables of S and R are the same.

    >>> from farey import Symbol
    >>> group_name(Symbol([0, 1], [1, -2, 1])), group_name(Symbol([0], [-3, -3]))
    (('gamma0', 2), None)
    """
    try:
        N = symbol.level
    except Refusal:
        return None
    for family in FAMILIES:
        try:
            if named_tables(family, N) == (symbol.S, symbol.R):
                return family, N
        except Refusal:
            pass
    return None


def _number(number: int) -> str:
    return str(number).replace("-", "−")


def _matrix(entries: Sequence[int]) -> str:
    """A matrix in two rows, and in one for who can't see it."""
    a, b, c, d = map(_number, entries)
    cells = "".join(f"<span>{entry}</span>" for entry in (a, b, c, d))
    return f'<span class="matrix" role="math" aria-label="({a} {b}; {c} {d})">{cells}</span>'


def fixed_point(generator: Generator) -> Tuple[int, int, int]:
    """Of the point (x + i √y) / z that an even or an odd generator turns about, x, y and z.

    >>> from farey import Symbol
    >>> [fixed_point(generator) for generator in Symbol([0], [-2, -3]).generators]
    [(0, 1, 1), (1, 3, 2)]
    """
    a, _, c, d = generator.matrix if generator.matrix[2] > 0 else tuple(-entry for entry in generator.matrix)
    return (a, 1, c) if generator.kind == "even" else (a - d, 3, 2 * c)


def _point(x: int, y: int, z: int) -> str:
    """(x + i √y) / z."""
    root = "<i>i</i>" if y == 1 else f"<i>i</i>√{y}"
    above = f"{_number(x)} + {root}" if x else root
    return above if z == 1 else f"({above})/{z}" if x else f"{above}/{z}"


def _plural(count: int, one: str, more: str) -> str:
    return f"one {one}" if count == 1 else f"{count} {more}"


def _generators(symbol: Symbol) -> List[str]:
    """The generators, each with its sides, its order and the point that it turns about."""
    numbers = generator_numbers(symbol.pairings)
    made = ['<ol class="generators">']
    for j, generator in enumerate(symbol.generators, 1):
        sides = [i for i, number in enumerate(numbers) if number == j]
        if generator.kind == "free":
            told = f"free, takes side {sides[0]} to side {sides[1]}"
        else:
            order = 2 if generator.kind == "even" else 3
            told = f"{generator.kind}, order {order}, side {sides[0]}, about {_point(*fixed_point(generator))}"
        made.append(f"<li><i>g</i><sub>{j}</sub> = {_matrix(generator.matrix)}<p>{told}</p></li>")
    return made + ["</ol>"]


def _structure(symbol: Symbol) -> str:
    """What group H is."""
    free = sum(generator.kind == "free" for generator in symbol.generators)
    parts = [_plural(symbol.e2, "group of order 2", "groups of order 2")] if symbol.e2 else []
    parts += [_plural(symbol.e3, "group of order 3", "groups of order 3")] if symbol.e3 else []
    parts += [_plural(free, "infinite cyclic group", "infinite cyclic groups")] if free else []
    listed = parts[0] if len(parts) == 1 else ", ".join(parts[:-1]) + " and " + parts[-1]
    if symbol.e2 + symbol.e3 + free == 1:
        return f"Up to sign H is {'an' if free else 'a'} {listed.partition(' ')[2]}, generated by"
    return f"Up to sign H is the free product of {listed}, which are generated by"


def _heads(*names: str) -> str:
    return "<tr>" + "".join(f'<th scope="col">{name}</th>' for name in names)


def _row(cells: Sequence[object]) -> str:
    return "<tr>" + "".join(f"<td>{cell}</td>" for cell in cells) + "</tr>"


def _figures(symbol: Symbol) -> List[str]:
    try:
        level = str(symbol.level)
    except Refusal:
        level = "2<sup>64</sup> or more"
    rows = (
        (f"Index in {_PSL}", symbol.index),
        ("Classes of elliptic points of order 2, <i>e</i><sub>2</sub>", symbol.e2),
        ("Classes of elliptic points of order 3, <i>e</i><sub>3</sub>", symbol.e3),
        ("Cusps", len(symbol.widths)),
        ("Widths of the cusps", ", ".join(map(str, symbol.widths))),
        ("Genus", symbol.genus),
        ("Level, the least common multiple of the widths", level),
    )
    made = [f'<tr><th scope="row">{name}</th><td>{figure}</td></tr>' for name, figure in rows]
    return ['<table class="figures">', *made, "</table>"]


def _cusps(symbol: Symbol) -> List[str]:
    """The cusps with their widths and the vertices of the polygon that belong to them."""
    members: Dict[int, List[str]] = {}
    points = (INFINITY,) + symbol.vertices
    for cusp, number in zip(points, cusp_numbers(symbol, points)):
        members.setdefault(number, []).append("/".join(fraction_texts(cusp)))
    made = ["<table>", _heads("Cusp", "Width") + '<th scope="col" class="text">Vertices</th></tr>']
    for number, width in enumerate(symbol.widths):
        vertices = ", ".join(members[number])
        made.append(f'<tr><td>{number}</td><td>{width}</td><td class="text">{vertices}</td></tr>')
    return made + ["</table>"]


def _cosets(symbol: Symbol) -> List[str]:
    """The coset tables and the coset record, and S and R in cycle notation."""
    heads = _heads("Coset", "<i>S</i>", "<i>R</i>", "<i>T</i>", "Cusp", "Steps") + "</tr>"
    rows = zip(range(symbol.index), symbol.S, symbol.R, symbol.T, symbol.coset_cusps, symbol.coset_steps)
    made = ["<details>", f"<summary>The tables of {_plural(symbol.index, 'coset', 'cosets')}</summary>"]
    made += ['<div class="scroll">', "<table>", heads, *map(_row, rows), "</table>", "</div>"]
    try:
        cycles = symbol.cycles()
        made.append(f"<p>The index, <i>S</i> and <i>R</i> in cycle notation, points from 1: <code>{cycles}</code></p>")
    except Refusal:
        pass  # cycle notation ends at index 3,066
    return made + ["</details>"]


def _picture(symbol: Symbol, disc: bool, cusps: bool) -> List[str]:
    try:
        text = picture.svg(symbol, _WIDTH, disc, cusps).partition("?>\n")[2].rstrip("\n")
    except Refusal as refusal:
        return [f"<p>There is no picture: {escape(refusal.sentence)} (refusal {refusal.number}).</p>"]
    wide = float(text.partition(' width="')[2].partition('"')[0]) > _WIDTH
    labelled = text.count('<text class="pair') == len(symbol.pairings)
    text = text if wide else text.replace('class="farey"', 'class="farey fits"', 1)
    numbers = "The number at a side is that of its generator. "
    if not labelled:
        numbers = "The number at a side is that of its generator; where it has no room, the side's title tells it. "
    colours = "The colours are those of the cusps. " if cusps else ""
    shades = "Each coset has a triangle, of which one half is darker."
    return ["<figure>", text, f"<figcaption>{numbers}{colours}{shades}</figcaption>", "</figure>"]


def _citation(symbol: Symbol, name: str, version: Optional[str]) -> List[str]:
    engine = "the proved engine farey" + ("" if version is None else f", version {escape(version)}")
    genus, cusps = symbol.genus, _plural(len(symbol.widths), "cusp", "cusps")
    return [
        f"<p>{_PROVED}</p>",
        f"<p>{_TESTED}</p>",
        "<p>To cite the check:</p>",
        "<blockquote>",
        f"<p>{name} has index {symbol.index} in {_PSL}, genus {genus} and {cusps}, and the generators given generate "
        f"it: answers of {engine}, for the Farey symbol given, from which they can be had again.</p>",
        "</blockquote>",
    ]


def html(symbol: Symbol, disc: bool = False, cusps: bool = False) -> str:
    """The page as the text of an HTML file, with the picture in the unit disc or coloured by cusps where asked for."""
    version: Optional[str] = getattr(sys.modules["farey"], "__version__", None)
    found = group_name(symbol)
    plain = marked = "A subgroup"
    about = "Matrices count up to sign. H is the subgroup that the generators below generate."
    if found is not None:
        family, N = found
        plain, marked = (f"{text}({N})," for text in _NAMES[family]) if N > 1 else ("PSL2(Z),", _PSL + ",")
        about += f" It is {marked[:-1]}: its coset tables are those that the engine gives for this group."
    whole = f"{plain} of index {symbol.index} and genus {symbol.genus} in PSL2(Z)"
    return "\n".join(
        [
            "<!DOCTYPE html>",
            '<html lang="en">',
            "<head>",
            '<meta charset="utf-8">',
            '<meta name="viewport" content="width=device-width, initial-scale=1">',
            f"<title>{whole}</title>",
            f"<style>{_STYLE}</style>",
            "</head>",
            "<body>",
            "<main>",
            f"<h1>{marked} of index {symbol.index} in {_PSL}</h1>",
            f"<p>{about}</p>",
            "<h2>Fundamental polygon</h2>",
            *_picture(symbol, disc, cusps),
            "<h2>Figures</h2>",
            *_figures(symbol),
            "<h2>Generators</h2>",
            f"<p>{_structure(symbol)}</p>",
            *_generators(symbol),
            "<h2>Cusps</h2>",
            '<div class="scroll">',
            *_cusps(symbol),
            "</div>",
            "<h2>Cosets</h2>",
            f"<p>{_COSETS}</p>",
            *_cosets(symbol),
            "<h2>The symbol</h2>",
            f"<p>{_SYMBOL}</p>",
            f"<pre>{symbol.text()}</pre>",
            f"<p>{_AGAIN}</p>",
            "<h2>What is proved</h2>",
            *_citation(symbol, marked[:-1] if found else "The subgroup", version),
            "</main>",
            "</body>",
            "</html>",
        ]
    ) + "\n"


def main(words: Sequence[str]) -> int:
    """The page of the symbol on standard input, or the line of its refusal."""
    return picture.answer(words, "farey.page", ".html", html)


if __name__ == "__main__":
    sys.exit(main(sys.argv[1:]))

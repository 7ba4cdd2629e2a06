"""How a symbol is shown: in a line, in a few lines, in a notebook."""

from __future__ import annotations

from base64 import b64encode
from collections import Counter
from html import escape
from typing import TYPE_CHECKING, Iterable, List, Tuple

from .refusal import Refusal

if TYPE_CHECKING:
    from .symbol import Symbol

#: A line is cut behind so many letters.
_WIDTH = 88


def short(H: Symbol) -> str:
    """The call that makes the symbol, or its figures where that has over 88 letters."""
    if len(H.vertices) <= 12:
        call = f"Symbol({list(H.vertices)}, {list(H.pairings)})"
        if len(call) <= _WIDTH:
            return call
    cusps = "1 cusp" if H.cusps == 1 else f"{H.cusps} cusps"
    return f"<Symbol of index {H.index}, genus {H.genus}, {cusps}, {len(H.vertices)} vertices>"


def lines(H: Symbol) -> str:
    """Figures, generators and symbol, in six lines."""
    return "\n".join(f"{name}: {text}" if name else text for name, text in _rows(H))


def _rows(H: Symbol) -> List[Tuple[str, str]]:
    try:
        level = str(H.level)
    except Refusal:
        level = "2^64 or more"
    kinds = Counter(generator.kind for generator in H.generators)
    points = [f"{count} of order {order}" for count, order in ((H.e2, 2), (H.e3, 3)) if count]
    vertices = [str(top) if bottom == 1 else f"{top}/{bottom}" for top, bottom in H.vertices]
    return [
        ("", f"subgroup of index {H.index} in PSL2(Z), genus {H.genus}, level {level}"),
        ("cusps", _cut(f"{H.cusps}, of width{'s' if H.cusps > 1 else ''}", _powers(H.widths))),
        ("elliptic points", ", ".join(points) or "none"),
        ("generators", ", ".join(f"{kinds[kind]} {kind}" for kind in ("free", "even", "odd") if kinds[kind])),
        ("vertices", _cut("", vertices)),
        ("pairings", _cut("", map(str, H.pairings))),
    ]


def _powers(widths: Iterable[int]) -> Iterable[str]:
    """Widths in rising order, with how often each stands there where it is more than once."""
    for width, count in sorted(Counter(widths).items()):
        yield str(width) if count == 1 else f"{width} ({count} times)"


def _cut(start: str, words: Iterable[str]) -> str:
    """The words in one line. What has no room is left out, and '..' says so."""
    line = start
    for word in words:
        if len(line) + len(word) > _WIDTH - 16:
            return f"{line} .."
        line += f" {word}" if line else word
    return line


def html(H: Symbol) -> str:
    """The picture, where it isn't refused with 22, and the figures as a table."""
    rows = "".join(
        f"<tr><th style='text-align: left'>{escape(name)}</th><td style='text-align: left'>{escape(text)}</td></tr>"
        for name, text in _rows(H)
    )
    svg = H._repr_svg_()
    # as an image, so that its styles are its own
    data = b64encode(svg.encode("utf-8")).decode("ascii") if svg else ""
    picture = f'<img alt="a fundamental polygon" src="data:image/svg+xml;base64,{data}">' if svg else ""
    return f"<div>{picture}<table>{rows}</table></div>"

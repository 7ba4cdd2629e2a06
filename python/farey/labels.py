"""Where the labels of a picture stand: how wide a text is at most, and two rows of labels of
which none covers another. Each label is near the place that it is for, and lines lead from
the places to the labels without crossing.
"""

from __future__ import annotations

from typing import Dict, List, NamedTuple, Optional, Sequence, Set, Tuple

#: How wide a digit is at most, a letter or a blank on the average, and any other mark at most, for letters of size 1.
_DIGIT, _LETTER, _MARK = 0.64, 0.56, 0.86
#: After so many groups in a row that found no room, the smaller ones aren't tried.
_PATIENCE = 400


def text_width(text: str, size: float) -> float:
    """How wide a text is, or how wide it may be where it is a number, in any usual face with serifs."""
    return sum(_DIGIT if mark.isdigit() else _LETTER if mark.isascii() else _MARK for mark in text) * size


def fraction_texts(cusp: Tuple[int, int]) -> Tuple[str, ...]:
    """What is written for a vertex: one text, or numerator and denominator.

    >>> fraction_texts((-3, 13)), fraction_texts((2, 1)), fraction_texts((1, 0))
    (('−3', '13'), ('2',), ('∞',))
    """
    num, den = cusp
    if den == 0:
        return ("∞",)
    above = str(num).replace("-", "−")
    return (above,) if den == 1 else (above, str(den))


class Item(NamedTuple):
    """Something to be labelled: its place along the rows, the width that it needs in the
    first row and, where its label stands in the second, the width there, or else 0. Items
    of one group are labelled together or not at all, groups with a larger size first."""

    name: Tuple[str, int]
    at: float
    first: float
    second: float
    group: int
    size: float


class Rows(NamedTuple):
    """The places of the labelled items, by their names, in the first row and in the second."""

    first: Dict[Tuple[str, int], float]
    second: Dict[Tuple[str, int], float]


def spread(wanted: Sequence[float], widths: Sequence[float], low: float, high: float) -> Optional[List[float]]:
    """Places for stretches of these widths, in the order of the wanted places, which rise:
    no two overlap, all lie from low to high, and the sum of the squares of the distances from
    the wanted places is least. None where there is no room.

    >>> spread([1.0, 5.0, 5.0], [2.0, 2.0, 2.0], 0.0, 10.0)
    [1.0, 4.0, 6.0]
    >>> spread([0.0, 1.0], [2.0, 2.0], 0.0, 4.0), spread([0.0, 1.0], [2.0, 3.0], 0.0, 4.0)
    ([1.0, 3.0], None)
    """
    # without the widths, places that must not fall: blocks of equal ones, each at its mean
    offsets: List[float] = []
    offset = 0.0
    for i, width in enumerate(widths):
        offset += (widths[i - 1] + width) / 2 if i else 0.0
        offsets.append(offset)
    if not offsets:
        return []
    least, most = low + widths[0] / 2, high - widths[-1] / 2 - offset
    if least > most:
        return None
    sums: List[float] = []
    counts: List[int] = []
    for place, before in zip(wanted, offsets):
        total, count = place - before, 1
        while sums and sums[-1] * count > total * counts[-1]:
            total, count = total + sums.pop(), count + counts.pop()
        sums.append(total)
        counts.append(count)
    level = [min(max(total / count, least), most) for total, count in zip(sums, counts) for _ in range(count)]
    return [place + before for place, before in zip(level, offsets)]


def _placed(items: List[Item], low: float, high: float, far: float) -> Optional[Rows]:
    """Both rows for these items, in order; None where one would stand further off than `far`."""
    first = spread([item.at for item in items], [item.first for item in items], low, high)
    if first is None or any(abs(place - item.at) > far for place, item in zip(first, items)):
        return None
    under = [(item, place) for item, place in zip(items, first) if item.second]
    second = spread([place for _, place in under], [item.second for item, _ in under], low, high)
    if second is None or any(abs(place - above) > far for place, (_, above) in zip(second, under)):
        return None
    names = [item.name for item in items]
    return Rows(dict(zip(names, first)), {item.name: place for (item, _), place in zip(under, second)})


def rows(items: Sequence[Item], low: float, high: float, far: float) -> Rows:
    """Two rows of labels, from low to high, for items in the order of their places: all of them
    where they have room, and otherwise those of the larger groups, one after another."""
    everything = _placed(list(items), low, high, far)
    if everything is not None:
        return everything
    sizes: Dict[int, float] = {}
    for item in items:
        sizes[item.group] = max(item.size, sizes.get(item.group, 0.0))
    chosen: Set[int] = set()
    best = Rows({}, {})
    refused = 0
    for group in sorted(sizes, key=lambda group: (-sizes[group], group)):
        tried = _placed([item for item in items if item.group in chosen or item.group == group], low, high, far)
        if tried is None:
            refused += 1
            if refused == _PATIENCE:
                break
        else:
            chosen.add(group)
            best, refused = tried, 0
    return best

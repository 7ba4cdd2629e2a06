"""Random reduced words, each of those with a given length with the same chance."""

from __future__ import annotations

import random
from typing import Any, Dict, List, Optional, Sequence

#: A `random.Random`, or anything else with its method `randrange`.
Randrange = Any


def source(rng: Optional[Randrange]) -> Randrange:
    """What is asked for random numbers."""
    if rng is None:
        return random
    if not callable(getattr(rng, "randrange", None)):
        raise TypeError(f"rng is of type {type(rng).__name__}, and a random.Random is wanted")
    return rng


def draw(kinds: Sequence[str], length: int, rng: Optional[Randrange]) -> List[int]:
    """A reduced word. Behind a free letter stands any letter but its inverse, behind
    an even one any but itself, behind an odd one any but the two of its generator. So how
    many words go on from a letter depends on its kind alone, and is counted first."""
    if not 0 <= length <= 1_000:
        raise ValueError(f"letters is {length}, and a number from 0 to 1,000 is wanted")
    ask = source(rng)
    letters: List[int] = []
    for j, kind in enumerate(kinds, 1):
        letters += [j] if kind == "even" else [j, -j]
    number = {kind: sum(kinds[abs(j) - 1] == kind for j in letters) for kind in ("free", "even", "odd")}
    shut = {"free": 1, "even": 1, "odd": 2}
    # ways[k][kind]: the reduced words of k letters that may stand behind a letter of that kind
    ways: List[Dict[str, int]] = [{kind: 1 for kind in number}]
    for _ in range(length):
        last = ways[-1]
        every = sum(number[kind] * last[kind] for kind in number)
        ways.append({kind: every - shut[kind] * last[kind] if number[kind] else 0 for kind in number})
    word: List[int] = []
    for left in range(length - 1, -1, -1):
        weights = ways[left]
        behind = word[-1] if word else 0
        open_ones = [j for j in letters if not _is_shut(kinds, behind, j)]
        place = ask.randrange(sum(weights[kinds[abs(j) - 1]] for j in open_ones))
        for j in open_ones:
            place -= weights[kinds[abs(j) - 1]]
            if place < 0:
                word.append(j)
                break
    return word


def _is_shut(kinds: Sequence[str], last: int, letter: int) -> bool:
    """Whether a letter can't stand behind the last one in a reduced word."""
    if last == 0 or abs(last) != abs(letter):
        return False
    return kinds[abs(last) - 1] != "free" or letter == -last

"""Reduced words: no generator beside its own inverse, an even one never behind itself and never
inverted, no odd letter behind an equal one. Each element of H has exactly one, up to
sign, and no word for it is shorter; that is proved."""

from __future__ import annotations

from typing import Iterable, List, Sequence, Tuple


def reduced(kinds: Sequence[str], letters: Iterable[int]) -> Tuple[List[int], int]:
    """The reduced word of a product of letters, and the sign by which the two products differ.

    Letter by letter: what is put behind its inverse cancels, an even generator is
    its own inverse up to sign, and an odd letter behind an equal one becomes its
    inverse. That this rule gives the reduced word up to sign is proved; these lines,
    which follow it, and the sign are tested.
    """
    found: List[int] = []
    sign = 1
    for letter in letters:
        kind = kinds[abs(letter) - 1]
        if kind == "even" and letter < 0:
            letter, sign = -letter, -sign
        last = found[-1] if found else 0
        if last == (letter if kind == "even" else -letter):
            found.pop()
            sign = -sign if kind == "even" else sign
        elif kind == "odd" and last == letter:
            found[-1] = -letter
        else:
            found.append(letter)
    return found, sign


def is_reduced(kinds: Sequence[str], letters: Sequence[int]) -> bool:
    """Whether a word is reduced. It is a condition on neighbours, and on single letters."""
    for letter, after in zip(letters, letters[1:]):
        if after == -letter or (after == letter and kinds[abs(letter) - 1] != "free"):
            return False
    return all(letter > 0 or kinds[-letter - 1] != "even" for letter in letters)

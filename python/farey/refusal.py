"""The refusals of the engine, as an exception."""

from __future__ import annotations

from contextlib import contextmanager
from typing import Any, Dict, Iterator, Optional

from .causes import cause

#: The sentence of each refusal, with `{place}` for its place. Made by tools/refusals of
#: `rust/farey/refusals.txt`.
SENTENCES: Dict[int, str] = {
    1: "the number of vertices isn't from 1 to 1,023",
    2: "the table has {place} numbers, which isn't 3v + 1",
    3: "vertex entry {place} is out of range: a numerator over 10^9 in size, or a denominator that isn't from 1 "
        "to 10^9",
    4: "side {place} has ends a/b and a'/b' without a'b - ab' = 1",
    5: "no vertex is 0/1",
    6: "the pairing of side {place} isn't allowed, or its label isn't on exactly two sides",
    7: "there is one vertex and no odd side",
    8: "matrix entry {place} is over 1,000,000 in size; 0 to 3 are those of A, 4 to 7 those of B",
    9: "the determinant of matrix {place} isn't 1; 0 is A, 1 is B",
    10: "there is no word: no product of generators and inverses takes A to B",
    11: "a space is too short: it needs {place}, for a drawing in sides, for a line table in lines, each of four "
        "numbers in a sheet; or the entries of a sheet are no pairs of eight, or more than 2,048; or a tower has "
        "more than 64 entries",
    12: "the index isn't from 1 to 3,066, or the tables differ in length",
    13: "entry {place} is no point or is equal to an earlier one; it is one of S, or of R if S has no such fault",
    14: "S twice or R three times moves point {place}",
    15: "point {place} isn't reached from point 0",
    16: "side {place} can't be split: a vertex entry would be over 10^9 in size",
    17: "the level is 2^64 or more",
    18: "the genus formula gives no whole number from 0",
    19: "at byte {place} the text gets too long, has a piece that is no number of 64 signed bits, has a number too"
        " many or ends too early",
    20: "N isn't from 1 to 1,000, or the family isn't Γ0, Γ1 or Γ",
    21: "the index of this group is over 3,066",
    22: "vertex entry {place} is over 33,554,432 in size, which is too large for a drawing",
    23: "number {place} of the two (0 or 1) is no side's free label, or is the other one again",
    24: "the intersection has more than 3,066 points",
    25: "entry {place} of the tower names one that isn't listed before it",
    26: "entry {place} of the tower isn't contained in the one that it names",
    27: "at byte {place} the text gets too long, breaks the form of cycle notation, repeats a point, names one "
        "outside 1 to the index or ends too early",
    28: "entry {place} of the matrix is over 10^18 in size",
}


class Refusal(ValueError):
    """A refusal: its number, its place, and what is wrong in words. A call whose
    arguments have other names than the table's sentence gives a sentence of its own.
    It is a ValueError too, as Python's own functions raise for a value that isn't taken.

    >>> refusal = Refusal(15, 2)
    >>> refusal.number, refusal.place, refusal.sentence
    (15, 2, "point 2 isn't reached from point 0")
    >>> print(refusal)
    refused 15 2: point 2 isn't reached from point 0
    """

    number: int
    place: int

    def __init__(self, number: int, place: int, sentence: Optional[str] = None) -> None:
        super().__init__(number, place)
        self.number = number
        self.place = place
        self._sentence = SENTENCES.get(number) if sentence is None else sentence

    @property
    def sentence(self) -> str:
        """What is wrong, with the place put in."""
        if self._sentence is None:
            return f"refusal {self.number}, place {_told(self.place)}"
        return self._sentence.replace("{place}", _told(self.place))

    def __str__(self) -> str:
        return f"refused {self.number} {_told(self.place)}: {self.sentence}"


@contextmanager
def because(**given: Any) -> Iterator[None]:
    """Within it a refusal says its cause from what was given (`farey.causes`), where that shows
    it, in place of the sentence of its number.

    >>> with because(family="Γ0", N=1001):
    ...     raise Refusal(20, 0)
    Traceback (most recent call last):
    farey.refusal.Refusal: refused 20 0: N is 1001, not from 1 to 1,000
    """
    try:
        yield
    except Refusal as refusal:
        if refusal._sentence == SENTENCES.get(refusal.number):
            refusal._sentence = cause(refusal.number, refusal.place, given) or refusal._sentence
        raise


def _told(place: int) -> str:
    """The place. The length of a word may have more digits than Python writes."""
    return str(place) if place.bit_length() <= 10_000 else f"(about 2^{place.bit_length()})"

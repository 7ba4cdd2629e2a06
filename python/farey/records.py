"""What a symbol answers with: generators, sides, cusps, words, evidence."""

from __future__ import annotations

from typing import Iterable, List, NamedTuple, Optional, Tuple, Union

from .refusal import Refusal


class Generator(NamedTuple):
    """A generator: its kind, 'free', 'even' or 'odd', and its matrix (a, b, c, d)."""

    kind: str
    matrix: Tuple[int, int, int, int]


class Side(NamedTuple):
    """A side of the polygon as it is drawn in the upper half plane: its kind, 'free',
    'even' or 'odd', and the place of a vertical line, or the centre and the radius of
    an arc. What the other has is None."""

    kind: str
    place: Optional[float]
    centre: Optional[float]
    radius: Optional[float]


class Box(NamedTuple):
    """The box of a drawing: it holds every arc's ends and every line's place, and no more."""

    left: float
    right: float
    bottom: float
    top: float


class Preview(NamedTuple):
    """What a symbol would have after an exchange of partners: the number of its cusps,
    their widths, its genus and its level. Where genus or level is refused, with 18
    or 17, that `Refusal` stands in its place."""

    cusps: int
    widths: Tuple[int, ...]
    genus: Union[int, Refusal]
    level: Union[int, Refusal]


class Cusp(NamedTuple):
    """A cusp: its number, from 0, in the order of `widths`, and its width."""

    number: int
    width: int


class Word(List[int]):
    """A word that takes A to B: the list of its letters, and its sign.

    The product of the letters from left to right, times A, is `sign` times B, and
    `sign` is 1 or -1. In PSL2(Z), where a matrix and its negative are one, the
    list is all there is to it, and so a word is equal to a list of the same
    letters, and to another word of the same letters, whatever their signs are;
    in SL2(Z) look at `sign` too. A part or a copy by `list` is a plain list.

    >>> word = Word([2, 1], -1)
    >>> word, word.sign, word == [2, 1]
    ([2, 1], -1, True)
    """

    __slots__ = ("sign",)

    #: 1 or -1.
    sign: int

    def __init__(self, letters: Iterable[int] = (), sign: int = 1) -> None:
        super().__init__(letters)
        self.sign = sign


class Evidence(NamedTuple):
    """What `farey.evidence.check` takes, in its order: `check(*evidence)`."""

    generators: Tuple[Tuple[int, int, int, int], ...]
    S: Tuple[int, ...]
    R: Tuple[int, ...]
    A: Tuple[int, int, int, int]
    B: Tuple[int, int, int, int]

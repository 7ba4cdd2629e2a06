"""Words for matrices of any size.

Each right coset of H has a frame, the matrix of an edge of the polygon's triangles or of
an odd side (docs/CONVENTIONS.md, 7.3 and 7.4). S or Q takes the frame F of a coset to
the frame F' of the next one, up to a generator: F S = ± g F', where g is a generator, an
inverse or the identity. Which one it is stands in a table, made from the exact products.
So a matrix X, as a product of S and Q, is followed from frame to frame, and what is
written on the way is a word for X.

A long run of T or L = (1 0; 1 1) goes round and round a cusp and writes the same letters at each
round. They are kept once, with the number of rounds, so that a word has its length,
its product and its sign before it is written out.

None of this need be believed: before a word is given, its letters are multiplied in whole
numbers, and must be X or -X, and its neighbours must be those of a reduced word. There is
one reduced word for X up to sign, which is proved; so this is the one that the engine
would find.
"""

from __future__ import annotations

from typing import Dict, Iterator, List, NamedTuple, Sequence, Tuple, Union

from .action import Action
from .matrices import I, Q, S, Entries, inverse, negative, power, product, runs, times
from .normal_forms import is_reduced, reduced
from .records import Generator

#: So many rounds at either end of a long run are written out, for what cancels there: two letters at most.
_MARGIN = 4


class Rounds(NamedTuple):
    """The letters of a round, and how many rounds there are."""

    letters: Tuple[int, ...]
    count: int


Part = Union[List[int], Rounds]


def frames(vertices: Sequence[Tuple[int, int]], pairings: Sequence[int]) -> Iterator[Entries]:
    """The frames of all positions, up to sign: three of each triangle, one of each odd side."""
    ends = [(-1, 0), *vertices, (1, 0)]
    place = {vertex: i for i, vertex in enumerate(vertices)}
    whole = [i for i, (_, bottom) in enumerate(vertices) if bottom == 1]
    triangles = [((-1, 0), vertices[k]) for k in whole[1:]]
    waiting = list(zip(whole, whole[1:]))
    while waiting:
        i, k = waiting.pop()
        if k - i > 1:
            (a, b), (c, d) = vertices[i], vertices[k]
            middle = place[a + c, b + d]
            triangles.append((vertices[i], vertices[k]))
            waiting += [(i, middle), (middle, k)]
    for left, right in triangles:
        frame = (right[0], left[0], right[1], left[1])
        yield from (frame, times(frame, Q), times(times(frame, Q), Q))
    for left, right, pairing in zip(ends, ends[1:], pairings):
        if pairing == -3:
            yield right[0], left[0], right[1], left[1]


class Walk:
    """A symbol's cosets with the letters that S and Q write between their frames."""

    def __init__(
        self,
        vertices: Sequence[Tuple[int, int]],
        pairings: Sequence[int],
        generators: Sequence[Generator],
        action: Action,
        R: Sequence[int],
    ) -> None:
        self.generators = generators
        self.kinds = [generator.kind for generator in generators]
        count = range(len(R))
        frame_of = {action.image(0, frame): frame for frame in frames(vertices, pairings)}
        letters: Dict[Entries, int] = {I: 0, negative(I): 0}
        for j, (_, matrix) in enumerate(generators, 1):
            for found, letter in ((matrix, j), (inverse(matrix), -j)):
                letters.setdefault(found, letter)
                letters.setdefault(negative(found), letter)

        def written(x: int, step: Entries, y: int) -> int:
            return letters[times(times(frame_of[x], step), inverse(frame_of[y]))]

        s = action.S
        turn = [s[R[R[s[x]]]] for x in count]
        back = [s[R[s[x]]] for x in count]
        by_s = [written(x, S, s[x]) for x in count]
        by_q = [written(x, Q, turn[x]) for x in count]
        #: The walk starts at the edge from 0 to infinity, or where that is no frame at the same edge turned round.
        self.turned = frame_of[0] not in (I, negative(I))
        self.start = s[0] if self.turned else 0
        # T = Q⁻¹ S, its inverse S Q, and L = Q S: where they lead from each coset, and what they write
        self.steps: Dict[str, List[Tuple[int, List[int]]]] = {
            "T": [(s[back[x]], [-by_q[back[x]], by_s[back[x]]]) for x in count],
            "t": [(turn[s[x]], [by_s[x], by_q[s[x]]]) for x in count],
            "L": [(s[turn[x]], [by_q[x], by_s[turn[x]]]) for x in count],
            "S": [(s[x], [by_s[x]]) for x in count],
        }

    def word(self, X: Entries) -> LongWord:
        """The reduced word of X, which is an element of H up to sign."""
        a, b, c, d = X
        point = self.start
        parts: List[Part] = [[]]
        # at the turned start S⁻¹ X S is followed
        for name, count in runs((d, -c, -b, a) if self.turned else X):
            point = self._follow(parts, point, name if count > 0 else name.lower(), abs(count))
        if point != self.start:
            raise ArithmeticError("a matrix of H doesn't lead back to the start")
        return LongWord(self.generators, self.kinds, parts, X)

    def _follow(self, parts: List[Part], point: int, name: str, count: int) -> int:
        """A run from a point: its letters are put behind the parts, and where it ends is told."""
        steps = self.steps[name]
        once: List[int] = []
        last, place, start = parts[-1], point, 0
        assert isinstance(last, list)
        while start < count:
            place, letters = steps[place]
            once += [letter for letter in letters if letter]
            start += 1
            if place == point:
                break
        rounds, rest = (count // start, count % start) if start else (0, 0)
        if rounds <= 2 * _MARGIN:
            last += once * rounds
        else:
            last += once * _MARGIN
            parts.append(Rounds(tuple(once), rounds - 2 * _MARGIN))
            parts.append(once * _MARGIN)
        if place == point and start:
            last = parts[-1]
            assert isinstance(last, list)
            for _ in range(rest):
                place, letters = steps[place]
                last += [letter for letter in letters if letter]
        return place


class LongWord:
    """A reduced word in parts, with its length and its sign."""

    def __init__(self, generators: Sequence[Generator], kinds: Sequence[str], parts: List[Part], X: Entries) -> None:
        self.parts: List[Part] = [
            part if isinstance(part, Rounds) else reduced(kinds, part)[0] for part in parts
        ]
        edges: List[int] = []
        factors: List[Entries] = []
        by_letter = {j: matrix for j, (_, matrix) in enumerate(generators, 1)}
        by_letter.update({-j: inverse(matrix) for j, (_, matrix) in enumerate(generators, 1)})
        self.length = 0
        for part in self.parts:
            rounds = part.count if isinstance(part, Rounds) else 1
            letters = list(part.letters) if isinstance(part, Rounds) else part
            self.length += rounds * len(letters)
            # the neighbours of two rounds are those of any number of them
            edges += letters * min(rounds, 2)
            factors.append(power(product([by_letter[letter] for letter in letters]), rounds))
        found = product(factors)
        if found not in (X, negative(X)) or not is_reduced(kinds, edges):
            raise ArithmeticError("a word that was found isn't the reduced word of its matrix")
        self.sign = 1 if found == X else -1

    def letters(self) -> List[int]:
        """The word itself."""
        written: List[int] = []
        for part in self.parts:
            written += list(part.letters) * part.count if isinstance(part, Rounds) else part
        return written

"""Words in the generators of H, for matrices with entries of any size."""

from __future__ import annotations

import sys
from ctypes import c_int16, c_int64
from functools import partial
from typing import Any, Iterable, List, Optional, Sequence, Tuple, Union

from . import arguments, library
from .arguments import Matrix, Pair, integer, integers, matrix, shown
from .cosets import Cosets, with_large
from .large import Walk
from .library import Fixed
from .matrices import I, Entries, fits, fits_alone, inverse, product, times, unit
from .normal_forms import reduced
from .random_words import Randrange, draw
from .records import Evidence, Word
from .refusal import Refusal

#: How many letters a query is lent at first; a longer word is asked for again.
_LETTERS = 1024
#: The same for a sheet of pairs.
_SHEET_LETTERS = 16384
#: The engine goes along each T of a word that it writes: a longer word for large entries is
#: written here, where what goes round is copied.
_BY_LETTERS = 16384
#: Where one matrix is given, and not two.
_ABSENT: Any = object()
#: A word with more letters is refused, unless the caller allows it.
MOST_LETTERS = 10_000_000


class Words(Cosets):
    """Words, normal forms, evidence."""

    __slots__ = ()

    def word(self, A: Matrix, B: Matrix = _ABSENT, *, most: int = MOST_LETTERS) -> Optional[Word]:
        """A word in the generators that takes A to B: the product of its letters
        from left to right, times A, is B or -B. Letter j is generator j, -j its
        inverse, and the empty word is the identity. It is a list with a `sign`,
        1 or -1, which tells which of the two: the product is `sign` times B. It
        is the normal form of B A⁻¹: see `normal_form`. With one matrix, `word(M)`, it
        takes the identity to M.

        None means that there is no such word: no product of generators and
        inverses, of any length, takes A to B up to sign. `why_none` gives evidence
        that can be checked without the engine.

        Where A and B have entries up to 1,000,000 in size, or B A⁻¹ has entries up to
        10¹⁸ and its word at most 16,384 letters, the engine is asked, and its answer is
        proved; None is proved in both cases. With larger ones the answer
        is None where A and B lead to two cosets in the engine's tables. A word for them
        is multiplied out in whole numbers, and is given only if it is reduced and its
        product is right: there is no other reduced word for B A⁻¹ up to sign, which is
        proved.

        Refusals 9 (a determinant that isn't 1) and 11: the word has more than `most`
        letters, and the place says how many.

        >>> from farey import Symbol
        >>> gamma0_2 = Symbol([0, 1], [1, -2, 1])
        >>> gamma0_2.word((1, 0, 0, 1), (1, 0, 2, 1)), gamma0_2.word((1, 0, 2, 1))
        ([2, 1], [2, 1])
        >>> gamma0_2.word((-1, 0, 0, -1))
        []
        >>> to_T, to_minus_T = gamma0_2.word((1, 1, 0, 1)), gamma0_2.word((-1, -1, 0, -1))
        >>> to_T, to_T.sign, to_minus_T, to_minus_T.sign
        ([1], 1, [1], -1)
        >>> print(gamma0_2.word((0, -1, 1, 0)))
        None
        >>> print(gamma0_2.word((1, 0, 10**30 + 1, 1)))
        None
        >>> gamma0_2.word((1, 10**30, 0, 1)) # doctest: +ELLIPSIS
        Traceback (most recent call last):
        farey.refusal.Refusal: refused 11 1000000000000000000000000000000: the word has ...
        """
        if B is _ABSENT:
            return self._word(I, unit(matrix(A, "M"), "M"), integer(most, "most"))
        return self._word(unit(matrix(A, "A"), "A"), unit(matrix(B, "B"), "B", 1), integer(most, "most"))

    def _word(self, a: Entries, b: Entries, most: int) -> Optional[Word]:
        between = b if a == I else times(b, inverse(a))
        small = fits(*a, *b)
        if small:
            ask = partial(self._query, a, b)
        elif fits_alone(between):
            ask = partial(self._matrix_query, between)
        else:
            action = self._action()
            if action.image(0, a) != action.image(0, b):
                return None
            return self._large_word(between, most)
        out, sign = (c_int16 * _LETTERS)(), (c_int64 * 1)()
        number, place = ask(out, sign)
        if number == 11:
            if place > most:
                raise _too_long(place, most)
            if not small and place > _BY_LETTERS:
                return self._large_word(between, most)
            out = (c_int16 * place)()
            number, place = ask(out, sign)
        if number == 10:
            return None
        if number != 0:
            raise Refusal(number, place)
        if place > most:
            raise _too_long(place, most)
        return Word(out[:place], sign[0])

    def _large_word(self, between: Entries, most: int) -> Word:
        found = self._walk().word(between)
        if found.length > min(most, sys.maxsize):
            raise _too_long(found.length, min(most, sys.maxsize))
        return Word(found.letters(), found.sign)

    def words(self, pairs: Iterable[Pair]) -> List[Union[Word, None, Refusal]]:
        """The answers of `word` for many pairs (A, B), in their order: for each its
        word, None where there is none, or the `Refusal`, 9 or 11, that `word` would
        raise. The pairs, up to a million at once, go to the engine in sheets of up to
        256, for each of which the symbol is checked and its tables are built once;
        those with entries over 1,000,000 in size are answered as `word` does.

        >>> from farey import Symbol
        >>> gamma0_2, one = Symbol([0, 1], [1, -2, 1]), (1, 0, 0, 1)
        >>> gamma0_2.words([(one, (1, 0, 2, 1)), (one, (0, -1, 1, 0)), (one, (2, 0, 0, 1)), (one, (-1, -1, 0, -1))])
        [[2, 1], None, Refusal(9, 1), [1]]
        """
        entries = arguments.pairs(pairs, "pairs")
        small = [pair for pair in entries if fits(*pair)]
        told: List[Union[Word, None, Refusal]] = []
        for start in range(0, len(small), library.SHEET):
            told += self._sheet(small[start : start + library.SHEET])
        return with_large(entries, told, self.word)

    def normal_form(self, M: Matrix, *, most: int = MOST_LETTERS) -> Optional[Word]:
        """The only reduced word in the generators whose product is M or -M, or None where
        M isn't in H up to sign. No word for M is shorter. It is `word(M)`, with its
        `sign`: the product of the letters is `sign` times M.

        A word is reduced when no generator stands beside its own inverse, an even one
        never follows itself and is never inverted, and no letter of an odd one follows an
        equal one. That each element of H has exactly one such word up to sign, and that it
        is the shortest, is proved. Refusals 9 and 11, as `word`.

        >>> from farey import Symbol
        >>> H = Symbol([0, 1], [1, -2, 1])
        >>> H.normal_form((1, 0, 2, 1)), H.normal_form((-1, -3, 0, -1)), H.normal_form((0, -1, 1, 0))
        ([2, 1], [1, 1, 1], None)
        """
        return self.word(M, most=most)

    def reduce(self, word: Sequence[int]) -> Word:
        """The only reduced word with the product of the given letters up to sign, as
        `normal_form` has it for that product. The product of its letters is its `sign`
        times that of the given ones. That the rule by which letters cancel gives the
        reduced word up to sign is proved; the lines that follow it (`farey.normal_forms`),
        and the sign, are tested. A ValueError where something is no letter.

        >>> from farey import Symbol
        >>> H = Symbol([0, 1], [1, -2, 1])
        >>> H.reduce([1, 2, 2, -1, 1, -2]), H.reduce([2, 2]), H.reduce([2, 2]).sign
        ([1, 2], [], -1)
        """
        kinds = self._kinds()
        letters = integers(word, "word")
        for place, letter in enumerate(letters):
            if not 1 <= abs(letter) <= len(kinds):
                wanted = f"a letter from 1 to {len(kinds)}, or its negative, is wanted"
                raise ValueError(f"word[{place}] is {shown(letter)}, and {wanted}")
        return Word(*reduced(kinds, letters))

    def random_element(self, letters: int = 8, rng: Optional[Randrange] = None) -> Entries:
        """The matrix of a random word: of all reduced words with so many letters each is
        taken with the same chance, and so each element of H, up to sign, whose normal
        form has that length. `rng` is a `random.Random`, or anything else with its
        `randrange`; without it Python's own is asked.

        >>> import random
        >>> from farey import Symbol
        >>> H = Symbol.gamma0(11)
        >>> M = H.random_element(20, random.Random(1))
        >>> M in H, len(H.word(M))
        (True, 20)
        """
        matrices = [generator.matrix for generator in self.generators]
        word = draw(self._kinds(), integer(letters, "letters"), rng)
        return product([matrices[j - 1] if j > 0 else inverse(matrices[-j - 1]) for j in word])

    def why_none(self, A: Matrix, B: Matrix) -> Evidence:
        """Evidence that no word takes A to B, for `farey.evidence.check`: the
        generators, the tables of S and R, A and B. A ValueError where there is a word.

        >>> from farey import Symbol, evidence
        >>> why = Symbol([0, 1], [1, -2, 1]).why_none((1, 0, 0, 1), (0, -1, 1, 0))
        >>> why.S, why.R
        ((1, 0, 2), (2, 0, 1))
        >>> evidence.check(*why)
        True
        """
        a, b = matrix(A, "A"), matrix(B, "B")
        if self.same_coset(a, b):
            raise ValueError("there is a word that takes A to B; word(A, B) gives it")
        return Evidence(tuple(generator.matrix for generator in self.generators), self.S, self.R, a, b)

    def _kinds(self) -> List[str]:
        return [generator.kind for generator in self.generators]

    def _walk(self) -> Walk:
        return self._once("walk", lambda: Walk(self.vertices, self.pairings, self.generators, self._action(), self.R))

    def _query(self, a: Entries, b: Entries, out: Any, sign: Any) -> Tuple[int, int]:
        spaces = [Fixed((c_int64 * 4)(*entries)) for entries in (a, b)]
        return library.answer("farey_signed_query", self._v, self._space, *spaces, library.work(), out, 0, Fixed(sign))

    def _matrix_query(self, m: Entries, out: Any, sign: Any) -> Tuple[int, int]:
        space = Fixed((c_int64 * 4)(*m))
        return library.answer("farey_signed_matrix_word", self._v, self._space, space, library.work(), out, 0, Fixed(sign))

    def _sheet(self, pairs: Sequence[Sequence[int]]) -> List[Union[Word, None, Refusal]]:
        """The answers for a sheet. Where its words have no room, they are asked for
        again in a space that is long enough for all of them."""
        numbers = [entry for pair in pairs for entry in pair]
        entries, lines = (c_int64 * len(numbers))(*numbers), (c_int64 * (4 * len(pairs)))()
        letters = _SHEET_LETTERS
        while True:
            out = (c_int16 * letters)()
            library.call("farey_sheet", self._v, self._space, entries, library.work(), lines, out)
            rows = [lines[i : i + 4] for i in range(0, len(lines), 4)]
            if all(row[0] != 11 for row in rows):
                return [_told(row, out) for row in rows]
            letters = sum(row[2] if row[0] == 0 else row[1] for row in rows if row[0] in (0, 11))


def _told(row: Sequence[int], out: Any) -> Union[Word, None, Refusal]:
    """The answer that a line of a sheet tells, from its four numbers and the word space."""
    number, place, length, sign = row
    if number == 0:
        return Word(out[place : place + length], sign)
    return None if number == 10 else Refusal(number, place)


def _too_long(length: int, most: int) -> Refusal:
    if most == sys.maxsize:
        return Refusal(11, length, "the word has {place} letters, more than a list holds")
    return Refusal(11, length, f"the word has {{place}} letters, more than {most:,}; most=.. allows longer ones")

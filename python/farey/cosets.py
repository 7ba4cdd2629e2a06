"""Right cosets of H: which one a matrix is in, whether two share one, how a matrix moves them.

Python's integers are of any size, and so are the entries of a matrix here.
"""

from __future__ import annotations

from ctypes import c_int64
from typing import Callable, Iterable, List, Sequence, Tuple, TypeVar, Union

from . import arguments, library
from .action import Action
from .arguments import Matrix, Pair, matrix
from .figures import Figures
from .library import Fixed
from .matrices import fits, fits_alone, inverse, times, unit
from .records import Cusp
from .refusal import Refusal

_Answer = TypeVar("_Answer")


class Cosets(Figures):
    """The tables are asked for once, and then followed."""

    __slots__ = ()

    def _action(self) -> Action:
        return self._once("action", lambda: Action(self.S, self.T))

    def coset_of(self, A: Matrix) -> int:
        """The number of the right coset H A. The engine gives the tables, and this method
        follows A in them, by continued fractions; entries may have any size. Refusal 9, as `in`.

        >>> from farey import Symbol
        >>> H = Symbol([0, 1], [1, -2, 1])
        >>> H.coset_of((1, 0, 0, 1)), H.coset_of((0, -1, 1, 0)), H.coset_of((1, 0, 10**50 + 1, 1))
        (0, 1, 2)
        """
        return self._action().image(0, unit(matrix(A, "A"), "A"))

    def cusp_of(self, A: Matrix) -> Cusp:
        """The cusp of H to which A = (a b; c d) sends infinity, the class of a/c under H, with
        its width. Two matrices have the same cusp precisely when some element of H takes
        the one's fraction a/c to the other's. The tables are proved; what is said here of
        fractions, and the lines that follow A in the tables, are tested. Refusal 9, as `in`.

        >>> from farey import Symbol
        >>> H = Symbol.gamma0(11)
        >>> H.cusp_of((1, 0, 0, 1)), H.cusp_of((0, -1, 1, 0))
        (Cusp(number=0, width=1), Cusp(number=1, width=11))
        >>> H.cusp_of((5, -1, 11, -2)), H.cusp_of((1, 0, 7, 1))
        (Cusp(number=0, width=1), Cusp(number=1, width=11))
        """
        number = self.coset_cusps[self.coset_of(A)]
        return Cusp(number, self.widths[number])

    def permutation(self, M: Matrix) -> Tuple[int, ...]:
        """How M moves the right cosets: for each coset H A the number of H A M. `permutation`
        of S, R and T gives the tables of these names, and that of a product M N is M's
        followed by N's. Entries may have any size. Refusal 9, as `in`.

        >>> from farey import Symbol
        >>> H = Symbol([0, 1], [1, -2, 1])
        >>> H.permutation((1, 1, 0, 1)) == H.T, H.permutation((1, 0, 1, 1))
        (True, (2, 1, 0))
        """
        return self._action().permutation(unit(matrix(M, "M"), "M"))

    def __contains__(self, M: Matrix) -> bool:
        """Whether the matrix, up to sign, is in H: whether its coset has the number 0. The
        engine's tables are kept, so that only the first question builds them; that they
        are those of H is proved, and the lines that follow M in them are tested.
        `same_coset` with the identity asks the engine itself. Entries may have any
        size. Refusal 9 where the determinant isn't 1.

        >>> from farey import Symbol
        >>> H = Symbol([0, 1], [1, -2, 1])
        >>> (1, 0, 2, 1) in H, (1, 0, 10**30, 1) in H, (1, 0, 10**30 + 1, 1) in H
        (True, True, False)
        >>> (1, 0, 2, 5) in H
        Traceback (most recent call last):
        farey.refusal.Refusal: refused 9 0: the determinant of M isn't 1
        """
        return self._action().image(0, unit(matrix(M, "M"), "M")) == 0

    def same_coset(self, A: Matrix, B: Matrix) -> bool:
        """Whether A and B share a right coset of H: True exactly where `word` would give
        a word, False where it would give None. No word is made, and long runs of T
        cost no more than short ones. The engine is asked where A and B have entries up to
        1,000,000 in size, or B A⁻¹ has entries up to 10¹⁸, and its answer is proved; larger
        ones are followed in its tables, as `coset_of` does. Refusal 9.

        >>> from farey import Symbol
        >>> gamma0_2 = Symbol([0, 1], [1, -2, 1])
        >>> one = (1, 0, 0, 1)
        >>> gamma0_2.same_coset(one, (1, 123456, 0, 1)), gamma0_2.same_coset(one, (1, 0, 123457, 1))
        (True, False)
        """
        a, b = unit(matrix(A, "A"), "A"), unit(matrix(B, "B"), "B", 1)
        if fits(*a, *b):
            spaces = [Fixed((c_int64 * 4)(*entries)) for entries in (a, b)]
            return library.call("farey_same_coset", self._v, self._space, *spaces, library.work()) == 1
        between = times(b, inverse(a))
        if fits_alone(between):
            space = Fixed((c_int64 * 4)(*between))
            return library.call("farey_contains_matrix", self._v, self._space, space, library.work()) == 1
        action = self._action()
        return action.image(0, a) == action.image(0, b)

    def same_cosets(self, pairs: Iterable[Pair]) -> List[Union[bool, Refusal]]:
        """The answers of `same_coset` for many pairs (A, B), up to a million at once, in
        their order: for each True or False, or the `Refusal`, 9, that `same_coset`
        would raise. Those with entries up to 1,000,000 in size go to the engine in one
        call, which checks the symbol and builds its tables once.

        >>> from farey import Symbol
        >>> gamma0_2, one = Symbol([0, 1], [1, -2, 1]), (1, 0, 0, 1)
        >>> gamma0_2.same_cosets([(one, (1, 0, 2, 1)), (one, (0, -1, 1, 0)), (one, (2, 0, 0, 1))])
        [True, False, Refusal(9, 1)]
        """
        entries = arguments.pairs(pairs, "pairs")
        small = [pair for pair in entries if fits(*pair)]
        numbers = [entry for pair in small for entry in pair]
        spaces = (c_int64 * len(numbers))(*numbers), (c_int64 * (2 * len(small)))()
        library.call("farey_same_cosets", self._v, self._space, spaces[0], library.work(), spaces[1])
        lines = spaces[1][:]
        told: List[Union[bool, Refusal]] = [
            place == 1 if number == 0 else Refusal(number, place) for number, place in zip(lines[::2], lines[1::2])
        ]
        return with_large(entries, told, self.same_coset)


def with_large(
    pairs: Sequence[Tuple[int, ...]],
    told: List[Union[_Answer, Refusal]],
    ask: Callable[[Tuple[int, ...], Tuple[int, ...]], _Answer],
) -> List[Union[_Answer, Refusal]]:
    """The answers for all pairs, in their order, from those for the pairs that the engine takes:
    each of the others is asked for by itself, and a refusal stands in its place."""
    if len(told) == len(pairs):
        return told
    answers, found = iter(told), []
    for pair in pairs:
        if fits(*pair):
            found.append(next(answers))
            continue
        try:
            found.append(ask(pair[:4], pair[4:]))
        except Refusal as refusal:
            found.append(refusal)
    return found

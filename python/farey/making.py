"""Where symbols come from: permutations, cycle notation, names, texts, a test for membership.

Where a rule is to be chosen, "wide" is the default: of the open sides it splits the one that has
been open longest, and the entries of vertices and generators stay small. By "leftmost" it
is the leftmost open side, as in Kurth and Long; entries grow, and large groups are
often refused with 16. Both make a symbol of the same group.
"""

from __future__ import annotations

import re
from ctypes import c_int64
from typing import Any, List, Optional, Sequence, Type, TypeVar, Union

from . import library
from .arguments import integer, integers, shown
from .cycle_notation import read_cycles
from .held import HIGH, LOW
from .membership import Test, ask_again, tables_of
from .named import FAMILIES, GROUPS, level
from .permutations import points, with_r
from .refusal import Refusal, because
from .words import Words

_Own = TypeVar("_Own", bound="Making")


def rule_of(rule: Any, wide: Any = None) -> bool:
    """Whether the wide rule is meant. `wide` is the older keyword: True or False."""
    if wide is not None and not isinstance(wide, bool):
        raise TypeError(f"wide is {shown(wide)}, and True or False is wanted")
    if not isinstance(rule, str):
        raise TypeError(f"rule is {shown(rule)}, and 'wide' or 'leftmost' is wanted")
    if rule not in ("wide", "leftmost"):
        raise ValueError(f"rule is {shown(rule)}, and 'wide' or 'leftmost' is wanted")
    if wide is not None and rule == "leftmost" and wide:
        raise ValueError("wide is True and rule is 'leftmost', and only one of the two can be meant")
    return rule == "wide" if wide is None else wide


class Making(Words):
    """The class methods of `Symbol`."""

    __slots__ = ()

    @classmethod
    def from_permutations(
        cls: Type[_Own],
        S: Sequence[int],
        R: Optional[Sequence[int]] = None,
        wide: Optional[bool] = None,
        *,
        T: Optional[Sequence[int]] = None,
        rule: str = "wide",
    ) -> _Own:
        """The symbol of the matrices that fix point 0, from the images of the
        points 0, 1, 2, .. under S = (0 -1; 1 0) and R = (0 -1; 1 1), or under S and
        T = (1 1; 0 1), which is S and then R. With all three T is compared.

        `rule` is "wide" or "leftmost"; `wide=True` and `wide=False` say the same. Both
        rules make symbols of one group, with (index - e3)/3 + 1 vertices each.
        Refusals 12 to 16.

        >>> from farey import Symbol
        >>> Symbol.from_permutations([1, 0, 2], [2, 0, 1])
        Symbol([(0, 1), (1, 1)], [1, -2, 1])
        >>> Symbol.from_permutations(S=[1, 0, 2], T=[0, 2, 1])
        Symbol([(0, 1), (1, 1)], [1, -2, 1])
        """
        is_wide = rule_of(rule, wide)
        if R is None and T is None:
            raise TypeError("R is None, and R or T is wanted beside S")
        s, r = integers(S, "S"), integers(with_r(S, R, T), "R")
        with because(S=s, R=r, rule="wide" if is_wide else "leftmost"):
            return cls._from_call(
                "farey_import_wide" if is_wide else "farey_import", points(s, "S"), points(r, "R")
            )

    @classmethod
    def from_cycles(
        cls: Type[_Own], text: Union[str, bytes], *, wide: Optional[bool] = None, rule: str = "wide"
    ) -> _Own:
        """The symbol of the matrices that fix point 1 of a text in cycle notation, the
        index and then S and R: that of `from_permutations` for the tables of
        `farey.read_cycles`. Refusals 27, 12, 14 to 16.

        >>> from farey import Symbol
        >>> Symbol.from_cycles("3 (1,2) (1,3,2)")
        Symbol([(0, 1), (1, 1)], [1, -2, 1])
        """
        rule_of(rule, wide)
        S, R = read_cycles(text)
        return cls.from_permutations(S, R, wide, rule=rule)

    @classmethod
    def from_membership(cls: Type[_Own], test: Test, *, most: int = 3066, rule: str = "wide") -> _Own:
        """The symbol of the subgroup whose matrices pass a test. `test(M)` is asked of
        matrices (a, b, c, d) of determinant 1, and is to say whether M is in the group. M
        counts up to sign: it is in where the test passes M or -M. (Source: the tests
        of Kurth and Long, 5.1, and of PARI.)

        Cosets are told apart by tests of A B⁻¹, and the images of each under S and R make two
        tables, with at most `most` points; more are refused with 12. What is proved
        is the symbol for these tables. That they are those of the test rests on the test
        being that of a subgroup, which no finite number of questions can show. What is
        looked at: the tables pass 12 to 15; every generator of the symbol passes the
        test, and some products of them; some matrices outside H don't. A ValueError says
        which one does otherwise. Refusal 16, as `from_permutations`.

        >>> from farey import Symbol
        >>> H = Symbol.from_membership(lambda M: M[2] % 11 == 0)
        >>> H == Symbol.gamma0(11)
        True
        >>> Symbol.from_membership(lambda M: M[1] % 2 == M[2] % 2 == 0).index
        6
        """
        rule_of(rule)
        S, R = tables_of(test, integer(most, "most"))
        made = cls.from_permutations(S, R, rule=rule)
        ask_again(made, test)
        return made

    @classmethod
    def gamma0(cls: Type[_Own], N: int, *, rule: str = "wide") -> _Own:
        """A symbol of Γ0(N), the matrices (a b; c d) with c = 0 modulo N, for N from 1
        to 1,000: the one that `from_permutations` makes of the group's tables by that
        rule. Refusals 20 (N out of range) and 21 (an index over 3,066). By the wide rule
        no group within the limits is refused with 16, in the tests; by the leftmost most are.

        >>> from farey import Symbol
        >>> Symbol.gamma0(11)
        Symbol([(0, 1), (1, 3), (1, 2), (2, 3), (1, 1)], [1, 2, 3, 2, 3, 1])
        >>> Symbol.gamma0(11, rule="leftmost")
        Symbol([(0, 1), (1, 4), (1, 3), (1, 2), (1, 1)], [1, 2, 3, 2, 3, 1])
        >>> Symbol.gamma0(1001)
        Traceback (most recent call last):
        farey.refusal.Refusal: refused 20 0: N is 1001, not from 1 to 1,000
        """
        return cls._named("gamma0", N, rule)

    @classmethod
    def gamma1(cls: Type[_Own], N: int, *, rule: str = "wide") -> _Own:
        """A symbol of Γ1(N) with -1: c = 0 modulo N, and a and d are both 1 or both
        -1. By which rule, and what is refused: as `gamma0`.

        >>> from farey import Symbol
        >>> H = Symbol.gamma1(7)
        >>> H.index, (8, 1, 7, 1) in H, (2, 1, 7, 4) in H
        (24, True, False)
        """
        return cls._named("gamma1", N, rule)

    @classmethod
    def gamma(cls: Type[_Own], N: int, *, rule: str = "wide") -> _Own:
        """A symbol of Γ(N) with -1: the matrices that are the identity or its negative
        modulo N. By which rule, and what is refused: as `gamma0`.

        >>> from farey import Symbol
        >>> H = Symbol.gamma(5)
        >>> H.index, H.genus, H.widths == (5,) * 12
        (60, 0, True)
        """
        return cls._named("gamma", N, rule)

    @classmethod
    def _named(cls: Type[_Own], family: str, N: int, rule: str) -> _Own:
        is_wide = rule_of(rule)
        name = "farey_named_symbol_wide" if is_wide else "farey_named_symbol"
        with because(family=GROUPS[family], N=integer(N, "N"), rule="wide" if is_wide else "leftmost"):
            return cls._from_call(name, FAMILIES[family], level(N))

    @classmethod
    def _from_call(cls: Type[_Own], name: str, *given: Any) -> _Own:
        """The symbol that a call makes, behind a work space and a result space."""
        out = (c_int64 * library.TABLE)()
        v = library.call(name, *given, library.work(), out)
        return cls._of(v, out[: 3 * v + 1])

    @classmethod
    def parse(cls: Type[_Own], text: str) -> _Own:
        """The symbol in a text as `./farey listing` reads it, and as `text` writes it: v,
        then the vertices as numerator and denominator, then the pairings. Refusals 19,
        then 1 to 7.

        >>> from farey import Symbol
        >>> Symbol.parse("2  0 1 1 1  1 -2 1").widths
        (1, 2)
        >>> Symbol.parse("2  0 1 1 1  1 -2") # doctest: +ELLIPSIS
        Traceback (most recent call last):
        farey.refusal.Refusal: refused 19 16: the text ends too early, after 7 numbers: it should be v, ...
        """
        if not isinstance(text, str):
            raise TypeError(f"text is {shown(text)}, and a string is wanted")
        given = text.encode("utf-8", "surrogatepass")
        with because(text=given, wants="v, the vertices and the pairings"):
            numbers = _numbers_of(given)
        return cls._of(numbers[0], numbers[1:])


def _numbers_of(text: bytes) -> List[int]:
    """The numbers of a symbol's text, v first, by docs/CONVENTIONS.md, 10.1 to 10.3."""
    if len(text) > 65536:
        raise Refusal(19, 65536)
    pieces = list(re.finditer(rb"[^ \n\r]+", text))
    numbers = []
    for piece in pieces:
        number = re.fullmatch(rb"(-?)0*([0-9]{1,19})", piece[0])
        value = int(number[1] + number[2]) if number else HIGH + 1
        if not LOW <= value <= HIGH:
            raise Refusal(19, piece.start())
        numbers.append(value)
    if numbers and not 1 <= numbers[0] <= 1023:
        raise Refusal(1, 0)
    wanted = 3 * numbers[0] + 2 if numbers else 1
    if len(numbers) < wanted:
        raise Refusal(19, len(text))
    if len(numbers) > wanted:
        raise Refusal(19, pieces[wanted].start())
    return numbers

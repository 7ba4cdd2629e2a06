"""What a symbol holds: its numbers as the engine takes them, and every answer that was once given.

A symbol never changes, so what was answered stays true. There is no lock: two
threads that ask the same at once may both ask the engine, and keep one answer.
"""

from __future__ import annotations

from ctypes import c_int64
from typing import Any, Callable, Dict, NamedTuple, Sequence, Tuple, TypeVar

from . import library
from .refusal import because

LOW, HIGH = -(2**63), 2**63 - 1

_Answer = TypeVar("_Answer")
_Own = TypeVar("_Own", bound="Held")


class Made(NamedTuple):
    """What a symbol is made of: v, its numbers, the same as the engine takes them,
    and what was answered so far."""

    v: int
    numbers: Tuple[int, ...]
    space: Any
    found: Dict[str, Any]


class Held:
    """The part of `Symbol` that holds it."""

    __slots__ = ("_kept",)

    #: Empty until the symbol is made, and then for ever what it is made of.
    _kept: Dict[str, Made]

    def __new__(cls, *arguments: Any, **named: Any) -> Any:
        made = super().__new__(cls)
        made._kept = {}
        return made

    @classmethod
    def _of(cls, v: int, numbers: Sequence[int]) -> Any:
        """The symbol with v vertices and these numbers, if the engine accepts them."""
        made = cls.__new__(cls)
        made._accept(v, numbers)
        return made

    def _accept(self, v: int, numbers: Sequence[int]) -> None:
        space = (c_int64 * len(numbers))(*numbers)
        with because(v=v, table=numbers):
            library.call("farey_check", v, space)
        made = Made(v, tuple(numbers), space, {})
        # one step: of two threads, or a signal handler and what it interrupts, one makes the symbol
        if self._kept.setdefault("made", made) is not made:
            raise TypeError("this symbol is made already, and a symbol never changes")

    @property
    def _made(self) -> Made:
        try:
            return self._kept["made"]
        except (AttributeError, KeyError):
            raise TypeError(
                "this Symbol was never made: Symbol(vertices, pairings) or one of its class methods makes one"
            ) from None

    @property
    def _v(self) -> int:
        return self._made.v

    @property
    def _numbers(self) -> Tuple[int, ...]:
        return self._made.numbers

    @property
    def _space(self) -> Any:
        return self._made.space

    def _once(self, name: str, ask: Callable[[], _Answer]) -> _Answer:
        """What was answered before, or is asked for now."""
        found = self._made.found
        try:
            answer: _Answer = found[name]
        except KeyError:
            answer = found.setdefault(name, ask())
        return answer

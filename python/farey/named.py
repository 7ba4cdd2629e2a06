"""Congruence groups by name: a family and an N from 1 to 1,000.

A matrix (a b; c d) of determinant 1 is in the group where, modulo N,

| family   | group | condition                                     |
|----------|-------|-----------------------------------------------|
| "gamma0" | Γ0(N) | c is 0                                        |
| "gamma1" | Γ1(N) | c is 0, and a and d are both 1 or both -1     |
| "gamma"  | Γ(N)  | the matrix is the identity or its negative    |
"""

from __future__ import annotations

from ctypes import c_uint32
from typing import Dict, Tuple

from . import library
from .arguments import clamped, integer, shown
from .refusal import because

#: The number of each family in the calls of the library.
FAMILIES: Dict[str, int] = {"gamma0": 0, "gamma1": 1, "gamma": 2}

#: The group of each family.
GROUPS: Dict[str, str] = {"gamma0": "Γ0", "gamma1": "Γ1", "gamma": "Γ"}


def named_tables(family: str, N: int) -> Tuple[Tuple[int, ...], Tuple[int, ...]]:
    """For each right coset of a named group its image under S = (0 -1; 1 0), and
    that under R = (0 -1; 1 1): two tables, numbered as those of a symbol. A matrix
    fixes point 0 exactly when it meets the condition of its family.

    Refusals 20 (N isn't from 1 to 1,000) and 21 (the index is over 3,066).

    >>> named_tables("gamma0", 2)
    ((1, 0, 2), (2, 0, 1))
    >>> named_tables("gamma", 19)
    Traceback (most recent call last):
    farey.refusal.Refusal: refused 21 0: Γ(19) has index 3420, over 3,066
    """
    if not isinstance(family, str):
        raise TypeError(f"family is {shown(family)}, and 'gamma0', 'gamma1' or 'gamma' is wanted")
    if family not in FAMILIES:
        raise ValueError(f"family is {shown(family)}, and 'gamma0', 'gamma1' or 'gamma' is wanted")
    spaces = [(c_uint32 * library.NAMED)() for _ in range(2)]
    with because(family=GROUPS[family], N=integer(N, "N")):
        index = library.call("farey_named_tables", FAMILIES[family], level(N), library.work(), *spaces)
    return tuple(spaces[0][:index]), tuple(spaces[1][:index])


def level(N: int) -> int:
    """N as the library takes it, and 0 for one that is too large for it or negative: that is out of range too."""
    return clamped([integer(N, "N")], 0, 2**64 - 1, 0)[0]

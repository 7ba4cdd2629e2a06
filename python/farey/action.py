"""How matrices move the right cosets, by the tables that the engine gives.

A matrix is a product of powers of T and of S, up to sign, and a power of T is one
step along its cycle, however large it is. The tables are proved; these lines, which
follow them, are tested.
"""

from __future__ import annotations

from typing import Dict, List, Sequence, Tuple

from .matrices import Entries, quotients


class Action:
    """The tables of S and T, with the cycle of T through each point."""

    __slots__ = ("S", "cycles", "places")

    def __init__(self, S: Sequence[int], T: Sequence[int]) -> None:
        self.S = S
        self.cycles: List[Tuple[int, ...]] = [()] * len(T)
        self.places = [0] * len(T)
        for start in range(len(T)):
            if not self.cycles[start]:
                cycle = [start]
                while T[cycle[-1]] != start:
                    cycle.append(T[cycle[-1]])
                whole = tuple(cycle)
                for place, point in enumerate(whole):
                    self.cycles[point], self.places[point] = whole, place

    def power(self, point: int, n: int) -> int:
        """Where T^n leads."""
        cycle = self.cycles[point]
        return cycle[(self.places[point] + n) % len(cycle)]

    def image(self, point: int, M: Entries) -> int:
        """Where M leads, the left factor first."""
        for q, turns in quotients(M):
            point = self.power(point, q)
            if turns:
                point = self.S[point]
        return point

    def permutation(self, M: Entries) -> Tuple[int, ...]:
        """Where M leads from each point."""
        points = range(len(self.S))
        found = list(points)
        # small quotients come again and again
        steps: Dict[Tuple[int, bool], List[int]] = {}
        for q, turns in quotients(M):
            step = steps.get((q, turns))
            if step is None:
                step = [self.power(point, q) for point in points]
                step = [self.S[point] for point in step] if turns else step
                if abs(q) < 100:
                    steps[q, turns] = step
            found = [step[point] for point in found]
        return tuple(found)

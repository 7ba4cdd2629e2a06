"""The cause of a refusal in one sentence, from what was given.

`cause(number, place, given)` is for callers that know what they passed; it has
no side effects, imports nothing of this package and never raises: where what was
given doesn't show the cause, the answer is `None`, and the sentence of the number
stands. `given` may have:

| key                | what it is                                                     |
|--------------------|----------------------------------------------------------------|
| `v`, `table`       | a symbol: v, and the 3v + 1 numbers                            |
| `second`           | the second symbol of two, as (v, table)                        |
| `A`, `B`           | two matrices, four numbers each                                |
| `S`, `R`           | two permutations, points from 0                                |
| `family`, `N`      | a named group: Γ0, Γ1 or Γ, and N                              |
| `labels`           | two labels                                                     |
| `entries`          | a tower: pairs of a named entry, or -1, and (v, table)         |
| `text`, `wants`    | the bytes that were read, and what they should be              |
| `rule`             | `leftmost` or `wide`                                           |

>>> cause(20, 0, {"family": "Γ0", "N": 1001})
'N is 1001, not from 1 to 1,000'
>>> cause(13, 3, {"S": [1, 0, 2, 4], "R": [0, 1, 2, 3]})
'entry 3 of S is 4: points count from 0, so they go up to 3'
>>> cause(4, 1, {"v": 2, "table": [0, 1, 2, 1, 1, -2, 1]})
"side 1 joins 0/1 and 2/1: a'b - ab' is 2 there, and not 1"

`./farey` says these sentences of its refusals (`tools/cli/explain.py`).
"""

from __future__ import annotations

import re
from typing import Any, Mapping, Optional, Sequence, Tuple

#: A symbol: v, and the table.
Given = Tuple[int, Sequence[int]]
Fault = Optional[Tuple[int, int]]

MOST_VERTICES, MOST_POINTS, MOST_ENTRY, MOST_DRAWN, MOST_MATRIX, MOST_TEXT = 1023, 3066, 10**9, 33554432, 10**6, 65536
_PIECE = re.compile(rb"[^ \n\r]+")
_NUMBER = re.compile(rb"-?[0-9]+\Z")
_REFUSED = re.compile(rb"refused [0-9]+ [0-9]+(?:\n|\Z)")
_FORM = "the text should be as in 3 (1,2);(1,3,2)"


def with_commas(number: int) -> str:
    """A number with commas; of one with very many digits only how many they are."""
    if abs(number) >= 10**30:
        return f"a number of {len(str(abs(number))) if abs(number) < 10**4000 else 'very many'} digits"
    return f"{number:,}" if abs(number) >= 10000 else str(number)


def fault(v: int, table: Sequence[int]) -> Fault:
    """The first fault of a symbol, as number and place, by document 01's order; `None` where it has none."""
    if not 1 <= v <= MOST_VERTICES:
        return 1, 0
    if len(table) != 3 * v + 1:
        return 2, len(table)
    for place, entry in enumerate(table[: 2 * v]):
        low = 1 if place % 2 else -MOST_ENTRY
        if not low <= entry <= MOST_ENTRY:
            return 3, place
    for side in range(v + 1):
        if _neighbours(v, table, side)[2] != 1:
            return 4, side
    if not any(table[2 * i : 2 * i + 2] == [0, 1] or tuple(table[2 * i : 2 * i + 2]) == (0, 1) for i in range(v)):
        return 5, 0
    pairings = list(table[2 * v :])
    for side, pairing in enumerate(pairings):
        if pairing not in (-2, -3) and (not 1 <= pairing <= v + 1 or pairings.count(pairing) != 2):
            return 6, side
    if v == 1 and -3 not in pairings:
        return 7, 0
    return None


def _neighbours(v: int, table: Sequence[int], side: int) -> Tuple[str, str, int]:
    """The two ends of a side, and a'b - ab'."""
    a, b = (-1, 0) if side == 0 else table[2 * side - 2 : 2 * side]
    c, d = (1, 0) if side == v else table[2 * side : 2 * side + 2]
    return f"{a}/{b}", f"{c}/{d}", c * b - a * d


def _symbol(number: int, place: int, v: int, table: Sequence[int]) -> Optional[str]:
    if fault(v, table) != (number, place):
        return None
    if number == 1:
        return f"v is {with_commas(v)}, not from 1 to 1,023"
    if number == 2:
        return f"the table has {place} numbers, and v = {v} asks for {3 * v + 1}"
    if number == 3:
        part = f"the {'denominator' if place % 2 else 'numerator'} of vertex {place // 2}"
        size = "not from 1 to 1,000,000,000" if place % 2 else "over 1,000,000,000 in size"
        return f"vertex entry {place}, {part} counted from 0, is {with_commas(table[place])}, {size}"
    if number == 4:
        left, right, value = _neighbours(v, table, place)
        return f"side {place} joins {left} and {right}: a'b - ab' is {with_commas(value)} there, and not 1"
    if number == 5:
        return "no vertex is 0/1"
    if number == 7:
        return f"there is one vertex, with pairings {table[2]} and {table[3]}, and one of the two must be odd (-3)"
    pairing, pairings = table[2 * v + place], list(table[2 * v :])
    if not 1 <= pairing <= v + 1:
        return f"side {place} has pairing {with_commas(pairing)}, and allowed are -2, -3 and labels from 1 to {v + 1}"
    count = pairings.count(pairing)
    return f"label {pairing}, of side {place}, is on {count} side{'' if count == 1 else 's'}, and not on two"


def _of_two(number: int, place: int, first: Given, second: Optional[Given]) -> Optional[str]:
    if second is None or fault(*first) is not None:
        said = _symbol(number, place, *first)
        return said if said is None or second is None else f"in the first symbol {said}"
    said = _symbol(number, place, *second)
    return None if said is None else f"in the second symbol {said}"


def _first_fault(table: Sequence[int], points: int) -> Optional[int]:
    """The first entry that is no point or equal to an earlier one."""
    seen = set()
    for place, entry in enumerate(table):
        if not 0 <= entry < points or entry in seen:
            return place
        seen.add(entry)
    return None


def _permutations(number: int, place: int, S: Sequence[int], R: Sequence[int]) -> Optional[str]:
    n = len(S)
    if number == 12:
        if n != len(R):
            return f"S has {n} entries and R has {len(R)}"
        return None if 1 <= n <= MOST_POINTS else f"the index is {with_commas(n)}, not from 1 to 3,066"
    if n != len(R):
        return None
    if number == 13:
        for name, table in (("S", S), ("R", R)):
            if _first_fault(table, n) == place:
                entry = table[place]
                if entry in table[:place]:
                    return f"entry {place} of {name} is {entry}, as entry {list(table).index(entry)} is"
                return f"entry {place} of {name} is {with_commas(entry)}: points count from 0, so they go up to {n - 1}"
            if _first_fault(table, n) is not None:
                return None
        return None
    if _first_fault(S, n) is not None or _first_fault(R, n) is not None:
        return None
    if number == 14 and place < n:
        if S[S[place]] != place:
            return f"S takes {place} to {S[place]} and {S[place]} to {S[S[place]]}: S twice must fix each point"
        a, b = R[place], R[R[place]]
        return f"R takes {place} to {a}, {a} to {b} and {b} to {R[b]}: R three times must fix each point"
    if number == 15 and place < n:
        return f"no product of S and R takes point 0 to point {place}: S and R must connect all points"
    return None


def _matrices(number: int, place: int, A: Sequence[int], B: Sequence[int]) -> Optional[str]:
    if number == 8 and place < 8:
        entry = [*A, *B][place]
        return f"entry {place % 4} of {'AB'[place // 4]} is {with_commas(entry)}, over 1,000,000 in size"
    if number == 9 and place < 2:
        a, b, c, d = (A, B)[place]
        return f"{'AB'[place]} is ({a} {b}; {c} {d}), whose determinant is {with_commas(a * d - b * c)}, and not 1"
    return None


def index_of(family: str, N: int) -> int:
    """The index in PSL2(Z) of Γ0(N), Γ1(N) or Γ(N), the last two with their negatives."""
    primes = [p for p in range(2, N + 1) if N % p == 0 and all(p % q for q in range(2, p))]
    gamma0, gamma1 = N, N * N
    for p in primes:
        gamma0 = gamma0 // p * (p + 1)
        gamma1 = gamma1 // (p * p) * (p * p - 1)
    halved = 1 if N <= 2 else 2
    return {"Γ0": gamma0, "Γ1": gamma1 // halved, "Γ": N * gamma1 // halved}[family]


def _named(number: int, family: str, N: int) -> Optional[str]:
    if number == 20 and not 1 <= N <= 1000:
        return f"N is {N if abs(N) < 10**18 else with_commas(N)}, not from 1 to 1,000"
    if number == 21 and 1 <= N <= 1000 and family in ("Γ0", "Γ1", "Γ"):
        return f"{family}({N}) has index {with_commas(index_of(family, N))}, over 3,066"
    return None


def _labels(place: int, v: int, table: Sequence[int], labels: Sequence[int]) -> Optional[str]:
    if place > 1 or len(labels) != 2 or fault(v, table) is not None:
        return None
    if labels[place] < 1 or labels[place] not in table[2 * v :]:
        return f"{with_commas(labels[place])} is no side's free label"
    return f"label {labels[0]} is named twice" if labels[0] == labels[1] else None


def _tower(number: int, place: int, entries: Sequence[Tuple[int, Given]]) -> Optional[str]:
    if number == 25 and place < len(entries):
        return f"entry {place} names entry {with_commas(entries[place][0])}, which isn't listed before it"
    if number == 26 and place < len(entries):
        return f"entry {place} isn't contained in entry {entries[place][0]}, which it names"
    for entry, (_, symbol) in enumerate(entries):
        if fault(*symbol) is not None:
            said = _symbol(number, place, *symbol)
            return None if said is None else f"in entry {entry} {said}"
    return None


def shown(piece: bytes) -> str:
    """A piece of a text for a sentence: unusual bytes written out, and cut where it is long."""
    text = piece[:24].decode("ascii", "backslashreplace").encode("unicode_escape").decode("ascii")
    return f"'{text}{'..' if len(piece) > 24 else ''}'"


def _where(place: int, text: bytes) -> str:
    line = text.count(b"\n", 0, place) + 1
    return f"byte {place}" if line == 1 else f"byte {place}, in line {line},"


def _text(place: int, text: bytes, wants: str) -> Optional[str]:
    """Refusal 19."""
    if len(text) > MOST_TEXT and place == MOST_TEXT:
        return "the text has more than 65,536 bytes"
    if not text:
        return "the text is empty"
    found = _PIECE.match(text, place)
    if found is None:
        count = len(_PIECE.findall(text))
        ended = f"the text ends too early, after {count} number{'' if count == 1 else 's'}"
        return f"{ended}: it should be {wants}" if wants else ended
    piece = found[0]
    if _NUMBER.match(piece):
        if -(2**63) <= int(piece[:40]) < 2**63 and len(piece) < 40:
            extra = f"{shown(piece)} at {_where(place, text)} is a number too many"
            return f"{extra}: the text should be {wants}" if wants else extra
        return f"{shown(piece)} at {_where(place, text)} is no number of 64 signed bits"
    why = ""
    if _REFUSED.match(text, place):
        why = ": this is the refusal of an earlier program, and no numbers"
    elif b"," in piece or b"\t" in piece:
        why = ": numbers are split by spaces and line ends"
    elif re.match(rb"-?[0-9]+/[0-9]+\Z", piece):
        why = ": numerator and denominator are two numbers"
    elif piece.startswith(b"+"):
        why = ": a plus isn't written"
    return f"{shown(piece)} at {_where(place, text)} is no whole number{why}"


def _notation(place: int, text: bytes) -> Optional[str]:
    """Refusal 27."""
    if len(text) > MOST_TEXT and place == MOST_TEXT:
        return "the text has more than 65,536 bytes"
    if not text:
        return "the text is empty"
    if place >= len(text):
        return "the text ends too early: it should be the index, S and R, as in 3 (1,2);(1,3,2)"
    found = re.compile(rb"[0-9]+").match(text, place)
    index = re.match(rb" *([0-9]+)", text)
    if found is None:
        return f"{shown(text[place:place + 1])} at byte {place} can't stand there: {_FORM}"
    if index is not None and place > index.start(1):
        point, points = found[0].lstrip(b"0") or b"0", index[1].lstrip(b"0")
        if point == b"0" or len(point) > len(points) or (len(point) == len(points) and point > points):
            return f"{shown(found[0])} at byte {place} is no point: points go from 1 to {points.decode('ascii')}"
        permutation = text[max(text.rfind(b";", 0, place) + 1, index.end()) : place]
        if text.rfind(b";", 0, place) < 0 and permutation.count(b"(") > 1 and b";" not in text[place:]:
            permutation = permutation[permutation.rfind(b"(") :]
        if point in (each.lstrip(b"0") for each in re.findall(rb"[0-9]+", permutation)):
            return f"point {point.decode('ascii')} at byte {place} was named before in this permutation"
    return f"{shown(found[0])} at byte {place} can't stand there: {_FORM}"


def _cause(number: int, place: int, given: Mapping[str, Any]) -> Optional[str]:
    if number == 19 and "text" in given:
        return _text(place, given["text"], given.get("wants", ""))
    if number == 27 and "text" in given:
        return _notation(place, given["text"])
    if number in (20, 21) and "N" in given:
        return _named(number, given.get("family", ""), given["N"])
    if number in (8, 9) and "A" in given and "B" in given:
        return _matrices(number, place, given["A"], given["B"])
    if number == 12 and "index" in given:
        return f"the index is {with_commas(given['index'])}, not from 1 to 3,066"
    if 12 <= number <= 15 and "S" in given and "R" in given:
        return _permutations(number, place, given["S"], given["R"])
    if number in (1, 2, 3, 4, 5, 6, 7, 25, 26) and "entries" in given:
        return _tower(number, place, given["entries"])
    if number == 16 and given.get("rule") == "leftmost":
        over = f"side {place} can't be split: an entry would be over 10^9 in size"
        return f"{over}; the wide rule mostly keeps them small"
    if "table" in given and "v" in given:
        if 1 <= number <= 7:
            return _of_two(number, place, (given["v"], given["table"]), given.get("second"))
        if number == 22 and place < 2 * given["v"]:
            entry = with_commas(given["table"][place])
            return f"vertex entry {place} is {entry}, over 33,554,432 in size, too large for a drawing"
        if number == 23 and "labels" in given:
            return _labels(place, given["v"], given["table"], given["labels"])
    return None


def cause(number: int, place: int, given: Mapping[str, Any]) -> Optional[str]:
    """The cause of this refusal, or `None` where what was given doesn't show it."""
    try:
        return _cause(number, place, given)
    except (ArithmeticError, AttributeError, LookupError, TypeError, ValueError):
        return None

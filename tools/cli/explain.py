"""What `./farey` says of the refusals in an answer: the cause of each from the text that was read.

`python3 explain.py SENTENCES WORD TEXT [N]` reads the answer of that word to the file TEXT from standard input and
writes a line for each refusal in it. Where the text doesn't show the cause, the line has the sentence of the number,
from the file SENTENCES. The sentences of causes are those of `python/farey/causes.py`.
"""

from __future__ import annotations

import os
import re
import sys
from typing import Any, Dict, List, Optional, Sequence, Tuple

HERE = os.path.dirname(os.path.realpath(__file__))
sys.path.insert(0, os.path.join(HERE, os.pardir, os.pardir, "python", "farey"))
import causes  # noqa: E402

FAMILIES = {"gamma0": "Γ0", "gamma1": "Γ1", "gamma": "Γ"}
SYMBOL = "v, 2v vertex entries and v + 1 pairings"
PAIR = "the index n, n images under S and n under R"
#: What the text of a word should be, and how many numbers come behind the symbol, or `None` for another form.
WANTS = {
    "query": f"{SYMBOL}, and then 8 matrix entries",
    "sheet": f"{SYMBOL}, and then 8 entries for each pair",
    "exchange": f"{SYMBOL}, and then 2 labels",
    "import": PAIR,
    "import-wide": PAIR,
    "to-cycles": PAIR,
    "same": f"two symbols, each {SYMBOL}",
    "intersection": f"two symbols, each {SYMBOL}",
    "tower": f"how many entries, and for each the one that it names, or -1, and {SYMBOL}",
}


def numbers_of(text: bytes) -> Optional[List[int]]:
    """The numbers of a text, `None` where a piece of it is none."""
    pieces = re.findall(rb"[^ \n\r]+", text)
    if not all(re.fullmatch(rb"-?[0-9]{1,30}", piece) for piece in pieces):
        return None
    return [int(piece) for piece in pieces]


def wanted(word: str, numbers: Optional[Sequence[int]]) -> str:
    """What the text should be, with how many numbers that is where its first number tells."""
    wants = WANTS.get(word, SYMBOL)
    if not numbers:
        return wants
    v = numbers[0]
    if wants == PAIR:
        return f"{wants}: {2 * v + 1} numbers for n = {v}" if 1 <= v <= causes.MOST_POINTS else wants
    more = {"query": 8, "exchange": 2}.get(word, 0 if word not in WANTS else None)
    if more is None or not 1 <= v <= causes.MOST_VERTICES:
        return wants
    return f"{wants}: {3 * v + 2 + more} numbers for v = {v}"


def symbol_in(numbers: Sequence[int]) -> Tuple[int, List[int], List[int]]:
    """The symbol that numbers begin with, and those behind it."""
    v = numbers[0]
    end = 3 * v + 2 if 1 <= v <= causes.MOST_VERTICES else 1
    return v, list(numbers[1:end]), list(numbers[end:])


def tower_in(numbers: Sequence[int]) -> List[Tuple[int, Tuple[int, List[int]]]]:
    """The entries of a tower: the last one has all numbers that are left."""
    entries: List[Tuple[int, Tuple[int, List[int]]]] = []
    count, rest = numbers[0], list(numbers[1:])
    while rest and len(entries) < min(count, 64):
        named = rest.pop(0)
        if not rest:
            break
        v, table, behind = symbol_in(rest)
        if len(entries) + 1 == count:
            table, behind = table + behind, []
        entries.append((named, (v, table)))
        rest = behind
    return entries


def given_to(word: str, text: bytes, words: Sequence[str]) -> Dict[str, Any]:
    """What a word was given, in the names of `causes`."""
    if word in FAMILIES:
        digits = words[0].lstrip("-").lstrip("0") or "0"
        size = int(digits) if len(digits) <= 30 else 10 ** min(len(digits) - 1, 4000)
        return {"family": FAMILIES[word], "N": -size if words[0].startswith("-") else size, "rule": "leftmost"}
    numbers = None if word == "cycles" else numbers_of(text)
    given: Dict[str, Any] = {"text": text, "wants": wanted(word, numbers)}
    if not numbers:
        index = re.match(rb" *([0-9]{1,4000})", text)
        return dict(given, index=int(index[1])) if word == "cycles" and index else given
    n = numbers[0]
    if word in ("import", "import-wide", "to-cycles"):
        rule = {"rule": "leftmost"} if word == "import" else {}
        within = 1 <= n <= causes.MOST_POINTS
        return dict(given, S=numbers[1 : n + 1], R=numbers[n + 1 :], **rule) if within else dict(given, index=n)
    if word == "tower":
        return dict(given, entries=tower_in(numbers), count=n)
    v, table, behind = symbol_in(numbers)
    given.update(v=v, table=table)
    if word in ("same", "intersection") and behind:
        given["second"] = symbol_in(behind)[:2]
    if word == "query" and len(behind) == 8:
        given.update(A=behind[:4], B=behind[4:])
    if word == "sheet":
        given["entries_of_pairs"] = behind
    if word == "exchange":
        given["labels"] = behind
    return given


def too_short(word: str, place: int, given: Dict[str, Any]) -> Optional[str]:
    """Refusal 11, which is about a space: each word has its own."""
    length = causes.with_commas(place)
    if word == "query":
        return f"the word has {length} letters, and the program keeps 16,384"
    if word == "tower":
        return f"the tower has {causes.with_commas(given['count'])} entries, and at most 64 are allowed"
    if word != "sheet":
        return None
    entries = given.get("entries_of_pairs", [])
    if len(entries) % 8 or len(entries) > 2048:
        return f"behind the symbol are {len(entries)} entries: a pair has 8, and at most 256 pairs are allowed"
    return f"the word has {length} letters, which is more than what is left of the sheet's 16,384"


def sentence(
    word: str, line: str, row: int, lines: int, given: Dict[str, Any], general: Dict[str, str]
) -> Optional[str]:
    """What is said of one line of an answer."""
    found = re.fullmatch(r"(?:[a-z]+ )?refused ([0-9]+) ([0-9]+)", line)
    if found is None:
        return None
    number, place = int(found[1]), int(found[2])
    pairs = given.get("entries_of_pairs", [])
    said, front = None, ""
    if word == "sheet" and len(pairs) == 8 * lines:
        given = dict(given, A=pairs[8 * row : 8 * row + 4], B=pairs[8 * row + 4 : 8 * row + 8])
        front = f"pair {row}: " if number in (8, 9, 10, 11) else ""
    said = too_short(word, place, given) if number == 11 else causes.cause(number, place, given)
    return f"{line}: {front}{said or general.get(found[1], '').replace('{place}', found[2])}"


def main(sentences: str, word: str, file: str, *words: str) -> None:
    with open(file, "rb") as opened:
        text = opened.read()
    with open(sentences, encoding="utf-8") as listed:
        general = dict(line.rstrip("\n").split(" ", 1) for line in listed if line[:1].isdigit())
    answer = sys.stdin.buffer.read().decode("utf-8", "replace").splitlines()
    answer = [line for line in answer if line]
    given = given_to(word, text, words)
    said = [sentence(word, line, row, len(answer), given, general) for row, line in enumerate(answer)]
    sys.stdout.buffer.write("".join(f"{line}\n" for line in said if line).encode("utf-8"))


if __name__ == "__main__":
    main(*sys.argv[1:])

"""The shared library: where it is, its functions, and a work space a thread.

`path` is the rule by which it is found: what `FAREY_LIBRARY` names; else the
`libfarey.so` in the package itself, which a wheel has; else `target/libfarey.so`
of the repository that the package lies in. Its version must be the package's.

What the header asks of C's side (`include/farey.h`) is kept here and in
`symbol`: every space is a ctypes array of the right type that lives during the
call, its length is passed from the array itself, and no two of them overlap.
Result spaces belong to one call. Only the work space is used again: what stands
in it at a call is free, and each thread has its own, since ctypes lets other
threads run during a call.
"""

from __future__ import annotations

import ctypes
import os
import threading
from ctypes import POINTER, c_double, c_int16, c_int64, c_size_t, c_uint8, c_uint16, c_uint32, c_uint64
from pathlib import Path
from typing import Any, List, Optional, Tuple

from . import version
from .refusal import Refusal

#: The environment variable that names another file.
VARIABLE = "FAREY_LIBRARY"
#: The repository that this package lies in, where it isn't a copy.
REPOSITORY = Path(__file__).resolve().parent.parent.parent
#: The library of an installed package.
BUNDLED = Path(__file__).resolve().parent / "libfarey.so"

#: Lengths that are enough for every symbol, as the header has them.
WORK = 32768
TABLE = 3070
GENERATORS = 5120
COSETS = 4090
DRAWING = 4096
#: The pairs of a sheet, at most.
SHEET = 256
#: A length that is enough for the tables of S and R of every named group, and of every text in cycle notation.
NAMED = 3066
#: The same for the tables of every intersection, and the entries of a tower, at most.
INTERSECTION = 3066
TOWER = 64
#: A length that is enough for the text of every pair of permutations in cycle notation.
CYCLES = 31007

_SYMBOL = [c_size_t, POINTER(c_int64), c_size_t]
_NAME = [c_uint64, c_uint64]
_WORK = [POINTER(c_uint16), c_size_t]
_SIGN = [POINTER(c_int64)]
_PLACE = [POINTER(c_size_t)]


def _space(kind: Any) -> List[Any]:
    return [POINTER(kind), c_size_t]


#: The parameters of each function, as the header declares them.
_PARAMETERS = {
    "farey_version": [],
    "farey_check": _SYMBOL + _PLACE,
    "farey_generators": _SYMBOL + _WORK + _space(c_int64) + _PLACE,
    "farey_figures": _SYMBOL + _WORK + [POINTER(c_uint64)] + _PLACE,
    "farey_widths": _SYMBOL + _WORK + _space(c_uint32) + _PLACE,
    "farey_tables": _SYMBOL + _WORK + 3 * _space(c_uint32) + _PLACE,
    "farey_cusps": _SYMBOL + _WORK + 2 * _space(c_uint32) + _PLACE,
    "farey_import": 2 * _space(c_uint32) + _WORK + _space(c_int64) + _PLACE,
    "farey_import_wide": 2 * _space(c_uint32) + _WORK + _space(c_int64) + _PLACE,
    "farey_import_length": 2 * _space(c_uint32) + _PLACE,
    "farey_read_cycles": _space(c_uint8) + 2 * _space(c_uint32) + _PLACE,
    "farey_write_cycles": 2 * _space(c_uint32) + _space(c_uint8) + _PLACE,
    "farey_query": _SYMBOL + 2 * [POINTER(c_int64)] + _WORK + _space(c_int16) + [c_size_t] + _PLACE,
    "farey_signed_query": _SYMBOL + 2 * [POINTER(c_int64)] + _WORK + _space(c_int16) + [c_size_t] + _SIGN + _PLACE,
    "farey_sheet": _SYMBOL + _space(c_int64) + _WORK + _space(c_int64) + _space(c_int16) + _PLACE,
    "farey_same_coset": _SYMBOL + 2 * [POINTER(c_int64)] + _WORK + _PLACE,
    "farey_same_cosets": _SYMBOL + _space(c_int64) + _WORK + _space(c_int64) + _PLACE,
    "farey_matrix_word": _SYMBOL + [POINTER(c_int64)] + _WORK + _space(c_int16) + [c_size_t] + _PLACE,
    "farey_signed_matrix_word": _SYMBOL + [POINTER(c_int64)] + _WORK + _space(c_int16) + [c_size_t] + _SIGN + _PLACE,
    "farey_contains_matrix": _SYMBOL + [POINTER(c_int64)] + _WORK + _PLACE,
    "farey_same": 2 * _SYMBOL + _WORK + _PLACE,
    "farey_contains": 2 * _SYMBOL + _WORK + _PLACE,
    "farey_intersection": 2 * _SYMBOL + _WORK + 3 * _space(c_uint32) + _PLACE,
    "farey_tower": [c_size_t] + _space(c_int64) + _WORK + _PLACE,
    "farey_exchange": _SYMBOL + 2 * [c_int64] + _space(c_int64) + _PLACE,
    "farey_preview": _SYMBOL + 2 * [c_int64] + _WORK + _space(c_uint32) + [POINTER(c_uint64)] + _PLACE,
    "farey_drawing": _SYMBOL + _space(c_double) + [POINTER(c_double)] + _PLACE,
    "farey_named_tables": _NAME + _WORK + 2 * _space(c_uint32) + _PLACE,
    "farey_named_symbol": _NAME + _WORK + _space(c_int64) + _PLACE,
    "farey_named_symbol_wide": _NAME + _WORK + _space(c_int64) + _PLACE,
    "farey_named_query": _NAME + 2 * [POINTER(c_int64)] + _WORK + _space(c_int16) + [c_size_t] + _PLACE,
    "farey_named_query_wide": _NAME + 2 * [POINTER(c_int64)] + _WORK + _space(c_int16) + [c_size_t] + _PLACE,
    "farey_named_signed_query": _NAME + 2 * [POINTER(c_int64)] + _WORK + _space(c_int16) + [c_size_t] + _SIGN + _PLACE,
    "farey_named_signed_query_wide": _NAME + 2 * [POINTER(c_int64)] + _WORK + _space(c_int16) + [c_size_t] + _SIGN + _PLACE,
}

_loaded: Optional[ctypes.CDLL] = None
_threads = threading.local()


def path() -> Path:
    """The file of the library: what `FAREY_LIBRARY` names, or the package's own, or the repository's."""
    named = os.environ.get(VARIABLE)
    if named:
        return Path(named)
    return BUNDLED if BUNDLED.is_file() else REPOSITORY / "target" / "libfarey.so"


def load() -> ctypes.CDLL:
    """The library with all its functions, or an OSError that says what to do.

    There is no lock here that a fork or a signal handler could find taken: two
    threads may both open the file, and get the same functions.
    """
    global _loaded
    loaded = _loaded
    if loaded is None:
        loaded = _loaded = _open(path())
    return loaded


def _open(file: Path) -> ctypes.CDLL:
    if not file.is_file():
        raise FileNotFoundError(f"there is no {file}: {_advice()}")
    if _is_cut_off(file):
        raise OSError(f"{file} is cut off, it has fewer bytes than its header says: run ./farey library once more, or copy it again")
    opened = ctypes.CDLL(str(file.resolve()))
    for name, parameters in _PARAMETERS.items():
        try:
            function = getattr(opened, name)
        except AttributeError:
            raise OSError(f"{file} has no function {name}: run ./farey library once more") from None
        function.argtypes = parameters
        function.restype = c_uint64
    number = opened.farey_version()
    if number != version.NUMBER:
        raise OSError(
            f"{file} has version number {number}, and this package {version.NUMBER}: run ./farey library once more"
        )
    return opened


def _is_cut_off(file: Path) -> bool:
    """Whether the table of sections, which is last in an ELF file of 64 bits, ends
    behind the file's end. Python itself would be killed when such a file is opened."""
    with file.open("rb") as opened:
        head = opened.read(64)
        size = os.fstat(opened.fileno()).st_size
    if head[:6] != b"\x7fELF\x02\x01":
        return False
    start, entry, count = (int.from_bytes(head[place:end], "little") for place, end in ((40, 48), (58, 60), (60, 62)))
    return len(head) < 64 or start + entry * count > size


def _advice() -> str:
    """How the library is made and found, from the repository and from a copy of the package."""
    if (REPOSITORY / "farey").is_file():
        return f"run ./farey library in {REPOSITORY}, or set {VARIABLE} to the path of libfarey.so"
    return (
        f"this is a copy of the package in {Path(__file__).resolve().parent}; run ./farey library in the engine's"
        f" repository, which makes target/libfarey.so there, and set {VARIABLE} to that file's path"
    )


def work() -> Any:
    """This thread's work space, the same at every call."""
    space = getattr(_threads, "work", None)
    if space is None:
        space = _threads.work = (c_uint16 * WORK)()
    return space


def call(name: str, *arguments: Any) -> int:
    """The count that a call answers with. A refusal is raised."""
    number, place = answer(name, *arguments)
    if number != 0:
        raise Refusal(number, place)
    return place


def answer(name: str, *arguments: Any) -> Tuple[int, int]:
    """The number that a call returns, and the place or the count that it writes.

    An array stands for itself and its length, but for the four entries of a
    matrix, the eight figures, the four borders of a box and the one sign, whose
    lengths are fixed: these are `Fixed`.
    """
    place = c_size_t(0)
    passed: List[Any] = []
    for argument in arguments:
        if isinstance(argument, Fixed):
            passed.append(argument.array)
        elif isinstance(argument, int):
            passed.append(argument)
        else:
            passed += [argument, len(argument)]
    return getattr(load(), name)(*passed, ctypes.byref(place)), place.value


class Fixed:
    """An array that is passed without its length."""

    __slots__ = ("array",)

    def __init__(self, array: Any) -> None:
        self.array = array

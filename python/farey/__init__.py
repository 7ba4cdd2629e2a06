"""Finite index subgroups of PSL2(Z) by their Farey symbols.

The answers are those of the proved engine; this package lends it its spaces
and gives the results names. The package itself is tested and not proved.

| module         | what it holds                                                   |
|----------------|-----------------------------------------------------------------|
| `symbol`       | `Symbol`, and its `gamma0`, `gamma1` and `gamma`, by name here  |
| `named`        | `named_tables`: S and R of Γ0(N), Γ1(N) and Γ(N)                |
| `random_groups` | `random_subgroup`: of a given index, each with the same chance |
| `subgroups`    | `tower`, and what `Symbol` asks of two subgroups: &, <=         |
| `permutations` | `import_length`: how long a symbol's table will be              |
| `cycle_notation` | `read_cycles`, `write_cycles`: S and R as one text in cycles  |
| `refusal`      | `Refusal`: the exception, with number, place and sentence       |
| `evidence`     | a check, without the engine, of the statement that no word is   |
| `picture`      | the polygon in the upper half plane, as SVG                     |
| `cycles`       | permutations as Sage, GAP and Magma write them, points from 1   |
| `systems`      | from PARI's polygons, to Magma                                  |
| `causes`       | the cause of a refusal in one sentence, from what was given     |
| `version`      | the version, and the kit that proved the library                |

`./farey library` in the root of the repository makes the shared library that
is called, `target/libfarey.so`; an installed package has its own, and
`FAREY_LIBRARY` names another file. It is looked for at the first call, so
`farey.evidence` and `farey.cycles` work without it. `farey.__version__` is the
version and, behind a plus, the kit that proved the library.

>>> import farey
>>> H = farey.gamma0(11)
>>> H.index, H.genus, (1, 0, 11, 1) in H
(12, 1, True)
>>> H.word((1, 0, 11, 1))
[-2, 3, 2, -3, 1]
>>> farey.Symbol([0, (1, 3), (1, 2), (2, 3), 1], [1, 2, 3, 2, 3, 1]) == H
True
"""

from . import cycles, evidence
from .cycle_notation import read_cycles, write_cycles
from .named import named_tables
from .permutations import import_length
from .refusal import Refusal
from .subgroups import tower
from .symbol import Box, Cusp, Evidence, Generator, Preview, Side, Symbol, Word
from . import systems  # stands on Symbol
from .random_groups import random_subgroup
from . import library, version

__version__ = version.text(version.kit_beside(library.path()))

gamma0 = Symbol.gamma0
gamma1 = Symbol.gamma1
gamma = Symbol.gamma

__all__ = [
    "Box",
    "Cusp",
    "Evidence",
    "Generator",
    "Preview",
    "Refusal",
    "Side",
    "Symbol",
    "Word",
    "cycles",
    "evidence",
    "gamma",
    "gamma0",
    "gamma1",
    "import_length",
    "named_tables",
    "random_subgroup",
    "read_cycles",
    "systems",
    "tower",
    "write_cycles",
]

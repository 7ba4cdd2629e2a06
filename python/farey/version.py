"""The version of the package, and of the kit that proved the library.

`./farey library` writes the kit's identity beside the library that it makes, to
`farey.kit`, and a wheel has both files in the package.

>>> import farey
>>> farey.__version__.partition("+")[0] == VERSION
True
"""

from __future__ import annotations

import re
from pathlib import Path

#: The version, the same as that of the library's C header.
VERSION = "0.2.0"
#: As `farey_version` returns it: 10,000 times major, 100 times minor and patch.
NUMBER = sum(scale * int(part) for scale, part in zip((10000, 100, 1), VERSION.split(".")))


def kit_beside(library: Path) -> str:
    """The identity of the kit that proved this library, by the file beside it; empty where there is none."""
    try:
        return (library.parent / "farey.kit").read_text("utf-8").strip()
    except OSError:
        return ""


def text(kit: str) -> str:
    """The version, and behind a plus the kit, as far as a version label can have it.

    >>> text("rattle-kit-5 logic 097e")[5:]
    '+rattle.kit.5.logic.097e'
    """
    label = ".".join(re.findall(r"[a-z0-9]+", kit.lower()))
    return f"{VERSION}+{label}" if label else VERSION

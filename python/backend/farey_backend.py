"""Makes the wheel of the package `farey`: what pip asks of a build backend (PEP 517), by the standard library alone.

The wheel has the modules of `python/farey` and, beside them, the shared library that `./farey library` made of the
proved crates and the identity of the kit that proved it. So an installed package needs no prover, no compiler and no
repository. `./farey library --made` says whether the library is the one of the sources as they are; where it isn't,
there is no wheel.

The version is that of `farey/version.py`, with the kit behind a plus: a local version label, as PEP 440 has it.

`python3 farey_backend.py DIR` writes the wheel to DIR and prints its path; `./farey wheel DIR` runs it.
"""

from __future__ import annotations

import base64
import hashlib
import os
import re
import subprocess
import sys
import tarfile
import zipfile
from pathlib import Path
from typing import Any, Dict, List, Optional, Tuple

#: The folder of this package's sources, and the repository.
PYTHON = Path(__file__).resolve().parent.parent
REPOSITORY = PYTHON.parent
NAME = "farey"
#: The time of every file in the wheel: the same sources and library make the same bytes.
TIME = (2020, 1, 1, 0, 0, 0)

METADATA = """\
Metadata-Version: 2.1
Name: {name}
Version: {version}
Summary: Finite index subgroups of PSL2(Z) by their Farey symbols: calls of the proved engine
Requires-Python: >=3.9
License: No licence is granted yet: the owner has still to choose one.
Classifier: Programming Language :: Python :: 3 :: Only
Classifier: Operating System :: POSIX :: Linux
Classifier: Topic :: Scientific/Engineering :: Mathematics
Classifier: Typing :: Typed
Classifier: Private :: Do Not Upload
Description-Content-Type: text/plain

Generators, index, cusps, genus, level, coset tables and words of finite index subgroups of PSL2(Z), by Farey symbols.
The library in this package is compiled from crates that were proved by {kit}.
The Python modules are tested and not proved.
"""


class BuildError(Exception):
    """Why there is no wheel."""


def made() -> Tuple[Path, str]:
    """The library of the sources as they are, and the identity of the kit that proved it."""
    script = REPOSITORY / "farey"
    if not script.is_file():
        raise BuildError(f"there is no {script}: run ./farey wheel in the engine's repository, and install that file")
    came = subprocess.run([str(script), "library", "--made"], stdin=subprocess.DEVNULL, capture_output=True, text=True)
    if came.returncode != 0:
        raise BuildError(came.stderr.strip() or "run ./farey library first")
    library = Path(came.stdout.rstrip("\n"))
    return library, (REPOSITORY / "target" / "farey.kit").read_text("utf-8").strip()


def version(kit: str) -> str:
    """The version with the kit as its local label, `0.2.0+rattle.kit.5..`."""
    text = (PYTHON / NAME / "version.py").read_text("utf-8")
    found = re.search(r'^VERSION = "([0-9.]+)"$', text, re.M)
    if found is None:
        raise BuildError("farey/version.py has no VERSION")
    label = ".".join(re.findall(r"[a-z0-9]+", kit.lower()))
    return f"{found[1]}+{label}" if label else found[1]


def needed_glibc(library: Path) -> Optional[Tuple[int, int]]:
    """The highest version of glibc whose symbols the library asks for, `None` where it asks for none.

    The names of the versions that are asked for stand in the file as texts.
    """
    found = re.findall(rb"\0GLIBC_(\d+)\.(\d+)", library.read_bytes())
    return max(((int(major), int(minor)) for major, minor in found), default=None)


def tag(library: Path) -> str:
    """The wheel's tag. No module is compiled, so any Python 3 will do; the library is for Linux on x86-64, and for
    every glibc from the one that it asks for. manylinux_2_5 is the oldest that pip knows."""
    needed = max(needed_glibc(library) or (2, 5), (2, 5))
    return f"py3-none-manylinux_{needed[0]}_{needed[1]}_x86_64"


def _modules() -> List[Path]:
    return sorted((PYTHON / NAME).rglob("*.py"))


def _files(library: Path, kit: str) -> Dict[str, bytes]:
    package = PYTHON / NAME
    found = {f"{NAME}/{path.relative_to(package).as_posix()}": path.read_bytes() for path in _modules()}
    found[f"{NAME}/py.typed"] = (package / "py.typed").read_bytes()
    found[f"{NAME}/libfarey.so"] = library.read_bytes()
    found[f"{NAME}/farey.kit"] = (kit + "\n").encode("utf-8")
    return found


def _info(kit: str, tag_: str) -> Dict[str, bytes]:
    folder = f"{NAME}-{version(kit)}.dist-info"
    wheel = f"Wheel-Version: 1.0\nGenerator: farey_backend\nRoot-Is-Purelib: false\nTag: {tag_}\n"
    metadata = METADATA.format(name=NAME, version=version(kit), kit=kit or "a kit that isn't named")
    return {f"{folder}/METADATA": metadata.encode("utf-8"), f"{folder}/WHEEL": wheel.encode("utf-8")}


def _write(path: Path, files: Dict[str, bytes], record: str) -> None:
    """A wheel of these files, with the list of their sums. It replaces an older one when it is whole."""
    lines = []
    for name, data in files.items():
        sum_ = base64.urlsafe_b64encode(hashlib.sha256(data).digest()).rstrip(b"=").decode("ascii")
        lines.append(f"{name},sha256={sum_},{len(data)}\n")
    files = dict(files, **{record: ("".join(lines) + f"{record},,\n").encode("utf-8")})
    new = path.with_name(path.name + ".new")
    with zipfile.ZipFile(new, "w", zipfile.ZIP_DEFLATED) as opened:
        for name, data in files.items():
            entry = zipfile.ZipInfo(name, TIME)
            entry.compress_type = zipfile.ZIP_DEFLATED
            entry.external_attr = (0o755 if name.endswith(".so") else 0o644) << 16
            opened.writestr(entry, data)
    os.replace(new, path)


def build_wheel(wheel_directory: str, config_settings: Any = None, metadata_directory: Any = None) -> str:
    """The name of the wheel, which is written to the folder."""
    library, kit = made()
    name = f"{NAME}-{version(kit)}-{tag(library)}.whl"
    files = {**_files(library, kit), **_info(kit, tag(library))}
    _write(Path(wheel_directory) / name, files, f"{NAME}-{version(kit)}.dist-info/RECORD")
    return name


def build_editable(wheel_directory: str, config_settings: Any = None, metadata_directory: Any = None) -> str:
    """A wheel that leads to the sources in the repository, for `pip install -e`."""
    library, kit = made()
    name = f"{NAME}-{version(kit)}-{tag(library)}.whl"
    files = {f"{NAME}.pth": f"{PYTHON}\n".encode("utf-8"), **_info(kit, tag(library))}
    _write(Path(wheel_directory) / name, files, f"{NAME}-{version(kit)}.dist-info/RECORD")
    return name


def build_sdist(sdist_directory: str, config_settings: Any = None) -> str:
    """The sources of the package. A wheel can be made of them only in the repository, where the library is."""
    _, kit = made()
    name = f"{NAME}-{version(kit)}"
    with tarfile.open(Path(sdist_directory) / f"{name}.tar.gz", "w:gz") as opened:
        for path in [PYTHON / "pyproject.toml", *sorted((PYTHON / "backend").glob("*.py")), *_modules()]:
            opened.add(path, f"{name}/{path.relative_to(PYTHON).as_posix()}")
        opened.add(PYTHON / NAME / "py.typed", f"{name}/{NAME}/py.typed")
    return f"{name}.tar.gz"


def get_requires_for_build_wheel(config_settings: Any = None) -> List[str]:
    """Nothing beside this file is needed."""
    return []


get_requires_for_build_editable = get_requires_for_build_sdist = get_requires_for_build_wheel


def main() -> int:
    try:
        print(os.path.join(sys.argv[1], build_wheel(sys.argv[1])))
    except BuildError as error:
        print(f"farey: {error}", file=sys.stderr)
        return 1
    return 0


if __name__ == "__main__":
    sys.exit(main())

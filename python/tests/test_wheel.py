"""The wheel of the package: its form, and that it works in a new environment, offline, without the repository.

`pip install ./python` is run in two ways: plainly, where pip makes an environment for the build, and with
`--no-build-isolation`. Both are told of no index, so a package that had to be fetched would fail them.
"""

import base64
import csv
import hashlib
import io
import os
import re
import subprocess
import sys
import tarfile
import tempfile
import unittest
import venv
import zipfile
from pathlib import Path

import farey
from farey import library, version

from . import reckoning as by_hand

SCRIPT = by_hand.REPOSITORY / "farey"
#: What an installed package is asked: where it and its library are, its version, and the index of Γ0(11).
ASK = """
import farey
print(farey.__file__, farey.library.path(), farey.__version__, farey.Symbol.gamma0(11).index, sep="\\n")
"""


def run(*words, **settings):
    clean = {name: value for name, value in os.environ.items() if not name.startswith(("FAREY", "PYTHON", "PIP"))}
    clean.update(PIP_DISABLE_PIP_VERSION_CHECK="1", PIP_NO_INPUT="1", **settings)
    quiet = {"stdin": subprocess.DEVNULL, "capture_output": True, "text": True}
    return subprocess.run(words, env=clean, cwd="/", timeout=300, **quiet)


class Version(unittest.TestCase):
    """One version, wherever it is written."""

    def test_one_version(self):
        header = (by_hand.REPOSITORY / "include/farey.h").read_text("utf-8")
        (number,) = re.findall(r"^#define FAREY_VERSION (\d+)$", header, re.M)
        (text,) = re.findall(r'^#define FAREY_VERSION_TEXT "([0-9.]+)"$', header, re.M)
        major, minor, patch = map(int, text.split("."))
        self.assertEqual(int(number), 10000 * major + 100 * minor + patch)
        self.assertEqual((version.VERSION, version.NUMBER), (text, int(number)))
        self.assertEqual(library.load().farey_version(), int(number))
        for part in ("rust/farey/Cargo.toml", "CHANGELOG.md"):
            held = (by_hand.REPOSITORY / part).read_text("utf-8")
            found = re.search(r'^(?:version = "|## )(\d+\.\d+\.\d+)', held, re.M)
            self.assertEqual(found[1], text, part)

    def test_the_kit(self):
        kit = (by_hand.REPOSITORY / "target/farey.kit").read_text("utf-8").strip()
        self.assertRegex(kit, r"^rattle-kit-\S+ logic [0-9a-f]+$")
        number, plus, label = farey.__version__.partition("+")
        self.assertEqual((number, plus), (version.VERSION, "+"))
        self.assertEqual(label.split("."), re.findall(r"[a-z0-9]+", kit))

    def test_another_version(self):
        """A library of another version isn't called."""
        with tempfile.TemporaryDirectory() as folder:
            source, other = Path(folder) / "other.c", Path(folder) / "libother.so"
            names = [name for name in library._PARAMETERS if name != "farey_version"]
            lines = [f"unsigned long {name}(void) {{ return 0; }}\n" for name in names]
            source.write_text("".join(lines) + "unsigned long farey_version(void) { return 100; }\n", "utf-8")
            subprocess.run(["cc", "-shared", "-fPIC", "-o", str(other), str(source)], check=True)
            path = str(by_hand.REPOSITORY / "python")
            line = "import farey; farey.Symbol.gamma0(2)"
            came = run(sys.executable, "-B", "-c", line, FAREY_LIBRARY=str(other), PYTHONPATH=path)
        self.assertEqual((came.returncode, came.stdout), (1, ""))
        self.assertIn("has version number 100, and this package 200: run ./farey library once more", came.stderr)


class Wheel(unittest.TestCase):
    def setUp(self):
        self.folder = tempfile.TemporaryDirectory()
        self.addCleanup(self.folder.cleanup)
        self.at = Path(self.folder.name).resolve()

    def test_form(self):
        """Its name, its files with their sums, and what it says of itself; made twice it has the same bytes."""
        came = run(SCRIPT, "wheel", str(self.at / "one"))
        self.assertEqual(came.returncode, 0, came.stderr)
        path = Path(came.stdout.rstrip("\n"))
        self.assertEqual(path.parent, self.at / "one")
        self.assertRegex(path.name, rf"^farey-{re.escape(farey.__version__)}-py3-none-manylinux_2_\d+_x86_64\.whl$")
        with zipfile.ZipFile(path) as opened:
            self.assertIsNone(opened.testzip())
            held = {name: opened.read(name) for name in opened.namelist()}
        info = f"farey-{farey.__version__}.dist-info"
        for name, sum_, size in csv.reader(io.StringIO(held[f"{info}/RECORD"].decode("utf-8"))):
            if name != f"{info}/RECORD":
                digest = base64.urlsafe_b64encode(hashlib.sha256(held[name]).digest()).rstrip(b"=").decode("ascii")
                self.assertEqual((sum_, int(size)), (f"sha256={digest}", len(held[name])), name)
        self.assertEqual(held["farey/libfarey.so"], library.path().read_bytes())
        package = by_hand.REPOSITORY / "python/farey"
        modules = {f"farey/{path.name}" for path in package.glob("*.py")}
        listed = {name for name in held if not name.startswith(info)}
        self.assertEqual(listed, modules | {"farey/py.typed", "farey/libfarey.so", "farey/farey.kit"})
        metadata = held[f"{info}/METADATA"].decode("utf-8")
        version_line = f"Version: {farey.__version__}"
        for line in ("Name: farey", version_line, "Requires-Python: >=3.9", "Classifier: Typing :: Typed"):
            self.assertIn(f"\n{line}\n", metadata)
        self.assertIn("\nLicense: No licence is granted yet", metadata)
        again = run(SCRIPT, "wheel", str(self.at / "two"))
        self.assertEqual(Path(again.stdout.rstrip("\n")).read_bytes(), path.read_bytes())

    def test_tag(self):
        """It names the version of glibc whose symbols the library asks for: the highest that readelf shows."""
        listed = run("readelf", "-V", str(library.path())).stdout
        found = re.findall(r"Name: GLIBC_(\d+)\.(\d+)", listed)
        self.assertTrue(found)
        asked = max((int(major), int(minor)) for major, minor in found)
        came = run(SCRIPT, "wheel", str(self.at))
        major, minor = re.search(r"manylinux_(\d+)_(\d+)_x86_64", came.stdout).groups()
        self.assertEqual((int(major), int(minor)), max(asked, (2, 5)))

    def test_installed(self):
        """`pip install ./python` in two new environments; the package there has its own library."""
        for options in ((), ("--no-build-isolation",)):
            with self.subTest(options):
                place = self.at / f"with{len(options)}"
                venv.create(place, with_pip=True, symlinks=True)
                python = place / "bin/python"
                package = str(by_hand.REPOSITORY / "python")
                came = run(python, "-m", "pip", "install", "--no-index", "--no-cache-dir", *options, package)
                self.assertEqual(came.returncode, 0, came.stdout + came.stderr)
                asked = run(python, "-c", ASK)
                self.assertEqual(asked.returncode, 0, asked.stderr)
                file, found, named, index = asked.stdout.splitlines()
                self.assertTrue(Path(file).is_relative_to(place), file)
                self.assertEqual(Path(found), Path(file).resolve().parent / "libfarey.so")
                self.assertEqual((named, index), (farey.__version__, "12"))
        # in the first of them once more, to be edited: the modules are then those of the repository
        python = self.at / "with0/bin/python"
        came = run(python, "-m", "pip", "install", "--no-index", "--no-cache-dir", "-e", package)
        self.assertEqual(came.returncode, 0, came.stdout + came.stderr)
        asked = run(python, "-B", "-c", ASK)
        self.assertEqual(asked.stdout.splitlines()[0], f"{package}/farey/__init__.py", asked.stderr)

    def test_sources(self):
        """The archive of the sources has the modules, the backend and what names it."""
        backend = by_hand.REPOSITORY / "python/backend"
        line = f"import farey_backend; print(farey_backend.build_sdist({str(self.at)!r}))"
        came = run(sys.executable, "-B", "-c", line, PYTHONPATH=str(backend))
        self.assertEqual(came.returncode, 0, came.stderr)
        with tarfile.open(self.at / came.stdout.rstrip("\n")) as opened:
            names = {name.split("/", 1)[1] for name in opened.getnames()}
        modules = {f"farey/{path.name}" for path in (by_hand.REPOSITORY / "python/farey").glob("*.py")}
        self.assertEqual(names, modules | {"pyproject.toml", "backend/farey_backend.py", "farey/py.typed"})

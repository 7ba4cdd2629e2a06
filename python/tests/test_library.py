"""The library is found, or it is said what to do; and the package's own form."""

import ast
import os
import re
import shutil
import subprocess
import sys
import tempfile
import unittest
from pathlib import Path

import farey
from farey import library, named

from . import reckoning as by_hand

PYTHON = by_hand.REPOSITORY / "python"
ASK = "from farey import Symbol; print(Symbol([0, 1], [1, -2, 1]).index)"


def run(line, **environment):
    """What another Python says: exit status, standard output, last line of standard error."""
    settings = {name: value for name, value in os.environ.items() if name != library.VARIABLE}
    settings.update({"PYTHONPATH": str(PYTHON), "PYTHONDONTWRITEBYTECODE": "1", **environment})
    with tempfile.TemporaryDirectory() as elsewhere:
        came = subprocess.run([sys.executable, "-c", line], env=settings, cwd=elsewhere, capture_output=True, text=True, timeout=60)
    return came.returncode, came.stdout, (came.stderr.splitlines() or [""])[-1]


class Found(unittest.TestCase):
    def test_named_by_the_variable(self):
        self.assertEqual(run(ASK, FAREY_LIBRARY=str(library.path().resolve())), (0, "3\n", ""))

    def test_in_the_repository(self):
        self.assertEqual(library.REPOSITORY, by_hand.REPOSITORY)
        self.assertEqual(run("from farey import library; print(library.path())"), (0, f"{by_hand.REPOSITORY}/target/libfarey.so\n", ""))

    def test_an_empty_name_is_none(self):
        status, said, _ = run("from farey import library; print(library.path())", FAREY_LIBRARY="")
        self.assertEqual((status, said), (0, f"{by_hand.REPOSITORY}/target/libfarey.so\n"))

    def test_no_such_file(self):
        status, said, error = run(ASK, FAREY_LIBRARY="/nowhere/libfarey.so")
        self.assertEqual((status, said), (1, ""))
        self.assertIn("there is no /nowhere/libfarey.so: run ./farey library", error)

    def test_a_copy_of_the_package(self):
        """It says that it is a copy, where the library is made, and how to name it; and named so, it is found."""
        with tempfile.TemporaryDirectory() as folder:
            copy = Path(folder).resolve() / "site/farey"
            shutil.copytree(PYTHON / "farey", copy)
            status, said, error = run(ASK, PYTHONPATH=str(copy.parent))
            self.assertEqual((status, said), (1, ""))
            self.assertTrue(error.startswith("FileNotFoundError: there is no "), error)
            self.assertIn(f"this is a copy of the package in {copy}; run ./farey library in the engine's repository", error)
            self.assertIn("and set FAREY_LIBRARY to that file's path", error)
            self.assertNotIn(f"run ./farey library in {folder}", error)
            status, said, error = run(ASK, PYTHONPATH=str(copy.parent), FAREY_LIBRARY="/nowhere/libfarey.so")
            self.assertEqual((status, said), (1, ""))
            self.assertIn("there is no /nowhere/libfarey.so: this is a copy of the package", error)
            found = run(ASK, PYTHONPATH=str(copy.parent), FAREY_LIBRARY=str(library.path().resolve()))
            self.assertEqual(found, (0, "3\n", ""))

    def test_a_folder(self):
        status, said, error = run(ASK, FAREY_LIBRARY="/")
        self.assertEqual((status, said), (1, ""))
        self.assertIn("run ./farey library", error)

    def test_another_file(self):
        """A file that is no library, and a library that isn't this one."""
        status, said, error = run(ASK, FAREY_LIBRARY=str(by_hand.REPOSITORY / "README.md"))
        self.assertEqual((status, said), (1, ""))
        self.assertIn("OSError", error)
        with tempfile.TemporaryDirectory() as folder:
            other = Path(folder) / "libother.so"
            source = Path(folder) / "other.c"
            source.write_text("unsigned long farey_check(void) { return 0; }\n", "utf-8")
            subprocess.run(["cc", "-shared", "-fPIC", "-o", str(other), str(source)], check=True)
            status, said, error = run(ASK, FAREY_LIBRARY=str(other))
        self.assertEqual((status, said), (1, ""))
        self.assertIn("has no function farey_", error)

    def test_a_file_that_is_cut_off(self):
        """A part of the library is told as that: opened, it would end Python itself by a signal."""
        whole = library.path().read_bytes()
        with tempfile.TemporaryDirectory() as folder:
            part = Path(folder) / "libfarey.so"
            for length in (16, 40, 63, 64, 4096, 8000, len(whole) // 2, len(whole) - 1000, len(whole) - 1):
                part.write_bytes(whole[:length])
                status, said, error = run(ASK, FAREY_LIBRARY=str(part))
                self.assertEqual((status, said), (1, ""), length)
                self.assertIn(f"OSError: {part} is cut off, it has fewer bytes than its header says: run ./farey library once more", error)
            for length in (0, 3):
                part.write_bytes(whole[:length])
                status, said, error = run(ASK, FAREY_LIBRARY=str(part))
                self.assertEqual((status, said), (1, ""), length)
                self.assertIn("OSError", error)
            part.write_bytes(whole)
            self.assertEqual(run(ASK, FAREY_LIBRARY=str(part)), (0, "3\n", ""))

    def test_evidence_needs_no_library(self):
        line = "from farey import cycles, evidence; print(evidence.check([], [1, 0], [0, 1], (1, 0, 0, 1), (0, -1, 1, 0)), cycles.text([1, 0]))"
        self.assertEqual(run(line, FAREY_LIBRARY="/nowhere"), (0, "True (1,2)\n", ""))


class Header(unittest.TestCase):
    """The calls are declared as in include/farey.h."""

    def test_functions(self):
        header = (by_hand.REPOSITORY / "include/farey.h").read_text("utf-8")
        names = {
            "double": library.c_double,
            "size_t": library.c_size_t,
            "int16_t": library.c_int16,
            "int64_t": library.c_int64,
            "uint8_t": library.c_uint8,
            "uint16_t": library.c_uint16,
            "uint32_t": library.c_uint32,
            "uint64_t": library.c_uint64,
        }
        declared = {}
        for name, parameters in re.findall(r"^uint64_t (farey_\w+)\(([^)]*)\);", header, re.M):
            kinds = []
            for parameter in parameters.split(",") if parameters != "void" else ():
                kind = names[re.match(r"\s*(?:const )?(\w+)", parameter)[1]]
                kinds.append(library.POINTER(kind) if "*" in parameter else kind)
            declared[name] = kinds
        self.assertEqual(library._PARAMETERS, declared)
        self.assertGreaterEqual(len(declared), 15)

    def test_as_they_are_called(self):
        """What is loaded takes these parameters and gives 64 bits, as each line of the header begins."""
        loaded = library.load()
        for name, parameters in library._PARAMETERS.items():
            function = getattr(loaded, name)
            self.assertEqual(list(function.argtypes), parameters, name)
            self.assertIs(function.restype, library.c_uint64, name)

    def test_lengths(self):
        header = (by_hand.REPOSITORY / "include/farey.h").read_text("utf-8")
        lengths = {name: int(number) for name, number in re.findall(r"^#define FAREY_(\w+) (\d+)$", header, re.M)}
        for name in ("WORK", "TABLE", "GENERATORS", "COSETS", "DRAWING", "NAMED", "INTERSECTION", "TOWER", "CYCLES"):
            self.assertEqual(getattr(library, name), lengths[name])
        self.assertEqual(named.FAMILIES, {name.lower(): lengths[name] for name in ("GAMMA0", "GAMMA1", "GAMMA")})


class Form(unittest.TestCase):
    """The package is for Python 3.9 and later, with nothing beside it."""

    def files(self):
        found = sorted((PYTHON / "farey").glob("*.py"))
        self.assertGreaterEqual(len(found), 8)
        return found

    def test_python_3_9(self):
        for file in self.files():
            tree = ast.parse(file.read_text("utf-8"), feature_version=(3, 9))
            for function in ast.walk(tree):
                if isinstance(function, ast.FunctionDef):
                    arguments = [each for each in function.args.args if each.arg not in ("self", "cls")]
                    hinted = function.returns is not None and all(each.annotation for each in arguments)
                    self.assertTrue(hinted, f"{file.name}: {function.name} has no type hints")

    def test_standard_library_only(self):
        standard = {"__future__", "base64", "collections", "colorsys", "ctypes", "functools", "html", "itertools", "math", "numbers", "operator", "os"}
        standard |= {"contextlib", "pathlib", "random", "re", "sys", "threading", "typing"}
        self.assertLessEqual(standard, getattr(sys, "stdlib_module_names", standard))
        for file in self.files():
            for node in ast.walk(ast.parse(file.read_text("utf-8"))):
                if isinstance(node, ast.Import):
                    self.assertLessEqual({each.name for each in node.names}, standard, file.name)
                if isinstance(node, ast.ImportFrom) and node.level == 0:
                    self.assertIn(node.module, standard, file.name)

    def test_docstrings(self):
        for file in self.files():
            self.assertTrue(ast.get_docstring(ast.parse(file.read_text("utf-8"))), file.name)
        for name in farey.__all__:
            self.assertTrue(getattr(farey, name).__doc__, name)
        public = [name for name in dir(farey.Symbol) if not name.startswith("_")]
        self.assertGreaterEqual(len(public), 17)
        for name in public:
            self.assertTrue(getattr(farey.Symbol, name).__doc__, name)

    def test_typed(self):
        self.assertTrue((PYTHON / "farey/py.typed").is_file())

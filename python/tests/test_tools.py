"""tools/compare-systems, where the other systems are missing and where they are there, and what it sends them."""

import contextlib
import io
import json
import os
import re
import runpy
import shutil
import subprocess
import sys
import tempfile
import unittest
from pathlib import Path
from unittest import mock

from farey import library

from . import reckoning as by_hand
from .test_systems import is_here

TOOL = by_hand.REPOSITORY / "tools/compare-systems"
MEMBERS = ((6931, 7, 990, 1), (1, 1000, 0, 1))

#: A program that keeps what it is given, its words and its standard input, beside itself, and prints a line.
KEEPS = """#!{python}
import json, sys
with open(__file__ + ".given", "w") as kept:
    json.dump([sys.argv[1:], sys.stdin.read()], kept)
print({line!r})
"""


class Tool(unittest.TestCase):
    def run_with(self, scripts, *words, links=(), given=None):
        """What it says with these scripts as the only programs on the PATH, beside the shell's. What those
        that keep it were given goes into the dict `given`."""
        with tempfile.TemporaryDirectory() as folder:
            for name, text in scripts.items():
                script = Path(folder) / name
                script.write_text(text if text.startswith("#!") else "#!/bin/sh\n" + text, "utf-8")
                script.chmod(0o755)
            for name in links:
                (Path(folder) / name).symlink_to(shutil.which(name))
            settings = dict(os.environ, PATH=folder, FAREY_LIBRARY=str(library.path().resolve()))
            command = [sys.executable, str(TOOL), *words]
            came = subprocess.run(command, env=settings, stdin=subprocess.DEVNULL, capture_output=True, text=True, timeout=120)
            for kept in Path(folder).glob("*.given"):
                given[kept.name[: -len(".given")]] = json.loads(kept.read_text("utf-8"))
            return came

    def rows(self, said):
        return [[cell.strip() for cell in line.split("|")[1:-1]] for line in said.splitlines()[2:]]

    def given(self, runs):
        """What `sage` and `gp` are given: words and standard input."""
        found = {}
        keeps = {name: KEEPS.format(python=sys.executable, line=line) for name, line in (("sage", "ms 1 2 3 4 6"), ("gp", "ms 5"))}
        came = self.run_with(keeps, str(runs), given=found)
        self.assertEqual((came.returncode, came.stderr), (0, ""))
        self.assertEqual([row[1:3] for row in self.rows(came.stdout)], [["1", "5"], ["2", ""], ["3", ""], ["4", ""], ["6", ""], ["", ""], ["", ""]])
        return found


class CompareSystems(Tool):
    def test_nothing_is_there(self):
        came = self.run_with({}, "2")
        self.assertEqual(came.returncode, 0, came.stderr)
        for name in ("sage", "gp"):
            self.assertIn(f"there is no {name} on the PATH", came.stderr)
        rows = self.rows(came.stdout)
        self.assertEqual(len(rows), 7)
        for _, sage, pari, by_c, by_python in rows:
            self.assertEqual((sage, pari), ("", ""))
            self.assertGreater(float(by_c), 0)
            self.assertGreater(float(by_python), 0)

    def test_both_are_there(self):
        came = self.run_with({"sage": "echo ms 995 337 34 15.9 2", "gp": "echo ms 12.5"}, "1")
        self.assertEqual((came.returncode, came.stderr), (0, ""))
        said = [row[1:3] for row in self.rows(came.stdout)]
        self.assertEqual(said, [["995", "12.5"], ["337", ""], ["34", ""], ["15.9", ""], ["2", ""], ["", ""], ["", ""]])

    def test_one_fails(self):
        for script in ("exit 1", "echo nothing", "echo ms 1"):
            came = self.run_with({"sage": script}, "1")
            self.assertEqual(came.returncode, 1)
            self.assertIn("sage gave no times", came.stderr)

    def test_wrong_words(self):
        for words in (["0"], ["x"], ["-1"], ["1", "2"], ["²"], ["٣"], [""], ["100001"], ["9" * 5000]):
            came = self.run_with({}, *words)
            self.assertEqual((came.returncode, came.stdout), (1, ""))
            self.assertEqual(came.stderr, "usage: tools/compare-systems [RUNS]\n")


class SageStandIn:
    """The names that the text for Sage uses. Each checks what it is given, and takes a time
    by the clock, so many seconds for the first call of a kind, the second, and so on."""

    def __init__(self, times):
        self.clock = 1000.0
        self.times = {kind: list(row) for kind, row in times.items()}
        self.asked = []

    def takes(self, kind):
        self.asked.append(kind)
        self.clock += self.times[kind].pop(0)

    def names(self):
        stand_in = self

        class Gamma0:
            def __init__(self, N):
                assert N == 990, N

        class SL2Z:
            def __init__(self, entries):
                a, b, c, d = self.entries = tuple(entries)
                assert a * d - b * c == 1 and c % 990 == 0, entries

        class FareySymbol:
            def __init__(self, group):
                assert isinstance(group, Gamma0)
                stand_in.takes("symbol")

            def word_problem(self, member):
                assert isinstance(member, SL2Z)
                stand_in.takes(member.entries)

            def coset_reps(self):
                stand_in.takes("cosets")

            def __contains__(self, member):
                assert isinstance(member, SL2Z) and member.entries == MEMBERS[1]
                stand_in.takes("in")
                return True

        return {"Gamma0": Gamma0, "SL2Z": SL2Z, "FareySymbol": FareySymbol}


class Texts(Tool):
    def test_sage(self):
        """Its text is Python. Run with stand-ins for Sage's names it makes the symbol of Γ0(990), asks for the two
        words, the representatives and a member, five times each, and prints the medians of the seconds by the clock, as milliseconds."""
        words, read = self.given(5)["sage"]
        self.assertEqual((words[0], len(words), read), ("-c", 2, ""))
        # the first symbol is made before the clock is looked at
        times = {"symbol": [77, 4, 1, 3, 90, 2], MEMBERS[0]: [5, 50, 6, 60, 7], MEMBERS[1]: [1 / 2048, 0.5, 8, 0, 1 / 1024], "cosets": [1, 1, 9, 9, 9], "in": [3, 2, 1, 5, 4]}
        stand_in = SageStandIn(times)
        said = io.StringIO()
        with mock.patch("time.perf_counter", lambda: stand_in.clock), contextlib.redirect_stdout(said):
            exec(compile(words[1], "the text for Sage", "exec"), stand_in.names())
        self.assertEqual(stand_in.asked, ["symbol"] * 6 + [MEMBERS[0]] * 5 + [MEMBERS[1]] * 5 + ["cosets"] * 5 + ["in"] * 5)
        printed = said.getvalue().split()
        self.assertEqual([printed[0], *map(float, printed[1:])], ["ms", 3000, 7000, 1000 / 1024, 9000, 3000])

    def test_gp(self):
        """Its text asks seven times for ten polygons of Γ0(990), divides the wall clock's milliseconds by ten and prints the middle one."""
        words, read = self.given(7)["gp"]
        self.assertEqual(words, ["-q", "-f"])
        found = re.fullmatch(
            r"\{my\(v=vector\((\d+),i,my\(t=getwalltime\(\)\);for\(j=1,(\d+),mspolygon\((\d+)\)\);\(getwalltime\(\)-t\)/(\d+)\.\)\);"
            r"v=vecsort\(v\);print\(\"ms \",v\[\(#v\+1\)\\2\]\)\}\n",
            read,
        )
        runs, polygons, N, divisor = map(int, found.groups())
        self.assertEqual((runs, N), (7, 990))
        self.assertEqual(polygons, divisor)
        # where gp is there it takes the text, and the time goes into PARI's column alone
        links = ["gp"] if is_here("gp") else []
        came = self.run_with({}, "1", links=links)
        self.assertEqual(came.returncode, 0, came.stderr)
        self.assertEqual("there is no gp on the PATH" in came.stderr, not links)
        column = [row[2] for row in self.rows(came.stdout)]
        self.assertEqual(column[1:], [""] * 6)
        self.assertEqual([float(time) > 0 for time in column[:1] if time], [True] * len(links))

    def test_the_engines_group(self):
        """What the engine is asked for is Γ0(990), and the same two matrices."""
        tool = runpy.run_path(str(TOOL), run_name="compare-systems")
        self.assertEqual((tool["N"], tool["ONE"], tool["MEMBERS"]), (990, by_hand.I, MEMBERS))
        self.assertEqual(len(tool["JOBS"]), 7)
        asked = []

        class Library:
            """The library, with a note of each family and N."""

            def __getattr__(self, name):
                function = getattr(library.load(), name)

                def noted(*arguments):
                    if name.startswith("farey_named"):
                        asked.append((name, *arguments[:2]))
                    return function(*arguments)

                return noted

        # the tool's own functions look for it in their module
        names = tool["engine"].__globals__
        with mock.patch.dict(names, library=mock.Mock(wraps=library, load=Library, TABLE=library.TABLE, COSETS=library.COSETS)):
            times = names["engine"](2)
        self.assertEqual([len(row) for row in times], [7, 7])
        self.assertEqual(sorted(set(asked)), [("farey_named_symbol_wide", 0, 990), ("farey_named_tables", 0, 990)])

"""tools/compare-intersections, where GAP is missing, where it hasn't the package, and where it is there; and what it is sent."""

import os
import re
import runpy
import shutil
import subprocess
import sys
import tempfile
import unittest
from pathlib import Path

from farey import library

from . import reckoning as by_hand
from .test_systems import is_here

TOOL = by_hand.REPOSITORY / "tools/compare-intersections"
#: What the intersections have: Γ0(432), Γ0(800), and three whose indices are coprime, so that they are multiplied.
POINTS = [864, 1440, 24 * 12, 24 * 24, 6 * 150]
VERTICES = [289, 481, 97, 193, 301]


class CompareIntersections(unittest.TestCase):
    def run_with(self, script, *words, link=False):
        """What it says with this script as `gap`, or GAP itself, as the only program on the PATH beside the shell's."""
        with tempfile.TemporaryDirectory() as folder:
            gap = Path(folder) / "gap"
            if link:
                gap.symlink_to(shutil.which("gap"))
            elif script is not None:
                gap.write_text(f"#!/bin/sh\n/bin/cat > {folder}/given\n{script}\n", "utf-8")
                gap.chmod(0o755)
            path = f"{folder}:{os.environ['PATH']}" if link else folder
            settings = dict(os.environ, PATH=path, FAREY_LIBRARY=str(library.path().resolve()))
            came = subprocess.run([sys.executable, str(TOOL), *words], env=settings, stdin=subprocess.DEVNULL, capture_output=True, text=True, timeout=300)
            given = Path(folder) / "given"
            self.given = given.read_text("utf-8") if given.exists() else None
            return came

    def rows(self, said):
        return [[cell.strip() for cell in line.split("|")[1:-1]] for line in said.splitlines()[2:]]

    def test_without_gap(self):
        for script, sentence in ((None, "there is no gap on the PATH"), ("echo none", "GAP hasn't the package congruence")):
            came = self.run_with(script, "1")
            self.assertEqual(came.returncode, 0, came.stderr)
            self.assertIn(sentence, came.stderr)
            rows = self.rows(came.stdout)
            self.assertEqual([(int(points), int(vertices)) for _, points, vertices, *_ in rows], list(zip(POINTS, VERTICES)))
            for row in rows:
                self.assertEqual(row[3], "")
                self.assertTrue(all(float(time) > 0 for time in row[4:]))

    def test_times(self):
        """GAP's times go into its column; each pair is asked for by its two groups, as often as is said."""
        lines = "\n".join(f"echo 'ms [ {i}.5, {vertices} ]'" for i, vertices in enumerate(VERTICES, 1))
        came = self.run_with(lines, "7")
        self.assertEqual((came.returncode, came.stderr), (0, ""))
        self.assertEqual([row[3] for row in self.rows(came.stdout)], ["1.5", "2.5", "3.5", "4.5", "5.5"])
        self.assertIn("for i in [1 .. 7] do", self.given)
        asked = re.findall(r"IntersectionOfCongruenceSubgroups\((\w+)\((\d+)\), (\w+)\((\d+)\)\)", self.given)
        short = {"CongruenceSubgroupGamma0": "Γ0", "CongruenceSubgroupGamma1": "Γ1", "PrincipalCongruenceSubgroup": "Γ"}
        pairs = [((short[a], int(m)), (short[b], int(n))) for a, m, b, n in asked]
        self.assertEqual(pairs, runpy.run_path(str(TOOL), run_name="compare-intersections")["PAIRS"])
        self.assertEqual([row[0] for row in self.rows(came.stdout)], [" and ".join(f"{family}({N})" for family, N in pair) for pair in pairs])

    def test_failures(self):
        for script in ("exit 1", "echo nothing", "echo 'ms [ 1., 289 ]'"):
            came = self.run_with(script, "1")
            self.assertEqual(came.returncode, 1)
            self.assertIn("GAP gave no times", came.stderr)
        came = self.run_with("\n".join(["echo 'ms [ 1., 7 ]'"] * 5), "1")
        self.assertEqual(came.returncode, 1)
        self.assertIn("GAP has 7 vertices", came.stderr)

    def test_gap_itself(self):
        """Where GAP is there, its symbols have as many vertices."""
        if is_here("gap"):
            came = self.run_with(None, "1", link=True)
            self.assertEqual(came.returncode, 0, came.stderr)
            self.assertEqual([int(row[2]) for row in self.rows(came.stdout)], VERTICES)

    def test_wrong_words(self):
        for words in (["0"], ["x"], ["-1"], ["1", "2"], ["²"], [""]):
            came = self.run_with(None, *words)
            self.assertEqual((came.returncode, came.stdout), (1, ""))
            self.assertEqual(came.stderr, "usage: tools/compare-intersections [RUNS]\n")

"""tools/reading-list: what a referee reads, on shelves (docs/reading-list.txt), with the counts in docs/PROMISES.md; and tools/long-lines."""

import re
import shutil
import subprocess
import tempfile
import unittest
from pathlib import Path

from . import reckoning as by_hand


def said(folder, *words):
    came = subprocess.run([folder / "tools/reading-list", *words], capture_output=True, text=True, timeout=60)
    return came.returncode, came.stdout


class Shelves(unittest.TestCase):
    def test_as_they_are(self):
        """Each file of definitions stands on one shelf, and docs/PROMISES.md has the shelves with their lines."""
        code, line = said(by_hand.REPOSITORY)
        self.assertEqual(code, 0, line)
        counts = [int(count.replace(",", "")) for count in re.findall(r": ([\d,]+) lines", line)]
        self.assertEqual(len(counts), 4, line)

    def test_faults_are_named(self):
        """In a copy: a file that is gone, one that is new, a definition that the first shelf takes from another, a line more."""
        with tempfile.TemporaryDirectory() as place:
            copy = Path(place)
            for name in ("tools/reading-list", "docs/reading-list.txt", "docs/PROMISES.md"):
                (copy / name).parent.mkdir(exist_ok=True)
                shutil.copy(by_hand.REPOSITORY / name, copy / name)
            for specs in (by_hand.REPOSITORY / "crates").glob("*/specs"):
                shutil.copytree(specs, copy / "crates" / specs.parent.name / "specs")
            self.assertEqual(said(copy)[0], 0)
            shelves = [part.split("\nshelf ")[0] for part in (copy / "docs/reading-list.txt").read_text("utf-8").split(": what ")[1:]]
            first, jobs, pinned = [self.whole_files(copy, shelf) for shelf in shelves[:3]]
            path, text = first[0], first[0].read_text("utf-8")

            path.unlink()
            self.assert_names(copy, f"there is no {path.relative_to(copy)}")
            path.write_text(text + "\n-- one line more\n", "utf-8")
            self.assert_names(copy, "docs/PROMISES.md: not as tools/reading-list --write makes it")
            self.assertEqual(said(copy, "--write")[0], 0)
            path.write_text(text, "utf-8")
            self.assertEqual(said(copy, "--write")[0], 0)

            new = path.with_name("NewOne.antt")
            new.write_text("-- nothing\n", "utf-8")
            self.assert_names(copy, f"{new.relative_to(copy)}: it stands 0 times")
            new.unlink()

            for number, files in ((2, jobs), (3, pinned)):
                other = next(file for file in files if "abbrev pub" in file.read_text("utf-8"))
                name = re.search(r"^(?:abbrev|unfoldable) pub (\w+) :", other.read_text("utf-8"), re.M)[1]
                taken = f"use Rattle.{other.parents[1].name}.specs.{other.stem}.{{{name}}}\n{text}\nabbrev pub one-more : Type 0\none-more = {name}\n"
                path.write_text(taken, "utf-8")
                self.assert_names(copy, f"{path.relative_to(copy)} names of {other.relative_to(copy)} (shelf {number}): {name}")

    def assert_names(self, folder, fault):
        code, lines = said(folder)
        self.assertEqual(code, 1)
        self.assertIn(fault, lines)

    def whole_files(self, folder, shelf):
        lines = [line.split(": ") for line in shelf.splitlines() if re.fullmatch(r"[a-z_0-9]+: [A-Z].*", line)]
        return [folder / f"crates/{crate}/specs/{name}.antt" for crate, names in lines for name in names.split() if "." not in name]


class LongLines(unittest.TestCase):
    def test_counted(self):
        """It counts characters, and lists each line that is too long."""
        with tempfile.TemporaryDirectory() as place:
            copy = Path(place)
            for name in ("tools", "crates/one/src", "crates/one/proofs"):
                (copy / name).mkdir(parents=True)
            shutil.copy(by_hand.REPOSITORY / "tools/long-lines", copy / "tools")
            (copy / "crates/one/src/lib.rt").write_text("α" * 120 + "\n" + "β" * 121 + "\n", "utf-8")
            (copy / "crates/one/proofs/Lib.antt").write_text("γ" * 160 + "\n" * 400, "utf-8")
            came = subprocess.run([copy / "tools/long-lines"], capture_output=True, text=True, timeout=60)
            self.assertEqual(came.returncode, 1)
            self.assertIn("crates/one/src/lib.rt:2: 121\n", came.stdout)
            self.assertIn("src: 1 lines over 120, the longest 121\n", came.stdout)
            self.assertIn("proofs: 0 lines over 160, the longest 160\n", came.stdout)
            (copy / "crates/one/src/lib.rt").write_text("", "utf-8")
            self.assertEqual(subprocess.run([copy / "tools/long-lines"], capture_output=True, timeout=60).returncode, 0)


if __name__ == "__main__":
    unittest.main()

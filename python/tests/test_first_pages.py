"""README.md, docs/TUTORIAL.md, and what all pages have in common.

| what a page shows         | what is asked                                                          |
|---------------------------|------------------------------------------------------------------------|
| a `python` block          | each line prints what is shown                                         |
| a `console` block         | by `rust/reference/tests/handbook.rs`                                  |
| an `sh` block             | each is named here, and run or compared with what the gate runs        |
| a word, a time, a limit   | multiplied out; docs/BENCHMARKS.md; include/farey.h                    |
| a link                    | the file and its heading are there                                     |
| docs/C-CALLS.md           | it is what tools/c-calls writes                                        |
"""

import math
import os
import re
import subprocess
import sys
import tempfile
import unittest
import zipfile

from farey import Symbol, library

from . import reckoning as by_hand
from .pages import Session, blocks, page
from .test_systems import L, R, S2, S3

PAGES = ["README.md", *(f"docs/{name}.md" for name in ("TUTORIAL", "HANDBOOK", "C-CALLS", "INDEX-TABLE", "ASSUMPTIONS"))]


def rows(name, heading, number=0):
    """The cells of the rows of a table behind a heading, the first or that of a number, without its two first lines."""
    behind = page(name).split(f"\n{heading}\n", 1)[1]
    table = re.findall(r"^\|.*\n\|[-|]+\n((?:\|.*\n)+)", behind, re.M)[number]
    return [[cell.strip() for cell in line.strip("|").split("|")] for line in table.splitlines()]


def shell(lines, folder=by_hand.REPOSITORY, package=by_hand.REPOSITORY / "python"):
    """What lines of a shell print in a folder, with the module in the folder `package` and the library that it finds."""
    settings = dict(os.environ, PYTHONPATH=str(package), PYTHONDONTWRITEBYTECODE="1")
    settings.pop(library.VARIABLE, None)
    # python3 is the Python that runs this
    settings["PATH"] = os.path.dirname(sys.executable) + os.pathsep + settings.get("PATH", "")
    came = subprocess.run(["bash", "-c", lines], cwd=folder, env=settings, capture_output=True, text=True, timeout=600)
    assert came.returncode == 0, came.stderr
    return came.stdout


def index_of(family, N):
    """The index of Γ0(N), Γ1(N), Γ(N) in PSL2(Z)."""
    units = sum(math.gcd(u, N) == 1 for u in range(1, N + 1))
    primes = [p for p in range(2, N + 1) if N % p == 0 and all(p % q for q in range(2, p))]
    gamma0 = N * math.prod(p + 1 for p in primes) // math.prod(primes)
    gamma1 = gamma0 * units // 2 if N > 2 else gamma0
    return (gamma0, gamma1, N * gamma1)[family]


class Readme(Session):
    def test_size(self):
        lines = page("README.md").splitlines()
        self.assertLessEqual(len(lines), 120)
        self.assertLessEqual(max(map(len, lines)), 100)

    def test_order(self):
        headings = re.findall(r"^## (.*)$", page("README.md"), re.M)
        expected = ["Install", "Beside Sage, PARI, GAP and Magma", "Limits", "Command line", "What is proved, and how to check it", "References"]
        self.assertEqual(headings, expected)

    def test_session(self):
        """The session runs, and its word and its none are right by hand."""
        (session,) = blocks("python", "README.md")
        self.assertEqual(session.count(">>> "), 5)
        names, _ = self.run_page("README.md")
        G = names["G"]
        generators = [matrix for _, matrix in by_hand.generators_of(G.vertices, G.pairings)]
        self.assertIn(f"\n{generators}\n", session)
        self.assertTrue(all(matrix[2] % 11 == 0 for matrix in generators))
        word = by_hand.numbers(re.search(r"^\(\[(.*)\], None\)$", session, re.M)[1].replace(",", " "))
        self.assertEqual(by_hand.value(word, generators), (1, 0, 11, 1))
        letters = "".join(f"g{abs(letter)}{'⁻¹' if letter < 0 else ''} " for letter in word).strip()
        self.assertIn(f"(1 0; 11 1) is {letters},", page("README.md"))
        self.assertNotEqual(5 % 11, 0)

    def test_install(self):
        """Three lines. The first is for the reader's own address. Of the second the gate runs the first half, and the second half
        is a wheel, which is made and unpacked here. The third is run with what was unpacked, and prints the word of the session."""
        install, test = blocks("sh", "README.md")
        clone, make, ask = install.splitlines()
        self.assertRegex(clone, r"^git clone \S+ farey$")
        self.assertEqual(make, "cd farey && ./farey library && pip install ./python")
        self.assertIn("./farey library", page("test"))
        with tempfile.TemporaryDirectory() as folder:
            backend = by_hand.REPOSITORY / "python/backend/farey_backend.py"
            made = subprocess.run([sys.executable, "-B", backend, folder], capture_output=True, text=True, timeout=600)
            self.assertEqual(made.returncode, 0, made.stderr)
            package = os.path.join(folder, "package")
            zipfile.ZipFile(made.stdout.strip()).extractall(package)
            said = shell(ask, folder, package)
        (session,) = blocks("python", "README.md")
        self.assertIn(f"\n({said.strip()}, None)\n", session)
        self.assertEqual(test, "./test\n")
        self.assertTrue(os.access(by_hand.REPOSITORY / "test", os.X_OK))
        self.assertIn('echo "$passed passed, $failed failed"', page("test"))

    def test_times(self):
        """The times are those of docs/BENCHMARKS.md."""
        measured = {cells[0]: cells[1:] for cells in rows("docs/BENCHMARKS.md", "## Beside SageMath and PARI")}
        met = {cells[0]: cells[1:] for cells in rows("docs/BENCHMARKS.md", "## Intersections beside GAP")}
        table = rows("README.md", "## Beside Sage, PARI, GAP and Magma", 1)
        self.assertEqual(len(table), 4)
        for job, sage, pari, gap, python, call in table:
            if gap:
                one, other = re.fullmatch(r"symbol of (\S+) ∩ (\S+)", job).groups()
                self.assertEqual([sage, pari, gap, call, python], ["", "", *met[f"{one} and {other}"][2:]])
            else:
                self.assertEqual([sage, pari, call, python], measured[job])

    def test_limits(self):
        """The numbers of the header, of the checks and of the programs."""
        header = page("include/farey.h")
        constants = {name: int(number) for name, number in re.findall(r"#define FAREY_(\w+) (\d+)", header)}
        limits = dict(rows("README.md", "## Limits"))
        numbers = {name: [int(each.replace(",", "")) for each in re.findall(r"\d[\d,]*\d|\d", limit)] for name, limit in limits.items()}
        self.assertEqual(numbers["vertices of a symbol; its index"], [(constants["TABLE"] - 1) // 3, constants["COSETS"]])
        self.assertIn("the number of vertices isn't from 1 to 1,023", header)
        (permutations,) = numbers["index of permutations, of groups by name, of intersections"]
        self.assertEqual({permutations}, {constants["NAMED"], constants["INTERSECTION"]})
        indexes = {family: sum(index_of(family, N) <= permutations for N in range(1, 1001)) for family in (0, 1, 2)}
        self.assertEqual(numbers["Γ0(N), Γ1(N), Γ(N) by name"], [1000, 0, indexes[1], 1, indexes[2]])
        self.assertEqual(indexes[0], 1000)
        self.assertEqual(numbers["vertex entries; those of a drawing"][1:], [33554432])
        self.assertIn("vertex entry P is over 33,554,432 in size", header)
        self.assertIn("a numerator over 10^9 in size", header)
        self.assertEqual(numbers["matrix entries of a proved query"], [1000000, 10])
        self.assertIn("matrix entry P is over 1,000,000 in size", header)
        self.assertIn("10¹⁸", limits["matrix entries of a proved query"])
        self.assertIn("entry P of the matrix is over 10^18 in size", header)
        self.assertEqual(numbers["pairs in a sheet; symbols in a tower"], [constants["SHEET"], constants["TOWER"]])
        self.assertEqual(numbers["the text that a program reads"], [65536])
        self.assertEqual(numbers["work space of a call; stack, measured"], [constants["WORK"], 16, constants["STACK"] // 1024])


class Tutorial(Session):
    def test_session(self):
        """The sessions run; the figures are those that SageMath gave, and the words are right by hand."""
        names, count = self.run_page("docs/TUTORIAL.md")
        self.assertGreater(count, 20)
        stored = {each[0]: each[1:] for each in by_hand.stored_symbols()}
        for name, H in (("Gamma0(11)", names["G"]), ("Gamma0(37)", names["H"])):
            _, _, index, e2, e3, genus, widths = stored[name]
            self.assertEqual((H.index, H.e2, H.e3, H.genus, sorted(H.widths)), (index, e2, e3, genus, widths))
            self.assertEqual([tuple(each) for each in H.generators], by_hand.generators_of(H.vertices, H.pairings))
        G = names["G"]
        generators = [matrix for _, matrix in by_hand.generators_of(G.vertices, G.pairings)]
        self.assertEqual(by_hand.value(names["word"], generators), (1, 0, 11, 1))
        H = names["H"]
        generators = [matrix for _, matrix in by_hand.generators_of(H.vertices, H.pairings)]
        self.assertTrue(by_hand.alike(by_hand.value(names["turn"], generators), (6, -1, 37, -6)))
        # the matrix of the third group is the identity modulo 6, and moves point 0 of its tables
        self.assertEqual([entry % 6 for entry in names["M"]], [1, 0, 0, 1])
        a, b, c, d = names["M"]
        self.assertEqual(a * d - b * c, 1)

    def test_pictures(self):
        """What the commands of the tutorial and the handbook draw are the plates of these names."""
        commands = [line for name in PAGES[1:3] for block in blocks("sh", name) for line in block.splitlines() if "./farey draw" in line]
        self.assertEqual(len(commands), 4)
        for command in commands:
            drawn = re.fullmatch(r"(.*) > (\S+)", command)
            plate = page(f"docs/plates/{drawn[2]}").replace("<!-- tools/plates writes this file -->\n", "")
            self.assertEqual(shell(drawn[1]), plate, command)

    def test_page(self):
        (command,) = [block for block in blocks("sh", "docs/HANDBOOK.md") if block.startswith("./farey page ")]
        file, made = re.fullmatch(r"./farey page (\S+) > (\S+)\n", command).groups()
        self.assertEqual(shell(command.split(" > ")[0]), Symbol.parse(page(file)).html())
        self.assertTrue(made.endswith(".html"))

    def test_names(self):
        """The matrices that Sage's names stand for."""
        table = {cells[0]: cells[1:] for cells in rows("docs/TUTORIAL.md", "## The same names in Sage and PARI")}

        def matrix(text):
            return tuple(map(int, text.strip("()").replace(";", " ").split()))

        ours = {name[0]: matrix(re.search(r"\(.*?;.*?\)", name)[0]) for name in table if re.match(r"[STR] = ", name)}
        self.assertEqual(ours, {"S": by_hand.S, "T": by_hand.T, "R": by_hand.R})
        self.assertEqual((ours["S"], ours["T"]), (S2, L))
        (sages,) = (cells[0] for name, cells in table.items() if name.startswith("R = "))
        self.assertTrue(sages.startswith("`S2*L`;"))
        self.assertTrue(by_hand.alike(by_hand.product(S2, L), ours["R"]))
        self.assertEqual([matrix(found) for found in re.findall(r"\(.*?;.*?\)", sages)], [R, S3])


class Pages(unittest.TestCase):
    def test_lines(self):
        """At most 120 characters, but for the rows of tables and what a program prints."""
        for name in PAGES[1:]:
            text = re.sub(r"^```(?:console|text.*|python)\n.*?^```$", "", page(name), flags=re.M | re.S)
            for number, line in enumerate(text.splitlines(), 1):
                self.assertTrue(len(line) <= 120 or line.startswith("|"), f"{name}: {line}")

    def test_cause(self):
        """What the handbook says that ./farey says on standard error."""
        (cause,) = re.findall(r"`(refused 20 0: [^`]*)`", page("docs/HANDBOOK.md"))
        came = subprocess.run([by_hand.REPOSITORY / "farey", "gamma0", "1001"], capture_output=True, text=True, timeout=600)
        self.assertEqual((came.returncode, came.stdout, came.stderr), (0, "refused 20 0\n", cause + "\n"))

    def test_links(self):
        """Each link leads to a file, and to a heading of it."""
        count = 0
        for name in PAGES:
            for target in re.findall(r"\]\(([^)\s]+)\)", page(name)):
                path, _, heading = target.partition("#")
                file = (by_hand.REPOSITORY / name).parent / path if path else by_hand.REPOSITORY / name
                self.assertTrue(file.is_file(), f"{name}: {target}")
                if heading:
                    titles = re.findall(r"^#+ (.*)$", file.read_text("utf-8"), re.M)
                    anchors = [re.sub(r"[^\w\- ]", "", title.lower()).replace(" ", "-") for title in titles]
                    self.assertIn(heading, anchors, f"{name}: {target}")
                count += 1
        self.assertGreater(count, 40)

    def test_calls(self):
        """docs/C-CALLS.md is what the script writes, and has each function of the header."""
        made = subprocess.run([by_hand.REPOSITORY / "tools/c-calls"], capture_output=True, text=True, timeout=60)
        self.assertEqual((made.returncode, made.stderr), (0, ""))
        self.assertEqual(made.stdout, page("docs/C-CALLS.md"), "write it anew: tools/c-calls > docs/C-CALLS.md")
        declared = re.findall(r"^uint64_t (farey_\w+)\(", page("include/farey.h"), re.M)
        self.assertEqual(re.findall(r"^### (farey_\w+)$", made.stdout, re.M), declared)
        self.assertGreaterEqual(len(declared), 30)

    def test_examples_of_calls(self):
        """rust/farey/CALLS.md has an example of each call."""
        declared = re.findall(r"^uint64_t (farey_\w+)\(", page("include/farey.h"), re.M)
        shown = re.findall(r"^### (farey_\w+)\n\n(?:[^`].*\n\n)?```rust\n", page("rust/farey/CALLS.md"), re.M)
        self.assertEqual(sorted(shown), sorted(declared))


if __name__ == "__main__":
    unittest.main()

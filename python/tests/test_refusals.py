"""The exception, its sentences, and the example of each refusal."""

import pickle
import re
import shutil
import subprocess
import tempfile
import unittest
from pathlib import Path

import farey
from farey import Refusal, Symbol
from farey.refusal import SENTENCES

from . import reckoning as by_hand

TABLE = by_hand.REPOSITORY / "rust/farey/refusals.txt"
TOOL = by_hand.REPOSITORY / "tools/refusals"


class Sentences(unittest.TestCase):
    def test_one_table(self):
        """The sentences are those of rust/farey/refusals.txt."""
        lines = [line for line in TABLE.read_text("utf-8").splitlines() if line[:1].isdigit()]
        listed = {int(number): sentence for number, sentence in (line.split(" ", 1) for line in lines)}
        self.assertEqual(SENTENCES, listed)
        self.assertGreaterEqual(len(listed), 27)

    def test_all_lists(self):
        """The lists of the header and of the handbook, and the names and numbers of statements and code, are those of the table."""
        came = subprocess.run([TOOL], capture_output=True, text=True, timeout=60)
        self.assertEqual((came.returncode, came.stdout, came.stderr), (0, "28 refusals, all lists as the table\n", ""))

    def test_a_difference_is_found(self):
        """In a copy with one wrong word the tool names the file."""
        with tempfile.TemporaryDirectory() as folder:
            copy = Path(folder)
            named = ["tools/refusals", "rust/farey/refusals.txt", "include/farey.h", "python/farey/refusal.py"]
            named += ["docs/HANDBOOK.md", "docs/CONVENTIONS.md"]
            home, source = Path("crates/call/specs/Refusal.antt"), Path("crates/call/src/refusal.rt")
            examples = [f"examples/{part}" for part in ("refusals", "imports")]
            for name in [*named, home, source]:
                (copy / name).parent.mkdir(parents=True, exist_ok=True)
                shutil.copy(by_hand.REPOSITORY / name, copy / name)
            for name in examples:
                shutil.copytree(by_hand.REPOSITORY / name, copy / name)
            said = lambda: subprocess.run([copy / "tools/refusals"], capture_output=True, text=True, timeout=60)
            self.assertEqual(said().returncode, 0)
            for name, old, new in (
                ("include/farey.h", "no vertex is 0/1", "a vertex is 0/1"),
                ("python/farey/refusal.py", "no vertex is 0/1", "a vertex is 0/1"),
                ("docs/HANDBOOK.md", "5. no vertex is 0/1", "5. a vertex is 0/1"),
                ("docs/CONVENTIONS.md", "| 21 | ", "| 22 | "),
                (str(home), "refusal_number (WrongOrder n) = 14", "refusal_number (WrongOrder n) = 15"),
                (str(home), "BadPairing", "WrongPairing"),
                (str(source), "// 10: 'none'", "// 11: 'none'"),
                (str(source), "    NoWord,", "    NoWord(usize),"),
            ):
                text = (copy / name).read_text("utf-8")
                self.assertIn(old, text)
                (copy / name).write_text(text.replace(old, new), "utf-8")
                came = said()
                self.assertEqual(came.returncode, 1)
                self.assertIn(name.rsplit("/", 1)[0] if name.endswith(".rt") else name, came.stdout)
                (copy / name).write_text(text, "utf-8")

    def test_place_is_put_in(self):
        for number, sentence in SENTENCES.items():
            refusal = Refusal(number, 47)
            self.assertEqual(refusal.sentence, sentence.replace("{place}", "47"))
            self.assertEqual(str(refusal), f"refused {number} 47: {refusal.sentence}")
            self.assertNotIn("{", refusal.sentence)

    def test_another_number(self):
        self.assertEqual(str(Refusal(1000, 3)), "refused 1000 3: refusal 1000, place 3")

    def test_pickled(self):
        again = pickle.loads(pickle.dumps(Refusal(4, 2)))
        self.assertEqual((again.number, again.place, type(again)), (4, 2, Refusal))

    def test_a_sentence_of_its_own(self):
        refusal = Refusal(8, 2, "entry {place} of M is too large")
        for each in (refusal, pickle.loads(pickle.dumps(refusal))):
            self.assertEqual((each.number, each.place, each.sentence), (8, 2, "entry 2 of M is too large"))
            self.assertEqual(str(each), "refused 8 2: entry 2 of M is too large")

    def test_is_an_exception(self):
        """A ValueError, which is told from others by its class."""
        self.assertTrue(issubclass(Refusal, ValueError))
        with self.assertRaises(ValueError):
            Symbol([0], [-2, -2])
        self.assertEqual(Refusal(4, 2).args, (4, 2))


class Examples(unittest.TestCase):
    """The example of each refusal in the table gets the answer that is shown there."""

    def answers(self):
        shown = re.findall(r"^(\d+) .*\n(?:  .*\n)*?  example: (\S+): (.*)$", TABLE.read_text("utf-8"), re.M)
        for number, file, answer in shown:
            yield int(number), by_hand.REPOSITORY / file, answer

    def symbol(self, numbers):
        return Symbol.parse(" ".join(map(str, numbers)))

    def said(self, file):
        text = file.read_text("utf-8")
        try:
            if file.suffix == ".txt":
                H = Symbol.parse(text)
                return [H.genus, H.level]
            if file.suffix == ".drawing":
                return Symbol.parse(text).svg()
            if file.suffix == ".cycles":
                return Symbol.from_cycles(text[:-1])
            given = by_hand.numbers(text)
            if file.suffix == ".group":
                family, N = given
                return (Symbol.gamma0, Symbol.gamma1, Symbol.gamma)[family](N)
            if file.suffix == ".pair":
                n = given[0]
                return Symbol.from_permutations(given[1 : n + 1], given[n + 1 :], wide=False)
            if file.suffix == ".intersection":
                first = 3 * given[0] + 2
                return self.symbol(given[:first]).intersection_tables(self.symbol(given[first:]))
            if file.suffix == ".tower":
                return self.tower(given)
            if file.suffix == ".exchange":
                return self.symbol(given[:-2]).exchanged(*given[-2:])
            H = self.symbol(given[:-8])
            word = H.word(given[-8:-4], given[-4:])
            return "refused 10 0" if word is None else f"refused 11 {len(word)}"
        except Refusal as refusal:
            return f"refused {refusal.number} {refusal.place}"

    def tower(self, given):
        """Entry by entry. The last one has all that is left, and a symbol of which that isn't the table is refused as it is made."""
        entries, rest = [], given[1:]
        for last in range(given[0] - 1, -1, -1):
            named, v = rest[:2]
            size = len(rest) if last == 0 else 2 + 3 * v + 1
            table, rest = rest[2:size], rest[size:]
            symbol = Symbol(list(zip(table[: 2 * v : 2], table[1 : 2 * v : 2])), table[2 * v :])
            entries.append((symbol, None if named == -1 else named))
        return farey.tower(entries)

    def test_all(self):
        met = []
        for number, file, answer in self.answers():
            with self.subTest(file.name):
                # 17 is the level's own. 11 is the program's: a word over 16,384 letters, which Python gives; and so is 8
                said = f"refused 11 {10**6 + 1}" if number == 8 else answer.replace("level ", "")
                self.assertEqual(self.said(file), said)
                met.append(number)
        self.assertEqual(sorted(met), [*range(1, 18), *range(19, 28)])

    def test_only_the_level_is_refused(self):
        H = Symbol.parse((by_hand.REPOSITORY / "examples/refusals/17.txt").read_text("utf-8"))
        with self.assertRaises(Refusal) as caught:
            H.level
        self.assertEqual((caught.exception.number, caught.exception.place), (17, 0))
        self.assertEqual((H.index, H.genus), (sum(H.widths), by_hand.figures_of(H.S, H.R)[2]))

    def test_the_wide_rule_passes_16(self):
        """Pairs of 600 points without fixed ones: the rule of the leftmost side is
        refused most of them, the wide rule none."""
        rng = by_hand.seeded("wide")
        refused = 0
        for _ in range(10):
            s, r = list(range(600)), list(range(600))
            while len(by_hand.numbered(s, r)) != 600:
                points = rng.sample(range(600), 600)
                for x, y in zip(points[::2], points[1::2]):
                    s[x], s[y] = y, x
                points = rng.sample(range(600), 600)
                for x, y, z in zip(points[::3], points[1::3], points[2::3]):
                    r[x], r[y], r[z] = y, z, x
            H = Symbol.from_permutations(s, r)
            self.assertEqual((H.S, H.R), by_hand.renumbered(s, r))
            try:
                Symbol.from_permutations(s, r, wide=False)
            except Refusal as refusal:
                self.assertEqual(refusal.number, 16)
                refused += 1
        self.assertGreater(refused, 4)

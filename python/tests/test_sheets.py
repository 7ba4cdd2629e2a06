"""Many pairs at once: `words`, and the script that splits them over many processes."""

import os
import re
import shutil
import subprocess
import sys
import tempfile
import unittest
from pathlib import Path

from farey import Refusal, Symbol, Word, library

from . import reckoning as by_hand

SHEETS = by_hand.REPOSITORY / "examples/sheets"
SYMBOL = by_hand.REPOSITORY / "examples/gamma0-11.txt"
PAIRS = SHEETS / "gamma0-11.pairs"
ANSWERS = SHEETS / "gamma0-11.answers"

#: It stands for GNU parallel: it keeps the words that it is given, and has xargs run the jobs.
PARALLEL = """#!/bin/sh
if [ "$1" = --version ]; then
    echo "{version}"
    exit
fi
echo "$*" >> "$0.given"
shift 5
exec xargs -0 -n 1 "$@"
"""


def queried(H, A, B):
    """The same as the program answers, which refuses entries over 1,000,000 in size."""
    large = [place for place, entry in enumerate([*A, *B]) if abs(entry) > 10**6]
    return (8, large[0]) if large else single(H, A, B)


def single(H, A, B):
    """The answer for a pair by a call of its own, with its sign."""
    try:
        word = H.word(A, B)
    except Refusal as refusal:
        return refusal.number, refusal.place
    return None if word is None else (word.sign, list(word))


def told(answer):
    """The same of an answer among many."""
    if isinstance(answer, Refusal):
        return answer.number, answer.place
    return None if answer is None else (answer.sign, list(answer))


def line(answer):
    """As the program `query` prints it."""
    if answer is None:
        return "refused 10 0"
    if isinstance(answer[1], int):
        return "refused {} {}".format(*answer)
    return " ".join(["word", "+" if answer[0] > 0 else "-", *map(str, answer[1])])


class Words(unittest.TestCase):
    def test_as_single_queries(self):
        """Sheets of each size around the largest, and pairs of each kind."""
        rng = by_hand.seeded("sheets")
        matrices = by_hand.small_matrices(4)
        wrong = [(2, 0, 0, 1), (1, 0, 0, 10**6 + 1), (-(10**30), 1, 0, 1), (1, 0, 10**6 + 1, 1), (1, 33 * 10**30, 0, 1)]
        met = {"word": 0, "none": 0, 9: 0, 11: 0}
        for H, count in zip([Symbol([0], [-2, -3]), Symbol.gamma0(2), Symbol.gamma0(11), Symbol.gamma(3)] * 2, [0, 1, 2, 255, 256, 257, 512, 600]):
            pairs = [[rng.choice(matrices), rng.choice(matrices)] for _ in range(count)]
            for pair in pairs:
                if rng.random() < 0.2:
                    pair[rng.randrange(2)] = rng.choice(wrong)
            answers = H.words(pairs)
            self.assertEqual([told(answer) for answer in answers], [single(H, *pair) for pair in pairs])
            for answer in answers:
                self.assertIsInstance(answer, (Word, Refusal, type(None)))
                met["none" if answer is None else answer.number if isinstance(answer, Refusal) else "word"] += 1
        self.assertTrue(all(count >= 20 for count in met.values()), met)

    def test_long_words(self):
        """Words that have no room at first: T^n in Γ0(2) has n letters."""
        H, powers = Symbol.gamma0(2), [1, 16_384, 1, 20_000, 3, 0, 100_000, 2] + 250 * [70] + [16_385, 5]
        words = H.words([(by_hand.I, (1, n, 0, 1)) for n in powers])
        self.assertEqual(words, [[1] * n for n in powers])
        self.assertEqual({word.sign for word in words}, {1})
        (one,) = H.words([(by_hand.I, (-1, -(10**6), 0, -1))])
        self.assertEqual((len(one), one.sign), (10**6, -1))

    def test_what_is_taken(self):
        """Any sequence of pairs, a generator too; matrices as everywhere."""
        H = Symbol.gamma0(2)
        expected = [[1], [2, 1]]
        rows = [([[1, 0], [0, 1]], [[1, 1], [0, 1]]), ((1, 0, 0, 1), [1, 0, 2, 1])]
        for pairs in (rows, tuple(rows), iter(rows), (pair for pair in rows), [list(pair) for pair in rows]):
            self.assertEqual(H.words(pairs), expected)
        for pairs in ([], (), iter(())):
            self.assertEqual(H.words(pairs), [])

    def test_what_is_no_pair(self):
        H, one = Symbol.gamma0(2), (1, 0, 0, 1)
        for wrong, kind, said in [
            (5, TypeError, "pairs is 5"),
            ("ab", TypeError, "pairs is 'ab'"),
            ([one], ValueError, r"pairs[0] has 4 members"),
            ([(one, one), (one,)], ValueError, "pairs[1] has 1 members"),
            ([(one, one, one)], ValueError, "pairs[0] has 3 members"),
            ([(one, (1, 2))], ValueError, "B of pairs[0] has 2 numbers"),
            ([(one, one), ((1, 0, 0, True), one)], TypeError, "A of pairs[1][3] is True"),
            ([(one, 1.5)], TypeError, "B of pairs[0] is 1.5"),
        ]:
            with self.assertRaises(kind) as caught:
                H.words(wrong)
            self.assertIn(said, str(caught.exception))


class Processes(unittest.TestCase):
    """examples/sheets/answer-pairs, without GNU parallel and with what stands for it."""

    def run_script(self, *words, parallel=None, **settings):
        """What it answers, with no other `parallel` than the one that is given, and how often that one was asked."""
        with tempfile.TemporaryDirectory() as folder:
            for name in ("bash", "sh", "split", "xargs", "nproc", "mktemp", "rm", "cat", "dirname", "readlink", "grep", "env"):
                (Path(folder) / name).symlink_to(shutil.which(name))
            (Path(folder) / "python3").write_text(f'#!/bin/sh\nexec "{sys.executable}" "$@"\n', "utf-8")
            (Path(folder) / "python3").chmod(0o755)
            if parallel is not None:
                (Path(folder) / "parallel").write_text(parallel, "utf-8")
                (Path(folder) / "parallel").chmod(0o755)
            scratch = Path(folder) / "scratch"
            scratch.mkdir()
            environment = dict(os.environ, PATH=folder, TMPDIR=str(scratch), FAREY_LIBRARY=str(library.path().resolve()), **settings)
            command = [str(SHEETS / "answer-pairs"), *map(str, words)]
            came = subprocess.run(command, env=environment, cwd=folder, stdin=subprocess.DEVNULL, capture_output=True, text=True, timeout=120)
            # nothing is left behind
            self.assertEqual(list(scratch.iterdir()), [])
            given = Path(folder) / "parallel.given"
            return came, given.read_text("utf-8") if given.exists() else None

    def test_the_example(self):
        """Its answers are those of single queries, however the pairs are split."""
        H = Symbol.parse(SYMBOL.read_text("ascii"))
        rows = [[int(word) for word in row.split()] for row in PAIRS.read_text("ascii").splitlines()]
        expected = "".join(line(queried(H, row[:4], row[4:])) + "\n" for row in rows)
        self.assertEqual(ANSWERS.read_text("ascii"), expected)
        self.assertGreater(len(rows), 10)
        for each in ("1", "3", str(len(rows)), "4096"):
            came, given = self.run_script(SYMBOL, PAIRS, PAIRS_EACH=each, JOBS="2")
            self.assertEqual((came.returncode, came.stdout, came.stderr, given), (0, expected, "", None))

    def test_with_parallel(self):
        expected = ANSWERS.read_text("ascii")
        stands_for = PARALLEL.replace("{version}", "GNU parallel 20240122")
        came, given = self.run_script(SYMBOL, PAIRS, parallel=stands_for, PAIRS_EACH="5", JOBS="2")
        self.assertEqual((came.returncode, came.stdout, came.stderr), (0, expected, ""))
        self.assertRegex(given, r"\A-0 -j 2 --halt soon,fail=1 python3 \S*/examples/sheets/answer-part \S*/gamma0-11.txt\n\Z")
        # another program of that name is left alone
        came, given = self.run_script(SYMBOL, PAIRS, parallel=PARALLEL.replace("{version}", "parallel of another kind"))
        self.assertEqual((came.returncode, came.stdout, came.stderr, given), (0, expected, "", None))

    def test_no_pairs(self):
        with tempfile.NamedTemporaryFile() as empty:
            came, _ = self.run_script(SYMBOL, empty.name)
        self.assertEqual((came.returncode, came.stdout, came.stderr), (0, "", ""))

    def test_a_part_that_fails(self):
        """A line that is no pair, a symbol that is refused, files that aren't there: no answers at all."""
        fine = "1 0 0 1 1 1 0 1\n"
        refused = by_hand.REPOSITORY / "examples/refused.txt"
        for symbol, text, said in [
            (SYMBOL, 3 * fine + "1 0 0 1 1 1 0\n" + fine, r"isn't a pair, eight numbers: 1 0 0 1 1 1 0$"),
            (SYMBOL, fine + "\n" + fine, "isn't a pair"),
            (SYMBOL, fine + "1 0 0 1 1 x 0 1\n", "isn't a pair"),
            (refused, fine, "refused 6 0: "),
            ("/no/such/file", fine, "No such file"),
        ]:
            with tempfile.NamedTemporaryFile("w") as pairs:
                pairs.write(text)
                pairs.flush()
                came, _ = self.run_script(symbol, pairs.name, PAIRS_EACH="2")
            self.assertNotEqual(came.returncode, 0)
            self.assertEqual(came.stdout, "")
            self.assertTrue(re.search(said, came.stderr, re.M), came.stderr)
        came, _ = self.run_script(SYMBOL, "/no/such/file")
        self.assertNotEqual(came.returncode, 0)
        came, _ = self.run_script(SYMBOL)
        self.assertEqual(came.returncode, 2)
        self.assertIn("usage: answer-pairs", came.stderr)

    def test_one_part(self):
        """The answers get their name when they are whole."""
        with tempfile.TemporaryDirectory() as folder:
            part = Path(folder) / "part-000000"
            shutil.copy(PAIRS, part)
            command = [sys.executable, str(SHEETS / "answer-part"), str(SYMBOL), str(part)]
            settings = dict(os.environ, FAREY_LIBRARY=str(library.path().resolve()))
            subprocess.run(command, env=settings, check=True, timeout=60)
            self.assertEqual(sorted(each.name for each in Path(folder).iterdir()), ["part-000000", "part-000000.answers"])
            self.assertEqual((Path(folder) / "part-000000.answers").read_text("ascii"), ANSWERS.read_text("ascii"))

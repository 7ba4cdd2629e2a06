"""Threads, signal handlers and forks: each thread has a work space of its own, the answers are those of one
thread, and nothing waits for a lock.

Where another thread or a signal handler may come in between, between any two steps of the interpreter, another
call is made by the interpreter's trace (`at_every_step`): so nothing depends on chance.
"""

import os
import signal
import subprocess
import sys
import threading
import time
import unittest

import farey
from farey import Refusal, Symbol, library

from . import reckoning as by_hand

FOLDER = os.path.dirname(farey.__file__)


def at_every_step(main, between):
    """What `main()` gives where `between()` is called before each line, and each step of a line, that it comes to in
    the files of `farey`; and how often that was. What waits for ten seconds waits for ever, and is a TimeoutError."""
    count = 0

    def late(number, frame):
        raise TimeoutError("what was called between two steps waits for them")

    def step(frame, event, argument):
        nonlocal count
        if event in ("line", "opcode"):
            count += 1
            signal.alarm(10)
            between()
        return step

    def enter(frame, event, argument):
        if os.path.dirname(frame.f_code.co_filename) != FOLDER:
            return None
        frame.f_trace_opcodes = True
        return step

    before, handler = sys.gettrace(), signal.signal(signal.SIGALRM, late)
    # Python 3.12 looks at this when the trace is set, and not later
    sys._getframe().f_trace_opcodes = True
    sys.settrace(enter)
    try:
        found = main()
    finally:
        sys.settrace(before)
        signal.alarm(0)
        signal.signal(signal.SIGALRM, handler)
    return found, count


def counted(main):
    """How many steps it takes. From Python 3.12 on they are all seen from the second time on."""
    at_every_step(main, lambda: None)
    return at_every_step(main, lambda: None)[1]


def a_pair(points):
    """S and R of a row of triangles that S joins, with so many points, a multiple of three."""
    s, r = list(range(points)), [x + 1 if x % 3 < 2 else x - 2 for x in range(points)]
    for x in range(2, points - 3, 3):
        s[x], s[x + 1] = x + 1, x
    return s, r


def run_all(threads):
    for thread in threads:
        thread.start()
    for thread in threads:
        thread.join()


class Spaces(unittest.TestCase):
    """No result space is used by two calls: not by two threads, not by a signal handler and what it interrupts."""

    def jobs(self):
        """Pairs of a job and its answer, in twos: the same call with results of two sizes. None keeps what it was asked."""
        two, made = Symbol([0, 1], [1, -2, 1]), [(1, 1, 0, 1), (1, -1, 2, -1)]
        pairs = [a_pair(12), a_pair(600)]
        small, large = [Symbol.from_permutations(s, r) for s, r in pairs]

        def fresh(H):
            return Symbol(H.vertices, H.pairings)

        def expected(s, r):
            s, r = by_hand.renumbered(s, r)
            return s, r, tuple(r[x] for x in s)

        named = {
            "word": [(lambda n=n: two.word(by_hand.I, (1, n, 0, 1)), [n // abs(n)] * abs(n)) for n in (5, -900)],
            "long word": [(lambda n=n: two.word(by_hand.I, (1, n, 0, 1)), [n // abs(n)] * abs(n)) for n in (1200, -3000)],
            "member": [(lambda M=M: M in two, M[2] % 2 == 0) for M in ((1, 0, 2, 1), (1, 0, 3, 1))],
            "large word": [
                (lambda X=X: Symbol([0, 1], [1, -2, 1]).word(X), word)
                for X, word in ((by_hand.value(word, made), word) for word in ([1, 1, 1, 2] * 30, [1, 1, 2] * 30))
            ],
            "same": [(lambda H=H: H == small, H is small) for H in (small, large)],
            "import": [
                (lambda s=s, r=r: Symbol.from_permutations(s, r).vertices, H.vertices) for (s, r), H in zip(pairs, (small, large))
            ],
            "from the left": [
                (lambda s=s, r=r: Symbol.from_permutations(s, r, wide=False).index, len(s)) for s, r in (a_pair(12), a_pair(30))
            ],
            "symbol": [(lambda H=H: fresh(H).pairings, H.pairings) for H in (small, large)],
            "generators": [
                (lambda H=H: [matrix for _, matrix in fresh(H).generators], [m for _, m in by_hand.generators_of(H.vertices, list(H.pairings))])
                for H in (small, large)
            ],
        }
        for name in ("tables", "widths", "figures"):
            named[name] = []
            for (s, r), H in zip(pairs, (small, large)):
                e2, e3, genus, widths = by_hand.figures_of(s, r)
                ask, answer = {
                    "tables": (lambda H=H: (lambda K: (K.S, K.R, K.T))(fresh(H)), expected(s, r)),
                    "widths": (lambda H=H: sorted(fresh(H).widths), widths),
                    "figures": (lambda H=H: (lambda K: (K.e2, K.e3, K.genus))(fresh(H)), (e2, e3, genus)),
                }[name]
                named[name].append((ask, answer))
        return named

    def test_between_two_steps(self):
        """Between each two steps of a call the other one is made, and each gives its own answer."""
        for name, ((ask, answer), (other, its_answer)) in self.jobs().items():
            for one, right, another, its_right in ((ask, answer, other, its_answer), (other, its_answer, ask, answer)):
                steps, met, wrong = counted(one), [0], []
                self.assertGreater(steps, 100)

                def between():
                    met[0] += 1
                    # every so many steps, and each of the last hundred
                    if met[0] % (1 + steps // 60) == 0 or met[0] > steps - 100:
                        if another() != its_right:
                            wrong.append(met[0])

                found, _ = at_every_step(one, between)
                self.assertTrue(found == right, name)
                self.assertEqual(wrong, [], name)

    def test_threads_that_ask_at_once(self):
        """Of each call two threads in a tight loop, with results of two sizes."""
        before = sys.getswitchinterval()
        sys.setswitchinterval(1e-6)
        try:
            for name, jobs in self.jobs().items():
                wrong, end = [], time.monotonic() + 0.3
                start = threading.Barrier(4)

                def ask(job, right):
                    start.wait()
                    while time.monotonic() < end and not wrong:
                        try:
                            if job() != right:
                                wrong.append(name)
                        except Exception as refusal:
                            wrong.append((name, refusal))

                run_all([threading.Thread(target=ask, args=job) for job in jobs * 2])
                self.assertEqual(wrong, [])
        finally:
            sys.setswitchinterval(before)


#: Makes a symbol and asks it something, while the same is done before each step in the files of `farey`; or while, before
#: each such step, another thread forks and the child does it, which has to be done in five seconds.
INTERRUPTED = """
import os, signal, sys, threading, warnings
warnings.simplefilter("ignore")
sys.path[:0] = [{python!r}, {tests!r}]
from tests.test_threads import at_every_step
from farey import Symbol

def job():
    H = Symbol([0, 1], [1, -2, 1])
    assert H.word((1, 0, 0, 1), (1, 0, 2, 1)) == [2, 1] and H.index == 3 and H.S == (1, 0, 2)

def fork():
    child = os.fork()
    if child == 0:
        signal.signal(signal.SIGALRM, signal.SIG_DFL)
        signal.alarm(5)
        job()
        os._exit(0)
    assert os.waitpid(child, 0)[1] == 0, "the child hangs"

failed = []
def forks():
    global count
    count += 1
    if count % 9 == 0 and not failed:
        thread = threading.Thread(target=fork)
        thread.start()
        thread.join()

threading.excepthook = lambda given: failed.append(given.exc_value)
count = 0
at_every_step(job, lambda: None)
print(at_every_step(job, {between})[1] > 200, failed)
"""


class Locks(unittest.TestCase):
    """Nothing here waits for what another thread, or the code that a signal interrupts, holds."""

    def run_with(self, between):
        python = str(by_hand.REPOSITORY / "python")
        text = INTERRUPTED.format(python=python, tests=python, between=between)
        settings = dict(os.environ, FAREY_LIBRARY=str(library.path().resolve()), PYTHONDONTWRITEBYTECODE="1")
        came = subprocess.run([sys.executable, "-c", text], env=settings, capture_output=True, text=True, timeout=40)
        self.assertEqual((came.returncode, came.stdout), (0, "True []\n"), came.stderr)

    def test_a_signal_handler(self):
        self.run_with("job")

    def test_a_fork_while_threads_ask(self):
        self.run_with("forks")


class Threads(unittest.TestCase):
    def test_work_spaces(self):
        """One a thread, and the same one at each call."""
        spaces = []

        def look():
            one, other = library.work(), library.work()
            spaces.append((one, one is other, len(one)))

        look()
        for _ in range(4):
            thread = threading.Thread(target=look)
            thread.start()
            thread.join()
        self.assertEqual([(same, length) for _, same, length in spaces], [(True, 32768)] * 5)
        self.assertEqual(len({id(space) for space, _, _ in spaces}), 5)

    def test_the_same_answers(self):
        """Eight threads ask of the same symbols at once, each in an order of its own."""
        rng = by_hand.seeded("threads")
        asked = []
        for _ in range(30):
            s, r = by_hand.random_pair(rng, rng.randint(1, 60))
            letters, X = by_hand.random_word(rng, 14)
            asked.append((s, r, X, by_hand.followed(s, r, letters) == 0))
        shared = [Symbol.from_permutations(s, r) for s, r, _, _ in asked]
        power = 200_000
        wrong, done = [], []
        start = threading.Barrier(8)

        def ask(number):
            own = by_hand.seeded(f"thread {number}")
            start.wait()
            for place in own.sample(range(len(asked)), len(asked)):
                s, r, X, expected = asked[place]
                for H in (shared[place], Symbol.from_permutations(s, r)):
                    e2, e3, genus, widths = by_hand.figures_of(s, r)
                    word = H.word(by_hand.I, X)
                    matrices = [matrix for _, matrix in by_hand.generators_of(H.vertices, list(H.pairings))]
                    right = [
                        (H.S, H.R) == by_hand.renumbered(s, r),
                        (H.e2, H.e3, H.genus, sorted(H.widths)) == (e2, e3, genus, widths),
                        (word is not None) == expected,
                        (X in H) == expected,
                        word is None or by_hand.value(word, matrices) == by_hand.times(word.sign, X),
                        H == shared[place],
                    ]
                    if not all(right):
                        wrong.append((number, place, right))
            # a call that takes long enough for others to run during it
            if Symbol([0, 1], [1, -2, 1]).word(by_hand.I, (1, power + number, 0, 1)) != [1] * (power + number):
                wrong.append((number, "power"))
            done.append(number)

        run_all([threading.Thread(target=ask, args=(number,)) for number in range(8)])
        self.assertEqual(wrong, [])
        self.assertEqual(sorted(done), list(range(8)))

    def test_made_once(self):
        """A symbol that is made can't be made into another, and stays as it is."""
        H = Symbol([0, 1], [1, -2, 1])
        before = H.vertices, H.pairings, H.S, H.R, H.widths, H.generators, hash(H)
        with self.assertRaises(TypeError) as caught:
            H.__init__([0], [-2, -3])
        self.assertIn("a symbol never changes", str(caught.exception))
        with self.assertRaises(Refusal):
            H.__init__([0], [-2, -2])
        self.assertEqual((H.vertices, H.pairings, H.S, H.R, H.widths, H.generators, hash(H)), before)
        self.assertTrue(H == Symbol([0, 1], [1, -2, 1]))

    def test_made_at_one_step(self):
        """While one object is made into a symbol, it is made into another between two steps, at each of them in
        turn: one of the two is refused, and the symbol is the other's."""
        first, second = ([0, 1], [1, -2, 1]), ([0, 1, 2], [1, -2, -2, 1])
        steps = counted(lambda: Symbol(*first))
        self.assertGreater(steps, 200)
        winners = {first[0][-1]: 0, second[0][-1]: 0}
        for at in range(1, steps + 1):
            H, made, left = Symbol.__new__(Symbol), [], [at]

            def make(given):
                try:
                    H.__init__(*given)
                    made.append(given)
                except TypeError:
                    pass

            def between():
                left[0] -= 1
                if left[0] == 0:
                    make(second)

            at_every_step(lambda: make(first), between)
            self.assertEqual(len(made), 1, at)
            self.assertEqual((H.vertices, H.pairings), (tuple((x, 1) for x in made[0][0]), tuple(made[0][1])), at)
            self.assertEqual(H.index, 3 * (len(made[0][0]) - 1))
            winners[made[0][0][-1]] += 1
        self.assertGreater(min(winners.values()), 0)

    def test_made_by_one_thread(self):
        """Of eight threads that make one object into different symbols at once, one does."""
        for _ in range(20):
            H = Symbol.__new__(Symbol)
            start = threading.Barrier(8)
            made, refused = [], []

            def make(number):
                # 0, 1, .., number + 1, with a side from infinity paired to infinity and even sides between
                vertices, pairings = list(range(number + 2)), [1] + [-2] * (number + 1) + [1]
                start.wait()
                try:
                    H.__init__(vertices, pairings)
                    made.append((tuple((x, 1) for x in vertices), tuple(pairings)))
                except TypeError:
                    refused.append(number)

            run_all([threading.Thread(target=make, args=(number,)) for number in range(8)])
            self.assertEqual((len(made), len(refused)), (1, 7))
            self.assertEqual((H.vertices, H.pairings), made[0])

    def test_small_stack(self):
        """A thread with a small stack, of 64 KiB."""
        found = []
        before = threading.stack_size(64 * 1024)
        try:
            s, r = by_hand.gamma0_tables(30, by_hand.S, by_hand.R)
            thread = threading.Thread(target=lambda: found.append(Symbol.from_permutations(s, r).index))
            thread.start()
            thread.join()
        finally:
            threading.stack_size(before)
        self.assertEqual(found, [72])

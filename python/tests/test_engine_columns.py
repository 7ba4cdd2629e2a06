"""The engine's columns of tools/compare-systems, by a clock that each call moves on, and how the table is written."""

import contextlib
import io
import runpy
import sys
from unittest import mock

from farey import Symbol, library, named_tables

from . import reckoning as by_hand
from .test_tools import MEMBERS, TOOL, Tool


class Recorder:
    """A clock, and what was asked of the engine. Each call is the engine's own, and takes so many seconds by the clock:
    `times` has a row for each kind of call. What isn't in it takes no time and isn't noted."""

    def __init__(self, times):
        self.now = 50.0
        self.times = {kind: list(row) for kind, row in times.items()}
        self.asked = []

    def takes(self, kind):
        if self.times.get(kind):
            self.asked.append(kind)
            self.now += self.times[kind].pop(0)

    def clock(self):
        return self.now

    def names(self):
        """Stand-ins for the library and for Symbol."""
        recorder, loaded = self, library.load()

        class Calls:
            def farey_import_wide(self, s, s_len, r, r_len, *rest):
                recorder.takes(("import", tuple(s[:s_len]), tuple(r[:r_len])))
                return loaded.farey_import_wide(s, s_len, r, r_len, *rest)

            def farey_named_symbol_wide(self, family, N, *rest):
                recorder.takes(("named symbol", family, N))
                return loaded.farey_named_symbol_wide(family, N, *rest)

            def farey_named_tables(self, family, N, *rest):
                recorder.takes(("named tables", family, N))
                return loaded.farey_named_tables(family, N, *rest)

            def farey_same_coset(self, v, t, t_len, a, b, *rest):
                recorder.takes(("same coset", tuple(t[:t_len]), tuple(a), tuple(b)))
                return loaded.farey_same_coset(v, t, t_len, a, b, *rest)

            def farey_signed_query(self, v, t, t_len, a, b, *rest):
                recorder.takes(("query", tuple(t[:t_len]), tuple(a), tuple(b)))
                return loaded.farey_signed_query(v, t, t_len, a, b, *rest)

            def farey_tables(self, v, t, t_len, *rest):
                recorder.takes(("tables", tuple(t[:t_len])))
                return loaded.farey_tables(v, t, t_len, *rest)

        class Noted(Symbol):
            @classmethod
            def from_permutations(cls, S, R):
                recorder.takes(("made", tuple(S), tuple(R)))
                return super().from_permutations(S, R)

            @classmethod
            def gamma0(cls, N):
                recorder.takes(("gamma0", N))
                return super().gamma0(N)

            def word(self, A, B):
                recorder.takes(("word", self.vertices, A, B))
                return super().word(A, B)

            def __contains__(self, M):
                recorder.takes(("in", self.vertices, M))
                return super().__contains__(M)

            @property
            def S(self):
                # what was asked before takes no time
                if "tables" not in self._made.found:
                    recorder.takes(("S", self.vertices, self.pairings))
                return super().S

        def tables(family, N):
            recorder.takes(("tables by name", family, N))
            return named_tables(family, N)

        return {"Symbol": Noted, "named_tables": tables, "library": mock.Mock(wraps=library, load=Calls, TABLE=library.TABLE, COSETS=library.COSETS)}


class EnginesColumns(Tool):
    def test_what_is_timed(self):
        """Each job of the engine, by the C call and by Python, is asked as often as is said, of Γ0(990) and with the two
        matrices, and its time is the median, in milliseconds."""
        tool = runpy.run_path(str(TOOL), run_name="compare-systems")
        own = tool["engine"].__globals__
        pair = named_tables("gamma0", 990)
        H = Symbol.from_permutations(*pair)
        table = tuple(entry for vertex in H.vertices for entry in vertex) + H.pairings
        kinds = [
            ("named symbol", 0, 990),
            *[("query", table, by_hand.I, member) for member in MEMBERS],
            ("tables", table),
            ("same coset", table, by_hand.I, MEMBERS[1]),
            ("import", *pair),
            ("named tables", 0, 990),
            ("gamma0", 990),
            *[("word", H.vertices, by_hand.I, member) for member in MEMBERS],
            ("S", H.vertices, H.pairings),
            ("in", H.vertices, MEMBERS[1]),
            ("made", *pair),
            ("tables by name", "gamma0", 990),
        ]
        # five of each; the medians are 3, 30, 300 .. seconds, no least, mean or last one. At the start the tables and a symbol are made
        first = [kinds[13], kinds[12]]
        times = {kind: [part * 10.0**i for part in (4, 1, 3, 70, 2)] for i, kind in enumerate(kinds)}
        for kind in first:
            times[kind].insert(0, 999.0)
        recorder = Recorder(times)
        with mock.patch.dict(own, recorder.names()), mock.patch("time.perf_counter", recorder.clock):
            by_c, by_python = tool["engine"](5)
        self.assertEqual(recorder.asked, first + [kind for kind in kinds for _ in range(5)])
        for i, found in enumerate(by_c + by_python):
            self.assertAlmostEqual(found / (3000 * 10.0**i), 1, 6)

    def test_where_the_times_go(self):
        """Each time into its own row and column, under its heading."""
        tool = runpy.run_path(str(TOOL), run_name="compare-systems")
        jobs = tool["JOBS"]
        count = len(jobs)
        by_c, by_python, sage, pari = ([1000 * column + row for row in range(count)] for column in (1, 2, 3, 4))
        asked = []

        def engine(runs):
            asked.append(runs)
            return by_c, by_python

        said = io.StringIO()
        stand_ins = {"engine": engine, "other": lambda name, *rest: {"sage": sage, "gp": pari}[name]}
        words = ["compare-systems", "17"]
        with mock.patch.dict(tool["main"].__globals__, stand_ins), mock.patch.object(sys, "argv", words), contextlib.redirect_stdout(said):
            tool["main"]()
        self.assertEqual(asked, [17])
        head = [cell.strip() for cell in said.getvalue().splitlines()[0].split("|")[1:-1]]
        self.assertEqual(head, ["job", "Sage", "PARI", "the engine, C call", "the engine from Python"])
        expected = [[job, f"300{row}", f"400{row}", f"100{row}", f"200{row}"] for row, job in enumerate(jobs)]
        self.assertEqual(self.rows(said.getvalue()), expected)

    def test_how_times_are_written(self):
        """Three digits, all before the point, and never a power of ten."""
        shown = runpy.run_path(str(TOOL), run_name="compare-systems")["shown"]
        for time, written in ((1830.4, "1830"), (999.6, "1000"), (999.4, "999"), (123456.7, "123457"), (12.345, "12.3"), (0.012345, "0.0123"), (None, "")):
            self.assertEqual(shown(time), written)

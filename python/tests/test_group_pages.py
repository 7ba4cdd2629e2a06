"""The page for a subgroup: well-formed HTML with nothing from elsewhere, its numbers those of the engine, the classes
and points that it works out by another way, and what a browser shows where one is installed."""

import os
import re
import subprocess
import sys
import unittest
from html.parser import HTMLParser
from unittest import mock

import farey
from farey import Refusal, Symbol, library, named_tables
from farey.page import fixed_point, group_name

from . import browser
from . import reckoning as by_hand

#: Elements without an end.
VOID = {"meta"}
#: What may stand in the page; in the picture also those of SVG.
HTML = set(
    "html head meta title style body main h1 h2 p i b sub sup figure figcaption table tr th td div ol li span "
    "details summary code pre blockquote svg".split()
)
SVG = set("title desc style rect path line circle polygon g text".split())


class Reader(HTMLParser):
    """Reads a page, and holds it to the form of HTML: each element ends in its parent, and none is unknown."""

    def __init__(self, page):
        super().__init__()
        self.open, self.found, self.faults, self.texts = [], [], [], []
        self.feed(page)
        self.close()
        self.faults += [f"{name} has no end" for name in self.open]

    def handle_starttag(self, name, given):
        self.found.append((name, dict(given)))
        if len({key for key, _ in given}) != len(given):
            self.faults.append(f"{name} has an attribute twice")
        known = SVG if "svg" in self.open else HTML
        if name not in known:
            self.faults.append(f"{name} in {self.open[-1:]}")
        if "p" in self.open and name in {"p", "div", "table", "ol", "li", "pre", "blockquote", "h2"}:
            self.faults.append(f"{name} in p")
        if name not in VOID:
            self.open.append(name)

    def handle_startendtag(self, name, given):
        self.found.append((name, dict(given)))
        if "svg" not in self.open:
            self.faults.append(f"{name} ends itself")

    def handle_endtag(self, name):
        if not self.open or self.open.pop() != name:
            self.faults.append(f"the end of {name}")

    def handle_data(self, data):
        if "style" not in self.open:
            self.texts.append((tuple(self.open), data))

    def attributes(self, name, key):
        return [given[key] for found, given in self.found if found == name and key in given]

    def within(self, name):
        return [data for path, data in self.texts if name in path]


def groups():
    yield "Gamma0(11)", Symbol.gamma0(11)
    yield "Gamma0(37)", Symbol.from_permutations(*named_tables("gamma0", 37))
    yield "Gamma(3)", Symbol.gamma(3)
    yield "Gamma1(7)", Symbol.gamma1(7)
    yield "Gamma0(97)", Symbol.from_permutations(*named_tables("gamma0", 97))
    yield "Gamma0(1)", Symbol([0], [-2, -3])
    yield "index 2", Symbol([0], [-3, -3])
    yield "no congruence", Symbol.parse((by_hand.REPOSITORY / "examples/noncongruence.txt").read_text("utf-8"))
    yield "genus 1, no congruence", Symbol([0, 1, 2], [1, 2, 1, 2])


def signed(text):
    return text.replace("−", "-")


class Pages(unittest.TestCase):
    def test_form(self):
        for name, H in groups():
            for disc in (False, True):
                with self.subTest(name, disc=disc):
                    page = H.html(disc=disc, cusps=disc)
                    start = '<!DOCTYPE html>\n<html lang="en">\n<head>\n<meta charset="utf-8">\n'
                    self.assertTrue(page.startswith(start))
                    came = Reader(page)
                    self.assertEqual(came.faults, [])
                    names = [found for found, _ in came.found]
                    for once in ("html", "head", "body", "main", "h1", "svg", "details", "figure", "figcaption"):
                        self.assertEqual(names.count(once), 1, once)
                    self.assertEqual(came.attributes("svg", "role"), ["img"])
                    self.assertNotIn("script", names)
                    ids = [given["id"] for _, given in came.found if "id" in given]
                    self.assertEqual(len(set(ids)), len(ids))

    def test_nothing_from_elsewhere(self):
        for _, H in groups():
            page = H.html()
            self.assertEqual(re.findall(r"https?://[^\"<> ]+", page), ["http://www.w3.org/2000/svg"])
            self.assertIsNone(re.search(r"\b(src|href|url|@import|onload)\b", page))

    def test_the_same_every_time(self):
        for _, H in groups():
            self.assertEqual(H.html(), Symbol(H.vertices, H.pairings).html())

    def test_figures_and_generators(self):
        """The generators are those of the definition, and the figures those of the permutations."""
        for name, H in groups():
            with self.subTest(name):
                came = Reader(H.html())
                labels = map(signed, came.attributes("span", "aria-label"))
                matrices = [tuple(map(int, re.findall(r"-?\d+", text))) for text in labels]
                expected = by_hand.generators_of(H.vertices, H.pairings)
                self.assertEqual(matrices, [matrix for _, matrix in expected])
                cells = [data for path, data in came.texts if path[-2:] == ("span", "span")]
                entries = [entry for _, matrix in expected for entry in matrix]
                self.assertEqual([int(signed(cell)) for cell in cells], entries)
                e2, e3, genus, widths = by_hand.figures_of(H.S, H.R)
                rows = re.findall(r'<tr><th scope="row">.*?</th><td>(.*?)</td></tr>', H.html())
                self.assertEqual(list(map(int, rows[:4])), [len(H.S), e2, e3, len(widths)])
                self.assertEqual(sorted(map(int, rows[4].split(", "))), widths)
                self.assertEqual(int(rows[5]), genus)

    def test_points_that_generators_turn_about(self):
        """(x + i √y) / z solves c t² + (d - a) t - b = 0: real and imaginary part, in whole numbers."""
        for name, H in groups():
            for generator in H.generators:
                if generator.kind != "free":
                    (a, b, c, d), (x, y, z) = generator.matrix, fixed_point(generator)
                    self.assertEqual(c * (x * x - y) + (d - a) * x * z - b * z * z, 0, name)
                    self.assertEqual(2 * c * x + (d - a) * z, 0, name)
                    self.assertGreater(z, 0)

    def test_cusps(self):
        """Every vertex once, in the row of the cusp to which a matrix with that first column sends infinity."""
        for name, H in groups():
            with self.subTest(name):
                rows = re.findall(r'<tr><td>(\d+)</td><td>(\d+)</td><td class="text">(.*?)</td></tr>', H.html())
                self.assertEqual([(int(number), int(width)) for number, width, _ in rows], list(enumerate(H.widths)))
                met = []
                for number, _, listed in rows:
                    for vertex in signed(listed).split(", "):
                        num, _, den = ("1/0" if vertex == "∞" else vertex).partition("/")
                        cusp = int(num), int(den or 1)
                        met.append(cusp)
                        self.assertEqual(H.cusp_of(self.with_column(*cusp)).number, int(number))
                self.assertEqual(sorted(met), sorted([(1, 0), *H.vertices]))

    @staticmethod
    def with_column(a, c):
        """A matrix of determinant 1 with that first column."""
        pairs = ((b, d) for size in range(200) for b in range(-size, size + 1) for d in (-size, size))
        return next((a, b, c, d) for b, d in pairs if a * d - b * c == 1)

    def test_tables_and_symbol(self):
        for name, H in groups():
            with self.subTest(name):
                page = H.html()
                rows = re.findall("<tr>" + r"<td>(\d+)</td>" * 6 + "</tr>", page)
                columns = list(zip(*(map(int, row) for row in rows)))
                expected = [tuple(range(H.index)), H.S, H.R, H.T, H.coset_cusps, H.coset_steps]
                self.assertEqual(columns, expected)
                came = Reader(page)
                self.assertEqual(Symbol.parse("".join(came.within("pre"))).vertices, H.vertices)
                self.assertIn(H.cycles(), came.within("code"))

    def test_names(self):
        for name, H in groups():
            kind, _, rest = name.partition("(")
            family = {"Gamma0": "gamma0", "Gamma1": "gamma1", "Gamma": "gamma"}.get(kind)
            expected = (family, int(rest.rstrip(")"))) if family else None
            self.assertEqual(group_name(H), expected)
            title = "".join(Reader(H.html()).within("head"))
            whole = "PSL2(Z), of index 1" if H.index == 1 else f"Γ{kind[5:]}({rest}, of index"
            self.assertIn(whole if family else "A subgroup of index", title)
        # another subgroup of the same index, level and widths has no name: a conjugate of Γ0(4)
        H = Symbol.gamma0(4)
        conjugate = Symbol.from_permutations(*by_hand.renamed(H.S, H.R, H.coset_cusps.index(1)))
        self.assertEqual((conjugate.index, conjugate.level, sorted(conjugate.widths)), (H.index, 4, sorted(H.widths)))
        self.assertNotEqual(conjugate, H)
        self.assertIsNone(group_name(conjugate))

    def test_version(self):
        """The version that proved it is named where the package has one."""
        with mock.patch.object(farey, "__version__", "1.2.3-test", create=True):
            self.assertIn("the proved engine farey, version 1.2.3-test,", Symbol.gamma0(2).html().replace("\n", " "))

    def test_too_large_for_a_picture(self):
        H = Symbol.parse((by_hand.REPOSITORY / "examples/refusals/22.drawing").read_text("utf-8"))
        self.assertRaises(Refusal, H.svg)
        came = Reader(H.html())
        self.assertEqual(came.faults, [])
        self.assertEqual(came.attributes("svg", "role"), [])
        self.assertIn("(refusal 22)", "".join(came.within("main")))

    def test_what_is_refused_alone(self):
        """A level of 2^64 or more, and cycle notation over the index 3,066, cost the page nothing else."""
        H = Symbol.parse((by_hand.REPOSITORY / "examples/refusals/17.txt").read_text("utf-8"))
        with self.assertRaises(Refusal):
            H.level
        came = Reader(H.html())
        self.assertEqual(came.faults, [])
        self.assertIn("2<sup>64</sup> or more", H.html())
        H = Symbol(range(1023), [-3] * 1024)
        with self.assertRaises(Refusal):
            H.cycles()
        page = H.html()
        self.assertEqual(Reader(page).faults, [])
        self.assertEqual(page.count("cycle notation"), 0)
        self.assertEqual(len(re.findall("<tr>" + r"<td>\d+</td>" * 6 + "</tr>", page)), 4090)

    def test_command(self):
        H = Symbol.gamma0(6)

        def run(text, *words):
            settings = dict(os.environ, FAREY_LIBRARY=str(library.path().resolve()))
            settings["PYTHONPATH"] = str(by_hand.REPOSITORY / "python")
            command = [sys.executable, "-B", "-m", "farey.page", *words]
            return subprocess.run(command, input=text.encode(), capture_output=True, timeout=60, env=settings)

        for words in ((), ("--disc",), ("--cusps",)):
            came = run(H.text(), *words)
            expected = H.html(disc="--disc" in words, cusps="--cusps" in words)
            self.assertEqual((came.returncode, came.stderr, came.stdout.decode("utf-8")), (0, b"", expected))
        came = run("1 0 1 -2 -2")
        self.assertEqual((came.returncode, came.stdout), (0, b"refused 7 0\n"))
        came = run(H.text(), "FILE")
        self.assertEqual((came.returncode, came.stdout), (2, b""))

    def test_in_a_browser(self):
        """The browser's document has each generator's matrix and the picture, and what it shows isn't blank; without a
        browser the page is read by the parser."""
        for name, H in groups():
            if name not in ("Gamma0(37)", "Gamma0(1)"):
                continue
            page = H.html()
            shown = page if browser.find() is None else browser.dump(page)
            came = Reader(shown)
            for a, b, c, d in (generator.matrix for generator in H.generators):
                self.assertIn(f"({a} {b}; {c} {d})", map(signed, came.attributes("span", "aria-label")), name)
            self.assertEqual(sum("side " in kind for kind in came.attributes("path", "class")), len(H.pairings))
            if browser.find() is not None:
                self.assertGreater(browser.ink(browser.screenshot(page, ".html", 800, 900)), 0.005)

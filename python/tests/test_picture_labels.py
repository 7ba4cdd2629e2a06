"""The labels of a picture: which sides and vertices have one, that no text covers another, that lines which lead to
labels don't cross; and the colours of cusps, by the partners of sides and by the classes of fractions."""

import math
import re
import unittest
from collections import Counter
from itertools import combinations

from farey import Symbol, named_tables, polygon
from farey.labels import spread

from . import browser
from . import reckoning as by_hand
from .test_pictures import KINDS, SVG, pixels, root_of, sides_of, symbols, told


def texts(root):
    return list(root.iter(SVG + "text"))


def box(text):
    """Left, right, top and bottom of a text, where a digit is 0.64 of the letters' size wide and 0.72 high."""
    size = float(text.get("font-size"))
    wide = sum(0.64 if mark.isdigit() else 0.56 if mark.isascii() else 0.86 for mark in text.text) * size
    x, y = float(text.get("x")), float(text.get("y"))
    left = x if text.get("class") == "legend" else x - wide / 2
    return left, left + wide, y - 0.72 * size, y


def overlap(one, other):
    return min(one[1], other[1]) - max(one[0], other[0]) > 0.01 and min(one[3], other[3]) - max(one[2], other[2]) > 0.01


class Labels(unittest.TestCase):
    def test_paired_sides_are_labelled_alike(self):
        for name, H in symbols():
            with self.subTest(name):
                drawn = sides_of(root_of(name))
                numbers = [int(each.get("data-generator")) for each in drawn]
                colours = [each.get("stroke") for each in drawn]
                for i, pairing in enumerate(H.pairings):
                    alike = [k for k in range(len(numbers)) if numbers[k] == numbers[i]]
                    partners = [k for k, other in enumerate(H.pairings) if other == pairing] if pairing > 0 else [i]
                    self.assertEqual(alike, partners)
                    self.assertEqual({colours[k] for k in alike}, {colours[i]})
                self.assertEqual(sorted(set(numbers)), list(range(1, len(H.generators) + 1)))
                self.assertEqual([each.find(SVG + "title").text for each in drawn], list(told(H.pairings, numbers)))

    def test_every_side_and_vertex(self):
        """All have a label where there are 40 sides or fewer; the two sides of a pair both or none."""
        for name, H in symbols():
            for kind in KINDS:
                with self.subTest(name, **kind):
                    root = root_of(name, **kind)
                    numbers = [each.get("data-generator") for each in sides_of(root)]
                    labels = [each for each in texts(root) if each.get("data-side")]
                    labelled = {int(each.get("data-side")) for each in labels}
                    self.assertEqual(len(labelled), len(labels))
                    for each in labels:
                        self.assertEqual(each.text, numbers[int(each.get("data-side"))])
                    pairs = {H.pairings[i] for i in labelled if H.pairings[i] > 0}
                    both = {i for i, pairing in enumerate(H.pairings) if pairing in pairs}
                    self.assertEqual(both, {i for i in labelled if H.pairings[i] > 0})
                    groups = [each for each in root.iter(SVG + "g") if each.get("class") == "vertex"]
                    vertices = [each.get("data-vertex") for each in groups]
                    names = {f"{a}/{b}" if b > 1 else str(a) for a, b in H.vertices}
                    names |= {"∞"} if kind["disc"] else set()
                    self.assertLessEqual({text.replace("−", "-") for text in vertices}, names)
                    self.assertIn("0", vertices)
                    if len(H.pairings) <= 40 and max(b for _, b in H.vertices) <= 99:
                        self.assertEqual(labelled, set(range(len(H.pairings))))
                        self.assertEqual(len(vertices), len(names))

    def test_vertices_are_written_out(self):
        root = root_of("Gamma0(37), wide")
        for each in root.iter(SVG + "g"):
            if each.get("class") == "vertex":
                self.assertEqual("/".join(text.text for text in each.iter(SVG + "text")), each.get("data-vertex"))

    def test_no_text_covers_another(self):
        """Nor a point that a generator turns about, nor the edge of the picture."""
        for name, H in symbols():
            for kind in KINDS:
                with self.subTest(name, **kind):
                    root = root_of(name, **kind)
                    left, top, width, height = map(float, root.get("viewBox").split())
                    boxes = [(each.text, box(each)) for each in texts(root)]
                    for (text, one), (other, two) in combinations(boxes, 2):
                        self.assertFalse(overlap(one, two), (text, one, other, two))
                    for text, (a, b, c, d) in boxes:
                        within = left <= a and b <= left + width and top <= c and d <= top + height
                        self.assertTrue(within, (text, a, b, c, d))
                    for each in root.iter(SVG + "circle"):
                        if each.get("class") == "point":
                            x, y, r = (float(each.get(key)) for key in ("cx", "cy", "r"))
                            for text, one in boxes:
                                self.assertFalse(overlap(one, (x - r, x + r, y - r, y + r)), (text, x, y))

    def test_labels_stand_at_their_sides(self):
        """In the half plane the number of an arc is between it and the axis, or below that, straight under the arc or
        where a line leads to it from the arc's middle; that of a line is beside it."""
        for name, H in symbols():
            root = root_of(name)
            axis = float(root.find(SVG + "line").get("y1"))
            drawn = sides_of(root)
            leads = [each.get("d").split() for each in root.iter(SVG + "path") if each.get("class") == "lead"]
            with self.subTest(name):
                for each in texts(root):
                    if not each.get("data-side"):
                        continue
                    side = drawn[int(each.get("data-side"))]
                    x, y = float(each.get("x")), float(each.get("y"))
                    start, end = pixels(side)
                    middle, radius = (start.real + end.real) / 2, abs(end.real - start.real) / 2
                    if side.get("data-place"):
                        self.assertTrue(abs(x - start.real) < 30 and y < 40, (x, y))
                    elif y < axis:
                        self.assertLess(abs(complex(x - middle, y - axis)), radius)
                    elif abs(x - middle) > 1:
                        ends = [(float(lead[1]), float(lead[-2])) for lead in leads]
                        fitting = [lead for lead in ends if abs(lead[0] - middle) < 0.01 and abs(lead[1] - x) < 0.01]
                        self.assertEqual(len(fitting), 1, (name, each.text))

    def test_leading_lines_do_not_cross(self):
        def crossed(a, b, c, d):
            def turn(p, q, r):
                return ((q - p).conjugate() * (r - p)).imag

            return turn(a, b, c) * turn(a, b, d) < -1e-6 and turn(c, d, a) * turn(c, d, b) < -1e-6

        for name in ("Gamma0(37), wide", "Gamma0(97), wide", "Gamma0(120), wide", "334 sides"):
            for disc in (False, True):
                lines = []
                for each in root_of(name, disc).iter(SVG + "path"):
                    if each.get("class") == "lead":
                        numbers = list(map(float, re.findall(r"[-\d.]+", each.get("d"))))
                        points = [complex(*pair) for pair in zip(numbers[::2], numbers[1::2])]
                        lines.append(list(zip(points, points[1:])))
                self.assertGreater(len(lines), 10)
                for one, other in combinations(lines, 2):
                    self.assertFalse(any(crossed(*p, *q) for p in one for q in other), (name, disc, one, other))

    def test_spread(self):
        """Against all ways to push by small steps: nothing that keeps the order and the distances is nearer."""
        rng = by_hand.seeded("spread")
        for _ in range(200):
            wanted = sorted(rng.uniform(0, 20) for _ in range(rng.randint(1, 6)))
            widths = [rng.uniform(0.5, 3.0) for _ in wanted]
            places = spread(wanted, widths, 0.0, 20.0)

            def fits(tried):
                edges = [(p - w / 2, p + w / 2) for p, w in zip(tried, widths)]
                rising = all(a[1] <= b[0] + 1e-9 for a, b in zip(edges, edges[1:]))
                return rising and edges[0][0] >= -1e-9 and edges[-1][1] <= 20 + 1e-9

            def cost(tried):
                return sum((p - w) ** 2 for p, w in zip(tried, wanted))

            self.assertTrue(fits(places))
            for start in range(len(places)):
                for stop in range(start + 1, len(places) + 1):
                    for step in (-0.01, 0.01):
                        tried = [p + (step if start <= k < stop else 0.0) for k, p in enumerate(places)]
                        better = fits(tried) and cost(tried) < cost(places) - 1e-6
                        self.assertFalse(better, (wanted, widths, places, tried))

    def test_a_browser_measures_the_texts(self):
        """Where one is installed: the boxes that it finds for the texts don't cover each other, and the picture isn't
        blank."""
        pictures = ("Gamma0(37), wide", "Gamma0(97), wide")
        found = dict(symbols())
        if browser.find() is None:
            # what a browser would read is there
            for name in pictures:
                self.assertGreater(len(texts(root_of(name))), 20)
            return
        script = (
            "<script>document.body.dataset.boxes = Array.from(document.querySelectorAll('text'), "
            "t => { const b = t.getBoundingClientRect(); return [b.left, b.right, b.top, b.bottom] })"
            ".flat().join(' ')</script>"
        )
        for name in pictures:
            for disc in (False, True):
                picture = found[name].svg(disc=disc)
                page = f"<!DOCTYPE html><html lang=en><title>t</title><body>{picture.partition('?>')[2]}{script}"
                numbers = map(float, re.search(r'data-boxes="(.*?)"', browser.dump(page))[1].split())
                boxes = list(zip(numbers, numbers, numbers, numbers))
                self.assertEqual(len(boxes), len(texts(root_of(name, disc))))
                for one, other in combinations(boxes, 2):
                    # a line of text is higher than its digits: 0.2 of it at both ends is empty
                    small = [(a, b, c + 0.2 * (d - c), d - 0.2 * (d - c)) for a, b, c, d in (one, other)]
                    self.assertFalse(overlap(*small), (name, disc, one, other))
                self.assertGreater(browser.ink(browser.screenshot(picture, ".svg")), 0.005)


class Colours(unittest.TestCase):
    def by_partners(self, H):
        """The classes of the vertices, infinity among them: a free generator takes the ends of its first side to those
        of its second side, an even and an odd one each end to the other."""
        ends = [(1, 0), *H.vertices, (1, 0)]
        name = {cusp: k for k, cusp in enumerate(ends[:-1])}

        def join(x, y):
            old, new = name[x], name[y]
            for cusp in name:
                name[cusp] = new if name[cusp] == old else name[cusp]

        for i, pairing in enumerate(H.pairings):
            if pairing < 0:
                join(ends[i], ends[i + 1])
            else:
                k = next(k for k, other in enumerate(H.pairings) if other == pairing and k != i)
                join(ends[i], ends[k + 1])
                join(ends[i + 1], ends[k])
        return name

    def test_classes(self):
        """By the tables, and by the partners of sides: one and the same classes; as many as cusps."""
        for name, H in symbols():
            with self.subTest(name):
                classes = self.by_partners(H)
                numbers = dict(zip(classes, polygon.cusp_numbers(H, list(classes))))
                self.assertEqual(len(set(zip(classes.values(), numbers.values()))), len(H.widths))
                self.assertEqual(set(numbers.values()), set(range(len(H.widths))))
                self.assertEqual(len(set(classes.values())), len(H.widths))
                self.assertEqual(numbers[1, 0], 0)

    def test_widths_of_gamma0(self):
        """The cusp a/c of Γ0(N) has the width N / gcd(c², N)."""
        for N in (6, 12, 25, 36, 97):
            H = Symbol.from_permutations(*named_tables("gamma0", N))
            for (_, c), number in zip(H.vertices, polygon.cusp_numbers(H, H.vertices)):
                self.assertEqual(H.widths[number], N // math.gcd(c * c, N))

    def test_triangles_at_a_cusp(self):
        """As many halves begin at the vertices of a cusp as it is wide; they have its colour, which no other has."""
        for name, H in symbols():
            kinds = [side.kind for side in H.sides()]
            starts = [third.start for third in polygon.thirds(H.vertices, kinds)]
            count = Counter(polygon.cusp_numbers(H, [(1, 0) if b == 0 else (a, b) for a, b in starts]))
            self.assertEqual(tuple(count[k] for k in range(len(H.widths))), H.widths, name)
            root = root_of(name, cusps=True)
            dots = [each for each in root.iter(SVG + "circle") if each.get("data-cusp")]
            colours = {int(each.get("data-cusp")): each.get("fill") for each in dots}
            shades = Counter()
            for each in root.iter(SVG + "path"):
                if each.get("class") == "coset":
                    shades[re.search(r"#\w{6}", each.get("style"))[0]] += 1
            if max(b for _, b in H.vertices) < 20:
                self.assertEqual(sum(shades.values()), H.index)
                for number, colour in colours.items():
                    self.assertEqual(shades[colour], H.widths[number], (name, number))
            self.assertEqual(len(set(colours.values())), len(colours), name)

    def test_a_triangle_has_the_colour_of_its_vertex(self):
        """In the half plane: that of the dot where it touches the axis, or that of infinity, which is cusp 0."""
        for name, H in symbols():
            if max(b for _, b in H.vertices) >= 20:
                continue
            root = root_of(name, cusps=True)
            axis = root.find(SVG + "line").get("y1")
            dots = {each.get("cx"): each.get("fill") for each in root.iter(SVG + "circle") if each.get("data-cusp")}
            first = next(each for each in root.iter(SVG + "circle") if each.get("class") is None).get("fill")
            count = Counter()
            for each in root.iter(SVG + "path"):
                if each.get("class") in ("coset", "rest"):
                    words = each.get("d").split()
                    (at,) = {words[k - 1] for k, word in enumerate(words) if word == axis} or {None}
                    expected = first if at is None else dots[at]
                    self.assertIn(expected, each.get("style"), (name, each.get("d")))
                    count[each.get("class")] += 1
            self.assertEqual(count, {"coset": H.index, "rest": H.index}, name)
            # the darker halves are those that are shaded without colours
            plain = [each for each in root_of(name).iter(SVG + "path") if each.get("class") == "coset"]
            coloured = [each for each in root.iter(SVG + "path") if each.get("class") == "coset"]
            self.assertEqual([each.get("d") for each in plain], [each.get("d") for each in coloured])

    def test_vertices_and_legend(self):
        for name, H in symbols():
            for disc in (False, True):
                root = root_of(name, disc, True)
                dots = [each for each in root.iter(SVG + "circle") if each.get("data-cusp")]
                numbers = polygon.cusp_numbers(H, list(H.vertices) + ([(1, 0)] if disc else []))
                self.assertEqual([int(each.get("data-cusp")) for each in dots], numbers)
                for each, number in zip(dots, numbers):
                    self.assertIn(f"cusp {number}, width {H.widths[number]}", each.find(SVG + "title").text)
                lines = [each.text for each in texts(root) if each.get("class") == "legend"]
                widths = [int(line.partition(": width ")[2]) for line in lines if ": width " in line]
                if len(H.widths) <= 60:
                    self.assertEqual(tuple(widths), H.widths, name)
                    names = [line.partition(": width ")[0].replace("−", "-") for line in lines if ": width " in line]
                    parts = ["1/0".split("/") if text == "∞" else (text + "/1").split("/")[:2] for text in names]
                    cusps = [(int(num), int(den)) for num, den in parts]
                    self.assertEqual(polygon.cusp_numbers(H, cusps), list(range(len(H.widths))))
                self.assertEqual("order 2" in lines, H.e2 > 0)
                self.assertEqual("order 3" in lines, H.e3 > 0)

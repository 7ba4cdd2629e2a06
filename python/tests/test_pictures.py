"""The picture: the SVG as XML, its numbers those of the call, where sides and points are in the half plane and in the
disc. The labels and the colours of cusps are in `test_picture_labels`."""

import math
import unittest
import xml.etree.ElementTree as ElementTree
from functools import lru_cache

from farey import Box, Side, Symbol, named_tables, polygon

from . import reckoning as by_hand

SVG = "{http://www.w3.org/2000/svg}"
#: What `svg` is asked for.
KINDS = tuple({"disc": disc, "cusps": cusps} for disc in (False, True) for cusps in (False, True))


@lru_cache(None)
def symbols():
    made = [(name, Symbol(vertices, pairings)) for name, vertices, pairings, *_ in by_hand.stored_symbols()]
    made += [(f"Gamma0({N}), wide", Symbol.from_permutations(*named_tables("gamma0", N))) for N in (37, 97, 120)]
    made += [
        ("index 1", Symbol([0], [-2, -3])),
        ("index 2", Symbol([0], [-3, -3])),
        ("no congruence", Symbol.parse((by_hand.REPOSITORY / "examples/noncongruence.txt").read_text("utf-8"))),
        ("odd and even sides by turns", Symbol([0, (1, 2), 1], [-3, -2, -3, -2])),
        ("one free pair and odd sides", Symbol([0, (1, 2), 1], [1, -3, -3, 1])),
        ("from -20 to 20", Symbol(range(-20, 21), [1] + [-3] * 40 + [1])),
        ("334 sides", Symbol.gamma0(997)),
        # thirty arcs from 0 to 30, and as many from there to 31
        ("large sides with small partners", Symbol(
            [(k, 1) for k in range(31)] + [(30 * k + 1, k) for k in range(30, 0, -1)],
            [1, *range(2, 32), *range(2, 32), 1],
        )),
    ]
    return made


@lru_cache(None)
def root_of(name, disc=False, cusps=False):
    return ElementTree.fromstring(dict(symbols())[name].svg(disc=disc, cusps=cusps))


def sides_of(root):
    return [each for each in root.iter(SVG + "path") if each.get("class", "").startswith("side ")]


def read(path):
    """The side that an element of the picture is."""
    numbers = [path.get(key) for key in ("data-place", "data-centre", "data-radius")]
    return Side(path.get("class")[5:], *(None if number is None else float(number) for number in numbers))


def told(pairings, numbers):
    """What the title of each side says."""
    for i, pairing in enumerate(pairings):
        if pairing > 0:
            (other,) = (k for k, label in enumerate(pairings) if label == pairing and k != i)
            yield f"side {i}, paired with {other}, generator {numbers[i]}"
        else:
            yield f"side {i}, {'even' if pairing == -2 else 'odd'}, generator {numbers[i]}"


def pixels(path):
    """Where the path of a side begins and where it ends."""
    words = path.get("d").split()
    return complex(float(words[1]), float(words[2])), complex(float(words[-2]), float(words[-1]))


def circle(root):
    """Centre and radius of the disc."""
    (found,) = (each for each in root.iter(SVG + "circle") if each.get("class") == "axis")
    return complex(float(found.get("cx")), float(found.get("cy"))), float(found.get("r"))


def is_apart(H):
    """Whether no two sides are drawn side by side at one place."""
    return len(H.vertices) > 1


class Numbers(unittest.TestCase):
    def test_well_formed_and_the_numbers_of_the_call(self):
        for name, H in symbols():
            for kind in KINDS:
                with self.subTest(name, **kind):
                    root = root_of(name, **kind)
                    self.assertEqual(root.tag, SVG + "svg")
                    self.assertEqual(tuple(map(read, sides_of(root))), H.sides())
                    self.assertEqual(Box(*map(float, root.get("data-box").split())), H.box())
                    self.assertEqual(int(root.get("data-cosets")), H.index)
                    self.assertEqual(root[0].tag, SVG + "title")
                    self.assertIn(f"index {H.index}", root[0].text)
                    self.assertEqual(root[1].tag, SVG + "desc")
                    vertices, sides = root[1].text.split(".")[:2]
                    self.assertEqual(vertices.count(","), len(H.vertices))
                    self.assertEqual(sides.count(","), len(H.pairings))

    def test_drawn_where_the_numbers_say(self):
        """One scale for all sides: pixels are a place times that, and a radius too."""
        for name, H in symbols():
            root = root_of(name)
            sides, axis = H.sides(), float(root.find(SVG + "line").get("y1"))
            paths = [each.get("d").split() for each in sides_of(root)]
            # the first side is a line; the scale is that of the widest arc, where there is one
            origin = float(paths[0][1])
            arcs = [(side, path) for side, path in zip(sides, paths) if side.radius]
            unit = next((float(path[4]) / side.radius for side, path in arcs if side.radius == H.box().top), 1.0)
            with self.subTest(name):
                for side, path in arcs:
                    self.assertEqual((path[0], path[3], path[6:9]), ("M", "A", ["0", "0", "1"]))
                    left, right = side.centre - side.radius, side.centre + side.radius
                    for pixel, place in ((path[1], left), (path[9], right)):
                        self.assertAlmostEqual(float(pixel), origin + (place - sides[0].place) * unit, delta=0.02)
                    self.assertAlmostEqual(float(path[4]), side.radius * unit, delta=0.02)
                    self.assertEqual(float(path[2]), axis)
                for side, path in zip(sides, paths):
                    if side.radius is None:
                        self.assertEqual((path[1], path[4], path[5]), (path[4], path[1], "0"))

    def test_the_disc(self):
        """The ends lie on the boundary, at one cross-ratio with the vertices, infinity at the top; the arcs meet the
        boundary at right angles: r = R tan(a) where the side takes 2a of it."""
        for name, H in symbols():
            if not is_apart(H):
                continue
            with self.subTest(name):
                root = root_of(name, disc=True)
                centre, R = circle(root)
                drawn = sides_of(root)
                first = [pixels(path)[0] for path in drawn]
                self.assertLess(abs(first[0] - (centre - R * 1j)), 0.01)
                self.assertLess(abs(pixels(drawn[-1])[1] - first[0]), 0.01)
                for path, after in zip(drawn, drawn[1:]):
                    self.assertLess(abs(pixels(path)[1] - pixels(after)[0]), 0.01)
                # three points and their images: infinity, the first and the last vertex
                v0, vn = (a / b for a, b in (H.vertices[0], H.vertices[-1]))
                w0, wn = first[1], first[-1]
                for (a, b), w in zip(H.vertices, first[1:]):
                    self.assertLess(abs(abs(w - centre) - R), 0.01)
                    ratio = (w - w0) * (wn - first[0]) / ((w - first[0]) * (wn - w0))
                    self.assertLess(abs(ratio - (a / b - v0) / (vn - v0)), 1e-4)
                for path in drawn:
                    words, (start, end) = path.get("d").split(), pixels(path)
                    half = math.asin(min(abs(start - end) / (2 * R), 1.0))
                    if words[3] == "A" and 0.05 < half < 1.5:
                        r, across = float(words[4]), (end - start) / abs(end - start)
                        self.assertAlmostEqual(r / (R * math.tan(half)), 1, places=2)
                        # the way of turning is such that the arc's middle is nearer to the centre than its ends
                        height = r - math.sqrt(r**2 - abs(end - start) ** 2 / 4)
                        middle = (start + end) / 2 + (-1j if words[8] == "1" else 1j) * across * height
                        self.assertAlmostEqual(abs(middle - centre) / R, math.tan(math.pi / 4 - half / 2), places=2)

    def test_points_that_generators_turn_about(self):
        """A dot on each even side and a triangle beyond each odd side, at the point that its generator fixes."""
        count = 0
        for name, H in symbols():
            matrices = [matrix for _, matrix in by_hand.generators_of(H.vertices, H.pairings)]
            numbers = polygon.generator_numbers(H.pairings)
            for disc in (False, True):
                root = root_of(name, disc)
                if disc and not is_apart(H):
                    continue
                found = [each for each in root.iter() if each.get("class") == "point" and each.get("data-side")]
                expected = [i for i, pairing in enumerate(H.pairings) if pairing < 0]
                self.assertEqual([int(each.get("data-side")) for each in found], expected, name)
                drawn = sides_of(root)
                for each in found:
                    i = int(each.get("data-side"))
                    self.assertEqual(each.tag, SVG + ("circle" if H.pairings[i] == -2 else "polygon"))
                    z = self.plane(root, H, drawn, self.place(each), disc)
                    a, b, c, d = matrices[numbers[i] - 1]
                    # nearer to the axis, a thousandth of a pixel is too much
                    if z.imag > 0.002:
                        moved = abs((a * z + b) / (c * z + d) - z) / z.imag
                        self.assertLess(moved, 0.02, (name, i, disc))
                        count += 1
        self.assertGreater(count, 200)

    @staticmethod
    def place(each):
        if each.tag == SVG + "circle":
            return complex(float(each.get("cx")), float(each.get("cy")))
        corners = [complex(*map(float, pair.split(","))) for pair in each.get("points").split()]
        # the middle is a third of the height above the base
        return complex(corners[0].real, (corners[0].imag + 2 * corners[1].imag) / 3)

    @staticmethod
    def plane(root, H, drawn, w, disc):
        """The point of the upper half plane that is drawn there, by three vertices, or by two and the axis."""
        if disc:
            v0, vn = (a / b for a, b in (H.vertices[0], H.vertices[-1]))
            top, w0, wn = pixels(drawn[0])[0], pixels(drawn[0])[1], pixels(drawn[-1])[0]
            z = v0 + (vn - v0) * ((w - w0) * (wn - top)) / ((w - top) * (wn - w0))
            return z.conjugate() if z.imag < 0 else z
        axis = float(root.find(SVG + "line").get("y1"))
        x0, xn = pixels(drawn[0])[0].real, pixels(drawn[-1])[0].real
        if not is_apart(H):
            # a unit's half for each odd side, between margins of 44 pixels
            unit = (float(root.get("viewBox").split()[2]) - 2 * 44) / (0.5 * sum(p == -3 for p in H.pairings))
            return complex((w.real - (x0 + xn) / 2) / unit, (axis - w.imag) / unit)
        unit = (xn - x0) / (H.box().right - H.box().left)
        return complex(H.box().left + (w.real - x0) / unit, (axis - w.imag) / unit)

    def test_wide_and_narrow(self):
        """The length of 1 is at least 60 pixels, and two lines at one place are seen apart."""
        for name, H in symbols():
            paths = sides_of(root_of(name))
            first, last = pixels(paths[0])[0].real, pixels(paths[-1])[0].real
            with self.subTest(name):
                if H.box().left == H.box().right:
                    self.assertGreater(abs(last - first), 2)
                else:
                    self.assertGreaterEqual(round((last - first) / (H.box().right - H.box().left), 3), 60)

    def test_width(self):
        for width in (True, "960", 10, float("nan")):
            self.assertRaises(ValueError, Symbol([0, 1], [1, -2, 1]).svg, width)
        for disc in (False, True):
            root = ElementTree.fromstring(Symbol.gamma(3).svg(300, disc=disc))
            self.assertLessEqual(float(root.get("width")), 300)

    def test_triangles_of_the_cosets(self):
        """As many as the index; each has its centre at the same distance from its edge's middle, and no two have one
        centre and one middle."""
        for name, H in symbols():
            with self.subTest(name):
                all_thirds = list(polygon.thirds(H.vertices, [side.kind for side in H.sides()]))
                self.assertEqual(len(all_thirds), H.index)
                numbers = [(t.middle.real, t.middle.imag, t.centre.real, t.centre.imag) for t in all_thirds]
                self.assertEqual(len({tuple(round(number, 9) for number in four) for four in numbers}), H.index)
                for _, _, middle, centre in all_thirds:
                    self.assertGreater(min(middle.imag, centre.imag), 0)
                    if middle.imag > 1e-5:
                        across = 1 + abs(middle - centre) ** 2 / (2 * middle.imag * centre.imag)
                        self.assertAlmostEqual(across, 2 / math.sqrt(3), places=6)

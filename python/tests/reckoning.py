"""What the tests expect, reckoned without the engine and without `farey`.

A point's image under a word is found by following the letters of the word, and
never by Euclid's algorithm, so that `farey.evidence` is tested by another way.
Groups are known by their congruences, or by two permutations.
"""

import random
from fractions import Fraction
from math import gcd
from pathlib import Path

REPOSITORY = Path(__file__).resolve().parents[2]

I = (1, 0, 0, 1)
S = (0, -1, 1, 0)
T = (1, 1, 0, 1)
R = (0, -1, 1, 1)
Q = (0, -1, 1, -1)
#: The vertices and pairings of a symbol of Γ0(2).
GAMMA0_2 = ([(0, 1), (1, 1)], [1, -2, 1])


def product(*matrices):
    a, b, c, d = I
    for e, f, g, h in matrices:
        a, b, c, d = a * e + b * g, a * f + b * h, c * e + d * g, c * f + d * h
    return a, b, c, d


def inverse(matrix):
    a, b, c, d = matrix
    return d, -b, -c, a


def negative(matrix):
    return tuple(-entry for entry in matrix)


def times(number, matrix):
    return tuple(number * entry for entry in matrix)


def alike(left, right):
    """Whether two matrices are equal up to sign."""
    return tuple(left) in (tuple(right), negative(right))


def small_matrices(most):
    """Every matrix of determinant 1 whose entries are at most that in size."""
    span = range(-most, most + 1)
    return [(a, b, c, d) for a in span for b in span for c in span for d in span if a * d - b * c == 1]


def value(word, generators):
    """The product of a word's letters, the first on the left."""
    return product(*(generators[j - 1] if j > 0 else inverse(generators[-j - 1]) for j in word))


def is_reduced(word, kinds):
    """Whether a word meets the four clauses of request 2026-12; kinds are those of the generators, from 1 on."""
    even, odd = ({j for j, each in enumerate(kinds, 1) if each == kind} for kind in ("even", "odd"))
    neighbours = list(zip(word, word[1:]))
    return not (
        any(y == -x for x, y in neighbours)
        or any(x == y and abs(x) in even for x, y in neighbours)
        or any(x < 0 and -x in even for x in word)
        or any(x == y and abs(x) in odd for x, y in neighbours)
    )


def generators_of(vertices, pairings):
    """Kinds and matrices by docs/CONVENTIONS.md, 3.1 to 3.4."""
    ends = [(-1, 0)] + [tuple(vertex) for vertex in vertices] + [(1, 0)]
    frames = [(right[0], left[0], right[1], left[1]) for left, right in zip(ends, ends[1:])]
    made = []
    for side, pairing in enumerate(pairings):
        M = frames[side]
        if pairing == -2:
            made.append(("even", product(M, S, inverse(M))))
        elif pairing == -3:
            made.append(("odd", product(M, Q, inverse(M))))
        elif pairing not in pairings[:side]:
            N = frames[pairings.index(pairing, side + 1)]
            made.append(("free", product(N, S, inverse(M))))
    return made


def random_word(rng, length):
    """A word in S, R and the inverse of R, and the matrix that it stands for."""
    word = [rng.choice("SRr") for _ in range(length)]
    matrices = {"S": S, "R": R, "r": inverse(R)}
    return word, product(*(matrices[letter] for letter in word))


def followed(s, r, word, point=0):
    """Where the letters of a word in S and R lead, one after another."""
    back = [r.index(x) for x in range(len(r))]
    tables = {"S": s, "R": r, "r": back}
    for letter in word:
        point = tables[letter][point]
    return point


def random_pair(rng, index):
    """Two permutations with S S = R R R = 1 that lead from 0 to every point."""
    while True:
        s, r = list(range(index)), list(range(index))
        points = rng.sample(range(index), index)
        for i in range(rng.randint(0, index // 2)):
            x, y = points[2 * i : 2 * i + 2]
            s[x], s[y] = y, x
        points = rng.sample(range(index), index)
        for i in range(rng.randint(0, index // 3)):
            x, y, z = points[3 * i : 3 * i + 3]
            r[x], r[y], r[z] = y, z, x
        if len(numbered(s, r)) == index:
            return s, r


def numbered(s, r):
    """The points in the order of docs/CONVENTIONS.md, 4.2."""
    order, seen = [0], {0}
    for point in order:
        for image in (s[point], r[point]):
            if image not in seen:
                seen.add(image)
                order.append(image)
    return order


def renumbered(s, r):
    """Both tables, with the points numbered anew from 0 on."""
    order = numbered(s, r)
    new = {point: number for number, point in enumerate(order)}
    return tuple(new[s[point]] for point in order), tuple(new[r[point]] for point in order)


def renamed(s, r, base):
    """Both tables, with the points 0 and `base` in each other's place."""
    name = {0: base, base: 0}
    tables = []
    for table in (s, r):
        images = {name.get(point, point): name.get(image, image) for point, image in enumerate(table)}
        tables.append(tuple(images[point] for point in range(len(table))))
    return tuple(tables)


def symbol_itself(H):
    """A symbol's vertices, and its pairings with the labels renumbered by their leftmost sides: what `==` doesn't ask."""
    labels = {}
    return H.vertices, [p if p < 0 else labels.setdefault(p, len(labels) + 1) for p in H.pairings]


def figures_of(s, r):
    """e2, e3, genus and the widths in rising order, from two permutations."""
    t = [r[s[x]] for x in range(len(s))]
    seen, widths = set(), []
    for start in range(len(t)):
        width, point = 0, start
        while point not in seen:
            seen.add(point)
            width, point = width + 1, t[point]
        if width:
            widths.append(width)
    e2 = sum(s[x] == x for x in range(len(s)))
    e3 = sum(r[x] == x for x in range(len(r)))
    genus = 1 + Fraction(len(s), 12) - Fraction(e2, 4) - Fraction(e3, 3) - Fraction(len(widths), 2)
    return e2, e3, genus, sorted(widths)


def gamma0_tables(N, *matrices):
    """The right cosets of Γ0(N) by their lower rows (c : d) modulo N, (0 : 1)
    first: for each matrix the image of each under it, from the right."""
    units = [u for u in range(1, N + 1) if gcd(u, N) == 1]
    rows, place = [], {}

    def note(c, d):
        """The row, with all its multiples by units, gets the next number if it is new."""
        if (c % N, d % N) not in place:
            for u in units:
                place[c * u % N, d * u % N] = len(rows)
            rows.append((c, d))
        return place[c % N, d % N]

    def image(row, matrix):
        (c, d), (e, f, g, h) = row, matrix
        return note(c * e + d * g, c * f + d * h)

    note(0, 1)
    for row in rows:  # rows grows while S and T lead to new ones
        image(row, S), image(row, T)
    return [[image(row, matrix) for row in rows] for matrix in matrices]


def named_tables(name):
    """S and R on the right cosets of Γ0(N), Γ1(N) or Γ(N), numbered by docs/CONVENTIONS.md,
    4.2. A coset is known by what all its matrices have in common modulo N: the least
    of the lower row's multiples by units, or by 1 and -1, or that of both rows."""
    kind, _, rest = name.partition("(")
    N = int(rest.rstrip(")"))
    units = [u for u in range(1, N + 1) if gcd(u, N) == 1] if kind == "Gamma0" else [1, -1]
    kept = slice(None) if kind == "Gamma" else slice(2, None)

    def coset(matrix):
        return min(tuple(u * entry % N for entry in matrix[kept]) for u in units)

    place, found, tables = {coset(I): 0}, [I], ([], [])
    for matrix in found:  # found grows
        for table, step in zip(tables, (S, R)):
            image = tuple(entry % N for entry in product(matrix, step))
            number = place.setdefault(coset(image), len(found))
            if number == len(found):
                found.append(image)
            table.append(number)
    return tuple(map(tuple, tables))


def is_in(name, matrix):
    """Whether a matrix is, up to sign, in Γ0(N), Γ1(N) or Γ(N); None for a group
    that has another name."""
    kind, _, rest = name.partition("(")
    if kind not in ("Gamma0", "Gamma1", "Gamma"):
        return None
    N = int(rest.rstrip(")"))
    for a, b, c, d in (matrix, negative(matrix)):
        if c % N == 0 and (kind == "Gamma0" or (a % N == d % N == 1 % N and (kind == "Gamma1" or b % N == 0))):
            return True
    return False


def stored(name):
    """The lines of a file of rust/reference/data, as fields: SageMath's answers."""
    text = (REPOSITORY / "rust/reference/data" / name).read_text("utf-8")
    lines = [line for line in text.splitlines() if line and not line.startswith("#")]
    return [[field.strip() for field in line.split("|")] for line in lines]


def numbers(field):
    return [int(number) for number in field.split()]


def stored_symbols():
    """Name, vertices, pairings, index, e2, e3, genus, widths of each stored symbol."""
    for name, v, entries, pairings, index, e2, e3, genus, widths in stored("symbols.txt"):
        entries = numbers(entries)
        vertices = list(zip(entries[::2], entries[1::2]))
        assert len(vertices) == int(v)
        yield name, vertices, numbers(pairings), int(index), int(e2), int(e3), int(genus), numbers(widths)


def stored_pairs():
    """Index, S, R, e2, e3, genus, widths of each stored pair."""
    for index, s, r, e2, e3, genus, widths in stored("permutations.txt"):
        yield int(index), numbers(s), numbers(r), int(e2), int(e3), int(genus), numbers(widths)


def seeded(name):
    """Random numbers that are the same at every run."""
    return random.Random("farey " + name)

"""The cosets of a subgroup from a test for membership."""

from __future__ import annotations

import random
from typing import TYPE_CHECKING, Callable, Dict, List, Tuple

from .matrices import I, R, S, Entries, inverse, negative, product, times
from .refusal import Refusal

if TYPE_CHECKING:
    from .words import Words

#: A test: whether a matrix (a, b, c, d) of determinant 1 is in the group.
Test = Callable[[Entries], object]


def passes(test: Test, matrix: Entries) -> bool:
    """Whether the test passes a matrix or its negative."""
    return bool(test(matrix)) or bool(test(negative(matrix)))


def tables_of(test: Test, most: int) -> Tuple[List[int], List[int]]:
    """S and R on the right cosets of the matrices that pass the test, in the order in
    which they are found: H first, then for each coset its image under S and that under R.

    A and B are in one coset where A B⁻¹ passes, up to sign. An image under S is sought
    among the cosets that aren't one yet, and likewise for R, since both are one to one.
    """
    if not callable(test):
        raise TypeError(f"test is of type {type(test).__name__}, and a function is wanted")
    if not 1 <= most <= 3066:
        raise ValueError(f"most is {most}, and a number from 1 to 3,066 is wanted")

    if not passes(test, I):
        raise ValueError("the test isn't that of a subgroup: it fails the identity")
    found: List[Entries] = [I]
    tables: Tuple[Dict[int, int], Dict[int, int]] = ({}, {})
    # the cosets that are the image of none so far, for S and for R, with their inverses
    waiting: Tuple[Dict[int, Entries], Dict[int, Entries]] = ({0: I}, {0: I})
    point = 0
    while point < len(found):
        for table, images, step in zip(tables, waiting, (S, R)):
            if point in table:
                continue
            matrix = times(found[point], step)
            for image, back in images.items():
                if passes(test, times(matrix, back)):
                    break
            else:
                image = len(found)
                if image == most:
                    raise Refusal(12, 0, f"the test tells more than {most:,} cosets apart")
                found.append(matrix)
                for each in waiting:
                    each[image] = inverse(matrix)
            table[point] = image
            del images[image]
            if step is S and image != point:
                table[image] = point
                images.pop(point, None)
        point += 1
    S_table, R_table = ([table[x] for x in range(len(found))] for table in tables)
    return S_table, R_table


def ask_again(H: Words, test: Test) -> None:
    """Asks the test of every generator of the symbol that was made, of some products of
    generators and of some other matrices. It passes exactly those in H if it is that of a
    subgroup; a ValueError tells one for which it isn't so."""
    rng = random.Random(0)
    asked = [generator.matrix for generator in H.generators]
    asked += [H.random_element(letters, rng) for letters in range(2, 26)]
    asked += [product([rng.choice((S, R)) for _ in range(letters)]) for letters in range(2, 26)]
    for matrix in asked:
        if passes(test, matrix) != (matrix in H):
            does = "fails" if matrix in H else "passes"
            raise ValueError(f"the test isn't that of a subgroup: it {does} {matrix}")

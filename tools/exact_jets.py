"""Document 01's formulas of exact jets, number by number in its order, for the generators of exact cases: on Python's integers, which have no bound,
with the refusals of checked.py. Nothing here is taken from the library.

A jet's entries stand by place: (i, j) for a surface, (i, 0) for a curve. `places` are those that are formed, in the order of work.
"""
from math import comb

import cases
from checked import divided, formed
from part_lists import multiplicity, part_lists

TOP = 20


class Kind:
    """A curve or a surface: the places of an order, rising by i, then j; where each stands in the array, and the array's room."""

    def __init__(self, room, places, where):
        self.room, self.places, self.where = room, places, where

    def entries(self, array):
        """The entries by place; those that are not given are zero."""
        padded = array + [0] * (self.room - len(array))
        return {p: padded[self.where(*p)] for p in self.places(TOP)}

    def array(self, entries):
        out = [0] * self.room
        for place, z in entries.items():
            out[self.where(*place)] = int(z)
        return out


CURVE = Kind(21, lambda n: [(m, 0) for m in range(n + 1)], lambda i, j: i)
SURFACE = Kind(231, lambda n: [(i, j) for i in range(n + 1) for j in range(n + 1 - i)], cases.graded)


def term(a, b, m, n, i, j):
    return formed(formed(a[i, j] * b[m - i, n - j]) * formed(comb(m, i) * comb(n, j)))


def product_entry(a, b, m, n):
    total = 0
    for i in range(m + 1):
        for j in range(n + 1):
            total = formed(total + term(a, b, m, n, i, j))
    return total


def product(a, b, places):
    return {place: product_entry(a, b, *place) for place in places}


def quotient(a, b, places):
    q = {}
    for m, n in places:
        rest = a[m, n]
        for i in range(m + 1):
            for j in range(n + 1):
                if (i, j) != (0, 0):
                    rest = formed(rest - term(b, q, m, n, i, j))
        q[m, n] = divided(rest, b[0, 0])
    return q


def entrywise(f):
    return lambda a, b, places: {p: formed(f(a[p], b[p])) for p in places}


FORMULAS = [entrywise(lambda x, y: x + y), entrywise(lambda x, y: x - y), product, quotient]


def tensor(s, u, v, parts):
    total = 0
    for mask in range(2 ** len(parts)):
        factors, ones = 1, 0
        for p, a in enumerate(parts):
            by_v = mask >> p & 1
            ones += by_v
            factors = formed(factors * (v[a] if by_v else u[a]))
        total = formed(total + formed(s[len(parts) - ones, ones] * factors))
    return total


def carried(s, u, v, order):
    """The entry of one order above 0, along the curve (u, v)."""
    total = 0
    for length in range(1, order + 1):
        for parts in part_lists(order, length):
            total = formed(total + formed(tensor(s, u, v, parts) * formed(multiplicity(parts))))
    return total

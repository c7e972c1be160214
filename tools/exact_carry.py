"""The carry's cases of the program replay_exact (operation 21).

A surface's jet is a polynomial of two variables and a curve's u and v, without their entries 0, are polynomials of one: the one is put into the
other, cut off past the order, with fractions. Beside that stand the numbers that document 01's carry forms (exact_jets.py). Where nothing is
refused, the two must agree. Every random choice comes from one seed. A case is a surface, a curve, the order asked, and what `composite_derivative`
and `composite_derivatives` answer.
"""
import random
from fractions import Fraction
from math import factorial

import cases
from cases import graded
from checked import HIGH, LOW, Refused, outcome
from exact_jets import SURFACE, carried, product

LARGEST = 2**64 - 1


def count(order):
    return graded(0, order + 1)


# ---- one polynomial put into the other
def multiplied(p, q):
    return [sum(p[i] * q[m - i] for i in range(m + 1)) for m in range(len(p))]


def powers(a, order):
    base = [Fraction(0)] + [Fraction(a[m], factorial(m)) for m in range(1, order + 1)]
    out = [[Fraction(1)] + [Fraction(0)] * order]
    for _ in range(order):
        out.append(multiplied(out[-1], base))
    return out


def substituted(entries, u, v, order):
    us, vs = powers(u, order), powers(v, order)
    total = [Fraction(0)] * (order + 1)
    for i in range(order + 1):
        for j in range(order + 1 - i):
            x = Fraction(entries[i, j], factorial(i) * factorial(j))
            if x:
                total = [t + x * z for t, z in zip(total, multiplied(us[i], vs[j]))]
    return [t * factorial(m) for m, t in enumerate(total)]


class Along:
    """A surface along a curve, at several orders: entries that are not given are zero."""

    def __init__(self, surface, curve, orders, entries=(), u=(), v=()):
        self.surface, self.curve, self.orders = surface, curve, list(orders)
        self.given = [list(entries), list(u), list(v)]
        pad = lambda l: l + [0] * (21 - len(l))
        self.entries, self.u, self.v = SURFACE.entries(self.given[0]), pad(self.given[1]), pad(self.given[2])
        self.known = {}

    def entry(self, m):
        """The derivative of the order m, or its refusal; worked out once."""
        if m not in self.known:
            self.known[m] = outcome(lambda: carried(self.entries, self.u, self.v, m))
        return self.known[m]

    def jet(self, order):
        """The first entry that is refused refuses the jet."""
        rest = [self.entry(m) for m in range(1, order + 1)]
        for z in rest:
            if cases.refused(z):
                return z
        return [self.entries[0, 0]] + rest

    def answers(self, order):
        """The entry and the jet of an order asked."""
        if max(self.surface, self.curve, order) > 20:
            return Refused(1), Refused(1)
        if order > min(self.surface, self.curve):
            return Refused(2), Refused(2)
        truth = substituted(self.entries, self.u, self.v, order)
        entry, jet = self.entry(order), self.jet(order)
        assert cases.refused(entry) or entry == (truth[order] if order else 0)
        assert cases.refused(jet) or jet == truth
        return entry, jet if cases.refused(jet) else (order, jet)

    def lines(self):
        entries, u, v = [cases.listed(l, cases.whole) for l in self.given]
        for order in self.orders:
            entry, jet = self.answers(order)
            given = cases.sizes(21, self.surface) + entries + cases.sizes(self.curve) + u + v + cases.sizes(order)
            yield given + cases.number(entry, cases.whole) + cases.jet(jet, cases.whole)


def surface_of(**at_places):
    """A surface's entries by place: e12=3 puts 3 at [1][2]."""
    places = {graded(int(p[1]), int(p[2])): z for p, z in at_places.items()}
    return [places.get(k, 0) for k in range(1 + max(places))]


FIGURE = surface_of(e00=5, e10=2, e01=3, e20=1, e11=4, e02=6)


def along():
    rng = random.Random(21)
    out = []

    def add(*given):
        out.append(Along(*given))
        return out[-1]

    def numbers(count, bound):
        return [rng.randint(-bound, bound) for _ in range(count)]

    # document 01's figures; the curve's entries 0 are read by nobody
    u, v = [7, 1, 2], [HIGH, 2, 1]
    plain = add(2, 2, range(4), FIGURE, u, v)
    square = add(2, 2, range(4), SURFACE.array(product(SURFACE.entries(FIGURE), SURFACE.entries(FIGURE), SURFACE.places(2)))[:6], u, v)
    assert plain.jet(2) == [5, 8, 48] and square.jet(2) == [25, 80, 608]
    # refusals 1 and 2, each alone; then 1 before 2, and both before 9
    large = [21, 22, 2**32, 2**63 - 1, 2**63, LARGEST]
    full = [HIGH, HIGH, HIGH]
    for n in large:
        add(n, 0, [0], [1])
        add(0, n, [0], [1])
        add(20, 20, [n], [1])
        add(n, 2, [0, 3, 20, n], full, full, full)
        add(2, n, [0, 3, 20, n], full, full, full)
        add(2, 2, [n], full, full, full)
        add(n, n, [0, n], full, full, full)
    for s, c in ((3, 2), (2, 3), (0, 0), (0, 20), (20, 0), (1, 1), (20, 19), (19, 20)):
        add(s, c, [min(s, c) + 1, 20, 21], [1])
        add(s, c, [min(s, c) + 1], full, full, full)
    # numbers just inside and just outside, at each place where one is formed
    for over in (0, 1):
        # the product of the factors, with entries that are zero too; and from the list's first part on, though the last gives zero
        add(2, 2, [1, 2], surface_of(e20=1), [0, 3037000499 + over])
        add(2, 2, [1, 2], surface_of(e20=1, e02=1), [0, -(2**31)], [0, 2 ** (31 + over)])
        add(2, 2, [1, 2], surface_of(e00=HIGH), [0, 2 ** (31 + over)], [0, 2**31])
        add(7, 7, [5, 6, 7], [3], [0, 0, 0, 0, 2**62], [0, 0, 1 + over])
        # the entry by the product; the least is inside
        add(1, 1, [0, 1], surface_of(e10=2**62), [0, 1 + over])
        add(1, 1, [0, 1], surface_of(e01=-(2**62)), [], [0, 2 + over])
        add(1, 1, [0, 1], surface_of(e01=LOW), [], [0, 1 - 2 * over])
        add(1, 1, [0, 1], surface_of(e10=3037000499), [0, 3037000499 + over])
        add(1, 1, [1], surface_of(e10=-1, e01=2**62), [0, 1], [0, 1 + over])
        add(1, 1, [1], surface_of(e10=2**62, e01=-1), [0, 1 + over], [0, 1])
        # the sum over masks, from above and from below
        add(1, 1, [0, 1], surface_of(e10=HIGH, e01=over), [0, 1], [0, 1])
        add(1, 1, [0, 1], surface_of(e10=LOW, e01=-over), [0, 1], [0, 1])
        # sums that come back: the order of the masks decides, and which part a mask's bit is for
        add(2, 2, [1, 2], surface_of(e20=HIGH, e11=over, e02=-2 * over), [0, 1], [0, 1])
        add(3, 3, [3], surface_of(e20=HIGH, e11=1, e02=HIGH), [0, 1, 1], [0, 1 - 2 * over, 2 * over - 1])
        # by the multiplicity: 3 for the list (2, 1)
        third = HIGH // 3
        add(3, 3, [2, 3], surface_of(e20=third + over), [0, 1, 1])
        add(3, 3, [2, 3], surface_of(e20=-third - over), [0, 1, 1])
        add(3, 3, [3], surface_of(e10=-5, e20=third + over), [0, 1, 1, 1])
        # the running total: over lists of one len, and from one len to the next
        add(2, 2, [1, 2], surface_of(e10=HIGH, e20=over), [0, 1, 1])
        add(2, 2, [1, 2], surface_of(e10=LOW, e20=-over), [0, 1, 1])
        add(4, 4, [3, 4], surface_of(e10=over, e20=1), [0, 1, 1, 2**61 - 1, 1])
        add(4, 4, [3, 4], surface_of(e10=-1 - over, e20=-1), [0, 1, 1, 2**61 - 1, 1])
        # totals that come back: the order of the lists decides, and that of the lens
        add(4, 4, [4], surface_of(e10=HIGH - 2, e20=1 - 2 * over), [0, 1, 1, -1, 1])
        add(3, 3, [3], surface_of(e10=HIGH, e20=2 * over - 1, e30=3 - 6 * over), [0, 1, 1, 1])
        # only a later order is refused, or only an earlier one
        add(3, 3, range(4), surface_of(e30=2**62), [0, 1 + over])
        add(3, 3, range(4), surface_of(e00=4, e10=HIGH, e01=over), [0, 1, 0, 0], [0, 1, 0, 0])
    # jets at random of the orders 0 to 8, with every order up to one past; what stands past the orders is large, and unread
    for order in range(9):
        for c in range(3):
            s, t = order, order
            if c == 1:
                s = min(8, order + rng.randint(0, 2))
            if c == 2:
                t = min(8, order + rng.randint(0, 2))
            small = rng.choice([1, 2, 3, 9] if order > 4 else [3, 10, 1000])
            junk = rng.randint(1, 4)
            add(
                s,
                t,
                range(min(s, t) + 2),
                numbers(count(s), small) + numbers(junk, HIGH),
                numbers(t + 1, small) + numbers(junk, HIGH),
                numbers(t + 1, small) + numbers(junk, HIGH),
            )
    # large numbers, most often refused at some order
    for order in (1, 2, 3, 4, 5):
        bound = rng.choice([2**15, 2**20, 2**31])
        add(order, order, range(order + 1), numbers(count(order), bound), numbers(order + 1, bound), numbers(order + 1, bound))
    # order 12; and 20, where few entries differ from zero
    add(12, 12, [0, 1, 7, 11, 12, 13], numbers(count(12), 2), numbers(13, 1), numbers(13, 1))
    add(12, 14, [12, 13], numbers(count(12), 1) + [HIGH], numbers(15, 1), numbers(15, 1))
    add(20, 20, [20], numbers(231, 1), [0, 1, -1], [0, 1, 0, 1])
    return out


def lines():
    return [line for case in along() for line in case.lines()]

"""Cases of jets of floats for the program replay_floats, worked in Python's floats (IEEE 754 binary64), each rounded operation in the order that
document 01 and the source give, written here from these and not from the library.

A case is a line of words (cases.py): the number of an operation, two jets, the orders asked, and the answer. A jet is its order and its array as a
list; for a curve of parameters two lists. Operations on curves: 1 sum, 2 difference, 3 product, 4 quotient, 5 derivative, 6 an entry of the product;
on surfaces 11 to 17, with 15 and 16 for the derivatives by u and by v; 21 and 22 the carry, an entry and the jet.
"""
import math
import random

import cases
from cases import graded
from checked import Refused, outcome
from part_lists import multiplicity, part_lists

TOP = 20


def divided(x, y):
    """A quotient of floats, also by zero."""
    if y != 0 or y != y:
        return x / y
    if x == 0 or x != x:
        return math.nan
    return math.copysign(math.inf, x) * math.copysign(1.0, y)


def times(x, y):
    return x * y


def refuse(test, number):
    if test:
        raise Refused(number)


def finite(xs):
    return all(math.isfinite(x) for x in xs)


# ---- the formulas: a curve's jet as a list, a surface's as a dictionary by (i, j)
def curve_product(a, b, m):
    total = 0.0
    for i in range(m + 1):
        total = total + times(times(a[i], b[m - i]), float(math.comb(m, i)))
    return total


def curve_quotient(x, w, n):
    """Lines 86 to 100 of the source: the sum starts from evals[0] * w[i], and leaves out j = 0 and j = i."""
    q = [0.0] * (n + 1)
    for i in range(n + 1):
        total = q[0] * w[i]
        for j in range(1, i):
            total = total + q[j] * (w[i - j] * float(math.comb(i, j)))
        q[i] = divided(x[i] - total, w[0])
    return q


def surface_product(a, b, m, n):
    total = 0.0
    for i in range(m + 1):
        for j in range(n + 1):
            total = total + times(times(a[i, j], b[m - i, n - j]), float(math.comb(m, i) * math.comb(n, j)))
    return total


def surface_quotient(x, w, order):
    """Lines 610 to 636 of the source: the sum starts from zero and has every term, the entry's own while that is zero."""
    q = {(i, j): 0.0 for i in range(order + 1) for j in range(order + 1 - i)}
    for m in range(order + 1):
        for n in range(order + 1 - m):
            total = 0.0
            for i in range(m + 1):
                for j in range(n + 1):
                    total = total + q[i, j] * ((w[m - i, n - j] * float(math.comb(m, i))) * float(math.comb(n, j)))
            q[m, n] = divided(x[m, n] - total, w[0, 0])
    return q


def carried(s, u, v, order):
    """Faà di Bruno: one running total over the lists of every length."""
    total = 0.0
    for length in range(1, order + 1):
        for parts in part_lists(order, length):
            tensor = 0.0
            for mask in range(1 << length):
                product = 1.0
                ones = 0
                for p, part in enumerate(parts):
                    bit = mask >> p & 1
                    ones += bit
                    product = product * (v[part] if bit else u[part])
                tensor = tensor + s[length - ones, ones] * product
            total = total + tensor * float(multiplicity(parts))
    return total


# ---- the operations on stored jets: (order, numbers as they stand in the array)
def curve_of(jet, n):
    return jet[1][:n + 1]


def surface_of(jet, n):
    return {(i, j): jet[1][graded(i, j)] for i in range(n + 1) for j in range(n + 1 - i)}


def values(s):
    return list(s.values()) if isinstance(s, dict) else s


def answered_curve(n, entries):
    refuse(not finite(entries), 10)
    return n, entries


def answered_surface(n, s):
    refuse(not finite(values(s)), 10)
    out = [0.0] * 231
    for (i, j), x in s.items():
        out[graded(i, j)] = x
    return n, out


def on_curves(op, a, b, m):
    if op == 5:
        refuse(a[0] > TOP, 1)
        refuse(a[0] == 0, 2)
        x = curve_of(a, a[0])
        refuse(not finite(x), 5)
        return answered_curve(a[0] - 1, x[1:])
    refuse(a[0] > TOP or b[0] > TOP, 1)
    if op == 6:
        refuse(m > TOP, 1)
        refuse(m > a[0] or m > b[0], 2)
        x, y = curve_of(a, m), curve_of(b, m)
        refuse(not (finite(x) and finite(y)), 5)
        r = curve_product(x, y, m)
        refuse(not math.isfinite(r), 10)
        return r
    n = min(a[0], b[0])
    x, y = curve_of(a, n), curve_of(b, n)
    refuse(not (finite(x) and finite(y)), 5)
    if op == 1:
        return answered_curve(n, [p + q for p, q in zip(x, y)])
    if op == 2:
        return answered_curve(n, [p - q for p, q in zip(x, y)])
    if op == 3:
        return answered_curve(n, [curve_product(x, y, k) for k in range(n + 1)])
    refuse(y[0] == 0, 7)
    return answered_curve(n, curve_quotient(x, y, n))


def on_surfaces(op, a, b, m, k):
    if op in (15, 16):
        refuse(a[0] > TOP, 1)
        refuse(a[0] == 0, 2)
        x = surface_of(a, a[0])
        refuse(not finite(values(x)), 5)
        n = a[0] - 1
        return answered_surface(n, {(i, j): x[(i + 1, j) if op == 15 else (i, j + 1)] for i in range(n + 1) for j in range(n + 1 - i)})
    refuse(a[0] > TOP or b[0] > TOP, 1)
    if op == 17:
        refuse(m + k > TOP, 1)
        refuse(m + k > min(a[0], b[0]), 2)
        x, y = surface_of(a, m + k), surface_of(b, m + k)
        refuse(not (finite(values(x)) and finite(values(y))), 5)
        r = surface_product(x, y, m, k)
        refuse(not math.isfinite(r), 10)
        return r
    n = min(a[0], b[0])
    x, y = surface_of(a, n), surface_of(b, n)
    refuse(not (finite(values(x)) and finite(values(y))), 5)
    if op == 11:
        return answered_surface(n, {p: x[p] + y[p] for p in x})
    if op == 12:
        return answered_surface(n, {p: x[p] - y[p] for p in x})
    if op == 13:
        return answered_surface(n, {p: surface_product(x, y, *p) for p in x})
    refuse(y[0, 0] == 0, 7)
    return answered_surface(n, surface_quotient(x, y, n))


def along(op, a, c, m):
    order, u, v = c
    refuse(a[0] > TOP or order > TOP or m > TOP, 1)
    refuse(m > a[0] or m > order, 2)
    s = surface_of(a, m)
    u, v = u[:m + 1], v[:m + 1]
    refuse(not (finite(values(s)) and finite(u) and finite(v)), 5)
    if op == 21:
        r = carried(s, u, v, m)
        refuse(not math.isfinite(r), 10)
        return r
    return answered_curve(m, [s[0, 0]] + [carried(s, u, v, k) for k in range(1, m + 1)])


def worked(op, a, b, m, n):
    w = 21 if op < 10 else 231
    big = (a[0], padded(a[1], w))
    if op < 10:
        return on_curves(op, big, (b[0], padded(b[1], w)), m)
    if op < 20:
        return on_surfaces(op, big, (b[0], padded(b[1], w)), m, n)
    return along(op, big, (b[0], padded(b[1], 21), padded(b[2], 21)), m)


# ---- the cases
def padded(xs, w):
    return xs + [0.0] * (w - len(xs))


def draw(rng, kind):
    if kind == 0:
        return rng.uniform(-4, 4)
    if kind == 1:
        return rng.choice([0.0, -0.0, 1.0, -1.0, 0.5, -3.0, 5e-324, -5e-324, 2.2250738585072014e-308, 1e-310])
    if kind == 2:
        return math.ldexp(rng.uniform(-1, 1), rng.randint(-60, 60))
    return math.ldexp(rng.uniform(-1, 1), rng.randint(-500, 500))


def given():
    rng = random.Random(20260101)
    curve = lambda n, k: (n, [draw(rng, k) for _ in range(min(n, TOP) + 1)])
    surface = lambda n, k: (n, [draw(rng, k) for _ in range((min(n, TOP) + 1) * (min(n, TOP) + 2) // 2)])
    both = lambda n, k: (n, curve(n, k)[1], curve(n, k)[1])
    inf, nan = math.inf, math.nan

    for n in (0, 1, 2, 5, 20):
        for k in range(4):
            for op in range(1, 7):
                yield op, curve(n, k), curve(min(20, n + rng.randint(0, 2)), k), rng.randint(0, n), 0
    # refusals, and pairs of them
    one = (2, [1.0, 2.0, 3.0])
    for op in range(1, 7):
        yield op, (21, [1.0]), one, 1, 0
        yield op, one, (21, [nan]), 1, 0
        yield op, (0, [1.0]), one, 0, 0
        yield op, (2, [1.0, inf, 3.0]), one, 2, 0
        yield op, one, (2, [1.0, 2.0, nan]), 2, 0
        yield op, (2, [1.0, 2.0, 3.0, nan]), one, 2, 0
        yield op, (1, [1.0, 2.0]), (2, [1.0, 2.0, nan]), 1, 0
        yield op, (1, [1e308, 1e308]), (1, [1e308, -1e308]), 1, 0
    for m in (3, 20, 21, 2 ** 63):
        yield 6, one, one, m, 0
    for zero in (0.0, -0.0):
        yield 4, one, (2, [zero, 2.0, 3.0]), 0, 0
        yield 4, (1, [1e308, 1e308]), (1, [zero, 1e308]), 0, 0
        yield 4, (1, [1.0, inf]), (1, [zero, 1.0]), 0, 0
        yield 4, (2, [zero, zero, -0.0]), (2, [1.0, zero, -0.0]), 0, 0
        yield 4, (2, [zero, 1.0, 1.0]), (2, [-1.0, zero, -0.0]), 0, 0
    yield 4, (1, [1e308, 1.0]), (1, [1e-308, 1.0]), 0, 0

    for n in (0, 1, 2, 3, 6):
        for k in range(4):
            for op in range(11, 18):
                m = rng.randint(0, n)
                yield op, surface(n, k), surface(n + rng.randint(0, 1), k), m, rng.randint(0, n - m)
    for op in (11, 13, 14, 15, 16, 17):
        yield op, surface(20, 0), surface(20, 0), 9, 11
    s = (1, [1.0, 2.0, 3.0])
    for op in range(11, 18):
        yield op, (21, [1.0]), s, 0, 1
        yield op, s, (21, [nan]), 0, 1
        yield op, (0, [1.0]), s, 0, 0
        yield op, (1, [1.0, 2.0, nan]), s, 1, 0
        yield op, s, (1, [1.0, inf, 2.0]), 0, 1
        yield op, (1, [1.0, 2.0, 3.0, nan]), s, 0, 1
        yield op, (1, [1e308] * 3), (1, [1e308, -1e308, 1e308]), 1, 0
    for m, n in ((2, 0), (1, 1), (20, 0), (21, 0), (0, 21), (11, 10), (2 ** 63, 2 ** 63)):
        yield 17, s, s, m, n
    for zero in (0.0, -0.0):
        yield 14, s, (1, [zero, 1.0, 1.0]), 0, 0
        yield 14, (1, [1e308] * 3), (1, [zero, 1e308, 1.0]), 0, 0
        yield 14, (1, [zero, -0.0, zero]), (1, [-1.0, zero, 1.0]), 0, 0

    for n in (0, 1, 2, 3, 5, 8):
        for k in range(4):
            for op in (21, 22):
                yield op, surface(n, k), both(n, k), rng.randint(max(0, n - 1), n), 0
    w = (1, [1.0, 2.0], [3.0, -1.0])
    for op in (21, 22):
        yield op, surface(11, 0), both(11, 0), 11, 0
        yield op, (21, [1.0]), w, 1, 0
        yield op, s, (21, [1.0], [nan]), 1, 0
        yield op, s, w, 21, 0
        yield op, s, w, 2, 0
        yield op, (1, [1.0, nan, 1.0]), w, 1, 0
        yield op, (1, [1.0, nan, 1.0]), w, 0, 0
        yield op, s, (1, [1.0, inf], [1.0, 1.0]), 1, 0
        yield op, s, (1, [1.0, 1.0], [nan, 1.0]), 1, 0
        yield op, (1, [-0.0, -0.0, 0.0]), (1, [0.0, -0.0], [0.0, -0.0]), 1, 0
        yield op, (1, [-0.0, -0.0, 0.0]), w, 0, 0
        yield op, (1, [1e308] * 3), (1, [0.0, 1e308], [0.0, 1.0]), 1, 0


def line(op, a, b, m, n):
    jets = [word for order, *lists in (a, b) for word in cases.sizes(order) + [w for xs in lists for w in cases.listed(xs, cases.bits)]]
    asked = cases.sizes(m, n) if 10 < op < 20 else cases.sizes(m)
    answer = outcome(lambda: worked(op, a, b, m, n))
    wanted = cases.number if op in (6, 17, 21) else cases.jet
    return cases.sizes(op) + jets + asked + wanted(answer, cases.bits)


def groups():
    return [('jets of floats', [line(*case) for case in given()])]

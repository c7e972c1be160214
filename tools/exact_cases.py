"""Cases of exact jets for the program replay_exact.

Nothing here is taken from the library. A jet's entries are the derivatives of a polynomial; products and quotients are those of the polynomials,
worked out with fractions. Beside that stand document 01's formulas (exact_jets.py). Where nothing is refused, the two must agree. Every random
choice comes from one seed.

A case is a line of words (cases.py): the number of an operation, what it is given, and the answer. A jet is its order and its array as a list; for a
curve of parameters two lists. Operations on curves: 1 sum, 2 difference, 3 product, 4 quotient, 5 derivative, 6 an entry of the product, each with
two jets and an order; on surfaces 11 to 17, with 15 and 16 for the derivatives by u and by v, and two orders; 21 the carry (exact_carry.py); 31 to 33
a curve, a surface or a curve of parameters from an order and a list; 34 to 36 such a jet into a list that is lent; 41 and 42 recipes
(exact_recipes.py).
"""
import random
from fractions import Fraction
from math import factorial

import cases
import exact_carry
import exact_recipes
from checked import HIGH, LOW, Refused, outcome
from exact_jets import CURVE, FORMULAS, SURFACE, product, product_entry

BASE = {CURVE: 0, SURFACE: 10}


# ---- the formulas, by polynomials
def polynomial(a, order):
    return {(i, j): Fraction(a[i, j], factorial(i) * factorial(j)) for i, j in order}


def derivatives(p, order):
    return {(i, j): p[i, j] * factorial(i) * factorial(j) for i, j in order}


def multiplied(p, q, order):
    r = {o: Fraction(0) for o in order}
    for (i, j), x in p.items():
        for (k, l), y in q.items():
            if (i + k, j + l) in r:
                r[i + k, j + l] += x * y
    return r


def agrees(operation, a, b, r, order):
    p, q = polynomial(a, order), polynomial(b, order)
    if operation in (1, 2):
        sign = 1 if operation == 1 else -1
        return derivatives({o: p[o] + sign * q[o] for o in order}, order) == r
    if operation == 3:
        return derivatives(multiplied(p, q, order), order) == r
    return multiplied(polynomial(r, order), q, order) == p


# ---- operations on jets
def entry_answer(kind, k, l, m, n, x, y):
    if max(k, l, m + n) > 20:
        raise Refused(1)
    if m + n > min(k, l):
        raise Refused(2)
    z = product_entry(x, y, m, n)
    places = [(i, j) for i in range(m + 1) for j in range(n + 1)]
    assert derivatives(multiplied(polynomial(x, places), polynomial(y, places), places), places)[m, n] == z
    return z


def derivative_answer(kind, k, x, by):
    if k > 20:
        raise Refused(1)
    if k == 0:
        raise Refused(2)
    return k - 1, kind.array({(i, j): x[i + by[0], j + by[1]] for i, j in kind.places(k - 1)})


def formula_answer(kind, operation, k, l, x, y):
    if max(k, l) > 20:
        raise Refused(1)
    places = kind.places(min(k, l))
    r = FORMULAS[operation - 1](x, y, places)
    assert agrees(operation, x, y, r, places)
    return min(k, l), kind.array(r)


def answer(kind, operation, k, l, m, n, a, b):
    x, y = kind.entries(a), kind.entries(b)
    if operation == (6 if kind is CURVE else 7):
        return cases.number(outcome(lambda: entry_answer(kind, k, l, m, n, x, y)), cases.whole)
    if operation >= 5:
        return cases.jet(outcome(lambda: derivative_answer(kind, k, x, (1, 0) if operation == 5 else (0, 1))), cases.whole)
    return cases.jet(outcome(lambda: formula_answer(kind, operation, k, l, x, y)), cases.whole)


def jet(order, *arrays):
    return cases.sizes(order) + [word for array in arrays for word in cases.listed(array, cases.whole)]


def line(operation, k, l, m, n, a, b):
    kind = CURVE if operation < 10 else SURFACE
    asked = cases.sizes(m) if kind is CURVE else cases.sizes(m, n)
    return cases.sizes(operation) + jet(k, a) + jet(l, b) + asked + answer(kind, operation - BASE[kind], k, l, m, n, a, b)


def operations(rng, numbers):
    out = []

    def add(operation, k=0, l=0, m=0, n=0, a=(), b=()):
        out.append(line(operation, k, l, m, n, list(a), list(b)))

    # every refusal with its small input, and pairs of them
    for base in (0, 10):
        for operation in (1, 2, 3, 4):
            add(base + operation, 21, 0, a=[1], b=[1])
            add(base + operation, 0, 21, a=[1], b=[0])
        add(base + 5, 21, a=[1])
        add(base + 5, 0, a=[1])
        add(base + 4, 0, 0, a=[4], b=[0])
        add(base + 4, 0, 0, a=[5], b=[2])
        add(base + 4, 1, 1, a=[5, LOW, LOW], b=[2, HIGH, HIGH])
        add(base + 4, 1, 1, a=[4, HIGH, HIGH], b=[2, -HIGH, -HIGH])
        add(base + 4, 0, 0, a=[LOW], b=[-1])
        add(base + 4, 1, 1, a=[2, 1, 1], b=[0, 1, 1])
        add(base + 3, 0, 0, a=[2**62], b=[1])
        add(base + 3, 0, 0, a=[2**62], b=[2])
        add(base + 3, 1, 1, a=[1, 2**62, 2**62], b=[1, 2**62, 2**62])
        add(base + 1, 1, 1, a=[HIGH, 0, 0], b=[0, 1, 1])
        add(base + 1, 1, 1, a=[HIGH, 0, 0], b=[1, 1, 1])
        add(base + 2, 1, 1, a=[LOW, 3, 4], b=[1, 1, 1])
        add(base + 2, 2, 0, a=[LOW, LOW, LOW], b=[LOW, 1, 1])
    add(16, 21, a=[1])
    add(16, 0, a=[1])
    for operation in (6, 17):
        add(operation, 21, 0, 0, 0, [1], [1])
        add(operation, 3, 21, 9, 0, [1], [1])
        add(operation, 3, 3, 21, 0, [1], [1])
        add(operation, 3, 2, 3, 0, [1], [1])
        add(operation, 2, 3, 3, 0, [1], [1])
        add(operation, 0, 0, 0, 0, [2**62], [2])
        add(operation, 0, 0, 2**63, 0, [1], [1])
    add(17, 3, 3, 11, 10, [1], [1])
    add(17, 3, 3, 0, 21, [1], [1])
    add(17, 3, 3, 2**63, 2**63, [1], [1])
    add(17, 3, 3, 2, 2, [1], [1])
    # jets at random, in small numbers and in large ones
    for kind, count in ((CURVE, 24), (SURFACE, 10)):
        for c in range(count):
            big = c < 1
            k = 20 if big else rng.randint(0, 20 if kind is CURVE else 6)
            l = 20 if big else rng.randint(0, 20 if kind is CURVE else 6)
            size = 2 if big else rng.choice([3, 10, 1000, 2**31, 2**62])
            a, b = numbers(len(kind.places(k)) + 1, size), numbers(len(kind.places(l)) + 1, size)
            a, b = a[: kind.room], b[: kind.room]
            for operation in (1, 2, 3):
                add(BASE[kind] + operation, k, l, a=a, b=b)
            add(BASE[kind] + 5, k, a=a)
            if kind is SURFACE:
                add(16, k, a=a)
            m = rng.randint(0, min(k, l))
            if kind is CURVE:
                add(6, k, l, m, 0, a, b)
            else:
                add(17, k, l, m, rng.randint(0, min(k, l) - m), a, b)
            # a quotient that is exact, and one that most often is not
            b[0] = rng.choice([1, -1, 2, -3])
            s = min(k, l)
            try:
                p = product(kind.entries(a), kind.entries(b), kind.places(s))
                add(BASE[kind] + 4, s, l, a=kind.array(p)[: len(kind.places(s))], b=b)
            except Refused:
                pass
            add(BASE[kind] + 4, k, l, a=a, b=b)
    return out


# ---- jets from lists, and into lists
KINDS = ['curve', 'surface', 'parameter']


def due(kind, order):
    return {'curve': order + 1, 'surface': (order + 1) * (order + 2) // 2, 'parameter': 2 * (order + 1)}[kind]


def arrays(kind, order, entries):
    """The arrays of a jet whose list is given."""
    if kind == 'parameter':
        return [entries[0::2], entries[1::2]]
    return [entries if kind == 'curve' else SURFACE.array(dict(zip(SURFACE.places(order), entries)))]


def refusal(kind, order, count):
    return 1 if order > 20 else 2 if count != due(kind, order) else 0


def from_list(kind, order, given):
    number = refusal(kind, order, len(given))
    met = [[]] * (2 if kind == 'parameter' else 1) if number else arrays(kind, order, given)
    wanted = cases.sizes(number, 0 if number else order) + [word for array in met for word in cases.stored(array, cases.whole)]
    return cases.sizes(31 + KINDS.index(kind), order) + cases.listed(given, cases.whole) + wanted


def into_list(kind, order, entries, room):
    """The list lent holds 5 in each place before, and after a refusal."""
    held = [5] * room
    number = refusal(kind, order, room)
    after = cases.listed(held if number else entries[:room], cases.whole)
    jet_given = jet(order, *arrays(kind, min(order, 20), entries))
    return cases.sizes(34 + KINDS.index(kind)) + cases.listed(held, cases.whole) + jet_given + cases.sizes(number) + after


def lists(numbers):
    for kind in KINDS:
        for order in (0, 1, 3, 20, 21):
            count = due(kind, order)
            for given, room in ((count, count), (count - 1, count), (count, count - 1), (count + 1, 1)):
                entries = numbers(given, 9)
                yield from_list(kind, order, entries)
                yield into_list(kind, order, (entries + [0])[: due(kind, min(order, 20))], room)
        # jets that are made by hand
        for order, room in ((21, 1), (0, 3), (2**63, 0)):
            yield into_list(kind, order, [7] * due(kind, 0), room)


def groups():
    rng = random.Random(20)
    numbers = lambda count, size: [rng.randint(-size, size) for _ in range(count)]
    jets = operations(rng, numbers)
    return [('exact jets', jets), ('exact jets from lists and into lists', lists(numbers)), ('the exact carry', exact_carry.lines()),
            ('recipes and both roads', exact_recipes.lines())]

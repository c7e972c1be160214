#!/usr/bin/env python3
"""Works the stored answers of the Rust again from formulas written a second time, and compares every bit.

Run in the repository's root:  python3 compare/document.py data/rust_answers

The formulas are document 01's; where it leaves the order of terms to the source, that order was read off the source. Python's floats are IEEE 754
binary64. Only answered cases are worked: refusals are left to compare. Carries of order above 10 and centres of n above 8 are skipped.
"""

import math
import pathlib
import struct
import sys
from math import comb

sys.path.insert(0, str(pathlib.Path(__file__).resolve().parent.parent / 'tools'))
from part_lists import multiplicity, part_lists


def bits(x):
    return struct.pack(">d", x).hex()


# Numbers and vectors. A vector is a tuple of three floats.

def add(a, b):
    return tuple(map(lambda x, y: x + y, a, b)) if isinstance(a, tuple) else a + b


def sub(a, b):
    return tuple(map(lambda x, y: x - y, a, b)) if isinstance(a, tuple) else a - b


def scale(a, k):
    return tuple(x * k for x in a) if isinstance(a, tuple) else a * k


def over(a, k):
    return tuple(x / k for x in a) if isinstance(a, tuple) else a / k


def zero(a):
    return tuple(0.0 for _ in a) if isinstance(a, tuple) else 0.0


def dot(a, b):
    return (a[0] * b[0] + a[1] * b[1]) + a[2] * b[2]


def cross(a, b):
    return (a[1] * b[2] - a[2] * b[1], a[2] * b[0] - a[0] * b[2], a[0] * b[1] - a[1] * b[0])


def root(a):
    return math.sqrt(dot(a, a))


def times(m, v):
    """Rows of a matrix of columns, by a vector."""
    return tuple((m[0][r] * v[0] + m[1][r] * v[1]) + m[2][r] * v[2] for r in range(3))


def madd(a, b):
    return tuple(add(x, y) for x, y in zip(a, b))


def mscale(k, m):
    return tuple(scale(c, k) for c in m)


MZERO = ((0.0,) * 3,) * 3


# Products: Leibniz. Term = (a . b) * coefficient, from zero, i rising, then j.

def product_entry(op, a, b, n):
    total = zero(op(a[0], b[0]))
    for i in range(n + 1):
        total = add(total, scale(op(a[i], b[n - i]), float(comb(n, i))))
    return total


def product(op, a, b):
    return [product_entry(op, a, b, n) for n in range(min(len(a), len(b)))]


def surface_product_entry(op, a, b, m, n):
    total = zero(op(a[0][0], b[0][0]))
    for i in range(m + 1):
        for j in range(n + 1):
            total = add(total, scale(op(a[i][j], b[m - i][n - j]), float(comb(m, i) * comb(n, j))))
    return total


def by_entry(order, entry):
    return [[entry(i, j) for j in range(order + 1 - i)] for i in range(order + 1)]


# Quotients.

def quotient(x, w):
    """The sum starts from q[0] * w[i] and is subtracted once; the coefficient goes to the denominator."""
    q = [zero(x[0])] * min(len(x), len(w))
    for i in range(len(q)):
        total = scale(q[0], w[i])
        for j in range(1, i):
            total = add(total, scale(q[j], w[i - j] * float(comb(i, j))))
        q[i] = over(sub(x[i], total), w[0])
    return q


def surface_quotient(x, w):
    """From zero, over every term, the entry itself included while it is zero; (w * c0) * c1."""
    order = min(len(x), len(w)) - 1
    q = by_entry(order, lambda i, j: zero(x[0][0]))
    for m in range(order + 1):
        for n in range(order + 1 - m):
            total = zero(x[0][0])
            for i in range(m + 1):
                for j in range(n + 1):
                    total = add(total, scale(q[i][j], w[m - i][n - j] * float(comb(m, i)) * float(comb(n, j))))
            q[m][n] = over(sub(x[m][n], total), w[0][0])
    return q


# Norms.

def norm(s):
    """(x - y) * coefficient, term by term; an entry not yet known is zero."""
    e = [0.0] * len(s)
    e[0] = root(s[0])
    for m in range(1, len(s)):
        total = 0.0
        for i in range(m):
            total += (dot(s[i + 1], s[m - 1 - i]) - e[i + 1] * e[m - 1 - i]) * float(comb(m - 1, i))
        e[m] = total / e[0]
    return e


def surface_norm(s):
    """Two sums, their difference over e + e; the second without its first and last term."""
    order = len(s) - 1
    e = by_entry(order, lambda i, j: 0.0)
    e[0][0] = root(s[0][0])
    for m in range(order + 1):
        for n in range(order + 1 - m):
            if (m, n) == (0, 0):
                continue
            known, found = 0.0, 0.0
            for i in range(m + 1):
                for j in range(n + 1):
                    c = float(comb(m, i) * comb(n, j))
                    known += dot(s[i][j], s[m - i][n - j]) * c
                    if (i, j) not in ((0, 0), (m, n)):
                        found += (e[i][j] * e[m - i][n - j]) * c
            e[m][n] = (known - found) / (e[0][0] + e[0][0])
    return e


# The carry.

def carry_entry(s, uv, order):
    total = zero(s[0][0])
    for length in range(1, order + 1):
        for parts in part_lists(order, length):
            inner = zero(s[0][0])
            for mask in range(1 << length):
                factor, ones = 1.0, 0
                for p, part in enumerate(parts):
                    bit = mask >> p & 1
                    ones += bit
                    factor = factor * uv[part][bit]
                inner = add(inner, scale(s[length - ones][ones], factor))
            total = add(total, scale(inner, float(multiplicity(parts))))
    return total


def carry(s, uv, order):
    return [s[0][0]] + [carry_entry(s, uv, m) for m in range(1, order + 1)]


# Rotations: columns of k a a^T + c I + s [a]x, derived by the axis up to twice in all and by the angle any number of times.

def turned(s, c, k):
    return [(s, c), (c, -s), (-s, -c), (-c, s)][k % 4]


def rotation(axis, s, c, k):
    x, y, z = axis
    return (((k * x) * x + c, (k * x) * y + s * z, (k * x) * z - s * y),
            ((k * x) * y - s * z, (k * y) * y + c, (k * y) * z + s * x),
            ((k * x) * z + s * y, (k * y) * z - s * x, (k * z) * z + c))


def rot_der_n(orders, axis, s, c):
    s, c = turned(s, c, orders[3])
    k = -c + (1.0 if orders[3] == 0 else 0.0)
    by = [i for i in range(3) for _ in range(orders[i])]
    if not by:
        return rotation(axis, s, c, k)
    m = [[0.0] * 3 for _ in range(3)]
    if len(by) == 1:
        i = by[0]
        for r in range(3):
            if r != i:
                m[i][r] = m[r][i] = axis[r] * k
        m[i][i] = (2.0 * axis[i]) * k
        m[(i + 1) % 3][(i + 2) % 3], m[(i + 2) % 3][(i + 1) % 3] = s, -s
    elif len(by) == 2:
        i, j = by
        if i == j:
            m[i][i] = 2.0 * k
        else:
            m[i][j] = m[j][i] = k
    return tuple(map(tuple, m))


# Centre and contacts.

def invert3(m):
    det = dot(m[0], cross(m[1], m[2]))
    rows = [over(cross(m[1], m[2]), det), over(cross(m[2], m[0]), det), over(cross(m[0], m[1]), det)]
    return tuple(zip(*rows))


def derive(jet):
    """The derivative's entries; one zero for what is past the end."""
    return list(jet[1:])


def by_u(s):
    return s[1:]


def by_v(s):
    return [row[1:] for row in s[:-1]]


class Side:
    """Jets along the edge for one surface; what is not yet known is zero."""

    def __init__(self, s, uv, normal, order):
        self.s = s
        vectors, pairs = [(0.0,) * 3] * (order + 1), [(0.0,) * 2] * (order + 1)
        self.t, self.u, self.v, self.cross, self.normal = (list(vectors) for _ in range(5))
        self.uv, self.size = list(pairs), [0.0] * (order + 1)
        self.t[0], self.u[0], self.v[0], self.uv[0], self.normal[0] = s[0][0], s[1][0], s[0][1], uv, normal
        self.cross[0] = cross(self.u[0], self.v[0])
        self.size[0] = root(self.cross[0])

    def step(self, center, n):
        s, t, u, v = self.s, self.t, self.u, self.v
        known = carry_entry(s, self.uv, n)
        apart = [sub(a, b) for a, b in zip(t, center)]
        lhs = [product_entry(dot, d, apart, n) + (dot(d[0], known) + dot(carry_entry(ds, self.uv, n), apart[0]))
               for d, ds in ((u, by_u(s)), (v, by_v(s)))]
        cp = sub(t[0], center[0])
        uu = dot(s[1][0], s[1][0]) + dot(s[2][0], cp)
        uv = dot(s[1][0], s[0][1]) + dot(s[1][1], cp)
        vv = dot(s[0][1], s[0][1]) + dot(s[0][2], cp)
        det = uu * vv - uv * uv
        self.uv[n] = (-(vv / det) * lhs[0] + -(-uv / det) * lhs[1], -(-uv / det) * lhs[0] + -(uu / det) * lhs[1])
        t[n] = carry_entry(s, self.uv, n)
        u[n] = carry_entry(by_u(s), self.uv, n)
        v[n] = carry_entry(by_v(s), self.uv, n)
        self.cross[n] = product_entry(cross, u, v, n)
        self.size[n] = (product_entry(dot, derive(self.cross), self.cross, n - 1)
                        - product_entry(lambda a, b: a * b, derive(self.size), self.size, n - 1)) / self.size[0]
        self.normal[n] = quotient(self.cross, self.size)[n]


def contacts(n, circle, feet, normals, edge, radius, s0, s1):
    sides = [Side(s0, tuple(feet[:2]), tuple(normals[:3]), n + 1), Side(s1, tuple(feet[2:]), tuple(normals[3:]), n + 1)]
    center = [tuple(circle[:3])] + [(0.0,) * 3] * n
    rows = (edge[1], sides[0].normal[0], sides[1].normal[0])
    for m in range(1, n + 1):
        inverse = invert3(tuple(zip(*rows)))
        b = (product_entry(dot, derive(edge), [sub(x, y) for x, y in zip(edge, center)], m),
             radius[m] - product_entry(dot, derive(center), sides[0].normal, m - 1),
             radius[m] - product_entry(dot, derive(center), sides[1].normal, m - 1))
        center[m] = times(inverse, b)
        for side in sides:
            side.step(center, m)
    return center, sides[0].t, sides[1].t, sides[0].uv, sides[1].uv


def axis_angle(five, radius, angle):
    center, t0, t1 = five[:3]
    n = len(radius) - 2
    a = [sub(x, y) for x, y in zip(t0, center)]
    b = [sub(x, y) for x, y in zip(t1, center)]
    crosses, dots = product(cross, a, b), product(dot, a, b)
    size = norm(crosses)
    mul = lambda x, y: x * y
    rate = [radius[1] / radius[0]] + [0.0] * n
    for m in range(1, n + 1):
        rate[m] = (radius[m + 1] - product_entry(mul, radius, rate, m)) / radius[0]
    cosine = dot(a[0], b[0]) / (radius[0] * radius[0])
    cosine = cosine if cosine < 1.0 else 1.0  # a NaN becomes 1.0
    angles = [angle] + [0.0] * n
    for m in range(1, n + 1):
        sum0 = product_entry(mul, derive(angles), size, m - 1)
        sum1 = product_entry(mul, rate, dots, m - 1)
        angles[m] = ((2.0 * sum1 - dots[m]) - sum0) / size[0]
    return quotient(crosses, size), angles, cosine


# Partials.

def ones(*where):
    orders = [0] * 4
    for i in where:
        orders[i] += 1
    return orders


def derivative_v(five, axis, angle, u, s, c):
    center, t0 = five[:2]
    d = [rot_der_n(ones(i), axis[0], s, c) for i in range(4)]
    turn = mscale(axis[1][0], d[0])
    for i in (1, 2):
        turn = madd(turn, mscale(axis[1][i], d[i]))
    turn = madd(turn, mscale(angle[1] * u, d[3]))
    first = add(center[1], times(turn, sub(t0[0], center[0])))
    return add(first, times(rot_der_n(ones(), axis[0], s, c), sub(t0[1], center[1])))


def derivative_uv(five, axis, angle, u, s, c):
    center, t0 = five[:2]
    rot = lambda *where: rot_der_n(ones(*where), axis[0], s, c)
    rot_u = mscale(angle[0], rot(3))
    rot_uv = madd(mscale(angle[1], rot(3)), mscale((angle[0] * angle[1]) * u, rot(3, 3)))
    inner = madd(madd(mscale(axis[1][0], rot(0, 3)), mscale(axis[1][1], rot(1, 3))), mscale(axis[1][2], rot(2, 3)))
    rot_axis = mscale(angle[0], inner)
    return add(times(madd(rot_axis, rot_uv), sub(t0[0], center[0])), times(rot_u, sub(t0[1], center[1])))


def derivative_vv(five, axis, angle, u, s, c):
    center, t0 = five[:2]
    rot = lambda *where: rot_der_n(ones(*where), axis[0], s, c)
    a = [axis[i] + (angle[i] * u,) for i in range(3)]
    once, twice, pairs = MZERO, MZERO, MZERO
    for i in range(4):
        twice = madd(twice, mscale(a[2][i], rot(i)))
        once = madd(once, mscale(a[1][i], rot(i)))
        for j in range(4):
            pairs = madd(pairs, mscale(a[1][i] * a[1][j], rot(i, j)))
    cp = [sub(t0[i], center[i]) for i in range(3)]
    total = add(center[2], times(madd(twice, pairs), cp[0]))
    total = add(total, times(mscale(2.0, once), cp[1]))
    return add(total, times(rot(), cp[2]))


def circle_derivative(n, circle, s, c):
    center, axis, angle, point = tuple(circle[:3]), tuple(circle[3:6]), circle[6], tuple(circle[7:10])
    s, c = turned(s, c, n)
    power = 1.0
    for _ in range(n):
        power = power * angle
    turn = rotation(axis, s, c, 1.0 - c)
    return add(scale(center, 1.0 if n == 0 else 0.0), scale(times(turn, sub(point, center)), power))


# Reading a case.

class Case:
    def __init__(self, text):
        self.words = iter(text.split())

    def whole(self):
        return int(next(self.words))

    def wholes(self):
        return tuple(self.whole() for _ in range(self.whole()))

    def floats(self):
        return [struct.unpack(">d", bytes.fromhex(next(self.words)))[0] for _ in range(self.whole())]

    def entries(self, width):
        order, flat = self.whole(), self.floats()
        return order, flat if width == 1 else [tuple(flat[k:k + width]) for k in range(0, len(flat), width)]

    def curve(self, width):
        return self.entries(width)[1]

    def surface(self, width):
        order, flat = self.entries(width)
        it = iter(flat)
        return by_entry(order, lambda i, j: next(it))

    def fillet(self):
        return [self.floats(), self.floats(), self.floats(), self.curve(3), self.curve(1), self.surface(3), self.surface(3)]

    def five(self):
        return [self.curve(3), self.curve(3), self.curve(3), self.curve(2), self.curve(2)]


def flat(x):
    return [y for z in x for y in flat(z)] if isinstance(x, (list, tuple)) else [x]


def text_floats(x):
    return " ".join([str(len(flat(x)))] + [bits(y) for y in flat(x)])


def text_curve(jet):
    return f"{len(jet) - 1} {text_floats(jet)}"


text_surface = text_curve  # its rows are as many as its order, and one

MUL = lambda a, b: a * b
OPS = {"": (MUL, 1, 1), "_scaled": (scale, 3, 1), "_dot": (dot, 3, 3), "_cross": (cross, 3, 3)}


def work(name, case):
    """The text of the answer, or None where the case is skipped."""
    width = 3 if name.startswith("vector_") else 1
    plain = name.removeprefix("vector_")
    if name == "part_lists":
        found = part_lists(case.whole(), case.whole())
        return " ".join([str(len(found))] + [" ".join(map(str, (len(p) + 1, multiplicity(p)) + p)) for p in found])
    if name == "multiplicity":
        return str(multiplicity(case.wholes()))
    if name == "square_root":
        return text_floats(math.sqrt(case.floats()[0]))
    if plain in ("curve_sum", "curve_difference"):
        return text_curve([(add if plain == "curve_sum" else sub)(x, y) for x, y in zip(case.curve(width), case.curve(width))])
    if plain in ("surface_sum", "surface_difference"):
        a, b = case.surface(width), case.surface(width)
        f = add if plain == "surface_sum" else sub
        return text_surface(by_entry(min(len(a), len(b)) - 1, lambda i, j: f(a[i][j], b[i][j])))
    if plain == "curve_derivative":
        return text_curve(case.curve(width)[1:])
    if plain in ("surface_derivative_u", "surface_derivative_v"):
        return text_surface((by_u if plain.endswith("u") else by_v)(case.surface(width)))
    if plain == "curve_rational_derivatives":
        return text_curve(quotient(case.curve(width), case.curve(1)))
    if plain == "surface_rational_derivatives":
        return text_surface(surface_quotient(case.surface(width), case.surface(1)))
    if plain in ("composite_derivative", "composite_derivatives"):
        s, uv, order = case.surface(width), case.curve(2), case.whole()
        if order > 10:
            return None
        return text_curve(carry(s, uv, order)) if plain.endswith("s") else text_floats(carry_entry(s, uv, order))
    for suffix, (op, v, w) in OPS.items():
        if name == "curve_combinatorial_derivatives" + suffix:
            return text_curve(product(op, case.curve(v), case.curve(w)))
        if name == "curve_combinatorial_derivative" + suffix:
            return text_floats(product_entry(op, case.curve(v), case.curve(w), case.whole()))
        if name == "surface_combinatorial_derivatives" + suffix:
            a, b = case.surface(v), case.surface(w)
            return text_surface(by_entry(min(len(a), len(b)) - 1, lambda i, j: surface_product_entry(op, a, b, i, j)))
        if name == "surface_combinatorial_derivative" + suffix:
            return text_floats(surface_product_entry(op, case.surface(v), case.surface(w), case.whole(), case.whole()))
    if name == "curve_absolute_derivatives":
        return text_curve(norm(case.curve(3)))
    if name == "surface_absolute_derivatives":
        return text_surface(surface_norm(case.surface(3)))
    if name == "rot_der_n":
        orders = [case.whole() for _ in range(4)]
        return text_floats(rot_der_n(orders, case.floats(), *case.floats()))
    if name == "from_axis_angle":
        return text_floats(rot_der_n([0] * 4, case.floats(), *case.floats()))
    if name == "sub_center_contacts_ders":
        n, given = case.whole(), case.fillet()
        return None if n > 8 else " ".join(map(text_curve, contacts(n, *cut(given, n + 1))))
    if name == "vder_info":
        axis, angles, cosine = axis_angle(case.five(), case.curve(1), case.floats()[0])
        return " ".join([text_curve(axis), text_curve(angles), text_floats(cosine)])
    if name in ("derivative_v", "derivative_uv", "derivative_vv"):
        return text_floats(globals()[name](case.five(), case.curve(3), case.curve(1), *case.floats()))
    if name == "contact_circle_derivative_n":
        return text_floats(circle_derivative(case.whole(), case.floats(), *case.floats()))
    if name == "sub_der_mn":
        m, n, given = case.whole(), case.whole(), case.fillet()
        angle, u, s, c = case.floats()
        if n == 0:
            return text_floats(circle_derivative(m, given[0], s, c))
        given = cut(given, n + 1)
        five = contacts(n, *given)
        axis, angles, _ = axis_angle(five, given[4], angle)
        method = {(0, 1): derivative_v, (1, 1): derivative_uv, (0, 2): derivative_vv}[m, n]
        return text_floats(method(five, axis, angles, u, s, c))
    raise ValueError(name)


def cut(given, order):
    surface = lambda s: by_entry(order, lambda i, j: s[i][j])
    circle, feet, normals, edge, radius, s0, s1 = given
    return circle, feet, normals, edge[:order + 1], radius[:order + 1], surface(s0), surface(s1)


def main(directory):
    import pathlib
    bad = total = skipped = 0
    for path in sorted(pathlib.Path(directory).glob("*.txt")):
        for line in path.read_text().splitlines():
            if line.startswith("#"):
                continue
            given, answer = line.split(" = ")
            refusal, _, answer = answer.partition(" ")
            if refusal != "0":
                continue
            found = work(path.stem, Case(given))
            if found is None:
                skipped += 1
                continue
            total += 1
            if found != answer:
                bad += 1
                print(f"{path.stem}: {line}\nfound {found}")
    print(f"{total} answers worked again, {bad} differ, {skipped} skipped")
    return 1 if bad else 0


if __name__ == "__main__":
    sys.exit(main(sys.argv[1]))

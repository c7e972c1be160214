"""Cases of fillets whose shape is known in closed form, for the program replay_fillet.

A ball of changing radius rolls between the planes z = 0 and y = 0, and between two spheres of radius 2 about (0, 0, 1) and (0, 0, -1). Its centre
and its contact points are written down as functions of the place t on the edge, the point on the arc as a function of u and t, and both are
derived numerically in 50 digits (mpmath). Nothing of the library's algorithm is used: it solves for the derivatives order by order.

A case is a line of words (cases.py). Centre and contacts: 1, the tolerance, n, circle and fillet, then 0 and the jets of the centre, of both contact
points and of both foot parameters. A partial: 2, the tolerance, m, n, u, the angle, sine and cosine of angle times u, circle and fillet, then the
vector. A circle is centre, axis, angle, and each contact point with its parameters; a fillet both normals, the jets' order, and the lists of edge,
radius and both surfaces.
"""
import mpmath as mp

import cases

mp.mp.dps = 50
TOLERANCE = 1e-12


def derivatives(f, t, order):
    return [mp.diff(f, t, k) for k in range(order + 1)]


class Planes:
    """Normals y and z point to the ball; parameters (x, y) on z = 0 and (z, x) on y = 0."""

    def __init__(self, radius):
        self.radius = radius
        self.edge = lambda t: (t, mp.mpf(0), mp.mpf(0))
        self.center = lambda t: (t, radius(t), radius(t))
        self.contacts = [lambda t: (t, radius(t), mp.mpf(0)), lambda t: (t, mp.mpf(0), radius(t))]
        self.parameters = [lambda t: (t, radius(t)), lambda t: (radius(t), t)]
        self.surfaces = [lambda u, v: (u, v, mp.mpf(0)), lambda u, v: (v, mp.mpf(0), u)]

    def normal(self, side, t):
        return [(0, 0, 1), (0, 1, 0)][side]


class Spheres:
    """The edge is where the spheres meet; the ball's centre is at the distance 2 + r from both of theirs. Parameters are polar angle and longitude."""

    def __init__(self, radius):
        self.radius = radius
        self.edge = lambda t: (mp.sqrt(3) * mp.cos(t), mp.sqrt(3) * mp.sin(t), mp.mpf(0))
        self.center = lambda t: self.ray(mp.sqrt((2 + radius(t)) ** 2 - 1), t)
        self.contacts = [self.contact(1), self.contact(-1)]
        self.parameters = [self.foot(1), self.foot(-1)]
        self.surfaces = [self.sphere(1), self.sphere(-1)]

    def ray(self, rho, t):
        return (rho * mp.cos(t), rho * mp.sin(t), mp.mpf(0))

    def foot(self, z):
        return lambda t: (mp.acos(-z / (2 + self.radius(t))), t)

    def sphere(self, z):
        return lambda u, v: (2 * mp.sin(u) * mp.cos(v), 2 * mp.sin(u) * mp.sin(v), 2 * mp.cos(u) + z)

    def contact(self, z):
        def at(t):
            c, far = self.center(t), 2 + self.radius(t)
            return tuple(q + 2 * (p - q) / far for p, q in zip(c, (0, 0, z)))
        return at

    def normal(self, side, t):
        z = 1 - 2 * side
        return tuple((p - q) / (2 + self.radius(t)) for p, q in zip(self.center(t), (0, 0, z)))


def cross(a, b):
    return (a[1] * b[2] - a[2] * b[1], a[2] * b[0] - a[0] * b[2], a[0] * b[1] - a[1] * b[0])


def dot(a, b):
    return sum(x * y for x, y in zip(a, b))


def circle(shape, t):
    """Axis and angle of the arc from contact point 0 to contact point 1."""
    c = shape.center(t)
    a, b = [[x - y for x, y in zip(p(t), c)] for p in shape.contacts]
    n = cross(a, b)
    return [x / mp.sqrt(dot(n, n)) for x in n], mp.acos(dot(a, b) / mp.sqrt(dot(a, a) * dot(b, b)))


def arc(shape, k):
    """The coordinate k of the point at the share u of the arc, by turning contact point 0 about the axis."""
    def at(u, t):
        axis, angle = circle(shape, t)
        c = shape.center(t)
        a = [x - y for x, y in zip(shape.contacts[0](t), c)]
        s, w = mp.sin(angle * u), mp.cos(angle * u)
        turned = w * a[k] + s * cross(axis, a)[k] + (1 - w) * dot(axis, a) * axis[k]
        return c[k] + turned
    return at


def curve(f, width, t, order):
    columns = [derivatives(lambda x, k=k: f(x)[k], t, order) for k in range(width)]
    return [columns[k][m] for m in range(order + 1) for k in range(width)]


def surface(f, u, v, order):
    entry = lambda i, j, k: mp.diff(lambda x, y: f(x, y)[k], (u, v), (i, j)) if i + j else f(u, v)[k]
    return [entry(i, j, k) for i in range(order + 1) for j in range(order + 1 - i) for k in range(3)]


def word(x):
    return cases.bits(float(x))


def floats(*numbers):
    return [word(x) for x in numbers]


def given(shape, t, order):
    """The circle and the fillet."""
    axis, angle = circle(shape, t)
    contacts = [x for point, foot in zip(shape.contacts, shape.parameters) for x in (*point(t), *foot(t))]
    normals = [x for side in (0, 1) for x in shape.normal(side, t)]
    surfaces = [surface(s, *p(t), order) for s, p in zip(shape.surfaces, shape.parameters)]
    lists = [curve(shape.edge, 3, t, order), derivatives(shape.radius, t, order), *surfaces]
    return floats(*shape.center(t), *axis, angle, *contacts, *normals) + cases.sizes(order) + cases.several(lists, word)


def center_case(shape, t, n):
    """Contacts and parameters have the order n + 1, and zero for its entry."""
    jets = cases.sizes(0, n) + cases.listed(curve(shape.center, 3, t, n), word)
    for point in shape.contacts:
        jets += cases.sizes(n + 1) + cases.listed(curve(point, 3, t, n), word)
    for foot in shape.parameters:
        u_and_v = curve(foot, 2, t, n)
        jets += cases.sizes(n + 1) + cases.listed(u_and_v[0::2], word) + cases.listed(u_and_v[1::2], word)
    return cases.sizes(1) + floats(TOLERANCE) + cases.sizes(n) + given(shape, t, n + 1) + jets


def partial_case(shape, t, u, m, n):
    _, angle = circle(shape, t)
    asked = floats(TOLERANCE) + cases.sizes(m, n) + floats(u, angle, mp.sin(angle * u), mp.cos(angle * u))
    point = [mp.diff(arc(shape, k), (u, t), (m, n)) if m + n else arc(shape, k)(u, t) for k in range(3)]
    return cases.sizes(2) + asked + given(shape, t, n + 1 if n else 0) + cases.listed(point, word)


def groups():
    planes = Planes(lambda t: 2 + t / 4 - t ** 2 / 16 + t ** 3 / 40)
    spheres = Spheres(lambda t: 1 + mp.cos(t) / 5)
    shapes = [(planes, mp.mpf(1)), (planes, mp.mpf('-0.5')), (spheres, mp.mpf('0.5')), (spheres, mp.mpf('1.5')), (spheres, mp.mpf('2.75'))]
    centers = [center_case(shape, t, n) for shape, t in shapes for n in range(5)]
    partials = [partial_case(shape, t, mp.mpf(u), m, n) for shape, t in shapes for u in ('0.25', '0.875')
                for m, n in ((0, 0), (1, 0), (2, 0), (0, 1), (1, 1), (0, 2))]
    return [('centre and contacts of fillets in closed form', centers), ('partials of fillets in closed form', partials)]

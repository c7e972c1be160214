"""The recipes' cases of the program replay_exact: recipes of curves (operation 41), and both roads of a recipe of surfaces (42).

The formulas are document 01's, in its order of work (exact_jets.py), so that the first refusal is known too. Every case is also held to demand 3:
where the first road is answered, the second has the same jet, or is refused 9. Every random choice comes from one seed.

A case is the count of inputs, how many jets are there, and these; the count of steps, how many are there, and these (0 sum, 1 difference,
2 product, 3 quotient, then the two numbers); for surfaces the curve and the order asked; and the answer, for surfaces that of each road.
"""
import random

import cases
from checked import Refused, outcome
from exact_jets import CURVE, FORMULAS, SURFACE, carried


def carry(surface, curve, n):
    order, s = surface
    top, u, v = curve
    if order > 20 or top > 20 or n > 20:
        raise Refused(1)
    if n > order or n > top:
        raise Refused(2)
    return n, {(0, 0): s[0, 0]} | {(m, 0): carried(s, u, v, m) for m in range(1, n + 1)}


def build(kind, inputs, jets, steps, program):
    there = jets[: min(inputs, 4)]
    if any(order > 20 for order, _ in there):
        raise Refused(1)
    if not 1 <= inputs <= 4 or not 1 <= steps <= 12:
        raise Refused(4)
    for i, (_, left, right) in enumerate(program[:steps]):
        if left >= inputs + i or right >= inputs + i:
            raise Refused(4)
    n = min(order for order, _ in there)
    hand = [entries for _, entries in there]
    for op, left, right in program[:steps]:
        hand.append(FORMULAS[op](hand[left], hand[right], kind.places(n)))
    return n, hand[-1]


def first_road(inputs, jets, steps, program, curve, n):
    return carry(build(SURFACE, inputs, jets, steps, program), curve, n)


def second_road(inputs, jets, steps, program, curve, n):
    carried_jets = [carry(jet, curve, n) for jet in jets[: min(inputs, 4)]]
    return build(CURVE, inputs, carried_jets, steps, program)


# ---- cases
rng = random.Random(20261115)
STORED = 5  # entries are stored up to this order; a jet of a higher order has zeros there


class Zeros(dict):
    def __missing__(self, key):
        return 0


def number(size):
    return rng.randint(-size, size)


def jet(kind, order, size, least=None):
    entries = Zeros({p: number(size) for p in kind.places(min(order, STORED))})
    if least is not None:
        entries[0, 0] = least
    return order, entries


def curve(order, size):
    coordinate = lambda: Zeros({i: number(size) for i in range(min(order, STORED) + 1)})
    return order, coordinate(), coordinate()


def steps_for(inputs, count):
    """Steps whose quotients divide a product by one of its factors, or a number by itself."""
    program = []
    products = []
    for i in range(count):
        here = inputs + i
        if products and rng.random() < 0.45:
            p, f = rng.choice(products)
            program.append((3, p, f))
            continue
        op = rng.choice([0, 1, 2, 2, 2])
        left, right = rng.randrange(here), rng.randrange(here)
        if op == 2:
            products.append((here, left))
            products.append((here, right))
        program.append((op, left, right))
    return program


CASES = []


def roads(inputs, jets, steps, program, c, n):
    CASES.append((inputs, jets, steps, program, c, n))


def curves(inputs, jets, steps, program):
    CASES.append((inputs, jets, steps, program))


def recipe(kind, inputs=None, count=None, top=3, size=3):
    inputs = inputs or rng.randint(1, 4)
    count = count or rng.randint(1, 6)
    jets = [jet(kind, rng.randint(0, top), size, rng.choice([1, -1, 1, 2])) for _ in range(inputs)]
    return inputs, jets, count, steps_for(inputs, count)


# random recipes; then larger numbers, by which a number leaves the range on one road or on both
for size, times in ((2, 60), (5, 40), (40, 20), (3000, 30), (10**6, 20), (10**9, 20), (2**40, 10)):
    for _ in range(times):
        inputs, jets, count, program = recipe(SURFACE, size=size)
        low = min(order for order, _ in jets)
        roads(inputs, jets, count, program, curve(rng.randint(low, 4), min(size, 5)), rng.randint(0, low))
    for _ in range(times // 2):
        curves(*recipe(CURVE, top=5, size=size))

# the first road is answered, and the second forms a number out of range: a difference that cancels what the carry would form
big = 2**61
a = (2, Zeros({(0, 0): 1, (2, 0): big, (0, 2): big}))
b = (2, Zeros({(0, 0): 1, (2, 0): big - 3, (0, 2): big - 1}))
roads(2, [a, b], 1, [(1, 0, 1)], (2, Zeros({1: 3, 2: 1}), Zeros({1: 2})), 2)
roads(2, [a, b], 2, [(1, 0, 1), (0, 2, 2)], (2, Zeros({1: 3, 2: 1}), Zeros({1: 2})), 2)
for _ in range(40):
    order = rng.randint(1, 3)
    far = jet(SURFACE, order, 2 ** rng.randint(57, 62), 1)
    near = (order, Zeros({k: z - rng.randint(-3, 3) for k, z in far[1].items()}))
    roads(2, [far, near], 2, [(1, 0, 1), (rng.choice([0, 1, 2]), 2, 2)], curve(order, 9), rng.randint(1, order))
# an input that no step names decides the order, and one that no step names is refused when it is carried
roads(2, [jet(SURFACE, 3, 2), jet(SURFACE, 1, 2)], 1, [(2, 0, 0)], curve(3, 2), 1)
roads(2, [jet(SURFACE, 3, 2), jet(SURFACE, 1, 2)], 1, [(2, 0, 0)], curve(3, 2), 2)
roads(2, [jet(SURFACE, 1, 2), (1, Zeros({(1, 0): 2**62}))], 1, [(2, 0, 0)], (1, Zeros({1: 3}), Zeros({1: 0})), 1)
# high orders
roads(2, [jet(SURFACE, 20, 2, 1), jet(SURFACE, 20, 2, 1)], 2, [(2, 0, 1), (3, 2, 0)], curve(20, 1), 6)
curves(2, [jet(CURVE, 20, 2, 1), jet(CURVE, 20, 2, 1)], 2, [(2, 0, 1), (3, 2, 0)])


def refusals(kind):
    """Each refusal alone, and pairs: which comes first."""
    good = jet(kind, 2, 3, 1)
    high = (21, Zeros())
    zero = (2, Zeros())
    two = (2, Zeros({(0, 0): 2}))
    odd = (2, Zeros({(0, 0): 5}))
    huge = (2, Zeros({(0, 0): 2**62}))
    most = (2**63 - 1, Zeros())
    product = [(2, 0, 0)]
    return [
        (1, [high], 1, product), (2, [good, high], 1, product), (2, [good, most], 1, product),
        (0, [], 1, product), (5, [good] * 4, 1, product), (2**64 - 1, [good] * 4, 1, product),
        (5, [good, good, good, high], 1, product), (1, [good], 0, []), (1, [good], 13, product * 12), (1, [good], 2**64 - 1, product * 12),
        (1, [good], 1, [(2, 1, 0)]), (1, [good], 1, [(2, 0, 1)]), (1, [good], 2, [(2, 0, 1), (2, 0, 0)]), (1, [good], 2, [(2, 0, 0), (2, 2, 0)]),
        (1, [good], 2, [(2, 0, 0), (2, 0, 2)]), (1, [good], 1, [(2, 0, 2**64 - 1)]), (1, [high], 1, [(2, 1, 0)]), (0, [], 0, []),
        (2, [good, zero], 1, [(3, 0, 1)]), (2, [odd, two], 1, [(3, 0, 1)]), (2, [huge, two], 1, [(2, 0, 1)]), (2, [huge, huge], 1, [(0, 0, 1)]),
        (3, [huge, two, zero], 2, [(2, 0, 1), (3, 0, 2)]), (3, [huge, two, zero], 2, [(3, 0, 2), (2, 0, 1)]),
        (3, [odd, two, zero], 2, [(3, 0, 1), (3, 0, 2)]), (3, [odd, two, zero], 2, [(3, 0, 2), (3, 0, 1)]),
        (2, [huge, two], 2, [(2, 0, 1), (2, 0, 5)]), (2, [zero, zero], 1, [(3, 0, 1)]), (1, [huge], 1, [(1, 0, 0)]),
        (4, [good] * 4, 12, [(1, 0, 0), (0, 4, 1)] + [(0, 5, 2)] * 10), (1, [good], 1, [(3, 0, 0)]),
    ]


for case in refusals(CURVE):
    curves(*case)
for case in refusals(SURFACE):
    roads(*case, curve(2, 3), 2)
# and beside those of the carry: the order asked above the curve's, above 20, and the curve's above 20
for case in refusals(SURFACE)[:20]:
    roads(*case, curve(1, 3), 2)
    roads(*case, curve(3, 3), 3)
    roads(*case, (21, Zeros(), Zeros()), 1)
    roads(*case, curve(2, 3), 21)


# ---- the lines
def line(inputs, jets, steps, program, *along):
    kind = SURFACE if along else CURVE
    there, listed = jets[: min(inputs, 4)], program[: min(steps, 12)]
    words = cases.sizes(42 if along else 41, inputs, len(there))
    for order, entries in there:
        words += cases.sizes(order) + cases.stored(kind.array(entries), cases.whole)
    words += cases.sizes(steps, len(listed), *[n for step in listed for n in step])
    if not along:
        return words + wanted(lambda: build(CURVE, inputs, jets, steps, program))
    (top, u, v), asked = along
    words += cases.sizes(top)
    for coordinate in (u, v):
        words += cases.stored([coordinate[i] for i in range(STORED + 1)], cases.whole)
    roads = [wanted(lambda: road(inputs, jets, steps, program, *along)) for road in (first_road, second_road)]
    assert roads[0][0] != cases.size(0) or roads[1] in (roads[0], cases.sizes(9, 0, 0)), (inputs, jets, steps, program, along)
    return words + cases.sizes(asked) + roads[0] + roads[1]


def wanted(work):
    answer = outcome(work)
    return cases.jet(answer if cases.refused(answer) else (answer[0], CURVE.array(answer[1])), cases.whole)


def lines():
    return [line(*case) for case in CASES]

"""Cases of the C interface: every operation with each fault that applies to it, and with two at a time.

A group is one case (tools/cases.py). Its label has the operation, the faults and the number to be met. Which number that is follows from document 01's
table alone: the faults of a case are known, and the first of them in the order of its checks is met. A fault is its number and where it is: `1 a` is an
order of 21 for the jet a, `2 a` one entry too few or too many of a, `2 lent` a place too many in the list lent, `2 asked` an order that the jet does not
have, `5 a` a float of a that is not finite. A case without faults is answered; what its answer is, is not said here.
Where two faults are met by the work itself (6 to 9), the case is made so that one comes first, and the label says so. A road meets the faults of its
calls in their order.
"""
import copy
import itertools

import cases
from cases import FLOATS, count
from rust_cases import read, shape

CHECKED = [1, 2, 3, 4, 11, 5, 6, 7, 8, 9, 10]
NAN, INFINITY = float('nan'), float('inf')
LARGE, WHOLE_LARGE = 1e308, 2**62


class Call:
    """What is given to an operation, and the lengths of the lists that are lent; the first list of sizes has the orders."""

    def __init__(self, name, orders, lists, lent=None, more=()):
        self.name, self.orders, self.lists, self.more = name, orders, lists, list(more)
        self.lent = cases.due(name, orders) if lent is None else lent


class Fault:
    """touches names what the change is about: two faults that touch the same do not go together."""

    def __init__(self, number, where, touches, change):
        self.number, self.where, self.touches, self.change = number, where, touches, change

    def __str__(self):
        return ('%d %s' % (self.number, self.where)).strip()


written = []


def write(call, faults, met):
    label = call.name.ljust(41) + ' + '.join(map(str, faults))
    if len(label) > 78:
        raise ValueError(label)
    fill = cases.FILL if call.name in FLOATS else cases.WHOLE_FILL
    lent = call.lent if isinstance(call.lent[0], list) else [[fill] * n for n in call.lent]
    case = cases.line(call.name, met or cases.ANSWERED, [call.orders] + call.more, call.lists, lent)
    written.append(('%s -> %d' % (label.ljust(78), met), [case]))


def answered(call, what):
    write(call, [what], 0)


def some(faults):
    """Of each number the first fault, one of the middle and the last."""
    groups = [[f for f in faults if f.number == number] for number in CHECKED]
    return [group[place] for group in groups if group for place in sorted({0, len(group) // 2, len(group) - 1})]


def first_checked(few):
    return min((f.number for f in few), key=CHECKED.index)


def matrix(call, faults, what='', pairs=None, met=first_checked, skip=lambda few: False):
    """The case without a fault, each fault, and each two of all or of some."""
    write(call, ['answered' + what], 0)
    for few in itertools.chain(itertools.combinations(faults, 1), itertools.combinations(faults if pairs is None else pairs, 2)):
        if len({f.number for f in few}) < len(few) or len({f.touches for f in few}) < len(few) or skip(few):
            continue
        changed = copy.deepcopy(call)
        # what is wrong with values first, then orders, then counts
        for f in sorted(few, key=lambda f: (f.number == 2, CHECKED.index(f.number) <= 4, -CHECKED.index(f.number))):
            f.change(changed, len(few) == 1)
        write(changed, few, met(few))


def order_fault(place, at, where, kind=None, width=1, bad=21, touches=None):
    """An order above 20; alone, its list has the entries of that order."""

    def change(call, alone):
        call.orders[place] = bad
        if alone and kind:
            wanted = width * count(kind, bad)
            call.lists[at] = (call.lists[at] * wanted)[:wanted]
    return Fault(1, where, touches or 'order ' + where, change)


def count_fault(at, where, more=False):
    def change(call, alone):
        call.lists[at] = call.lists[at] + call.lists[at][-1:] if more else call.lists[at][:-1]
    return Fault(2, where, 'count ' + where, change)


def lent_fault(at=0, where=''):
    def change(call, alone):
        call.lent[at] += 1
    return Fault(2, ('lent ' + where).strip(), 'lent', change)


def value_fault(number, where, at, place, value, touches=None):
    def change(call, alone):
        call.lists[at][place] = value
    return Fault(number, where, touches or '%d %s' % (number, where), change)


def all_values(number, where, at_values):
    """Every member of some lists."""

    def change(call, alone):
        for at, value in at_values:
            call.lists[at] = [value] * len(call.lists[at])
    return Fault(number, where, 'values', change)


def asked_fault(place, value, where='asked', touches='order m'):
    def change(call, alone):
        call.orders[place] = value
    return Fault(2, where, touches, change)


def sample(n, first=1.0):
    return [first + 0.5 * k for k in range(n)]


def whole_sample(n):
    return [2 * k + 2 for k in range(n)]


def unit(n):
    """A jet whose entry 0 alone is not zero."""
    return [1.0] + [0.0] * (n - 1)


# Jets.

def widths(name):
    if name.endswith('scaled'):
        return 3, 1
    if name.endswith(('dot', 'cross')):
        return 3, 3
    if name.startswith('vector_'):
        return 3, 1 if 'rational' in name else 3
    if 'absolute' in name:
        return 3, 3
    return 1, 1


def jets(name):
    """Operations on one jet or two."""
    exact = name.startswith('exact_')
    plain = name.removeprefix('exact_')
    kind = 'curve' if plain.startswith(('curve', 'vector_curve')) else 'surface'
    wa, wb = widths(plain)
    carry = 'composite' in plain
    if carry:
        wb = 2
    kb = 'curve' if carry else kind
    one = 'absolute' in plain or plain.endswith(('curve_derivative', '_u', '_v'))
    single = not one and not carry and '_combinatorial_derivative' in plain and 'derivatives' not in plain
    asked = ([0] if kind == 'curve' or carry else [0, 0]) if single or carry else []
    make = whole_sample if exact else sample

    def call(order, fill=make, m=None):
        m = order if m is None else m
        orders = [order] if one else [order, order] + ([m] + asked[1:] if asked else [])
        lists = [fill(wa * count(kind, order))] + ([] if one else [fill(wb * count(kb, order))])
        return Call(name, orders, lists)
    faults = [order_fault(0, 0, 'a', kind, wa), count_fault(0, 'a')]
    if not one:
        faults += [order_fault(1, 1, 'b', kb, wb), count_fault(1, 'b', more=True)]
    for place in range(len(asked)):
        where = 'm' if place == 0 else 'n'
        faults.append(order_fault(2 + place, None, where))
    if asked:
        faults.append(asked_fault(2, 3))
    if single and len(asked) == 2:
        faults.append(asked_fault(3, 1, 'asked m + n', 'order n'))
    if plain.endswith(('curve_derivative', '_u', '_v')):
        def change(c, alone):
            c.orders[0], c.lists[0], c.lent = 0, c.lists[0][:wa], [wa]
        faults.append(Fault(2, 'order 0', 'order a', change))
    faults.append(lent_fault())
    if not exact:
        faults.append(value_fault(5, 'a', 0, -1 if 'absolute' in plain else 0, NAN))
        if not one:
            faults.append(value_fault(5, 'b', 1, -1, INFINITY))
        if plain.endswith('sum') or carry or 'combinatorial' in plain:
            faults.append(all_values(10, '', [(0, LARGE), (1, LARGE)]))
        elif plain.endswith('difference'):
            faults.append(all_values(10, '', [(0, LARGE), (1, -LARGE)]))
        elif 'rational' in plain:
            faults.append(all_values(10, '', [(0, LARGE), (1, 1e-300)]))
            faults.append(value_fault(7, '', 1, 0, 0.0))
            faults.append(value_fault(7, 'negative zero', 1, 0, -0.0))
        elif 'absolute' in plain:
            faults.append(all_values(10, '', [(0, LARGE)]))

            def change(c, alone):
                c.lists[0][:3] = [0.0] * 3
            faults.append(Fault(7, '', 'values 0', change))
    else:
        if plain.endswith('sum') or carry or 'combinatorial' in plain:
            faults.append(all_values(9, '', [(0, WHOLE_LARGE), (1, WHOLE_LARGE)]))
        elif plain.endswith('difference'):
            faults.append(all_values(9, '', [(0, WHOLE_LARGE), (1, -WHOLE_LARGE)]))
        elif 'quotient' in plain:
            def change(values):
                def apply(c, alone):
                    for at, members in enumerate(values):
                        c.lists[at][:len(members)] = members
                return apply
            faults.append(Fault(7, '', 'values', change([[5], [0]])))
            faults.append(Fault(8, '', 'values', change([[5], [2]])))
            faults.append(Fault(9, '', 'values', change([[-(2**63)], [-1]])))
            faults.append(Fault(8, 'then 9', 'values', change([[5, WHOLE_LARGE], [2, WHOLE_LARGE]])))
            faults.append(Fault(9, 'then 8', 'values', change([[WHOLE_LARGE, 1, 1], [2, WHOLE_LARGE, 0]])))
    base = call(2)
    if exact and 'quotient' in plain:
        base.lists[1] = [1] + base.lists[1][1:]
    matrix(base, faults)
    for order in (0, 1, 20):
        fill = (lambda n: [1] + [0] * (n - 1)) if exact else unit
        if order == 0 and plain.endswith(('curve_derivative', '_u', '_v')):
            continue
        answered(call(order, fill), 'order %d' % order)
    if exact:
        return
    # entries above the order that is worked at do not count
    if carry or single and kind == 'curve':
        cut = call(2, m=1)
        cut.lists[0][-1], cut.lists[1][-1] = NAN, INFINITY
        answered(cut, '5 above the order asked')
    elif not one and not single:
        cut = call(2)
        cut.orders[0], cut.lists[0] = 3, sample(wa * count(kind, 3))
        cut.lists[0][-wa:] = [NAN] * wa
        answered(cut, '5 above the smaller order')


# Whole numbers.

def whole_numbers(name):
    call = lambda a, b: Call(name, [], [[a, b]], [1])
    values = {'whole_sum': [(9, 2**63 - 1, 1)], 'whole_difference': [(9, -(2**63), 1)], 'whole_product': [(9, 2**62, 2)],
              'whole_quotient': [(7, 4, 0), (8, 5, 2), (9, -(2**63), -1)]}[name]

    def change(a, b):
        def apply(c, alone):
            c.lists = [[a, b]]
        return apply
    matrix(call(6, 3), [lent_fault()] + [Fault(n, '', 'values', change(a, b)) for n, a, b in values])
    if name == 'whole_product':
        answered(call(2**62, 1), '2^62 times 1')


# Vectors and matrices.

def vectors(name):
    lists = {'square_root': [[2.0]], 'vector_magnitude': [[3.0, 4.0, 0.0]], 'matrix2_determinant': [[1.0, 2.0, 3.0, 4.0]],
             'matrix2_inverse': [[1.0, 2.0, 3.0, 4.0]], 'matrix3_determinant': [[2.0, 0.0, 0.0, 0.0, 3.0, 0.0, 0.0, 0.0, 4.0]],
             'matrix3_inverse': [[2.0, 0.0, 0.0, 0.0, 3.0, 0.0, 0.0, 0.0, 4.0]],
             'matrix3_image': [[2.0, 0.0, 0.0, 0.0, 3.0, 0.0, 0.0, 0.0, 4.0], [1.0, 2.0, 3.0]],
             'matrix2_image': [[1.0, 2.0, 3.0, 4.0], [5.0, 6.0]],
             'vector_multiple': [[1.0, 2.0, 3.0], [2.0]], 'vector_quotient': [[1.0, 2.0, 3.0], [2.0]]}
    given = lists.get(name, [[1.0, 2.0, 3.0], [4.0, 5.0, 7.0]])
    faults = [lent_fault()]
    for at, members in enumerate(given):
        where = 'ab'[at]
        if len(members) > 1:
            faults += [count_fault(at, where), count_fault(at, where + ' more', more=True)]
        faults += [value_fault(5, where, at, -1, NAN), value_fault(5, where + ' infinite', at, -1, -INFINITY)]

    def values(*lists):
        def apply(c, alone):
            c.lists = [list(l) for l in lists]
        return apply
    overflow = {'square_root': [[-1.0]], 'matrix2_inverse': [[LARGE, 0.0, 0.0, 1e-320]],
                'matrix3_inverse': [[1e-310, 0.0, 0.0, 0.0, 1.0, 0.0, 0.0, 0.0, 1.0]], 'vector_quotient': [[LARGE] * 3, [1e-10]],
                'vector_difference': [[LARGE] * 3, [-LARGE] * 3], 'vector_cross': [[LARGE, 0.0, 1.0], [0.0, LARGE, 1.0]]}
    faults.append(Fault(10, '', 'values', values(*overflow.get(name, [[LARGE] * len(l) for l in given]))))
    if name.endswith('inverse'):
        faults.append(Fault(6, '', 'values', values([1.0] * len(given[0]))))
    if name == 'vector_quotient':
        faults += [value_fault(7, '', 1, 0, 0.0, 'divisor'), value_fault(7, 'negative zero', 1, 0, -0.0, 'divisor')]
        faults = [f for f in faults if not f.where.startswith('b') or f.number != 5] + [value_fault(5, 'b', 1, 0, NAN, 'divisor')]
    matrix(Call(name, [], given), faults)


# Recipes.

def recipes(name):
    roads = name.endswith(('carry', 'build'))
    kind = 'curve' if name == 'recipe_curves' else 'surface'

    def call(order, fill, steps=((2, 0, 1), (0, 2, 0)), orders=None):
        orders = orders or [order] * 2
        entries = [x for n in orders for x in fill(count(kind, n))]
        lists = [entries, fill(2 * (order + 1))] if roads else [entries]
        lent = [count('curve' if roads else kind, min(orders))]
        return Call(name, [order, order] if roads else [], lists, lent, [orders, [x for step in steps for x in step]])

    def put(place, value):
        def apply(c, alone):
            c.more[place] = value
        return apply

    def jet_order(c, alone):
        c.more[0] = [21] + c.more[0][1:]
        if alone:
            c.lists[0] = whole_sample(count(kind, 21) + count(kind, 2))

    def five(c, alone):
        c.more[0] = [2] * 5
        c.lists[0] = (c.lists[0] * 3)[:5 * count(kind, 2)]

    def none(c, alone):
        c.more[0], c.lists[0] = [], []

    def first_divides(*members):
        def apply(c, alone):
            c.more[1] = [3, 0, 1]
            half = len(c.lists[0]) // 2
            c.lists[0][0], c.lists[0][half] = members
        return apply

    def large(c, alone):
        c.lists[0] = [WHOLE_LARGE] * len(c.lists[0])
    faults = [Fault(1, 'a jet', 'orders', jet_order), count_fault(0, 'entries'), count_fault(0, 'entries more', more=True), lent_fault(),
              Fault(4, 'no input', 'orders', none), Fault(4, 'five inputs', 'orders', five), Fault(4, 'no step', 'steps', put(1, [])),
              Fault(4, '13 steps', 'steps', put(1, [0, 0, 1] * 13)), Fault(4, 'itself', 'steps', put(1, [0, 0, 2])),
              Fault(4, 'later', 'steps', put(1, [0, 5, 1])), Fault(4, 'operation', 'steps', put(1, [4, 0, 1])),
              Fault(2, 'steps', 'steps', put(1, [2, 0, 1, 0, 2])), Fault(7, '', 'steps', first_divides(4, 0)),
              Fault(8, '', 'steps', first_divides(5, 2)), Fault(9, '', 'values', large)]
    if roads:
        def asked(c, alone):
            c.orders[1], c.lent = 3, [count('curve', 3)]
        faults += [order_fault(0, 1, 'c', 'curve', 2), order_fault(1, None, 'n'), count_fault(1, 'c'), Fault(2, 'asked', 'order n', asked)]

    def skip(few):
        """Without an input no entries are due."""
        return {'4 no input'} < {str(f) for f in few} and any(f.where.startswith('entries') for f in few)

    def met(few):
        """What the lists need to be jets comes first. A road is then its calls in turn: the first works the recipe before it carries, the second carries
        every input, if there is one, before it works the recipe. The list lent counts where its length is known: an order up to 20 is asked, or for a
        recipe there is an input."""
        places = {str(f) for f in few}
        carries = [f for f in few if str(f) in ('1 n', '2 asked') or name == 'carry_then_build' and f.number == 9]
        lists = [f for f in few if f.number <= 2 and f not in carries]
        recipe = [f for f in few if f.number > 2 and f not in carries]
        if '1 n' in places or not roads and '4 no input' in places:
            lists = [f for f in lists if str(f) != '2 lent']
        if '4 no input' in places:
            carries = []
        stages = [lists, carries, recipe] if name == 'carry_then_build' else [lists, recipe, carries]
        return first_checked(next(stage for stage in stages if stage))
    matrix(call(2, whole_sample), faults, met=met, skip=skip)
    for order in (0, 1, 20):
        answered(call(order, lambda n: [1] + [0] * (n - 1)), 'order %d' % order)


def calls_in_turn(name):
    """Recipes and roads where it shows which call comes first. met is what a recipe meets by itself (None: no such case), the first road, and the second."""
    road = ['build_then_carry', 'carry_then_build'].index(name) + 1 if name.endswith(('carry', 'build')) else 0
    kind = 'curve' if name == 'recipe_curves' else 'surface'

    def case(what, met, orders, entries, steps, n=2, lent=None, curve=(0, 0, 3, 0, 0, 0)):
        if met[road] is None:
            return
        entries = [x for jet in entries for x in jet]
        due = n + 1 if road else count(kind, min(orders, default=0))
        call = Call(name, [len(curve) // 2 - 1, n] if road else [], [entries, list(curve)] if road else [entries],
                    [due if lent is None else lent], [orders, steps])
        write(call, [what], met[road])
    good, zero, low = whole_sample(count(kind, 2)), [0] * count(kind, 2), [1]
    high = [1] + [0] * (count(kind, 2) - 2) + [WHOLE_LARGE]
    add, product = [0, 0, 0], [2, 0, 1]
    # a fifth jet has no place in a recipe: its list is tested, and it is not carried
    for what, met, order, fifth in [('4, the fifth too low', (4, 4, 4), 0, low), ('4, the fifth large', (4, 4, 4), 2, high),
                                    ('1 the fifth', (1, 1, 1), 21, low)]:
        case(what, met, [2] * 4 + [order], [good] * 4 + [fifth], product)
    case('4, the fourth too low', (4, 4, 2), [2, 2, 2, 0, 2], [good] * 3 + [low, good], product)
    # an operation that there is not is the recipe's to refuse, before a step is worked
    for what, steps in [('4 largest operation', [2**64 - 1, 0, 1]), ('4 second operation, 7 before it', [3, 0, 1, 4, 0, 1]),
                        ('4 operation of the last of 12', [0, 0, 1] * 11 + [4, 0, 1]), ('4 operation of the 13th', [0, 0, 1] * 12 + [4, 0, 1])]:
        case(what, (4, 4, 4), [2, 2], [good, zero], steps)
    # without an input no length is due of the list lent for a recipe
    for lent in (0, 1, 7):
        case('4 no input, lent %d' % lent, (4, None, None), [], [], product, lent=lent)
    # the second road comes to the recipe after its carries
    case('13 steps + 2 asked, order 0', (None, 4, 2), [0], [low], add * 13, 1, curve=[0, 0, 3, 0])
    case('five inputs + 2 asked, order 0', (None, 4, 2), [0] * 5, [low] * 5, add, 1, curve=[0, 0, 3, 0])
    case('13 steps + 9 of the carry', (None, 4, 9), [1], [[0, 0, WHOLE_LARGE]], add * 13, 1, curve=[0, 0, 3, 0])
    case('operation + 2 asked', (None, 4, 2), [2, 2], [good, good], [4, 0, 1], 3)
    case('operation + 9 of the first carry', (None, 4, 9), [1, 1], [[0, 0, WHOLE_LARGE], [0, 0, 1]], [4, 0, 1], 1)
    case('operation + 9 of the second carry', (None, 4, 9), [1, 1], [[0, 0, 1], [0, 0, WHOLE_LARGE]], [0, 0, 1, 4, 0, 1], 1)
    # an order above 20 is met by the carry, and no length is due of the list lent
    case('no step + 1 n, order 0', (None, 4, 1), [0], [low], [], 21)
    for lent in (0, 1, 21, 22, 23):
        case('1 n, lent %d' % lent, (None, 1, 1), [2, 2], [good, good], product, 21, lent)
        case('1 n + 4 later, lent %d' % lent, (None, 4, 1), [2, 2], [good, good], [0, 5, 1], 21, lent)
        case('1 n + 4 no input, lent %d' % lent, (None, 4, 4), [], [], product, 21, lent)
    case('1 largest n', (None, 1, 1), [2, 2], [good, good], product, 2**64 - 1, 3)
    case('1 largest n + 7', (None, 7, 1), [2, 2], [good, zero], [3, 0, 1], 2**64 - 1, 3)


# Part lists: what is lent at the end is given, for a walk is lent as it stands.

def walk(order, length, ended, parts):
    return [order, length, ended] + parts + [0] * (20 - len(parts))


def parts(name):
    fill = cases.WHOLE_FILL

    def one(label, met, sizes, given, lent):
        call = Call(name, sizes, given, lent)
        write(call, [label], met)
    if name == 'walk_start':
        for label, met, order, length, places in [
                ('order 1', 0, 1, 1, 23), ('order 20', 0, 20, 3, 23), ('1', 1, 21, 2, 23), ('2 lent', 2, 4, 2, 22), ('3 len 0', 3, 4, 0, 23),
                ('3 len above the order', 3, 2, 3, 23), ('3 order 0', 3, 0, 0, 23), ('1 + 2 lent', 1, 21, 2, 22), ('1 + 3 len 0', 1, 21, 0, 23),
                ('1 + 3 len above', 1, 21, 22, 23), ('2 lent + 3 len 0', 2, 4, 0, 22), ('2 lent + 3 len above', 2, 2, 3, 24)]:
            one(label, met, [order, length], [[fill] * places], [[fill] * places, []])
    if name == 'walk_next':
        good, ended = walk(4, 2, 0, [3, 1]), walk(4, 2, 1, [2, 2])
        for label, met, record, places in [
                ('answered', 0, good, 20), ('answered, ended', 0, ended, 20), ('order 20', 0, walk(20, 1, 0, [20]), 20),
                ('1', 1, walk(21, 2, 0, [20, 1]), 20), ('2 walk', 2, good[:-1], 20), ('2 walk more', 2, good + [0], 20), ('2 parts', 2, good, 19),
                ('3 len 0', 3, walk(4, 0, 0, []), 20), ('3 len above', 3, walk(2, 3, 0, [1, 1, 0]), 20), ('3 rising', 3, walk(4, 2, 0, [1, 3]), 20),
                ('3 sum', 3, walk(4, 2, 0, [3, 2]), 20), ('3 zero', 3, walk(4, 2, 0, [4, 0]), 20), ('3 flag', 3, walk(4, 2, 2, [3, 1]), 20),
                ('1 + 2 parts', 1, walk(21, 2, 0, [20, 1]), 21), ('1 + 3 len 0', 1, walk(21, 0, 0, []), 20), ('1 + 3 flag', 1, walk(21, 2, 2, [20, 1]), 20),
                ('2 parts + 3 rising', 2, walk(4, 2, 0, [1, 3]), 19), ('2 parts + 3 flag', 2, walk(4, 2, 2, [3, 1]), 19),
                ('2 walk + 3 len 0', 2, walk(4, 0, 0, [])[:-1], 20)]:
            one(label, met, [], [record], [record, [fill] * places])
    if name == 'multiplicity':
        for label, met, members, places in [
                ('answered', 0, [2, 1, 1], 1), ('order 1', 0, [1], 1), ('order 20', 0, [1] * 20, 1), ('1', 1, [20, 1], 1), ('1 long', 1, [1] * 21, 1),
                ('2 lent', 2, [2, 1], 2), ('2 no place lent', 2, [2, 1], 0), ('3 empty', 3, [], 1), ('3 zero', 3, [0], 1), ('3 rising', 3, [1, 2], 1),
                ('1 + 2 lent', 1, [20, 1], 2), ('1 + 3 rising', 1, [1, 20], 1), ('2 lent + 3 empty', 2, [], 2), ('2 lent + 3 rising', 2, [1, 2], 2)]:
            one(label, met, members, [], [[fill] * places])
    if name == 'factorial':
        for label, met, n, places in [('order 0', 0, 0, 1), ('order 1', 0, 1, 1), ('order 20', 0, 20, 1), ('1', 1, 21, 1), ('2 lent', 2, 3, 2),
                                      ('1 + 2 lent', 1, 21, 0)]:
            one(label, met, [n], [], [[fill] * places])
    if name == 'stirling_number':
        for label, met, order, length, places in [
                ('order 0', 0, 0, 0, 1), ('order 1', 0, 1, 1, 1), ('order 20', 0, 20, 2, 1), ('1', 1, 21, 2, 1), ('2 lent', 2, 4, 2, 2),
                ('3 len above', 3, 2, 3, 1), ('1 + 2 lent', 1, 21, 2, 0), ('1 + 3 len above', 1, 21, 22, 1), ('2 lent + 3 len above', 2, 2, 3, 2)]:
            one(label, met, [order, length], [], [[fill] * places])
    if name == 'total_multiplicity':
        for label, met, order, length, places in [
                ('order 1', 0, 1, 1, 1), ('order 20', 0, 20, 2, 1), ('1', 1, 21, 2, 1), ('2 lent', 2, 4, 2, 2), ('2 no place lent', 2, 4, 2, 0), ('3 len 0', 3, 4, 0, 1),
                ('3 len above', 3, 2, 3, 1), ('3 order 0', 3, 0, 0, 1), ('1 + 2 lent', 1, 21, 2, 0), ('1 + 3 len 0', 1, 21, 0, 1), ('1 + 3 len above', 1, 21, 22, 1),
                ('2 lent + 3 len 0', 2, 4, 0, 2), ('2 lent + 3 len above', 2, 2, 3, 2)]:
            one(label, met, [order, length], [], [[fill] * places])


# The fillet: cases that are stored are taken as they are, and faults are added to them.

def stored(name, wanted, pick=lambda orders: True):
    """The first stored case with that number."""
    with open('data/rust_answers/%s.txt' % name) as lines:
        for line in lines:
            if line.startswith('#'):
                continue
            given, found = line.split(' = ')
            if int(found.split()[0]) == wanted:
                orders, lists = read(shape(name), given.split())
                if pick(orders):
                    return Call(name, orders, lists)
    raise ValueError(name)


def place_of(items, at):
    """Where the list stands among what is given."""
    return [k for k, item in enumerate(items) if item != 'size'][at]


def overflowing(call):
    """The contact point less the centre is infinite."""
    call.lists[0][:3], call.lists[0][7:10] = [LARGE] * 3, [-LARGE] * 3
    return call


def flat(call, first, at, length):
    """The surface `at` with both tangents (length, 0, 0) and nothing else. Of length 0 its determinant is zero (6); where the square of the length
    is infinite the determinant is not, but the cross product is zero (7)."""
    order = call.orders[first + 2 + at]
    tangent = [length, 0.0, 0.0]
    rest = [0.0] * 3
    call.lists[5 + at] = [x for i in range(order + 1) for j in range(order + 1 - i) for x in (tangent if i + j == 1 else rest)]


def fillet(name):
    items = shape(name)
    size_names = {'rot_der_n': ['x', 'y', 'z', 'n'], 'contact_circle_derivative_n': ['n'], 'sub_center_contacts_ders': ['n'], 'sub_der_mn': ['m', 'n']}
    five = ['center', 'contact0', 'contact1', 'uv0', 'uv1']
    surfaces = ['circle', 'feet', 'normals', 'edge', 'radius', 's0', 's1']
    list_names = {'rot_der_n': ['axis', 's, c'], 'from_axis_angle': ['axis', 's, c'], 'contact_circle_derivative_n': ['circle', 's, c'],
                  'derivative_v': five + ['axis', 'angle', 'u, s, c'], 'sub_center_contacts_ders': surfaces, 'sub_der_mn': surfaces + ['angle, u, s, c'],
                  'vder_info': five + ['radius', 'angle']}
    names = list_names.get(name, list_names['derivative_v'])
    shapes = {'center': 3, 'contact0': 3, 'contact1': 3, 'uv0': 2, 'uv1': 2, 'axis': 3, 'angle': 1, 'edge': 3, 'radius': 1, 's0': 3, 's1': 3}
    faults = []
    at_size = at_list = 0
    for item in items:
        if item == 'size':
            where = size_names[name][at_size]
            faults.append(order_fault(at_size, None, where, bad=20 if name == 'sub_center_contacts_ders' else 21))
            at_size += 1
            continue
        where = names[at_list]
        if item == 'jet':
            kind = 'surface' if where in ('s0', 's1') else 'curve'
            faults.append(order_fault(at_size, at_list, where, kind, shapes[where]))
            if where == 'center':
                # the record's order, which ends at 19
                faults.append(order_fault(at_size, at_list, 'center 20', kind, shapes[where], 20, 'order center'))
            at_size += 1
        # floats that go in by themselves have no count
        if ',' not in where and not (name == 'vder_info' and where == 'angle'):
            faults.append(count_fault(at_list, where))
        floats = {'axis': 3, 'circle': 13, 'feet': 4, 'normals': 6}.get(where, 1) if item != 'jet' else 1
        parts = where.split(', ') if ',' in where else ['%s %d' % (where, k) for k in range(floats)] if floats > 1 else [where]
        faults += [value_fault(5, part, at_list, place, NAN) for place, part in enumerate(parts)]
        at_list += 1
    if name == 'sub_center_contacts_ders':
        faults += [lent_fault(at, where) for at, where in enumerate(five)]
    elif name == 'vder_info':
        faults += [lent_fault(at, where) for at, where in enumerate(['axis', 'angle', 'cosine'])]
    else:
        faults.append(lent_fault())
    # a jet of order 0 is too low wherever one is needed: the centre's own order is what is worked at for the axis and the angle
    place = len(size_names.get(name, []))
    for at, where in enumerate(names):
        if items[place_of(items, at)] != 'jet':
            continue
        if not (name == 'vder_info' and where == 'center'):
            def needed(c, alone, place=place, at=at, where=where):
                c.orders[place], c.lists[at] = 0, c.lists[at][:shapes[where]]
            faults.append(Fault(2, 'needed of ' + where, 'order ' + where, needed))
        place += 1
    unserved = []
    if name == 'sub_der_mn':
        def pair(m, n):
            def apply(c, alone):
                c.orders[0], c.orders[1] = m, n
            return apply
        unserved = [Fault(11, '(%d,%d)' % (m, n), 'order m', pair(m, n)) for m, n in [(2, 1), (1, 2), (0, 3)]]
        # which order is needed is not said of a pair that is not served
        small = [f for f in faults if 'needed' not in f.where and f.where != 'n']
        matrix(stored(name, 0, lambda o: o[:2] == [0, 1]), small + unserved, ' (0,1)', some(small + unserved))
        for n, m in ((2, 0), (1, 1)):
            few = [f for f in faults if 'needed' in f.where or f.number in (1, 5)]
            matrix(stored(name, 0, lambda o: o[:2] == [m, n]), few, ' (%d,%d)' % (m, n), some(few))
        # (m,0) needs no jet, but what is given counts
        few = [f for f in small if f.where != 'm']
        matrix(stored(name, 0, lambda o: o[:2] == [1, 0]), few, ' (1,0)', some(few))
        for m in (0, 1, 20):
            answered(stored(name, 0, lambda o: o[:2] == [m, 0]), 'order %d' % m)
        write(overflowing(stored(name, 0, lambda o: o[:2] == [1, 0])), ['10 (1,0)'], 10)
        # along the edge longer jets are cut, and what is cut off does not count; along the arc nothing is cut
        for m, n, what, met in ((0, 1, '5 above the order needed, (0,1)', 0), (1, 0, '5 edge of order 4, (1,0)', 5)):
            base = stored(name, 0, lambda o: o[:2] == [m, n])
            base.orders[2] = 4
            base.lists[3] = (base.lists[3] + [0.0] * 12)[:12] + [0.0, 0.0, NAN]
            write(base, [what], met)
    else:
        matrix(stored(name, 0, lambda o: name != 'sub_center_contacts_ders' or o[0] == 1), faults, '', some(faults))
    served = {'sub_center_contacts_ders': (6, 7, 10), 'sub_der_mn': (6, 7, 10), 'vder_info': (7, 10), 'rot_der_n': (10,), 'from_axis_angle': (10,),
              'contact_circle_derivative_n': (10,)}
    for number in served.get(name, (10,) if name.startswith('derivative') else ()):
        if name == 'contact_circle_derivative_n':
            base = overflowing(stored(name, 0, lambda o: o[0] == 0))
        else:
            base = stored(name, number, (lambda o: o[1] > 0) if name == 'sub_der_mn' else (lambda o: True))
        write(base, ['%d' % number], number)
        for f in faults + unserved:
            changed = copy.deepcopy(base)
            f.change(changed, False)
            write(changed, [f, '%d' % number], f.number)
    if name in ('sub_center_contacts_ders', 'sub_der_mn'):
        first = len(size_names[name])
        for what, met, lengths in [('6 s0 then 7 s1', 6, (0.0, 1e200)), ('7 s0 then 6 s1', 7, (1e200, 0.0)), ('6 normals then 7 s0', 6, (1e200, 1.0))]:
            base = stored(name, 0, lambda o: o[:first] == ([1] if first == 1 else [0, 1]))
            for at in (0, 1):
                flat(base, first, at, lengths[at])
            if 'normals' in what:
                base.lists[2] = [1.0, 0.0, 0.0] * 2
            write(base, [what], met)
    if name == 'rot_der_n':
        for n in (0, 1, 20):
            base = stored(name, 0)
            base.orders[3] = n
            answered(base, 'order %d' % n)
    if name == 'contact_circle_derivative_n':
        for n in (0, 1, 20):
            answered(stored(name, 0, lambda o: o[0] == n), 'order %d' % n)
    if name == 'sub_center_contacts_ders':
        for n in (0, 1, 19):
            try:
                answered(stored(name, 0, lambda o: o[0] == n), 'order %d' % n)
            except ValueError:
                print('no stored case of order', n)


KINDS = [(jets, cases.CURVES | cases.SURFACES | cases.VECTOR_CURVES | cases.VECTOR_SURFACES | cases.EXACT_CURVES | cases.EXACT_SURFACES),
         (vectors, cases.VECTORS), (fillet, cases.FILLET), (whole_numbers, cases.WHOLE), (recipes, cases.RECIPES),
         (calls_in_turn, cases.RECIPES), (parts, cases.PARTS)]


def groups(names):
    written.clear()
    for name in names:
        for make, those in KINDS:
            if name in those:
                make(name)
    return list(written)

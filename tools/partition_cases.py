"""Cases of part lists for the program replay_exact.

Nothing here is taken from the library: part_lists.py finds the lists and counts them. A case is a line of words (cases.py); refusals are document
01's: 1 an order above 20, 3 what is no part list, or no len of its order. A record is order, len, whether it is at its end, and its array as a list;
an item is its refusal, whether the walk has ended, and its array. A count is 0 and the number, or a refusal and 0.
1  a start: order, len; the refusal and the record
2  a walk: order, len; how many lists it has, each with its multiplicity; the item and the record of the step past the last, by value and lent
3  a record; the item and the record after a step, by value and lent
4  a list; its multiplicity
5  a number; its factorial
6  order, len; the Stirling number of the second kind
7  order, len; the total of the multiplicities of their lists
"""
from math import factorial

import cases
from part_lists import multiplicity, part_lists, stirling

TOP = 2**64 - 1


# ---- what the library is to answer
def out_of_range(order, size):
    if order > 20:
        return 1
    return 3 if size == 0 or size > order else 0


def array(parts):
    return tuple(parts) + (0,) * (20 - len(parts))


BLANK = (0, 0, False, array(()))


def started(order, size):
    number = out_of_range(order, size)
    if number:
        return number, BLANK
    return 0, (order, size, False, array(part_lists(order, size)[0]))


def stepped(walk):
    """The item (refusal, ended, array), and the record after it."""
    order, size, end, current = walk
    number = out_of_range(order, size)
    if number:
        return (number, False, array(())), walk
    if end:
        return (0, True, array(())), walk
    every, held = part_lists(order, size), current[:size]
    if held not in every:
        return (3, False, array(())), walk
    after = every.index(held) + 1
    item = (0, False, array(held))
    if after == len(every):
        return item, (order, size, True, current)
    return item, (order, size, False, every[after] + current[size:])


def counted(parts):
    if sum(parts) > 20:
        return [1, 0]
    if not parts or parts not in part_lists(sum(parts), len(parts)):
        return [3, 0]
    return [0, multiplicity(parts)]


def factorial_of(n):
    return [1, 0] if n > 20 else [0, factorial(n)]


def stirling_of(order, size):
    if order > 20:
        return [1, 0]
    return [3, 0] if size > order else [0, stirling(order, size)]


def total_of(order, size):
    number = out_of_range(order, size)
    return [number, 0] if number else [0, sum(map(multiplicity, part_lists(order, size)))]


# ---- the cases
def stored(parts):
    return cases.stored(parts, cases.size)


def record(walk):
    order, size, end, current = walk
    return cases.sizes(order, size, end) + stored(current)


def step(walk):
    """The item and the record after a step, by value and lent."""
    (refusal, ended, parts), after = stepped(walk)
    return (cases.sizes(refusal, ended) + stored(parts) + record(after)) * 2


def start(order, size):
    refusal, walk = started(order, size)
    return cases.sizes(1, order, size, refusal) + record(walk)


def walk(order, size):
    lists = part_lists(order, size)
    body = [word for parts in lists for word in cases.listed(parts, cases.size) + cases.sizes(*counted(parts))]
    return cases.sizes(2, order, size, len(lists)) + body + step((order, size, True, array(lists[-1])))


# a length, then three numbers: the first so many of these, and zeros
LISTS = [
    (2, 3, 1, 0), (3, 2, 1, 1), (2, 4, 1, 0), (2, 3, 2, 0), (1, 20, 0, 0), (0, 0, 0, 0), (1, 0, 0, 0), (2, 3, 0, 0), (3, 3, 0, 1), (2, 1, 2, 0),
    (3, 3, 1, 2), (20, 2, 1, 1), (1, 21, 0, 0), (2, 20, 1, 0), (3, 7, 7, 7), (1, TOP, 0, 0), (2, TOP, 1, 0), (2, 1, TOP, 0), (2, 10, 11, 0),
    (2, 0, 21, 0), (3, 20, 0, 1),
]

STARTS = [
    (0, 0), (0, 1), (5, 0), (2, 3), (20, 21), (21, 1), (21, 21), (21, 0), (21, 22), (5, TOP), (TOP, TOP), (TOP, 0),
]

RECORDS = [
    (5, 2, (4, 1, 0), False), (5, 2, (4, 1, 7), False), (5, 2, (3, 2, 9), False), (5, 2, (3, 2, 9), True), (5, 2, (4, 1, 0), True),
    (5, 2, (9, 9, 9), True), (5, 2, (3, 1, 1), False), (5, 2, (2, 3, 0), False), (5, 2, (5, 0, 0), False), (5, 2, (0, 5, 0), False),
    (5, 2, (6, 1, 0), False), (5, 2, (TOP, 6, 0), False), (5, 2, (6, TOP, 0), False), (5, 3, (4, 1, 0), False), (5, 4, (4, 1, 0), False),
    (4, 2, (4, 1, 0), False), (5, 0, (4, 1, 0), False), (5, 0, (4, 1, 0), True), (5, 6, (4, 1, 0), False), (5, TOP, (4, 1, 0), True),
    (0, 0, (0, 0, 0), False), (0, 1, (0, 0, 0), True), (21, 2, (20, 1, 0), False), (21, 2, (20, 1, 0), True), (21, 0, (20, 1, 0), False),
    (21, 22, (20, 1, 0), True), (21, 2, (3, 3, 3), False), (TOP, 1, (TOP, 0, 0), False),
]


def lines():
    for order in range(1, 21):
        for size in range(1, order + 1):
            yield start(order, size)
            yield walk(order, size)
    for order, size in STARTS:
        yield start(order, size)
    for order, size, current, end in RECORDS:
        given = (order, size, end, array(current))
        for held in (given, stepped(given)[1]):
            yield cases.sizes(3) + record(held) + step(held)
    for parts in [array(three)[:size] for size, *three in LISTS] + [(1,) * 20, (1,) * 21, (0,) * 30]:
        yield cases.sizes(4) + cases.listed(parts, cases.size) + cases.sizes(*counted(parts))
    for n in [*range(23), TOP]:
        yield cases.sizes(5, n, *factorial_of(n))
    for order, size in [(n, k) for n in range(21) for k in range(n + 1)] + [(20, 21), (0, 1), (21, 1), (21, 22), (TOP, TOP), (5, TOP), (TOP, 0)]:
        yield cases.sizes(6, order, size, *stirling_of(order, size))
    for order, size in [(n, k) for n in range(23) for k in range(23)] + [(TOP, TOP), (5, TOP), (TOP, 0), (0, TOP)]:
        yield cases.sizes(7, order, size, *total_of(order, size))


def groups():
    return [('part lists', lines())]

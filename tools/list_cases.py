"""Cases of jets of floats and of vectors from lists and into lists, for the program replay_vectors.

Document 01: 1 for an order above 20, then 2 for a count that is not that of the order, then 5 for a float that is not finite; what stands past the
order does not count. Each place of a list lent holds 7, and after an answer 1.

A case is a line of words (cases.py): from a list (0) or into one (1); the kind of jet; its order; the list's length; the place of a float that is not
finite; then the refusal, and for a list lent what each of its places holds.
"""
import cases

NONE = 999
# floats of a jet of the order n, as a list, and how many stand in the array that the place of a spoilt float counts in
KINDS = [
    (lambda n: n + 1, lambda n: n + 1),
    (lambda n: (n + 1) * (n + 2) // 2, lambda n: (n + 1) * (n + 2) // 2),
    (lambda n: 2 * (n + 1), lambda n: n + 1),
    (lambda n: 3 * (n + 1), lambda n: 3 * (n + 1)),
    (lambda n: 3 * (n + 1) * (n + 2) // 2, lambda n: 3 * (n + 1) * (n + 2) // 2),
]


def refusal(order, count, due, spoilt):
    if order > 20:
        return 1
    if count != due:
        return 2
    return 5 if spoilt else 0


def lines():
    for way in (0, 1):
        for kind, (due, stored) in enumerate(KINDS):
            for order in (0, 1, 2, 20, 21, 2 ** 63):
                right = due(min(order, 20))
                for count in (right, right - 1, right + 1, 0):
                    inside = count if way == 0 else stored(min(order, 20))
                    for at in (NONE, 0, inside - 1, inside):
                        if at < 0:
                            continue
                        met = refusal(order, count, right, at < inside)
                        held = [cases.bits(7.0 if met else 1.0)] if way == 1 else []
                        yield cases.sizes(way, kind, order, count, at, met) + held


def groups():
    return [('jets of floats and of vectors from lists and into lists', lines())]

"""Cases of whole numbers for the program replay_exact, from Python's integers, which have no bound.

Nothing here is taken from the library. A case is a line of words (cases.py): 0 and two numbers, or 1 and two operands, then their sum,
difference, product and quotient. An operand and a result are 0 and the number, or a refusal of document 01 and 0: 7 a division by zero, 8 a
quotient with a remainder, 9 a number formed outside -2^63 .. 2^63 - 1.
"""
import cases
from checked import Refused, divided, formed, outcome

NUMBERS = [
    0, 1, -1, 2, -2, 3, -3,
    2**31 - 1, -(2**31 - 1), 2**31, -(2**31), 2**31 + 1, -(2**31 + 1),
    2**32, -(2**32),
    2**62, -(2**62), 2**62 - 1, -(2**62) - 1,
    3037000499, -3037000499, 3037000500, -3037000500,
    2**63 - 1, -(2**63), -(2**63) + 1,
    10, -12, 35, 5040, -1000003, 2432902008176640000,
]

OPERANDS = [6, -4, 0, 2**63 - 1, -(2**63), Refused(7), Refused(8), Refused(9), Refused(200)]

OPERATIONS = [
    lambda x, y: formed(x + y),
    lambda x, y: formed(x - y),
    lambda x, y: formed(x * y),
    divided,
]


def on_operands(f, x, y):
    """A refused operand is the answer, the left one first."""
    for operand in (x, y):
        if isinstance(operand, Refused):
            return operand
    return outcome(lambda: f(x, y))


def checked(answer):
    return cases.number(answer, cases.whole)


def lines():
    for x in NUMBERS:
        for y in NUMBERS:
            yield [cases.size(0), cases.whole(x), cases.whole(y)] + [w for f in OPERATIONS for w in checked(outcome(lambda: f(x, y)))]
    for x in OPERANDS:
        for y in OPERANDS:
            yield [cases.size(1)] + [w for z in [x, y] + [on_operands(f, x, y) for f in OPERATIONS] for w in checked(z)]


def groups():
    return [('whole numbers', lines())]

"""Cases of rotations and contact circles for the program replay_fillet, from the stored answers of the Rust (data/rust_answers; compare/README.md has the
order of words).

3  a rotation: four orders, the axis, sine and cosine; the refusal and the matrix, column by column
4  a rotation from axis and angle: the axis, sine and cosine; the same
5  a contact circle: the order, the circle, sine and cosine; the refusal and the vector
A refused matrix or vector is zeros. A stored circle has no surface parameters of its contact points: two zeros are given for each. Every second
stored case is taken, and every refused one. Two cases are added: a parameter that is not finite is refused 5, though it is not used; that is
document 01's rule, not the Rust's answer.
"""
import math

import cases

ZERO = cases.bits(0.0)
INFINITY = cases.bits(math.inf)


def stored(name):
    """The words given and the words answered of the cases taken."""
    with open('data/rust_answers/%s.txt' % name) as lines:
        taken = [line.split() for line in lines if not line.startswith('#')]
    for number, words in enumerate(taken):
        middle = words.index('=')
        given, answered = words[:middle], words[middle + 1:]
        if number % 2 == 0 or answered[0] != '0':
            yield given, answered


def orders(words):
    return cases.sizes(*map(int, words))


def wanted(answered, width):
    """The refusal, then the floats after their count."""
    return orders(answered[:1]) + (answered[2:] if answered[0] == '0' else [ZERO] * width)


def circle_case(m, circle, parameters, pair):
    return cases.sizes(5) + orders([m]) + circle[:10] + parameters[:2] + circle[10:] + parameters[2:] + pair


def every():
    for given, answered in stored('rot_der_n'):
        # four orders, 3 and the axis, 2 and the pair
        yield cases.sizes(3) + orders(given[:4]) + given[5:8] + given[9:11] + wanted(answered, 9)
    for given, answered in stored('from_axis_angle'):
        yield cases.sizes(4) + given[1:4] + given[5:7] + wanted(answered, 9)
    for given, answered in stored('contact_circle_derivative_n'):
        # the order, 13 and the circle, 2 and the pair
        yield circle_case(given[0], given[2:15], [ZERO] * 4, given[16:18]) + wanted(answered, 3)
    for parameters in ([ZERO, INFINITY, ZERO, ZERO], [ZERO, ZERO, INFINITY, ZERO]):
        yield circle_case('1', [ZERO] * 13, parameters, [ZERO] * 2) + wanted(['5'], 3)


def groups():
    return [('rotations and contact circles', every())]

"""Cases of the C interface from the stored answers of the Rust: a group for each operation whose answers are stored (tools/cases.py has the form of a
case). The stored part lists are walked: each list is a case of walk_next, whose walk then holds the next list, or says that it has ended.
"""
import os

import cases
from cases import WHOLE_FILL

# What a stored line gives (compare/README.md): a jet is its order and its list.
JET, SIZE, LIST = 'jet', 'size', 'list'
FIVE = [JET] * 5
SHAPES = {
    'square_root': [LIST],
    'rot_der_n': [SIZE] * 4 + [LIST] * 2,
    'from_axis_angle': [LIST] * 2,
    'contact_circle_derivative_n': [SIZE] + [LIST] * 2,
    'derivative_v': FIVE + [JET] * 2 + [LIST],
    'derivative_uv': FIVE + [JET] * 2 + [LIST],
    'derivative_vv': FIVE + [JET] * 2 + [LIST],
    'sub_der_mn': [SIZE] * 2 + [LIST] * 3 + [JET] * 4 + [LIST],
    'sub_center_contacts_ders': [SIZE] + [LIST] * 3 + [JET] * 4,
    'vder_info': FIVE + [JET, LIST],
}
ANSWERS = {'sub_center_contacts_ders': FIVE, 'vder_info': [JET] * 2 + [LIST]}


def shape(name):
    if name in SHAPES:
        return SHAPES[name]
    if 'absolute' in name or name.endswith(('curve_derivative', '_u', '_v')):
        return [JET]
    if 'composite' in name or 'combinatorial_derivative' in name and 'derivatives' not in name:
        return [JET] * 2 + [SIZE] * (2 if name.startswith('surface_') else 1)
    return [JET] * 2


def answer(name):
    jet = 'derivatives' in name or name.endswith(('_sum', '_difference')) or name.endswith('curve_derivative') or 'surface_derivative' in name
    return ANSWERS.get(name, [JET if jet else LIST])


def read(items, words):
    """The sizes and the lists of what is given or answered; the orders are among the sizes."""
    words = iter(words)
    sizes, lists = [], []
    for item in items:
        if item != LIST:
            sizes.append(int(next(words)))
        if item != SIZE:
            lists.append([next(words) for _ in range(int(next(words)))])
    if next(words, None) is not None:
        raise ValueError('words are left')
    return sizes, lists


def lines(name):
    with open('data/rust_answers/%s.txt' % name) as found:
        for line in found:
            if not line.startswith('#'):
                given, answered = line.split(' = ')
                yield given.split(), answered.split()


def floats(name):
    for given, (refusal, *rest) in lines(name):
        sizes, lists = read(shape(name), given)
        lengths = cases.due(name, sizes)
        if refusal == '0':
            lent = read(answer(name), rest)[1]
            if [len(l) for l in lent] != lengths:
                raise ValueError(name, lengths)
        else:
            lent = [[cases.FILL] * min(length, 900 // len(lengths)) for length in lengths]
        yield cases.line(name, int(refusal), [sizes], lists, lent)


def multiplicities(name):
    for given, (refusal, *rest) in lines(name):
        yield cases.line(name, int(refusal), [list(map(int, given[1:]))], [], [list(map(int, rest)) or [WHOLE_FILL]])


def walk(order, length, ended, parts):
    return [order, length, ended] + parts + [0] * (20 - len(parts))


def part_lists():
    """Of each order and len the refusal and the lists."""
    for (order, length), (refusal, *rest) in lines('part_lists'):
        words = map(int, rest)
        count = next(words, 0)
        lists = [[next(words) for _ in range(next(words))][1:] for _ in range(count)]
        yield int(order), int(length), int(refusal), lists


def starts(name):
    blank = [WHOLE_FILL] * 23
    for order, length, refusal, lists in part_lists():
        yield cases.line(name, refusal, [[order, length]], [blank], [walk(order, length, 0, lists[0]) if lists else blank, []])


def steps(name):
    for order, length, refusal, lists in part_lists():
        if len(lists) > 20:
            continue
        for place, parts in enumerate(lists):
            last = place == len(lists) - 1
            moved = walk(order, length, 1, parts) if last else walk(order, length, 0, lists[place + 1])
            yield cases.line(name, 0, [[]], [walk(order, length, 0, parts)], [moved, parts + [0] * (20 - length)])
        if lists:
            yield cases.line(name, 0, [[]], [walk(order, length, 1, lists[-1])], [walk(order, length, 1, lists[-1]), [0] * 20])


def groups(names):
    others = {'multiplicity': multiplicities, 'walk_start': starts, 'walk_next': steps}
    for name in names:
        if name in others or os.path.exists('data/rust_answers/%s.txt' % name):
            yield name + ' of the Rust', others.get(name, floats)(name)

"""The cases of the programs replay_exact, replay_floats, replay_vectors and replay_fillet: a line of words of 16 hexadecimal digits for each. A list is
its count and its members; several lists are how many there are, and these.

A case begins with the number of its family (replay.py), or of an operation of the C interface. A call of such an operation (rust_cases.py, refusals.py)
then has the wanted refusal and three times several lists: sizes (the first list has the orders, in the order of the call), members, and what the lists
lent for the answer hold at the end. A list lent holds FILL in every place before the call, and so after a refusal. Where ANSWERED is wanted, the call is
to be answered, and what the lists hold then is not said.

Cases stand in groups, each a label, the number of its cases, and these.
"""
import struct

from checked import Refused

FILL = 1234.5
WHOLE_FILL = 1234
ANSWERED = 256

PRODUCTS = ['scaled', 'dot', 'cross']


def numbered(first, names):
    return {name: first + place for place, name in enumerate(names)}


# As the programs number them.
CURVES = numbered(0x101, ['curve_sum', 'curve_difference', 'curve_combinatorial_derivatives', 'curve_rational_derivatives', 'curve_derivative',
                          'curve_combinatorial_derivative'])
SURFACES = numbered(0x201, ['surface_sum', 'surface_difference', 'surface_combinatorial_derivatives', 'surface_rational_derivatives',
                            'surface_derivative_u', 'surface_derivative_v', 'surface_combinatorial_derivative', 'composite_derivative',
                            'composite_derivatives'])
VECTOR_CURVES = numbered(0x301, ['vector_curve_sum', 'vector_curve_difference', 'vector_curve_rational_derivatives']
                         + ['curve_combinatorial_derivatives_' + k for k in PRODUCTS]
                         + ['vector_curve_derivative', 'curve_absolute_derivatives']
                         + ['curve_combinatorial_derivative_' + k for k in PRODUCTS])
VECTOR_SURFACES = numbered(0x401, ['vector_surface_sum', 'vector_surface_difference', 'vector_surface_rational_derivatives']
                           + ['surface_combinatorial_derivatives_' + k for k in PRODUCTS]
                           + ['vector_surface_derivative_u', 'vector_surface_derivative_v', 'surface_absolute_derivatives']
                           + ['surface_combinatorial_derivative_' + k for k in PRODUCTS]
                           + ['vector_composite_derivative', 'vector_composite_derivatives'])
VECTORS = numbered(0x501, ['square_root', 'vector_magnitude', 'matrix2_determinant', 'matrix2_inverse', 'matrix3_determinant',
                           'matrix3_inverse', 'vector_sum', 'vector_difference', 'vector_cross', 'vector_dot', 'matrix3_image',
                           'vector_multiple', 'vector_quotient', 'matrix2_image'])
FILLET = numbered(0x601, ['rot_der_n', 'from_axis_angle', 'contact_circle_derivative_n', 'derivative_v', 'derivative_uv', 'derivative_vv',
                          'sub_der_mn', 'sub_center_contacts_ders', 'vder_info'])
EXACT_CURVES = numbered(0x701, ['exact_' + name.replace('rational_derivatives', 'quotient') for name in CURVES])
EXACT_SURFACES = numbered(0x801, ['exact_' + name.replace('rational_derivatives', 'quotient') for name in SURFACES])
WHOLE = numbered(0x901, ['whole_sum', 'whole_difference', 'whole_product', 'whole_quotient'])
RECIPES = numbered(0x905, ['recipe_surfaces', 'recipe_curves', 'build_then_carry', 'carry_then_build'])
PARTS = numbered(0xa01, ['walk_start', 'walk_next', 'multiplicity', 'factorial', 'stirling_number', 'total_multiplicity'])
FLOATS = CURVES | SURFACES | VECTOR_CURVES | VECTOR_SURFACES | VECTORS | FILLET
WHOLES = EXACT_CURVES | EXACT_SURFACES | WHOLE | RECIPES
OPERATIONS = FLOATS | WHOLES | PARTS


def size(n):
    return '%016x' % n


def whole(z):
    return '%016x' % (z % 2**64)


def bits(x):
    return struct.pack('>d', x).hex()


def sizes(*numbers):
    return [size(n) for n in numbers]


def listed(members, word):
    return [size(len(members))] + [word(x) for x in members]


def several(lists, word):
    return [size(len(lists))] + [w for members in lists for w in listed(members, word)]


def stored(array, word):
    """An array as a list, the zeros at its end left out."""
    words = [word(x) for x in array]
    while words and words[-1] == size(0):
        words.pop()
    return [size(len(words))] + words


def refused(answer):
    return isinstance(answer, Refused)


def number(answer, word):
    """A number or a refusal: 0 and the number, or the refusal and 0."""
    return sizes(answer.args[0], 0) if refused(answer) else [size(0), word(answer)]


def jet(answer, word):
    """An order and an array, or a refusal: 0, order and entries, or the refusal and the zero jet of order 0."""
    return sizes(answer.args[0], 0, 0) if refused(answer) else sizes(0, answer[0]) + stored(answer[1], word)


def graded(i, j):
    """Where the entry [i][j] of a surface stands."""
    return (i + j) * (i + j + 1) // 2 + i


def line(name, refusal, sizes, lists, lent):
    """sizes, lists and lent are lists of lists; members that are words already stay as they are."""
    kind = bits if name in FLOATS else whole if name in WHOLES else size
    word = lambda x: x if isinstance(x, str) else kind(x)
    return [size(OPERATIONS[name]), size(refusal)] + several(sizes, size) + several(lists, word) + several(lent, word)


def count(kind, order):
    """The entries of a jet."""
    return order + 1 if kind == 'curve' else (order + 1) * (order + 2) // 2


def due(name, orders):
    """The lengths of the lists that are due for the answer, where the orders are in order; of the fillet, those at the highest order else."""
    name = name.removeprefix('exact_')
    width = 3 if name.startswith('vector_') or name.endswith(('scaled', 'cross')) else 1
    plain = name.removeprefix('vector_')
    kind = 'curve' if plain.startswith('curve') else 'surface'
    if plain.endswith('composite_derivative') or '_combinatorial_derivative' in plain and '_derivatives' not in plain:
        return [width]
    if plain == 'composite_derivatives':
        return [width * count('curve', orders[2])]
    if plain in ('curve_derivative', 'surface_derivative_u', 'surface_derivative_v'):
        return [width * count(kind, max(orders[0] - 1, 0))]
    if plain.startswith(('curve_', 'surface_')):
        return [width * count(kind, min(orders[:2]))]
    if name == 'sub_center_contacts_ders':
        n = min(orders[0], 19)
        return [3 * (n + 1), 3 * (n + 2), 3 * (n + 2), 2 * (n + 2), 2 * (n + 2)]
    if name == 'vder_info':
        n = min(orders[0], 19)
        return [3 * (n + 1), n + 1, 1]
    if name in VECTORS:
        return [{'matrix2_inverse': 4, 'matrix3_inverse': 9, 'vector_sum': 3, 'vector_difference': 3, 'vector_cross': 3, 'matrix3_image': 3,
                 'vector_multiple': 3, 'vector_quotient': 3, 'matrix2_image': 2}.get(name, 1)]
    if name in FILLET:
        return [9 if name in ('rot_der_n', 'from_axis_angle') else 3]
    raise ValueError(name)


def write(program, groups):
    """A program's input, a line of words for each case, and its output where no case differs."""
    given, told = '', ''
    for label, lines in groups:
        lines = [' '.join(words) + '\n' for words in lines]
        label = label.ljust(89)
        if len(label) > 89 or not lines:
            raise ValueError(label)
        given += label + '\n' + size(len(lines)) + '\n' + ''.join(lines)
        told += '%s0 of %d differ\n' % (label, len(lines))
    for part, text in (('stdin', given), ('stdout', told)):
        with open('crates/%s/%s' % (program, part), 'w') as out:
            out.write(text)

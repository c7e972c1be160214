"""Cases of square roots for the program replay_floats, from Python's integers, which have no bound.

Nothing here is taken from the library. A case is a line of words (cases.py): a float's bits, those of its square root, and what square_root
answers: 0 and the bits, or a refusal of document 01 (5 an input that is not finite, 10 a returned float that is not) and 0. The roots are
found with math.isqrt on the scaled significand and compared with math.sqrt, which is rounded correctly wherever the machine's own square
root is. Published decimal expansions, rounded to a float, are wanted where there are any. A NaN is wanted as 7ff8000000000000.
"""
import math
import random
import struct

import cases

NAN = 0x7FF8000000000000
INFINITY = 0x7FF0000000000000
SIGN = 1 << 63

# The On-Line Encyclopedia of Integer Sequences: A002193, A002194, A002163, A010464, A010465.
PUBLISHED = {
    2: '1.41421356237309504880168872420969807856967187537694',
    3: '1.73205080756887729352744634150587236694280525381038',
    5: '2.23606797749978969640917366873127623544061835961152',
    6: '2.44948974278317809819728407470589139196594748065667',
    7: '2.64575131106459059050161575363926042571025918308245',
}


def to_float(bits):
    return struct.unpack('>d', struct.pack('>Q', bits))[0]


def to_bits(value):
    return NAN if math.isnan(value) else struct.unpack('>Q', struct.pack('>d', value))[0]


def root(bits):
    """The bits of the root of a positive finite float, by squares of whole numbers."""
    field, digits = bits >> 52, bits & ((1 << 52) - 1)
    significand, exponent = (digits, -1074) if field == 0 else (digits | 1 << 52, field - 1075)
    # x = significand * 2^exponent; 120 more digits than the root needs, and an even exponent
    shift = 240 + exponent % 2
    radicand, exponent = significand << shift, (exponent - shift) // 2
    floor = math.isqrt(radicand)
    drop = floor.bit_length() - 53
    kept = floor >> drop
    middle = (2 * kept + 1) << (drop - 1)
    if middle * middle < radicand:
        kept += 1
    else:
        assert middle * middle != radicand, 'a root is never in the middle of two floats'
    return to_bits(math.ldexp(kept, exponent + drop))


def expected(bits):
    if bits & ~SIGN > INFINITY:
        return NAN
    if bits & ~SIGN == 0 or bits == INFINITY:
        return bits
    if bits & SIGN:
        return NAN
    found = root(bits)
    assert found == to_bits(math.sqrt(to_float(bits))), hex(bits)
    published = PUBLISHED.get(to_float(bits))
    assert published is None or found == to_bits(float(published)), published
    return found


def answer(bits, found):
    if bits & ~SIGN >= INFINITY:
        return [5, 0]
    if found & ~SIGN >= INFINITY:
        return [10, 0]
    return [0, found]


def near_middles():
    """Normal floats whose root lies as near as can be to the middle of two floats.

    With s = m * 2^t of 105 or 106 digits, m of 53, the root of s is near the middle (2q + 1) / 2 where (2q + 1)^2 is near 4s, a
    multiple of 2^(t + 2): odd squares that are small modulo 2^(t + 2), found digit by digit."""
    found = []
    for t in (52, 53):
        places = t + 2
        for small in (1, 9, 17, 25, 33, 41, 49, 57, -7, -15, -23, -31, -39, -47, -55, -63):
            roots = {1, 3, 5, 7}
            for p in range(4, places + 1):
                roots = {c for r in roots for c in (r, r + (1 << p - 1)) if (c * c - small) % (1 << p) == 0}
                roots = {r % (1 << p) for r in roots}
            for r in sorted(roots):
                for odd in (r, r + (1 << places)):
                    m, rest = divmod(odd * odd - small, 1 << places)
                    if rest == 0 and 1 << 52 <= m < 1 << 53:
                        found.append((1023 + t % 2 << 52) + m - (1 << 52))
    return found


def vectors():
    out = [0, SIGN, 1, 2, 3, 4, SIGN | 1, INFINITY, SIGN | INFINITY, NAN, NAN | SIGN, INFINITY | 1]
    out += [to_bits(v) for v in (1.0, 2.0, 3.0, 4.0, 5.0, 6.0, 7.0, 0.25, 0.5, 0.1, 1e308, 1e-308, -1.0, -2.0, -1e-320, 25.0)]
    # the largest and the smallest of each kind, and their neighbours
    for edge in (1 << 52, (1 << 52) - 1, INFINITY - 1, 0x3FF << 52, 0x400 << 52, 0x3FE << 52):
        out += [edge - 1, edge, edge + 1]
    # subnormal floats: powers of two, and below one
    for place in range(0, 52, 3):
        out += [1 << place, (2 << place) - 1]
    # powers of two
    out += [field << 52 for field in range(1, 2047, 60)]
    # squares of whole numbers, and the floats below and above
    dice = random.Random(754)
    for _ in range(16):
        square = to_bits(float(dice.randrange(1, 1 << 26) ** 2))
        out += [square - 1, square, square + 1]
    out += near_middles()
    # any floats: normal, subnormal, negative
    out += [dice.randrange(0, INFINITY) for _ in range(60)]
    out += [dice.randrange(0, 1 << 52) for _ in range(20)]
    out += [SIGN | dice.randrange(0, INFINITY) for _ in range(4)]
    return list(dict.fromkeys(out))


def case(bits):
    found = expected(bits)
    return cases.sizes(bits, found, *answer(bits, found))


def groups():
    return [('square roots', map(case, vectors()))]

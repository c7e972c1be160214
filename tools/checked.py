"""Signed 64-bit arithmetic that refuses, for the generators of exact cases: document 01's 7, 8 and 9, on Python's integers."""
LOW, HIGH = -(2**63), 2**63 - 1


class Refused(Exception):
    pass


def formed(z):
    if not LOW <= z <= HIGH:
        raise Refused(9)
    return z


def divided(x, y):
    if y == 0:
        raise Refused(7)
    if x % y:
        raise Refused(8)
    return formed(x // y)


def outcome(work):
    """What the work gives, or its refusal."""
    try:
        return work()
    except Refused as refusal:
        return refusal

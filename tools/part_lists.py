"""Part lists and their counts, for the generators: an enumeration of Python's own, nothing of it taken from the library.

The lists are found part by part. They and their multiplicities are held to recurrences over the whole triangle of orders and lens, to a count of
the ways to split a set into blocks, and to published rows: the numbers of partitions (A000041 and A008284 of the On-Line Encyclopedia of Integer
Sequences), the Stirling numbers of the second kind (A008277) and their sums, the Bell numbers (A000110).
"""
from functools import lru_cache
from itertools import combinations_with_replacement
from math import comb, factorial


@lru_cache(None)
def splits(total, length, most):
    if length == 0:
        return [()] if total == 0 else []
    return [(p,) + rest for p in range(min(total, most), 0, -1) for rest in splits(total - p, length - 1, p)]


def part_lists(order, length):
    """The nonincreasing lists of positive parts, the greatest first."""
    return splits(order, length, order)


def multiplicity(parts):
    count = factorial(sum(parts))
    for p in parts:
        count //= factorial(p)
    for p in set(parts):
        count //= factorial(parts.count(p))
    return count


@lru_cache(None)
def partition_number(n, k):
    if n <= 0 or k <= 0:
        return int(n == 0 and k == 0)
    return partition_number(n - 1, k - 1) + partition_number(n - k, k)


@lru_cache(None)
def stirling(n, k):
    if n == 0 or k == 0:
        return int(n == 0 and k == 0)
    return k * stirling(n - 1, k) + stirling(n - 1, k - 1)


@lru_cache(None)
def ways(parts):
    """In how many ways a set splits into blocks of these sizes: the block of the set's first element is chosen, and so on."""
    if not parts:
        return 1
    without = lambda a: parts[: parts.index(a)] + parts[parts.index(a) + 1 :]
    return sum(comb(sum(parts) - 1, a - 1) * ways(without(a)) for a in sorted(set(parts)))


# ---- recurrences, over the whole triangle; to order 8, a choice out of all tuples
for n in range(21):
    for k in range(n + 1):
        lists = part_lists(n, k)
        assert lists == sorted(lists, reverse=True) and len(lists) == partition_number(n, k)
        assert all(multiplicity(parts) == ways(parts) for parts in lists)
        assert sum(map(multiplicity, lists)) == stirling(n, k)
        if n < 9:
            assert lists == sorted((t[::-1] for t in combinations_with_replacement(range(1, n + 1), k) if sum(t) == n), reverse=True)

# ---- published numbers
PARTITIONS = [1, 1, 2, 3, 5, 7, 11, 15, 22, 30, 42, 56, 77, 101, 135, 176, 231, 297, 385, 490, 627]
PARTITIONS_OF_TEN = [1, 5, 8, 9, 7, 5, 3, 2, 1, 1]
PARTITIONS_OF_TWENTY = [1, 10, 33, 64, 84, 90, 82, 70, 54, 42, 30, 22, 15, 11, 7, 5, 3, 2, 1, 1]
STIRLING_OF_TEN = [1, 511, 9330, 34105, 42525, 22827, 5880, 750, 45, 1]
STIRLING_OF_TWENTY = [
    1, 524287, 580606446, 45232115901, 749206090500, 4306078895384, 11143554045652, 15170932662679, 12011282644725, 5917584964655,
    1900842429486, 411016633391, 61068660380, 6302524580, 452329200, 22350954, 741285, 15675, 190, 1,
]
BELL = [
    1, 1, 2, 5, 15, 52, 203, 877, 4140, 21147, 115975, 678570, 4213597, 27644437, 190899322, 1382958545, 10480142147, 82864869804,
    682076806159, 5832742205057, 51724158235372,
]
assert [sum(partition_number(n, k) for k in range(n + 1)) for n in range(21)] == PARTITIONS
assert [partition_number(10, k) for k in range(1, 11)] == PARTITIONS_OF_TEN
assert [partition_number(20, k) for k in range(1, 21)] == PARTITIONS_OF_TWENTY
assert [stirling(10, k) for k in range(1, 11)] == STIRLING_OF_TEN
assert [stirling(20, k) for k in range(1, 21)] == STIRLING_OF_TWENTY
assert [sum(stirling(n, k) for k in range(n + 1)) for n in range(21)] == BELL

#!/usr/bin/env python3
"""What the program replay_parts reads and must write: inputs of the program `parts`, and the text of each.

Run in the repository's root:  python3 tools/replay_parts.py

It writes crates/replay_parts/stdin and crates/replay_parts/stdout. Nothing here is taken from the library: part_lists.py finds the part lists and
counts them. Byte 255 ends each input. Each text stands twice: once for the input whole, once for the input byte by byte. Then a line says after how
many bytes the answer is settled: what was read then begins no input of two numbers.
"""
import re

from part_lists import multiplicity, part_lists, stirling


def text(order, len_):
    lines = [" ".join(map(str, (multiplicity(p),) + p)) for p in part_lists(order, len_)] + [f"total {stirling(order, len_)}"]
    return "".join(line + "\n" for line in lines).encode()


def refused(c):
    return b"refused %d\n" % c


# what an input of two numbers can begin with: of separators, a number, separators, a number, separators, any of the later may still be missing
BEGINNING = re.compile(rb"[ \r\n]*([0-9]+([ \r\n]+([0-9]+[ \r\n]*)?)?)?")


def settled(given):
    longest = BEGINNING.match(given).end()
    return b"settled after %d\n" % (longest + 1) if longest < len(given) else b"open\n"


CASES = [(b"4 2", b"4 3 1\n3 2 2\ntotal 7\n")]

# every pair of orders and lens to 22
for order in range(23):
    for k in range(23):
        CASES.append((b"%d %d\n" % (order, k), refused(1) if order > 20 else text(order, k) if 1 <= k <= order else refused(3)))

# the same pair, spelt otherwise
for spelt in [b"4 2\n", b"4\n2\n", b"4\r\n2\r\n", b"4\r2", b"  4 2", b"\r\n 4   2  \n\n", b"004 0002", b"0" * 10000 + b"4 2"]:
    CASES.append((spelt, text(4, 2)))

# an order above 20, and a len of 0 or above the order; 2^32, 2^64 and more come to small numbers where they wrap
for order in [b"21", b"0021", b"22", b"209", b"210", b"256", b"4294967300", b"18446744073709551615", b"18446744073709551620"]:
    CASES += [(order + b" 1", refused(1)), (order + b" 0", refused(1)), (order + b" 22", refused(1))]
CASES.append((b"9" * 10000 + b" 1", refused(1)))
for pair in [b"2 3", b"20 21", b"20 0", b"20 22", b"5 0", b"0 0", b"0 1", b"1 2", b"4 258", b"4 4294967298", b"4 18446744073709551618", b"4 " + b"2" * 10000]:
    CASES.append((pair, refused(3)))

# no two decimal numbers, some of them with another fault besides
for bad in [
    b"", b" ", b"\n", b"\r\n", b"4", b"4 ", b"4\n", b"21", b"4 2 1", b"4 2 1\n", b"21 1 1", b"4 2 x", b"21 x", b"x 21", b"2 3 x",
    b"a", b"four two", b"4 b", b"4a 2", b"4 2a", b"+4 2", b"4 +2", b"-4 2", b"4 -2", b"4,2", b"4, 2", b"4.0 2", b"4e0 2", b"0x4 2", b"4_0 2",
    b"4\t2", b"\t4 2", b"4 2\t", b"4\x0b2", b"4\x0c2", b"4\x002", b"4 2\x00", b"4/2", b"4:2", b"4 2/", b"4 2:", b"\xef\xbb\xbf4 2", b"4\xc2\xa02",
    b"\xef\xbc\x94 \xef\xbc\x92", b"4 2\x80", b"4 2\xfe", b"4 2 " + b"0" * 1000,
]:
    CASES.append((bad, refused(2)))

# how endless inputs begin: numbers or words settle the answer soon, separators or digits never do
for endless, answer in [(b"4\n" * 100, refused(2)), (b"y\n" * 100, refused(2)), (b"\n" * 100, refused(2)), (b"4" * 100, refused(2)), (b"4 2" + b"\n" * 100, text(4, 2))]:
    CASES.append((endless, answer))

with open("crates/replay_parts/stdin", "wb") as f:
    f.write(b"".join(given + b"\xff" for given, _ in CASES))
with open("crates/replay_parts/stdout", "wb") as f:
    f.write(b"".join(answer + answer + settled(given) for given, answer in CASES))

#!/usr/bin/env python3
"""The inputs and the expected outputs of the programs replay_exact, replay_floats, replay_vectors and replay_fillet.

Run in the repository's root:  python3 tools/replay.py [PROGRAM..]   (writes stdin and stdout of each, or of those named)

A program has its families, numbered from 1 in the order below, then the operations of one crate of the C interface: the Rust's answers, and refusals.
"""
import sys

import cases
import exact_cases
import fillet_cases
import float_cases
import list_cases
import partition_cases
import refusals
import rust_cases
import sqrt_cases
import stored_rotations
import whole_cases

PROGRAMS = {
    'replay_exact': ([whole_cases, partition_cases, exact_cases], cases.WHOLES | cases.PARTS),
    'replay_floats': ([sqrt_cases, float_cases], cases.CURVES | cases.SURFACES | cases.VECTORS),
    'replay_vectors': ([list_cases], cases.VECTOR_CURVES | cases.VECTOR_SURFACES),
    'replay_fillet': ([fillet_cases, stored_rotations], cases.FILLET),
}


def groups(families, names):
    for number, family in enumerate(families, 1):
        for label, lines in family.groups():
            yield label, [cases.sizes(number) + words for words in lines]
    yield from rust_cases.groups(names)
    yield from refusals.groups(names)


for program in sys.argv[1:] or PROGRAMS:
    cases.write(program, groups(*PROGRAMS[program]))

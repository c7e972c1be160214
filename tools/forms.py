#!/usr/bin/env python3
"""Counts in crates/*/src the older forms that docs/DESIGN-PASS.md is about, point by point; with -v each place. usage: tools/forms.py [-v] [ROOT]"""
import re
import sys
from collections import defaultdict
from pathlib import Path

verbose = "-v" in sys.argv[1:]
roots = [a for a in sys.argv[1:] if a != "-v"]
ROOT = Path(roots[0] if roots else Path(__file__).resolve().parent.parent)
FILES = sorted((ROOT / "crates").glob("*/src/**/*.rt"))
FUNCTION = re.compile(r'^( *)((?:pub )?(?:extern "C" )?fn (\w+).*?\n\1\}\n)', re.S | re.M)


def name(path):
    return path.relative_to(ROOT / "crates").as_posix()


def lines_like(pattern, but=None):
    return [f"{name(p)}:{i}: {line.strip()}" for p in FILES for i, line in enumerate(p.read_text().splitlines(), 1)
            if re.search(pattern, line) and not line.lstrip().startswith(("//", "ghost use")) and not (but and re.search(but, line))]


def functions():
    for p in FILES:
        for m in FUNCTION.finditer(p.read_text()):
            yield p, m.group(3), m.group(2)


def numbered():
    """functions, but for those that C calls, that answer a number beside or in place of a value"""
    shape = re.compile(r"\) -> (u8|Started|Stepped|Composition|Count|Whole|Real|\w*Answer|\w*Entries|Carried)\b")
    return [f"{name(p)}: {f} -> {m.group(1)}" for p, f, text in functions() if "extern" not in text.split("fn")[0]
            for m in [shape.search(text.split("{", 1)[0])] if m and "replay" not in name(p)]


def alike(text):
    """what is left of a function where types, sizes and the words for kinds of jet are taken away"""
    body = re.sub(r"(requires|ensures)( \w+)? \{[^{}]*(\{[^{}]*\}[^{}]*)*\}\n", "", text)
    body = re.sub(r"//.*", "", body)
    body = re.sub(r"\b\d[\w.]*\b", "0", body)
    body = re.sub(r"\b(i64|u64|u32|f64|usize|[A-Z]\w*)\b", "T", body)
    body = re.sub(r"(vector|curve|surface|parameter|matrix|float|exact|whole|number)s?\d?_?", "", body)
    body = re.sub(r"fn \w+", "fn", body)
    return re.sub(r"\s+", "", body)


def twins():
    groups = defaultdict(list)
    for p, f, text in functions():
        if "extern" not in text.split("fn")[0] and "_c/" not in name(p) and text.count("\n") > 5:
            groups[alike(text)].append(f"{name(p)}: {f}")
    return [" = ".join(g) for g in groups.values() if len(g) > 1]


def only_indexed():
    """`for`s over a range whose index does nothing but index"""
    found = []
    for p in FILES:
        lines = p.read_text().splitlines()
        for k, line in enumerate(lines):
            m = re.match(r"( *)for (\w+) in .*\.\..* \{$", line)
            if not m:
                continue
            end = next(j for j in range(k + 1, len(lines)) if lines[j] == m.group(1) + "}")
            body = "\n".join(lines[k + 1 : end])
            rest = re.sub(rf"\[(?:\d+ \* )?{m.group(2)}(?: [+-] \w+)?\]", "", body)
            if m.group(2) != "_" and rest != body and not re.search(rf"\b{m.group(2)}\b", rest):
                found.append(f"{name(p)}:{k + 1}: {line.strip()}")
    return found


def said_often():
    """facts of `requires` that stand in three or more functions of a crate, up to the names of their variables; not the bounds of an order or index"""
    facts = defaultdict(set)
    for p, f, text in functions():
        for m in re.finditer(r"requires(?: \w+)? \{ (.*) \}\n", text):
            for fact in m.group(1).split(" × "):
                fact = fact.strip("() ")
                if not re.fullmatch(r"[\w. +*()]* ?[≤<] ?[\w. +*()-]*", fact):
                    facts[name(p).split("/")[0], re.sub(r"\b[a-z]\b", "x", fact)].add(f)
    return [f"{c}: {fact}: {len(fs)} functions" for (c, fact), fs in facts.items() if len(fs) > 2]


POINTS = [
    ("1 enums with a refusal's number in one case", lines_like(r"\bRefused\(u8\)")),
    ("1 structs with a number beside a value", lines_like(r"^\s*pub refusal: u8")),
    ("1 functions that answer one of these, or a number", numbered()),
    ("1 flags beside a value, own Option", lines_like(r"^\s*(pub )?(ended|more): bool|^\s*(pub )?enum (Settled|Count)\b")),
    ("2 twins: functions alike but for types and sizes, in groups", twins()),
    ("3 loops that count by hand", lines_like(r"^\s*(while|loop)\b", r"while let")),
    ("3 fors over a range whose index only indexes", only_indexed()),
    ("4 operators and conversions by hand", lines_like(r"\b(both|either)\(|fn (flag|operation_of|given_flag|at_most_21|smaller)\b", r"\bjets::both\(|fn both<")),
    ("5 a table handed on with its fact", lines_like(r"\w: &\[u32; 231\]")),
    ("5 other facts in three or more contracts", said_often()),
    ("6 a buffer with a place beside it", lines_like(r"(out|at): (&mut \[u8.*, at: )?usize", r"^\s*(asked|order)")),
    ("7 switches on a step in a loop's body", lines_like(r"^\s*match (f|op|operation) \{")),
]
for title, places in POINTS:
    print(f"{len(places):4} {title}")
    if verbose:
        for place in places:
            print(f"       {place}")
proofs = sum(len(p.read_text().splitlines()) for p in (ROOT / "crates").glob("*/proofs/**/*.antt"))
answers = len(list((ROOT / "crates").glob("*/proofs/**/Answers.antt")))
print(f"{answers:4} 8 files of answers; {proofs:,} lines of proofs")

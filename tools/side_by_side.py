#!/usr/bin/env python3
"""Writes the lists at the end of docs/DESIGN-PASS.md anew: each public function, type and definition, and each theorem that a page names, that is not what it
was in another tree, old and new side by side. usage: tools/side_by_side.py OLD_ROOT [--gone]; with --gone, prints what is gone and writes nothing

The lists of functions and definitions that are gone, and of what says it now, are written by hand: --gone tells what has to stand in the first."""
import re
import sys
from collections import Counter
from pathlib import Path

ROOT = Path(__file__).resolve().parent.parent
OLD = Path(sys.argv[1]).resolve()
PAGE = ROOT / "docs" / "DESIGN-PASS.md"


def crates(root):
    return sorted(p.name for p in (root / "crates").iterdir() if not p.name.startswith("replay_") and not p.name.endswith("_c") and p.name != "callers")


def one_line(text):
    return re.sub(r"\s+", " ", text).strip().replace("( ", "(").replace(", )", ")").replace(",)", ")")


def heads(text):
    """Each public function, and each that a public trait asks for: owner, name, signature, clauses."""
    owner, asked = None, False
    lines = text.split("\n")
    for k, line in enumerate(lines):
        if m := re.match(r"(impl|pub trait)(?:<[^>]*>)? (\w+)(?:<[^>]*>)?(?:: [^{]*)? \{", line):
            owner, asked = m.group(2), m.group(1) != "impl"
        elif line == "}":
            owner = None
        elif m := re.match(r'( *)pub (?:extern "C" )?(fn (\w+).*)', line) or (owner and asked and re.match(r"( +)(fn (\w+).*)", line)):
            head = []
            for after in lines[k:]:
                if after == m.group(1) + "{" or not after.strip() or after.strip() == "}":
                    break
                head.append(after)
            text_of = "\n".join(head)
            signature = re.split(r"\n\s*(?:requires|ensures)", text_of)[0]
            clauses = [one_line(c).rstrip(";") for c in re.findall(r"^\s*((?:requires|ensures)\*?(?: \w+)? \{.*)$", text_of, re.M)]
            yield (owner if m.group(1) else None), m.group(3), re.sub(r'^(pub )?(extern "C" )?', "", one_line(signature)), "; ".join(clauses)


def functions(root):
    found = {}
    for crate in crates(root):
        listed = [(owner, name, file.stem, signature, clauses) for file in sorted((root / "crates" / crate / "src").rglob("*.rt"))
                  for owner, name, signature, clauses in heads(file.read_text())]
        for owner, name, module, signature, clauses in listed:
            found[(crate, owner, name, module)] = (signature, clauses)
    return found


def named(key, often):
    crate, owner, name, module = key
    full = "::".join(filter(None, [crate, owner, name]))
    return f"`{full}`" + (f" [{module}]" if often[(crate, owner, name)] > 1 else "")


def met(old, new):
    """Functions of both trees by name; where one is left of a name in each, its module may differ."""
    yield from ((key, key) for key in old if key in new)
    left = [{k[:3]: k for k in some if k not in other} for some, other in ((old, new), (new, old))]
    often = [Counter(k[:3] for k in some if k not in other) for some, other in ((old, new), (new, old))]
    yield from ((left[0][name], left[1][name]) for name in left[0] if often[0][name] == often[1][name] == 1)


def cell(text):
    return "`" + text.replace("|", "\\|") + "`" if text else ""


def function_rows(old, new):
    often = Counter(k[:3] for k in old) + Counter()
    for k, n in Counter(k[:3] for k in new).items():
        often[k] = max(often[k], n)
    for before, now in met(old, new):
        (s, c), (t, d) = old[before], new[now]
        if (s, c) != (t, d):
            yield f"| {named(now, often)} | " + (f"{cell(s)} … | {cell(t)} … |" if c == d else f"{cell(s)}<br>{cell(c)} | {cell(t)}<br>{cell(d)} |")


def new_functions(old, new):
    often = Counter(k[:3] for k in new)
    kept = {now for _, now in met(old, new)}
    for key in new:
        if key not in kept:
            yield f"- {named(key, often)}: " + " ".join(cell(part) for part in new[key] if part)


def types(root):
    found = {}
    for crate in crates(root):
        for file in sorted((root / "crates" / crate / "src").rglob("*.rt")):
            text = re.sub(r"//.*", "", file.read_text())
            for m in re.finditer(r"^pub (?:struct|enum|trait) (\w+)[^\n]*\{\n.*?^\}", text, re.M | re.S):
                found[f"{crate}::{m.group(1)}"] = one_line(m.group(0))
            for m in re.finditer(r"^pub type (\w+).*", text, re.M):
                found[f"{crate}::{m.group(1)}"] = one_line(m.group(0))
    return found


def definitions(root):
    found = {}
    for crate in crates(root):
        for file in sorted((root / "crates" / crate / "specs").rglob("*.antt")):
            at = file.relative_to(root / "crates").with_suffix("").as_posix()
            said = "\n".join(line for line in file.read_text().split("\n") if not re.match(r"\s*--|use |pub mod |pub use ", line))
            for block in re.split(r"\n\s*\n", said):
                own = re.sub(r"^\s*module [^\n]* where\n", "", block.strip("\n") + "\n")
                if m := re.match(r"\s*(?:abbrev |unfoldable )?(?:pub )?(?:(?:record|data) )?([^\s(){}:]+)[^=]*? : ", own):
                    found[f"{at}: {m.group(1)}"] = one_line(block)
    return found


def pages(root):
    for page in [root / "README.md", *sorted((root / "docs").glob("*.md"))]:
        if page.name != PAGE.name:
            yield page.read_text()


def theorems(root, named_by):
    found = {}
    for path, names in named_by:
        file = root / path
        if not file.exists():
            continue
        text = file.read_text()
        for name in names:
            if m := re.search(rf"^ *(?:pub )?{re.escape(name)} : (.*?)\n(?:unfolding[^\n]*\n)?(?=(?: *{re.escape(name)}\b|\n| *where\b))", text, re.M | re.S):
                found[f"{path.removeprefix('crates/').removesuffix('.antt')}: {name}"] = one_line(re.sub(r"--[^\n]*|\n *unfolding [^\n]*", "", m.group(1) + "\n"))
    return found


def theorems_named():
    named_by = set()
    for root in (OLD, ROOT):
        for text in pages(root):
            for path, names in re.findall(r"`(crates/[\w./-]+/proofs/[\w./-]+\.antt): ([^`]+)`", text):
                named_by.update((path, (name.strip(),)) for name in names.split(","))
    return sorted(named_by)


def rows(old, new):
    for key in sorted({*old, *new}):
        if old.get(key) != new.get(key):
            yield f"| `{key}` | {cell(old.get(key)) or 'none'} | {cell(new.get(key)) or 'none'} |"


def table(title, rows):
    return f"### {title}\n\n| {title.lower().split()[-1].rstrip('s') if 'that' not in title else 'theorem'} | at the beginning | now |\n|---|---|---|\n" + "\n".join(rows) + "\n"


old, new = functions(OLD), functions(ROOT)
if "--gone" in sys.argv:
    kept = {before for before, _ in met(old, new)}
    print("\n".join("::".join(filter(None, [k[0], k[3], k[1], k[2]])) for k in sorted(old, key=str) if k not in kept))
    sys.exit()
page = PAGE.read_text()
gone = re.search(r"^### Public functions that are gone.*?(?=^### Public types)", page, re.M | re.S).group(0)
intro = re.search(r"^## Old and new side by side\n.*?(?=^### )", page, re.M | re.S)
lists = [
    "### Public functions\n\nA function that is there twice under one name has its module in brackets. `…` where the clause is the same.\n\n| function | at the beginning | now |\n|---|---|---|\n"
    + "\n".join(sorted(function_rows(old, new))) + "\n\nNew:\n\n" + "\n".join(sorted(new_functions(old, new))) + "\n",
    gone.rstrip() + "\n",
    table("Public types", rows(types(OLD), types(ROOT))),
    table("Definitions", rows(definitions(OLD), definitions(ROOT))),
    table("Theorems that the pages name", rows(theorems(OLD, theorems_named()), theorems(ROOT, theorems_named()))),
]
PAGE.write_text(page[: intro.end()] + "\n".join(lists))

#!/usr/bin/env python3
"""Spells the repository's own definitions, lemmas, fields and constructors as today's Rattle does: words in snake case.

usage: python3 tools/snake_case.py [--check]     at the top of the repository, once, after the kit's port.py

A name that an .antt file declares and that has a capital after a small letter is turned, piece by piece where dashes join it: `settle-ofNat`
becomes `settle-of_nat`. Names that begin with a capital are types, facts and modules, and stay. Names of src/ (functions, fields, parameters,
variants) stay too. Turned are .antt and .rt files, must-fail edits, the pages and tools/proved.py. A new name that some file that has the old one
has already is printed and not turned, unless CHOSEN gives it another.
"""

import os
import re
import sys

NAME = r"[^\s(){}\[\].;,:@\"«»`|]+"
TOKEN = re.compile(NAME)
DECLARED = re.compile(r"(?m)^[ \t]*(?:(?:abbrev|unfoldable)[ \t]+)?(?:pub[ \t]+)?(?:(?:data|record)[ \t]+)?(" + NAME + r")(?=[ \t]*(?:\{[^{}\n]*\}[ \t]*)*:\s)")
PIECE = re.compile(r"^[a-z][A-Za-z0-9_]*$")
CAMEL = re.compile(r"(?<=[a-z0-9])[A-Z]")
# Where the plain spelling falls together with another name: what is written in its place.
CHOSEN = {"times-in": "times_in"}


def files(root):
    for top in ("crates", "docs", "tools", "README.md"):
        path = os.path.join(root, top)
        if os.path.isfile(path):
            yield path
        for folder, dirs, names in os.walk(path):
            dirs[:] = sorted(d for d in dirs if d not in ("out", "__pycache__", "data"))
            for name in sorted(names):
                if name.endswith((".antt", ".rt", ".edit", ".md")) or name == "proved.py":
                    yield os.path.join(folder, name)


def turned(name):
    if name in CHOSEN:
        return CHOSEN[name]
    pieces = name.split("-")
    for i in range(len(pieces)):
        # several capitals in a row take a turn each
        while PIECE.match(pieces[i]) and CAMEL.search(pieces[i]):
            pieces[i] = CAMEL.sub(lambda m: "_" + m[0].lower(), pieces[i])
    return "-".join(pieces)


def read(path):
    with open(path, encoding="utf-8") as f:
        return f.read()


def main():
    root = os.getcwd()
    paths = list(files(root))
    texts = {p: read(p) for p in paths}
    rename = {}
    for path, text in texts.items():
        if path.endswith(".antt"):
            for name in DECLARED.findall(text):
                if turned(name) != name:
                    rename[name] = turned(name)
        # and the names that a file gives what it imports
        for name in re.findall(r"\bas (" + NAME + ")", text) if path.endswith((".antt", ".rt")) else ():
            if turned(name) != name:
                rename[name] = turned(name)
    # names that Rust declares are the source's
    for path, text in texts.items():
        if path.endswith(".rt"):
            for name in re.findall(r"\b(?:fn|struct|enum|const|static|mod|type)\s+(\w+)", text):
                rename.pop(name, None)
    tokens = {p: set(TOKEN.findall(t)) for p, t in texts.items()}
    clash = {}
    for old, new in sorted(rename.items()):
        for path in paths:
            if old not in tokens[path] or new not in tokens[path]:
                continue
            # A function of src/ may have the name of what it computes; a parameter, a variable or a field hides it.
            if path.endswith(".rt") and re.search(rf"\b{re.escape(new)}\s*:(?!:)|\blet (mut )?{re.escape(new)}\b|\|{re.escape(new)}\b", texts[path]):
                clash.setdefault(old, []).append(os.path.relpath(path, root))
            # A part of a path, and a function's name in a comment, are other names.
            if path.endswith(".antt"):
                bare = re.sub(r"--[^\n]*|(?<=\.)" + re.escape(new) + r"(?=\.|$)", "", texts[path])
                if new in TOKEN.findall(bare):
                    clash.setdefault(old, []).append(os.path.relpath(path, root))
    for old, where in clash.items():
        print(f"falls together: {old} -> {rename[old]}: {', '.join(where[:4])}")
    stays = set(clash) - set(CHOSEN)
    for old in stays:
        del rename[old]
    both = {}
    for old, new in rename.items():
        both.setdefault(new, []).append(old)
    for new, olds in both.items():
        if len(olds) > 1:
            print(f"one name for several: {new}: {', '.join(olds)}")
    n = 0
    for path in paths:
        text = texts[path]
        out = TOKEN.sub(lambda m: rename.get(m[0], m[0]), text)
        if out != text:
            n += 1
            if "--check" not in sys.argv:
                with open(path, "w", encoding="utf-8") as f:
                    f.write(out)
    print(f"{len(rename)} names turned in {n} files; {len(stays)} stay")


main()

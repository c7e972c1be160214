"""Keeps docs/PROVED.md true.

    python3 tools/proved.py            writes the table of public functions and the count of definitions anew
    python3 tools/proved.py --check    exit code 1 if they are not those of the tree, if a reference in the page leads nowhere, if a public
                                       function has a `requires` or no `ensures` or promises something on a condition alone, if a crate of
                                       entries answers without a number, or if an archive's functions are not those of its library, clause for
                                       clause

A reference is `FILE` or `FILE: NAME` in backquotes, FILE from the repository's root: the file must be there, and declare the name.

A crate is one of entries, whose public functions answer in full or refuse with a number of document 01, or one of arithmetic, which works on any bits
and any order and refuses nothing that document 01 has a number for: an order is cut to the array's. Arithmetic stands below entries.
"""

import pathlib
import re
import sys

ROOT = pathlib.Path(__file__).resolve().parent.parent
PAGE = ROOT / "docs" / "PROVED.md"
BEGIN, END = "<!-- public functions -->", "<!-- end -->"
COUNT = re.compile(r"(?<=<!-- lines -->).*?(?=<!-- end of lines -->)", re.S)
HANDED_FUNCTIONS = "given"  # the one crate whose public functions are handed functions, and ask
CALLABLE = re.compile(r"\s*\w+\.IsAlwaysCallable \w+\s*")  # that these may be called
TEST_TOOLS = "replay_"
OF_THE_KIT = ["std", "core", "io", "libc"]

ENTRIES = ["whole", "partitions", "part_counts", "exact", "roads", "vectors", "derivatives", "vector_derivatives", "rolling_ball_fillet", "parts_text"]
ARCHIVED = ["capi_exact", "capi_roads", "capi_floats", "capi_vectors", "capi_fillet", "bench_carry"]
ARCHIVES = [f"{name}_c" for name in ARCHIVED]  # static libraries that say no more than these, so the page has no list of theirs
BORDER = ARCHIVED
ARITHMETIC = ["refusals", "calculus", "orders", "exact_formulas", "exact_carry", "ieee", "ieee_vectors", "formulas", "vector_formulas", "vector_surface_formulas", "float_carry",
              "rodrigues", "surface_info", "contacts", "partials"]
BORDER_PARTS = ["given", "exact_lists", "fillet_lists"]  # what the crates of the border share
REFUSING_NUMBERS = ["whole", "partitions", "part_counts"]  # entries that arithmetic may stand on: they refuse by what is formed, or are asked for their theorems alone
NOT_CALLED = ["float_lists", "figures", "callers"]  # theorems, or tests, alone

# What the crates of entries expose beside answers, and why it has no number to give.
NUMBERLESS = {
    "whole::magnitude": "every number has one",
    "parts_text::start": "the state before the first byte",
    "parts_text::feed": "a state; the report of the last one says what is refused",
    "parts_text::report": "a text, which says what is refused",
    "parts_text::print": "a text, which says what is refused",
    "parts_text::Text::as_bytes": "a text's bytes",
    "roads::Jet::order": "a jet's order, as it stands",
    "roads::Jet::cut": "the same jet at another order",
    "derivatives::jets::Jet::order": "a jet's order, as it stands",
    "derivatives::jets::Jet::count": "a count, for `orders::fits`",
    "derivatives::jets::Jet::read": "a jet, the zero jet where `try_read` refuses",
    "derivatives::jets::Jet::write": "what `try_write` writes, which says what is refused",
}


def libraries():
    """The crates that a caller can use; those that only the replays stand on are no part of it."""
    return [n for n in depends() if (ROOT / "crates" / n / "src" / "lib.rt").exists() and not n.startswith(TEST_TOOLS)]


def imported(text):
    """The names that a file's contracts take from definitions, each with the definitions' file and its name there."""
    names = {}
    for crate, module, items in re.findall(r"ghost use Rattle\.(\w+)\.specs\.([\w.]+)\.\{([^}]*)\};", text):
        if crate in OF_THE_KIT or module.startswith("declared."):
            continue
        for item in items.split(","):
            own, _, alias = item.strip().partition(" as ")
            if own:
                names[alias.strip() or own] = (own, f"crates/{crate}/specs/{module.replace('.', '/')}.antt")
    for crate, module, alias in re.findall(r"ghost use Rattle\.(\w+)\.specs\.([\w.]+)(?: as (\w+))?;", text):
        if crate not in OF_THE_KIT:
            names[alias or module.split(".")[-1]] = (None, f"crates/{crate}/specs/{module.replace('.', '/')}.antt")
    return names


def functions(text):
    """Each `pub fn`, and each that a `pub trait` asks for, with its type or trait, and the text of its head up to the body."""
    found, owner, asked = [], None, False
    lines = text.split("\n")
    for k, line in enumerate(lines):
        if m := re.match(r"(impl|pub trait)(?:<[^>]*>)? (\w+)(?:<[^>]*>)?(?:: [^{]*)? \{", line):
            owner, asked = m.group(2), m.group(1) != "impl"
        elif line == "}":
            owner = None
        elif m := re.match(r'( *)pub (?:extern "C" )?fn (\w+)', line) or (owner and asked and re.match(r"( +)fn (\w+)", line)):
            indent, head = m.group(1), []
            for after in lines[k:]:
                if after == indent + "{" or not after:
                    break
                head.append(after)
            found.append((owner if indent else None, m.group(2), "\n".join(head)))
    return found


def clauses(head, kind):
    """What a head's clauses of a kind say, named or not."""
    found = []
    for m in re.finditer(rf"^ *{kind}\*?(?: \w+)? \{{", head, re.M):
        depth, end = 1, m.end()
        while depth:
            depth += {"{": 1, "}": -1}.get(head[end], 0)
            end += 1
        found.append(head[m.end() : end - 1])
    return found


def public(crate):
    """The public functions of a crate, as (name, file, definitions, has_requires, what it ensures)."""
    source = ROOT / "crates" / crate / "src"
    root = (source / "lib.rt").read_text()
    open_modules = set(re.findall(r"^pub mod (\w+);", root, re.M))
    passed_on = set(re.findall(r"^pub use (\w+::\w+);", root, re.M))
    passed_on |= {f"{module}::{name.strip()}" for module, names in re.findall(r"^pub use (\w+)::\{([^}]*)\};", root, re.M) for name in names.split(",")}
    open_types = set()
    for module in ["lib", *sorted(open_modules)]:
        open_types |= set(re.findall(r"^pub (?:struct|enum|trait) (\w+)", (source / f"{module}.rt").read_text(), re.M))
    for file in sorted(source.rglob("*.rt")):
        module = file.relative_to(source).with_suffix("").as_posix()
        text = file.read_text()
        names = imported(text)
        for owner, name, head in functions(text):
            exported = 'extern "C"' in head
            passed = passed_on & {f"{module}::{name}", f"{module}::{owner}"}
            if not (owner in open_types or exported or module == "lib" or module in open_modules or passed):
                continue
            ensures = clauses(head, "ensures")
            cited = []
            for word in re.findall(r"[\w'-]+(?:\.[\w'-]+)*", "".join(ensures)):
                first, _, rest = word.partition(".")
                if first in names:
                    own, spec = names[first]
                    cited.append((own or rest, spec))
            full = "::".join(filter(None, [crate, module if module in open_modules else None, owner, name]))
            asks = [clause for clause in clauses(head, "requires") if not (crate == HANDED_FUNCTIONS and CALLABLE.fullmatch(clause))]
            yield full, file, list(dict.fromkeys(cited)), bool(asks), [said for said in ensures if said.strip()]


def outermost(clause, sign):
    """A clause's parts between the signs that stand in no bracket."""
    parts, depth = [""], 0
    for c in clause:
        depth += {"(": 1, "{": 1, ")": -1, "}": -1}.get(c, 0)
        if c == sign and depth == 0:
            parts.append("")
        else:
            parts[-1] += c
    return [part.strip() for part in parts]


def unbracketed(clause):
    """A clause without the brackets that hold all of it."""
    clause = clause.strip()
    while clause.startswith("(") and outermost(clause, ")") == [clause[:-1].strip(), ""]:
        clause = clause[1:-1].strip()
    return clause


def conditional(clause):
    """Whether a clause, or one of those that it joins, says something only where something else holds. That it says it of any (x : T) is no condition."""
    clause = unbracketed(clause)
    joined = outermost(clause, "×")
    if len(joined) > 1:
        return any(conditional(part) for part in joined)
    *before, said = outermost(clause, "→")
    if any(not re.fullmatch(r"[({][^:(){}]+ : .*[)}]", part, re.S) for part in before):
        return True
    return bool(before) and conditional(said)


def answers():
    """The types that say a refusal: a struct that holds a result of it."""
    source = "\n".join(f.read_text() for f in sorted(ROOT.glob("crates/*/src/**/*.rt")))
    types = dict(re.findall(r"^pub (?:struct|enum) (\w+) \{(.*?)^\}", source, re.M | re.S))
    return {name for name, body in types.items() if re.search(r": Result<.*, Refusal>,", body)}


def returned(head):
    found = re.search(r"\) -> ([^\n{]+)", head)
    return found.group(1).strip() if found else "()"


def without_number(crate, say):
    """The public functions of a crate of entries that return neither an answer, nor a refusal or its number, nor a test's outcome."""
    for name, file, _, _, _ in public(crate):
        if name in NUMBERLESS:
            continue
        for owner, own, head in functions(file.read_text()):
            answer = returned(head)
            if f"::{name}".endswith("::".join(["", *filter(None, [owner, own])])) and not answer.endswith((", Refusal>", ", E>")) and answer not in say | {"u8", "bool"}:
                yield name


def depends():
    lines = [line.split(":") for line in (ROOT / "crates.txt").read_text().splitlines() if line and not line.startswith("#")]
    return {name.split()[0]: rest.split() for name, rest in lines}


def exported(crate):
    """A crate's functions for C: the head of each, and the attributes before it, by file and name."""
    heads = {}
    for file in sorted((ROOT / "crates" / crate / "src").rglob("*.rt")):
        for _, name, head in functions(file.read_text()):
            if 'extern "C"' in head:
                heads[(file.name, name)] = head
    return heads


def archived():
    """Faults of the archives: functions that are not those of the library."""
    for crate, archive in zip(ARCHIVED, ARCHIVES):
        ours, theirs = exported(crate), exported(archive)
        for file, name in sorted(ours.keys() ^ theirs.keys()):
            yield f"not in both {crate} and {archive}: {file}: {name}"
        for file, name in sorted(ours.keys() & theirs.keys()):
            if ours[(file, name)] != theirs[(file, name)]:
                yield f"{archive} does not say what {crate} says: {file}: {name}"
        for file in sorted({file for file, _ in ours.keys() & theirs.keys()}):
            imports = [imported((ROOT / "crates" / c / "src" / file).read_text()) for c in (crate, archive)]
            if any(imports[0].get(word) != imports[1][word] for word in imports[1]):
                yield f"{archive} names other definitions than {crate}: {file}"


def layers():
    """Faults of the two lists of crates: one that stands in none, and arithmetic on top of entries that test what is handed in."""
    known = ENTRIES + ARITHMETIC + BORDER + ARCHIVES + BORDER_PARTS + NOT_CALLED
    for crate in libraries():
        if known.count(crate) != 1:
            yield f"a crate that is neither entries nor arithmetic: {crate}"
    for crate in known:
        if not (ROOT / "crates" / crate).exists():
            yield f"no such crate: {crate}"
    for crate, below in depends().items():
        for other in below:
            if crate in ARITHMETIC and other in ENTRIES and other not in REFUSING_NUMBERS:
                yield f"arithmetic that stands on entries: {crate} on {other}"
    say = answers()
    for crate in ENTRIES + BORDER:
        for name in without_number(crate, say):
            yield f"an entry that answers without a number: {name}"


def definitions(crate, module):
    """A file of definitions: its blocks of lines by the names that they declare, and where its imported names stand."""
    text = (ROOT / "crates" / crate / "specs" / (module.replace(".", "/") + ".antt")).read_text()
    blocks, names, imports = [[]], {}, {}
    for line in text.split("\n"):
        if re.match(r"\s*--|use |pub mod |pub use ", line):
            continue
        if line.strip():
            blocks[-1].append(line)
        elif blocks[-1]:
            blocks.append([])
    for k, block in enumerate(blocks):
        for line in block:
            if m := re.match(r"\s*(?:abbrev |unfoldable )?(?:pub )?(?:(?:record|data) )?([^\s(){}:]+)[^=]*? : ", line):
                names.setdefault(m.group(1), k)
    for other, path, items, alias in re.findall(r"^use Rattle\.(\w+)\.specs\.([\w.-]+?)(?:\.\{([^}]*)\})?(?: as ([\w-]+))?$", text, re.M):
        if not items:
            imports[alias or path.split(".")[-1]] = (other, path, None)
        for item in filter(None, items.split(",")):
            own, _, name = item.strip().partition(" as ")
            imports[name or own] = (other, path, own)
    return blocks, names, imports


def reached(todo, files):
    """The blocks of definitions that some names rest on."""
    seen = set()
    while todo:
        crate, module, name = todo.pop()
        if not (ROOT / "crates" / crate / "specs" / (module.replace(".", "/") + ".antt")).exists():
            continue
        if (crate, module) not in files:
            files[(crate, module)] = definitions(crate, module)
        blocks, names, imports = files[(crate, module)]
        block = names.get(name)
        if block is None or (crate, module, block) in seen:
            continue
        seen.add((crate, module, block))
        for word in set(re.findall(r"[\w'-]+(?:\.[\w'-]+)*", "\n".join(blocks[block]))):
            first, _, rest = word.partition(".")
            if first in names:
                todo.append((crate, module, first))
            if first in imports:
                other, path, own = imports[first]
                todo.append((other, path, own or rest.split(".")[0]))
    return seen


def cited(crates, wanted=lambda name: True):
    for crate in crates:
        for name, _, specs, _, _ in public(crate):
            if wanted(name):
                for own, spec in specs:
                    parts = pathlib.Path(spec).with_suffix("").parts
                    yield parts[1], ".".join(parts[3:]), own.split(".")[0]


def theorem(path):
    """The definitions that a file of theorems imports."""
    for crate, module, items in re.findall(r"^use Rattle\.(\w+)\.specs\.([\w.]+)\.\{([^}]*)\}$", (ROOT / path).read_text(), re.M):
        for item in items.split(","):
            yield crate, module, item.strip().split(" as ")[0]


def counted():
    """How many lines of definitions a reader must believe: for all entries, for condition 3, and what the C interface adds."""
    files = {}

    def lines(blocks):
        return sum(len(files[(crate, module)][0][block]) for crate, module, block in blocks)

    entries = reached(list(cited(ENTRIES)), files)
    roads = reached(list(cited(["roads"], lambda name: "_then_" in name)) + list(theorem("crates/roads/proofs/Theorem.antt")), files)
    border = reached(list(cited(BORDER)), files) - entries
    return f"{lines(entries):,} lines for the entries, {lines(roads):,} of them for condition 3; the C interface adds {lines(border):,}."


def table(crate):
    lines = [f"### `{crate}`", "", "| function | what its contract equates it with |", "|---|---|"]
    for name, file, cited, _, _ in public(crate):
        specs = {}
        for own, spec in cited:
            specs.setdefault(spec, []).append(own)
        text = "; ".join(f"{', '.join(f'`{o}`' for o in owns)} ({spec.removeprefix('crates/')})" for spec, owns in specs.items())
        lines.append(f"| `{name}` | {text or 'said in the contract itself'} |")
    return lines + [""]


def generated():
    return "\n".join(line for crate in libraries() if crate not in ARCHIVES for line in (table(crate) if list(public(crate)) else []))


def declares(file, name):
    text = file.read_text()
    word = re.escape(name)
    return re.search(rf"(?:^|\s)(?:fn|def|struct|enum|const|record|pub|abbrev|unfoldable|module) +(?:pub +)?{word}(?![\w-])", text) or re.search(rf"^ *{word} :", text, re.M)


def faults(page):
    for reference in re.findall(r"`([\w./-]+/[\w./-]+(?:: [^`]+)?)`", page):
        path, _, name = reference.partition(": ")
        file = ROOT / path
        if not file.exists():
            yield f"no such file: {reference}"
        elif name and not all(declares(file, n.strip()) for n in name.split(",")):
            yield f"not declared there: {reference}"
    yield from layers()
    yield from archived()
    for crate in libraries():
        for name, _, _, requires, ensures in public(crate):
            if requires:
                yield f"a public function with a requires: {name}"
            if not ensures:
                yield f"a public function without an ensures: {name}"
            if crate != HANDED_FUNCTIONS and any(conditional(said) for said in ensures):
                yield f"a public function that promises something on a condition alone: {name}"


def main():
    page = PAGE.read_text()
    before, _, rest = page.partition(BEGIN)
    after = rest.partition(END)[2]
    fresh = f"\n\n{generated()}\n"
    whole = COUNT.sub(counted(), before + BEGIN + fresh + END + after)
    if "--check" not in sys.argv[1:]:
        PAGE.write_text(whole)
        page = whole
    elif page != whole:
        print("docs/PROVED.md: the table of public functions, or the count of definitions, is not that of the tree; run tools/proved.py")
        sys.exit(1)
    bad = list(faults(page))
    print("\n".join(bad) if bad else "docs/PROVED.md: every reference leads somewhere, no public function has a requires, lacks an ensures or promises on a condition alone, no entry answers without a number, and the archives say what their libraries say")
    sys.exit(1 if bad else 0)


if __name__ == "__main__":
    main()

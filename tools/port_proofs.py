#!/usr/bin/env python3
"""Turns a Proof.antt that names each need and closes by `tie.spec` into Invariants.antt and Answers.antt, as today's Rattle reads them.

usage: port_proofs.py NAMES CRATE [FUNCTION..]

NAMES is the names.json that `rt check --generated DIR --old-names` writes for the crate (a flag of the kit of November 2026), CRATE the folder above
proofs/, FUNCTION a folder below proofs/; none stands for all. A path along the walk, `c.before.before.small2.ensures`, becomes the step's own name,
`c.small-then-small.ensures`; a lemma over a place of the walk becomes a `let` in the answers that cite it; answers that say only `search rules` go,
since the check tries that itself. What it cannot read it leaves as it is, and prints.
"""

import json
import os
import re
import sys

NAME = r"[^\s(){}.;,@\"«»\[\]\\]+"
WORD = re.compile(NAME)
START = {
    "args": "args", "requires": "requires", "pre": "requires", "ranges": "ranges", "fits": "ranges",
    "well_formed": "well_formed", "well-formed": "well_formed", "good": "well_formed", "lifetimes": "lifetimes",
}
FIELD = {
    "taken": "true", "left": "false", "last": "new", "kept": "auto", "inv": "invariant", "came": "branch", "pre": "requires", "fits": "ranges",
    "good": "well_formed", "typed": "type_inv",
}
PREFIX = re.compile(
    r"^(overflow-(add|sub|mul|shl|shr|cast|step)|nonzero-(div|rem)|offset-bounds|slice-bounds|bounds|invariant-of|shape-of)-"
)


# How port.py may have respelled a step's name.
LOOSER = [
    lambda it: norm(it).lower(),
    lambda it: re.sub(r"-lem$", "", norm(it).lower()),
    lambda it: re.sub(r"-?\d+$", "", norm(it).lower()),
]


class Left(Exception):
    pass


def norm(name):
    return name.replace("_", "-").replace("·", "-")


def plain_need(name):
    out = [norm(name)]
    m = PREFIX.match(out[0])
    if m:
        rest = out[0][m.end():]
        out.append(rest)
        for op in m.groups():
            if op:
                out.append(op.split("-")[-1] + "-" + rest)
        head = m[1]
        out.append({"offset-bounds": "mul", "slice-bounds": "part", "bounds": "index"}.get(head, head) + "-" + rest)
    return out


class Function:
    """What names.json says of one function."""

    def __init__(self, of):
        self.of = of
        self.places = of["places"]
        self.by_old = {norm(p[0]): i for i, p in enumerate(self.places)}
        self.arms = of["arms"]
        self.needs = of["needs"]
        self.at = of["asked_at"]

    def chain(self, place):
        out = []
        while place is not None:
            i = self.by_old[norm(place)]
            out.append(i)
            place = self.places[i][1]
        return out

    def need(self, name):
        for it in plain_need(name):
            for i, (old, _) in enumerate(self.needs):
                if norm(old) == it:
                    return i
        short = {"holds": "init", "again": "preserved", "less": "smaller"}
        for a, b in short.items():
            it = re.sub(rf"-{a}(?=$|-\d)", "-" + b, norm(name))
            for i, (old, _) in enumerate(self.needs):
                if norm(old) == it:
                    return i
        for i, (_, new) in enumerate(self.needs):
            if norm(new) == norm(name):
                return i
        return None

    def settled(self, name):
        return any(norm(s) in [norm(name), *plain_need(name)] for s in self.of.get("settled", []))

    def field(self, place, path):
        """The new path below `c` of a path below an old place, without its steps `before`."""
        ups, rest = 0, list(path)
        while rest and rest[0] == "before":
            rest.pop(0)
            ups += 1
        if not rest:
            return None
        chain = self.chain(place)
        first = rest[0]
        if first in START:
            return [START[first], *rest[1:]]
        found = [i for i in chain if norm(self.places[i][2][0]) == norm(first)]
        for loose in LOOSER:
            if not found:
                found = [i for i in chain if loose(self.places[i][2][0]) == loose(first)]
        new_already = [i for i in chain if self.places[i][2][1] == first]
        if not found and new_already:
            return [first, *[FIELD.get(it, it) for it in rest[1:]]]
        if not found:
            found = [i for i, it in enumerate(self.places) if norm(it[2][0]) == norm(first)]
            # a place that is counted one off: the step's name says which it is
            found = found[:1] if len({self.places[i][2][1] for i in found}) == 1 else []
        if not found:
            raise Left(f"no step {first} at {place}: {'.'.join(path)}")
        if len(found) > 1:
            below = [i for i in found if chain.index(i) >= ups] or found
            found = below[:1]
        at = found[0]
        arm = self.arms[at]
        inside = rest[1:]
        if arm:
            whole = max((a for a in self.arms if a and a[0] == arm[0]), key=lambda a: a[1])
            # the arm is one step only where the walk has left its parts
            done = [i for i in chain if self.arms[i] and self.arms[i][0] == arm[0] and self.arms[i][1] == whole[1]]
            if done:
                best = None
                for new, step, way in whole[2]:
                    if norm(step) == norm(first) and inside[: len(way)] == [str(w) for w in way] and (best is None or len(way) > len(best[1])):
                        best = (new, way)
                if best is None:
                    raise Left(f"no part of the arm {arm[0]} is {'.'.join(rest)}")
                return [arm[0], best[0], *[FIELD.get(it, it) for it in inside[len(best[1]):]]]
        return [self.places[at][2][1], *[FIELD.get(it, it) for it in inside]]


def statements(text):
    """The file's lines in groups: a line that begins at the margin, and those below it that are set in."""
    out = []
    for line in text.split("\n"):
        if line and not line[0].isspace() and line[0] not in ")]}" or not out:
            out.append([line])
        else:
            out[-1].append(line)
    return ["\n".join(it).rstrip() for it in out if "\n".join(it).strip()]


class Def:
    def __init__(self, name, marks, type_, comments):
        self.name, self.marks, self.type, self.comments = name, marks, type_, comments
        self.unfolding, self.clauses = [], []

    def text(self, pub=False):
        marks = self.marks if not pub or "pub" in self.marks.split() else (self.marks + " pub").strip()
        head = f"{marks} {self.name} : {self.type}".strip()
        return "\n".join([*self.comments, head, *self.unfolding, *self.clauses])


SIG = re.compile(rf"^((?:abbrev|unfoldable|pub|\s)*)({NAME}) ((?:\{{[^{{}}]*\}} )*):\s(.*)$", re.S)


def parse(text):
    head, uses, defs, comments = [], [], [], []
    for it in statements(text):
        if it.startswith("--"):
            (comments if uses or defs else head).append(it)
        elif it.startswith("use "):
            uses.append(it)
        elif it.startswith("unfolding"):
            defs[-1].unfolding.append(it)
        else:
            m = SIG.match(it)
            if m and not (defs and it.startswith(defs[-1].name + " ") and "=" in it and it.index("=") < (it.index(" : ") if " : " in it else 1 << 30)):
                defs.append(Def(m[2], " ".join(m[1].split()), (m[3] + m[4]) if not m[3] else m[3].strip() + " : " + m[4], comments))
                if m[3]:
                    raise Left("a signature with implicit arguments before the colon: " + m[2])
                comments = []
            elif defs and WORD.match(it) and WORD.match(it)[0] == defs[-1].name:
                defs[-1].clauses.append(it)
            else:
                raise Left("not read: " + it.split("\n")[0])
    return head, uses, defs


def tokens(text):
    return set(re.findall(r"[^\s(){}.;,@\"«»\[\]\\]+", text))


def used(uses, text, dropped=()):
    """The `use` lines with the names alone that the text has."""
    words = tokens(text)
    out = []
    for it in uses:
        m = re.match(r"use (\S+?)\.\{(.*)\}$", it, re.S)
        if not m:
            m = re.match(r"use (\S+) as (\S+)$", it)
            last = m[2] if m else it[4:].split(".")[-1]
            if last in words and last not in dropped:
                out.append(it)
            continue
        keep = []
        for item in [x.strip() for x in m[2].split(",")]:
            if not item:
                continue
            seen = item.split(" as ")[-1].strip()
            parts = [p for p in seen.split("◌") if p] if "◌" in seen else [seen]
            if all(p in words or (p and not re.match(r"\w", p) and p in text) for p in parts) or seen == "tt":
                keep.append(item)
        if keep:
            out.append(f"use {m[1]}.{{{', '.join(keep)}}}")
    return out


PATH = re.compile(rf"(?<![^\s(){{}},;\[\]])({NAME})((?:\.{NAME})+)")


def lhs(clause, name):
    m = re.match(rf"{re.escape(name)}((?:\s+[^=\s][^\s]*)*?)\s+=(?=\s|$)", clause)
    if not m:
        raise Left("a clause that is not read: " + clause.split("\n")[0])
    return m[1].split(), clause[m.end():]


def flatten(text, place, var, fn, helpers):
    """A body over the place variable `var`, with each path by its step's name. Gives the text and the helpers that it calls."""
    at = {var: place}
    # a variable that stands for an earlier place
    let = re.compile(rf"let ({NAME}) = ({NAME})((?:\.before)*) in\s*")
    while True:
        for m in let.finditer(text):
            if m[2] in at:
                chain = fn.chain(at[m[2]])
                n = m[3].count(".before")
                at[m[1]] = fn.places[chain[min(n, len(chain) - 1)]][0]
                text = text[: m.start()] + text[m.end():]
                break
        else:
            break
    # a helper over a place: its argument goes
    called = []
    for name in helpers:
        arg = rf"(?:{'|'.join(map(re.escape, at))})(?:\.before)*"
        pattern = re.compile(rf"(?<![^\s(){{}},;\[\]])\(?(?<![^\s({{,;])({re.escape(name)}) ({arg})(?![^\s(){{}},;\[\]]|\.)")
        def one(m):
            called.append(name)
            return m[0][: m[0].index(name)] + name
        text = pattern.sub(lambda m: one(m), text)
        text = re.sub(rf"\(({re.escape(name)})\)", r"\1", text)

    def path(m):
        if m[1] not in at:
            return m[0]
        steps = m[2][1:].split(".")
        new = fn.field(at[m[1]], steps)
        return m[0] if new is None else "c." + ".".join(new)

    text = PATH.sub(path, text)
    for v in at:
        if re.search(rf"(?<![^\s(){{}},;\[\]]){re.escape(v)}(?:\.before)*(?![^\s(){{}},;\[\]])", text):
            if v == "c":
                raise Left("the walk itself is handed on: " + text.strip().split("\n")[0][:120])
            if not re.search(rf"λ[^.]*\b{re.escape(v)}\b|let {re.escape(v)} ", text):
                raise Left(f"a place is handed on: {v} in " + text.strip().split("\n")[0][:120])
    return text, list(dict.fromkeys(called))


def convert(text, fn, module):
    head, uses, defs = parse(text)
    names = {d.name: d for d in defs}
    loops = fn.of["loops"]
    invariants, goals, helpers, lemmas = [], [], {}, []
    for d in defs:
        t = d.type
        if re.match(r"tie\.(invariant|decreases|InvT|MeasureT)-", t):
            invariants.append(d)
        elif re.match(r"tie\.Need-", t):
            goals.append(d)
        elif re.search(r"statement M", t):
            continue
        elif "tie." in t:
            helpers[d.name] = d
        else:
            lemmas.append(d)
    out_inv = []
    for d in invariants:
        kind, which = re.match(r"tie\.(invariant|decreases|InvT|MeasureT)-(\S+)", d.type).groups()
        kind = {"InvT": "invariant", "MeasureT": "decreases"}.get(kind, kind)
        i = next(n for n, one in enumerate(loops) if norm(one[0][0]) == norm(which))
        (_, new), live = loops[i][0], loops[i][1]
        changed = fn.of["changed"][i]
        order = [("l." if not ch else "l.initial.") + v for v, ch in zip(live, changed)]
        order += ["l." + v for v, ch in zip(live, changed) if ch]
        if len(d.clauses) != 1:
            raise Left("an invariant by clauses: " + d.name)
        params, body = lhs(d.clauses[0], d.name)
        if len(params) != len(order):
            raise Left(f"the invariant {d.name} takes {len(params)}, the loop has {len(order)}: {params} {order}")
        sub = dict(zip(params, order))
        bound = set(re.findall(rf"let ({NAME}) ", body)) | {w for lam in re.findall(r"λ ([^.]*)\.", body) for w in re.findall(NAME, lam)} | set(re.findall(rf"\(({NAME}) : [^()]*\) →", body))
        for one in bound & set(params):
            # a variable that the body binds anew, and that is a parameter elsewhere in it, gets another letter
            if re.search(rf"λ [^.]*\b{re.escape(one)}\b|\({re.escape(one)} : ", body):
                fresh = one + "'"
                body = re.sub(rf"(λ [^.]*?)\b{re.escape(one)}\b([^.]*\. ?)([^()]*)", lambda m: m[1] + fresh + m[2] + re.sub(rf"\b{re.escape(one)}\b(?!')", fresh, m[3]), body)
                print(f"look: {d.name}: {one} is bound anew: {body.strip()[:160]}")
        body = re.sub(rf"(?<![^\s(){{}},;\[\]])({NAME})", lambda m: sub.get(m[1], m[1]), body)
        one = Def(f"{kind}-{new}", "abbrev pub", f"goal.{kind}-{new}", d.comments)
        one.unfolding = d.unfolding
        one.clauses = [f"{kind}-{new} l ={body}"]
        out_inv.append(one)
    # lemmas over a place
    inlined = {}
    for name, d in helpers.items():
        m = re.match(r"\((\S+) : tie\.(\S+?)(?: [^()]*)?\) →\s*", d.type)
        if not m or len(d.clauses) != 1:
            raise Left(f"a lemma over a place that is not read: {name} : {d.type[:150]} / {len(d.clauses)}")
        var, place = m[1], m[2].rstrip(")")
        for loose in [norm, *LOOSER]:
            fit = [p[0] for p in fn.places if loose(p[0]) == loose(place)]
            if len(fit) == 1:
                break
        else:
            raise Left(f"no place {place}")
        place = fit[0]
        params, body = lhs(d.clauses[0], name)
        type_, c1 = flatten(d.type[m.end():], place, var, fn, list(inlined))
        body, c2 = flatten(body, place, params[0], fn, list(inlined))
        if len(params) > 1:
            body = f" λ {' '.join(params[1:])}.{body}"
        inlined[name] = (type_.strip(), body.strip(), c1 + c2, d)
    answers, dropped = [], []
    renamed = {d.name for d in goals}
    for d in goals:
        which = re.match(r"tie\.Need-(\S+)", d.type)[1]
        i = fn.need(which)
        if i is None:
            if not fn.settled(which):
                dropped.append(which)
            continue
        new = fn.needs[i][1]
        if len(d.clauses) != 1:
            raise Left("an answer by clauses: " + d.name)
        params, body = lhs(d.clauses[0], d.name)
        if not params:
            raise Left("an answer with no argument: " + d.name)
        if re.fullmatch(r"\(?search rules\)?", body.strip()):
            continue
        body, called = flatten(body, fn.at[i][0], params[0], fn, list(inlined))
        if len(params) > 1 and re.search(rf"(?<![\w]){re.escape(params[1])}(?![\w])", body):
            body = re.sub(rf"(?<![\w]){re.escape(params[1])}(?![\w])", "c.lifetimes", body)
        every = []
        def add(name):
            for it in inlined[name][2]:
                add(it)
            if name not in every:
                every.append(name)
        for it in called:
            add(it)
        lets, unfold = "", list(d.unfolding)
        for it in every:
            type_, what, _, of = inlined[it]
            lets += f"\n    let {it} : {type_} = {what} in"
            unfold += [u for u in of.unfolding if u not in unfold]
        one = Def(new, "pub", f"goal.{new}", d.comments)
        if len(unfold) > 1:
            unfold = ["unfolding " + " ".join(dict.fromkeys(w for u in unfold for w in u.split()[1:]))]
        one.unfolding = unfold
        if lets and not body.startswith("\n"):
            body = "\n    " + body.strip()
        one.clauses = [f"{new} c ={lets}{body}"]
        for other in renamed - {new}:
            if re.search(rf"(?<![^\s(){{}},;]){re.escape(other)} c\b", body):
                raise Left(f"{d.name} cites {other}")
        answers.append(one)
    mine = {d.name for d in lemmas}
    def needs_of(text):
        words, out = tokens(text), []
        for d in lemmas:
            if d.name in words:
                out.append(d.name)
        return out
    def closure(start):
        seen, todo = [], list(start)
        while todo:
            x = todo.pop()
            if x not in seen:
                seen.append(x)
                d = names[x]
                todo += [y for y in needs_of("\n".join([d.type, *d.clauses])) if y != x]
        return [d.name for d in lemmas if d.name in seen]
    inv_text = "\n\n".join(d.text() for d in out_inv)
    in_inv = closure(needs_of(inv_text))
    ans_text = "\n\n".join(d.text() for d in answers)
    in_ans = [n for n in closure(needs_of(ans_text)) if n not in in_inv]
    from_inv = [n for n in in_inv if n in tokens(ans_text + "\n".join(names[n].text() for n in in_ans))]
    uses = [u for u in uses if not re.search(r"\.(Statement|Tie)\b", u)]
    base = f"Rattle.{module}"
    result = {}
    if out_inv:
        body = "\n\n".join([names[n].text(pub=True) for n in in_inv] + [d.text() for d in out_inv])
        result["Invariants.antt"] = "\n".join([*head, *used(uses, body), f"use {base}.Given as goal"]) + "\n\n" + body + "\n"
    if answers:
        body = "\n\n".join([names[n].text() for n in in_ans] + [d.text() for d in answers])
        more = [f"use {base}.Invariants.{{{', '.join(from_inv)}}}"] if from_inv else []
        h = [] if out_inv else head
        result["Answers.antt"] = "\n".join([*h, *used(uses, body), *more, f"use {base}.Goals as goal"]) + "\n\n" + body + "\n"
    return result, dropped


def main():
    names, crate, only = sys.argv[1], sys.argv[2].rstrip("/"), sys.argv[3:]
    table = json.load(open(names, encoding="utf-8"))
    name = os.path.basename(crate)
    done = left = 0
    for folder, dirs, files in os.walk(os.path.join(crate, "proofs")):
        if "Proof.antt" not in files:
            continue
        path = os.path.relpath(folder, os.path.join(crate, "proofs")).replace(os.sep, ".")
        if only and path not in only:
            continue
        key = f"Rattle-{name}-proofs.{path}.Lts"
        file = os.path.join(folder, "Proof.antt")
        with open(file, encoding="utf-8") as f:
            text = f.read()
        try:
            if key not in table:
                raise Left("names.json does not have it")
            result, dropped = convert(text, Function(table[key]), f"{name}.proofs.{path}")
        except Left as e:
            print(f"left: {file}: {e}")
            left += 1
            continue
        except Exception as e:
            print(f"left: {file}: {type(e).__name__} {e}")
            left += 1
            continue
        if dropped:
            print(f"gone: {file}: {', '.join(dropped)}")
        for it, what in result.items():
            with open(os.path.join(folder, it), "w", encoding="utf-8") as f:
                f.write(what)
        os.remove(file)
        if not os.listdir(folder):
            os.removedirs(folder)
        done += 1
    print(f"{name}: {done} turned, {left} left")


main()

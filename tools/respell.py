#!/usr/bin/env python3
"""Brings this repository's own definitions and lemmas to snake case: run once, at the top, on what port.py made of the older spelling.

`walkOf` and `walk-of` become `walk_of`, a type `Whole-at` becomes `WholeAt`. A lemma whose name would then be that of a definition, of a
function of src/ or of the library gets `_lem`. Functions, fields and variables of src/ keep their names, as do the files of proofs that
walk the code (Proof.antt), but for the names of definitions and lemmas that they cite. README.md and docs/ name them alike, in backticks.
It prints each comment in which it changed a name with a dash that stands without backticks, and the names that got `_lem`.
"""

import glob
import os
import re
import sys

# An identifier of a definition, a lemma or a field: what stands before ` : ` where it is declared.
DECLARED = re.compile(r"^(\s*)(?:abbrev |unfoldable |private |pub |record |data )*([^\s:(){}\[\],;.=λ→≡]+)((?: [^\s:(){}]+)*) : (.*)$")
# What a line names for itself: `let a-b = ..`, `use .. as a-b`.
NAMED_HERE = re.compile(r"(?:\blet |^use \S+ as )([a-z][\w'-]*)")
TOKEN = re.compile(r"[^\s(){}\[\],;.:\"`λ|×≡→+*/%<≤∷=∙⊎]+")
SHAPE = re.compile(r"^[a-z][\w₀-₉'-]*$")
# A lemma that would have the name of a definition, of a function or of the library, in the files that declare or cite it.
NAMED_ALIKE = {
    "header-number": None,
    "head-length": None,
    "decoded-number": None,
    "pending-at": None,
    "records-fit": None,
    "report-numbers": None,
    "payload-length": None,
    "bit-xor": None,
    "whole-at": None,
    "same-values": None,
    "record-length": None,
    "leaves_of": "crates/capi/proofs/",
    "row_is": "crates/",
    "header_refused": "crates/feed/proofs/Demand3.antt",
    "no_room": "crates/bits/proofs/Examples.antt",
}


def snake(name):
    return re.sub(r"(?<=[a-z0-9])([A-Z])", lambda m: "_" + m.group(1).lower(), name.replace("-", "_"))


def read(path):
    with open(path, encoding="utf-8") as f:
        return f.read()


def write(path, text):
    with open(path, "w", encoding="utf-8") as f:
        f.write(text)


def antt():
    return sorted(p for p in glob.glob("crates/*/specs/**/*.antt", recursive=True) + glob.glob("crates/*/proofs/**/*.antt", recursive=True))


def answers(path):
    """The names that a Proof.antt declares for what the code owes: they are no lemmas."""
    if os.path.basename(path) != "Proof.antt":
        return set()
    found = set()
    for line in read(path).split("\n"):
        m = DECLARED.match(line)
        if m and (m.group(4).startswith("tie.") or "statement" in m.group(4)):
            found.add(m.group(2))
    return found


def declared():
    names = set()
    for path in antt():
        mine = answers(path)
        for line in read(path).split("\n"):
            if line.lstrip().startswith("--"):
                continue
            m = DECLARED.match(line)
            if m:
                names |= {w for w in [m.group(2)] + m.group(3).split() if w not in mine}
            names |= set(NAMED_HERE.findall(line)) - mine
    return names


def new_names(names):
    table = {n: snake(n) for n in names if SHAPE.match(n) and snake(n) != n}
    for n, where in NAMED_ALIKE.items():
        if n not in names:
            sys.exit(f"respell: {n} is not declared")
        if where is None:
            table[n] = snake(n) + "_lem"
    table["Whole-at"] = "WholeAt"
    freed = {n for n, where in NAMED_ALIKE.items() if where}
    seen = {}
    for old, new in table.items():
        if new in seen or new in names - freed:
            sys.exit(f"respell: {old} and {seen.get(new, new)} would be one name")
        seen[new] = old
    return table


def respell(text, table, keep, lone):
    """Each token that table names, but for those in keep, and for a step of a walk: what follows a dot in a Proof.antt."""
    out, last = [], 0
    for m in TOKEN.finditer(text):
        t = m.group(0)
        if t not in table or t in keep:
            continue
        if lone and m.start() and text[m.start() - 1] == ".":
            continue
        out += [text[last : m.start()], table[t]]
        last = m.end()
    return "".join(out) + text[last:]


def comment_notes(path, before, after, table):
    for old, new in zip(before.split("\n"), after.split("\n")):
        if old == new or ("--" not in old and "//" not in old):
            continue
        said = re.split(r"(?:^|\s)(?:--|//)", old, 1)[-1]
        bare = re.sub(r"`[^`]*`", "", said)
        hit = [t for t in TOKEN.findall(bare) if t in table and "-" in t]
        if hit:
            print(f"comment: {path}: {', '.join(hit)}: {said.strip()}")


def main():
    names = declared()
    table = new_names(names)
    for n, where in NAMED_ALIKE.items():
        print(f"alike: {n} is now {snake(n)}_lem" + (f" below {where}" if where else ""))
    for path in antt() + sorted(glob.glob("crates/*/src/**/*.rt", recursive=True)):
        text = read(path)
        here = dict(table)
        here |= {n: n + "_lem" for n, where in NAMED_ALIKE.items() if where and path.startswith(where) and path.endswith(".antt")}
        walk = os.path.basename(path) == "Proof.antt"
        new = respell(text, here, answers(path), walk)
        comment_notes(path, text, new, here)
        if new != text:
            write(path, new)
    # what port.py renamed before has its older name still in edits and pages
    known = set(table.values()) | {n for n in names if SHAPE.match(n)}

    def page_name(m):
        t = m.group(0)
        if t in table:
            return table[t]
        return snake(t) if SHAPE.match(t) and snake(t) != t and snake(t) in known else t

    for path in sorted(glob.glob("crates/*/must-fail/*.edit")):
        text = read(path)
        if "file: src/" in text:
            continue
        write(path, TOKEN.sub(page_name, text))
    for path in ["README.md"] + sorted(glob.glob("docs/*.md") + glob.glob("b*/**/README.md", recursive=True)):
        text = read(path)
        new = re.sub(r"`[^`\n]*`", lambda m: TOKEN.sub(page_name, m.group(0)), text)
        if new != text:
            write(path, new)


main()

#!/usr/bin/env python3
"""design_count.py [COMMIT] [-v]: the places in crates/*/src that docs/DESIGN-PASS.md counts, point by point, at a commit or in
the checkout. Each search goes by the text, so what it finds is a place to look at; with -v each is shown."""
import collections
import re
import subprocess
import sys

args = [a for a in sys.argv[1:] if a != "-v"]
shown = "-v" in sys.argv[1:]
commit = args[0] if args else None


def git(*words):
    return subprocess.run(["git", *words], check=True, capture_output=True, text=True).stdout


def names(pattern):
    listed = git("ls-tree", "-r", "--name-only", commit) if commit else git("ls-files")
    return [n for n in listed.splitlines() if re.fullmatch(pattern, n)]


def text_of(name):
    if commit:
        return git("show", commit + ":" + name)
    with open(name, encoding="utf-8") as file:
        return file.read()


sources = {n: text_of(n) for n in names(r"crates/\w+/src/\w+\.rt")}
lines = [(n, i, line) for n, text in sources.items() for i, line in enumerate(text.splitlines(), 1)]
# A function: its file, line, name, parameters, clauses and body.
FUNCTION = re.compile(r"^( *)(?:pub(?:\(crate\))? )?(?:extern \"C\" )?fn (\w+)(?:<[^(]*>)?\((.*?)\)(?: -> [^{]*?)?\n?(.*?)^\1\{\n(.*?)^\1\}", re.M | re.S)
functions = []
for n, text in sources.items():
    for m in FUNCTION.finditer(text):
        functions.append((n, text.count("\n", 0, m.start()) + 1, m.group(2), m.group(3), m.group(4), m.group(5)))


def tell(what, found):
    print(f"{len(found):5}  {what}")
    if shown:
        for one in found:
            print("           ", *one)


def grep(pattern, code=True):
    found = []
    for n, i, line in lines:
        part = line.split("//", 1)[0] if code else line
        if re.search(pattern, part) and "ghost use" not in line:
            found.append((f"{n}:{i}", line.strip()))
    return found


def groups(keyed, least):
    by = collections.defaultdict(list)
    for key, where in keyed:
        by[key].append(where)
    return [(key, "; ".join(at)) for key, at in by.items() if len(at) >= least]


print("1 own enums, sentinels, numbers for kinds and refusals")
tell("enums of the repository's own", grep(r"^ *(pub(\(crate\))? )?enum \w+"))
tell("fields, parameters and constants that hold a kind's or a refusal's number", grep(r"\b(number|refusal|rate|preference|code|kind): u(8|size)\b"))
tell("functions that answer such a number", grep(r"fn (\w*number|refusal|\w*_refusal|judge\w*|\w*kind\w*|rate|tag)\(.*-> u(8|size)\b"))
tell("lines of code with a number that stands for no answer", grep(r"\b(MALFORMED|CHANGED)\b|Unreadable"))
tell("comments that give a number the meaning of none", grep(r"//.*(\bor 0\b|\b0 where\b|\b0 for n|\b0 shows\b|16 where)", code=False))

print("2 twins")
WORD = re.compile(r"[A-Za-z_]\w*|0x[0-9a-fA-F_]+|\d+")
KEPT = {"if", "else", "return", "while", "loop", "match", "let", "mut", "as", "for", "in", "break", "continue"}


def shape(body):
    body = re.sub(r"//.*", "", body)
    return re.sub(r"\s+", " ", WORD.sub(lambda m: m.group() if m.group() in KEPT else "w", body)).strip()


alike = groups([(shape(b), f"{n}:{i} {f}") for n, i, f, p, c, b in functions if len(shape(b)) > 40], 2)
tell("groups of functions whose bodies are alike but for names and numbers", [(w,) for _, w in alike])
family = groups([(re.sub(r"\d+$|(_up|_down|_vendor|_model|_two|_three|_four)(?=_|$)", "#", f), f"{n} {f}") for n, i, f, p, c, b in functions
                 if re.search(r"\d+$|(_up|_down|_vendor|_model|_two|_three|_four)(?=_|$)", f)], 2)
tell("families of functions told apart by a number or by such a word in their names", [(w,) for _, w in family])
tell("functions that stand in two crates under one name", [(k, w) for k, w in groups([(f, n) for n, i, f, p, c, b in functions if not n.startswith("crates/capi")], 2)
     if len({x.split("/")[1] for x in w.split("; ")}) > 1])

print("3 loops that count by hand")
tell("while and loop", grep(r"^ *(while|loop)\b"))
tell("lines that count a number on or down", grep(r"^ *\w+ [-+]= (1|2|3);|^ *\w+ -= \d+;"))

print("4 equality, order, copying, conversion and printing by hand")
tell("calls of a comparison that is no ==", grep(r"\bsame\("))
tell("functions that compare, bound, convert or print by hand", grep(r"fn (same\w*|smaller|less_one|behind|as_\w+|wide|digit|put_(decimal|hex|byte|bytes|text|count|sum|all|four|eight|numbers|header|sums)\w*|le\d+|first_zero|find|find_\w+|is_untouched|without_tail|with_digit|large_number|number)\b"))

print("5 facts that stand in three or more contracts, parameters that travel together")
facts = []
for n, i, f, p, c, b in functions:
    for clause in re.findall(r"(?:requires|ensures)\w* ?\w* \{(.*)\}", c):
        for fact in clause.split(" × "):
            facts.append((n.split("/")[1] + ": " + re.sub(r"\.(old|new|now|entry)\b", "", fact.strip().strip("()")), f))
tell("facts", groups([(k, f) for k, f in dict.fromkeys(facts) if re.search(r"length|≤|<", k)], 3))
together = []
for n, i, f, p, c, b in functions:
    ps = sorted(set(re.findall(r"(\w+): ", p)) - {"out"})
    for a in range(len(ps)):
        for d in range(a + 1, len(ps)):
            for e in range(d + 1, len(ps)):
                together.append((n.split("/")[1] + ": " + ", ".join((ps[a], ps[d], ps[e])), f))
tell("three parameters of one name in three or more functions of a crate", groups(dict.fromkeys(together), 3))

print("6 buffers with a length beside, parallel arrays, lists searched by hand")
tell("arrays of a fixed size that are made", grep(r"= \[[^\];]+; \w+\]"))
tell("functions that take a buffer and the place in it", grep(r"out: &mut \[u8\], (at|end): usize"))

print("7 switches on which step to run")
tell("tests of a word that choose what is done", grep(r"^ *(if|return) same\(|^ *same\("))
tell("parameters that choose what is done", grep(r"\w+: bool[,)]"))

print("8 proofs")
proofs = names(r"crates/\w+/proofs/.*\.antt")
tell("files of answers and of invariants", [(n,) for n in proofs if re.search(r"/(Answers|Invariants|Proof)\.antt$", n)])
tell("lines in them", [0] * sum(text_of(n).count("\n") for n in proofs if re.search(r"/(Answers|Invariants|Proof)\.antt$", n)) if not shown else [])
tell("lines in files of laws", [0] * sum(text_of(n).count("\n") for n in proofs if not re.search(r"/(Answers|Invariants|Proof)\.antt$", n)) if not shown else [])

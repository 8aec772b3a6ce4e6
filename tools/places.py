#!/usr/bin/env python3
"""Lists the places of code that may be written in an older form than the language allows, by kind.

usage: python3 tools/places.py [COMMIT] [-v]     counts over the tree, or over a commit; with -v each place

What it finds are candidates: docs/DESIGN-PASS.md says what became of each. Comments, ghost lines and clauses are not read,
but for the points that speak of clauses.
"""
import collections
import itertools
import re
import subprocess
import sys

ARGS = [a for a in sys.argv[1:] if not a.startswith("-")]
COMMIT = ARGS[0] if ARGS else None


def git(*words):
    return subprocess.run(["git", *words], capture_output=True, text=True, check=True).stdout


def files(suffix):
    if COMMIT:
        names = git("ls-tree", "-r", "--name-only", COMMIT).split("\n")
    else:
        names = git("ls-files").split("\n")
    return [n for n in names if n.endswith(suffix)]


def text(name):
    return git("show", f"{COMMIT}:{name}") if COMMIT else open(name).read()


found = collections.defaultdict(list)


def add(kind, where, what):
    found[kind].append(f"{where}: {what.strip()}")


CLAUSE = re.compile(r"^\s*(?:requires|ensures)\*?\s*(\w*)\s*\{(.*)\}\s*$")
CODE_SKIP = re.compile(r"^\s*(//|ghost |requires|ensures|#\[)")

LINES = [
    ("1a flag beside a value in a struct", r"^\s*(?:pub(?:\(\w+\))? )?\w+: bool,$"),
    ("1b flag as a parameter", r"\b\w+: bool[,)]"),
    ("1c number that stands for 'none'", r"\bNONE\b|(?:usize|u64)::MAX"),
    ("1d number for a kind or a refusal", r"::\w+(?:\([^)]*\))* => (?:\d+|b'.'),"),
    ("3a while loop", r"\bwhile (?!let\b)"),
    ("3b loop over a range of numbers", r"\bfor \w+ in [^{]*\.\."),
    ("3c index counted by hand", r"\b\w+ [+-]= 1;"),
    ("4a match that Option's or Result's methods do", r"\bNone => (?:None|false|Err\()|Some\((\w+)\) => Some\("),
    ("4b equality by hand", r"\ba\.(\w+) == b\.\1"),
    ("4c widening by `as`", r"\bas (?:u32|u64|usize)\b"),
    ("4d narrowing by `as`", r"\bas (?:u8|u16)\b"),
    ("4e test written as if .. else false", r"\} else \{ ?(?:false|true) ?\}|^\s*(?:false|true)$"),
    ("6a array in a struct", r"^\s*(?:pub )?\w+: \[\w+; \d+\],"),
    ("6b table flattened by hand", r"\[\w+ \* \d+ \+ \w+\]"),
    ("6c element by its index", r"\b\w+(?:\.\w+)*\[\w+(?:\.\w+)*\]"),
    ("7 function pointers and dyn", r"\bfn\(|\bdyn\b"),
]

functions = {}
params = {}
clauses = collections.defaultdict(list)

for name in files(".rt"):
    lines = text(name).split("\n")
    for number, line in enumerate(lines, 1):
        m = CLAUSE.match(line)
        if m:
            clauses[re.sub(r"\b(self|walk|draft|nodes|tree)\b", "_", m.group(2).strip())].append(f"{name}:{number}")
        if CODE_SKIP.match(line) or (line.startswith("    requires") or line.startswith("    ensures")):
            continue
        for kind, pattern in LINES:
            if re.search(pattern, line):
                add(kind, f"{name}:{number}", line)
    whole = "\n".join(l for l in lines if not re.match(r"^\s*(//|ghost |#\[)", l))
    for m in re.finditer(r"(?:pub(?:\(\w+\))? )?fn (\w+)(<[^{;]*?>)?\(([^)]*)\)", whole):
        rest = whole[m.end():]
        body = re.search(r"\n\s*\{\n", rest) or re.search(r"\{\n", rest)
        stop = re.search(r"\n\s*(?:pub(?:\(\w+\))? )?fn ", rest)
        if not body or (stop and stop.start() < body.start()):
            continue
        depth, end = 1, body.end()
        while depth and end < len(rest):
            depth += {"{": 1, "}": -1}.get(rest[end], 0)
            end += 1
        code = rest[body.end():end - 1]
        tokens = re.findall(r"[A-Za-z_]\w*|\d+|b?'.'|\S", code)
        shape = tuple("x" if re.match(r"[A-Z_a-z]", t) and t not in ("if", "else", "match", "for", "while", "let", "mut", "return", "Some", "None", "Ok", "Err", "in") else "0" if re.match(r"\d|b?'", t) else t for t in tokens)
        functions[f"{name} fn {m.group(1)}"] = shape
        group = tuple(sorted(p.split(":")[0].strip().replace("mut ", "") for p in m.group(3).split(",") if ":" in p))
        params[f"{name} fn {m.group(1)}"] = group

shapes = collections.defaultdict(list)
for where, shape in functions.items():
    if len(shape) >= 12:
        shapes[shape].append(where)
for group in shapes.values():
    if len(group) > 1:
        add("2a functions of one shape", group[0], " = ".join(g for g in group[1:]))
for where, shape in functions.items():
    if len(shape) <= 8 and shape[1:2] == ("(",) and shape[-1] == ")" and "{" not in shape:
        add("2b function that only calls another", where, " ".join(shape))

together = collections.Counter()
for group in params.values():
    for size in (2, 3, 4, 5):
        for some in itertools.combinations(group, size):
            together[some] += 1
kept = [(s, n) for s, n in together.items() if n >= 3]
for some, n in sorted(kept):
    if not any(set(some) < set(other) and m == n for other, m in kept):
        add("5b parameters that travel together", ", ".join(some), f"{n} functions")
for clause, places in clauses.items():
    if len(places) >= 3:
        add("5a clause in three contracts or more", places[0], f"{len(places)} times: {clause}")

for name in files("Answers.antt"):
    said = text(name)
    answers = re.findall(r"^(\S+) (?:g )?(?:t )?c =", said, re.M)
    add("8a answers", name, f"{len(answers)}")
    for line in re.findall(r"^\S+ (?:g )?(?:t )?c = search rules$", said, re.M):
        add("8b answer that says no more than search rules", name, line)
lemmas = collections.defaultdict(list)
for name in files(".antt"):
    for lemma in re.findall(r"^(?:pub )?([a-z]\w*(?:-\w+)*) : ", text(name), re.M):
        if not lemma.startswith(("returns", "invariant", "decreases", "loop", "overflow", "bounds")):
            lemmas[lemma].append(name)
for lemma, places in lemmas.items():
    if len(places) > 1 and "go" != lemma:
        add("8c lemma of one name in two files", lemma, ", ".join(places))

for kind in sorted(found):
    print(f"{len(found[kind]):5}  {kind}")
    if "-v" in sys.argv:
        for place in found[kind]:
            print(f"         {place[:200]}")

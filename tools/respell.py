#!/usr/bin/env python3
"""Respells this repository's own definitions and lemmas: words in snake case, types and facts in camel case.

usage: python3 tools/respell.py     at the top of the repository, once, after the toolchain's own script

It takes the names that specs/ and the lemma files of proofs/ declare and that have a dash, and writes them anew in every .rt
and .antt file. Names of the library, names that the prover makes (goals and steps), names bound inside a proof and functions
of src/ stay. A name may be that of a function that it speaks of. It prints what falls together otherwise, and then changes
nothing.
"""
import collections
import glob
import re

TOKEN = re.compile(r"[^\s(){}\[\],;:.«»=λ→×⊎⟦⟧\"`]+")
DECLARED = re.compile(r"^\s*(?:abbrev |unfoldable |pub )*(?:data |record )?([^\s(){}\[\],;:.]*[A-Za-z][^\s(){}\[\],;:.]*)\s*(?:\{[^}]*\}\s*|\([^)]*\)\s*)*:(?!:)")
# bound in a parameter, a pattern or an import
MORE = ["Reads-exactly", "a-kind", "a-line", "charge-of", "in-d", "of-g", "p-in", "p-some", "q-in", "q-some", "s-at", "t-at", "has-line"]
# a value whose name begins with a capital variable
VALUES = {"R-ordered": "r_ordered", "R-stored": "r_stored", "R-sum": "r_sum", "S-stored": "s_stored", "Goes_on": "GoesOn"}

# a module's name in a path, beside which a lemma of that name stands
PATHS = {"set_order"}


def files():
    lemmas = sorted(glob.glob("crates/*/specs/*.antt") + glob.glob("crates/*/proofs/*.antt"))
    answers = sorted(glob.glob("crates/*/proofs/*/**/*.antt", recursive=True))
    sources = sorted(glob.glob("crates/*/src/**/*.rt", recursive=True))
    return lemmas, answers, sources


def read(path):
    with open(path, encoding="utf-8") as f:
        return f.read()


def from_library(text):
    found = set()
    for m in re.finditer(r"use Rattle\.std\.[^{;\n]*\{([^}]*)\}", text):
        found |= {x.strip().split(" as ")[0] for x in m.group(1).split(",")}
    return found


def respelled(name):
    if name in VALUES:
        return VALUES[name]
    if name[0].isupper():
        return "".join(w[0].upper() + w[1:] for w in name.split("-"))
    return name.replace("-", "_")


def declared(lemmas):
    names = set(MORE) | set(VALUES)
    for path in lemmas:
        for line in read(path).split("\n"):
            m = DECLARED.match(line)
            if m and "-" in m.group(1):
                names.add(m.group(1))
    return {n for n in names if "-" in n or n in VALUES}


def main():
    lemmas, answers, sources = files()
    texts = {p: read(p) for p in lemmas + answers + sources}
    library = set().union(*(from_library(t) for t in texts.values()))
    names = declared(lemmas) - library
    new = {n: respelled(n) for n in names}
    tokens = collections.defaultdict(set)
    for path, text in texts.items():
        for t in TOKEN.findall(text):
            tokens[t].add(path)
    functions = set().union(*(re.findall(r"\bfn (\w+)", texts[p]) for p in sources))
    together = [n for n in sorted(names) if new[n] not in functions | PATHS and tokens[new[n]] & tokens[n]]
    twice = [k for k, c in collections.Counter(new.values()).items() if c > 1]
    for n in together:
        print(f"falls together: {n} and {new[n]} in {sorted(tokens[new[n]] & tokens[n])[:3]}")
    for k in twice:
        print(f"falls together: {[n for n in names if new[n] == k]}")
    if together or twice:
        raise SystemExit(1)
    for path, text in texts.items():
        out = TOKEN.sub(lambda m: new.get(m.group(0), m.group(0)), text)
        if out != text:
            with open(path, "w", encoding="utf-8") as f:
                f.write(out)
    print(f"{len(new)} names respelled")


main()

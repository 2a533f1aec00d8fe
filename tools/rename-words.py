#!/usr/bin/env python3
"""Brings the repository's own definitions and lemmas to the spelling of today's Rattle: words in snake case. A lemma that would have
the name of the definition that it speaks of ends in `_lem`. Run once, at the top, right after port.py.

Functions of src/, types, modules, exported names, strings, inputs and outputs keep their names.
"""
import collections
import os
import re
import sys

TOKEN = re.compile(r"[^\s(){}\[\].,;:λ←→×⊎¬«»|\"`']+")
DEFINED = re.compile(r"\s*(?:abbrev |unfoldable )?(?:pub )?(?:abbrev |unfoldable )?([^\s:(){}.,;λ]+) :(\s|$)")
# Where two names would fall together, the lemma gets `_lem`.
APART = {"step_count": "step_count_lem", "task_stays": "task_stays_lem", "top_kept": "top_kept_lem"}
# A middle dot is no namespace any more.
DOTTED = re.compile(r"\b(\w+) as [A-Z]\w*·\1\b")


def files(endings):
    for folder, dirs, names in os.walk("crates"):
        dirs[:] = sorted(d for d in dirs if d != "out")
        for name in sorted(names):
            if name.endswith(endings):
                yield os.path.join(folder, name)


def read(path):
    with open(path, encoding="utf-8") as f:
        return f.read()


def snake(name):
    return re.sub(r"(?<=[a-z0-9])([A-Z]+)", lambda m: "_" + m.group(1).lower(), name)


def defined():
    found = collections.defaultdict(set)
    for path in files(".antt"):
        if re.search(r"/proofs/.*/(Proof|Answers|Invariants)\.antt$", path):
            continue
        for line in read(path).splitlines():
            m = DEFINED.match(line)
            if m:
                found[m.group(1)].add(path)
        for m in re.finditer(r" as ([a-z]\w*-[\w-]*)", read(path)):
            found[m.group(1)].add(path)
    return found


def mapping():
    own = defined()
    taken = {snake(n) for n in own if "-" not in n}
    new = {}
    for n in own:
        if n in APART:
            new[n] = APART[n]
        elif "-" in n and re.match(r"[\w-]+$", n):
            to = snake(n.replace("-", "_")).lower()
            new[n] = to + "_lem" if to in taken else to
        elif re.match(r"[a-z]", n) and re.search(r"[A-Z]", n):
            new[n] = snake(n)
    return own, {a: b for a, b in new.items() if a != b}


def clashes(own, new):
    to = collections.defaultdict(set)
    for n in own:
        to[new.get(n, n)].add(n)
    return {b: sorted(a) for b, a in to.items() if len(a) > 1}


def turned(text, new):
    def word(m):
        t = m.group(0)
        return new.get(t, t)

    return TOKEN.sub(word, text)


def main():
    own, new = mapping()
    both = clashes(own, new)
    for b, a in sorted(both.items()):
        print("falls together:", b, a, [sorted(own[x]) for x in a])
    if "--list" in sys.argv:
        for a, b in sorted(new.items()):
            print(a, b)
        return
    plain = {a: b for a, b in new.items() if "-" not in a}
    for path in files((".antt",)):
        text = read(path)
        out = turned(text, new)
        if out != text:
            with open(path, "w", encoding="utf-8") as f:
                f.write(out)
    for path in files((".rt", ".edit")):
        text = read(path)
        parts = re.split(r'("(?:[^"\\\n]|\\.)*")', text)
        out = "".join(p if i % 2 else turned(p, plain) for i, p in enumerate(parts))
        for m in list(DOTTED.finditer(out)):
            out = out.replace(m.group(0), m.group(1))
        out = re.sub(r"\b[A-Z]\w*·(\w+)", r"\1", out)
        if out != text:
            with open(path, "w", encoding="utf-8") as f:
                f.write(out)
    for path in ["README.md", "crates.txt"] + [os.path.join(d, n) for d, _, ns in os.walk("docs") for n in ns if n.endswith(".md")]:
        text = read(path)
        out = turned(text, plain)
        if out != text:
            with open(path, "w", encoding="utf-8") as f:
                f.write(out)


main()

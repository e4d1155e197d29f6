#!/usr/bin/env python3
"""Brings the repository's own definitions, lemmas and local names to one spelling.

usage: python3 tools/respell.py            at the top, once, after the toolchain's own script

A word is in snake case, a type, a fact or a module in upper camel case. Only names that files of specs/ and
proofs/ declare are turned, and names that a `let`, a λ or a pattern binds there; a goal's name, a name from a
source and a name of the library stay. Texts between quotes stay.
"""
import glob
import os
import re
import sys

TOKEN = re.compile(r"[^\W\d][\w'\u2115\u2124-]*")
DECLARED = re.compile(r"^[ \t]*(?:(?:abbrev|unfoldable|pub|data|record|ruleset)[ \t]+)*([^\W\d][\w'-]*)[ \t]*:(?!:)", re.M)
TYPED = re.compile(r"^[ \t]*(?:pub[ \t]+)?(?:data|record|ruleset)[ \t]+([^\W\d][\w'-]*)", re.M)
BOUND = re.compile(r"(?:let[ \t]+|λ[ \t]+\(?|[({])([^\W\d][\w'-]*-[\w'-]*)[ \t]*[.:=]")
GOAL = re.compile(r"^[ \t]*(?:(?:abbrev|unfoldable|pub)[ \t]+)*([^\W\d][\w'-]*)[ \t]*:[ \t]*(?:need|goal|given)\.", re.M)
# names that only patterns bind, and one that the toolchain's script garbled
LOCAL = {
    "on-column", "is-own", "size-too", "fits-too", "fits-start", "fits-spare", "node-place", "row-points",
    "column-points", "shape-arc", "same-arc", "not-here", "into-out", "below-four", "counts-sides-back",
    "turns-alike", "four-more-change-nothing", "keeps-the-laws",
}
GARBLED = {"on_Row": "on_row"}
# names that would fall together with a field's
APART = {"far-ends": "far_ends_of", "near-ends": "near_ends_of"}


def spelled(name):
    if name in APART:
        return APART[name]
    if "-" not in name:
        return name
    words = name.split("-")
    if name[0].isupper():
        return "".join(w[0].upper() + w[1:] for w in words)
    return "_".join(words)


def files():
    for kind in ("specs", "proofs"):
        yield from sorted(glob.glob(f"crates/*/{kind}/**/*.antt", recursive=True))


def read(path):
    with open(path, encoding="utf-8") as f:
        return f.read()


def turn(text, names, only_quoted=False):
    def one(m):
        return names.get(m.group(0), m.group(0))

    if only_quoted:
        return re.sub(r"`[^`\n]*`", lambda q: TOKEN.sub(one, q.group(0)), text)
    # texts between quotes stay
    return re.sub(r'("(?:[^"\\\n]|\\.)*")|([^"]+|")', lambda p: p.group(1) or TOKEN.sub(one, p.group(2)), text)


def main():
    names, goals, library = dict(GARBLED), set(), set()
    names.update((name, spelled(name)) for name in LOCAL)
    for path in files():
        text = re.sub(r"--.*", "", read(path))
        goals |= set(GOAL.findall(text))
        for line in re.findall(r"^use (Rattle\.std\.[^\n]*|borrow\.[^\n]*|native\.[^\n]*|lib\.[^\n]*|mathlib\.[^\n]*|denote\.[^\n]*)", text, re.M):
            library |= set(TOKEN.findall(line[line.find("{"):]))
        for name in DECLARED.findall(text) + TYPED.findall(text) + BOUND.findall(text):
            if spelled(name) != name:
                names[name] = spelled(name)
    for name in sorted((goals | library) & set(names)):
        print("stays:", name, "(a goal)" if name in goals else "(of the library)")
        del names[name]
    everything = set()
    for path in list(files()) + glob.glob("crates/*/src/**/*.rt", recursive=True):
        everything |= set(TOKEN.findall(read(path)))
    for old, new in sorted(names.items()):
        if new in everything:
            print("falls together:", old, "and", new)
    if "--look" in sys.argv:
        return
    for path in list(files()) + sorted(glob.glob("crates/*/src/**/*.rt", recursive=True)):
        text = read(path)
        new = turn(text, names)
        if new != text:
            with open(path, "w", encoding="utf-8") as f:
                f.write(new)
    for path in ["README.md"] + sorted(glob.glob("docs/*.md")):
        if os.path.basename(path).startswith("PORT"):
            continue
        text = read(path)
        new = turn(text, names, only_quoted=True)
        if new != text:
            with open(path, "w", encoding="utf-8") as f:
                f.write(new)
    print(len(names), "names")


main()

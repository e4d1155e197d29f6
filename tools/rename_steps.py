#!/usr/bin/env python3
"""Spells the steps and goals in proofs of functions as the source spells them.

usage: python3 tools/rename_steps.py CRATE..

In proofs/F/ a step is named after the source, whose names keep their spelling: most-distinct becomes most_distinct.
"""
import glob
import re
import sys

TOKEN = re.compile(r"[^\W\d][\w'\u2115\u2124-]*")
MADE = ["in-err", "in-ok", "in-default", "overflow-add", "overflow-sub", "overflow-mul", "overflow-cast", "overflow-step",
        "offset-bounds", "slice-bounds", "invariant-of", "nonzero-div", "nonzero-rem", "type-inv"]
STD = ["is_some", "is_none", "is_ok", "is_err", "unwrap_or", "saturating_sub", "saturating_add", "unsigned_abs", "copied", "split_at",
       "is_empty", "as_slice", "as_str", "iter_mut", "split_at_mut", "checked_add", "checked_sub", "copy_from_slice", "push_str"]
KEEP = re.compile(r"Rattle\.[\w.]*|«[^»]*»")


def main():
    for crate in sys.argv[1:]:
        words = set(STD)
        for path in glob.glob(f"crates/{crate}/src/**/*.rt", recursive=True):
            with open(path, encoding="utf-8") as f:
                text = f.read()
            words |= {w for w in re.findall(r"[a-z][a-z0-9]*(?:_[a-z0-9]+)+", text)}
        turn = sorted(((w.replace("_", "-"), w) for w in words), key=lambda p: -len(p[0]))
        turn += [(w, w.replace("-", "_")) for w in MADE]
        imported = set()

        def one(m):
            token = m.group(0)
            if "-" not in token or token in imported:
                return token
            parts = "-" + token + "-"
            for old, new in turn:
                parts = parts.replace("-" + old + "-", "-" + new + "-")
            return parts[1:-1]

        for path in glob.glob(f"crates/{crate}/proofs/**/*.antt", recursive=True):
            if path.count("/") < 4:
                continue
            with open(path, encoding="utf-8") as f:
                text = f.read()
            imported.clear()
            for line in re.findall(r"^use [^\n]*", text, re.M):
                if ".proofs." in line and ".Goals" in line or ".Given" in line:
                    continue
                imported.update(TOKEN.findall(line[line.find("{"):] if "{" in line else ""))
            new = TOKEN.sub(one, text)
            if new != text:
                with open(path, "w", encoding="utf-8") as f:
                    f.write(new)


main()

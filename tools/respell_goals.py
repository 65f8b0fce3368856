#!/usr/bin/env python3
"""Brings the names of goals and steps in proof files to today's spelling: a name from the source keeps its underscores.

usage: python3 tools/respell_goals.py [CRATE..]     at the top of the repository
"""

import glob
import os
import re
import sys

TOKEN = re.compile(r"[^\s(){}\[\].,;«»:=]+")
MADE = [
    (r"\boverflow-(add|sub|mul|shl|shr|cast|step|neg)\b", r"overflow_\1"),
    (r"\btype-inv\b", "type_inv"),
    (r"\bin-err\b", "in_err"),
    (r"\bin-ok\b", "in_ok"),
    (r"\bin-default\b", "in_default"),
    (r"\binvariant-of\b", "invariant_of"),
    (r"\bslice-bounds\b", "slice_bounds"),
    (r"\boffset-bounds\b", "offset_bounds"),
    (r"\bnonzero-(div|rem)\b", r"nonzero_\1"),
]


def read(path):
    with open(path, encoding="utf-8") as f:
        return f.read()


def main():
    for crate in sys.argv[1:] or sorted(os.listdir("crates")):
        words = {"from_residual", "into_iter"}
        for path in glob.glob(f"crates/{crate}/src/**/*.rt", recursive=True):
            words |= set(re.findall(r"\b[A-Za-z]\w*_\w+\b", read(path)))
        dashed = sorted(((w.replace("_", "-"), w) for w in words if "_" in w.strip("_")), key=lambda p: -len(p[0]))
        for path in glob.glob(f"crates/{crate}/proofs/**/*.antt", recursive=True):
            if os.path.basename(path) not in ("Answers.antt", "Invariants.antt"):
                continue
            text = read(path)
            library = set()
            for m in re.finditer(r"use (?!Rattle\.%s\.proofs\.[\w.]*\.(?:Goals|Given|Lts))[\w.']*\.\{([^}]*)\}" % crate, text):
                library |= {w.strip().split(" as ")[-1] for w in m.group(1).split(",")}

            def one(m):
                word = m.group(0)
                if "-" not in word or word in library:
                    return word
                for old, new in MADE:
                    word = re.sub(old, new, word)
                for old, new in dashed:
                    word = re.sub(r"(?<![A-Za-z0-9_])" + re.escape(old) + r"(?![A-Za-z0-9_])", new, word)
                return word

            new = "".join(l if l.lstrip().startswith("--") else TOKEN.sub(one, l) for l in text.splitlines(keepends=True))
            if new != text:
                with open(path, "w", encoding="utf-8") as f:
                    f.write(new)


main()

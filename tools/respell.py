#!/usr/bin/env python3
"""Turns the repository's own definitions and lemmas to the spelling of today's Rattle: words in snake case, a dash only between two names.

usage: python3 tools/respell.py [ROOT]

Run once, right after the kit's own script port.py, at the top of the repository. It turns whole words of the table tools/respell.tsv in .antt files, and in the
clauses, ghost items and comments of .rt files (where no word of the table can be Rust). The proof of a function f is f_spec. A second run changes nothing.
"""
import os
import re
import sys

HERE = os.path.dirname(os.path.realpath(__file__))
WORD = re.compile(r'[^\s(){}.;,@"«»`]+')

# Words that are a function of src/ elsewhere, so they turn in the files that are named alone: a lemma would have its definition's name.
SCOPED = {
    "crates/found/proofs/Versions.antt": {"version_of": "version_of_lem"},
    "crates/duplicates/proofs/Grouping.antt": {"version_of": "version_of_lem"},
    "crates/power/proofs/Calm.antt": {"in_group": "in_group_lem"},
}


def main():
    root = os.path.realpath(sys.argv[1] if len(sys.argv) > 1 else ".")
    with open(os.path.join(HERE, "respell.tsv"), encoding="utf-8") as f:
        table = dict(line.rstrip("\n").split("\t") for line in f if line.strip() and not line.startswith("#"))
    changed = 0
    for folder, dirs, files in os.walk(os.path.join(root, "crates")):
        dirs[:] = sorted(d for d in dirs if d != "out")
        for name in sorted(files):
            if not name.endswith((".antt", ".rt")):
                continue
            path = os.path.join(folder, name)
            with open(path, encoding="utf-8") as f:
                text = f.read()
            scoped = SCOPED.get(os.path.relpath(path, root), {})
            # a scoped word first, so that no word turns twice
            new = WORD.sub(lambda m: scoped.get(m[0]) or table.get(m[0], m[0]), text)
            if name == "Proof.antt":
                function = os.path.basename(folder)
                for spelt in {function.replace("_", "-"), function}:
                    new = re.sub(r"(?<![\w-])" + re.escape(spelt) + r"-spec(?![\w-])", function + "_spec", new)
            if new != text:
                with open(path, "w", encoding="utf-8") as f:
                    f.write(new)
                changed += 1
    print(f"respell: {changed} files changed")


main()

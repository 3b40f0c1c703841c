#!/usr/bin/env python3
"""Respells the repository's own definitions and lemmas: words in snake case, types in camel case.

    python3 tools/respell.py        once, at the top of the repository, after the kit's own scripts

tools/respell.tsv has a line for each name: the old spelling, a tab, the new one. tools/respelt-before.tsv has those
that the kit's scripts turned by themselves; these are turned in must-fail edits and in documents alone, since the
kit's scripts leave those as they are. Functions, types, fields and variants of src/ keep their names.
"""
import os
import re
import sys

# Lemmas that would fall together with the definition that they speak of: the folder, the name, the new name.
APART = [
    ("crates/tickets/proofs", "lacks", "Lacks"),
    ("crates/tickets/proofs", "made_up", "made_up_lem"),
    ("crates/tickets/proofs", "new_line", "new_line_lem"),
    ("crates/judge/proofs", "new_line", "new_line_lem"),
    ("crates/rows/proofs", "two_bytes", "two_bytes_lem"),
    ("crates/commands/proofs", "piece_then", "piece_then_lem"),
    ("crates/commands/proofs", "side_then", "side_then_lem"),
    ("crates/account_laws/proofs", "all_in", "all_in_lem"),
]
PART = r"[\w'\-\u2080-\u2089]"
WORD = re.compile(PART + "+")


def names(path):
    with open(path, encoding="utf-8") as f:
        return dict(line.rstrip("\n").split("\t") for line in f)


def files(root, endings):
    for folder, dirs, found in os.walk(root):
        dirs[:] = sorted(d for d in dirs if d != "out")
        for name in sorted(found):
            if name.endswith(endings):
                yield os.path.join(folder, name)


def turn(path, table):
    with open(path, encoding="utf-8") as f:
        old = f.read()
    new = WORD.sub(lambda m: table.get(m.group(0), m.group(0)), old)
    if new != old:
        with open(path, "w", encoding="utf-8") as f:
            f.write(new)
    return new != old


def main():
    here = os.path.dirname(os.path.realpath(__file__))
    table = names(os.path.join(here, "respell.tsv"))
    all_names = {**names(os.path.join(here, "respelt-before.tsv")), **table}
    turned = 0
    for folder, old, new in APART:
        for path in files(folder, ".antt"):
            turn(path, {old: new})
    for path in files("crates", (".antt", ".rt")):
        turned += turn(path, table)
    for path in files("crates", ".edit"):
        turned += turn(path, all_names)
    prose = [p for p in files("docs", ".md")] + ["README.md"]
    for path in prose:
        turned += turn(path, {k: v for k, v in all_names.items() if len(k) > 2})
    print(f"respell: {turned} files turned")


if __name__ == "__main__":
    sys.exit(main())

#!/usr/bin/env python3
"""Turns the names of steps and goals in proof files: names of the source keep their underscores, as in if-is_none.

    python3 tools/turn_steps.py [CRATE ..]        at the top of the repository
"""
import os
import re
import sys

from respell import PART, files

MORE = "as_mut_slice as_slice as_str into_iter deref_mut index_mut from_residual as_ref as_mut is_some is_none is_ok is_err"
WORD = re.compile(PART + "+")
DEF = re.compile(r"^\s*(?:(?:abbrev|unfoldable|pub)\s+)*([^\s:(){}.,=]+)(?:\s*\([^)]*\)|\s*\{[^}]*\})*\s+:\s", re.M)


def read(path):
    with open(path, encoding="utf-8") as f:
        return f.read()


def crate(name, own):
    src = "\n".join(read(p) for p in files(f"crates/{name}/src", ".rt"))
    words = set(re.findall(r"\w+", src)) | set(MORE.split())
    words = sorted((w for w in words if "_" in w.strip("_")), key=len, reverse=True)
    forms = [(re.compile(r"(?<![\w'])" + re.escape(w.replace("_", "-")) + r"(?![\w'])"), w) for w in words]
    labels = set(re.findall(r"(?:ensures|requires|ghost|invariant)\s+(\w+)\s*[{:]", src))

    def turned(token):
        new = token
        for form, w in forms:
            new = form.sub(w, new)
        new = re.sub(r"(?<![\w'])in-(ok|err|default)(?![\w'])", r"in_\1", new)
        return new

    count = 0
    for path in files(f"crates/{name}/proofs", ".antt"):
        if os.path.basename(path) not in ("Answers.antt", "Invariants.antt", "Proof.antt"):
            continue
        old = read(path)
        goals = set(re.findall(r"goal\.([\w'\-]+)", old))

        def one(m):
            t = m.group(0)
            before = old[:m.start()]
            if "-" not in t:
                return t
            if t in goals or re.search(r"goal\.$", before):
                return turned(t)
            if before.endswith(".") and t not in own:
                return turned(t)
            if re.match(r"\s*=\s", old[m.end():]) and re.search(r"[{;]\s*$", before) and turned(t) in labels:
                return turned(t)
            return t

        new = WORD.sub(one, old)
        if new != old:
            with open(path, "w", encoding="utf-8") as f:
                f.write(new)
            count += 1
    return count


def main():
    names = sys.argv[1:] or sorted(os.listdir("crates"))
    own = set()
    for folder in sorted(os.listdir("crates")):
        for sub in ("specs", "proofs"):
            for path in files(f"crates/{folder}/{sub}", ".antt"):
                text = read(path)
                own |= {m for m in DEF.findall(text)} - set(re.findall(r"goal\.([\w'\-]+)", text))
    for name in names:
        n = crate(name, own)
        if n:
            print(f"{name}: {n} files turned")


if __name__ == "__main__":
    main()

#!/usr/bin/env python3
"""Respells fields and definitions with a dash in snake case, where the new name was in use nowhere.

    python3 tools/respell_dashes.py        at the top of the repository, after tools/respell.py

tools/respell-dashes.tsv has a line for each name: the old spelling, a tab, the new one. A dash stays where it joins two
names, as in the lemma `first_fault-cons`, and where the name without it is another's. Sources are left alone: only strings of theirs have such words.
"""
import os
import sys

import respell


def main():
    here = os.path.dirname(os.path.realpath(__file__))
    table = respell.names(os.path.join(here, "respell-dashes.tsv"))
    turned = sum(respell.turn(path, table) for path in respell.files("crates", (".antt", ".edit")))
    print(f"respell_dashes: {turned} files turned")


if __name__ == "__main__":
    sys.exit(main())

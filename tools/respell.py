#!/usr/bin/env python3
"""Brings the names of this repository's own definitions and lemmas to the spelling of today's Rattle: words in snake case, types and modules in camel case.

usage: python3 tools/respell.py     at the top of the repository, once, after the kit's port.py

It goes by text over every .rt, .antt and .edit file below crates/: a name that begins with a small letter and has a capital within (`docAt`) is written with `_`
(`doc_at`), each part between dashes by itself (`length-wordsOf` becomes `length-words_of`). A few names that would fall together with another, or with a module
that Rattle makes, get a name of their own (OWN, MODULES). Text between quotation marks in .rt files, and the names of files, stay, but for the modules.
"""

import os
import re
import sys

NAME = re.compile(r"[^\W\d][\w'?]*(?:-[\w'?]+)*")
CAMEL = re.compile(r"(?<=[a-z0-9])([A-Z])")
STRING = re.compile(r'"(?:[^"\\\n]|\\.)*"')

# Names that would fall together: `entry_row` and `place_is` are lemmas, `row_words` is a lemma of a section.
OWN = {
    "entryRow": "row_of_entry",
    "rowWords": "words_of_row",
    "placeIs": "place_given",
    "placeAt": "place_told",
}

# Modules whose names Rattle keeps for itself: crate, folder, old name, new name.
MODULES = [("laws", "proofs", "Hidden", "Concealed"), ("demands", "proofs", "Hides", "Concealing")]


def part(name):
    if name in OWN:
        return OWN[name]
    if not name[:1].islower():
        return name
    return CAMEL.sub(lambda m: "_" + m.group(1).lower(), name)


def respelled(text):
    return NAME.sub(lambda m: "-".join(part(p) for p in m.group(0).split("-")), text)


def source(text):
    """Of a .rt file: all but what stands between quotation marks."""
    done, at = [], 0
    for m in STRING.finditer(text):
        done.append(respelled(text[at:m.start()]))
        done.append(m.group(0))
        at = m.end()
    return "".join(done) + respelled(text[at:])


def files(root):
    for folder, dirs, names in os.walk(root):
        dirs[:] = sorted(d for d in dirs if d != "out")
        for name in sorted(names):
            if name.endswith((".rt", ".antt", ".edit")):
                yield os.path.join(folder, name)


def main():
    root = "crates"
    if not os.path.isdir(root):
        sys.exit("respell: run it at the top of the repository")
    changed = 0
    for crate, side, old, new in MODULES:
        path = os.path.join(root, crate, side, old + ".antt")
        if os.path.exists(path):
            os.rename(path, os.path.join(root, crate, side, new + ".antt"))
    for path in files(root):
        with open(path, encoding="utf-8") as f:
            before = f.read()
        after = source(before) if path.endswith(".rt") else respelled(before)
        for crate, side, old, new in MODULES:
            after = after.replace(f"Rattle.{crate}.{side}.{old}.", f"Rattle.{crate}.{side}.{new}.")
            if path == os.path.join(root, crate, side, "Lib.antt"):
                after = re.sub(rf"(?m)^((?:pub )?mod ){old}$", rf"\g<1>{new}", after)
        if after != before:
            with open(path, "w", encoding="utf-8") as f:
                f.write(after)
            changed += 1
    print(f"respell: {changed} files")


if __name__ == "__main__":
    main()

#!/usr/bin/env python3
"""Brings the repository's own definitions, lemmas and fields from camel case to snake case: sentOf becomes sent_of.

usage: python3 tools/respell.py     at the top, once, right after the kit's port.py

Types, facts and modules keep their capital, and functions of src/, strings, inputs and outputs their names: the Rust code has no name
that begins small and has a capital inside, so each such word outside comments names a definition, a lemma, a field or a variable of
specs/ and proofs/. Comments, must-fail edits and pages in docs/ follow the same words, so that they still name what stands there.
"""

import os
import re

WORD = re.compile(r"(?<![\w'·-])[a-z][\w']*[a-z0-9][A-Z][\w']*(?![\w'])")
# parts of the flash family's part numbers stay together
PART = re.compile(r"W25[A-Z0-9]+")
# a local name that would fall together with a definition that its file cites
FIRST = {
    "crates/spi_flash/proofs/Runs.antt": [("goes_on", "goes_on-lem")],
    "crates/flash_runs/proofs/WatchedRuns.antt": [("goes_on", "goes_on-lem")],
    "crates/flash_runs/proofs/Views.antt": [("at_rest", "at_rest-view")],
    "crates/spi_nand/proofs/DatasheetAgrees.antt": [("first_byte", "first_byte-lem")],
}


def snake(word):
    if re.fullmatch(r"0x[0-9A-F]+", word):
        return word
    word = PART.sub(lambda m: "_" + m.group(0).lower(), word)
    return re.sub(r"(?<=[a-z0-9'])([A-Z]+)", lambda m: "_" + m.group(1).lower(), word)


def texts():
    for folder, dirs, files in os.walk("crates"):
        dirs[:] = sorted(d for d in dirs if d != "out")
        for f in sorted(files):
            if f.endswith((".antt", ".rt", ".edit")):
                yield os.path.join(folder, f)
    for folder in (".", "docs"):
        for f in sorted(os.listdir(folder)):
            if f.endswith(".md"):
                yield os.path.normpath(os.path.join(folder, f))


def definitions():
    """The words that stand in antt text, comments aside: only these are respelled."""
    found = set()
    for p in texts():
        if p.endswith(".antt"):
            with open(p, encoding="utf-8") as f:
                found.update(WORD.findall(re.sub(r"--.*", "", f.read())))
    return found


def main():
    own = definitions()
    for p in texts():
        with open(p, encoding="utf-8") as f:
            old = f.read()
        new = old
        for a, b in FIRST.get(p, []):
            new = re.sub(r"(?<![\w'.-])" + a + r"(?![\w'-])", b, new)
        new = WORD.sub(lambda m: snake(m.group(0)) if m.group(0) in own else m.group(0), new)
        if new != old:
            with open(p, "w", encoding="utf-8") as f:
                f.write(new)


if __name__ == "__main__":
    main()

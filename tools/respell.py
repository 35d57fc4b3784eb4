#!/usr/bin/env python3
"""After the kit's port.py: gives this repository's own definitions and lemmas the kit's spelling, and two crates names that no library of the kit has.

usage: python3 tools/respell.py FOLDER    (a checkout, with port.py's changes in it; files are rewritten in place)

The names stand in spelling.tsv beside this script, which spelling.py made. What turns: whole words of specs/ and proofs/, and of clauses, ghost items and
`ghost use` lines of src/. A word behind a dot turns too, but for names that the check makes (behind c, w, l and goal). Rust names stay, but for the two crates.
"""
import glob
import os
import re
import shutil
import sys

HERE = os.path.dirname(os.path.realpath(__file__))
CRATES = {"bytes": "octets", "hex": "hex_text"}
WORD = re.compile(r"[^\s(){}.;,@\"«»]+")
MADE = re.compile(r"(?:^|[\s(\[{,;])(?:c|w|l|g|goal)(?:\.[\w'-]+)*\.$")


def rows():
    with open(os.path.join(HERE, "spelling.tsv"), encoding="utf-8") as f:
        return dict(line.rstrip("\n").split("\t") for line in f)


def words(text, names):
    out, at = [], 0
    for m in WORD.finditer(text):
        new = names.get(m[0])
        if new and not MADE.search(text[max(0, m.start() - 120):m.start()]):
            out += [text[at:m.start()], new]
            at = m.end()
    return "".join(out) + text[at:]


def crate_paths(text):
    for old, new in CRATES.items():
        text = re.sub(r"(?<![\w.])Rattle\." + old + r"\.", f"Rattle.{new}.", text)
        text = re.sub(r"(?<![\w:])" + old + r"::", f"{new}::", text)
    return text


def main(top):
    names = rows()
    for old, new in CRATES.items():
        if os.path.isdir(os.path.join(top, "crates", old)):
            shutil.move(os.path.join(top, "crates", old), os.path.join(top, "crates", new))
    crates = os.path.join(top, "crates.txt")
    with open(crates, encoding="utf-8") as f:
        lines = f.read().split("\n")
    for i, line in enumerate(lines):
        if not line.startswith("#"):
            lines[i] = re.sub(r"\w+", lambda m: CRATES.get(m[0], m[0]), line)
    with open(crates, "w", encoding="utf-8") as f:
        f.write("\n".join(lines))
    for f in glob.glob(os.path.join(top, "crates", "*", "**", "*"), recursive=True):
        if not f.endswith((".rt", ".antt", ".edit")) or "/out/" in f:
            continue
        with open(f, encoding="utf-8") as it:
            was = it.read()
        text = words(crate_paths(was), names)
        if text != was:
            with open(f, "w", encoding="utf-8") as it:
                it.write(text)


if __name__ == "__main__":
    main(sys.argv[1])

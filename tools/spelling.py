#!/usr/bin/env python3
"""Makes tools/spelling.tsv: old and new spellings of this repository's own definitions and lemmas. usage: spelling.py KIT FOLDER.."""
import collections
import glob
import os
import re
import sys

JOINS = set("length append take drop cons nil map reverse replicate set get_or zip2 xor add mul mod sum suc".split())
DEFINES = re.compile(r"^\s*(?:(?:abbrev|unfoldable|pub)\s+)*([A-Za-z_][^\s:(){};,]*) :(?!=)(.*)")
HEADS = re.compile(r"^\s*(?:pub )?(?:data|record) (\S+)")


def antt(folders, parts=("specs", "proofs")):
    for d in folders:
        for part in parts:
            for f in sorted(glob.glob(os.path.join(d, "crates", "*", part, "**", "*.antt"), recursive=True)):
                yield f


def defined(files):
    names, goals = collections.defaultdict(set), set()
    for f in files:
        with open(f, encoding="utf-8") as it:
            for line in it:
                m = DEFINES.match(line)
                if m:
                    if " goal." in " " + m[2].strip():
                        goals.add(m[1])
                    else:
                        names[m[1]].add(f)
                m = HEADS.match(line)
                if m:
                    names[m[1]].add(f)
    return names, goals


def snake(word):
    return re.sub(r"(?<=[a-z0-9])([A-Z])", lambda m: "_" + m[1].lower(), word)


def main(kit, folders):
    names, goals = defined(antt(folders))
    words, _ = defined(antt(folders, ("specs",)))
    library = set()
    for part in ("core", "std*", "logic", "antt"):
        for f in glob.glob(os.path.join(kit, "rattle", part, "**", "*.antt"), recursive=True):
            with open(f, encoding="utf-8") as it:
                library |= set(re.findall(r"pub (?:data |record )?([^\s:(){};,]+)", it.read()))
    # words that proofs name with no dash, and types
    known = JOINS | {w for w in words if "-" not in w} | {snake(w) for w in words if "-" not in w}
    rows = {}
    for name in sorted(names):
        if name in goals or name in library or "·" in name or "ᴰ" in name:
            continue
        if not (name[0].islower() and (re.search(r"[a-z0-9][A-Z]", name) or "-" in name)):
            continue
        parts = name.split("-")
        out = snake(parts[0]) if parts[0][0].islower() else parts[0]
        for a, b in zip(parts, parts[1:]):
            joined = snake(a) in known and snake(b) in known
            out += ("-" if joined else "_") + (snake(b) if b[:1].islower() else b)
        # a lemma that would have its function's name
        if "-" in name and out in {snake(w) for w in words if "-" not in w}:
            out += "_lem"
        if out != name:
            rows[name] = out
    # a theorem, and what `ghost use` lines of src/ call definitions
    rows["Decodes-again"] = "DecodesAgain"
    for alias in ("digitOf", "grownBy", "letterOf", "outRecord"):
        rows[alias] = snake(alias)
    taken = set(names) | library
    back = collections.defaultdict(list)
    for old, new in rows.items():
        back[new].append(old)
    bad = [(new, olds) for new, olds in back.items() if len(olds) > 1 or new in taken]
    for new, olds in bad:
        print("clash:", new, olds, "also " + ("in the library" if new in library else "here") if new in taken else "", file=sys.stderr)
    with open(os.path.join(os.path.dirname(os.path.realpath(__file__)), "spelling.tsv"), "w", encoding="utf-8") as f:
        for old in sorted(rows):
            f.write(f"{old}\t{rows[old]}\n")
    print(len(rows), "names")


if __name__ == "__main__":
    main(sys.argv[1], sys.argv[2:])

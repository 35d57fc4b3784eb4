#!/usr/bin/env python3
"""Counts the places in crates/*/src that docs/DESIGN-PASS.md speaks of.

usage: tools/places.py [-v] [COMMIT]     without COMMIT: the files as they stand; -v: each place, by file and line
"""
import re
import subprocess
import sys
from collections import defaultdict

# Point, what is looked for, and a pattern on a file's text. Some patterns find more than places: those are read.
PATTERNS = [
    (1, "enums (read for the shape of Option or Result)", r"^ *(?:pub(?:\(crate\))? )?enum \w+"),
    (1, "an error handed on by an arm of a match", r"^.*\b(?:Err\([\w:()]+\)|None) => (?:return )?Err\("),
    (1, "an error handed on by let-else or is_err", r"^[^\n]*(?:let (?:Ok|Some)\([^\n]*(?:\n[^\n]*)?\belse \{|is_err\(\)[^\n]*\{)\n[^\n}]*(?:\n[^\n}]*)?\breturn Err\("),
    (1, "a number for a kind", r"\b(?:kind|tag|slot): u\d+"),
    (1, "a flag as a result beside what is filled", r"^[^\n]*fn [^{;]*&mut[^{;]*-> (?:\w+::)?(?:Result<)?bool\b"),
    (3, "a loop over a range of numbers", r"^ *for \w+ in [^\n{]*\.\."),
    (3, "a loop that takes a slice or list apart by hand", r"^ *while let [^\n]*"),
    (4, "bytes of numbers by hand", r"\b(?:to|from)_[bl]e_bytes\b"),
    (4, "a comparison, conversion or text as a function of its own", r"^ *(?:pub(?:\(crate\))? )?fn (?:agree|name|word|why|reason|slot|number|count|of_places|failure_of|noted|done|failed|is_blank|is|letter|digit)\b"),
    (4, "a type that only wraps another to print it", r"^ *(?:pub )?struct \w+(?:<'a>)?\((?:pub )?[^)]*\);"),
    (6, "an offset or a count beside a buffer", r"\bfn \w+(?:<[^(]*>)?\([^{;]*?\b(?:at|count|end|start|len): (?:usize|u64|u32)"),
    (6, "an array or list in a struct", r"^ +(?:pub(?:\(crate\))? )?\w+: (?:Box<)?(?:\[[^\]]*; |Vec<)"),
    (7, "a step chosen by comparing words or first bytes", r"\bif (?:is|begins)\("),
]


def sources(commit):
    if commit:
        names = subprocess.run(["git", "ls-tree", "-r", "--name-only", commit, "crates"], capture_output=True, text=True, check=True).stdout.split()
        names = [name for name in names if re.fullmatch(r"crates/\w+/src/[\w/]+\.rt", name)]
        return {name: subprocess.run(["git", "show", f"{commit}:{name}"], capture_output=True, text=True, check=True).stdout for name in names}
    names = subprocess.run(["git", "ls-files", "crates/*/src/*.rt"], capture_output=True, text=True, check=True).stdout.split()
    return {name: open(name, encoding="utf-8").read() for name in names}


def without_comments(text):
    return re.sub(r"^( *)//.*$", r"\1", text, flags=re.M)


def parameters(text):
    """The functions, each with its line and how many parameters it has."""
    for found in re.finditer(r"\bfn (\w+)(?:<[^(]*>)?\(((?:[^()]|\([^()]*\))*)\)", text):
        inside = re.sub(r"<[^<>]*>|\[[^\]]*\]|\([^()]*\)", "", found.group(2))
        yield found.group(1), text.count("\n", 0, found.start()) + 1, len([p for p in inside.split(",") if p.strip()])


def functions(text):
    """The functions: name, line, and body from `fn` to the brace that closes it."""
    for found in re.finditer(r"\bfn (\w+)[^;{]*?(?:\{ [^\n]* \}\n[^;{]*?)*\{\n", text):
        depth, at = 1, found.end()
        while depth and at < len(text):
            depth += {"{": 1, "}": -1}.get(text[at], 0)
            at += 1
        yield found.group(1), text.count("\n", 0, found.start()) + 1, text[found.start():at]


def shape(body):
    """A function's tokens, with every name, number and text made the same, and its clauses left out."""
    body = re.sub(r"^\s*(?:requires|ensures)\b.*$", "", body, flags=re.M)
    tokens = re.findall(r'b?"[^"]*"|b?\'[^\']*\'|\w+|[^\w\s]', body)
    keep = {"fn", "let", "mut", "if", "else", "match", "for", "in", "while", "return", "Ok", "Err", "Some", "None", "self"}
    return tuple(token if token in keep or not (token[0].isalnum() or token[0] in "_\"'") else "w" for token in tokens)


def twins(texts):
    """Functions of one shape, or of one name in two crates, as groups."""
    groups = defaultdict(list)
    for name, text in texts.items():
        if name.endswith("tests.rt"):
            continue
        for function, line, body in functions(text):
            if len(shape(body)) >= 24:
                groups[shape(body)].append((name, line, function))
    return [group for group in groups.values() if len(group) >= 2]


def clauses(text):
    """The conjuncts of clauses, each with the function that it is a clause of."""
    function = None
    for line in text.split("\n"):
        named = re.match(r"\s*(?:pub(?:\(crate\))? )?(?:extern \"C\" )?fn (\w+)", line)
        function = named.group(1) if named else function
        clause = re.match(r"\s*(?:requires|ensures)\s*\w*\s*\{ (.*) \}", line)
        if clause:
            for part in clause.group(1).split(" × "):
                yield part.strip("() "), function


def main():
    arguments = [a for a in sys.argv[1:] if a != "-v"]
    verbose = "-v" in sys.argv[1:]
    texts = {name: without_comments(text) for name, text in sources(arguments[0] if arguments else None).items()}
    for point, what, pattern in PATTERNS:
        places = [(name, text.count("\n", 0, found.start()) + 1, found.group(0).strip().split("\n")[0])
                  for name, text in texts.items() for found in re.finditer(pattern, text, re.M)]
        print(f"{point}  {len(places):4}  {what}")
        if verbose:
            for name, line, found in places:
                print(f"          {name}:{line}: {found}")
    groups = twins(texts)
    print(f"2  {sum(len(group) for group in groups):4}  functions in {len(groups)} groups of one shape (names, numbers and clauses aside)")
    if verbose:
        for group in groups:
            print("          " + "; ".join(f"{name}:{line}: {function}" for name, line, function in group))
    many = [(name, line, function, count) for name, text in texts.items()
            for function, line, count in parameters(text) if count >= 7]
    print(f"5  {len(many):4}  functions of seven or more parameters")
    if verbose:
        for name, line, function, count in many:
            print(f"          {name}:{line}: {function} {count}")
    facts = defaultdict(set)
    for name, text in texts.items():
        for fact, function in clauses(text):
            facts[name.split("/")[1], fact].add((name, function))
    repeated = {key: where for key, where in facts.items() if len(where) >= 3}
    print(f"5  {len(repeated):4}  facts in the clauses of three or more functions of a crate")
    if verbose:
        for (crate, fact), where in sorted(repeated.items()):
            print(f"          {crate}: {len(where)} {fact}")


if __name__ == "__main__":
    main()

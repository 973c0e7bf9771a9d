#!/usr/bin/env python3
"""Brings the repository's own definitions and lemmas to snake case: firstHolder and first-holder become first_holder.

usage: python3 tools/respell.py [--dry]    at the top of the repository, once, after the kit's port.py

Types, records and facts (upper camel case), names that the check makes (files Answers.antt and Invariants.antt) and
names of src/ stay as they are. Names that fall together within a file are told.
"""
import os
import re
import sys

TOKEN = r"[\w'?!\-]"
# Names that would fall together with a definition: a lemma gets _lem, the others a name of their own.
LEMMAS = "turns-in crowd-size firing-of line-sends all-below bit-and bit-or with-message with-instance with-receipt by-mark stage-of is-received".split()
OTHERS = {"parcelOf": "parcel_of_message", "message-names": "names_of_messages", "all-received": "received_once"}
MADE = ("Answers.antt", "Invariants.antt", "Choices.antt", "Proof.antt")


def texts():
    for folder, dirs, files in os.walk("crates"):
        dirs[:] = sorted(d for d in dirs if d != "out")
        for name in sorted(files):
            if name.endswith((".rt", ".antt")):
                yield os.path.join(folder, name)


def read(path):
    with open(path, encoding="utf-8") as file:
        return file.read()


def snake(name):
    if name in OTHERS:
        return OTHERS[name]
    if name in LEMMAS:
        return name.replace("-", "_") + "_lem"
    name = name.replace("-", "_")
    return re.sub(r"(?<=[a-z0-9])([A-Z])", lambda m: "_" + m.group(1).lower(), name)


def wanted(name):
    first = name[0]
    return (first.islower() or first == "_") and (("-" in name) or re.search(r"[a-z0-9][A-Z]", name))


def defined(path, text):
    """The names that a file of specs or proofs defines, with those of constructors and record fields."""
    for line in text.splitlines():
        if line.startswith(("use ", "pub use ", "--", "mod ", "pub mod ")):
            continue
        found = re.match(r"^(?:(?:abbrev|pub|data|record) )*([^\s:(){}|=,]+) *:(?! *goal\.)", line)
        if found:
            yield found.group(1)
            continue
        # constructors of a type, fields of a record, and what a `where` or a `let` defines
        for found in re.finditer(r"(?:^|(?<=[\s{(]))([a-z][\w'?!\-]*) *:(?=\s|$)", line):
            yield found.group(1)


def imported(text):
    """What a file imports from elsewhere than this repository's crates."""
    own = {c for c in os.listdir("crates")}
    for found in re.finditer(r"^ *(?:ghost |pub )*use ([^\s{]+)\{([^}]*)\}", text, re.M | re.S):
        path = found.group(1)
        crate = re.match(r"Rattle\.(\w+)\.", path)
        if not (crate and crate.group(1) in own):
            for name in found.group(2).split(","):
                yield name.strip()


def swap(text, table, rust):
    pattern = re.compile("(?<!" + TOKEN + ")(?:" + "|".join(sorted(map(re.escape, table), key=len, reverse=True)) + ")(?!" + TOKEN + ")")

    def change(part):
        return pattern.sub(lambda m: table[m.group(0)], part)

    if not rust:
        return "\n".join(line if line.lstrip().startswith("--") else change(line) for line in text.split("\n"))
    lines = []
    for line in text.split("\n"):
        parts = re.split(r'("(?:[^"\\]|\\.)*"|//.*$)', line)
        lines.append("".join(part if k % 2 else change(part) for k, part in enumerate(parts)))
    return "\n".join(lines)


def main():
    dry = "--dry" in sys.argv
    all_texts = {path: read(path) for path in texts()}
    names = set()
    for path, text in all_texts.items():
        if path.endswith(".antt"):
            for name in defined(path, text):
                if wanted(name):
                    names.add(name)
    # names that only generated proofs have are the check's own
    said = set()
    for path, text in all_texts.items():
        if os.path.basename(path) in MADE:
            said |= {m.group(1) for m in re.finditer(r"^(?:(?:abbrev|pub) )*([^\s:]+) *: *goal\.", text, re.M)}
    names -= said
    foreign = {}
    for path, text in all_texts.items():
        for name in imported(text):
            if name in names:
                foreign.setdefault(path, set()).add(name)
    count = 0
    for path, text in all_texts.items():
        table = {n: snake(n) for n in names if n not in foreign.get(path, ())}
        tokens = set(re.findall(TOKEN + "+", text))
        here = {o: n for o, n in table.items() if o in tokens}
        clash = {o: n for o, n in here.items() if n in tokens}
        seen = {}
        for o, n in here.items():
            seen.setdefault(n, []).append(o)
        for n, olds in seen.items():
            if len(olds) > 1:
                print("together:", path, olds, n)
        for o, n in clash.items():
            print("clash:", path, o, n)
        if not here:
            continue
        new = swap(text, here, path.endswith(".rt"))
        if new != text:
            count += 1
            if not dry:
                with open(path, "w", encoding="utf-8") as file:
                    file.write(new)
    print(len(names), "names,", count, "files;", "foreign in", {p: sorted(s) for p, s in foreign.items()})


main()

#!/usr/bin/env python3
"""Brings the repository's own ghost names to one spelling: definitions, lemmas and fields of antt in snake case.

usage: python3 tools/spell.py [ROOT]      once, after the port of the kit; rewrites files below ROOT (the folder above tools/) in place

A name that ends up as another one's gets one of its own, below in APART. Functions of src/, strings, inputs and outputs keep theirs.
"""

import os
import re
import sys

ROOT = sys.argv[1] if len(sys.argv) > 1 else os.path.join(os.path.dirname(os.path.realpath(__file__)), "..")
WORD = r"[A-Za-z0-9_'\-]"
# Names that would fall together with another one: (files that hold them, old, new).
APART = [
    ("crates/table/proofs/", "access-in", "access_in_lem"),
    ("crates/table/proofs/", "writing-in", "writing_in_lem"),
    ("crates/table/proofs/", "page-of", "page_of_lem"),
    ("crates/runs/", "carried-out", "carried_out_is"),
    ("crates/desk/proofs/", "by-trap", "by_trap_lem"),
    ("crates/protection/proofs/Alone.antt", "is_open", "is_open_lem"),
]
# Names that are given otherwise than by a line 'NAME : TYPE'.
MORE = ["in-file", "run-settles", "zero-off", "n-th", "refusalLine"]
# Names that the port's own script respelled in the crates: docs and edits follow.
PORTED = """andThen bitOf blockAt blockOf blocksFrom byteAt bytesOf callIn callsOf cellOf cutAt effectOf entryOf fieldOf firstOf
fixedAt flagsOf heldAt imageOf inSet kindOf lastOf lengthOf lineOf mayWrite numberIn numberOf pageOf partsOf pushedOn putIn readOf
restAt resultOf runOf runT secondOf sourceOf stateOf stepOf storeOf sumOf widthOf withFlags""".split()
GOAL = re.compile(r" *(goal|need|given|choice|choose)\.")
PROOF_FILES = ("Answers.antt", "Invariants.antt", "Choices.antt")


def below(folder, *endings):
    for at, folders, names in os.walk(os.path.join(ROOT, folder)):
        folders[:] = sorted(f for f in folders if f != "out")
        for name in sorted(names):
            if name.endswith(endings):
                yield os.path.join(at, name)


def read(path):
    with open(path, encoding="utf-8") as f:
        return f.read()


def snake(name):
    humps = re.sub(r"(?<=[a-z0-9])[A-Z]", lambda m: "_" + m.group().lower(), name) if name[0].islower() else name
    return humps.replace("-", "_")


def replace(text, names):
    if not names:
        return text
    some = "|".join(re.escape(n) for n in sorted(names, key=len, reverse=True))
    return re.sub(rf"(?<!{WORD})(?:{some})(?!{WORD})", lambda m: names[m.group()], text)


def own_names():
    found = set(MORE)
    for path in below("crates", ".antt"):
        made = path.endswith(PROOF_FILES)
        for m in re.finditer(rf"^ *(?:abbrev |unfoldable |pub )*({WORD}+) :(?= )(.*)$", read(path), re.M):
            if not (made and GOAL.match(m.group(2))):
                found.add(m.group(1))
    return {n: snake(n) for n in found if snake(n) != n}


def outside_strings(line, turn):
    return "".join(p if p.startswith('"') else turn(p) for p in re.split(r'("(?:[^"\\]|\\.)*")', line))


def write(path, old, new):
    if new != old:
        with open(path, "w", encoding="utf-8") as f:
            f.write(new)


for folder, old, new in APART:
    for path in below("crates", ".antt"):
        if os.path.relpath(path, ROOT).startswith(folder):
            text = read(path)
            write(path, text, replace(text, {old: new}))

names = own_names()
humped = {n: s for n, s in names.items() if "-" not in n}
told = humped | {n: snake(n) for n in PORTED}
for path in below("crates", ".antt"):
    text = read(path)
    write(path, text, replace(text, names))
for path in below("crates", ".rt"):
    text = read(path)
    lines = [outside_strings(l, lambda t: replace(t, names if l.startswith("ghost use ") else humped)) for l in text.split("\n")]
    write(path, text, "\n".join(lines))
for path in list(below("docs", ".md")) + list(below("crates", ".edit")) + [os.path.join(ROOT, "README.md")]:
    text = read(path)
    write(path, text, replace(text, told))
for path in below("crates", ".edit"):
    text = read(path)
    if re.search(r"^file: .*\.antt$", text, re.M):
        write(path, text, replace(text, names))

for n, s in sorted(names.items()):
    print(n, s)

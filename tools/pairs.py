#!/usr/bin/env python3
"""Lists the pairs of parameters, with their types, that five functions of src/ or more have: `tools/pairs.py [FOLDER]`."""
import collections, glob, itertools, os, re, sys


def behind(text, at):
    """The place behind the bracket that opens at `at`."""
    deep = 0
    for i in range(at, len(text)):
        if text[i] in "([<{":
            deep += 1
        elif text[i] in ")]}" or text[i] == ">" and text[i - 1] not in "-=":
            deep -= 1
            if not deep:
                return i + 1
    return len(text)


def parameters(text):
    """Of each `fn NAME(..)` the parameters but `self`."""
    for found in re.finditer(r"\bfn\s+\w+\s*", text):
        at = found.end()
        if text[at] == "<":
            at = behind(text, at)
        if text[at] != "(":
            continue
        inside, parts, begun, i = text[at + 1 : behind(text, at) - 1], [], 0, 0
        while i < len(inside):
            if inside[i] in "([<{":
                i = behind(inside, i)
                continue
            if inside[i] == ",":
                parts.append(inside[begun:i])
                begun = i + 1
            i += 1
        parts.append(inside[begun:])
        yield {" ".join(part.split()) for part in parts if ":" in part}


def main():
    top = sys.argv[1] if len(sys.argv) > 1 else os.path.dirname(os.path.dirname(os.path.abspath(__file__)))
    count = collections.Counter()
    for path in glob.glob(os.path.join(top, "crates/*/src/*.rt")):
        with open(path, encoding="utf-8") as file:
            text = re.sub(r"//.*", "", file.read())
        for found in parameters(text):
            count.update(itertools.combinations(sorted(found), 2))
    often = sorted(((n, pair) for pair, n in count.items() if n >= 5), reverse=True)
    for n, (one, other) in often:
        print(f"{n:3}  {one}, {other}")
    print(f"{len(often)} pairs")


main()

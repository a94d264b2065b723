#!/usr/bin/env python3
# Respells the names that specs/ and proofs/ declare: words, fields and lemmas in snake case. Run once, after the kit's port.py, at the top.
#
# usage: python3 tools/spelling.py [FOLDER]     the repository's crates/, or those of FOLDER, in place
#
# tools/spelling.txt has a line 'OLD NEW' for each name. A name is respelled wherever it stands whole in a .rt, .antt or .edit file, but in a
# string of a .rt file. Where a lemma and a word would fall together, the lemma gets _lem. Functions, exported names and files keep theirs.
import os
import re
import sys

HERE = os.path.dirname(os.path.abspath(__file__))
NAME = re.compile(r"(?<![\w'\-])[A-Za-z][\w'\-₀-₉]*")
STRING = re.compile(r'"(?:[^"\\]|\\.)*"')


def respell(text, names):
    return NAME.sub(lambda m: names.get(m.group(0), m.group(0)), text)


def beside_strings(text, names):
    """The text with the names between its strings respelled."""
    out, at = [], 0
    for m in STRING.finditer(text):
        out += [respell(text[at:m.start()], names), m.group(0)]
        at = m.end()
    return "".join(out) + respell(text[at:], names)


def main(root):
    with open(os.path.join(HERE, "spelling.txt"), encoding="utf-8") as f:
        names = dict(line.split() for line in f)
    turned = 0
    for folder, below, files in os.walk(os.path.join(root, "crates")):
        below[:] = sorted(d for d in below if d != "out")
        for name in sorted(files):
            if not name.endswith((".rt", ".antt", ".edit")):
                continue
            path = os.path.join(folder, name)
            with open(path, encoding="utf-8") as f:
                old = f.read()
            new = beside_strings(old, names) if name.endswith(".rt") else respell(old, names)
            if new != old:
                turned += 1
                with open(path, "w", encoding="utf-8") as f:
                    f.write(new)
    print(f"spelling: {turned} files respelled")


if __name__ == "__main__":
    main(sys.argv[1] if len(sys.argv) > 1 else ".")

#!/usr/bin/env python3
"""Spells this repository's own definitions and lemmas as today's Rattle does: snake case for every word.

usage: python3 tools/respell.py   once, at the top, on the tree that the kit's port.py leaves

It reads crates/ alone, and turns .antt and .rt files. A word is turned where an .antt file of the repository declares
it; literals such as 0xA0 and b'A' are no words of an .antt file, and stay.
"""

import os
import re

WORD = re.compile(r"(?<![A-Za-z0-9_'′·-])[a-z_][A-Za-z0-9_'-]*")
HUMP = re.compile(r"(?<=[a-z0-9])([A-Z])")

# a plain respelling would fall together with a field, a clause's label or another word of the same file
OWN = {
    "matrixSize": "said_size",
    "lineAfter": "line_after_field",
    "wordsAfter": "words_after_field",
    "getD-tab": "get_or-tab",
}

# local words that make way for a definition's new name
AWAY = {
    "crates/trip/proofs/Found.antt": {"codes_at": "codes_at_is"},
    "crates/rules/proofs/decide/codes_whole/Proof.antt": {"codes_at": "codes_at_is"},
    "crates/trip/proofs/Tripped.antt": {"left_by": "left_by_is"},
    "crates/requests/proofs/Examples.antt": {"bad": "IsBad"},
}


def files():
    for folder, dirs, names in os.walk("crates"):
        dirs[:] = sorted(d for d in dirs if d != "out")
        for name in sorted(names):
            if name.endswith((".antt", ".rt")):
                yield os.path.join(folder, name)


def snake(word):
    return OWN.get(word) or HUMP.sub(lambda m: "_" + m.group(1).lower(), word)


def literal(word):
    return re.fullmatch(r"(x[0-9A-F]+|b'.*|x93NUMPY)", word) is not None


def main():
    texts = {p: open(p, encoding="utf-8").read() for p in files()}
    words = {w for p, t in texts.items() if p.endswith(".antt") for w in WORD.findall(t)}
    words |= {w for p, t in texts.items() if p.endswith(".rt") for w in WORD.findall(t)}
    turned = {w: snake(w) for w in words if HUMP.search(w) and not literal(w)}
    for path, text in texts.items():
        away = AWAY.get(path, {})
        new = WORD.sub(lambda m: away.get(m.group(0)) or turned.get(m.group(0)) or m.group(0), text)
        if new != text:
            with open(path, "w", encoding="utf-8") as f:
                f.write(new)
    for old in sorted(turned):
        print(old, turned[old])


if __name__ == "__main__":
    main()

#!/usr/bin/env python3
"""Spells the names that the definitions and laws declare in snake case, after the toolchain's own script has run: once, at the top.

It changes the .antt and .rt files of crates/, the must-fail edits, and in the documents what stands between backticks. Types, modules and
records keep their capital; names of the source text are in snake case already. Where two names would have become one in some file, SPELT has
the name that one of them gets.
"""

import os
import re
import sys

# Names that would fall together with another.
SPELT = {
    "byName": "named_value",
    "byPlace": "value_at_place",
    "isName": "is_name_token",
}
# The rule on a place of an order, which is written without a module, or behind `O.`; the code of that name stands behind another.
RULE = re.compile(r"(?:(?<![.\w])|(?<=[ ]O\.))outOfRange(?!\w)")
RULED = re.compile(r"/orders/(?!specs/Code)|/canonical/proofs/Cases")
WORD = re.compile(r"(?<![A-Za-z0-9_'])[a-z][a-z0-9]*(?:[A-Z][A-Za-z0-9]*)+(?![A-Za-z0-9_])")


def snake(name):
    return re.sub(r"(?<=[a-z0-9])[A-Z]|(?<=[A-Z])[A-Z](?=[a-z])", lambda m: "_" + m[0].lower(), name).lower()


def files(root, folder, endings):
    for where, dirs, names in os.walk(os.path.join(root, folder)):
        dirs[:] = [d for d in dirs if d not in ("out", "target", ".git")]
        for n in sorted(names):
            if n.endswith(endings):
                yield os.path.join(where, n)


def main():
    root = os.getcwd()
    words = set()
    sources = list(files(root, "crates", (".antt", ".rt")))
    for p in sources:
        with open(p, encoding="utf-8") as f:
            words.update(m[0] for m in WORD.finditer(f.read()))

    def spelt(word):
        return SPELT.get(word) or snake(word)

    def turned(text):
        if RULED.search(here):
            text = RULE.sub("range_faults", text)
        return WORD.sub(lambda m: spelt(m[0]) if m[0] in words else m[0], text)

    for p in sources + list(files(root, "crates", ".edit")):
        here = p
        with open(p, encoding="utf-8") as f:
            text = f.read()
        new = turned(text)
        if p.endswith(".rt"):
            if re.findall(r'"[^"\n]*"', text) != re.findall(r'"[^"\n]*"', new):
                sys.exit(f"{p}: a string would change")
        if new != text:
            with open(p, "w", encoding="utf-8") as f:
                f.write(new)
    for p in [q for q in files(root, "", (".md",)) if not q.startswith(os.path.join(root, "wip"))]:
        here = p
        with open(p, encoding="utf-8") as f:
            text = f.read()
        new = re.sub(r"`[^`\n]+`", lambda m: turned(m[0]), text)
        if new != text:
            with open(p, "w", encoding="utf-8") as f:
                f.write(new)


main()

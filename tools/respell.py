#!/usr/bin/env python3
"""Brings the repository's own definitions and lemmas to snake case: run once, at the top, right after the kit's port.py.

Every name that a file of specs/ or proofs/ declares (a definition, a lemma, a field, a constructor) and that has a capital inside or a
dash is respelled wherever it stands as a whole word in .antt and .rt files. Names of the kit and names
that the kit makes (of goals, of steps) keep their spelling. `--list` prints the renamings and changes nothing.
"""

import os
import re
import sys

DECLARED = re.compile(r"^\s*(?:abbrev |unfoldable )?(?:pub )?(?:record |data )?([a-z][A-Za-z0-9'_-]*(?:\s+[a-z][A-Za-z0-9'_-]*)*) :(?= |$)")
WORD = re.compile(r"[A-Za-z_][A-Za-z0-9_'\u2080-\u2089\u2032-]*")
# Names that Rattle makes in a function's proof (old spelling): its labels and what its goals are called.
MADE = re.compile(r"(-requires(-\d+)?|-spec)$|^(returns|loop|invariant|decreases|add|sub|mul|cast|shl|same-length)(-|$)")

# Names that would fall together with another definition, or with a field of a struct of the code.
APART = {
    "continued-bytes": "continued_bytes_lem",
    "getD-below": "get_or_below",
    "in-range": "in_range_lem",
    "is-qpi": "is_qpi_lem",
    "not-above": "not_above_lem",
    "three-wire": "three_wire_lem",
    "workMode": "work_mode_steps",
}


def files(*ends):
    for folder, dirs, names in os.walk("crates"):
        dirs[:] = sorted(d for d in dirs if d not in ("out", "must-fail"))
        for name in sorted(names):
            if name.endswith(ends):
                yield os.path.join(folder, name)


def read(path):
    with open(path, encoding="utf-8") as f:
        return f.read()


def snake(name):
    return APART.get(name) or re.sub(r"(?<=[a-z0-9])([A-Z])", lambda m: "_" + m.group(1).lower(), name).replace("-", "_")


def declared():
    """The names to respell: those of specs/ and of lemma files; those of a function's own proof folder only where they are no made name."""
    names = set()
    for path in files(".antt"):
        own = "/proofs/" in path and path.split("/proofs/")[1].count("/") > 0
        for line in read(path).split("\n"):
            m = DECLARED.match(line)
            if m:
                for name in m.group(1).split():
                    if snake(name) != name and not (own and MADE.search(name)):
                        names.add(name)
    return names


def renamed(text, table):
    def word(m):
        return table.get(m.group(0), m.group(0))
    return WORD.sub(word, text)


def main():
    table = {n: snake(n) for n in declared()}
    if "--list" in sys.argv:
        for n in sorted(table):
            print(n, table[n])
        return
    for path in files(".antt", ".rt"):
        old = read(path)
        new = renamed(old, table)  # code has no name with a capital inside, and no dash without blanks
        if new != old:
            with open(path, "w", encoding="utf-8") as f:
                f.write(new)
            print("respelled:", path)


if __name__ == "__main__":
    main()

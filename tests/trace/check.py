#!/usr/bin/env python3
"""Checks that the names which the pages cite stand in the tree, where the page says.

    tests/trace/check.py [FILE]      docs/TRACE.md, docs/ARCHITECTURE.md, docs/ANSWERS.md and README.md; or only FILE,
                                     which has the form of docs/TRACE.md

docs/TRACE.md says how it cites a name. Of each row of its tables

- a definition or a statement is declared in the file under specs/ that follows it, a theorem in the file under proofs/;
- a function, a type or a constant is declared in the code of the crate before it;
- an edit is a file in must-fail/, or the mark of one in such a file; an instance is declared in its file under specs/;
- any other name is declared somewhere in the crates, and the row that another refers to is there.

On the other pages a name with a file is declared there under specs/, and on docs/ARCHITECTURE.md any other name
somewhere in the crates. On every page, a path of the repository is there. What is not there is said, with its line.
"""
import collections
import functools
import glob
import os
import re
import sys

ROOT = os.path.normpath(f"{os.path.dirname(os.path.realpath(__file__))}/../..")
NAME = r"[A-Za-z_][\w'-]*"
PATH = re.compile(
    r"(?<![\w/.])(?:tests|docs|crates|bindings|tools|\.ci)(?:/[\w*.-]+)+|\b(?:crates\.txt|README\.md|NOTICE)\b"
)
# A declaration in a file of definitions or proofs: a name or several, what it is given, and its type.
DECLARED = re.compile(
    rf"^\s*(?:(?:pub|abbrev|unfoldable)\s+)*"
    rf"(?:(?:record|data)\s+({NAME})|({NAME}(?:\s+{NAME})*)(?:\s+[({{].*[)}}])*\s+:(?:\s|$))"
)
# A declaration in code; a variant or a field is a word at the start of its line.
CODE = re.compile(
    rf"\b(?:fn|struct|enum|trait|const|static|mod)\s+({NAME})|^\s*(?:pub\s+)?({NAME})(?:\(.*\)|\s*=.*)?[,:]"
)
# The id of a row of docs/TRACE.md, and a reference to one.
ID = r"[A-Z]+\d+(?:\.\d+)?"
REFERRED = re.compile(rf"\b[Aa]s ({ID}(?:(?:, | and | to ){ID})*)")
# What stands between two names of one list on a page other than docs/TRACE.md.
LISTED = re.compile(r"[\s,]*(?:and\s*)?")
# Words of the language, which are no names of the project.
WORDS = set("requires ensures pub fn mut break match impl bool usize Option Result From".split())


def read(path):
    with open(path, encoding="utf-8") as it:
        return it.read()


def declared_in(pattern, path):
    found = (pattern.search(line) for line in read(path).split("\n"))
    return {name for match in found if match for names in match.groups() if names for name in names.split()}


def words_of(name):
    """The names that a citation as `Type::method` or `&mut Type` is made of."""
    return [] if name.startswith("rt ") else [word for word in re.findall(NAME, name) if word not in WORDS]


class Tree:
    """What each crate declares: in each file of specs/ and proofs/ and in its code; and its must-fail edits."""

    def __init__(self):
        rows = (row.partition("#")[0].partition(":")[0].split() for row in read(f"{ROOT}/crates.txt").split("\n"))
        self.crates = [row[0] for row in rows if row]
        self.files = {}
        self.code = collections.defaultdict(set)
        self.edits = collections.defaultdict(set)
        for crate in self.crates:
            for part in ("specs", "proofs", "src", "must-fail"):
                folder = f"{ROOT}/crates/{crate}/{part}"
                for at, _, names in os.walk(folder):
                    for name in names:
                        self.file(crate, part, os.path.relpath(f"{at}/{name}", folder), f"{at}/{name}")

    def file(self, crate, part, name, path):
        stem, kind = os.path.splitext(name)
        if kind == ".antt":
            self.files[crate, part, stem] = declared_in(DECLARED, path)
        elif kind == ".rt":
            self.code[crate] |= declared_in(CODE, path) | {crate}
        elif kind == ".edit":
            self.edits[crate] |= {stem} | set(re.findall(r"^# ([a-z0-9_]+):", read(path), re.M))

    def specs(self, crate):
        return set().union(*(names for at, names in self.files.items() if at[:2] == (crate, "specs")))

    @functools.cached_property
    def names(self):
        """All that is declared anywhere, the crates and the files."""
        files = {file for _, _, file in self.files}
        return files.union(self.crates, *self.files.values(), *self.code.values())


class Page:
    """A page that is read from the front; what is not there is kept in `missing`."""

    def __init__(self, tree, path, listed):
        self.tree, self.path, self.listed = tree, path, listed
        self.line, self.checked, self.missing = 0, 0, []
        crate = "|".join(sorted(tree.crates, key=len, reverse=True))
        self.tokens = re.compile(
            rf"`(?P<name>[^`]+)`"
            rf"|\(?\b(?P<crate>{crate}): (?P<at>[A-Z]\w*)\b\)?"
            rf"|\((?P<file>[A-Z]\w*)\)"
            rf"|\b(?P<crates>(?:{crate})(?:, (?:{crate}))*)(?=:\s)"
            rf"|(?<![\w/.])(?P<edited>{crate if listed else '(?!tests|docs|crates|bindings)[a-z_]+'})"
            rf"/(?P<edits>[a-z0-9_]+(?:, [a-z0-9_]+(?=[,;|]|\s*$))*)"
            rf"|(?P<end>;)"
        )

    def expect(self, here, what):
        self.checked += 1
        if not here:
            self.missing.append(f"{self.path}:{self.line}: {what}")

    def in_file(self, name, crate, part, file):
        if name.startswith("."):
            self.expect(name[1:] in self.tree.specs(crate), f"{name} is no field in crates/{crate}/specs")
        else:
            here = name in self.tree.files.get((crate, part, file), ())
            self.expect(here, f"{name} is not declared in crates/{crate}/{part}/{file}.antt")

    def in_code(self, name, crates):
        crates = crates or self.tree.crates
        here = any(self.tree.code[crate].issuperset(words_of(name)) for crate in crates)
        self.expect(here or name in self.tree.crates, f"{name} is not in the code of {', '.join(crates)}")

    def in_crates(self, name, _):
        self.expect(self.tree.names.issuperset(words_of(name)), f"{name} is not declared in any crate")

    def place(self, names, crate, part, file):
        """Names that a file follows; without names, the file itself is cited."""
        self.expect((crate, part, file) in self.tree.files, f"there is no crates/{crate}/{part}/{file}.antt")
        for name in names:
            self.in_file(name, crate, part, file)

    def paths(self, text):
        for path in PATH.findall(text):
            if not re.search("CRATE|NAME", path):
                self.expect(glob.glob(f"{ROOT}/{path.rstrip('.')}"), f"there is no {path}")

    def read(self, text, part, unplaced):
        """A cell of a table, or a paragraph. `part` is where a name with a file is declared; one with no file is handed
        to `unplaced`, with the crates that stand before it."""
        self.paths(text)
        crates, names, placed, end = [], [], False, 0
        for token in self.tokens.finditer(f"{text};"):
            found, apart = token.groupdict(), self.listed and not LISTED.fullmatch(text[end : token.start()])
            end = token.end()
            if apart or found["crates"] or found["end"]:
                for name in [] if placed else names:
                    unplaced(name, crates)
                names, placed = [], False
            if found["name"]:
                names, placed = ([] if placed else names) + [found["name"]], False
            elif found["at"] or found["file"]:
                self.place(names, found["crate"] or (crates or [""])[0], part, found["at"] or found["file"])
                placed = True
            elif found["edited"]:
                for edit in found["edits"].split(", "):
                    here = edit in self.tree.edits[found["edited"]]
                    self.expect(here, f"crates/{found['edited']}/must-fail has no {edit}")
            elif found["crates"]:
                crates = found["crates"].split(", ")


def trace(tree, path):
    page = Page(tree, path, False)
    specs, proofs, code = ("specs", page.in_crates), ("proofs", page.in_crates), ("specs", page.in_code)
    columns = (specs, proofs, code, specs)
    rows = read(f"{ROOT}/{path}").split("\n")
    ids = {name for row in rows if row.startswith("|") for name in re.findall(ID, row.split("|")[1])}
    for page.line, row in enumerate(rows, 1):
        cells = row.split("|")[3:-1]
        if len(cells) == len(columns):
            for cell, (part, unplaced) in zip(cells, columns):
                page.read(cell, part, unplaced)
            for name in re.findall(ID, " ".join(REFERRED.findall(row))):
                page.expect(name in ids, f"there is no row {name}")
        else:
            page.paths(row)
    return page


def prose(tree, path, every_name):
    """Paragraph by paragraph; a row of a table is one."""
    page = Page(tree, path, True)

    def unplaced(name, crates):
        if every_name and re.fullmatch(rf"{NAME}(?:::{NAME})*", name):
            page.in_crates(name, crates)

    text = []
    for number, line in enumerate(read(f"{ROOT}/{path}").split("\n") + [""], 1):
        if text and (not line.strip() or line.startswith("|")):
            page.read(" ".join(text), "specs", unplaced)
            text = []
        if not text:
            page.line = number
        text += [line] if line.strip() else []
    return page


def main():
    tree = Tree()
    if sys.argv[1:]:
        pages = [trace(tree, os.path.relpath(sys.argv[1], ROOT))]
    else:
        pages = [trace(tree, "docs/TRACE.md"), prose(tree, "docs/ARCHITECTURE.md", True)]
        pages += [prose(tree, path, False) for path in ("docs/ANSWERS.md", "README.md")]
    for page in pages:
        print("".join(f"{what}\n" for what in page.missing), end="")
        print(f"{page.path}: {page.checked} names, {len(page.missing)} of them are not there")
    return 1 if any(page.missing for page in pages) else 0


if __name__ == "__main__":
    sys.exit(main())

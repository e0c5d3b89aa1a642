#!/usr/bin/env python3
"""Holds docs/DEMANDS.md to the repository: every must-fail edit, definition, function and clause that it names is there, and every must-fail edit
of the repository is on the page.

usage: demands_test.py ROOT

In a cell `crate/edit`, `crate: File.name` and `crate::function` name the crate, and what stands bare behind one is of the same crate, or file. A
clause is named behind that word, and is one of a crate whose function the cell names.
"""
import pathlib
import re
import sys

EDIT = re.compile(r"([a-z][a-z0-9_]*)/([a-z0-9_]+)")
DEFINITION = re.compile(r"([a-z][a-z0-9_]*): ([A-Z][A-Za-z]*)(?:\.([A-Za-z0-9_]+))?")
FUNCTION = re.compile(r"([a-z][a-z0-9_]*)::(?:[a-z_]+::)*([A-Za-z_0-9]+)")
NAME = re.compile(r"`([^`]+)`")
CLAUSES = re.compile(r"clauses? (`[a-z_]+`(?:, `[a-z_]+`)*)")


def is_file(path, fault, wrong):
    if not path.is_file():
        wrong.append(fault)
        return False
    return True


def is_in(path, word, fault, wrong):
    if not re.search(rf"(?<![\w-]){re.escape(word)}(?![\w-])", path.read_text(encoding="utf-8")):
        wrong.append(fault)


class Page:
    """What the page has named so far, and what is wrong with it."""

    def __init__(self, crates):
        self.crates = crates
        self.edits = set()
        self.definitions = 0
        self.functions = 0
        self.wrong = []

    def edit(self, crate, name):
        self.edits.add((crate, name))
        is_file(self.crates / crate / "must-fail" / f"{name}.edit", f"there is no edit {crate}/{name}", self.wrong)

    def definition(self, crate, file, name):
        self.definitions += 1
        path = self.crates / crate / "specs" / f"{file}.antt"
        if is_file(path, f"there is no {crate}: {file}", self.wrong) and name:
            is_in(path, name, f"{crate}: {file} has no {name}", self.wrong)

    def function(self, crate, name):
        self.functions += 1
        sources = sorted((self.crates / crate / "src").glob("**/*.rt"))
        if not any(re.search(rf"\b(?:fn|struct|enum) {name}\b", source.read_text(encoding="utf-8")) for source in sources):
            self.wrong.append(f"{crate} has no function or type {name}")

    def clauses(self, text):
        crates = {found[1] for name in NAME.findall(text) if (found := FUNCTION.fullmatch(name))}
        sources = [source for crate in crates for source in (self.crates / crate / "src").glob("**/*.rt")]
        for names in CLAUSES.findall(text):
            for name in NAME.findall(names):
                if not any(f"ensures {name} {{" in source.read_text(encoding="utf-8") for source in sources):
                    self.wrong.append(f"{', '.join(sorted(crates))} have no clause {name}")

    def cell(self, text):
        self.clauses(text)
        last = None
        for name in NAME.findall(CLAUSES.sub("", text)):
            if found := EDIT.fullmatch(name):
                if (self.crates / found[1]).is_dir():
                    self.edit(*found.groups())
                    last = lambda word, crate=found[1]: self.edit(crate, word)
                elif not (self.crates.parent / name).exists():
                    self.wrong.append(f"there is no crate {found[1]}, and nothing at {name}")
            elif found := DEFINITION.fullmatch(name):
                self.definition(*found.groups())
                last = lambda word, crate=found[1], file=found[2]: self.definition(crate, file, word)
            elif found := FUNCTION.fullmatch(name):
                self.function(*found.groups())
                last = lambda word, crate=found[1]: self.function(crate, word)
            elif last and name != "requires" and re.fullmatch(r"[A-Za-z0-9_]+", name):
                last(name)


def main():
    root = pathlib.Path(sys.argv[1])
    crates = root / "crates"
    page = Page(crates)
    for line in (root / "docs" / "DEMANDS.md").read_text(encoding="utf-8").splitlines():
        if line.startswith("|"):
            for cell in line.split("|"):
                page.cell(cell)
    for path in sorted(crates.glob("*/must-fail/*.edit")):
        if (path.parent.parent.name, path.stem) not in page.edits:
            page.wrong.append(f"the edit {path.parent.parent.name}/{path.stem} is not on the page")
    for line in page.wrong:
        print(f"docs/DEMANDS.md: {line}", file=sys.stderr)
    if page.wrong or not (page.edits and page.definitions and page.functions):
        sys.exit(1)
    print(f"docs/DEMANDS.md: {len(page.edits)} edits, {page.definitions} definitions and {page.functions} functions, as it says")


main()

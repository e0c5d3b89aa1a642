#!/usr/bin/env python3
"""Holds docs/ASSUMPTIONS.md to the repository: each file of definitions that it names is there with the number of lines that it gives, no
file of definitions is left out. Where the toolchain is one that the page does not name, it says so: what the gate then passes with is for
whoever reads its output, and no fault of the repository.

usage: assumptions_test.py ROOT
"""
import pathlib
import re
import subprocess
import sys

ROW = re.compile(r"\| [^|]* \| (`[^|]*\.antt`) \| (\d+) \|")
FILE = re.compile(r"`([a-z][a-z0-9_]*/specs/[A-Za-z]+\.antt)`")
# Definitions of a crate's inside, and the paper's examples: the page names them as crates.
INSIDE = ("rx_join_spec/", "rx_place_check/", "rx_search/", "rx_step/", "demo_board/")


def lines_of(path):
    return len(path.read_text(encoding="utf-8").splitlines())


def main():
    root = pathlib.Path(sys.argv[1])
    page = (root / "docs" / "ASSUMPTIONS.md").read_text(encoding="utf-8")
    crates = root / "crates"
    named = set()
    wrong = []
    for files, count in ROW.findall(page):
        paths = FILE.findall(files)
        named.update(paths)
        lines = sum(lines_of(crates / path) for path in paths)
        if lines != int(count):
            wrong.append(f"{', '.join(paths)}: {lines} lines, and the page says {count}")
    for path in sorted(crates.glob("*/specs/*.antt")):
        name = str(path.relative_to(crates))
        if path.name != "Lib.antt" and name not in named and not name.startswith(INSIDE):
            wrong.append(f"{name} is not on the page")
    version = subprocess.run(["rt", "version"], capture_output=True, text=True, check=True).stdout.strip()
    if f"`{version}`" not in page:
        print(f"docs/ASSUMPTIONS.md: does not name the toolchain of this run, {version}", file=sys.stderr)
    for line in wrong:
        print(f"docs/ASSUMPTIONS.md: {line}", file=sys.stderr)
    if wrong or not named:
        sys.exit(1)
    print(f"docs/ASSUMPTIONS.md: {len(named)} files of definitions, as it says")


main()

#!/usr/bin/env python3
"""Brings the names of definitions and lemmas to the library's spelling, and what is lent to `x.now`, `x.old` and `x.new`.

usage: python3 tools/respell.py [ROOT]

ROOT is the top of the repository, as the kit's port.py leaves it. respelled.tsv beside this file has a row for each
name: the old one, the new one and, where the row holds of one file alone, that file. Functions of src/, exported names,
strings, inputs and outputs keep their names. In comments only names that can't be English are turned.

In a contract `before x` becomes `x.now` where x is a `&`, and `x.old` where it is a `&mut`; `after x` becomes `x.new`.
"""

import glob
import os
import re
import sys

HERE = os.path.dirname(os.path.realpath(__file__))
NAME = re.compile(r"«[^»]*»|[A-Za-zℕ_][\w\-'′₀-₉·]*")
COMMENT = re.compile(r"(?:^|(?<=[\s;{}]))(?:--(?=\s|$)|//)")
STRING = re.compile(r'b?"(?:[^"\\]|\\.)*"')
FUNCTION = re.compile(r"\bfn (\w+)(?:<[^>]*>)?\(")
LENT = re.compile(r"\((before|after) ([a-z_]\w*)\)|(?<![\w.-])(before|after) ([a-z_]\w*)")


def rows():
    """Returns the renamings that hold everywhere, and those of each file."""
    everywhere, of_file = {}, {}
    with open(os.path.join(HERE, "respelled.tsv"), encoding="utf-8") as table:
        for line in table:
            old, new, *path = line.rstrip("\n").split("\t")
            (of_file.setdefault(path[0], {}) if path else everywhere)[old] = new
    return everywhere, of_file


def renamed(line, names):
    """Returns the line with each whole name turned; a comment keeps the words that may be English."""
    at = COMMENT.search(STRING.sub(lambda m: "_" * len(m.group(0)), line))
    code, comment = (line[: at.start()], line[at.start() :]) if at else (line, "")
    turn = lambda m: names.get(m.group(0), m.group(0))
    parts, last = [], 0
    for text in STRING.finditer(code):
        parts += [NAME.sub(turn, code[last : text.start()]), text.group(0)]
        last = text.end()
    parts.append(NAME.sub(turn, code[last:]))
    sure = lambda m: turn(m) if re.search(r"[a-z0-9][A-Z]", m.group(0)) else m.group(0)
    return "".join(parts) + NAME.sub(sure, comment)


def lent(text):
    """Returns the source with what its contracts say of lent things as `x.now`, `x.old` and `x.new`."""
    heads = list(FUNCTION.finditer(text))
    out, last = [], 0
    for head, following in zip(heads, heads[1:] + [None]):
        end = text.find("\n{", head.end())
        stop = following.start() if following else len(text)
        if end < 0 or end > stop:
            continue
        kinds = {}
        close = re.compile(r"\n\) |\)(?: ->|\n)").search(text, head.end())
        for name, kind in re.findall(r"(\w+): &(?:'\w+ )?(mut )?", text[head.end() : close.start() + 1]):
            kinds[name] = bool(kind)

        def turn(m, kinds=kinds):
            word, name = m.group(1) or m.group(3), m.group(2) or m.group(4)
            if name not in kinds:
                return m.group(0)
            if word == "after":
                return name + ".new"
            return name + (".old" if kinds[name] else ".now")

        out += [text[last : close.end()], LENT.sub(turn, text[close.end() : end])]
        last = end
    return "".join(out) + text[last:]


def without_import(text):
    """Returns the source without the words of `Lent` that it no longer cites."""

    def turn(m):
        rest = text[: m.start()] + text[m.end() :]
        words = [w.strip() for w in m.group(2).split(",")]
        kept = [w for w in words if re.search(rf"(?<![\w.]){w}(?=[ \n)])", re.sub(r"//[^\n]*", "", rest))]
        return f"{m.group(1)}{{{', '.join(kept)}}};\n" if kept else ""

    return re.sub(r"(ghost use Rattle\.buffer\.specs\.Lent\.)\{([^}]*)\};\n", turn, text)


def main(root):
    everywhere, of_file = rows()
    for kind in ("src/**/*.rt", "specs/**/*.antt", "proofs/**/*.antt"):
        for path in sorted(glob.glob(os.path.join(root, "crates", "*", kind), recursive=True)):
            with open(path, encoding="utf-8") as f:
                old = f.read()
            own = of_file.get(os.path.relpath(path, root), {})
            text = "".join(renamed(renamed(line, own), everywhere) for line in old.splitlines(keepends=True))
            if path.endswith(".rt"):
                text = without_import(lent(text))
            if text != old:
                with open(path, "w", encoding="utf-8") as f:
                    f.write(text)


if __name__ == "__main__":
    main(sys.argv[1] if len(sys.argv) > 1 else ".")

#!/usr/bin/env python3
"""Lists the places in src/ where code reads like an older Rattle, by the points of docs/DESIGN-PASS.md.

usage: tools/places.py [POINT..] [--list]     at the top of the repository

Prints how many places each point has, and with --list where they are. It goes by text: it finds candidates, and
docs/DESIGN-PASS.md says what became of each.
"""
import collections
import pathlib
import re
import sys

FUNCTION = re.compile(r"^(?:pub )?(?:const )?(?:extern \"C\" )?fn (\w+)", re.M)


def sources():
    for path in sorted(pathlib.Path("crates").glob("*/src/**/*.rt")):
        yield path, path.read_text()


def functions(text):
    """Each function at the left margin, or in an impl, with its name, its head, its contract and its body."""
    for found in re.finditer(r"^( *)(?:pub )?(?:extern \"C\" )?fn (\w+)(.*?)^\1}", text, re.M | re.S):
        name, rest = found.group(2), found.group(3)
        brace = re.search(r"^" + found.group(1) + r"\{|\{$", rest, re.M)
        cut = brace.start() if brace else len(rest)
        head, body = rest[:cut], rest[cut:]
        signature = re.split(r"\n\s+(?:requires|ensures)", head)[0]
        yield name, signature, head[len(signature):], body, text.count("\n", 0, found.start()) + 1


def each_line(pattern, skip=None):
    for path, text in sources():
        for number, line in enumerate(text.split("\n"), 1):
            code = line.split("//")[0]
            if re.search(pattern, code) and not (skip and re.search(skip, code)):
                yield f"{path}:{number}: {line.strip()}"


def own_results():
    """1a: enums with a variant that says there is nothing, or that something is refused, beside one that has a value."""
    bad = r"\b(No[A-Z]\w*|Not[A-Z]\w*|Nowhere|Passed|Failed|Refused|Rejected|Fails|OutOfRange|LengthsDiffer)\b"
    for path, text in sources():
        for found in re.finditer(r"^(?:pub )?enum (\w+) \{(.*?)^\}", text, re.M | re.S):
            if re.search(bad, re.sub(r"//.*", "", found.group(2))) and found.group(1) not in ("Form", "ReplyKind"):
                yield f"{path}: enum {found.group(1)}"


def flags():
    """1b: a field or variable that is a flag with its value beside it."""
    return each_line(r"^\s*(pub )?(good|complete|given|more|due|has_\w+|half|title|setting|board|held): bool,")


def numbers():
    """1c: constants that number kinds, codes or outcomes, and variants that carry a code as a number."""
    limits = "VERSION|LONGEST|SMALLEST|PLACES|PLACE_ROOM|PAIRS|MOST|FILL|TICK|SPARE|MEMORY_"
    return each_line(rf"\bconst (?!{limits})\w+: u(8|16|32|size) =|^\s+\w+\(u16\),")


def twins():
    """2: functions of one crate with the same text but for names of functions, numbers and types."""
    groups = collections.defaultdict(list)
    for path, text in sources():
        for name, signature, _, body, line in functions(text):
            plain = re.sub(r"//.*", "", body)
            shape = re.sub(r"\b(0x[0-9A-Fa-f]+|\d+)\w*\b", "#", plain)
            shape = re.sub(r"\b[A-Za-z_][\w:]*(?=\()", "f", shape)
            shape = re.sub(r"\b[A-Z]\w*(::\w+)*", "T", shape)
            shape = re.sub(r"\s+", " ", shape)
            if len(shape) > 60:
                groups[shape].append(f"{path}:{line}: {name}")
    for places in groups.values():
        if len(places) > 1:
            yield from places


def loops():
    """3: loops that count an index by hand."""
    return each_line(r"^\s*while ")


def by_hand():
    """4a: a match that only turns a number into a variant or a variant into a number, or orders two values."""
    for path, text in sources():
        for name, _, _, body, line in functions(text):
            arms = re.findall(r"=> ([^,{]+),$", body, re.M)
            to_enum = re.search(r"^\s+0x[\w.=x]+ => \w+::\w+,$", body, re.M)
            to_number = re.search(r"^\s+\w+::\w+(\(\w*\))? => (0x)?[0-9A-F]+,$", body, re.M)
            if arms and (to_enum or to_number):
                yield f"{path}:{line}: {name}"
            elif re.search(r"if (\w+) < (\w+) \{ \1( as \w+)? \} else \{ \2 \}|if b \{ 1 \} else \{ 0 \}", body):
                yield f"{path}:{line}: {name}"
    yield from each_line(r"\bfn (echo|digit\b|digit_value|print_(?!frame|some|unknown))")


def laid_out():
    """4b: functions that take a number apart into bytes, or put one together, by hand."""
    for path, text in sources():
        for name, _, _, body, line in functions(text):
            if re.search(r"/ (256|65536|16777216|0x1\w+)\b.*as u8|% 256\) as u8|>> 24|<< 24|\* (256|65536) \+", body):
                yield f"{path}:{line}: {name}"


def together():
    """5: three or more parameters in a row that three or more functions have; requires that three or more have."""
    rows = collections.Counter()
    where = collections.defaultdict(set)
    facts = collections.defaultdict(set)
    for path, text in sources():
        for name, signature, contract, _, line in functions(text):
            parameters = re.findall(r"(\w+): ([^,()]+?)(?=,|\)|$)", signature)
            for k in range(len(parameters) - 2):
                row = tuple(p[0] for p in parameters[k:k + 3])
                where[row].add(f"{path}:{line}: {name}")
            for fact in re.findall(r"requires \{ (.*?) \}\n", contract + "\n", re.S):
                for part in re.split(r"\s+×\s+", fact):
                    facts[re.sub(r"\s+", " ", part.strip("() "))].add(f"{path}:{line}: {name}")
    for row, places in sorted(where.items()):
        if len(places) > 2:
            yield f"{', '.join(row)}: {len(places)} functions"
    for fact, places in sorted(facts.items()):
        if len(places) > 2:
            yield f"requires {fact}: {len(places)} functions"


def buffers():
    """6: an array with a length beside it."""
    for path, text in sources():
        for found in re.finditer(r"^(?:pub )?struct (\w+)[^{]*\{(.*?)^\}", text, re.M | re.S):
            if re.search(r"\[u8; \d+\]", found.group(2)) and re.search(r"\blen\b", found.group(2)):
                yield f"{path}: struct {found.group(1)}"


def proofs():
    """8: files of proofs of functions, and lemma files."""
    for path in sorted(pathlib.Path("crates").glob("*/proofs/**/*.antt")):
        yield f"{path}: {len(path.read_text().splitlines())} lines"


def switches():
    """7: a flag parameter that chooses what is done."""
    return each_line(r"\b(plain|wanted|writes|present|pending): bool\b.*\)|\b(plain|wanted|writes): bool\b")


POINTS = {
    "1a": own_results, "1b": flags, "1c": numbers, "2": twins, "3": loops,
    "4a": by_hand, "4b": laid_out, "5": together, "6": buffers, "7": switches, "8": proofs,
}


def main(arguments):
    listed = "--list" in arguments
    wanted = [a for a in arguments if a != "--list"] or list(POINTS)
    for point in wanted:
        places = list(POINTS[point]())
        print(f"{point}: {len(places)}  {POINTS[point].__doc__.split(': ', 1)[1]}")
        if listed:
            for place in places:
                print(f"    {place}")


if __name__ == "__main__":
    main(sys.argv[1:])

#!/usr/bin/env python3
"""Figures out of what the test images print, as tables for docs/PERFORMANCE.md, held to their limits.

usage: figures.py OUT TARGET..

OUT/instructions-TARGET.txt and OUT/stack-TARGET.txt are what the images printed.
"""
import re
import sys

# The most bytes of stack that a call may take.
STACK_LIMIT = 1024

# The most instructions: on a Cortex-M3 what the first trial took, and on a Cortex-M0 70 microseconds at 48 MHz.
GOALS = {
    "thumbv7m": {"ignored frame": 424, "read of 2 bytes": 810, "write of 2 bytes": 680, "rejected datagram": 553},
    "thumbv6m": {"": 3000},
}
# Rows of a board that has all that a board may have. They are reported, and have no goal.
FULL = "16 spaces"


def text_of(folder, name, target):
    with open(f"{folder}/{name}-{target}.txt", encoding="ascii") as file:
        return file.read()


def instructions(text):
    """{name: (instructions of the library's call, of the plain board's)}."""
    step, repeats = map(int, re.search(r"^step: (\d+) thousandths, (\d+) calls$", text, re.M).groups())
    rows = {}
    for name, library, plain, loop in re.findall(r"^(.*): (\d+) (\d+) (\d+)$", text, re.M):
        rows[name] = tuple(round((int(n) - int(loop)) * step / 1000 / repeats) for n in (library, plain))
    return rows


def in_all(rows):
    """The nine frames of a write in one row, and the last of them, which does the writing."""
    nine = [name for name in rows if name.startswith("write of 64 bytes, frame")]
    together = {}
    for name, figures in rows.items():
        if name == nine[-1]:
            together["write of 64 bytes, the last of nine frames"] = figures
            together["write of 64 bytes, all nine frames"] = tuple(sum(rows[n][i] for n in nine) for i in (0, 1))
        elif name not in nine:
            together[name] = figures
    return together


def table(title, columns, rows):
    print(f"| {title} | " + " | ".join(columns) + " |")
    print("| --- |" + " ---: |" * len(columns))
    for name, figures in rows:
        print(f"| {name} | " + " | ".join(figures) + " |")
    print()


def main():
    folder, targets = sys.argv[1], sys.argv[2:]
    counts = {target: instructions(text_of(folder, "instructions", target)) for target in targets}
    stacks = {target: dict(re.findall(r"^(bujorelm_\w+): (\d+)$", text_of(folder, "stack", target), re.M)) for target in targets}
    short = {target: in_all(counts[target]) for target in targets}
    table(
        "instructions, the library's and the plain board's",
        targets,
        [(name, [f"{short[target][name][0]:,} / {short[target][name][1]:,}" for target in targets]) for name in short[targets[0]]],
    )
    nodes = [re.search(r"^struct bujorelm_node: (\d+)$", text_of(folder, "instructions", target), re.M).group(1) for target in targets]
    table("RAM in bytes", targets, [("`struct bujorelm_node`, with pool, reply buffer and room for ten frames", nodes)])
    table("stack in bytes", targets, [(f"`{name}`", [f"{int(stacks[target][name]):,}" for target in targets]) for name in stacks[targets[0]]])
    wrong = []
    for target in targets:
        for name, (library, _) in counts[target].items():
            goals = [goal for start, goal in GOALS.get(target, {}).items() if name.startswith(start) and (start or not name.startswith(FULL))]
            wrong += [f"{name} on {target}: {library} instructions, over {goal}" for goal in goals if library > goal]
        wrong += [f"{name} on {target}: {used} bytes of stack" for name, used in stacks[target].items() if int(used) > STACK_LIMIT]
    if wrong:
        sys.exit("\n".join(wrong))


main()

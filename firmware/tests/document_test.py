#!/usr/bin/env python3
"""docs/FIRMWARE.md: its commands print what it says, and its sketch of a CAN driver compiles in the place of can_uart.c.

usage: document_test.py ROOT OUT

What the commands of the page need beside qemu must be there: the archives, and Debian's packages.
"""
import os
import re
import shutil
import socket
import subprocess
import sys

ROOT, OUT = (os.path.abspath(word) for word in sys.argv[1:3])
# Commands that prove, or install: the gate has done so.
DONE = ("apt-get ", "firmware/build ", "host/build ")


def fail(words):
    sys.exit(f"document_test.py: {words}")


def blocks(text):
    """(language, text) of each block of code."""
    return re.findall(r"^```(\w*)\n(.*?)^```$", text, re.M | re.S)


def free_port():
    with socket.socket() as s:
        s.bind(("127.0.0.1", 0))
        return str(s.getsockname()[1])


def test_commands(found):
    commands = ["set -e"]
    expected = ""
    for (language, text), (following, printed) in zip(found, found[1:] + [("", "")]):
        if language == "sh":
            commands += [line for line in text.splitlines() if not line.startswith(DONE)]
            if following == "":
                expected += printed
    script = "\n".join(commands).replace("12021", free_port()).replace("target/settings.bin", os.path.join(OUT, "document-settings.bin"))
    if os.path.exists(os.path.join(OUT, "document-settings.bin")):
        os.remove(os.path.join(OUT, "document-settings.bin"))
    got = subprocess.run(["bash", "-c", script], cwd=ROOT, capture_output=True, text=True, timeout=120, check=False)
    if got.returncode != 0 or got.stdout != expected:
        fail(f"the commands end with status {got.returncode} and print\n{got.stdout}{got.stderr}\nand not\n{expected}")


def test_sketch(found):
    sketches = [text for language, text in found if language == "c"]
    if len(sketches) != 1:
        fail(f"the page has {len(sketches)} programs in C, and not one")
    sources = os.path.join(OUT, "sketch")
    shutil.rmtree(sources, ignore_errors=True)
    shutil.copytree(os.path.join(ROOT, "firmware", "example"), sources)
    os.remove(os.path.join(sources, "can_uart.c"))
    with open(os.path.join(sources, "can_bxcan.c"), "w", encoding="utf-8") as file:
        file.write(sketches[0])
    words = [os.path.join(ROOT, "firmware", "example", "build"), os.path.join(OUT, "sketch.elf")]
    if subprocess.run(words, env=dict(os.environ, SOURCES=sources), check=False).returncode != 0:
        fail("the sketch does not compile in the place of can_uart.c")


with open(os.path.join(ROOT, "docs", "FIRMWARE.md"), encoding="utf-8") as page:
    FOUND = blocks(page.read())
test_sketch(FOUND)
test_commands(FOUND)
print("docs/FIRMWARE.md: its commands print what it says, and its sketch compiles")

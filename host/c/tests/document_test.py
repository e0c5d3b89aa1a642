"""Holds docs/DRIVER.md to what it speaks of: its program is the example and is built by the line that the document gives, its other pieces of
C stand so in programs that are compiled and tested, and every output and figure in it is what comes out.

Usage: python3 document_test.py DRIVER.md ROOT OUT
"""

import os
import re
import subprocess
import sys
import tempfile

DOCUMENT, ROOT, OUT = sys.argv[1:]


def expect(got, wanted, what):
    if got != wanted:
        sys.exit(f"document_test.py: {what}: got\n{got}\nwanted\n{wanted}")


def output(words, cwd=None):
    done = subprocess.run(words, stdout=subprocess.PIPE, check=False, text=True, cwd=cwd, env={**os.environ, "ROOT": ROOT})
    expect(done.returncode, 0, f"the status of {words}")
    return done.stdout


def source(name):
    with open(os.path.join(ROOT, name), encoding="utf-8") as file:
        return file.read()


def unwrapped(text):
    return " ".join(text.split())


def check_archive(text):
    """What the document says of the archive."""
    archive = os.path.join(ROOT, "target/staticlib/libbujorelm.a")
    rows = [row.split() for row in output(["size", archive]).splitlines()[1:]]
    code = round(sum(int(row[0]) for row in rows) / 1000)
    expect(int(re.search(r"which has (\d+) KB of code", unwrapped(text)).group(1)), code, "the archive's KB of code and constants")
    expect([row[1:3] for row in rows], [["0", "0"]] * len(rows), "the archive's data")
    code = output(["objdump", "-d", archive])
    expect(("%xmm" in code, "%ymm" in code, "%zmm" in code), (True, False, False), "the archive's vector registers")


def check_errors(text):
    """The caller's errors: the names and numbers of the header, in its order."""
    header = re.findall(r"^    (BUJORELM_ERROR_B(\d+)_\w+) = \2,?$", source("host/c/include/bujorelm.h"), re.M)
    expect(len(header), 10, "the caller's errors in the header")
    rows = re.findall(r"^\| (\d+) \| `(BUJORELM_ERROR_B\w+)` \|", text, re.M)
    expect([(name, number) for number, name in rows], header, "the caller's errors in the document")


def check_structs(text):
    """The structs that the library sees, and their sizes: those of the header, in its order."""
    header = re.findall(r"^BUJORELM_SIZE\((\w+), (\d+)\);$", source("host/c/include/bujorelm.h"), re.M)
    rows = re.findall(r"^\| `struct bujorelm_(\w+)`, (\d+) \|", text, re.M)
    expect(rows, header, "the structs and their sizes in the document")


def check_refusals(text, program, build, folder):
    """What the program prints for each error that the document plants in it."""
    rows = re.findall(r"^\| `\.(\w+) = (\w+)`(?: in the (first|second).*?)? \| (B\d+: .*) \|$", text, re.M)
    expect(len(rows), 3, "the errors that the document plants")
    for field, value, which, sentence in rows:
        # The field of the first space or of the second, or the only one of that name.
        found = list(re.finditer(rf"\.{field} = \w+", program))[1 if which == "second" else 0]
        with open(os.path.join(folder, "board.c"), "w", encoding="utf-8") as file:
            file.write(program[:found.start()] + f".{field} = {value}" + program[found.end():])
        output(["sh", "-eu", "-c", build], cwd=folder)
        done = subprocess.run(["./board"], capture_output=True, check=False, text=True, cwd=folder)
        expect((done.returncode, done.stdout, done.stderr), (1, "", f"{sentence}\n"), f"what the program prints with .{field} = {value}")


def check_broken(text, host):
    """The frames of a broken datagram, and what the board answers to each. Behind each goes a line that is no frame, so that an answer is known from
    the next one's."""
    rows = re.findall(r"^\| `(:X\w+;)` \| [^|]+ \| (?:`(:X\w+;)`|nothing) \|$", text, re.M)
    expect(len(rows), 8, "the frames of a broken datagram")
    done = subprocess.run([host], input="".join(f"{line}\n?\n" for line, _ in rows), stdout=subprocess.PIPE, check=True, text=True)
    wanted = "".join(f"{answer}\n?\n" if answer else "?\n" for _, answer in rows)
    expect(done.stdout, wanted, "what the board answers to a broken datagram")


def check_host(text):
    """The bounds of the host."""
    host = source("host/c/host.c")
    for bound in ("CONNECTIONS_MAX 64u", "OUTPUT_MAX (1024u * 1024u)", "WAIT_MAX 5000"):
        expect(f"#define {bound}\n" in host, True, f"the host's {bound}")
    for words in ("up to 64 tools", "1 MiB waits", "for five seconds", "five seconds after the end"):
        expect(words in unwrapped(text), True, f"the words {words!r}")


def main():
    with open(DOCUMENT, encoding="utf-8") as file:
        text = file.read()
    blocks = re.findall(r"^```(\w*)\n(.*?)^```$", text, re.M | re.S)
    shell = [block for kind, block in blocks if kind == "sh"]
    program = [block for kind, block in blocks if kind == "c"]
    outputs = [block for kind, block in blocks if kind == ""]
    expect((len(shell), len(program), len(outputs)), (3, 3, 2), "the blocks of the document")
    expect(shell[0], "host/build bujorelm\n", "the line that builds the library")

    expect(program[0], source("host/c/example/minimal.c"), "the program in the document")
    expect(program[1] in source("host/c/example/socketcan.c"), True, "the header of a frame from SocketCAN, as in the example")
    expect(program[2] in source("host/c/host.c"), True, "the use of the line splitter, as in the host")
    check_archive(text)
    check_errors(text)
    check_structs(text)
    check_host(text)
    for name in ("example", "example-sanitized"):
        expect(output([os.path.join(OUT, name)]), outputs[0], f"what {name} prints")

    # As a reader does it: an empty folder, and nothing but the lines of the document.
    with tempfile.TemporaryDirectory() as folder:
        with open(os.path.join(folder, "board.c"), "w", encoding="utf-8") as file:
            file.write(program[0])
        output(["sh", "-eu", "-c", shell[1]], cwd=folder)
        expect(output(["./board"], cwd=folder), outputs[0], "what the program prints")
        expect(output(["sh", "-eu", "-c", shell[2]], cwd=folder), outputs[1], "what the host prints")
        check_broken(text, os.path.join(folder, "host"))
        check_refusals(text, program[0], shell[1], folder)

    # The figures of the stack. They differ a little between compilers, so only the calls and the bound must agree.
    test = source("host/c/tests/stack.c")
    calls = re.findall(r'^    \{"(\w+)", call_\w+\},$', test, re.M)
    bound = int(re.search(r"^#define BOUND (\d+)u$", test, re.M).group(1))
    rows = re.findall(r"^\| `(bujorelm_\w+)` \|((?: [\d,]+ \|){5})$", text, re.M)
    expect([name for name, _ in rows], calls, "the calls in the table of the stack")
    for name, row in rows:
        figures = [int(figure.replace(",", "")) for figure in re.findall(r"[\d,]+", row)]
        expect(max(figures) <= bound, True, f"the figures of {name} within the bound")
    words = f"fails above {bound:,} bytes"
    expect(words in unwrapped(text), True, f"the words {words!r}")
    print("document_test.py: docs/DRIVER.md holds")


main()

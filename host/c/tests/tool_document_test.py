"""Holds docs/TOOL.md to what it speaks of: its program is the example and is built by the line that the document gives, its other pieces of C
stand so in the bench tool and in the example that changes single bits, its numbers are the header's, and every output and figure in it is what
comes out. What that example does with words and images that the document does not give it is tested here too.

Usage: python3 tool_document_test.py TOOL.md ROOT OUT
"""

import os
import re
import signal
import subprocess
import sys
import tempfile

DOCUMENT, ROOT, OUT = map(os.path.abspath, sys.argv[1:])

# How long a block of the document may take, in seconds.
PATIENCE = 60


def expect(got, wanted, what):
    if got != wanted:
        sys.exit(f"tool_document_test.py: {what}: got\n{got}\nwanted\n{wanted}")


def source(name):
    with open(os.path.join(ROOT, name), encoding="utf-8") as file:
        return file.read()


def unwrapped(text):
    return " ".join(text.split())


def save(folder, text):
    with open(os.path.join(folder, "ask.c"), "w", encoding="utf-8") as file:
        file.write(text)


def output(script, folder):
    """All that a block of the document prints, as a reader's shell runs it. What it has left running ends with it."""
    with subprocess.Popen(["sh", "-eu", "-c", script], stdout=subprocess.PIPE, stderr=subprocess.STDOUT, text=True, cwd=folder,
                          env={**os.environ, "ROOT": ROOT}, start_new_session=True) as shell:
        try:
            text = shell.communicate(timeout=PATIENCE)[0]
        except subprocess.TimeoutExpired:
            os.killpg(shell.pid, signal.SIGKILL)
            sys.exit(f"tool_document_test.py: does not end: {script}")
    expect((shell.returncode, text if shell.returncode else ""), (0, ""), f"the status of {script}")
    return text


def check_counts(text, program, build, folder):
    """What the program prints with each count that the document gives it."""
    rows = re.findall(r"^\| (\d+) \| (W1: .*) \|$", text, re.M)
    expect(len(rows), 3, "the counts that the document gives")
    for count, sentence in rows:
        save(folder, program.replace("#define COUNT 16\n", f"#define COUNT {count}\n"))
        output(build, folder)
        done = subprocess.run(["./ask"], stdin=subprocess.DEVNULL, capture_output=True, check=False, text=True, cwd=folder, timeout=PATIENCE)
        expect((done.returncode, done.stdout, done.stderr), (1, "", f"{sentence}\n"), f"what the program prints with a count of {count}")


def lines_of(program, lines):
    """What a program makes of lines of standard input, as lines."""
    done = subprocess.run([program], input="".join(f"{line}\n" for line in lines), stdout=subprocess.PIPE, check=True, text=True, timeout=PATIENCE)
    return done.stdout.splitlines()


def changes(words, status, sentence):
    """The lines that the example prints for its words. The status and what it says must be these."""
    done = subprocess.run([f"{OUT}/change-sanitized", *words], capture_output=True, check=False, text=True, timeout=PATIENCE)
    expect((done.returncode, done.stderr), (status, f"{sentence}\n" if sentence else ""), f"what the example says to {words}")
    return done.stdout.splitlines()


def check_change(text):
    """What the example prints for the images that the document gives it, and what the document says of plain writes."""
    rows = re.findall(r"^\| `(\w+ \w+ \w+ \w+)` \| (.*) \| (\d) \|$", text, re.M)
    expect(len(rows), 2, "the images that the document gives")
    for words, sentence, status in rows:
        expect(changes(words.split(), int(status), sentence), [], f"what the example sends for {words}")
    first, second, left = re.search(r"plain writes of (\w\w) and of (\w\w) it would be (\w\w),", unwrapped(text)).groups()
    lines = [f":X1A22B456N200100000000{first};", f":X1A22B456N200100000000{second};", ":X1A22B456N20410000000001;"]
    expect(lines_of(f"{OUT}/host", lines)[-1], f":X1A45622BN205100000000{left};", "what is read behind two plain writes")


def check_images():
    """All of space 0xFE, from zeros to other bytes: two masked writes, behind which the board has these bytes."""
    after = bytes(3 * i + 1 for i in range(48))
    lines = changes(["0xFE", "0", "00" * 48, after.hex()], 0, "")
    expect([line[:4] for line in lines], [":X1B"] + [":X1C"] * 7 + [":X1D"] + [":X1B"] + [":X1C"] * 3 + [":X1D"], "the frames of 48 bytes")
    answers = lines_of(f"{OUT}/host", [*lines, ":X1A22B456N20420000000030;"])
    expect(answers[:3], [":X19A2822BN045600;", ":X19A2822BN045600;", ":X19A2822BN045680;"], "the answers to two masked writes and a read")
    expect("".join(line[11:-1] for line in answers[3:]), f"205200000000{after.hex().upper()}", "what the board has behind them")
    expect(changes(["254", "0xFFFFFFFF", "f0", "0F"], 0, ""), [":X1A22B456N200AFFFFFFFFFF0F;"], "the frame for the last address")


def check_words():
    """Words that are wrong: nothing is sent."""
    usage = "usage: change SPACE ADDRESS BEFORE AFTER, the last two in hex digits, and all of it within 32 bits of address"
    for line in ("", "0xFD 0 00", "0xFD 0 00 01 02", "256 0 00 01", "-1 0 00 01", "0xFD 0x100000000 00 01", "0xFD 0x 00 01", "0xFD 1x 00 01",
                 "0xFD 0 0 01", "0xFD 0 00 0", "0xFD 0 0g 01", "0xFD 0 00 0x01", "0xFD 0xFFFFFFFF 0000 0001", "0xFD 99999999999999999999 00 01"):
        expect(changes(line.split(), 2, usage), [], f"what the example sends for {line}")
    expect(changes(["0xFD", "0", "", ""], 0, "nothing differs, and nothing is sent"), [], "what the example sends for no bytes")
    expect(changes(["0xFD", "0", "", "00"], 2, "refused: images of 0 and 1 bytes, and 64 bytes for the pairs"), [], "what it sends for a byte and none")


def check_header(text):
    """Every function of the header is in the document, and every number that the document has for a name is the header's."""
    header = source("host/c/include/bujorelm_tool.h")
    functions = set(re.findall(r"\b(bujorelm_\w+)\(", header))
    expect(sorted(name for name in functions - {"bujorelm_versions_fit"} if f"`{name}" not in text), [], "the functions that are missing")
    rows = re.findall(r"^\| (\d) \| `(BUJORELM_\w+)` \|", text, re.M)
    expect(len(rows), 16, "the kinds and refusals in the tables")
    for number, name in rows:
        expect(re.search(rf"\b{name} = (\d)", header).group(1), number, f"the number of {name}")
    for number in re.findall(r"^\| (\d) \| W\1 \|", text, re.M):
        expect(f"BUJORELM_REFUSAL_W{number} = {number}" in header, True, f"the number of W{number}")
    rows = re.findall(r"fewer than (\d+) bytes,[^|]*\| mend the program: a buffer of `(BUJORELM_\w+)` bytes", text)
    expect([name for _, name in rows], ["BUJORELM_COMMAND_MIN", "BUJORELM_PAIRS_MIN"], "the buffers in the table of refusals")
    for number, name in rows:
        expect(f"#define {name} {number}u\n" in header, True, f"the size of {name}")
    frames = source("host/c/tool_frames.c")
    parts = re.findall(r"`(PART_\w+)`(?: is)? (\d)", unwrapped(text))
    expect(len(parts), 4, "the parts of a message")
    for name, number in parts:
        expect(f"{name} = {number}" in frames, True, f"the number of {name}")


def check_archive(text):
    archive = os.path.join(ROOT, "target/staticlib/libbujorelm_tool.a")
    sizes = subprocess.run(["size", archive], stdout=subprocess.PIPE, check=True, text=True).stdout
    rows = [row.split() for row in sizes.splitlines()[1:]]
    code = round(sum(int(row[0]) for row in rows) / 1000)
    expect(int(re.search(r"has (\d+) KB of code", unwrapped(text)).group(1)), code, "the archive's KB of code and constants")
    expect([row[1:3] for row in rows], [["0", "0"]] * len(rows), "the archive's data")


def check_stack(text):
    """The figures differ a little between compilers, so only the calls and the bound must agree."""
    test = source("host/c/tests/tool_stack.c")
    calls = re.findall(r'^    \{"(\w+)", call_\w+\},$', test, re.M)
    bound = int(re.search(r"^#define BOUND (\d+)u$", test, re.M).group(1))
    rows = re.findall(r"^\| `(bujorelm_\w+)` \|((?: [\d,]+ \|){5})$", text, re.M)
    expect([name for name, _ in rows], calls, "the calls in the table of the stack")
    for name, row in rows:
        expect(max(int(figure.replace(",", "")) for figure in re.findall(r"[\d,]+", row)) <= bound, True, f"the figures of {name}")
    expect(f"fails above {bound:,} bytes" in unwrapped(text), True, "the bound in words")


def main():
    with open(DOCUMENT, encoding="utf-8") as file:
        text = file.read()
    blocks = re.findall(r"^```(\w*)\n(.*?)^```$", text, re.M | re.S)
    shell, program, outputs = ([block for kind, block in blocks if kind == wanted] for wanted in ("sh", "c", ""))
    expect((len(shell), len(program), len(outputs)), (7, 3, 4), "the blocks of the document")
    expect(shell[0], "host/build bujorelm\nhost/build bujorelm_tool\n", "the lines that build the library")
    expect(program[0], source("host/c/example/ask.c"), "the program in the document")
    expect(program[1] in source("host/c/tool_frames.c"), True, "the joining of a message, as in the bench tool")
    expect(program[2] in source("host/c/example/change.c"), True, "the loop over the changes, as in the example")
    check_archive(text)
    check_header(text)
    check_stack(text)

    # As a reader does it: an empty folder, and nothing but the lines of the document.
    with tempfile.TemporaryDirectory() as folder:
        save(folder, program[0])
        expect(output(shell[1], folder), "", "building the program")
        expect(output(shell[2], folder), outputs[0], "what the program and the host print")
        expect(output(shell[3], folder), outputs[1], "what the example that changes single bits and the host print")
        expect(output(shell[4], folder), "", "building the bench tool")
        expect(output(shell[5], folder), outputs[2], "what the bench tool prints without a connection")
        expect(output(shell[6], folder), outputs[3], "what the bench tool prints with one")
        check_counts(text, program[0], shell[1], folder)
    with tempfile.TemporaryDirectory() as folder:
        script = f"mkfifo answers\n{OUT}/ask-sanitized < answers | {OUT}/host > answers"
        expect(output(script, folder), outputs[0], "what the program prints with sanitizers")
    check_change(text)
    check_images()
    check_words()
    print("tool_document_test.py: docs/TOOL.md holds")


main()

"""Tests of the bench tool: its words and the frames that it prints, what it explains, and its commands to a board behind a TCP port, which is the
reference host or a server that answers as a test wants it.

Usage: python3 tool_test.py TOOL HOST
"""

import itertools
import os
import select
import socket
import subprocess
import sys
import time

TOOL, HOST = sys.argv[1:]

# How long anything that must happen may take, in seconds.
PATIENCE = 20

PENDING = "Received OK: a reply follows\n"
DONE = "Received OK: done, no reply follows\n"
PERMANENT = "(permanent error: not to be repeated)"
TEMPORARY = "(temporary error: may be repeated)"


def expect(got, wanted, what):
    if got != wanted:
        sys.exit(f"tool_test.py: {what}: got\n{got!r:.2000}\nwanted\n{wanted!r:.2000}")


def run(words, text=b""):
    """Status, standard output and standard error of the tool."""
    done = subprocess.run([TOOL, *words], input=text, capture_output=True, timeout=PATIENCE, check=False)
    return done.returncode, done.stdout.decode(), done.stderr.decode()


def run_line(line, text=b""):
    return run(line.split(), text)


# ---- Frames that are printed ----

COMMANDS = {
    "read 0xFD 0 16": ":X1A22B456N20410000000010;\n",
    "read 253 0x0 0x10": ":X1A22B456N20410000000010;\n",
    "read 0XfD 00 016": ":X1A22B456N20410000000010;\n",
    "read 0 0xFFFFFFFF 64": ":X1A22B456N2040FFFFFFFF0040;\n",
    "read 0xFC 4294967295 1": ":X1A22B456N2040FFFFFFFFFC01;\n",
    "read 0xFE 1 1": ":X1A22B456N20420000000101;\n",
    "read 0xFF 1 1": ":X1A22B456N20430000000101;\n",
    "write 0xFD 2 0xAB 205": ":X1A22B456N200100000002ABCD;\n",
    "write 0x10 256 0 1 2": ":X1B22B456N2000000001001000;\n:X1D22B456N0102;\n",
    "mask 0xFD 2 0x0F 0x5A": ":X1A22B456N2009000000020F5A;\n",
    "mask 0x10 256 1 2 3 4": ":X1B22B456N2008000001001001;\n:X1D22B456N020304;\n",
    "info 0x10": ":X1A22B456N208410;\n",
    "options": ":X1A22B456N2080;\n",
    "lock 05.01.01.01.18.AB": ":X1A22B456N20880501010118AB;\n",
    "lock 0501010118ab": ":X1A22B456N20880501010118AB;\n",
    "release": ":X1A22B456N2088000000000000;\n",
    "done": ":X1A22B456N20A8;\n",
    "--board 0x123 --alias 1 done": ":X1A123001N20A8;\n",
    "--alias 4095 --board 4094 done": ":X1AFFEFFFN20A8;\n",
    "--timeout 5 done": ":X1A22B456N20A8;\n",
}


def test_frames():
    for line, wanted in COMMANDS.items():
        expect(run_line(line), (0, wanted, ""), line)
    status, out, _ = run(["write", "0xFE", "0", *map(str, range(64))])
    expect((status, len(out.splitlines()), out.splitlines()[-1]), (0, 9, ":X1D22B456N3A3B3C3D3E3F;"), "a write of 64 bytes")
    lines = [line for line in COMMANDS if not line.startswith("--")]
    wanted = "".join(COMMANDS[line] for line in lines)
    expect(run([], "\n".join(lines).encode()), (0, wanted, ""), "all commands on standard input")
    text = "".join(f"# {line}\n\n \n\t{line} \r\n" for line in lines).replace(" ", " \t ")
    expect(run([], text.encode()), (0, wanted, ""), "blanks and comments on standard input")
    expect(run([]), (0, "", ""), "nothing on standard input")


def test_frames_at_once():
    """A command's frames are there before the next command is."""
    with subprocess.Popen([TOOL], stdin=subprocess.PIPE, stdout=subprocess.PIPE, bufsize=0) as tool:
        for line in ("done", "options"):
            tool.stdin.write(f"{line}\n".encode())
            ready, _, _ = select.select([tool.stdout], [], [], PATIENCE)
            expect(bool(ready) and tool.stdout.readline().decode(), COMMANDS[line], "frames before the end of the input")


# ---- Words ----

NUMBER = "is a number, in decimal or as 0x.., and not"
ID = "ID is six bytes in hex digits, as 05.01.01.01.18.AB or 0501010118AB, and not"
WRONG = {
    "read 0xFD 0 0": "W1: a read asks for 1 to 64 bytes, not 0",
    "read 0xFD 0 65": "W1: a read asks for 1 to 64 bytes, not 65",
    "read 0xFD 0 256": "W1: a read asks for 1 to 64 bytes, not 256",
    "read 0xFD 0 257": "W1: a read asks for 1 to 64 bytes, not 257",
    "read 0xFD 0 18446744073709551615": "W1: a read asks for 1 to 64 bytes, not 18446744073709551615",
    "read 0xFD 0 18446744073709551617": "COUNT is 0 to 18446744073709551615, and not 18446744073709551617",
    "write 0xFD 0": "W1: a write has 1 to 64 bytes, not 0",
    "write 0xFD 0" + 65 * " 7": "W1: a write has 1 to 64 bytes, not 65",
    "write 0xFD 0" + 320 * " 7": "W1: a write has 1 to 64 bytes, not 320",
    "mask 0xFD 0": "W1: a masked write has 1 to 32 pairs of a mask and its data, not 0",
    "mask 0xFD 0 1": "W1: a mask without its data",
    "mask 0xFD 0" + 63 * " 1": "W1: a mask without its data",
    "mask 0xFD 0" + 66 * " 1": "W1: a masked write has 1 to 32 pairs of a mask and its data, not 33",
    "lock 05.01.01.01.18": "W1: an ID has 6 bytes, not 5",
    "lock 0501010118ABAB": "W1: an ID has 6 bytes, not 7",
    "lock 00": "W1: an ID has 6 bytes, not 1",
    "lock 0": f"{ID} '0'",
    "lock 05.01.01.01.18.AB.": f"{ID} '05.01.01.01.18.AB.'",
    "lock 05.01.01.01.18-AB": f"{ID} '05.01.01.01.18-AB'",
    "lock 0501.01.01.18.AB": f"{ID} '0501.01.01.18.AB'",
    "lock 0x0501010118AB": f"{ID} '0x0501010118AB'",
    "lock " + 2050 * "0": f"{ID} '" + 2050 * "0" + "'",
    "lock": "behind 'lock' stands: ID",
    "release 1": "behind 'release' stands: no words",
    "options x": "behind 'options' stands: no words",
    "done x": "behind 'done' stands: no words",
    "info": "behind 'info' stands: SPACE",
    "info 256": "SPACE is 0 to 255, and not 256",
    "info 1 2": "behind 'info' stands: SPACE",
    "read 0xFD 0": "behind 'read' stands: SPACE ADDRESS COUNT",
    "read 0xFD 0 1 1": "behind 'read' stands: SPACE ADDRESS COUNT",
    "read 0x100 0 1": "SPACE is 0 to 255, and not 0x100",
    "read -1 0 1": f"SPACE {NUMBER} '-1'",
    "read 0xFD 0x100000000 1": "ADDRESS is 0 to 4294967295, and not 0x100000000",
    "read 0xFD 0x 1": f"ADDRESS {NUMBER} '0x'",
    "read 0xFD 1e3 1": f"ADDRESS {NUMBER} '1e3'",
    "read 0xFD FF 1": f"ADDRESS {NUMBER} 'FF'",
    "read 0xFD 0 +1": f"COUNT {NUMBER} '+1'",
    "write 0xFD": "behind 'write' stands: SPACE ADDRESS BYTE..",
    "write 0xFD 0 1 256": "BYTE is 0 to 255, and not 256",
    "write 0xFD 0 1 x": f"BYTE {NUMBER} 'x'",
    "mask 0xFD 0 0x1FF 0": "MASK or DATA is 0 to 255, and not 0x1FF",
    "mask 0xFD": "behind 'mask' stands: SPACE ADDRESS MASK DATA [MASK DATA]..",
    "write 0xFD 0" + 1022 * " 7": "a command has 1024 words at most",
    "READ 0xFD 0 1": "there is no command 'READ'; tool --help names all",
    "-x": "there is no command '-x'; tool --help names all",
}

WRONG_OPTIONS = {
    "--board": "--board stands without a value, or is no option; tool --help names all",
    "--x": "--x stands without a value, or is no option; tool --help names all",
    "--x 1 done": "there is no option --x; tool --help names all",
    "--board 0 done": "--board is 1 to 4095, and not 0",
    "--board 0x1000 done": "--board is 1 to 4095, and not 0x1000",
    "--alias 22B done": f"--alias {NUMBER} '22B'",
    "--alias 0x22B done": "the tool's alias and the board's are both 0x22B",
    "--timeout 0 done": "--timeout is 1 to 86400, and not 0",
    "--timeout 1.5 done": f"--timeout {NUMBER} '1.5'",
    "--connect 65536 done": "PORT is 1 to 65535, and not 65536",
    "--connect 0 done": "PORT is 1 to 65535, and not 0",
    "--connect localhost done": f"PORT {NUMBER} 'localhost'",
    "--connect localhost: done": f"PORT {NUMBER} ''",
    "--connect :1 done": "HOST is 1 to 255 characters, and not 0",
    "--connect " + 256 * "x" + ":1 done": "HOST is 1 to 255 characters, and not 256",
    "explain x": "'explain' reads standard input: no word stands behind it, and no --connect before it",
    "--connect 1 explain": "'explain' reads standard input: no word stands behind it, and no --connect before it",
}


def test_wrong_words():
    for line, message in {**WRONG, **WRONG_OPTIONS}.items():
        expect(run_line(line), (2, "", f"tool: {message}\n"), line[:60])
    # An empty word is a word.
    expect(run(["lock", ""]), (2, "", "tool: W1: an ID has 6 bytes, not 0\n"), "an empty ID")
    expect(run(["read", "", "0", "1"]), (2, "", f"tool: SPACE {NUMBER} ''\n"), "an empty space")
    expect(run([""]), (2, "", "tool: there is no command ''; tool --help names all\n"), "an empty command")


def test_wrong_lines():
    """A wrong line is named, nothing is printed for it, and the others are."""
    for number, (line, message) in enumerate(WRONG.items()):
        text = number * "\n" + f"{line}\ndone\n"
        expect(run([], text.encode()), (2, COMMANDS["done"], f"tool: line {number + 1}: {message}\n"), f"the line {line[:60]}")
    expect(run([], b"done\0\noptions"), (2, COMMANDS["options"], "tool: line 1: a zero byte in a command\n"), "a zero byte")
    message = f"tool: line 1: there is no command '{100000 * 'x'}'; tool --help names all\n"
    expect(run([], 100000 * b"x" + b"\ndone\n"), (2, COMMANDS["done"], message), "a long word")


def test_help():
    status, out, error = run(["--help"])
    expect((status, error), (0, ""), "the status of --help")
    names = "read write mask info options lock release done explain --board --alias --connect --timeout"
    for word in names.split():
        expect(word in out.split(), True, f"{word} in the help")
    for line in ("  0  ", "  1  ", "  2  ", "  3  ", "W1", "W3", "0x22B", "0x456"):
        expect(line in out, True, f"{line!r} in the help")
    expect(run(["--board", "1", "read", "--help"]), (0, out, ""), "--help behind other words")
    expect(max(map(len, out.splitlines())) < 140, True, "the width of the help")


def test_files():
    """An input that cannot be read and an output that cannot be written are not passed over."""
    for words in ([], ["explain"]):
        folder = os.open("/", os.O_RDONLY)
        done = subprocess.run([TOOL, *words], stdin=folder, capture_output=True, timeout=PATIENCE, check=False)
        os.close(folder)
        expect((done.returncode, done.stderr), (3, b"tool: standard input: Is a directory\n"), f"a folder as input and {words}")
    for words, text in ((["done"], b""), (["explain"], b":X19A2822BN045600;\n"), (["--help"], b"")):
        with open("/dev/full", "wb") as full:
            done = subprocess.run([TOOL, *words], input=text, stdout=full, stderr=subprocess.PIPE, timeout=PATIENCE, check=False)
        expect((done.returncode, b"standard output" in done.stderr), (3, True), f"a full disk and {words}")


# ---- What is explained ----


def explained(lines, words=()):
    return run([*words, "explain"], "".join(f"{line}\n" for line in lines).encode())


def single(hexes):
    return f":X1A45622BN{hexes.replace(' ', '')};"


def cut(hexes):
    """The frames of a datagram of any length."""
    hexes = hexes.replace(" ", "")
    parts = [hexes[i : i + 16] for i in range(0, len(hexes), 16)] or [""]
    tops = ["1A"] if len(parts) == 1 else ["1B", *["1C"] * (len(parts) - 2), "1D"]
    return [f":X{top}45622BN{part};" for top, part in zip(tops, parts)]


def rejected(content, flags=""):
    """A Rejected in as many frames as its content needs."""
    parts = [content[i : i + 12] for i in range(0, len(content), 12)] or [""]
    nibbles = "0" if len(parts) == 1 else "1" + "3" * (len(parts) - 2) + "2"
    return [f":X19A4822BN{int(nibble) | int(flags or '0', 16):X}456{part};" for nibble, part in zip(nibbles, parts)]


ROW = "  00000100  AB 20 7E 7F                                      . ~.\n"
# A reply, what is said of it, and the status.
REPLIES = (
    ("20 50 00000100 10 AB207E7F", "4 bytes from address 0x00000100 of space 0x10:\n" + ROW, 0),
    ("20 51 00000100 00", "1 byte from address 0x00000100 of space 0xFD:\n  00000100  00                                               .\n", 0),
    ("20 12 00000001", "The write to address 0x00000001 of space 0xFE is done\n", 0),
    ("20 10 00000001 00", "The write to address 0x00000001 of space 0x00 is done\n", 0),
    ("20 8A 000000000000", "Nobody holds the lock\n", 0),
    ("20 8A 0501010118AB", "The lock is held by 05.01.01.01.18.AB\n", 0),
)


def test_replies():
    for hexes, words, status in REPLIES:
        expect(explained(cut(hexes)), (status, words, ""), hexes)
    row = "  00000010  10 11 12 13 14 15 16 17 18 19 1A 1B 1C 1D 1E 1F  ................\n"
    words = "64 bytes from address 0x00000010 of space 0xFF:\n" + row
    words += "".join(f"  {16 * n:08X}  {' '.join(f'{16 * n + i:02X}' for i in range(16))}  " + text + "\n"
                     for n, text in ((2, " !\"#$%&'()*+,-./"), (3, "0123456789:;<=>?"), (4, "@ABCDEFGHIJKLMNO")))
    expect(explained(cut("20 53 00000010" + "".join(f"{i:02X}" for i in range(16, 80)))), (0, words, ""), "the longest read")


MEANINGS = {
    "1041": f"the board does not know this command {PERMANENT}",
    "1042": f"the board does not know this type of datagram {PERMANENT}",
    "1080": f"invalid arguments {PERMANENT}",
    "1081": f"the board has no such space {PERMANENT}",
    "1082": f"the address is outside the space {PERMANENT}",
    "1083": f"the space is read-only {PERMANENT}",
    "2000": f"the datagram could not be taken {TEMPORARY}",
    "2020": f"the board has no buffer free {TEMPORARY}",
    "2040": f"frames that do not follow on each other {TEMPORARY}",
}
SORTS = {"1000": PERMANENT, "1030": PERMANENT, "1FFF": PERMANENT, "2011": TEMPORARY}
SORTS |= {code: "(an error that is neither permanent nor temporary)" for code in ("0000", "0080", "3000", "8000")}
CODES = {**{code: f"0x{code}, {words}" for code, words in MEANINGS.items()}, **{code: f"0x{code} {words}" for code, words in SORTS.items()}}


def test_failures():
    texts = (("", "  no message\n"), ("00", "  an empty message\n"), ("4E6F2100", '  the message "No!"\n'),
             ("22 5C 1B C3A4 00", '  the message "\\"\\\\\\x1B\\xC3\\xA4"\n'))
    for (code, words), (text, said) in itertools.product(CODES.items(), texts):
        wanted = f"The read from address 0x00000102 of space 0xFD failed: {words}\n{said}"
        expect(explained(cut(f"20 59 00000102 {code} {text}")), (1, wanted, ""), f"a read that failed with {code} {text}")
        wanted = f"The write to address 0x00000102 of space 0x00 failed: {words}\n{said}"
        expect(explained(cut(f"20 18 00000102 00 {code} {text}")), (1, wanted, ""), f"a write that failed with {code} {text}")


def test_options():
    lowest = (("", "  no lowest space given\n  no name\n"), ("00", "  lowest space 0x00\n  no name\n"),
              ("10 00", "  lowest space 0x10\n  an empty name\n"), ("42 4300", '  lowest space 0x42\n  the name "C"\n'))
    commands = (("0000", ""), ("E000", ": masked writes, unaligned reads, unaligned writes"), ("1012", ""),
                ("0E00", ": reads from space 0xFC, reads from space 0xFB, writes to space 0xFB"))
    for (low, low_words), (bits, words) in itertools.product(lowest, commands):
        wanted = f"The options of the board:\n  commands 0x{bits}{words}\n  Write Lengths 0xF2\n  highest space 0xFF\n{low_words}"
        expect(explained(cut(f"20 82 {bits} F2 FF {low}")), (0, wanted, ""), f"options {bits} {low}")


def test_information():
    lowest = ((0, "", "  no lowest address given, which means 0\n"), (2, "00000000", "  lowest address 0x00000000\n"),
              (2, "00000100", "  lowest address 0x00000100\n"))
    texts = (("", "  no description\n"), ("00", "  an empty description\n"), ("43444900", '  the description "CDI"\n'))
    flags = ((0x00, "writable"), (0x01, "read-only"), (0xFC, "writable"), (0xFD, "read-only"))
    for (bit, address, low), (text, said), (more, access), there in itertools.product(lowest, texts, flags, (True, False)):
        wanted = f"Space 0x10 is {'there' if there else 'not there'}:\n  highest address 0x0000010F\n{low}"
        wanted += f"  flags 0x{bit | more:02X}: {access}\n{said}"
        datagram = f"20 {'87' if there else '86'} 10 0000010F {bit | more:02X} {address} {text}"
        expect(explained(cut(datagram)), (0, wanted, ""), datagram)


def test_received_ok():
    for flags, words in (("", DONE), ("00", DONE), ("0F", DONE), ("7F", DONE)):
        expect(explained([f":X19A2822BN0456{flags};"]), (0, words, ""), f"Received OK {flags}")
    waiting = "tool: the input ends before the end of an answer\n"
    for flags, words in (("80", "a reply follows"), ("F0", "a reply follows"), ("81", "a reply follows within 2 seconds"),
                         ("FF", "a reply follows within 32768 seconds")):
        expect(explained([f":X19A2822BN0456{flags};"]), (3, f"Received OK: {words}\n", waiting), f"Received OK {flags} alone")
        lines = [f":X19A2822BN0456{flags};", single("20 8A 000000000000")]
        expect(explained(lines), (0, f"Received OK: {words}\nNobody holds the lock\n", ""), f"Received OK {flags}")
    # Bits above the two that say which part a frame is are ignored.
    expect(explained([":X19A2822BNC45600;"]), (0, DONE, ""), "reserved bits before the alias")
    expect(explained([":X19A2822BN1456;", ":X19A2822BN345600;", ":X19A2822BN2456;"]), (0, DONE, ""), "Received OK in three frames")


def test_rejected():
    for code, words in CODES.items():
        for lines in (rejected(code), rejected(code, "C")):
            expect(explained(lines), (1, f"Rejected: {words}\n", ""), f"Rejected {code}")
    expect(explained(rejected("")), (1, f"Rejected: {CODES['0000']}\n", ""), "Rejected without a code")
    expect(explained(rejected("10")), (1, f"Rejected: {CODES['1000']}\n", ""), "Rejected with half a code")
    for count in (1, 4, 5, 10, 11, 63, 64):
        further = "".join(f"{i:02X}" for i in range(count))
        words = f"Rejected: {CODES['1080']}\n  behind the code: {' '.join(f'{i:02X}' for i in range(count))}\n"
        expect(explained(rejected("1080" + further)), (1, words, ""), f"{count} bytes behind the code")
    # A message whose beginning is missing is none; one that begins anew has only its new beginning.
    expect(explained(rejected("1080" + 20 * "00")[1:])[0], 3, "Rejected without its first frame")
    lines = [rejected("2000" + 20 * "00")[0], *rejected("1080")]
    expect(explained(lines), (1, f"Rejected: {CODES['1080']}\n", ""), "Rejected that begins anew")
    lines = [rejected("1080" + 20 * "00")[0], ":X19A2822BN2456;"]
    expect(explained(lines)[0], 3, "Rejected that ends as Received OK")


def test_w3():
    expect(explained([":X19A2822BN04568000;"]), (1, "W3: a Received OK of more than 1 byte: 80 00\n", ""), "Received OK of two bytes")
    long = "".join(f"{i:02X}" for i in range(67))
    words = f"W3: a Rejected of more than 66 bytes: {' '.join(f'{i:02X}' for i in range(67))}\n"
    expect(explained(rejected(long)), (1, words, ""), "Rejected of 67 bytes")
    status, out, error = explained(rejected(long * 9))
    expect((status, out.startswith("W3: "), error), (1, True, ""), "Rejected of 603 bytes")
    for hexes in ("", "20", "20 8A 0501010118", "20 51 00000000", "20 82 E000 F2", "20 44", "21 80", "20 11 00000000 00", "20 82 E000F2FF10 4142",
                  "20 51 00000000" + 66 * "AA"):
        said = "".join(f" {byte:02X}" for byte in bytes.fromhex(hexes))
        words = f"W3: a datagram of {len(said) // 3} bytes in no form of a reply:{said}\n"
        expect(explained(cut(hexes)), (1, words, ""), f"W3 {hexes}")


def test_out_of_order():
    frames = cut("20 51 00000000" + 20 * "AA")
    words = f"A frame of a reply is out of order: {CODES['2040']}\n"
    expect(explained(frames[1:]), (1, (len(frames) - 1) * words, ""), "a reply without its first frame")
    # What is left of a broken reply is swallowed, and one that is sent again is explained.
    expect(explained([frames[0], *frames]), (1, words, ""), "a reply that begins twice")
    expect(explained([frames[0], *frames, *frames]), (1, words + explained(frames)[1], ""), "a reply that begins twice and is sent again")
    expect(explained([frames[0], *frames, frames[-1]]), (1, 2 * words, ""), "a Last too many behind a reply that begins twice")
    error = "tool: the input ends before the end of an answer\n"
    for count in range(1, len(frames)):
        expect(explained(frames[:count]), (3, "", error), f"{count} frames of {len(frames)}")
        expect(explained([frames[0], *frames[:count]]), (1, words, ""), f"{count} frames of {len(frames)} behind a First")
        expect(explained([frames[0], frames[0], *frames[:count]]), (3, words, error), f"{count} frames of {len(frames)} behind two")


OTHERS = (
    ":X19A28300N045600;",  # from another node
    ":X19A2822BN045700;",  # to another tool
    ":X1A45722BN208A000000000000;",
    ":X1A456300N208A000000000000;",
    ":X1B456300N208A000000000000;",
    ":X195B422BN0101010101010101;",  # other messages
    ":X1022B22BN;",
    ":X3A45622BN208A000000000000;",  # over 29 bits
    ":X1A22B456N2080;",  # the tool's own
)


def test_others():
    expect(explained(OTHERS), (3, "", "tool: no answer from board 0x22B to tool 0x456\n"), "frames of others alone")
    expect(explained([]), (3, "", "tool: no answer from board 0x22B to tool 0x456\n"), "no input")
    frames = cut("20 53 00000000" + 20 * "41")
    mixed = [line for frame in frames for line in (*OTHERS, frame)]
    expect(explained(mixed), explained(frames), "a reply among frames of others")
    # With other aliases other frames are meant.
    words = ("--board", "0x300", "--alias", "0x456")
    expect(explained(OTHERS[:1], words), (0, DONE, ""), "another board")
    expect(explained(OTHERS[1:2], ("--alias", "0x457")), (0, DONE, ""), "another tool")


def test_odd_lines():
    good = ":X19A2822BN045600;"
    expect(explained(["?", good, "", good + "\r", good.lower(), 300 * "x"]),
           (0, DONE, "".join(f"tool: line {n} is no frame\n" for n in (1, 3, 4, 5, 6))), "lines that are no frames")
    expect(run(["explain"], good.encode()), (0, DONE, ""), "a last line without its newline")
    text = "".join(f"{line}\n" for line in cut("20 53 00000000" + 20 * "41")).encode()
    for size in (1, 7, 29):
        with subprocess.Popen([TOOL, "explain"], stdin=subprocess.PIPE, stdout=subprocess.PIPE, bufsize=0) as tool:
            for at in range(0, len(text), size):
                tool.stdin.write(text[at : at + size])
                time.sleep(0.001)
            tool.stdin.close()
            expect(tool.stdout.read().decode(), run(["explain"], text)[1], f"an input in pieces of {size}")


# ---- With the reference host, by pipes ----

CDI = "16 bytes from address 0x00000000 of space 0xFF:\n  00000000  3C 63 64 69 2F 3E 00 00 00 00 00 00 00 00 00 00  <cdi/>..........\n"
ASKED = (
    ("read 0xFF 0 64", PENDING + CDI, 0),
    ("write 0xFD 0 1 2 3", DONE, 0),
    ("mask 0xFD 0 1 1", DONE, 0),
    ("done", DONE, 0),
    ("read 0xFD 0x20 1", PENDING + f"The read from address 0x00000020 of space 0xFD failed: {CODES['1082']}\n  no message\n", 1),
    ("read 0x11 7 1", PENDING + f"The read from address 0x00000007 of space 0x11 failed: {CODES['1081']}\n  no message\n", 1),
    ("write 0xFF 0 1", PENDING + f"The write to address 0x00000000 of space 0xFF failed: {CODES['1083']}\n  no message\n", 1),
    ("mask 0x10 0x10F 1 1 1 1", PENDING + f"The write to address 0x0000010F of space 0x10 failed: {CODES['1082']}\n  no message\n", 1),
    ("options", PENDING + "The options of the board:\n  commands 0xE000: masked writes, unaligned reads, unaligned writes\n"
     "  Write Lengths 0xF2\n  highest space 0xFF\n  lowest space 0x10\n  no name\n", 0),
    ("info 0x10", PENDING + "Space 0x10 is there:\n  highest address 0x0000010F\n  lowest address 0x00000100\n"
     "  flags 0x02: writable\n  no description\n", 0),
    ("info 0xFF", PENDING + "Space 0xFF is there:\n  highest address 0x0000000F\n  no lowest address given, which means 0\n"
     "  flags 0x01: read-only\n  no description\n", 0),
    ("info 0x11", PENDING + "Space 0x11 is not there:\n  highest address 0x00000000\n  no lowest address given, which means 0\n"
     "  flags 0x00: writable\n  no description\n", 0),
    ("release", PENDING + "Nobody holds the lock\n", 0),
)
LOCK = "lock 05.01.01.01.18.AB"


def host(text):
    return subprocess.run([HOST], input=text.encode(), stdout=subprocess.PIPE, timeout=PATIENCE, check=True).stdout


def test_pipes():
    for line, words, status in (*ASKED, (LOCK, PENDING + "The lock is held by 05.01.01.01.18.AB\n", 0)):
        expect(run(["explain"], host(run_line(line)[1])), (status, words, ""), line)
    lines = [line for line, _, _ in ASKED]
    expect(run(["explain"], host(run([], "\n".join(lines).encode())[1])), (1, "".join(words for _, words, _ in ASKED), ""), "all of them")
    # A command that the tool does not have.
    expect(run(["explain"], host(":X1A22B456N2044;\n")), (1, f"Rejected: {CODES['1041']}\n", ""), "an unknown command")
    text = "write 0xFE 0 " + " ".join(str(65 + i % 26) for i in range(48)) + "\nread 0xFE 0 64\n"
    status, out, error = run(["explain"], host(run([], text.encode())[1]))
    expect((status, out.count("\n"), "QRSTUVWXYZABCDEF\n" in out, error), (0, 6, True, ""), "a long write and read")


# ---- With the reference host, by TCP ----


class Hub:
    """The reference host on a port."""

    def __enter__(self):
        self.process = subprocess.Popen([HOST, "--port", "0"], stdout=subprocess.PIPE, stderr=subprocess.DEVNULL)
        self.port = int(self.process.stdout.readline())
        return self

    def __exit__(self, *_):
        self.process.terminate()
        self.process.wait()
        self.process.stdout.close()

    def ask(self, line, *options):
        return run(["--connect", str(self.port), *options, *line.split()])


def test_host():
    with Hub() as hub:
        for line, words, status in ASKED:
            expect(hub.ask(line), (status, words, ""), f"{line} on TCP")
        text = "\n".join(line for line, _, _ in ASKED).encode()
        wanted = (1, "".join(words for _, words, _ in ASKED), "")
        expect(run(["--connect", f"localhost:{hub.port}"], text), wanted, "all commands on one connection")
        numbers = [(37 * i + 5) % 256 for i in range(48)]
        expect(hub.ask("write 0xFE 0 " + " ".join(map(str, numbers))), (0, DONE, ""), "a write of 48 bytes")
        status, out, error = hub.ask("read 0xFE 0 64")
        got = [int(word, 16) for line in out.splitlines()[2:] for word in line.split()[1:17]]
        expect((status, got, error), (0, numbers, ""), "a read of 48 bytes")
        # A wrong line between two commands, and nobody is asked for wrong words.
        expect(run(["--connect", str(hub.port)], b"done\nread 0xFD 0 0\ndone\n"),
               (2, DONE + DONE, "tool: line 2: W1: a read asks for 1 to 64 bytes, not 0\n"), "W1 between two commands")
    expect(run_line("--connect 1 read 0xFD 0 65"), (2, "", "tool: W1: a read asks for 1 to 64 bytes, not 65\n"), "W1 without a board")


def test_lock():
    mine, theirs = "05.01.01.01.18.AB", "05.01.01.01.18.AC"
    with Hub() as hub:
        other = ("--alias", "0x457")
        for line, options, words, status in (
            (f"lock {mine}", (), f"The lock is held by you, {mine}", 0),
            (f"lock {theirs}", other, f"The lock is held by another, {mine}", 1),
            (f"lock {mine}", (), f"The lock is held by you, {mine}", 0),
            ("release", other, "Nobody holds the lock", 0),
            (f"lock {theirs}", other, f"The lock is held by you, {theirs}", 0),
            (f"lock {mine}", (), f"The lock is held by another, {theirs}", 1),
            ("lock 000000000000", (), "Nobody holds the lock", 0),
        ):
            expect(hub.ask(line, *options), (status, f"{PENDING}{words}\n", ""), f"{line} {options}")


def test_two_tools():
    """Each of several tools hears its own answers and no others."""
    with Hub() as hub:
        text = b"read 0xFF 0 16\noptions\ninfo 0x10\n" * 40
        wanted = run(["--connect", str(hub.port)], text)[1]
        tools = [subprocess.Popen([TOOL, "--connect", str(hub.port), "--alias", str(alias)], stdin=subprocess.PIPE, stdout=subprocess.PIPE)
                 for alias in range(1, 7)]
        for tool in tools:
            tool.stdin.write(text)
            tool.stdin.close()
        for tool in tools:
            expect((tool.stdout.read().decode(), tool.wait(PATIENCE)), (wanted, 0), "one of six tools")
            tool.stdout.close()


# The greatest age of an unfinished datagram, in seconds.
AGE_MAX = 3


def test_lost_last():
    """A command of which the board has the beginning already, since its Last was lost: it is rejected once, and the next one is answered as it
    should be. Where this machine was so slow that the beginning may have grown too old, it is tried again."""
    write = "write 0xFE 0 " + " ".join(str(65 + i % 26) for i in range(48))
    row = "4 bytes from address 0x00000000 of space 0xFE:\n  00000000  41 42 43 44                                      ABCD\n"
    with Hub() as hub, socket.create_connection(("127.0.0.1", hub.port), PATIENCE) as lossy:
        for _ in range(5):
            begun = time.monotonic()
            lossy.sendall(run_line(write)[1].splitlines()[0].encode() + b"\n?\n")
            heard = b""
            while not heard.endswith(b"?\n"):
                heard += lossy.recv(65536)
            got = run(["--connect", str(hub.port)], f"{write}\n{write}\nread 0xFE 0 4\n".encode())
            if time.monotonic() - begun < AGE_MAX:
                expect(got, (1, f"Rejected: {CODES['2040']}\n{DONE}{PENDING}{row}", ""), "a write whose Last was lost")
                return
    sys.exit("tool_test.py: five times too slow to send a command again")


def test_view_of_the_bus():
    """Another tool sees what is sent: the command, the answer, and Received OK for the reply."""
    with Hub() as hub, socket.create_connection(("127.0.0.1", hub.port), PATIENCE) as other:
        other.sendall(b"hello\n")
        expect(other.recv(100), b"?\n", "the other tool is on the bus")
        expect(hub.ask("read 0xFF 0 8")[0], 0, "the read")
        wanted = b":X1A22B456N20430000000008;\n:X19A2822BN045680;\n:X1B45622BN2053000000003C63;\n:X1D45622BN64692F3E0000;\n:X19A28456N022B00;\n"
        got = b""
        while len(got) < len(wanted):
            got += other.recv(4096)
        expect(got, wanted, "what another tool sees")


# ---- With a board that answers as it should not ----


class Server:
    """A port, and a tool that has connected to it."""

    def __init__(self, line, *options, text=None):
        self.listener = socket.create_server(("127.0.0.1", 0))
        self.listener.settimeout(PATIENCE)
        words = [TOOL, "--connect", str(self.listener.getsockname()[1]), "--timeout", "1", *options, *line.split()]
        self.tool = subprocess.Popen(words, stdin=subprocess.PIPE, stdout=subprocess.PIPE, stderr=subprocess.PIPE)
        if text is not None:
            self.commands(text)
            self.end_commands()
        self.socket = self.listener.accept()[0]
        self.socket.settimeout(PATIENCE)
        self.got = b""

    def commands(self, text):
        self.tool.stdin.write(text)
        self.tool.stdin.flush()

    def end_commands(self):
        self.tool.stdin.close()
        self.tool.stdin = None

    def line(self):
        while b"\n" not in self.got:
            part = self.socket.recv(4096)
            if not part:
                return ""
            self.got += part
        line, _, self.got = self.got.partition(b"\n")
        return line.decode()

    def hears(self, line, what):
        expect(self.line(), line, what)

    def says(self, *lines):
        self.socket.sendall("".join(f"{line}\n" for line in lines).encode())

    def end(self, close=True):
        """Status, output, errors, and what the tool has sent at last. A connection that has been ended is not ended again: where the tool has ended
        it too, the system takes that for a fault."""
        if close:
            self.socket.shutdown(socket.SHUT_WR)
        out, error = self.tool.communicate(timeout=PATIENCE)
        rest = iter(self.line, "")
        sent = list(rest)
        self.socket.close()
        self.listener.close()
        return self.tool.returncode, out.decode(), error.decode(), sent


OK, OK_PENDING, TOOL_OK = ":X19A2822BN045600;", ":X19A2822BN045680;", ":X19A28456N022B00;"
READ_LINE = ":X1A22B456N20430000000001;"


def test_silence():
    for line, sent in (("options", ":X1A22B456N2080;"), ("read 0xFF 0 1", READ_LINE)):
        begun = time.monotonic()
        server = Server(line)
        server.hears(sent, "the command")
        status = server.tool.wait(PATIENCE)
        expect(0.9 < time.monotonic() - begun < 5, True, "how long an answer is waited for")
        expect((status, *server.end()), (3, 3, "", "tool: no answer from board 0x22B within 1 second\n", []), f"{line} without an answer")
    # Behind a command without an answer no other is sent.
    server = Server("", text=b"done\noptions\n")
    server.hears(":X1A22B456N20A8;", "the first command")
    server.tool.wait(PATIENCE)
    expect(server.end(), (3, "", "tool: no answer from board 0x22B within 1 second\n", []), "a second command")


def test_no_connection():
    with socket.create_server(("127.0.0.1", 0)) as listener:
        port = listener.getsockname()[1]
    expect(run_line(f"--connect {port} done"), (3, "", f"tool: no connection to 127.0.0.1, port {port}: Connection refused\n"), "nobody there")
    # A name that is too long for any: nobody has to be asked for it.
    name = 100 * "x"
    status, out, error = run_line(f"--connect {name}:1 done")
    expect((status, out, error.startswith(f"tool: no connection to {name}, port 1: ")), (3, "", True), "an unknown host")
    ended = "tool: no answer from board 0x22B: the connection has ended\n"
    server = Server("done")
    server.hears(":X1A22B456N20A8;", "the command")
    expect(server.end(), (3, "", ended, []), "a connection that ends")
    server = Server("read 0xFF 0 1")
    server.hears(READ_LINE, "the command")
    server.says(OK_PENDING)
    expect(server.end(), (3, PENDING, ended, []), "a connection that ends before the reply")
    # A server whose queue is full does not take the connection, and is not waited for without end.
    with socket.create_server(("127.0.0.1", 0), backlog=0) as listener:
        port = listener.getsockname()[1]
        callers = [socket.socket() for _ in range(8)]
        for caller in callers:
            caller.setblocking(False)
            caller.connect_ex(("127.0.0.1", port))
        time.sleep(0.1)
        begun = time.monotonic()
        status, out, _ = run_line(f"--timeout 1 --connect {port} done")
        expect((status, out, time.monotonic() - begun < 5), (3, "", True), "a server that takes no connection")
        for caller in callers:
            caller.close()


REPLY = single("20 53 00000000 41")
REPLY_WORDS = "1 byte from address 0x00000000 of space 0xFF:\n  00000000  41                                               A\n"


def answered(answers, what, wanted, line="read 0xFF 0 1"):
    """What the tool makes of these lines as the answer to a command; what it sends behind the command is the last thing wanted."""
    server = Server(line)
    first = server.line()
    expect(first, run_line(line)[1].splitlines()[0], f"the command: {what}")
    server.says(*answers)
    got = server.end(close=False) if wanted[0] != 3 else server.end()
    expect(got, wanted, what)


def test_answers():
    answered([OK_PENDING, REPLY], "a reply", (0, PENDING + REPLY_WORDS, "", [TOOL_OK]))
    answered([REPLY], "a reply without Received OK", (0, REPLY_WORDS, "", [TOOL_OK]))
    answered(rejected("1041"), "Rejected", (1, f"Rejected: {CODES['1041']}\n", "", []))
    answered([OK_PENDING, *rejected("20200102030405")], "Rejected behind Received OK",
             (1, PENDING + f"Rejected: {CODES['2020']}\n  behind the code: 01 02 03 04 05\n", "", []))
    none = "tool: this command is answered by a reply, and the board announces none\n"
    answered([OK], "no reply to a read", (1, DONE, none, []))
    answered([":X19A2822BN0456;"], "no reply to a read, and no flags", (1, DONE, none, []))
    answered([":X19A2822BN04568000;"], "W3 for Received OK", (1, "W3: a Received OK of more than 1 byte: 80 00\n", "", []))
    # What is no reply is not acknowledged as one.
    words = "W3: a datagram of 2 bytes in no form of a reply: 20 44\n"
    answered([OK_PENDING, single("20 44")], "W3 for a reply", (1, PENDING + words, "", [":X19A48456N022B1080;"]))
    # A write may be answered at once or later.
    line = "write 0xFD 0 1"
    answered([OK], "a write", (0, DONE, "", []), line)
    written = "The write to address 0x00000000 of space 0xFD is done\n"
    answered([OK_PENDING, single("20 11 00000000")], "a write with a reply", (0, PENDING + written, "", [TOOL_OK]), line)


def test_replies_to_others():
    """A reply to another command, as one that comes late, is not the answer."""
    passed = "tool: a reply to another command is passed over\n"
    others = ("20 53 00000001 41", "20 51 00000000 41", "20 5B 00000001 1082", "20 13 00000000", "20 1B 00000000 1083", "20 82 E000F2FF10",
              "20 87 FF 0000000F 01", "20 8A 000000000000")
    for other in others:
        answered([OK_PENDING, single(other), REPLY], f"a reply {other} first", (0, PENDING + REPLY_WORDS, passed, [TOOL_OK, TOOL_OK]))
    for line, reply in (("write 0xFD 0 1", "20 51 00000000 01"), ("info 1", "20 87 02 00000000 00"), ("options", "20 8A 000000000000"),
                        (LOCK, "20 82 E000F2FF10"), ("done", "20 11 00000000")):
        ended = "tool: no answer from board 0x22B: the connection has ended\n"
        answered([OK_PENDING, single(reply)], f"a reply {reply} to {line}", (3, PENDING, passed + ended, [TOOL_OK]), line)


def test_early_answers():
    """What came before a command was sent does not answer it."""
    server = Server("")
    server.says(*rejected("1041"), OK, REPLY, ":X19A2822BN1456;")
    time.sleep(0.3)
    server.commands(b"read 0xFF 0 1\n")
    server.hears(TOOL_OK, "Received OK for the early reply")
    server.hears(READ_LINE, "the command")
    server.says(OK_PENDING, REPLY)
    server.hears(TOOL_OK, "Received OK for the reply")
    server.end_commands()
    expect(server.end(), (0, PENDING + REPLY_WORDS, "", []), "early answers")


def test_idle():
    """While no command is there, the tool takes all that is on the bus, and nobody has to keep it."""
    server = Server("")
    text = "".join(f"{line}\n" for line in OTHERS * 500).encode()
    for _ in range(100):
        server.socket.sendall(text)
    server.says(REPLY)
    server.hears(TOOL_OK, "Received OK for a reply that nobody asked for")
    server.commands(b"done\n")
    server.hears(":X1A22B456N20A8;", "the command")
    server.says(OK)
    # An end that comes while nothing is asked is found at the next command.
    expect(server.tool.stdout.readline().decode(), DONE, "the answer")
    server.socket.shutdown(socket.SHUT_WR)
    time.sleep(0.3)
    server.commands(b"done\n")
    server.end_commands()
    expect(server.end(close=False), (3, "", "tool: no answer from board 0x22B: the connection has ended\n", []), "an idle tool")


def test_traffic():
    """Frames of others and lines that are none are not explained, in whatever pieces they come."""
    frames = cut("20 53 00000000" + 20 * "41")
    answers = [line for frame in (OK_PENDING, *frames) for line in (*OTHERS, "?", "", 99 * "x", frame)]
    text = "".join(f"{line}\n" for line in answers).encode()
    wanted = explained([OK_PENDING, *frames])[1]
    for size in (1, 30, 5000):
        server = Server("read 0xFF 0 20")
        server.hears(":X1A22B456N20430000000014;", "the command")
        for at in range(0, len(text), size):
            server.socket.sendall(text[at : at + size])
        expect(server.end(close=False), (0, wanted, "", [TOOL_OK]), f"traffic in pieces of {size}")


def test_flood():
    """Traffic of others does not make the tool wait longer."""
    server = Server("done")
    begun = time.monotonic()
    text = "".join(f"{line}\n" for line in OTHERS * 100).encode()
    while server.tool.poll() is None and time.monotonic() - begun < 5:
        try:
            server.socket.sendall(text)
        except OSError:
            break
    status = server.tool.wait(PATIENCE)
    expect((status, 0.9 < time.monotonic() - begun < 5), (3, True), "an answer that does not come among others")
    server.socket.close()
    server.listener.close()
    server.tool.communicate()


def test_frames_out_of_order():
    """A reply that is broken is rejected once, however many frames are left of it."""
    frames = cut("20 53 00000000" + 20 * "41")
    broken = f"A frame of a reply is out of order: {CODES['2040']}\n"
    told = ":X19A48456N022B2040;"
    wanted = (0, PENDING + broken + explained(frames)[1], "", [told, TOOL_OK])
    answered([OK_PENDING, frames[0], *frames, *frames], "a reply that is sent again", wanted, "read 0xFF 0 20")
    answered([OK_PENDING, frames[0], frames[0], *frames], "a reply that is sent again at once", wanted, "read 0xFF 0 20")
    # One whose First was lost has no place in which it could be swallowed.
    wanted = (0, PENDING + 3 * broken + explained(frames)[1], "", [*[told] * 3, TOOL_OK])
    answered([OK_PENDING, *frames[1:], *frames], "a reply without its first frame, sent again", wanted, "read 0xFF 0 20")


def test_timeout_value():
    """The board may say how long its reply takes."""
    server = Server("read 0xFF 0 1")
    server.hears(READ_LINE, "the command")
    server.says(":X19A2822BN045681;")
    time.sleep(1.5)
    server.says(REPLY)
    words = "Received OK: a reply follows within 2 seconds\n"
    expect(server.end(close=False), (0, words + REPLY_WORDS, "", [TOOL_OK]), "a reply after a second and a half")
    begun = time.monotonic()
    server = Server("read 0xFF 0 1")
    server.hears(READ_LINE, "the command")
    server.says(":X19A2822BN045681;")
    server.tool.wait(PATIENCE)
    expect(1.9 < time.monotonic() - begun < 6, True, "how long a reply is waited for")
    expect(server.end(), (3, words, "tool: no answer from board 0x22B within 2 seconds\n", []), "no reply within two seconds")
    # Without a value it is the tool's own time, anew.
    server = Server("read 0xFF 0 1")
    server.hears(READ_LINE, "the command")
    time.sleep(0.6)
    server.says(OK_PENDING)
    time.sleep(0.6)
    server.says(REPLY)
    expect(server.end(close=False), (0, PENDING + REPLY_WORDS, "", [TOOL_OK]), "a slow board")


TESTS = (
    test_frames,
    test_frames_at_once,
    test_wrong_words,
    test_wrong_lines,
    test_help,
    test_files,
    test_replies,
    test_failures,
    test_options,
    test_information,
    test_received_ok,
    test_rejected,
    test_w3,
    test_out_of_order,
    test_others,
    test_odd_lines,
    test_pipes,
    test_host,
    test_lock,
    test_two_tools,
    test_lost_last,
    test_view_of_the_bus,
    test_silence,
    test_no_connection,
    test_answers,
    test_replies_to_others,
    test_early_answers,
    test_idle,
    test_traffic,
    test_flood,
    test_frames_out_of_order,
    test_timeout_value,
)


def main():
    for test in TESTS:
        begun = time.monotonic()
        test()
        print(f"tool_test.py: {test.__name__} passed in {time.monotonic() - begun:.1f} s", flush=True)


main()

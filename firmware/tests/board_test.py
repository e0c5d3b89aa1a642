#!/usr/bin/env python3
"""The example board in qemu: settings that outlast a reset and a machine that is killed at any moment, and lines that come too fast.

usage: board_test.py ROOT OUT

ROOT is the root of the repository, OUT a folder for what is made. ROOT/target/firmware/thumbv7m/libbujorelm.a and OUT/tool, the bench tool, must be
there.
"""
import json
import os
import re
import shutil
import socket
import subprocess
import sys
import time

ROOT, OUT = (os.path.abspath(word) for word in sys.argv[1:3])
EXAMPLE = os.path.join(ROOT, "firmware", "example")
SETTINGS_SIZE = 64
ABOUT = ":X1A22B457N204000000000100C;"


def fail(words):
    raise AssertionError(words)


def eventually(what, condition, seconds=20):
    """Waits until the condition gives something."""
    end = time.monotonic() + seconds
    while time.monotonic() < end:
        got = condition()
        if got:
            return got
        time.sleep(0.01)
    fail(f"waited for {seconds} seconds for {what}")


def build(name, edits=()):
    """An image of the example, with texts in its files replaced. Each must be there exactly once."""
    image = os.path.join(OUT, name + ".elf")
    sources = os.path.join(OUT, name)
    shutil.rmtree(sources, ignore_errors=True)
    shutil.copytree(EXAMPLE, sources)
    for file, old, new in edits:
        path = os.path.join(sources, file)
        with open(path, encoding="utf-8") as source:
            text = source.read()
        if text.count(old) != 1:
            fail(f"{file} has {text.count(old)} times: {old}")
        with open(path, "w", encoding="utf-8") as source:
            source.write(text.replace(old, new))
    subprocess.run([os.path.join(EXAMPLE, "build"), image], check=True, env=dict(os.environ, SOURCES=sources))
    return image


def free_port():
    with socket.socket() as s:
        s.bind(("127.0.0.1", 0))
        return s.getsockname()[1]


class Machine:
    """The board switched on, with its settings in a file."""

    def __init__(self, image, settings):
        self.port = free_port()
        self.control = os.path.join(OUT, f"control-{self.port}")
        words = [os.path.join(EXAMPLE, "run"), str(self.port), settings, "-qmp", f"unix:{self.control},server=on,wait=off"]
        self.process = subprocess.Popen(words, env=dict(os.environ, IMAGE=image), stdin=subprocess.DEVNULL)
        self.line = None
        self.text = b""
        try:
            eventually("the machine's port", self.is_open)
        except BaseException:
            self.kill()
            raise

    def is_open(self):
        if self.process.poll() is not None:
            fail(f"qemu ended with status {self.process.returncode}")
        with socket.socket() as s:
            return s.connect_ex(("127.0.0.1", self.port)) == 0

    def __enter__(self):
        return self

    def __exit__(self, *_):
        self.kill()

    def kill(self):
        """Power is cut."""
        self.close()
        self.process.kill()
        self.process.wait()
        if os.path.exists(self.control):
            os.remove(self.control)

    def reset(self):
        with socket.socket(socket.AF_UNIX) as s:
            s.connect(self.control)
            stream = s.makefile("rw")
            for command in ("qmp_capabilities", "system_reset"):
                stream.write(json.dumps({"execute": command}) + "\n")
                stream.flush()
            eventually("the reset", lambda: "RESET" in stream.readline())

    # The UART, by a connection of the test's own.

    def connect(self):
        if self.line is None:
            self.line = socket.create_connection(("127.0.0.1", self.port))
            self.line.settimeout(0.2)
            self.text = b""

    def close(self):
        if self.line is not None:
            self.line.close()
            self.line = None

    def send(self, text):
        self.connect()
        self.line.sendall(text.encode())

    def read(self):
        """What has come so far."""
        self.connect()
        try:
            self.text += self.line.recv(65536)
        except socket.timeout:
            pass
        return self.text.decode()

    def read_all(self, seconds=1.5):
        """What has come when nothing more has come for so long."""
        end = time.monotonic() + seconds
        while time.monotonic() < end:
            len_before = len(self.text)
            if len(self.read()) > len_before:
                end = time.monotonic() + seconds
        return self.text.decode()

    def ask(self, line, is_last):
        """Sends a line, and returns the board's lines up to one that is the last by its beginning."""
        self.connect()
        self.text = b""
        self.send(line + "\n")
        return eventually(f"the answer to {line}", lambda: re.fullmatch(f"(.*\n)*{is_last}.*\n", self.read())).group().splitlines()

    def read_space(self, request, head):
        """The bytes of a reply to a read, of which the head is cut off."""
        lines = self.ask(request, ":X1[AD]")
        return bytes.fromhex("".join(line[11:-1] for line in lines[1:]))[head:]

    def settings(self):
        return self.read_space(":X1A22B457N20410000000040;", 6)

    def about(self):
        """Bytes of stack used, frames lost, lines spoilt."""
        figures = self.read_space(ABOUT, 7)
        return [int.from_bytes(figures[at : at + 4], "big") for at in (0, 4, 8)]

    # The UART, by the bench tool.

    def tool(self, *words):
        self.close()
        return subprocess.run(
            [os.path.join(OUT, "tool"), "--connect", str(self.port), *words], capture_output=True, text=True, timeout=30, check=True
        ).stdout


def fresh(name):
    path = os.path.join(OUT, name)
    if os.path.exists(path):
        os.remove(path)
    return path


def test_reset(image):
    """The bench tool writes settings, the board is reset, and then switched off and on: the settings are still there."""
    file = fresh("settings-reset")
    with Machine(image, file) as board:
        answer = board.tool("read", "0xFF", "0", "16")
        if "3C 3F 78 6D 6C 20 76 65" not in answer:
            fail(f"the CDI reads: {answer}")
        if board.settings() != bytes(SETTINGS_SIZE):
            fail("a new board has settings")
        board.tool("write", "0xFD", "3", "0x11", "0x22", "0x33")
        board.tool("mask", "0xFD", "3", "0x0F", "0xFE")
        board.tool("write", "0xFD", "48", *(str(n) for n in range(1, 17)))
        expected = bytes(3) + bytes([0x1E, 0x22, 0x33]) + bytes(42) + bytes(range(1, 17))
        if board.settings() != expected:
            fail(f"written, but not there: {board.settings().hex()}")
        board.close()
        board.reset()
        if board.settings() != expected:
            fail(f"after a reset: {board.settings().hex()}")
        if "1E 22 33" not in board.tool("read", "0xFD", "3", "3"):
            fail("the bench tool does not read after the reset what it wrote before")
        stack, lost, spoilt = board.about()
        if not 0 < stack <= 1024 + 256 or lost or spoilt:
            fail(f"stack {stack}, lost {lost}, spoilt {spoilt}")
        print(f"the example board: {stack} bytes of stack in use, with interrupts")
    with Machine(image, file) as board:
        if board.settings() != expected:
            fail(f"after a power cut: {board.settings().hex()}")
    return file, expected


# At the moment in question the board says `!` on its UART and stands still.
STOP = "*(volatile uint32_t *)0x40004000u = '!'; for (;;) { }"
MOMENTS = (
    ("before-storing", ("settings.c", "    struct page written;\n", "    struct page written; " + STOP), False),
    ("amid-storing", ("settings.c", "        to[i] = ", "        if (i == 30) { " + STOP + " } to[i] = "), False),
    ("amid-the-last", ("settings.c", "        to[i] = ", "        if (i == sizeof *page - 1) { " + STOP + " } to[i] = "), False),
    ("before-sending", ("main.c", "    (void)bujorelm_send_frames(", "    if (result.kind == BUJORELM_WRITTEN) { " + STOP + " }\n    (void)bujorelm_send_frames("), True),
)


def test_killed(image, file, before, moments=MOMENTS, planted=()):
    """The machine is killed in the middle of a write: no byte that was stored is lost, and none is there by half."""
    for name, edit, is_stored in moments:
        stopping = build("stop-" + name, [edit, *planted])
        # Twice, so that either page is the one that is being written.
        for turn in range(2):
            with Machine(stopping, file) as board:
                board.send(f":X1A22B456N20010000001{turn}EEFF;\n")
                eventually("the moment " + name, lambda: "!" in board.read())
                if "19A2822B" in board.read():
                    fail("the tool was told OK before the moment " + name)
            after = bytearray(before)
            after[0x10 + turn : 0x12 + turn] = b"\xEE\xFF"
            with Machine(image, file) as board:
                expected = bytes(after) if is_stored else before
                if board.settings() != expected:
                    fail(f"killed {name}: {board.settings().hex()} and not {expected.hex()}")
                if not is_stored:
                    # One writing more, so that the pages change their parts.
                    board.ask(f":X1A22B456N20010000003F{turn:02X};", ":X19A2822BN045600;")
                    before = board.settings()
                else:
                    before = expected


def flood_line(k):
    """A write whose source, address and byte belong together: halves of two lines do not make a third."""
    return f":X1A22B{0x480 + k % 1024:03X}N2001000000{k % SETTINGS_SIZE:02X}{(7 * k + 3) % 256:02X};\n"


def test_flood(image, file):
    """Lines that come faster than the board stores: some are lost, each as a whole."""
    count = 1500
    settings = None
    with Machine(image, file) as board:
        settings = bytearray(board.settings())
        _, lost_before, spoilt_before = board.about()
        board.text = b""
        board.send("".join(flood_line(k) for k in range(count)))
        answers = board.read_all().splitlines()
        at = -1
        for answer in answers:
            match = re.fullmatch(r":X19A2822BN0([0-9A-F]{3})00;", answer) or fail(f"the board answers {answer}")
            alias = int(match.group(1), 16) - 0x480
            following = (k for k in range(at + 1, count) if k % 1024 == alias)
            at = next(following, None)
            if at is None:
                fail(f"an answer to a line that was not sent, or twice: {answer}")
            settings[at % SETTINGS_SIZE] = (7 * at + 3) % 256
        _, lost, spoilt = board.about()
        if spoilt != spoilt_before:
            fail(f"{spoilt - spoilt_before} lines are none that was sent")
        if not lost > lost_before:
            fail("no line was lost: they did not come fast enough")
        if len(answers) + lost - lost_before != count:
            fail(f"{len(answers)} lines answered and {lost - lost_before} lost, of {count}")
        if board.settings() != settings:
            fail("the settings are not those of the lines that were answered")
        print(f"{count} lines at once: {len(answers)} answered, {lost - lost_before} lost, each whole")


def must_fail(what, test):
    try:
        test()
    except AssertionError as words:
        print(f"{what} is found: {words}")
        return
    fail(f"{what} is not found")


# A ring that loses bytes and not lines, settings that are written over those that count, and a board that sends before it stores.
BAD_RING = ("can_uart.c", "RING_SIZE) {\n        losing = true;", "RING_SIZE) {\n        return;")
ONE_PAGE = ("settings.c", "    if (!page_write(index == 0 ? 1 : 0, &page)) {", "    if (!page_write(index == 0 ? 0 : 1, &page)) {")
SENDS_FIRST = (
    "main.c",
    "    if (result.kind == BUJORELM_WRITTEN && ",
    "    (void)bujorelm_send_frames(node.frames, result.frame_count, can_send, NULL);\n    if (result.kind == BUJORELM_WRITTEN && ",
)


def main():
    image = build("board")
    file, settings = test_reset(image)
    test_killed(image, file, settings)
    test_flood(image, file)
    must_fail("a ring that loses bytes", lambda: test_flood(build("bad-ring", [BAD_RING]), fresh("settings-bad-ring")))
    for what, planted, moment in (("settings in one page", ONE_PAGE, 1), ("an answer before it is stored", SENDS_FIRST, 0)):
        file, settings = test_reset(image)
        must_fail(what, lambda: test_killed(image, file, settings, [MOMENTS[moment]], [planted]))


main()

"""Tests of the reference host: document 01's session and odd lines on standard input, several tools at once on TCP, unfinished datagrams that grow
old, and broken ones, which are rejected once.

Usage: python3 host_test.py HOST [STEP]

The session is cut at every size of a read that is STEP or a multiple of it: at each one if it is left out.
"""

import contextlib
import fcntl
import os
import resource
import select
import signal
import socket
import struct
import subprocess
import sys
import tempfile
import termios
import time

HOST = sys.argv[1]
STEP = int(sys.argv[2]) if len(sys.argv) > 2 else 1

# How long anything that must happen may take, in seconds.
PATIENCE = 20

# The bounds of the host: tools at once, bytes that wait for one, and for how many seconds one is waited for.
CONNECTIONS_MAX = 64
OUTPUT_MAX = 1 << 20
WAIT_MAX = 5

# The greatest age of an unfinished datagram, in seconds.
AGE_MAX = 3

SESSION_IN = b"""\
:X1A22B123N200100000002ABCD;
:X1B22B123N200800000002FD0F;
:X1A22B456N20410000000202;
:X1D22B123N5A;
:X1A22B456N20410000000202;
:X1A22B123N20030000000001;
:X1A300123N2080;
"""

SESSION_OUT = b"""\
:X19A2822BN012300;
:X19A2822BN045680;
:X1A45622BN205100000002ABCD;
:X19A2822BN012300;
:X19A2822BN045680;
:X1A45622BN205100000002AACD;
:X19A2822BN012380;
:X1A12322BN201B000000001083;
"""

OPTIONS = b":X1A22B123N2080;\n"
OPTIONS_OUT = b":X19A2822BN012380;\n:X1A12322BN2082E000F2FF10;\n"

# A write of 24 bytes in a First, Middles and a Last, and what is answered to the Last of it; and to a frame that does not follow on those before.
WRITE = [b":X1B22B123N2001000000000102;\n", b":X1C22B123N030405060708090A;\n", b":X1C22B123N0B0C0D0E0F101112;\n", b":X1D22B123N131415161718;\n"]
WRITE_OUT = b":X19A2822BN012300;\n"
OUT_OF_ORDER = b":X19A4822BN01232040;\n"
READ_BACK = b":X1A22B123N20410000001602;\n"


def expect(got, wanted, what):
    if got != wanted:
        sys.exit(f"host_test.py: {what}: got {got!r:.400}, wanted {wanted!r:.400}")


# ---- Standard input ----


def run(text):
    done = subprocess.run([HOST], input=text, stdout=subprocess.PIPE, timeout=PATIENCE, check=False)
    expect(done.returncode, 0, f"the status after {text[:60]!r}")
    return done.stdout


def waiting_in(pipe):
    """How many bytes of a pipe have not been read."""
    return struct.unpack("i", fcntl.ioctl(pipe, termios.FIONREAD, b"\0\0\0\0"))[0]


def run_cut(text, size):
    """Runs the host so that each of its reads gives that many bytes: the next are written when the last were read."""
    with subprocess.Popen([HOST], stdin=subprocess.PIPE, stdout=subprocess.PIPE, bufsize=0) as host:
        limit = time.monotonic() + PATIENCE
        for at in range(0, len(text), size):
            host.stdin.write(text[at : at + size])
            while waiting_in(host.stdin) != 0:
                if time.monotonic() > limit:
                    sys.exit("host_test.py: the host stopped reading")
        host.stdin.close()
        return host.stdout.read()


def read_exactly(pipe, count):
    got = b""
    while len(got) < count:
        ready, _, _ = select.select([pipe], [], [], PATIENCE)
        if not ready:
            sys.exit(f"host_test.py: no answer; so far {got!r}")
        part = os.read(pipe.fileno(), count - len(got))
        if not part:
            break
        got += part
    return got


def test_session():
    expect(run(SESSION_IN), SESSION_OUT, "the session")
    expect(run(SESSION_IN[:-1]), SESSION_OUT, "the session without its last newline")
    with_odd_lines = SESSION_IN.replace(b"\n", b"\n?\n") + b":X"
    wanted_odd = run_cut(with_odd_lines, len(with_odd_lines))
    for size in range(STEP, len(SESSION_IN) + 1, STEP):
        expect(run_cut(SESSION_IN, size), SESSION_OUT, f"the session in reads of {size}")
    for size in (1, 2, 3, 5, 7, 11, 13, 28, 29, 30, 31):
        expect(run_cut(with_odd_lines, size), wanted_odd, f"odd lines in reads of {size}")


def test_lines():
    one = OPTIONS_OUT
    for text, wanted in (
        (b"", b""),
        (b"\n", b"?\n"),
        (b"\n\n", b"?\n?\n"),
        (b" ", b"?\n"),
        (OPTIONS, one),
        (OPTIONS[:-1], one),
        (b"\n" + OPTIONS, b"?\n" + one),
        (OPTIONS + b"\n", one + b"?\n"),
        (OPTIONS[:-1] + b"\r\n", b"?\n"),
        (OPTIONS[:-1] + b" \n", b"?\n"),
        (OPTIONS[:-1] + b"\0\n", b"?\n"),
        (b"\0" + OPTIONS, b"?\n"),
        (OPTIONS.lower(), b"?\n"),
        (b":X1a22B123N2080;\n", b"?\n"),
        (OPTIONS[:-1] + OPTIONS, b"?\n"),
        (b":X1A22B123N2080\n;\n", b"?\n?\n"),
        (b":XFFFFFFFFN;\n", b""),
        (b":X3A22B123N2080;\n", b""),
        (b":X1A22B123N2080000000000000;\n", b":X19A4822BN01231080;\n"),
        (b":X1A22B123N208000000000000000;\n", b"?\n"),
        (b":X1C22B123N;\n", b":X19A4822BN01232040;\n"),
        (b":X1A22B123N2080000000000000;x\n", b"?\n"),
        (b":X1A22B123N2080000000000000;;\n", b"?\n"),
        (b":X1A22B123N2080000000000000;" + b"x" * 9000 + b"\n", b"?\n"),
        (b"x" * 100000 + b"\n" + OPTIONS, b"?\n" + one),
        (b":" * 100000, b"?\n"),
        (OPTIONS[:-1] + b";" * 99984 + b"\n" + OPTIONS, b"?\n" + one),
        (b" " * 99984 + OPTIONS + OPTIONS, b"?\n" + one),
        (OPTIONS * 20000, one * 20000),
        (b"\n" * 100000, b"?\n" * 100000),
    ):
        expect(run(text), wanted, f"the lines {text[:60]!r}, {len(text)} bytes")
    # The longest read of the board, of space 0xFE: 54 bytes in seven frames.
    lines = run(b":X1A22B123N20420000000040;\n").split(b"\n")
    expect(len(lines), 9, "the frames of a long reply")
    expect(lines[1], b":X1B12322BN2052000000000000;", "its First")
    expect(lines[7], b":X1D12322BN000000000000;", "its Last")


def read_back_out(hexes):
    return b":X19A2822BN012380;\n:X1A12322BN205100000016" + hexes + b";\n"


def test_broken():
    """A datagram that breaks is rejected once; what is left of it is swallowed up to its Last, and sent again it is done."""
    first, *rest = WRITE
    whole = b"".join(WRITE)
    done = WRITE_OUT + read_back_out(b"1718")
    for text, wanted, what in (
        (b"".join(WRITE[:-1]) + whole + whole + READ_BACK, OUT_OF_ORDER + done, "a Last that is lost"),
        (first + whole + READ_BACK, OUT_OF_ORDER + read_back_out(b"0000"), "a First too many, and nothing sent again"),
        (first + first + whole + READ_BACK, OUT_OF_ORDER + done, "a datagram that is sent again at once"),
        (first + OPTIONS + b"".join(rest) + whole + READ_BACK, OUT_OF_ORDER + done, "a Single in between"),
        (first + OPTIONS + OPTIONS + whole + READ_BACK, OUT_OF_ORDER + OPTIONS_OUT + done, "a Single that ends the swallowing"),
        (first + b":X1C22B123N;\n" + b"".join(rest) + whole + READ_BACK, OUT_OF_ORDER + done, "an empty Middle"),
        (first + first + 30 * rest[0] + 3 * b":X1C22B123N;\n" + rest[-1] + whole + READ_BACK, OUT_OF_ORDER + done, "many that are swallowed"),
        (first + 30 * rest[0] + rest[-1] + whole + READ_BACK, b":X19A4822BN01232000;\n" + done, "a datagram that is too long"),
        # Behind the Last that is swallowed, and where the First is lost, each frame gets its own.
        (first + whole + b"".join(rest) + whole + READ_BACK, 4 * OUT_OF_ORDER + done, "strays behind a broken datagram"),
    ):
        expect(run(text), wanted, what)


def test_answers_before_next_read():
    with subprocess.Popen([HOST], stdin=subprocess.PIPE, stdout=subprocess.PIPE, bufsize=0) as host:
        for _ in range(50):
            host.stdin.write(OPTIONS + b"\n:X1A22B1")
            expect(read_exactly(host.stdout, len(OPTIONS_OUT) + 2), OPTIONS_OUT + b"?\n", "the answers to whole lines")
            host.stdin.write(b"23N2080;\n")
            expect(read_exactly(host.stdout, len(OPTIONS_OUT)), OPTIONS_OUT, "the answer to the line in two reads")
        host.send_signal(signal.SIGSTOP)
        host.send_signal(signal.SIGCONT)
        host.stdin.write(OPTIONS)
        expect(read_exactly(host.stdout, len(OPTIONS_OUT)), OPTIONS_OUT, "the answer after a stop")
        host.stdin.close()
        expect(host.wait(PATIENCE), 0, "the status")


def test_nobody_reads():
    """Output to a closed pipe ends the program with a status of its own, not by a signal."""
    with subprocess.Popen([HOST], stdin=subprocess.PIPE, stdout=subprocess.PIPE, stderr=subprocess.PIPE, bufsize=0) as host:
        host.stdout.close()
        host.stdin.write(OPTIONS)
        expect(host.wait(PATIENCE), 1, "the status without a reader")


def test_nonblocking():
    """Descriptors that another program left in non-blocking mode are waited for."""
    here, there = socket.socketpair()
    with here, there:
        there.setblocking(False)
        with subprocess.Popen([HOST], stdin=there, stdout=there) as host:
            there.close()
            text = OPTIONS * 3000
            here.settimeout(PATIENCE)
            here.sendall(text[:100])
            time.sleep(0.05)
            got = b""
            at = 100
            wanted = OPTIONS_OUT * 3000
            while len(got) < len(wanted):
                if at < len(text):
                    at += here.send(text[at : at + 512])
                got += here.recv(65536)
            expect(got, wanted, "answers through descriptors in non-blocking mode")
            here.shutdown(socket.SHUT_WR)
            expect(host.wait(PATIENCE), 0, "the status")


# ---- TCP ----


class Hub:
    """A host that serves a port. With `small` the system keeps little for a tool itself, so that what waits, waits in the host."""

    def __init__(self, port=0, descriptors=None, small=False):
        def limit():
            if descriptors is not None:
                resource.setrlimit(resource.RLIMIT_NOFILE, (descriptors, descriptors))

        words = [HOST, "--port", str(port)] + (["--send-buffer", "4096"] if small else [])
        self.small = small
        self.log_file = tempfile.TemporaryFile()
        self.process = subprocess.Popen(words, stdout=subprocess.PIPE, stderr=self.log_file, preexec_fn=limit)
        self.port = int(self.process.stdout.readline())

    def __enter__(self):
        return self

    def __exit__(self, kind, *_):
        alive = self.process.poll() is None
        self.process.terminate()
        self.process.wait()
        self.process.stdout.close()
        if not alive:
            sys.exit(f"host_test.py: the host ended with {self.process.returncode}: {self.log()!r}")
        # Whatever it has to say is about a connection that it closed.
        if kind is None:
            odd = [line for line in self.log().splitlines() if not line.startswith(b"host: a connection is closed: ")]
            expect(odd, [], "what the host says")
        self.log_file.close()

    def log(self):
        self.log_file.seek(0)
        return self.log_file.read()

    def tool(self):
        return Tool(self.port, small=self.small)

    def connections(self):
        """How many connections the host has open."""
        folder = f"/proc/{self.process.pid}/fd"
        count = 0
        for name in os.listdir(folder):
            # One that is listed may be closed by now.
            with contextlib.suppress(FileNotFoundError):
                count += os.readlink(f"{folder}/{name}").startswith("socket:")
        return count - 1

    def wait_for_connections(self, count, seconds, what):
        limit = time.monotonic() + seconds
        while self.connections() != count:
            if time.monotonic() > limit:
                sys.exit(f"host_test.py: {what}: {self.connections()} connections, wanted {count}")
            time.sleep(0.01)


class Tool:
    """A connected tool. It is on the bus only when the host has taken the connection, so it asks for an answer first."""

    def __init__(self, port, on_bus=True, small=False):
        self.socket = socket.socket()
        self.socket.settimeout(PATIENCE)
        if small:
            self.socket.setsockopt(socket.SOL_SOCKET, socket.SO_RCVBUF, 8192)
        self.socket.connect(("127.0.0.1", port))
        self.got = b""
        if on_bus:
            self.send(b"hello\n")
            self.expect(b"?\n", "the answer to a line that is no frame")

    def send(self, text):
        self.socket.sendall(text)

    def line(self):
        while b"\n" not in self.got:
            part = self.socket.recv(65536)
            if not part:
                return b""
            self.got += part
        line, _, self.got = self.got.partition(b"\n")
        return line + b"\n"

    def rest(self):
        """All that comes until the host closes."""
        parts = [self.got]
        while parts[-1] or len(parts) == 1:
            try:
                parts.append(self.socket.recv(65536))
            except ConnectionResetError:
                break
        self.got = b""
        return b"".join(parts)

    def expect(self, wanted, what):
        for line in wanted.splitlines(keepends=True):
            expect(self.line(), line, what)

    def expect_nothing(self, what):
        ready, _, _ = select.select([self.socket], [], [], 0.1)
        expect((self.got, bool(ready)), (b"", False), what)

    def close(self):
        self.socket.close()


def test_two_tools():
    with Hub() as hub:
        one, two = hub.tool(), hub.tool()
        # Document 01's session, its aliases split over the two tools: each sees the other's frames and all of the board's.
        answers = SESSION_OUT.splitlines(keepends=True)
        for line, count in zip(SESSION_IN.splitlines(keepends=True), (1, 0, 2, 1, 2, 2, 0)):
            sender, other = (two, one) if b"456N" in line else (one, two)
            answer = b"".join(answers[:count])
            del answers[:count]
            sender.send(line)
            # Only when the other has seen the frame is the next one sent, so that the order on the bus is known.
            sender.expect(answer, "the sender's view of the session")
            other.expect(line + answer, "the other tool's view of the session")
        expect(answers, [], "the session's answers")
        # What is no frame concerns its sender alone. A frame for nobody is seen by the other alone.
        one.send(b"nonsense\n\n:X1A22B123N2080;\r\n")
        one.expect(b"?\n?\n?\n", "the answer to odd lines")
        two.expect_nothing("odd lines of another")
        one.send(b":X195B4123N0101010101010101;\n")
        two.expect(b":X195B4123N0101010101010101;\n", "an event")
        one.expect_nothing("its own event")
        # The greatest header on a bus, and longer ones, which are on none.
        one.send(b":X1FFFFFFFN;\n")
        two.expect(b":X1FFFFFFFN;\n", "the greatest header")
        one.send(b":X20000000N;\n:X3A22B123N2080;\n:X5A22B123N2080;\n:X9A22B123N2080;\n:XFFFFFFFFN0102;\n?\n:X1A22B123;\n")
        one.expect(b"?\n?\n", "headers over 29 bits are not answered")
        two.expect_nothing("headers over 29 bits")
        # A line in pieces, while the other tool sends as well.
        one.send(b":X1A22B123")
        two.send(b":X1A22B456N20A8;\n")
        two.expect(b":X19A2822BN045600;\n", "the answer in between")
        one.expect(b":X1A22B456N20A8;\n:X19A2822BN045600;\n", "the view in between")
        one.send(b"N20A8;\n")
        one.expect(b":X19A2822BN012300;\n", "the answer to a line in pieces")
        two.expect(b":X1A22B123N20A8;\n:X19A2822BN012300;\n", "the view of a line in pieces")
        # Long lines.
        one.send(b"x" * 100000 + b"\n" + OPTIONS)
        one.expect(b"?\n" + OPTIONS_OUT, "the answer after a long line")
        two.expect(OPTIONS + OPTIONS_OUT, "the view after a long line")
        # The last line lacks its newline, and its sender still listens.
        one.send(OPTIONS[:-1])
        one.socket.shutdown(socket.SHUT_WR)
        one.expect(OPTIONS_OUT, "the answer to the last line")
        expect(one.line(), b"", "the end after the last line")
        two.expect(OPTIONS + OPTIONS_OUT, "the view of the last line")
        one.close()
        # The one that is left is served, and the memory is the board's, not a connection's.
        three = hub.tool()
        three.send(b":X1A22B789N20410000000202;\n")
        wanted = b":X19A2822BN078980;\n:X1A78922BN205100000002AACD;\n"
        three.expect(wanted, "memory after the session")
        two.expect(b":X1A22B789N20410000000202;\n" + wanted, "the view of it")
        two.close()
        three.close()


def test_two_tools_broken():
    """While a tool is being swallowed, another is served; both see the one rejection."""
    with Hub() as hub:
        one, two = hub.tool(), hub.tool()
        one.send(WRITE[0])
        two.expect(WRITE[0], "the First")
        for line, answer in ((WRITE[0], OUT_OF_ORDER), *((line, b"") for line in WRITE[1:])):
            one.send(line)
            one.expect(answer, "the sender's view of a broken datagram")
            two.expect(line + answer, "the other tool's view of a broken datagram")
            two.send(b":X1A22B456N20A8;\n")
            two.expect(b":X19A2822BN045600;\n", "the other tool's own answer")
            one.expect(b":X1A22B456N20A8;\n:X19A2822BN045600;\n", "the view of the other tool's")
        for line in WRITE:
            one.send(line)
        one.expect(WRITE_OUT, "the answer to the datagram that is sent again")
        two.expect(b"".join(WRITE) + WRITE_OUT, "the view of it")
        one.expect_nothing("more than one rejection")
        two.expect_nothing("more than one rejection")
        one.close()
        two.close()


def test_many_tools():
    """Everybody sees everything, in one order."""
    count, each = 24, 20
    with Hub() as hub:
        tools = [hub.tool() for _ in range(count)]
        for turn in range(each):
            for number, tool in enumerate(tools):
                tool.send(b":X1A22B%03XN20A8%s;\n" % (number + 1, b"" if turn % 2 == 0 else b"00"))
        views = []
        for number, tool in enumerate(tools):
            own = b":X1A22B%03XN" % (number + 1)
            view = [tool.line() for _ in range((count - 1) * each + count * each)]
            expect([line for line in view if line.startswith(own)], [], "a tool's own frames")
            views.append(view)
        # With each tool's own frames put aside, all have seen the same.
        for number, view in enumerate(views):
            other = 0 if number else 1
            mine = b":X1A22B%03XN" % (number + 1)
            theirs = b":X1A22B%03XN" % (other + 1)
            expect(
                [line for line in view if not line.startswith(theirs)],
                [line for line in views[other] if not line.startswith(mine)],
                "two views of the bus",
            )
            for line in set(view):
                if b"N20A8" not in line:
                    expect(view.count(line), each // 2, f"how often {line!r} was sent")
        ready, _, _ = select.select([tool.socket for tool in tools], [], [], 0.1)
        expect(([tool.got for tool in tools], ready), ([b""] * count, []), "anything more")
        for tool in tools:
            tool.close()


EVENT = b":X195B4123N0101010101010101;\n"
LONG_READ = b":X1A22B123N20420000000040;\n"


def test_slow_tool():
    """Up to a bound the host keeps what a tool does not take, byte by byte; then it drops the tool and serves the others."""
    with Hub(small=True) as hub:
        slow, busy = hub.tool(), hub.tool()
        # The system itself keeps some 20 thousand bytes.
        for share, kept in ((0.97, True), (0.5, True), (1.05, False)):
            events = [b":X195B4123N%016X;\n" % n for n in range(int(share * OUTPUT_MAX) // len(EVENT))]
            begun = time.monotonic()
            busy.send(b"".join(events))
            busy.send(OPTIONS)
            busy.expect(OPTIONS_OUT, "the answer while another tool takes nothing")
            expect(time.monotonic() - begun < WAIT_MAX - 1, True, "fast enough for this test")
            if kept:
                slow.expect(b"".join(events) + OPTIONS + OPTIONS_OUT, "what waited")
                expect(hub.log(), b"", "what the host says of a slow tool")
        hub.wait_for_connections(1, 1, "a tool that takes nothing")
        expect(b"too much waits" in hub.log(), True, "what the host says of a tool that is dropped")
        # What it gets is the beginning of what was sent.
        got = slow.rest()
        expect(b"".join(events).startswith(got), True, "what a dropped tool gets")
        busy.send(OPTIONS)
        busy.expect(OPTIONS_OUT, "the answer after the drop")
        busy.close()
        slow.close()


def test_ended_tool():
    """A tool that has ended its input is sent the answers to its own frames, to the last byte, and no frame of others."""
    count = 250
    with Hub(small=True) as hub:
        other = hub.tool()
        for late in (False, True):
            ended = hub.tool()
            # Its answers are more than the system keeps. The last line ends with the input, so that the other tool sees that end.
            ended.send(LONG_READ * count + b":X1A22B123N20A8;")
            wanted = run(LONG_READ * count + b":X1A22B123N20A8;")
            ended.socket.shutdown(socket.SHUT_WR)
            while other.line() != b":X19A2822BN012300;\n":
                pass
            other.send(EVENT * 10 + OPTIONS)
            other.expect(OPTIONS_OUT, "the answer while another tool has ended")
            if late:
                time.sleep(WAIT_MAX / 2)
            expect(ended.rest(), wanted, "what a tool gets that has ended its input")
            ended.close()
            hub.wait_for_connections(1, 1, "a tool that has ended and taken all")
        other.close()
        expect(hub.log(), b"", "what the host says of a tool that has ended")


# A tool that asks, ends its input or does not, and takes so many bytes twice a second, and why it is closed.
WAITED_FOR = (
    ("nothing to take", 0, False, 0, None),
    ("takes nothing", 250, False, 0, b"it takes nothing"),
    ("takes slowly", 1000, False, 4096, None),
    ("ended, takes nothing", 250, True, 0, b"since its input ended"),
    ("ended, takes slowly", 250, True, 2048, b"since its input ended"),
    # Too much waits for it to be read from, so that its end is not seen.
    ("ended unseen, takes nothing", 1000, True, 0, b"it takes nothing"),
)


def test_waited_for():
    """No tool is waited for without an end, and none is closed that has nothing to take or takes it slowly."""
    hubs = [Hub(small=True) for _ in WAITED_FOR]
    tools = [hub.tool() for hub in hubs]
    begun = time.monotonic()
    for tool, (_, count, ends, _, _) in zip(tools, WAITED_FOR):
        tool.send(LONG_READ * count)
        if ends:
            tool.socket.shutdown(socket.SHUT_WR)
    for turn in range(2 * WAIT_MAX + 4):
        time.sleep(max(0, begun + turn / 2 - time.monotonic()))
        for hub, tool, (word, _, _, taken, _) in zip(hubs, tools, WAITED_FOR):
            state = (hub.connections(), hub.log())
            # The machine may be busy: what counts is when this was seen, not when it was to be.
            if time.monotonic() - begun < WAIT_MAX:
                expect(state, (1, b""), f"before its time is up: {word}")
                if taken != 0:
                    tool.socket.recv(taken)
    for hub, tool, (word, _, _, _, why) in zip(hubs, tools, WAITED_FOR):
        with hub:
            if why is not None:
                hub.wait_for_connections(0, 0.5, f"the connection: {word}")
                expect(why in hub.log(), True, f"why it is closed: {word}")
            else:
                expect((hub.connections(), hub.log()), (1, b""), f"the connection: {word}")
                tool.send(b":X1A22B777N20A8;\n")
                while tool.line() != b":X19A2822BN077700;\n":
                    pass
            tool.close()


def test_too_many_tools():
    """A connection over the limit is closed at once and harms nobody; a tool that goes makes room."""
    with Hub() as hub:
        tools = [hub.tool() for _ in range(CONNECTIONS_MAX)]
        for turn in range(3):
            over = Tool(hub.port, on_bus=False)
            over.socket.settimeout(1)
            expect(over.rest(), b"", "what a connection over the limit gets")
            over.close()
            expect(hub.log().count(b"there are 64 already\n"), turn + 1, "the lines about connections over the limit")
        expect(hub.connections(), CONNECTIONS_MAX, "the connections at the limit")
        tools[0].send(OPTIONS)
        tools[0].expect(OPTIONS_OUT, "the answer to the first")
        tools[-1].expect(OPTIONS + OPTIONS_OUT, "the view of the last")
        tools.pop(5).close()
        hub.wait_for_connections(CONNECTIONS_MAX - 1, 1, "a tool that goes")
        tools.append(hub.tool())
        for tool in tools:
            tool.close()


def test_asks_faster_than_it_listens():
    """A tool that sends many requests before it reads any answer is served in full."""
    with Hub() as hub:
        tool = hub.tool()
        # More answers than the system's own buffers take.
        count = 60000
        text = LONG_READ * count
        wanted = len(run(LONG_READ)) * count
        tool.socket.setblocking(False)
        at = 0
        got = len(tool.got)
        limit = time.monotonic() + PATIENCE
        while got < wanted:
            if time.monotonic() > limit:
                sys.exit("host_test.py: a tool with many requests is not served")
            # It reads only where it cannot send.
            _, writable, _ = select.select([], [tool.socket] if at < len(text) else [], [], 0.02)
            if writable:
                at += tool.socket.send(text[at : at + 65536])
            else:
                try:
                    part = tool.socket.recv(1 << 20)
                except BlockingIOError:
                    continue
                if not part:
                    sys.exit("host_test.py: a tool with many requests was dropped")
                got += len(part)
        expect(got, wanted, "the answers to many requests")
        tool.close()


def test_rude_tools():
    """Tools that go without a word, in the middle of a line or with answers on their way, harm nobody."""
    with Hub() as hub:
        polite = hub.tool()
        for turn in range(30):
            rude = hub.tool()
            rude.send(OPTIONS * 50 + b":X1A22")
            if turn % 2 == 0:
                rude.socket.setsockopt(socket.SOL_SOCKET, socket.SO_LINGER, struct.pack("ii", 1, 0))
            rude.close()
        hub.process.send_signal(signal.SIGSTOP)
        hub.process.send_signal(signal.SIGCONT)
        polite.send(b":X1A22B777N20A8;\n")
        while polite.line() != b":X19A2822BN077700;\n":
            pass
        polite.close()


def cpu_time(pid):
    """The seconds of processor time that a process has taken."""
    with open(f"/proc/{pid}/stat", encoding="ascii") as file:
        fields = file.read().rpartition(")")[2].split()
    return (int(fields[11]) + int(fields[12])) / os.sysconf("SC_CLK_TCK")


def test_no_descriptors():
    """Tools past the limit of the system wait; one that goes makes room."""
    with Hub(descriptors=12) as hub:
        tools = [Tool(hub.port, on_bus=False) for _ in range(20)]
        waiting = list(tools)
        limit = time.monotonic() + PATIENCE
        for tool in tools:
            tool.send(b"\n")
        # While nobody goes, the host waits too, and does not spin.
        begun = cpu_time(hub.process.pid)
        time.sleep(0.5)
        expect(cpu_time(hub.process.pid) - begun < 0.2, True, "idle without descriptors")
        while waiting:
            if time.monotonic() > limit:
                sys.exit("host_test.py: tools that waited for room are not served")
            ready, _, _ = select.select([tool.socket for tool in waiting], [], [], 1)
            for tool in [tool for tool in waiting if tool.socket in ready]:
                tool.expect(b"?\n", "the answer")
                tool.close()
                waiting.remove(tool)


# ---- Time ----


def line_from(pipe):
    ready, _, _ = select.select([pipe], [], [], PATIENCE)
    return pipe.readline() if ready else b""


def asked(send, receive, text):
    """What is answered to frames. Behind them goes a line that is no frame: what comes before its answer is the whole."""
    send(text + b"?\n")
    got = b""
    while not got.endswith(b"?\n"):
        part = receive()
        if not part:
            sys.exit(f"host_test.py: no answer to {text!r}; so far {got!r}")
        got += part
    return got[:-2]


def frames(top, *sources):
    """A First or a Last from each source; the two together are Update Complete."""
    return b"".join(b":X%02X22B%03XN%s;\n" % (top, source, b"20" if top == 0x1B else b"A8") for source in sources)


class TooSlow(Exception):
    """A frame that was to come in time may have come too late, so that nothing can be said of the host."""


def grow_old(ask):
    """Unfinished datagrams of a board. At each yield the given seconds have to pass."""

    def expect_in_time(since, text, wanted, what):
        got = ask(text)
        if time.monotonic() - since >= AGE_MAX:
            raise TooSlow
        expect(got, wanted, what)

    begun = time.monotonic()
    expect_in_time(begun, frames(0x1B, *range(1, 10)), b":X19A4822BN00092020;\n", "eight Firsts and a ninth")
    yield AGE_MAX / 2
    # In time: the one is finished and another renewed.
    renewed = time.monotonic()
    expect_in_time(begun, frames(0x1D, 2), b":X19A2822BN000200;\n", "a Last in time")
    expect_in_time(begun, b":X1C22B003NA8;\n" + frames(0x1B, 2), b"", "a Middle in time, and another First")
    yield AGE_MAX / 2 + 0.1
    # Too late, but for the two from which something has come in between.
    expect_in_time(renewed, frames(0x1B, 9) + frames(0x1D, 9), b":X19A2822BN000900;\n", "the ninth when others are too old")
    expect_in_time(renewed, frames(0x1D, 1, 4), b":X19A4822BN00012040;\n:X19A4822BN00042040;\n", "a Last that is too late")
    in_time = b":X1D22B003N;\n" + frames(0x1D, 2)
    expect_in_time(renewed, in_time, b":X19A2822BN000300;\n:X19A2822BN000200;\n", "Lasts of those that are not too old")


def let_grow_old():
    """Datagrams of two boards at once: one on TCP, and one on standard input."""
    with Hub() as hub, subprocess.Popen([HOST], stdin=subprocess.PIPE, stdout=subprocess.PIPE, bufsize=0) as host:
        tool = hub.tool()
        boards = [
            grow_old(lambda text: asked(tool.send, tool.line, text)),
            grow_old(lambda text: asked(host.stdin.write, lambda: line_from(host.stdout), text)),
        ]
        pauses = [next(board, 0) for board in boards]
        while any(pauses):
            time.sleep(max(pauses))
            pauses = [next(board, 0) for board in boards]
        tool.close()


def test_growing_old():
    """An unfinished datagram is dropped when nothing has come of it for more than three seconds, and not before. Where this machine was too slow
    to tell, it is tried again."""
    for _ in range(5):
        try:
            let_grow_old()
            return
        except TooSlow:
            continue
    sys.exit("host_test.py: five times too slow to let a datagram grow old")


def test_usage():
    buffer = ["--port", "0", "--send-buffer"]
    more = (buffer, [*buffer, ""], [*buffer, "-1"], [*buffer, "1048577"], [*buffer, "1x"], ["--port", "0", "x", "1"], [*buffer, "1", "x"])
    for words in (["--port"], ["--port", ""], ["--port", "-1"], ["--port", "65536"], ["--port", "1x"], ["--port", "x"], ["x"], ["x", "1"], *more):
        done = subprocess.run([HOST, *words], stdin=subprocess.DEVNULL, capture_output=True, timeout=PATIENCE, check=False)
        expect((done.returncode, done.stdout), (2, b""), f"the status for {words}")
    with Hub() as hub:
        done = subprocess.run([HOST, "--port", str(hub.port)], capture_output=True, timeout=PATIENCE, check=False)
        expect((done.returncode, done.stdout), (1, b""), "the status for a port in use")
        port = hub.port
    # A port that is asked for is the one that is served.
    with Hub(port) as hub:
        expect(hub.port, port, "the port")
        hub.tool().close()


TESTS = (
    test_session,
    test_lines,
    test_broken,
    test_answers_before_next_read,
    test_nobody_reads,
    test_nonblocking,
    test_two_tools,
    test_two_tools_broken,
    test_many_tools,
    test_slow_tool,
    test_ended_tool,
    test_waited_for,
    test_too_many_tools,
    test_asks_faster_than_it_listens,
    test_rude_tools,
    test_no_descriptors,
    test_usage,
)


def run_test(test):
    begun = time.monotonic()
    test()
    print(f"host_test.py: {test.__name__} passed in {time.monotonic() - begun:.1f} s", flush=True)


def main():
    # What lets time pass, does so beside the others.
    beside = os.fork()
    if beside == 0:
        run_test(test_growing_old)
        return
    for test in TESTS:
        run_test(test)
    expect(os.waitpid(beside, 0)[1], 0, "the status of test_growing_old")


main()

"""Tests when the reference host drops an unfinished datagram, or a source that is being swallowed: to the millisecond, across the wrap of its tick
and after pauses of any length. The host is one whose clock is set here (tests/clock.c).

Usage: python3 clock_test.py HOST
"""

import os
import select
import subprocess
import sys
import tempfile

HOST = sys.argv[1]

# How long anything that must happen may take, in seconds.
PATIENCE = 20

# Times at which a test begins: some just before the 16 low bits of the milliseconds go from 65,535 to 0, and some far on.
BEGINNINGS = (0, 62535, 62536, 64000, 65535, (1 << 40) - 1500)
FEW_BEGINNINGS = (0, 64000)


def expect(got, wanted, what):
    if got != wanted:
        sys.exit(f"clock_test.py: {what}: got {got!r:.400}, wanted {wanted!r:.400}")


def first(source, data="20"):
    return f":X1B22B{source:03X}N{data};"


def middle(source, data="A8"):
    return f":X1C22B{source:03X}N{data};"


def last(source, data="A8"):
    return f":X1D22B{source:03X}N{data};"


def ok(source):
    return f":X19A2822BN{source:04X}00;\n"


def rejected(source, code):
    return f":X19A4822BN{source:04X}{code};\n"


# A frame of source 1 to another board.
IGNORED = ":X1D300001NA8;"


class Host:
    """A host at a time that is set with each line."""

    def __init__(self, folder, time):
        self.clock = os.path.join(folder, "clock")
        self.set(time)
        self.process = subprocess.Popen([HOST], stdin=subprocess.PIPE, stdout=subprocess.PIPE, bufsize=0, env={**os.environ, "CLOCK": self.clock})

    def __enter__(self):
        return self

    def __exit__(self, kind, *_):
        self.process.stdin.close()
        status = self.process.wait(PATIENCE)
        self.process.stdout.close()
        if kind is None:
            expect(status, 0, "the status")

    def set(self, time):
        # The host reads its clock whenever it likes, so there is a whole one at any moment.
        with open(f"{self.clock}.new", "w", encoding="ascii") as file:
            file.write(f"{time}\n")
        os.replace(f"{self.clock}.new", self.clock)

    def ask(self, time, line):
        """What is answered to a line at a time. Behind it goes a line that is no frame: what comes before its answer is the whole."""
        self.set(time)
        self.process.stdin.write(f"{line}\n?\n".encode())
        answer = ""
        while not answer.endswith("?\n"):
            ready, _, _ = select.select([self.process.stdout], [], [], PATIENCE)
            part = self.process.stdout.readline().decode() if ready else ""
            if not part:
                sys.exit(f"clock_test.py: no answer to {line}; so far {answer!r}")
            answer += part
        return answer[:-2]


def play(steps, what, beginnings=BEGINNINGS):
    """Lines with their times, counted from each beginning, and what is answered."""
    for begun in beginnings:
        with tempfile.TemporaryDirectory() as folder, Host(folder, begun) as host:
            for time, line, wanted in steps:
                expect(host.ask(begun + time, line), wanted, f"{what}: {line} after {time} ms from {begun} on")


def test_age():
    """Exactly 3,000 ms stay and 3,001 are too many, behind a First and behind a Middle; frames that are ignored renew nothing."""
    play([(0, first(1), ""), (3000, last(1), ok(1))], "a Last in time")
    play([(0, first(1), ""), (3001, last(1), rejected(1, "2040")), (3001, first(1), ""), (3001, last(1), ok(1))], "a Last too late")
    play([(0, first(1), ""), (3001, first(1), ""), (6001, last(1), ok(1))], "a First behind one that is dropped")
    play([(0, first(1), ""), (3000, first(1), rejected(1, "2040"))], "a First behind one that is not")
    play([(0, first(1), ""), (3001, ":X1A22B001N20A8;", ok(1))], "a Single behind one that is dropped")
    play([(0, first(1, "20"), ""), (3000, middle(1), ""), (6000, last(1, ""), ok(1))], "a Middle renews")
    play([(0, first(1, "20"), ""), (3000, middle(1), ""), (6001, last(1, ""), rejected(1, "2040"))], "a Middle renews once")
    play([(0, first(1), ""), (3000, IGNORED, ""), (3001, last(1), rejected(1, "2040"))], "an ignored frame does not")


def test_swallowed():
    """A tool that is being swallowed is so for 3,000 ms after its last accepted frame: the refused one renews nothing, and a swallowed one does."""
    broken = [(0, first(1), ""), (1000, first(1), rejected(1, "2040"))]
    stray = rejected(1, "2040")
    play([*broken, (3000, middle(1), ""), (6000, middle(1, ""), ""), (9000, last(1), ""), (9000, last(1), stray)], "frames in time")
    play([*broken, (3000, last(1), ""), (3000, last(1), stray)], "a Last in time")
    play([*broken, (3001, middle(1), stray), (3001, last(1), stray), (3001, first(1), ""), (3001, last(1), ok(1))], "a Middle too late")
    play([*broken, (3000, middle(1), ""), (6001, last(1), stray)], "a Middle renews once")
    play([*broken, (3000, IGNORED, ""), (3001, last(1), stray)], "an ignored frame renews nothing")
    play([*broken, (3000, first(1), ""), (6000, last(1), ok(1))], "a First in time")
    play([*broken, (3000, ":X1A22B001N20A8;", ok(1)), (3000, middle(1), stray)], "a Single in time")
    for pause in (3001, 62000, 65535, 65536, 65537, 68536, 1 << 32):
        play([*broken, (2000, middle(1), ""), (2000 + pause, last(1), stray)], "a pause", FEW_BEGINNINGS)


def test_pauses():
    """After a pause of any length, what was unfinished is dropped: also where the count has gone round, and the tick is as it was. Before the
    pause it may have been as old as it can be."""
    for pause in (3001, 30000, 30001, 33000, 61999, 62000, 62535, 62536, 62537, 65535, 65536, 65537, 68536, 95536, 98536, 131072, 10**7, 1 << 32):
        late = (pause, last(1), rejected(1, "2040"))
        play([(0, first(1), ""), late, (pause, first(1), ""), (pause + 3000, last(1), ok(1))], "a pause", FEW_BEGINNINGS)
        late = (3000 + pause, last(1), rejected(1, "2040"))
        play([(0, first(1), ""), (3000, IGNORED, ""), late], "a pause when it is old", FEW_BEGINNINGS)


def test_places():
    """Eight datagrams that are begun and left lock a ninth tool out for 3,000 ms and no longer."""
    begun = [(10 * source, first(source), "") for source in range(1, 9)]
    play([*begun, (3010, first(9), rejected(9, "2020")), (3011, first(9), ""), (3011, first(10), rejected(10, "2020"))], "the first is too old")
    play([*begun, (3080, first(9), ""), (3080, last(8), ok(8)), (3080, last(7), rejected(7, "2040"))], "all but the last are too old")
    # Tools that are being swallowed do so too, and take none of the time anew by the frame that is refused.
    begun += [(500, middle(source, ""), rejected(source, "2040")) for source in range(1, 9)]
    play([*begun, (3010, first(9), rejected(9, "2020")), (3011, first(9), ""), (3011, first(10), rejected(10, "2020"))], "the first is too old")
    play([*begun, (3080, first(9), ""), (3080, last(8), ""), (3080, last(7), rejected(7, "2040"))], "all but the last are too old")


def main():
    for test in (test_age, test_swallowed, test_pauses, test_places):
        test()
    print("clock_test.py: the host drops what is unfinished when its time has come")


main()

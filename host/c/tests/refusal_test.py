"""Tests that the host and the examples print the sentence of a refusal, at the start, at a later frame and at a lone tick: programs whose
library refuses (tests/refusing.c).

Usage: python3 refusal_test.py OUT
"""

import os
import select
import subprocess
import sys

OUT = sys.argv[1]

# How long anything that must happen may take, in seconds.
PATIENCE = 20

# Numbers with a position and without one; 255 is none.
REFUSALS = {
    "3 3": "B3: space 3, counted from 0, reaches past the end of its memory or flash",
    "5 15": "B5: space 15, counted from 0, has the number of an earlier space",
    "2 0": "B2: space 0, counted from 0, has its lowest address above its highest",
    "12 255": "B12: memory has more than 65,536 bytes",
    "7 255": "B7: the reception state holds what no call has left there",
}

OPTIONS = b":X1A22B123N2080;\n"
OPTIONS_OUT = ":X19A2822BN012380;\n:X1A12322BN2082E000F2FF10;\n"

# As many lone ticks as never come.
ALL_TICKS = 1 << 30


def environment(frames, ticks, refusal):
    return {**os.environ, "REFUSAL": f"{frames} {ticks} {refusal}"}


def run(program, frames, refusal, words=(), ticks=ALL_TICKS):
    """What a program prints and how it ends, with a library that refuses after so many frames and lone ticks. The host brings lone ticks as time
    passes, and a machine may let it wait: so of those none is refused where nothing else is said."""
    done = subprocess.run([os.path.join(OUT, program), *words], input=2 * OPTIONS, capture_output=True, check=False, timeout=PATIENCE,
                          env=environment(frames, ticks, refusal))
    return done.returncode, done.stdout.decode(), done.stderr.decode()


def expect(got, wanted, what):
    if got != wanted:
        sys.exit(f"refusal_test.py: {what}: got {got!r}, wanted {wanted!r}")


def start_idle(words):
    """A host to which nothing is sent, with a library that refuses every lone tick."""
    return subprocess.Popen([os.path.join(OUT, "host-refusing"), *words], stdin=subprocess.PIPE, stdout=subprocess.PIPE,
                            stderr=subprocess.PIPE, bufsize=0, env=environment(1, 0, "7 255"))


def check_idle(host, what):
    ready, _, _ = select.select([host.stderr], [], [], PATIENCE)
    line = host.stderr.readline().decode() if ready else None
    expect(line, f"host: {REFUSALS['7 255']}\n", f"what {what} says at a lone tick")


def check_frames():
    for refusal, sentence in REFUSALS.items():
        # At the start, before any frame: the program ends.
        expect(run("host-refusing", 0, refusal), (1, "", f"host: {sentence}\n"), f"the host with {refusal}")
        expect(run("host-refusing", 0, refusal, ("--port", "0")), (1, "", f"host: {sentence}\n"), f"the host on TCP with {refusal}")
        expect(run("example-refusing", 0, refusal), (1, "", f"{sentence}\n"), f"the example with {refusal}")
        expect(run("socketcan-refusing", 0, refusal, ("none", "none")), (1, "", f"socketcan: {sentence}\n"), f"socketcan with {refusal}")
        # At the second frame of two: the first is answered.
        expect(run("host-refusing", 2, refusal), (0, OPTIONS_OUT, f"host: {sentence}\n"), f"the host with {refusal} at the second frame")
        # At the second frame of four, at all behind it and at the lone tick.
        status, out, err = run("example-refusing", 2, refusal, ticks=0)
        expect((status, out.count("\n"), err), (0, 2, 4 * f"{sentence}\n"), f"the example with {refusal} at the second frame")


def main():
    # A lone tick comes after a second, which the other tests take.
    idle = {"the host": start_idle(()), "the host on TCP": start_idle(("--port", "0"))}
    try:
        check_frames()
        for what, host in idle.items():
            check_idle(host, what)
    finally:
        for host in idle.values():
            with host:
                host.terminate()
    print("refusal_test.py: the host and the examples print why a call is refused")


main()

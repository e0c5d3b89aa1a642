#!/usr/bin/env python3
"""The archives as files: what they call, what they take of flash and RAM, and that the wrong one is not linked.

usage: archive_test.py ROOT OUT TARGET..

Prints the sizes as a table for docs/PERFORMANCE.md. ROOT/target/firmware/TARGET/libbujorelm.a must be there for each target; OUT is a folder for what
is made. Fails where the library is larger on a Cortex-M0 than SIZE_LIMIT.
"""
import os
import shutil
import struct
import subprocess
import sys

# The most bytes of code and constants of the whole archive on a Cortex-M0. A change that needs more raises this number, and says so.
SIZE_LIMIT = 13900

GROUPS = (
    ("a board on a bus: `bujorelm_handle_frame`, `bujorelm_handle_tick`", ("handle_frame", "handle_tick", "version")),
    ("a board whose datagrams are joined elsewhere: `bujorelm_handle_datagram`", ("handle_datagram", "version")),
    ("frames for it: `bujorelm_cut`, `bujorelm_received_ok`, `bujorelm_rejected`", ("cut", "received_ok", "rejected")),
    ("GridConnect lines: `bujorelm_parse_line`, `bujorelm_print_frame`", ("parse_line", "print_frame")),
    ("lines out of chunks: `bujorelm_next_line`, `bujorelm_last_line`", ("next_line", "last_line")),
)
CALLS = {"arm": {"__aeabi_memclr", "__aeabi_memcpy", "__aeabi_memcpy4", "__aeabi_memclr4", "__aeabi_memclr8", "__aeabi_memmove", "__aeabi_memset"}, "riscv": {"memcpy", "memmove", "memset"}}
FLAGS = {
    "thumbv6m": ["--target=thumbv6m-none-eabi", "-mcpu=cortex-m0"],
    "thumbv7m": ["--target=thumbv7m-none-eabi", "-mcpu=cortex-m3"],
    "thumbv7em": ["--target=thumbv7em-none-eabi", "-mcpu=cortex-m4", "-mfloat-abi=soft"],
    "riscv32": ["--target=riscv32-unknown-elf", "-march=rv32imc", "-mabi=ilp32"],
}

ROOT, OUT = (os.path.abspath(word) for word in sys.argv[1:3])
TARGETS = sys.argv[3:]
KIT = os.path.dirname(subprocess.run(["rt", "doc"], check=True, capture_output=True, text=True).stdout.strip())
TOOLS = os.path.join(KIT, "toolchain", "bin")


def fail(words):
    sys.exit(f"archive_test.py: {words}")


def archive(target):
    return os.path.join(ROOT, "target", "firmware", target, "libbujorelm.a")


def run(*words):
    return subprocess.run(words, capture_output=True, text=True, check=False)


class Elf:
    """The sections of a 32-bit ELF file."""

    def __init__(self, path):
        with open(path, "rb") as file:
            self.bytes = file.read()
        if self.bytes[:6] != b"\x7fELF\x01\x01":
            fail(f"{path} is no ELF file of 32 bits with the least significant byte first")
        at, = struct.unpack_from("<I", self.bytes, 32)
        size, count, names = struct.unpack_from("<HHH", self.bytes, 46)
        headers = [struct.unpack_from("<10I", self.bytes, at + i * size) for i in range(count)]
        self.sections = [(self.text(headers[names], h[0]), h) for h in headers]

    def text(self, header, at):
        start = header[4] + at
        return self.bytes[start : self.bytes.index(b"\0", start)].decode()

    def sizes(self):
        """Bytes of code and constants, and bytes of data, without the tables for exceptions, which a firmware may leave out."""
        flash = ram = 0
        for name, (_, kind, flags, _, _, size, *_) in self.sections:
            # Of flags 1 is writable and 2 is there at run time; of kinds 0x70000001 is Arm's table for exceptions.
            if flags & 2 and kind != 0x70000001 and not name.startswith(".eh_frame"):
                flash, ram = (flash, ram + size) if flags & 1 else (flash + size, ram)
        return flash, ram

    def undefined(self):
        for _, header in self.sections:
            if header[1] == 2:
                strings = self.sections[header[6]][1]
                for at in range(header[4] + 16, header[4] + header[5], 16):
                    name, _, _, _, _, section = struct.unpack_from("<IIIBBH", self.bytes, at)
                    if section == 0:
                        yield self.text(strings, name)


def linked(target, functions):
    """Flash and RAM of what a program takes out of the archive that calls these functions."""
    path = os.path.join(OUT, f"size-{target}.elf")
    roots = [f"--undefined=bujorelm_{name}" for name in functions]
    got = run(os.path.join(TOOLS, "ld.lld"), "--gc-sections", "--unresolved-symbols=ignore-all", "-e", f"bujorelm_{functions[0]}", *roots, archive(target), "-o", path)
    if got.returncode != 0:
        fail(got.stderr)
    return Elf(path).sizes()


def test_sizes():
    print("| flash in bytes | " + " | ".join(TARGETS) + " |")
    print("| --- |" + " ---: |" * len(TARGETS))
    for words, functions in GROUPS:
        print(f"| {words} | " + " | ".join(f"{linked(target, functions)[0]:,}" for target in TARGETS) + " |")
    everything = sum((functions for _, functions in GROUPS), ())
    whole = {target: linked(target, everything) for target in TARGETS}
    print("| all of it | " + " | ".join(f"{whole[target][0]:,}" for target in TARGETS) + " |\n")
    for target in TARGETS:
        if whole[target][1] != 0:
            fail(f"the library has {whole[target][1]} bytes of data of its own on {target}")
    if whole["thumbv6m"][0] > SIZE_LIMIT:
        fail(f"the library has {whole['thumbv6m'][0]:,} bytes on a Cortex-M0, more than {SIZE_LIMIT:,}: see SIZE_LIMIT")


def test_calls(target):
    """Nothing outside itself but what copies and sets bytes: no routine for products, divisions or shifts of 64 bits."""
    outside = set(Elf(os.path.join(ROOT, "target", "firmware", target, "library.o")).undefined())
    strange = outside - CALLS["riscv" if target == "riscv32" else "arm"]
    if strange:
        fail(f"on {target} the library calls {', '.join(sorted(strange))}")


def compile_start(target):
    """A program that looks at the start whether the archive is the right one."""
    source = os.path.join(OUT, "start.c")
    with open(source, "w", encoding="utf-8") as file:
        file.write('#include "bujorelm.h"\nvoid start(void);\nvoid start(void)\n{\n    while (!bujorelm_version_fits()) {\n    }\n}\n')
    made = os.path.join(OUT, f"start-{target}.o")
    got = run(os.path.join(TOOLS, "clang"), *FLAGS[target], "-std=c99", "-ffreestanding", "-isystem", os.path.join(ROOT, "firmware", "freestanding"), "-I", os.path.join(ROOT, "host", "c", "include"), "-c", source, "-o", made)
    if got.returncode != 0:
        fail(got.stderr)
    return made


def test_wrong_archive():
    for target in TARGETS:
        made = compile_start(target)
        for other in TARGETS:
            got = run(os.path.join(TOOLS, "ld.lld"), "-e", "start", "--gc-sections", made, archive(other), "-o", os.path.join(OUT, "wrong.elf"))
            if (got.returncode == 0) != (other == target):
                fail(f"a program for {target} with the archive for {other}: {got.stderr or 'linked'}")
            if other != target and f"bujorelm_built_for_{target}" not in got.stderr and "incompatible" not in got.stderr:
                fail(f"a program for {target} with the archive for {other} gets: {got.stderr}")


def test_untried():
    """The header stops the compiler for a processor that nobody has tried."""
    for flags in (["--target=thumbv8m.main-none-eabi"], ["--target=armv7a-none-eabi"], ["--target=aarch64-none-elf"], ["--target=riscv64-unknown-elf"], ["--target=riscv32-unknown-elf", "-march=rv32ec", "-mabi=ilp32e"], ["--target=i386-unknown-linux-gnu"]):
        got = run(os.path.join(TOOLS, "clang"), *flags, "-ffreestanding", "-fsyntax-only", "-x", "c", os.path.join(ROOT, "host", "c", "include", "bujorelm.h"))
        if got.returncode == 0 or "is for x86-64" not in got.stderr:
            fail(f"the header takes {' '.join(flags)}: {got.stderr}")


def test_words():
    """firmware/build says what is wrong with its words, before it builds anything."""
    build = os.path.join(ROOT, "firmware", "build")
    for words in ([], ["cortex-m3"], ["thumbv7m", "avr"]):
        got = run(build, *words)
        if got.returncode != 2 or "thumbv7em   Arm Cortex-M4, M7" not in got.stderr or any(word not in got.stderr for word in words[-1:]):
            fail(f"firmware/build {' '.join(words)}: status {got.returncode}, {got.stderr}")


# An rt of which one word does something else, as that of a future kit might.
OTHER_RT = """#!/bin/sh
compiler=$RATTLE_HOME/toolchain/bin/clang
case $1 in
{case})
    {action}
    ;;
*) exec "{rt}" "$@" ;;
esac
"""
OTHER_KITS = (
    ("doc", "echo /nowhere/docs/START-HERE.md", "toolchain/bin/clang is not there"),
    ("lib", "exit 0", "gave its compiler no module"),
    ("lib", 'cd "{out}" && "$compiler" -x ir -c other.bc -o other.o', "has no line '^define .*@bujorelm_handle_frame('"),
    ("lib", 'cd "{out}" && "$compiler" -x ir -c other.bc -o other.o && "$compiler" -x ir -c other.bc -o other.o', "gave its compiler 2 modules"),
    ("lib", 'cd "{out}" && "$compiler" -x ir -c strange.bc -o other.o', "have attributes that are not known here"),
    ("lib", "echo a proof fails; exit 1", "bujorelm is not proved"),
)


def test_other_kits():
    """A kit that is not as firmware/build expects it stops the build, with a sentence that says so."""
    folder = os.path.join(OUT, "other")
    os.makedirs(folder, exist_ok=True)
    for name, source in (("other", "int f(void) { return 0; }"), ("strange", "void bujorelm_handle_frame(void) { }")):
        words = [os.path.join(TOOLS, "clang"), "--target=x86_64-unknown-linux-gnu", "-x", "c", "-", "-emit-llvm", "-c", "-o", os.path.join(OUT, name + ".bc")]
        subprocess.run(words, input=source, text=True, check=True)
    real = shutil.which("rt")
    for case, action, words in OTHER_KITS:
        with open(os.path.join(folder, "rt"), "w", encoding="utf-8") as file:
            file.write(OTHER_RT.format(case=case, action=action.format(out=OUT), rt=real))
        os.chmod(os.path.join(folder, "rt"), 0o755)
        # Nothing is written where the archives are.
        copy = os.path.join(OUT, "copy")
        os.makedirs(os.path.join(copy, "firmware"), exist_ok=True)
        os.makedirs(os.path.join(copy, "crates", "bujorelm"), exist_ok=True)
        shutil.copy(os.path.join(ROOT, "firmware", "build"), os.path.join(copy, "firmware", "build"))
        os.makedirs(os.path.join(copy, "host"), exist_ok=True)
        shutil.copy(os.path.join(ROOT, "host", "module"), os.path.join(copy, "host", "module"))
        environment = dict(os.environ, PATH=folder + ":" + os.environ["PATH"])
        got = subprocess.run([os.path.join(copy, "firmware", "build"), "thumbv7m"], capture_output=True, text=True, check=False, env=environment)
        if got.returncode != 1 or words not in got.stderr:
            fail(f"a kit whose rt {case} does `{action}`: status {got.returncode}, {got.stderr}")


for each in TARGETS:
    test_calls(each)
test_wrong_archive()
test_untried()
test_words()
test_other_kits()
test_sizes()

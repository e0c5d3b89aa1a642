#!/usr/bin/env python3
"""Holds change request C-13 to what is compiled: hexadecimal digits are read and printed by shifts and additions within 32 bits.

Two looks at every function on the way of a digit, from a line to a frame and back. In the library's archive, where most are inlined: no
instruction that multiplies or divides, and no call of anything outside the archive, but for the two functions that the line splitter calls.
In the module that the compiler is given, before it optimises anything (host/module): no product, quotient or remainder; and no number that
becomes one of 64 bits, or comes from one, but a length, which is an index.

Both looks are first held to what they have to find: functions with a product, a quotient, a routine or a wide number planted in them.

usage: digits_test.py ROOT OUT
"""
import os
import pathlib
import re
import subprocess
import sys

# The archive's functions for lines, and what each may call outside it.
ENTRIES = {
    "bujorelm_parse_line": set(),
    "bujorelm_print_frame": set(),
    "bujorelm_next_line": {"memcpy", "memset"},
    "bujorelm_last_line": {"memcpy", "memset"},
}
# A library and a program, the functions in each from which every function on the way of a digit is reached, and some that have to be among these.
MODULES = {
    "bujorelm": ("capi_lines::parse_line", "capi_lines::print_frame", "capi_lines::next_line", "capi_lines::last_line"),
    "demo": ("gridconnect_lines::next_line", "gridconnect_lines::last_line", "gridconnect_frames::print_frames", "gridconnect_frames::has_room"),
}
REACHED = {
    *("hex_digit::value_of", "hex_digit::digits_of", "hex_read::read_number", "hex_read::read_bytes"),
    *("hex_print::put_number", "hex_print::put_digits", "buffer::bytes", "buffer::number"),
    *("gridconnect_parse::parse_line", "gridconnect_print::print_frame", "gridconnect_frames::print_frames"),
    *("gridconnect_lines::next_line", "gridconnect_lines::last_line"),
}
# Where a length becomes an index or an index a length, and how often: a frame's bytes that are printed, those that were read, and the bytes
# of a line that was begun in an earlier chunk.
LENGTHS = {
    **{"gridconnect_print::put_line": 1, "gridconnect_print::print_frame": 1, "hex_read::read_bytes": 1},
    **{"gridconnect_input::append": 2, "gridconnect_lines::parse_end": 1},
}

HEAD = re.compile(r"^[0-9a-f]+ <(.+)>:$")
INSTRUCTION = re.compile(r"^\s*[0-9a-f]+:\t(?:(?:lock|rep\w*|bnd|notrack|data16)\s+)*([a-z]\w*)\s*(.*)$")
RELOCATION = re.compile(r"^\s*[0-9a-f]+: R_\S+\s+(\S+?)(?:[-+]0x[0-9a-f]+)?$")
MULTIPLIES = re.compile(r"mul|div|madd|fm|fnm|dpp|dpb|dpw")
LEAVES = re.compile(r"call|j[a-z]+$")

OPERATIONS = {
    *("add", "sub", "shl", "lshr", "ashr", "and", "or", "xor", "icmp", "zext", "sext", "trunc", "getelementptr"),
    *("alloca", "load", "store", "call", "br", "switch", "select", "phi", "ret", "unreachable", "insertvalue", "extractvalue"),
}
DEFINED = re.compile(r'^define .*?@("[^"]+"|[\w.$]+)\(')
CALLED = re.compile(r'@("[^"]+"|[\w.$]+)\(')
OPERATION = re.compile(r"^\s+(?:%\S+ = )?(?:tail |musttail |notail )?([a-z]\w*)(?:\s|$)(.*)$")
MOVES = re.compile(r"llvm\.mem(move|cpy|set)\.p0(\.p0)?\.i64")
# A case of a `switch` stands on a line of its own: a constant and where it leads.
CASE = re.compile(r"^\s+i\d+ -?\d+, label %[\w.]+$")
WIDENS = re.compile(r"^(?:zext|sext) (?:nneg )?i\d+ \S+ to i64\b|^trunc (?:nuw |nsw )*i64 \S+ to i\d+\b")


def functions_of(archive):
    """Each function of an archive or object: its instructions, and where it goes to."""
    command = ["objdump", "-dr", "--no-show-raw-insn", str(archive)]
    text = subprocess.run(command, capture_output=True, text=True, check=True).stdout
    functions = {}
    instructions = targets = None
    for line in text.splitlines():
        if head := HEAD.match(line):
            instructions, targets = functions.setdefault(head[1], ([], []))
        elif found := INSTRUCTION.match(line):
            instructions.append(found[1])
            if LEAVES.match(found[1]) and "*" in found[2]:
                targets.append("a pointer")
        elif instructions and (moved := RELOCATION.match(line)):
            if LEAVES.match(instructions[-1]):
                targets.append(moved[1].removeprefix(".text."))
    return functions


def faults_of_code(functions, entry, allowed):
    """What is wrong with a compiled function and all that it calls."""
    faults = []
    seen = set()
    todo = [entry]
    while todo:
        name = todo.pop()
        if name in seen or name in allowed:
            continue
        seen.add(name)
        if name not in functions:
            faults.append(f"{entry} reaches {name}")
            continue
        instructions, targets = functions[name]
        faults += [f"{entry} reaches {name}, which has {word}" for word in instructions if MULTIPLIES.search(word)]
        todo += targets
    return faults


def read_module(text):
    """The functions of a module, each as its name and its lines."""
    functions = {}
    lines = None
    for line in text.splitlines():
        if found := DEFINED.match(line):
            lines = functions.setdefault(found[1].strip('"'), [])
        elif line == "}":
            lines = None
        elif lines is not None and not line.lstrip().startswith(";"):
            lines.append(line)
    return functions


def reached(functions, roots):
    """The functions of a module that these call, and they themselves."""
    seen = {}
    todo = list(roots)
    while todo:
        name = todo.pop()
        if name in seen or name not in functions:
            continue
        seen[name] = functions[name]
        todo += [called.strip('"') for line in functions[name] for called in CALLED.findall(line)]
    return seen


def faults_of_calls(name, lines, functions):
    """What a function calls that is no function of its module and does not only move or set bytes."""
    called = [found.strip('"') for line in lines for found in CALLED.findall(line)]
    return [f"{name} calls {other}" for other in called if other not in functions and not MOVES.fullmatch(other)]


def faults_of_module(name, lines):
    """What is wrong with a function as the compiler is given it."""
    faults = []
    wide = 0
    for line in lines:
        found = OPERATION.match(line)
        if not found or line.rstrip().endswith(":") or CASE.match(line):
            continue
        operation, rest = found[1], found[2]
        if operation not in OPERATIONS:
            faults.append(f"{name}: {operation}")
        wide += WIDENS.match(f"{operation} {rest}") is not None
    if wide != LENGTHS.get(name, 0):
        faults.append(f"{name}: {wide} numbers become 64 bits wide or come from such")
    return faults


PLANTED = """
typedef unsigned short pairs __attribute__((vector_size(16)));
extern unsigned outside(unsigned);
extern unsigned (*pointer)(unsigned);
unsigned sound(unsigned x) { return (x >> 4) + (x << 3) - (x & 15); }
unsigned product(unsigned x, unsigned y) { return x * y; }
unsigned quotient(unsigned x, unsigned y) { return x / y; }
unsigned of_ten(unsigned x) { return x % 10; }
pairs lanes(pairs x, pairs y) { return x * y; }
unsigned __int128 routine(unsigned __int128 x, unsigned __int128 y) { return x / y; }
unsigned helper(unsigned x) { return outside(x) + 1; }
unsigned at_the_end(unsigned x) { return outside(x); }
unsigned indirect(unsigned x) { return pointer(x) + 1; }
__attribute__((noinline)) unsigned below(unsigned x, unsigned y) { return x * y + 1; }
unsigned above(unsigned x, unsigned y) { return below(x, y) + 1; }
"""
PLANTED_MODULE = """
define i32 @sound(i32 %x) {
start:
  %a = shl i32 %x, 4
  ret i32 %a
}
define internal noundef i32 @"planted::product"(i32 noundef %x) #0 {
  %a = mul i32 %x, 16
  ret i32 %a
}
define i32 @quotient(i32 %x) {
  %a = udiv i32 %x, 16
  ret i32 %a
}
define i32 @remainder(i32 %x) {
  %a = urem i32 %x, 16
  ret i32 %a
}
define i64 @widened(i32 %x) {
  %a = zext i32 %x to i64
  ret i64 %a
}
define i32 @narrowed(i64 %x) {
  %a = trunc i64 %x to i32
  ret i32 %a
}
declare { i32, i1 } @llvm.umul.with.overflow.i32(i32, i32)
define i32 @by_a_call(i32 %x) {
  %a = call { i32, i1 } @llvm.umul.with.overflow.i32(i32 %x, i32 16)
  %b = extractvalue { i32, i1 } %a, 0
  ret i32 %b
}
define i32 @of_a_field(ptr %x) {
  %a = getelementptr i8, ptr %x, i64 8
  %b = load i64, ptr %a, align 8
  %c = trunc i64 %b to i32
  ret i32 %c
}
"""


def faults_of_the_looks(out):
    """Which planted function a look passes, or whether it finds something in the sound one."""
    source, compiled = out / "planted.c", out / "planted.o"
    source.write_text(PLANTED, encoding="utf-8")
    subprocess.run([os.environ.get("CC", "cc"), "-O2", "-ffunction-sections", "-c", str(source), "-o", str(compiled)], check=True)
    functions = functions_of(compiled)
    module = read_module(PLANTED_MODULE)
    found = {name: faults_of_code(functions, name, set()) for name in functions}
    found_in_module = {name: faults_of_module(name, module[name]) + faults_of_calls(name, module[name], module) for name in module}
    wrong = [f"planted: {len(found)} and {len(found_in_module)} functions"] if (len(found), len(found_in_module)) != (11, 8) else []
    for faults in (found, found_in_module):
        wrong += [f"planted {name}: {faults[name]}" for name in faults if bool(faults[name]) == (name == "sound")]
    return wrong


def main():
    root, out = pathlib.Path(sys.argv[1]), pathlib.Path(sys.argv[2])
    wrong = faults_of_the_looks(out)
    compiled = functions_of(root / "target" / "staticlib" / "libbujorelm.a")
    for entry, allowed in ENTRIES.items():
        wrong += faults_of_code(compiled, entry, allowed)
    given = {}
    for crate, roots in MODULES.items():
        module = out / f"{crate}.ll"
        subprocess.run([root / "host" / "module", crate, module], check=True)
        functions_given = read_module(module.read_text(encoding="utf-8"))
        looked_at = reached(functions_given, roots)
        for name, lines in looked_at.items():
            wrong += faults_of_calls(name, lines, functions_given)
        given |= looked_at
    for name, function in given.items():
        wrong += faults_of_module(name, function)
    wanted = REACHED | LENGTHS.keys() | {root for roots in MODULES.values() for root in roots}
    wrong += [f"{name} is not among the functions that were looked at" for name in sorted(wanted - given.keys())]
    for fault in wrong:
        print(f"digits_test.py: {fault}", file=sys.stderr)
    if wrong:
        sys.exit(1)
    print(f"digits_test.py: no product, quotient, routine or wide number in {len(given)} functions on the way of a digit, nor in what is compiled of them")


main()

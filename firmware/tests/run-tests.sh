#!/bin/sh
# Runs all tests of the firmware: the archives, the paper's session and vectors, the library compared between processors, its instructions and its
# stack, all on processors that qemu emulates; and the example board.
#
# usage: firmware/tests/run-tests.sh [ROOT]
#
# ROOT is the root of the repository (default: the one that this file is in). The archives must be there, as made by `firmware/build all` and
# `host/build bujorelm_tool`. What is made goes to ROOT/target/firmware/tests. CALLS is how many calls are compared on each processor, in
# batches of 5,000. The tables of docs/PERFORMANCE.md are left in target/firmware/tests/figures.md; put-figures puts them there.
set -eu
root=$(cd "${1:-$(dirname "$0")/../..}" && pwd)
here=$root/firmware/tests
out=$root/target/firmware/tests
targets="thumbv6m thumbv7m thumbv7em riscv32"
calls=${CALLS:-2000000}

fail() {
    echo "firmware: $*" >&2
    exit 1
}

for target in $targets; do
    [ -f "$root/target/firmware/$target/libbujorelm.a" ] || fail "the archive for $target is not there: run firmware/build all"
done
[ -f "$root/target/staticlib/libbujorelm_tool.a" ] || fail "target/staticlib/libbujorelm_tool.a is not there: run host/build bujorelm_tool"
for program in "${CC:=cc}" python3 qemu-system-arm:qemu-system-arm qemu-system-riscv32:qemu-system-misc; do
    command -v "${program%%:*}" >/dev/null || fail "${program%%:*} is not there: install Debian's package ${program##*:}"
done
mkdir -p "$out"

# image TARGET NAME SOURCE..: builds it as OUT/NAME-TARGET.
image() {
    to=$1
    name=$2
    shift 2
    "$here/build-image" "$to" "$out/$name-$to" "$@"
}

# run TARGET NAME MACHINE [WORD..]: runs the image on the machine, from standard input into OUT/NAME-MACHINE.txt.
run() {
    program=$out/$2-$1
    printed=$out/$2-$3.txt
    on=$3
    shift 3
    timeout 600 "$here/machine/run" "$on" "$program" "$@" >"$printed" || fail "${program##*/} ends with status $? on $on"
}

# test_machine TARGET MACHINE: the paper's session and vectors, and the library compared with this PC's.
test_machine() {
    run "$1" session "$2" <"$root/crates/demo/stdin"
    cmp "$out/session-$2.txt" "$root/crates/demo/stdout" || fail "the paper's session comes out otherwise on $2"
    run "$1" vectors "$2" <"$root/crates/demo_vectors/stdin"
    cmp "$out/vectors-$2.txt" "$root/crates/demo_vectors/stdout" || fail "the vectors come out otherwise on $2"
    # A difference that is planted near the end of the first batch is seen in its checksum.
    echo "$seed 1 4999 " | run "$1" compare "$2"
    if [ "$(head -n 1 "$out/compare-pc.txt")" = "$(cat "$out/compare-$2.txt")" ]; then
        fail "a planted difference is not found on $2"
    fi
    echo "$seed $((calls / 5000)) 0 " | run "$1" compare "$2"
    cmp "$out/compare-$2.txt" "$out/compare-pc.txt" || fail "the library does not do the same on $2 as on this PC, with the seed $seed"
    echo "firmware: $2: session and vectors as in the paper; $(tail -n 1 "$out/compare-$2.txt" | cut -d ' ' -f 1) calls as on this PC"
}

# Two targets are tested at once; each has its own files.
test_target() {
    image "$1" session session.c
    image "$1" vectors vectors.c
    image "$1" compare compare.c
    test_machine "$1" "$1"
    image "$1" instructions instructions.c plain.c
    run "$1" instructions "$1" -icount shift=0 </dev/null
    FLAGS=-DMEASURE_STACK image "$1" stack compare.c
    echo "11 40 0 " | run "$1" stack "$1"
}

echo "firmware: the library on emulated processors"
seed=${SEED:-$(date +%s)}
echo "firmware: seed $seed"
image pc compare compare.c
echo "$seed $((calls / 5000)) 0 " | run pc compare pc
(
    test_target thumbv6m
    test_target thumbv7em
    test_machine thumbv7em cortex-m7
) &
other=$!
# shellcheck disable=SC2086
python3 "$here/archive_test.py" "$root" "$out" $targets >"$out/sizes.md"
test_target thumbv7m
test_target riscv32
wait "$other"
status=0
# shellcheck disable=SC2086
python3 "$here/figures.py" "$out" $targets >"$out/counts.md" || status=$?
cat "$out/sizes.md" "$out/counts.md" >"$out/figures.md"
cat "$out/figures.md"
[ "$status" -eq 0 ] || fail "a figure is over its limit"

echo "firmware: the example board and docs/FIRMWARE.md"
"$CC" -std=c99 -O2 -I "$root/host/c/include" "$root"/host/c/tool*.c "$root/target/staticlib/libbujorelm_tool.a" \
    "$root/target/staticlib/libbujorelm.a" -o "$out/tool"
python3 "$here/document_test.py" "$root" "$out"
python3 "$here/board_test.py" "$root" "$out"

echo "firmware: all tests passed"

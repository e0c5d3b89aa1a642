#!/bin/sh
# Builds and runs all tests of the C side: the headers in C and C++, what is compiled for digits, the library through its header (plain, with
# sanitizers, under valgrind), the stack that a call takes, the examples, docs/DRIVER.md and docs/TOOL.md, the reference host, and the bench tool.
#
# usage: host/c/run-tests.sh [ROOT]
#
# ROOT is the root of the repository (default: the one that this file is in). ROOT/target/staticlib/libbujorelm.a and
# libbujorelm_tool.a must be there, as built by `host/build bujorelm` and `host/build bujorelm_tool`. Everything
# else is built into ROOT/target/host-c. CC and CXX choose the compilers.
set -eu

root=${1:-$(dirname "$0")/../..}
root=$(cd "$root" && pwd)
here=$root/host/c
library=$root/target/staticlib/libbujorelm.a
tool=$root/target/staticlib/libbujorelm_tool.a
out=$root/target/host-c

fail() {
    echo "host/c: $*" >&2
    exit 1
}

[ -f "$library" ] || fail "$library is not there: run host/build bujorelm"
[ -f "$tool" ] || fail "$tool is not there: run host/build bujorelm_tool"
for program in "${CC:=cc}" "${CXX:=c++}" python3 valgrind nm objdump; do
    command -v "$program" > /dev/null || fail "$program is not there"
done
mkdir -p "$out"

warnings="-Wall -Wextra -Wpedantic -Wconversion -Wshadow -Werror"
c="-std=c99 $warnings -Wstrict-prototypes -Wmissing-prototypes"
sanitizers="-O1 -g -fsanitize=address,undefined -fno-sanitize-recover=all"

# compile NAME FLAGS SOURCE: a program in C, linked with the library. (Flags are words, so they are not quoted.)
compile() {
    # shellcheck disable=SC2086
    $CC $c $2 -I "$here/include" -I "$here" "$here/$3" "$library" -o "$out/$1"
}

# compile_tool NAME FLAGS SOURCE..: the same, linked with both archives.
compile_tool() {
    name=$1
    flags=$2
    shift 2
    # shellcheck disable=SC2086
    (cd "$here" && $CC $c $flags -I include -I . "$@" "$tool" "$library" -o "$out/$name")
}

echo "host/c: the headers"
# includes HEADER FLAG..: compiles a file that includes the header and nothing else.
includes() {
    file=$1
    shift
    echo "#include \"$file\"" | $CC "$@" -I "$here/include" -x c -fsyntax-only -
}
# What is not the library's platform or layout does not compile, and the message says why.
refuses() {
    includes "$1" -std=c99 "$2" 2>&1 | grep -q "$3" || fail "$1 takes $2"
}
for header in bujorelm.h bujorelm_tool.h; do
    for standard in c99 c11 c17; do
        # shellcheck disable=SC2086
        includes "$header" -std=$standard $warnings
    done
    refuses "$header" -D_WIN32 "System V"
    refuses "$header" -D__ILP32__ "System V"
    refuses "$header" -fpack-struct space_size
    # No layout hangs on the size of an enum or of a pointer. (The second is no platform of the library: it stands for those with pointers of 4
    # bytes, where 64 bits begin at a multiple of 8.)
    # shellcheck disable=SC2086
    includes "$header" -std=c99 $warnings -fshort-enums
    # shellcheck disable=SC2086
    includes "$header" -std=c99 $warnings -ffreestanding -m32 -malign-double -D__x86_64__ -U__ILP32__
done
for standard in c++98 c++11 c++17; do
    # shellcheck disable=SC2086
    $CXX -std=$standard $warnings -I "$here/include" "$here/tests/header.cpp" "$library" -o "$out/header"
    "$out/header"
    # shellcheck disable=SC2086
    $CXX -std=$standard $warnings -I "$here/include" "$here/tests/tool_header.cpp" "$tool" "$library" -o "$out/tool-header"
    "$out/tool-header"
done

echo "host/c: the library"
# outside ARCHIVE: what it calls outside itself.
outside() {
    nm -u "$1" | sed -n 's/^ *U //p' | sort -u | tr '\n' ' '
}
[ "$(outside "$library")" = "memcpy memset " ] ||
    fail "what libbujorelm.a calls outside itself is not what the header says: $(outside "$library")"
[ -z "$(outside "$tool")" ] ||
    fail "libbujorelm_tool.a calls outside itself, which the header excludes: $(outside "$tool")"
python3 "$here/tests/digits_test.py" "$root" "$out"
compile library "-O2 -g" tests/library.c
"$out/library"
compile library-sanitized "$sanitizers" tests/library.c
"$out/library-sanitized"
valgrind --quiet --error-exitcode=1 --leak-check=full --errors-for-leak-kinds=all "$out/library" 20000
for test in tool_library tool_replies tool_changes; do
    compile_tool $test "-O2 -g" tests/$test.c
    "$out/$test"
    compile_tool $test-sanitized "$sanitizers" tests/$test.c
    "$out/$test-sanitized"
    valgrind --quiet --error-exitcode=1 --leak-check=full --errors-for-leak-kinds=all "$out/$test" 5000
done

echo "host/c: the stack"
# The calls are compiled at each level of optimisation, the measuring at one. Functions of the C library are found at the start: to find
# one at its first call takes stack that is not the call's.
# stack NAME ARCHIVE: the test of that name, on the calls of that archive.
stack() {
    # shellcheck disable=SC2086
    $CC $c -O2 -I "$here/include" -c "$here/tests/$1.c" -o "$out/$1.o"
    for level in -O0 -O1 -O2 -O3 -Os; do
        # shellcheck disable=SC2086
        $CC $c $level -I "$here/include" -c "$here/tests/$1_calls.c" -o "$out/$1_calls.o"
        $CC -Wl,-z,now "$out/$1.o" "$out/$1_calls.o" "$2" -o "$out/$1"
        "$out/$1" "$level"
    done
}
stack stack "$library"
stack tool_stack "$tool"

# refusing NAME SOURCE: the same program with a library that refuses as the environment says.
refusing() {
    # shellcheck disable=SC2086
    $CC $c $sanitizers -I "$here/include" -I "$here" -Wl,--wrap=bujorelm_handle_frame,--wrap=bujorelm_handle_tick "$here/$2" \
        "$here/tests/refusing.c" "$library" -o "$out/$1-refusing"
}

echo "host/c: the examples, docs/DRIVER.md and docs/TOOL.md"
compile example "-O2" example/minimal.c
compile example-sanitized "$sanitizers" example/minimal.c
compile socketcan "-O2" example/socketcan.c
compile socketcan-test "$sanitizers" tests/socketcan.c
# It waits for a tick that comes alone after a second, while other programs are built.
"$out/socketcan-test" &
socketcan=$!
compile host "-O2 -g" host.c
compile host-sanitized "$sanitizers" host.c
refusing example example/minimal.c
refusing socketcan example/socketcan.c
refusing host host.c
wait "$socketcan"
python3 "$here/tests/refusal_test.py" "$out"
python3 "$here/tests/document_test.py" "$root/docs/DRIVER.md" "$root" "$out"
compile_tool ask "-O2" example/ask.c
compile_tool ask-sanitized "$sanitizers" example/ask.c
compile_tool change "-O2" example/change.c
compile_tool change-sanitized "$sanitizers" example/change.c
parts="tool.c tool_bus.c tool_explain.c tool_frames.c tool_words.c"
# shellcheck disable=SC2086
compile_tool tool "-O2 -g" $parts
# shellcheck disable=SC2086
compile_tool tool-sanitized "$sanitizers" $parts
python3 "$here/tests/tool_document_test.py" "$root/docs/TOOL.md" "$root" "$out"
python3 "$here/tests/assumptions_test.py" "$root"
python3 "$here/tests/demands_test.py" "$root"

echo "host/c: the reference host"
# The host on a clock that its test sets.
# shellcheck disable=SC2086
$CC $c -O2 -I "$here/include" -I "$here" -Wl,--wrap=clock_gettime "$here/host.c" "$here/tests/clock.c" "$library" -o "$out/host-clock"
python3 "$here/tests/clock_test.py" "$out/host-clock"
python3 "$here/tests/host_test.py" "$out/host"
python3 "$here/tests/host_test.py" "$out/host-sanitized" 7

echo "host/c: the bench tool"
# The two wait for most of their time, so they run at once.
python3 "$here/tests/tool_test.py" "$out/tool" "$out/host" &
plain=$!
python3 "$here/tests/tool_test.py" "$out/tool-sanitized" "$out/host-sanitized"
wait "$plain"

echo "host/c: all tests passed"

#!/bin/sh
# Holds the test run of the comparison: the tests of this package, and library and model compared
# at every age of a held place, and by random calls with a fixed seed and with one from the clock.
# (The model has tests of its own.)
# Both archives of the library have to be there: target/staticlib/libbujorelm.a, the board's half,
# built by `host/build bujorelm`, and target/staticlib/libbujorelm_tool.a, the tool's, built by
# `host/build bujorelm_tool`.
set -eu
cd "$(dirname "$0")/../.."

CARGO_TARGET_DIR="$PWD/target/host-rust"
export CARGO_TARGET_DIR
# Of 700 calls one is for writes that add up, and of 21 others one is for the tool's half.
calls=21000000

for half in bujorelm bujorelm_tool; do
    if [ ! -f "target/staticlib/lib$half.a" ]; then
        echo "host/compare: target/staticlib/lib$half.a is missing: build it with \`host/build $half\`" >&2
        exit 1
    fi
done

# The tests are built without optimisation: that is quicker than running them is slow, and
# arithmetic that overflows is found.
cargo test --offline --quiet --manifest-path host/compare/Cargo.toml
cargo build --release --offline --quiet --manifest-path host/compare/Cargo.toml

# The two runs at once, one for each core of the machine that the gate runs on. The clock's seed is
# printed by the program, so that what it finds can be had again.
compare="$CARGO_TARGET_DIR/release/compare"
first="$CARGO_TARGET_DIR/compare-1.txt"
second="$CARGO_TARGET_DIR/compare-2.txt"
"$compare" --seed 1 --calls "$calls" >"$first" 2>&1 &
run=$!
failed=0
"$compare" --seed "$(date +%s)" --calls "$calls" >"$second" 2>&1 || failed=1
wait "$run" || failed=1
cat "$first" "$second"
[ "$failed" -eq 0 ] || exit 1

echo "host/compare: all tests passed"

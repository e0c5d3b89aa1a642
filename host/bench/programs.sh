#!/bin/sh
# Holds the comparison of two programs on one million GridConnect lines: the demonstration program
# of the repository, whose path is the argument, and the model's. Their outputs have to be the same.
set -eu
if [ $# -ne 1 ]; then
    echo "usage: host/bench/programs.sh PROGRAM" >&2
    exit 2
fi
program=$(cd "$(dirname "$1")" && pwd)/$(basename "$1")
cd "$(dirname "$0")/../.."

CARGO_TARGET_DIR="$PWD/target/host-rust"
export CARGO_TARGET_DIR
lines=1000000
runs=9

for package in model bench; do
    cargo build --release --offline --quiet --manifest-path "host/$package/Cargo.toml"
done
work=target/bench
mkdir -p "$work"
"$CARGO_TARGET_DIR/release/lines" "$lines" >"$work/lines.txt"
"$CARGO_TARGET_DIR/release/race" "$runs" "$work/lines.txt" \
    "$work/program.txt" "$program" \
    "$work/model.txt" "$CARGO_TARGET_DIR/release/model-gridconnect"
cmp "$work/program.txt" "$work/model.txt"
echo "host/bench: $lines lines in, $(wc -l <"$work/model.txt") lines out, the same from both"

#!/bin/sh
# Builds the Rust implementation and runs its tests. It needs nothing of the library.
set -eu
cd "$(dirname "$0")/../.."

CARGO_TARGET_DIR="$PWD/target/host-rust"
export CARGO_TARGET_DIR

# The tests are built without optimisation: that is quicker than running them is slow, and
# arithmetic that overflows is found.
cargo test --offline --quiet --manifest-path host/model/Cargo.toml
cargo build --release --offline --quiet --manifest-path host/model/Cargo.toml

echo "host/model: all tests passed"

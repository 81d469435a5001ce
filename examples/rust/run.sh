#!/bin/sh
# Runs the example on `A | B & C` and compares what it prints with the file stdout here.
set -eu
here=$(cd "$(dirname "$0")" && pwd -P)
export CARGO_TARGET_DIR="${CARGO_TARGET_DIR:-$here/../../target/cargo}"
cargo run --offline --locked --quiet --manifest-path "$here/Cargo.toml" -- 'A | B & C' | diff "$here/stdout" -
echo "examples/rust prints what it should"

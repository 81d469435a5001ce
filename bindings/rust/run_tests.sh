#!/bin/sh
# Tests of the Rust binding, all stored vectors among them; and that it builds without alloc.
set -eu
cd "$(dirname "$0")"
export CARGO_TARGET_DIR="${CARGO_TARGET_DIR:-$PWD/../../target/cargo}"
cargo build --offline --locked --quiet --no-default-features
cargo test --offline --locked --quiet -- --nocapture

#!/bin/sh
# run.sh [WASM] [TYPE]: prints the key of a type and its tree. WASM: target/lib/typekey.wasm of the repository by itself.
set -eu
here=$(cd "$(dirname "$0")" && pwd -P)
wasm=${1:-$here/../../target/lib/typekey.wasm}
[ $# -eq 0 ] || shift
exec node "$here/first.mjs" "$wasm" "$@"

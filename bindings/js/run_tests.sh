#!/bin/sh
# run_tests.sh [WASM]: tests of the JavaScript binding, with Node 20 and python3. WASM: target/lib/typekey.wasm of the repository by itself.
set -eu
here=$(cd "$(dirname "$0")" && pwd -P)
repository=$(cd "$here/../.." && pwd -P)
WASM=$(realpath "${1:-$repository/target/lib/typekey.wasm}")
VECTORS=$repository/crates/rows/data/vectors
CUTS=$(mktemp)
trap 'rm -f "$CUTS"' EXIT
export WASM VECTORS CUTS
python3 "$here/model_cuts.py" "$repository" >"$CUTS"
node --test --test-reporter=spec "$here/test.mjs"
# With TypeScript on the path: the declarations, and the cutter beside TypeScript's scanner on TypeScript's own declaration files.
if command -v tsc >/dev/null; then
    tsc --noEmit --strict --target es2020 --lib es2020,dom --module nodenext --moduleResolution nodenext "$here/types.test.mts"
    echo "typekey.d.ts and cut.d.ts: no faults"
    lib=$(dirname "$(realpath "$(command -v tsc)")")/../lib
    node "$here/scanner.mjs" "$lib/typescript.js" "$lib"/*.d.ts
fi

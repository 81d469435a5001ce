#!/bin/sh
# build.sh [WASM [OUT]]: leaves the page, ready for any static server, in OUT. By itself: target/lib/typekey.wasm and target/web.
set -eu
here=$(cd "$(dirname "$0")" && pwd -P)
repository=$(cd "$here/.." && pwd -P)
wasm=${1:-$repository/target/lib/typekey.wasm} out=${2:-$repository/target/web}
mkdir -p "$out"
cp "$here/index.html" "$here/page.css" "$here/page.js" "$out/"
# As .js, since not every server knows .mjs.
cp "$repository/bindings/js/typekey.mjs" "$out/typekey.js"
cp "$repository/bindings/js/cut.mjs" "$out/cut.js"
cp "$wasm" "$out/typekey.wasm"

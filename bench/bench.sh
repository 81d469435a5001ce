#!/bin/sh
# bench.sh [--write] [FOLDER ..]: measures the calls that read and take back, through the C interface, and the parts of the
# first (parts.sh), beside plain Rust of the same job (baseline/), beside TypeScript's own parser, and native code beside
# WebAssembly; on the types in the folders' .d.ts files. It prints tables; --write puts them into docs/SPEED.md and draws
# docs/pictures/speed.svg. Instructions are counted where valgrind is found.
#
# Needed: the library (libtypekey.a and typekey.wasm in target/lib, or in the folder that TYPEKEY_LIB names), rt, rustc,
# gcc, python3, node. Types and TypeScript's parser come from the Debian packages below, which are fetched once into
# target/bench and not installed; where that fails, from those installed. With no packages at all the types are generated, and
# the parser is left out. All files are in target/bench. ROUNDS=n sets how many rounds each measurement has.
set -eu
here=$(cd "$(dirname "$0")" && pwd -P)
root=$(cd "$here/.." && pwd -P)
lib=${TYPEKEY_LIB:-$root/target/lib}
out=$root/target/bench
write=
[ "${1:-}" = --write ] && { write=--write; shift; }
for f in libtypekey.a typekey.wasm; do
    [ -f "$lib/$f" ] || { echo "$lib/$f is missing: build the library first, or name its folder in TYPEKEY_LIB" >&2; exit 1; }
done
mkdir -p "$out/packages"

modules=$out/packages/usr/share/nodejs
if [ ! -f "$out/packages/all" ]; then
    for p in node-typescript node-inquirer node-undici node-postcss node-yargs node-immutable node-csstype node-acorn node-chalk node-babel7 node-ajv; do
        (cd "$out/packages" && apt-get download "$p" >/dev/null 2>&1 && dpkg -x "$p"_*.deb .) || echo "package $p was not fetched" >&2
    done
    touch "$out/packages/all"
fi
[ -d "$modules/typescript" ] || modules=/usr/share/nodejs
export NODE_PATH="$modules"
[ $# -gt 0 ] || [ ! -d "$modules/typescript" ] || set -- "$modules"

rustc() { command rustc --edition 2024 -C opt-level=3 -C codegen-units=1 "$@"; }
rustc --crate-type rlib --crate-name baseline "$here/baseline/lib.rs" -o "$out/libbaseline.rlib"
sh "$here/parts.sh" "$out"
rustc -L native="$lib" -L native="$out" --extern baseline="$out/libbaseline.rlib" "$here/measure.rs" -o "$out/measure"
gcc -O2 -Wall -Wextra -I"$root/include" "$here/stack.c" "$lib/libtypekey.a" -lpthread -o "$out/stack"
python3 "$here/types.py" "$out/lists" "$@"
python3 "$here/report.py" "$out" "$lib" $write

#!/bin/sh
# run.sh: compiles the example over the library in target/lib, or in the folder that TYPEKEY_LIB names, and holds what it prints to read.out.
set -eu
here=$(cd "$(dirname "$0")" && pwd -P)
root=$(cd "$here/../.." && pwd -P)
work=$(mktemp -d); trap 'rm -rf "$work"' EXIT
gcc -std=c99 -O2 -I "$root/include" "$here/read.c" "${TYPEKEY_LIB:-$root/target/lib}/libtypekey.a" -o "$work/read"
"$work/read" | diff - "$here/read.out"
cat "$here/read.out"

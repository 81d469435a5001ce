#!/bin/sh
# build_tool.sh [--unproved]: leaves the tool typekey at target/bin/typekey, in the folder that holds crates.txt.
# It is the proved program, crates/tool/out/tool, where `rt run` in crates/tool left one and no source is newer; else, or with
# --unproved, the same code compiled without proof, which takes seconds. The last line says which. It is a program for x86-64.
set -eu
cd "$(dirname "$0")/.."
mkdir -p target/bin
case "${1:-}" in
    '') ;;
    --unproved) ;;
    *) echo "build_tool.sh: there is no option $1; the only one is --unproved" >&2; exit 2 ;;
esac

proved=crates/tool/out/tool
if [ "${1:-}" = '' ] && [ -x $proved ] && [ -z "$(find crates/*/src -newer $proved -name '*.rt' | head -n 1)" ]; then
    cp $proved target/bin/typekey
    echo "target/bin/typekey: proved (from $proved)"
    exit 0
fi
tools/unproved.sh tool >target/unproved-tool.log || { cat target/unproved-tool.log; exit 1; }
cp target/unproved/tool.O3 target/bin/typekey
echo 'target/bin/typekey: UNPROVED (rt run in crates/tool proves it)'

#!/bin/sh
# try_bindings.sh: runs the tests and examples of C, Rust, Python and JavaScript over the library in target/lib, or in the
# folder that TYPEKEY_LIB names; if it is not in target/lib, or older than a source, it is built there first, without proof. Then the cases of the tool.
# The parts run beside each other, C's fuzzer for a quarter of the cases that it tries alone. One line for each; one that can't be run here is skipped and says so; of one that fails
# all that it printed is shown. Exit 1 if one fails.
set -eu
root=$(cd "$(dirname "$0")/.." && pwd -P)
if [ -z "${TYPEKEY_LIB:-}" ]; then
    TYPEKEY_LIB=$root/target/lib
    built=$TYPEKEY_LIB/typekey.wasm
    if [ ! -f "$built" ] || [ -n "$(find "$root"/crates.txt "$root"/crates/*/src "$root"/tools -newer "$built" -type f ! -name '*.pyc' | head -n 1)" ]; then
        sh "$root/tools/build_library.sh" --unproved
    fi
fi
TYPEKEY_LIB=$(cd "$TYPEKEY_LIB" && pwd -P)
export TYPEKEY_LIB
logs=$(mktemp -d); trap 'rm -rf "$logs"' EXIT
tried=0 failed=0 skipped=0

# run TO SCRIPT ARGUMENTS: runs a script, and leaves in TO its seconds if it passed, in TO.log what it printed.
run() {
    to=$1 script=$2; shift 2
    began=$(date +%s)
    if sh "$root/$script" "$@" >"$to.log" 2>&1 </dev/null; then echo "$(($(date +%s) - began))" >"$to"; fi
}

# part TOOL SCRIPT ARGUMENTS: starts a script that needs a tool, beside the others.
part() {
    tool=$1 script=$2; shift 2
    if [ ! -f "$root/$script" ]; then
        skipped=$((skipped + 1)); echo "skipped: no $script"
    elif ! command -v "$tool" >/dev/null; then
        skipped=$((skipped + 1)); echo "skipped: no $tool, so not $script"
    else
        tried=$((tried + 1))
        echo "$script" >"$logs/$tried.name"
        run "$logs/$tried" "$script" "$@" &
    fi
}

part gcc tests/c/run.sh "$TYPEKEY_LIB" 50000
part gcc examples/c/run.sh
part cargo bindings/rust/run_tests.sh
part cargo examples/rust/run.sh
part python3 bindings/python/run_tests.sh
part python3 examples/python/run.sh
part node bindings/js/run_tests.sh "$TYPEKEY_LIB/typekey.wasm"
part node examples/js/run.sh "$TYPEKEY_LIB/typekey.wasm"
part python3 tools/try_tool.sh
wait
i=1
while [ "$i" -le "$tried" ]; do
    if [ -f "$logs/$i" ]; then
        echo "passed: $(cat "$logs/$i.name"), $(cat "$logs/$i") s"
    else
        failed=$((failed + 1)); cat "$logs/$i.log"; echo "failed: $(cat "$logs/$i.name")"
    fi
    i=$((i + 1))
done
echo "bindings: $tried tried, $failed failed, $skipped skipped"
[ "$failed" = 0 ]

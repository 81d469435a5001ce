#!/bin/sh
# run.sh [LIB [CASES [SEED]]]: the C tests over a built library (target/lib): stored vectors, edges, members, the fuzzer with a sample beside the
# model, and the example. Needs gcc and python3.
set -eu
root=$(cd "$(dirname "$0")/../.." && pwd -P)
lib=${1:-${TYPEKEY_LIB:-$root/target/lib}} cases=${2:-200000} seed=${3:-1}
[ -f "$lib/libtypekey.a" ] || { echo "no $lib/libtypekey.a: run tools/build_library.sh first"; exit 2; }
work=$(mktemp -d); trap 'rm -rf "$work"' EXIT
build() { # TO FROM FLAGS..
    to=$1 from=$2; shift 2
    gcc -std=c99 -O2 -Wall -Wextra -Werror "$@" -I "$root/include" "$root/$from" "$lib/libtypekey.a" -o "$work/$to"
}
# What the archive asks of its callers: two names, and no more.
needs=$(nm -u "$lib/libtypekey.a" | sed -n 's/^ *U //p' | sort -u | tr '\n' ' ')
[ "$needs" = "memcpy memset " ] || { echo "the archive needs $needs from outside, not memcpy and memset alone"; exit 1; }
python3 "$root/tests/c/check_header.py"
for t in vectors edges members fuzz; do build $t tests/c/$t.c; done
build example examples/c/read.c -pedantic
"$work/vectors" "$root/crates/rows/data/vectors" | tee "$work/said"
diff "$work/said" "$root/crates/rows/stdout"
"$work/edges"
"$work/members"
"$work/fuzz" "$cases" "$seed" "$work/sample" 10
python3 "$root/tests/c/compare_sample.py" "$work/sample"
"$work/example" | diff - "$root/examples/c/read.out"
# Tests and library with each access to memory checked: the module compiled once more, for gcc's sanitizers.
clang=$(dirname "$(readlink -f "$(command -v rt)")")/../toolchain/bin/clang
sed 's/^attributes #[0-9]* = { /&sanitize_address /' "$lib/typekey.ll" >"$work/watched.ll"
"$clang" -w -O1 -fsanitize=address -c -x ir "$work/watched.ll" -o "$work/watched.o"
for t in vectors edges members fuzz; do
    gcc -std=c99 -O1 -g -fsanitize=address,undefined -fno-sanitize-recover -I "$root/include" "$root/tests/c/$t.c" "$work/watched.o" -o "$work/$t.watched"
done
"$work/vectors.watched" "$root/crates/rows/data/vectors" | diff - "$root/crates/rows/stdout"
"$work/edges.watched"
"$work/members.watched"
"$work/fuzz.watched" $((cases / 2)) "$seed"
# The library in 256 KiB of stack.
(ulimit -s 256 && "$work/vectors" "$root/crates/rows/data/vectors" && "$work/fuzz" $((cases / 10)) "$seed") >"$work/small" || { cat "$work/small"; echo "FAILED in 256 KiB of stack"; exit 1; }
# The same through the shared object.
gcc -O2 -I "$root/include" "$root/tests/c/vectors.c" -L "$lib" -ltypekey -Wl,-rpath,"$lib" -o "$work/shared"
"$work/shared" "$root/crates/rows/data/vectors" | diff - "$root/crates/rows/stdout"
echo "C tests: ok"

#!/bin/sh
# build_library.sh [--unproved] [OUT]: the library for other languages, in OUT (target/lib): libtypekey.a, libtypekey.so, typekey.wasm.
# It proves crates/typekey_c and all below it by `rt lib`, keeps the one LLVM module behind that archive, whose tables become constants
# (constants.py), and compiles the first two from it (typekey.ll). For the third, where pointers have 32 bits, flat.py writes some lines of
# the module otherwise; nothing rests on flat.py: check_ir.py goes through each line, and compiled for this machine the object has to be
# the same. With --unproved nothing is proved: for trying things out only. It needs rt, gcc and python3.
set -eu
root=$(cd "$(dirname "$0")/.." && pwd -P)
proved=yes out=$root/target/lib
for word; do
    case $word in
    --unproved) proved=no ;;
    -*) echo "usage: build_library.sh [--unproved] [OUT]" >&2; exit 2 ;;
    *) out=$word ;;
    esac
done
for tool in rt gcc python3; do command -v $tool >/dev/null || { echo "build_library.sh: it needs $tool, which is not in PATH" >&2; exit 2; }; done
mkdir -p "$out"; out=$(cd "$out" && pwd -P)
rm -f "$out/libtypekey.a" "$out/libtypekey.so" "$out/typekey.wasm" "$out/typekey.ll"
home=$(cd "$(dirname "$(readlink -f "$(command -v rt)")")/.." && pwd -P)
machine=$(uname -m)
clang=$home/toolchain/bin/clang
work=$(mktemp -d); trap 'rm -rf "$work"' EXIT

# A module as text, with nothing optimised.
text_of() { "$clang" -w -Xclang -disable-llvm-passes -S -emit-llvm "$1" -o "$2"; }

# The module of the proved archive, and what the kit passes clang: once all is proved, the archive is made again, by a kit of links, but for rt
# itself, which looks beside its own file; its clang first keeps a copy of the module that it is given.
proved_module() {
    bin=$work/kit/toolchain/bin
    mkdir -p "$bin" "$work/kit/bin"
    for f in "$home"/*; do case ${f##*/} in bin | toolchain) ;; *) ln -s "$f" "$work/kit/" ;; esac; done
    for f in "$home"/bin/*; do case ${f##*/} in rt | rtlib.py) cp "$f" "$work/kit/bin/" ;; *) ln -s "$f" "$work/kit/bin/" ;; esac; done
    for f in "$home"/toolchain/*; do [ "${f##*/}" = bin ] || ln -s "$f" "$work/kit/toolchain/"; done
    for f in "$home"/toolchain/bin/*; do [ "${f##*/}" = clang ] || ln -s "$f" "$bin/"; done
    cat >"$bin/clang" <<END
#!/bin/sh
cp module.bc "$work/kept.bc"; printf '%s\n' "\$@" >"$work/flags"
exec "$clang" "\$@"
END
    chmod +x "$bin/clang"
    cd "$root/crates/typekey_c"
    rt lib
    "$work/kit/bin/rt" lib >"$work/say" 2>&1 || { cat "$work/say"; exit 1; }
    cd "$root"
    text_of "$work/kept.bc" "$work/module.ll"
}

# The same without proof: a program that has the exported functions and calls each once; exports.py then exports them.
unproved_module() {
    mkdir -p "$work/crates/typekey_try/src"
    for d in "$root"/crates/*; do ln -s "$d" "$work/crates/"; done
    { cat "$root/crates.txt"; sed -n 's/^typekey_c staticlib:/typekey_try:/p' "$root/crates.txt"; } >"$work/crates.txt"
    cat "$root/crates/typekey_c/src/lib.rt" - >"$work/crates/typekey_try/src/main.rt" <<END
fn main() {
    let bytes = [0u8; 1];
    let tokens = [0u64; 1];
    let mut nodes = [0u64; 1];
    let mut names = [0u64; 1];
    let mut notes = [0u64; 1];
    let mut more = [0u8; 1];
    let mut answer = [0u64; 8];
    typekey_read(&bytes, &tokens, 0, 0, &mut nodes, &mut names, &mut notes, &mut more, &mut answer);
    typekey_take_back(&bytes, &mut nodes, &mut names, &mut more, &mut answer);
    typekey_differ(&bytes, &bytes, &mut nodes, &mut answer);
}
END
    (cd "$work" && sh "$root/tools/unproved.sh" typekey_try "$work/try" >"$work/say") || { cat "$work/say"; exit 1; }
    cp "$work/try/typekey_try.flags" "$work/flags"
    python3 "$root/tools/exports.py" "$work/try/typekey_try.ll" "$work/module.ll" typekey_try
}

# FILE for a target, from a module: without the words that name another processor, under the words by which the kit keeps LLVM from its known
# faults. Much is inlined, so that structs stay in registers: it takes less time, and less stack than LLVM's own measure. All is optimised
# twice: what the first time finds out of a table counts in the second.
compile() { # FILE MODULE TARGET FLAGS..
    to=$1 module=$2 target=$3; shift 3
    { "$clang" --target="$target" -S -emit-llvm -x c /dev/null -o - | grep '^target '
      sed -e '/^target /d' -e 's/"target-cpu"="[^"]*"//; s/"probe-stack"="[^"]*"//' "$module"; } >"$work/target.ll"
    set -- $(grep -A 1 -xe -mllvm "$work/flags" | grep -vxe --) -Werror --target="$target" -O3 -mllvm -inline-threshold=1000 -mllvm -jump-threading-threshold=20 "$@"
    "$clang" "$@" -S -emit-llvm -x ir "$work/target.ll" -o "$work/once.ll"
    "$clang" "$@" -c -x ir "$work/once.ll" -o "$to"
}

if [ $proved = yes ]; then proved_module; else unproved_module; fi
python3 "$root/tools/constants.py" "$work/module.ll" "$work/constant.ll"
native() { compile "$1" "$2" "$machine-unknown-linux-gnu" -fPIC -ffunction-sections; }
native "$work/typekey.o" "$work/constant.ll"
cp "$work/target.ll" "$out/typekey.ll"

# The module for 32 bits. check_ir.py is tried first, on modules that it has to refuse. Compiled for this machine, with the addresses as they
# were, it has to give the object above.
python3 "$root/tests/ir/run.py" "$clang"
python3 "$root/tools/flat.py" "$work/module.ll" "$work/flat.ll"
printf 'check_ir: '; python3 "$root/tools/check_ir.py" "$work/flat.ll" "$work/module.ll"
python3 "$root/tools/constants.py" "$work/flat.ll" "$work/narrow.ll" >"$work/say"
sed 's/^\(  %[A-Za-z0-9_.]* = \)ptrtoint \(ptr %[A-Za-z0-9_.]* to i64\)$/\1ptrtoaddr \2/' "$work/narrow.ll" >"$work/back.ll"
native "$work/back.o" "$work/back.ll"
cmp "$work/typekey.o" "$work/back.o" || { echo "build_library.sh: for this machine the module that flat.py wrote gives another object than the one that it was given" >&2; exit 1; }

ar rcs "$out/libtypekey.a" "$work/typekey.o"
echo '{ global: typekey_*; local: *; };' >"$work/exports"
gcc -shared -s "$work/typekey.o" -Wl,--gc-sections -Wl,--no-undefined -Wl,--version-script="$work/exports" -o "$out/libtypekey.so"

# The stack stands first in the memory, so that running out of it is a trap. Pointers have 32 bits: the memory stays below 2 GiB.
compile "$work/wasm.o" "$work/narrow.ll" wasm32-unknown-unknown -mbulk-memory
ln -s "$clang" "$work/wasm-ld"
"$work/wasm-ld" -mwasm32 --no-entry --export=typekey_read --export=typekey_take_back --export=typekey_differ --export=__heap_base \
    --stack-first -z stack-size=1048576 --initial-memory=4194304 --max-memory=1073741824 --strip-all "$work/wasm.o" -o "$out/typekey.wasm"

ls -l "$out/libtypekey.a" "$out/libtypekey.so" "$out/typekey.wasm"
if [ $proved = yes ]; then echo "PROVED: rt lib has checked typekey_c and all below it, and these are compiled from the module that it wrote."
else echo "NOT PROVED: built for trying things out. Run without --unproved for the library."; fi

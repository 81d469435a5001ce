#!/bin/sh
# parts.sh OUT: the read call in its parts, for C, in OUT/libparts.a: part_check checks a list; part_read checks it and reads it to the tree,
# as crates/calls/src/reading.rt does, but writes no key; part_key writes the key of a tree. What they call is the library's own
# code, and is proved; these three are written here, and are compiled without proof, as tools/build_library.sh --unproved does.
# Each is compiled by itself: so what it calls has one caller, as in the library, and is inlined as it is there.
set -eu
root=$(cd "$(dirname "$0")/.." && pwd -P)
out=$1/parts
machine=$(uname -m)
clang=$(dirname "$(readlink -f "$(command -v rt)")")/../toolchain/bin/clang
rm -rf "$out" "$1/libparts.a"
mkdir -p "$out"; out=$(cd "$out" && pwd -P)
work=$(mktemp -d); trap 'rm -rf "$work"' EXIT
mkdir -p "$work/crates/parts_try/src"
for d in "$root"/crates/*; do ln -s "$d" "$work/crates/"; done
{ cat "$root/crates.txt"; sed -n 's/^calls:/parts_try:/p' "$root/crates.txt"; } >"$work/crates.txt"
cat >"$work/crates/parts_try/src/main.rt" <<'END'
use checks::check::check;
use key_out::out::put_key;
use keys::store;
use keys::store::clear;
use marks::notes::Noting;
use marks::notes::copy_notes;
use marks::state::Given;
use marks::state::Mark;
use readers::ring::ty;
use words::limits::OpenRules;
use words::limits::Tree;

fn sound(text: &[u8], tokens: &[u64]) -> bool {
    check(text, tokens, 0).is_ok()
}

fn part_check(text: &[u8], tokens: &[u64], answer: &mut [u64; 8]) {
    let refused = if sound(text, tokens) { 0u64 } else { 1u64 };
    *answer = [refused, 0, 0, 0, 0, 0, 0, 0];
}

fn part_read(text: &[u8], tokens: &[u64], nodes: &mut [u64], names: &mut [u64], notes: &mut [u64], answer: &mut [u64; 8]) {
    if !sound(text, tokens) {
        *answer = [1, 0, 0, 0, 0, 0, 0, 0];
        return;
    }
    let mut noting = [0u64; Noting::WORDS];
    let given = Given {
        room: nodes.len() / store::RECORD,
        records: notes.len() / Noting::RECORD,
        parens: false,
        left: OpenRules::MOST,
    };
    let m = Mark { at: 0, half: 0, used: 0, named: 0, noted: 0 };
    match ty(text, tokens, nodes, names, &mut noting, given, true, m) {
        Err(stop) => *answer = [stop.why.number() as u64, 0, 0, 0, 0, 0, 0, 0],
        Ok(a) => {
            let q = a.m;
            clear(nodes, q.used * store::RECORD, 0);
            clear(names, q.named, 0);
            copy_notes(&noting, q.noted, notes);
            *answer = [0, q.used as u64, q.named as u64, q.noted as u64, 0, q.at as u64, q.half as u64, 0];
        }
    }
}

fn part_key(nodes: &[u64], names: &[u64], text: &[u8], root: usize, key: &mut [u8], answer: &mut [u64; 8]) {
    let n = put_key(nodes, names, text, root, Tree::TALLEST, key);
    *answer = [n as u64, 0, 0, 0, 0, 0, 0, 0];
}

fn main() {
    let text = [0u8; 1];
    let tokens = [0u64; 1];
    let mut nodes = [0u64; 1];
    let mut names = [0u64; 1];
    let mut notes = [0u64; 1];
    let mut key = [0u8; 1];
    let mut answer = [0u64; 8];
    part_check(&text, &tokens, &mut answer);
    part_read(&text, &tokens, &mut nodes, &mut names, &mut notes, &mut answer);
    part_key(&nodes, &names, &text, 0, &mut key, &mut answer);
}
END
(cd "$work" && sh "$root/tools/unproved.sh" parts_try "$out" >"$out/say") || { cat "$out/say" >&2; exit 1; }
part() { # NAME PARAMETERS, as tools/exports.py has them
    python3 -c 'import sys; sys.path.insert(0, sys.argv[1]); import exports; exports.EXPORTS = {sys.argv[2]: sys.argv[3]}
sys.argv[1:] = sys.argv[4:]; exports.main()' "$root/tools" "$1" "$2" "$out/parts_try.ll" "$out/$1.written" parts_try
    python3 "$root/tools/constants.py" "$out/$1.written" "$out/$1.all" >/dev/null
    { "$clang" --target="$machine-unknown-linux-gnu" -S -emit-llvm -x c /dev/null -o - | grep '^target '
      sed -e '/^target /d' -e 's/"target-cpu"="[^"]*"//; s/"probe-stack"="[^"]*"//' "$out/$1.all"; } >"$out/$1.ll"
    set -- "$1" $(grep -A 1 -xe -mllvm "$out/parts_try.flags" | grep -vxe --) -Werror --target="$machine-unknown-linux-gnu" -O3 -mllvm -inline-threshold=1000 -mllvm -jump-threading-threshold=20 -fPIC -ffunction-sections
    name=$1; shift
    "$clang" "$@" -S -emit-llvm -x ir "$out/$name.ll" -o "$out/$name.once.ll"
    "$clang" "$@" -c -x ir "$out/$name.once.ll" -o "$out/$name.o"
}
part part_check ssp
part part_read sssssp
part part_key sssusp
ar rcs "$1/libparts.a" "$out"/part_*.o
echo "parts: part_check, part_read and part_key are not proved, what they call is"

#!/bin/sh
# test.sh [WASM [PICTURES]]: serves the page on this machine and opens it in headless Chromium (Debian package chromium): all stored vectors, and the page as
# it is used. With PICTURES, a folder, leaves pictures of it there. WASM: target/lib/typekey.wasm of the repository by itself.
set -eu
here=$(cd "$(dirname "$0")" && pwd -P)
repository=$(cd "$here/.." && pwd -P)
command -v chromium >/dev/null || { echo "web/test.sh needs chromium (Debian package chromium)" >&2; exit 1; }
work=$(mktemp -d) site=
trap '[ -z "$site" ] || kill "$site"; rm -rf "$work"' EXIT
"$here/build.sh" "${1:-$repository/target/lib/typekey.wasm}" "$work/site"
cp "$here/test.html" "$here/test.css" "$here/test.js" "$repository/crates/rows/data/vectors" "$work/site/"
cp "$repository/bindings/js/vectors.mjs" "$work/site/vectors.js"
python3 -u -m http.server --bind 127.0.0.1 --directory "$work/site" 0 >"$work/port" 2>/dev/null &
site=$!
until grep -q port "$work/port"; do sleep 0.2; done
at=http://127.0.0.1:$(sed -n 's/.* port \([0-9]*\).*/\1/p' "$work/port")
browse() { timeout 300 chromium --headless --no-sandbox --disable-gpu --hide-scrollbars --user-data-dir="$work/profile" "$@" 2>/dev/null; }

browse --virtual-time-budget=60000 --dump-dom "$at/test.html" >"$work/dom"
python3 - "$work/dom" <<'END'
import html, re, sys
state = html.unescape(re.search('<pre id="state">(.*?)</pre>', open(sys.argv[1]).read(), re.S)[1])
print(state)
good = state.endswith("\npassed") and state.count("vectors") == 2 == state.count(", 0 different\n")
sys.exit(0 if good else 1)
END
[ $# -lt 2 ] || {
    picture() { browse --virtual-time-budget=5000 --window-size="$2" "$5" --screenshot="$1" "$at/test.html?row=$3&hash=$4" >/dev/null; }
    light=--blink-settings=preferredColorScheme=1 dark=--blink-settings=preferredColorScheme=0
    pictures=$(cd "$2" && pwd -P)
    two=$(python3 -c 'import urllib.parse as u; print(u.quote(u.urlencode({"type": "(per: Weight<>) => Price | null", "type2": "(per: Weight) => Price | null"})))')
    refused=$(python3 -c 'import urllib.parse as u; print(u.quote(u.urlencode({"type": "T extends U ? : V"})))')
    one=$(python3 -c 'import urllib.parse as u; print(u.quote(u.urlencode({"type": "{ readonly [K in keyof T]?: T[K] | null }"})))')
    picture "$pictures/page.png" 1000,800 2 "$one" "$light"
    picture "$pictures/page-dark.png" 1000,860 2 "$two" "$dark"
    picture "$pictures/phone.png" 390,700 0 "$refused" "$light"
}

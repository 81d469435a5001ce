#!/bin/sh
# Runs the example on `A | B & C` and compares what it prints with the file stdout here.
set -eu
here=$(cd "$(dirname "$0")" && pwd -P)
python3 -B "$here/key_of_a_type.py" 'A | B & C' | diff "$here/stdout" -
echo "examples/python prints what it should"

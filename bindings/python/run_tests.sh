#!/bin/sh
# Tests of the Python binding, all stored vectors among them.
set -eu
cd "$(dirname "$0")"
python3 -B -m unittest test_typekey

#!/bin/sh
# try_tool.sh: whether the tool prints what docs/TOOL.md, tests/tool/diff.md and crates/tool/stdout say. It is the proved tool where
# `rt run` in crates/tool left one, else it is compiled without proof first. Exit 1 if anything differs.
set -eu
cd "$(dirname "$0")/.."
sh tools/build_tool.sh
python3 tools/tool_doc.py --check

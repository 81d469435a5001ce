#!/usr/bin/env python3
"""Prints, for each text of crates/rows/data/vectors that tools/model.py can cut, a line of JSON: the text and its token words in hex.

    model_cuts.py REPOSITORY
"""
import json
import struct
import sys

sys.path.insert(0, sys.argv[1] + "/tools")
sys.dont_write_bytecode = True
import model

data, at, seen = open(sys.argv[1] + "/crates/rows/data/vectors", "rb").read(), 0, set()
while at < len(data):
    _, text, words, _, _, _, key, _ = struct.unpack_from("<8I", data, at + 1)
    body = at + 81
    at = body + (key if data[at] & 4 else text + 8 * words)
    t = data[body:body + text]
    if not text or t in seen or not t.isascii():
        continue
    seen.add(t)
    try:
        print(json.dumps([t.decode(), ["%016x" % w for w in model.cut(t.decode())]]))
    except IndexError:                                      # a template that does not end
        pass

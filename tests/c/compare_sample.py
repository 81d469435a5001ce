#!/usr/bin/env python3
"""compare_sample.py FILE: holds the records that fuzz wrote against tools/model.py: each answer, and a sum over each lent slice."""
import collections
import os
import struct
import sys

sys.path.insert(0, os.path.join(os.path.dirname(os.path.abspath(__file__)), "..", "..", "tools"))
import differ_model
import rules_model
from keys_vectors import sum_words


def records(data):
    """Each record's case, as rules_model has it, and the twelve numbers that the library came to."""
    at = 0
    while at < len(data):
        op, *n = struct.unpack_from("<B20I", data, at)
        at += 81
        start, text, tokens, nodes, names, notes, key, letters = n[:8]
        if op == 4:
            yield ("key", data[at:at + key], (nodes, names, letters)), tuple(n[8:])
            at += key
            continue
        if op == 8:
            yield ("pair", data[at:at + key], data[at + key:at + key + letters], nodes), tuple(n[8:])
            at += key + letters
            continue
        words = list(struct.unpack_from("<%dQ" % tokens, data, at + text))
        yield ("read", data[at:at + text], words, start, op == 1, (nodes, names, notes, key)), tuple(n[8:])
        at += text + 8 * tokens


def expected(case):
    """The twelve numbers. Of two keys: the answer, filled with zeros, and a sum over the list."""
    if case[0] != "pair": return rules_model.expected(case)
    answer, said = differ_model.differ(*case[1:])
    return answer + (0,) * 5 + (sum_words(said, len(said), 1), 0, 0, 0)


def main():
    with open(sys.argv[1], "rb") as f:
        data = f.read()
    run, different = collections.Counter(), 0
    for case, got in records(data):
        want = expected(case)
        run[case[0], want[0]] += 1
        if want != got:
            different += 1
            if different <= 8:
                print("DIFFERENT", case[0], case[1][:200], "lent", case[-1], "\n  library", *got, "\n  model  ", *want)
    print("%d records, %d different" % (sum(run.values()), different))
    for sort in ("read", "key", "pair"):
        print(sort + ": " + ", ".join("%d answer %d" % (n, k[1]) for k, n in sorted(run.items()) if k[0] == sort))
    sys.exit(different != 0)


if __name__ == "__main__":
    main()

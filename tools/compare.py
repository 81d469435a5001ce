"""Runs a program of unproved.sh on records beside the lines that they must print; what compare_words.py and compare_keys.py
share. Programs are target/unproved/NAME.BUILD."""
import os
import resource
import subprocess
import sys
import tempfile

from words_vectors import root


def program(name):
    """The path of a program."""
    found = os.path.join(root(), "target", "unproved", name)
    if not os.path.exists(found):
        sys.exit("no target/unproved/%s: run tools/unproved.sh %s first" % (name, name.split(".")[0]))
    return found


def answers(name, records, stack=None):
    """The lines of one run over some records, with a stack of so many bytes; None and the status where it fails."""
    before = (lambda: resource.setrlimit(resource.RLIMIT_STACK, (stack, stack))) if stack else None
    with tempfile.NamedTemporaryFile() as f:
        for r in records:
            f.write(r)
        f.flush()
        done = subprocess.run([program(name), f.name], stdout=subprocess.PIPE, stderr=subprocess.DEVNULL, preexec_fn=before)
    return done.stdout.decode().split("\n")[:-1] if done.returncode == 0 else None, done.returncode


def compare(name, source, record, line, count, stack=None):
    """A run for each twenty thousand records or so; count(r, expected, got) is called for each."""
    more = True
    while more:
        batch = []
        for r in source:
            batch.append(r)
            if len(batch) >= 20000:
                break
        more = len(batch) >= 20000
        lines, status = answers(name, (record(*r) for r in batch), stack)
        if lines is None:
            sys.exit("the program ended with status %d" % status)
        if len(lines) != len(batch):
            sys.exit("%d lines for %d records" % (len(lines), len(batch)))
        for r, got in zip(batch, lines):
            count(r, line(*r), got)

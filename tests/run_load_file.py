#!/usr/bin/env python3
"""Runs the built program that makes load files on every input of tests/model/cases/load_files.txt, and on the seed and n of each
file there, and compares what it writes. After `tools/program load_file`:

    python3 tests/run_load_file.py
"""
import os
import sys

from run_show import ROOT, output

sys.path.insert(0, os.path.join(ROOT, "tests/model"))
from replay import bytes_of, fnv, lines_of

LOAD_FILE = os.path.join(ROOT, "crates/load_file/out/load_file")


def cases():
    """The input, and what must be written: the length and digest, or the whole."""
    for line in lines_of("load_files.txt"):
        given, answer = line.split(" = ")
        kind, *words = given.split(" ")
        if kind == "input":
            yield bytes.fromhex(words[0].strip("-")), answer
        elif kind == "file":
            yield (" ".join(words) + "\n").encode(), " ".join(answer.split(" ")[:2])
        elif kind == "bytes":
            whole = bytes(bytes_of(*answer.split(" ")))
            yield (" ".join(words) + "\n").encode(), "%d %s" % (len(whole), fnv(whole))


def main():
    count, differ = 0, 0
    for given, expected in cases():
        written = output(LOAD_FILE, given)
        got = "refused,35" if written == b"refused,35\n" else "%d %s" % (len(written), fnv(written))
        count += 1
        if got != expected:
            differ += 1
            print("%r: %s instead of %s" % (given[:60], got, expected))
    print("%d inputs, %d differ" % (count, differ))
    sys.exit(differ != 0)


if __name__ == "__main__":
    main()

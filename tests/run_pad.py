#!/usr/bin/env python3
"""Runs the built padding program on every file of tests/model/cases/pads.txt, and on longer inputs, each through a pipe in
two parts, and compares all that it writes. A file of 36 to 63 cells is then refused 10 by the built show program, and once padded
prints the model's line, which is the one before R-7 unless that was 15. After `tools/program pad show`:

    python3 tests/run_pad.py
"""
import os
import sys

from run_show import ROOT, SHOW, output

sys.path.insert(0, os.path.join(ROOT, "tests/model"))
from model import FEWEST_CELLS, FEWEST_PADDED, show  # noqa: E402

PAD = os.path.join(ROOT, "crates/pad/out/pad")


def content(length, given):
    return bytes.fromhex(given.strip("-")).ljust(int(length), b"\0")


def cases():
    """The name, the file and all that must be written for it."""
    with open(os.path.join(ROOT, "tests/model/cases/pads.txt")) as f:
        for row in f:
            if row.startswith("#"):
                continue
            given, answer = row.rstrip("\n").split(" = ")
            name, *file = given.split(" ")
            refused = answer.startswith("refused")
            yield name, content(*file), (answer + "\n").encode() if refused else content(*answer.split(" "))
    for length in 65538, 1048576, 1048577, 3000000:
        yield "longer-%d" % length, bytes(length), b"refused,1\n"


def cells_of(file):
    return int.from_bytes(file[52:56], "little")


def shown(name, file, padded):
    """How many lines of a padded file were compared, and how many differ."""
    if not FEWEST_PADDED <= cells_of(file) < FEWEST_CELLS:
        return 0, 0
    refused, line = output(SHOW, file).decode(), output(SHOW, padded).decode()
    before, after = show(file, FEWEST_PADDED) + "\n", show(padded) + "\n"
    same = refused == "refused,10\n" and line == after and (after == before or before.startswith("refused,15,"))
    if not same:
        print("%s: %r, padded %r instead of %r" % (name, refused, line, after))
    return 1, not same


def main():
    count, differ, lines = 0, 0, 0
    for name, file, expected in cases():
        got = output(PAD, file)
        count += 1
        if got != expected:
            differ += 1
            print("%s: %d bytes %r.. instead of %d bytes %r.." % (name, len(got), got[:60], len(expected), expected[:60]))
        elif not expected.startswith(b"refused"):
            compared, other = shown(name, file, got)
            lines, differ = lines + compared, differ + other
    print("%d files and %d lines of padded ones, %d differ" % (count, lines, differ))
    sys.exit(differ != 0)


if __name__ == "__main__":
    main()

#!/usr/bin/env python3
"""Feeds the files of tests/oracle/sample.txt to the built show program and compares its lines with what richter's Rust answered.
No Rust is needed. The file says how it was made. After `tools/program show`:

    python3 tests/run_oracle_sample.py
"""
import os
import subprocess
import sys

ROOT = os.path.dirname(os.path.dirname(os.path.abspath(__file__)))
SHOW = os.path.join(ROOT, "crates/show/out/show")
SAMPLE = os.path.join(ROOT, "tests/oracle/sample.txt")
# So many answers were asked for; fewer would mean that the file was cut.
LEAST = 500


def cases():
    with open(SAMPLE) as f:
        for row in f:
            if not row.startswith("#"):
                name, length, given, line = row.rstrip("\n").split(" ")
                yield name, bytes.fromhex(given.strip("-")).ljust(int(length), b"\0"), line


def main():
    count, differ = 0, 0
    for name, content, line in cases():
        got = subprocess.run([SHOW], input=content, stdout=subprocess.PIPE, timeout=60).stdout.decode()
        count += 1
        if got != line + "\n":
            differ += 1
            print("%s: %r instead of %r" % (name, got, line + "\n"))
    print("%d answers of the Rust, %d differ" % (count, differ))
    sys.exit(differ != 0 or count < LEAST)


if __name__ == "__main__":
    main()

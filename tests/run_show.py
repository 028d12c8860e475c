#!/usr/bin/env python3
"""Runs the built show program on every file of tests/model/cases/files.txt, and on longer inputs, each through a pipe in
two parts, and compares what it prints. After `tools/program show`:

    python3 tests/run_show.py
"""
import os
import subprocess
import sys

ROOT = os.path.dirname(os.path.dirname(os.path.abspath(__file__)))
SHOW = os.path.join(ROOT, "crates/show/out/show")


def cases():
    with open(os.path.join(ROOT, "tests/model/cases/files.txt")) as f:
        for row in f:
            if not row.startswith("#"):
                name, length, given, line = row.rstrip("\n").split(" ")
                yield name, bytes.fromhex(given.strip("-")).ljust(int(length), b"\0"), line
    for length in 65538, 1048576, 1048577, 3000000:
        yield "longer-%d" % length, bytes(length), "refused,1"


def output(path, content):
    """What a program writes for a file that comes in two parts. It need not read all of a longer one."""
    program = subprocess.Popen([path], stdin=subprocess.PIPE, stdout=subprocess.PIPE)
    try:
        half = len(content) // 2
        for part in content[:half], content[half:]:
            program.stdin.write(part)
            program.stdin.flush()
        program.stdin.close()
    except BrokenPipeError:
        pass
    written = program.stdout.read()
    program.wait()
    return written


def main():
    count, differ = 0, 0
    for name, content, line in cases():
        got = output(SHOW, content).decode()
        count += 1
        if got != line + "\n":
            differ += 1
            print("%s: %r instead of %r" % (name, got, line + "\n"))
    print("%d files, %d differ" % (count, differ))
    sys.exit(differ != 0)


if __name__ == "__main__":
    main()

#!/usr/bin/env python3
"""Says whether what was carried over from richter is richter's, byte for byte.

    python3 check_carried_over.py            against the checksums in carried_over.txt
    python3 check_carried_over.py CHECKOUT   against a checkout of richter at 506504d5f9 as well

A line of carried_over.txt: SHA-256, richter's file, its lines FIRST-LAST or `all`, and the file here. Lines are compared as one
text that must occur once in the file here.
"""
import hashlib
import os
import sys

HERE = os.path.dirname(os.path.abspath(__file__))


def read(*parts):
    with open(os.path.join(*parts), "rb") as f:
        return f.read()


def rows():
    for row in read(HERE, "carried_over.txt").decode().splitlines():
        if row and not row.startswith("#"):
            yield row.split()


def sha256(text):
    return hashlib.sha256(text).hexdigest()


def occurs(content, wanted, lines):
    """How often a run of that many lines with that checksum occurs in the content."""
    rows = content.splitlines(keepends=True)
    return sum(sha256(b"".join(rows[i:i + lines])) == wanted for i in range(len(rows) - lines + 1))


def check(wanted, source, span, here, checkout):
    content = read(HERE, here)
    if span == "all":
        good = sha256(content) == wanted
    else:
        first, last = map(int, span.split("-"))
        good = occurs(content, wanted, last - first + 1) == 1
    if good and checkout:
        theirs = read(checkout, source)
        if span != "all":
            theirs = b"".join(theirs.splitlines(keepends=True)[first - 1:last])
        good = sha256(theirs) == wanted
    return good


def main():
    checkout = sys.argv[1] if len(sys.argv) > 1 else None
    bad = 0
    for wanted, source, span, here in rows():
        good = check(wanted, source, span, here, checkout)
        bad += not good
        print("%s %s %s in %s" % ("same" if good else "DIFFERS", source, span, here))
    sys.exit(bad != 0)


if __name__ == "__main__":
    main()

#!/usr/bin/env python3
"""Makes what the programs show, pad, load_file, file_cases, call_cases and trace read, and what they must write:

    python3 tools/cases.py            writes crates/NAME/stdin and crates/NAME/stdout
    python3 tools/cases.py --check    says which of the committed files are not these

show's file and line are document 01's. Those of the others are taken from tests/model/cases, whose answers are the
model's: pad reads one file of pads.txt (tests/run_pad.py runs it on all), load_file a seed and n of load_files.txt
(tests/run_load_file.py runs it on all); file_cases reads `NAME LENGTH HEX` and writes `NAME LINE`; call_cases reads what stands before `=` in calls.txt
and writes what stands after it, and trace likewise in traces.txt. tests/model/README.md has the formats. Nothing here comes from a run of the machine.
"""
import os
import struct
import sys

ROOT = os.path.dirname(os.path.dirname(os.path.abspath(__file__)))

# the file of pads.txt that pad reads: lumps in another order, gaps between them, profile numbers
PADDED = "47-cells-gaps"
# the seed and n of load_files.txt that load_file reads
LOAD_FILE = "2463534242 7"
# opcodes of document 01's example
DONE, ADD_F, RETURN = 0, 6, 43


def lump(at, records):
    """The next free place, and the lump's offset and count."""
    size = sum(len(r) for r in records)
    return at + size, (at, len(records))


def example():
    """The file of document 01's last situation: statements, definitions (none), functions, strings, cells."""
    statements = [struct.pack("<4h", *s) for s in [(DONE, 0, 0, 0), (ADD_F, 28, 29, 30), (RETURN, 30, 0, 0)]]
    # first statement, first local cell, local count, profile, name, source file, argument count; eight sizes
    functions = [struct.pack("<7i8B", *f, *[0] * 8) for f in [(0,) * 7, (1, 30, 1, 0, 0, 0, 0)]]
    cells = [struct.pack("<I", {28: 0x3FC00000, 29: 0x40100000}.get(i, 0)) for i in range(64)]
    lumps = [statements, [], [], functions, [b"\0"], cells]
    at, header = 60, [6, 5927]
    for records in lumps:
        at, place = lump(at, records)
        header += place
    return struct.pack("<15i", *header, 105) + b"".join(r for records in lumps for r in records)


def lines(name):
    with open(os.path.join(ROOT, "tests/model/cases", name)) as f:
        return [line.rstrip("\n") for line in f if not line.startswith("#")]


def text(rows):
    return "".join(row + "\n" for row in rows).encode()


def bytes_of(length, text):
    return bytes.fromhex(text.strip("-")).ljust(int(length), b"\0")


def padded():
    """A file of pads.txt, and what is written for it."""
    line = next(line for line in lines("pads.txt") if line.startswith(PADDED + " "))
    given, answer = line.split(" = ")
    return bytes_of(*given.split(" ")[1:]), bytes_of(*answer.split(" "))


def load_file():
    """The bytes of a load file of load_files.txt."""
    start = "bytes " + LOAD_FILE + " = "
    return next(bytes_of(*line[len(start):].split(" ")) for line in lines("load_files.txt") if line.startswith(start))


def made():
    """Each file below crates/ with its bytes."""
    files = [line.split(" ") for line in lines("files.txt")]
    calls = [line.split(" = ") for line in lines("calls.txt")]
    traces = [line.split(" = ") for line in lines("traces.txt")]
    unpadded, written = padded()
    return {
        "load_file/stdin": text([LOAD_FILE]),
        "load_file/stdout": load_file(),
        "pad/stdin": unpadded,
        "pad/stdout": written,
        "show/stdin": example(),
        "show/stdout": b"ended,0,2,0,0,0,0,40700000,00000000,00000000\n",
        "file_cases/stdin": text(" ".join([name, length, given]) for name, length, given, _ in files),
        "file_cases/stdout": text(name + " " + line for name, _, _, line in files),
        "call_cases/stdin": text(call[0] for call in calls),
        "call_cases/stdout": text(call[1] for call in calls if len(call) == 2),
        "trace/stdin": text(line for line, _ in traces),
        "trace/stdout": text(answer for _, answer in traces),
    }


def committed(path):
    if not os.path.exists(path):
        return None
    with open(path, "rb") as f:
        return f.read()


def main():
    check = sys.argv[1:] == ["--check"]
    if sys.argv[1:] and not check:
        sys.exit(__doc__)
    differ = []
    for name, content in made().items():
        path = os.path.join(ROOT, "crates", name)
        if check:
            differ += [] if committed(path) == content else [name]
            continue
        with open(path, "wb") as f:
            f.write(content)
    if differ:
        sys.exit("not what tools/cases.py makes: " + ", ".join("crates/" + name for name in differ))


if __name__ == "__main__":
    main()

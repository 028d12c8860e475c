"""R-10: load files, by length and digest, with show's line for each; buffers, and inputs of the program: cases/load_files.txt."""

from call_cases import fnv
from common import Xorshift, hex_of
from model import Answer, load_file, load_file_program, show, write_load_file

# what each byte of an output buffer holds before
UNWRITTEN = 238
SEEDS, COUNTS = (1, 2463534242, 4294967295), (1, 7, 1000)
GREATEST = 2**32 - 1


def length_of(n):
    """Header, n + 2 statements, two functions, a byte of strings, 64 cells."""
    return 60 + 8 * (n + 2) + 72 + 1 + 256


class LoadFiles:
    def __init__(self):
        self.lines = []
        self.seen = []  # (what is asked for, the answer)

    def note(self, text):
        self.lines.append(f"# {text}")

    def _line(self, given, *answer):
        self.lines.append(f"{given} = {' '.join(map(str, answer))}")
        self.seen.append((given, answer))

    def whole(self, seed, n):
        self._line(f"bytes {seed} {n}", hex_of(load_file(seed, n)))

    def file(self, seed, n):
        file = load_file(seed, n)
        line = show(file)
        assert len(file) == length_of(n) and line.startswith(f"ended,0,{n + 1},0,0,0,0,"), line
        self._line(f"file {seed} {n}", len(file), f"{fnv(file):016x}", line)

    def buffer(self, seed, n, room, refused=None):
        """`refused` is the refusal that was worked out by hand."""
        output = bytearray([UNWRITTEN] * room)
        answer = write_load_file(seed, n, output)
        file = b"" if refused else load_file(seed, n)
        assert answer == (Answer("refused", refused) if refused else Answer("accepted", len(file))), (seed, n, room, answer)
        assert output == file + bytes([UNWRITTEN] * (room - len(file)))
        self._line(f"buffer {seed} {n} {room}", answer.word, answer.detail, f"{fnv(bytes(output)):016x}")

    def input(self, text, refused=False):
        got = load_file_program(text)
        assert (got == b"refused,35\n") == refused, (text, got[:20])
        self._line(f"input {text.hex() or '-'}", *(["refused,35"] if refused else [len(got), f"{fnv(got):016x}"]))


def whole_files(f):
    f.note("the shortest, and one more, byte for byte")
    for seed in SEEDS:
        f.whole(seed, 1)
    f.whole(2463534242, 7)
    f.note("three seeds with three n")
    for seed in SEEDS:
        for n in COUNTS:
            f.file(seed, n)
    f.note("seeds and n by chance, and about the powers of two")
    chance = Xorshift(521288629)
    for seed in (2, 3, 255, 256, 65535, 65536, 2**31 - 1, 2**31, GREATEST - 1, *[chance.draw() for _ in range(20)]):
        f.file(seed, 1 + chance.below(999))
    for n in (2, 3, 35, 36, 255, 256, 999):
        f.file(chance.draw(), n)


def buffers(f):
    f.note("35: a seed of 0, n of 0 or over 1,000, whatever the buffer; then 34 for a short one; nothing is written")
    for seed, n in ((0, 1), (0, 1000), (0, 0), (0, 1001), (1, 0), (1, 1001), (GREATEST, 0), (GREATEST, 1001), (5, 65536), (5, 65537), (5, GREATEST)):
        for room in (0, 412, 413, 8405, 20000):
            f.buffer(seed, n, room, 35)
    for seed in SEEDS:
        for n in COUNTS:
            length = length_of(n)
            for room in (0, 1, 59, 60, length - 256, length - 1):
                f.buffer(seed, n, room, 34)
            for room in (length, length + 1, length + 100):
                f.buffer(seed, n, room)


def inputs(f):
    f.note("inputs of the program")
    for seed in SEEDS:
        for n in COUNTS:
            f.input(b"%d %d\n" % (seed, n))
    for text in (b"0 1", b"0 0", b"1 0", b"1 1001", b"4294967295 1001", b"4294967296 1", b"4294967297 7", b"8589934593 7", b"1 4294967297"):
        f.input(text + b"\n", True)
    for text in (b"18446744073709551617 7", b"1 18446744073709551623", b"1" * 40 + b" 7", b"7 " + b"1" * 40, b"7 " + b"1" * 4000):
        f.input(text + b"\n", True)
    for text in (b"", b"\n", b"1\n", b"1", b" \n", b"1 \n", b" 7\n", b"seed 7\n", b"1 n\n", b"-1 7\n", b"1 -7\n", b"1.0 7\n", b"0x1 7\n", b"1,7\n", b"1 7 9\n", b"1a 7\n", b"1 7a\n"):
        f.input(text, True)
    f.input(bytes(100), True)
    f.input(b"\xff 7\n", True)


def load_file_cases():
    f = LoadFiles()
    whole_files(f)
    buffers(f)
    inputs(f)
    return f

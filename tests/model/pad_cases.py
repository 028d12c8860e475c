"""R-7: files for the padding program, and all that it writes for each: cases/pads.txt."""

import struct

from common import Xorshift, hex_of, program, random_program
from file_cases import ENDED, LUMP_NAMES, small_program, with_lump
from image_cases import ANY_RECORDS, FAR, IN_ORDER, PROFILES, RULE_CELLS, displaced, joined, placed, rule_file
from model import (
    CELLS, FLOAT, LARGEST_FILE, LARGEST_SHOWN, POINTER, SAVE_FLAG, STRINGS, Assembly, function, pad, show,
)

BACKWARDS = tuple(reversed(IN_ORDER))
COUNT_AT = 52  # where the header has the count of cells


def padded(file):
    """What must be written, by ranges of bytes: R-6's form, which ends with the cells, and zeros after them."""
    result = bytearray(joined(file))
    (count,) = struct.unpack_from("<i", result, COUNT_AT)
    missing = max(64 - count, 0)
    struct.pack_into("<i", result, COUNT_AT, count + missing)
    return result + bytes(4 * missing)


class Pads:
    def __init__(self):
        self.lines = []
        self.seen = []  # (file, what is written for it)

    def note(self, text):
        self.lines.append(f"# {text}")

    def add(self, name, file, refused=None):
        """`refused` is the refusal that was worked out by hand; where there is none the file is written."""
        if isinstance(file, Assembly):
            file = file.bytes()
        got = pad(file)
        if refused is None:
            assert got == padded(file), (name, got[:12])
            answer = hex_of(got)
        else:
            assert got == b"refused,%d\n" % refused, (name, got[:12], refused)
            answer = got.decode().rstrip("\n")
        assert " " not in name and name not in [line.split(" ")[0] for line in self.lines], name
        self.lines.append(f"{name} {hex_of(file)} = {answer}")
        self.seen.append((bytes(file), got))
        return got


def fewer(file, count):
    """The file with another count of cells; the bytes that were the others' stay."""
    file = bytearray(file.bytes() if isinstance(file, Assembly) else file)
    struct.pack_into("<i", file, COUNT_AT, count)
    return file


def filled(count, **parts):
    """Every cell another number, none of them 0."""
    return rule_file(**parts, cell_count=count, cells={cell: 0xC0DE0001 + cell for cell in range(count)})


def count_pads(p):
    p.note("every count of cells from 36 to 63: zero cells are added up to 64; from 64 on none")
    for count in range(36, 67):
        got = p.add(f"{count}-cells", small_program(cell_count=count))
        assert show(got) == ENDED
    for count in (36, 50, 63, 64, 65, 100, 500):
        p.add(f"{count}-cells-filled", filled(count))
    p.note("the most cells that fit in 65,536 bytes")
    most = placed([0, 0, 0, 0, 0, 0, 0, 0, 0, 0, 60, 16_369], 65_536, ANY_RECORDS)
    p.add("16369-cells", most)
    p.note("fewer than 36: 10, also where the file has bytes for more")
    p.add("35-cells", small_program(cell_count=35), 10)
    for count in (0, 1, 35):
        p.add(f"{count}-cells-of-64", fewer(filled(64), count), 10)


def placement_pads(p):
    p.note("bytes after the cells are no cells: other lumps, gaps, bytes of no lump")
    for count in (36, 47, 63, 64):
        p.add(f"{count}-cells-backwards", filled(count, layout=BACKWARDS))
        p.add(f"{count}-cells-gaps", filled(count, profiles=PROFILES, layout=(3, 5, 1, 0, 4, 2), gap=3))
        p.add(f"{count}-cells-of-80", fewer(filled(80), count))
        p.add(f"{count}-cells-more-bytes", filled(count).bytes() + b"\xff" * 300)
    p.add("40-cells-length-65536", (filled(40).bytes() + b"more").ljust(LARGEST_SHOWN, b"\0"))
    p.note("lumps that overlap, lumps in the header, empty ones anywhere")
    for count in (36, 55, 64):
        size = 60 + 4 * count
        p.add(f"{count}-cells-at-one-place", placed([60, 4, 60, 4, 60, 4, 60, 2, 60, 36, 60, count], size, ANY_RECORDS))
        p.add(f"{count}-cells-overlap", placed([68, 3, 60, 4, 68, 2, 60, 1, 59, 100, 63, count], size + 3, ANY_RECORDS))
        p.add(f"{count}-cells-in-the-header", placed([0, 1, 8, 1, 12, 1, 8, 1, 0, 4 * count, 0, count], 4 * count))
        p.add(f"{count}-cells-over-the-strings", fewer(with_strings(b"\0cells in strings", 4 * count), count))
        for at in (0, 60, FAR):
            p.add(f"{count}-cells-alone-{at}", placed([at, 0] * 5 + [60, count], size, struct.pack(f"<{count}i", *range(1, count + 1))))
    p.note("cells per entity; programs that end otherwise; definitions of the added cells, operands that name them")
    for per_entity in (105, 106, 2**31 - 1):
        p.add(f"{per_entity}-entity-cells", small_program(cell_count=36, cells_per_entity=per_entity))
    definitions = [(FLOAT | SAVE_FLAG, cell) for cell in (35, 36, 63, 64)] + [(POINTER, 65535)]
    functions = [function(1, 36, 28), function(1, 60, 4, (3, 3))]
    p.add("endless", program(("Goto", 0), cell_count=40))
    p.add("calls-a-builtin", rule_file(PROFILES, {cell: value for cell, value in RULE_CELLS.items() if cell < 50}, cell_count=50))
    p.add("added-cells-named", program(("AddF", 36, 63, 50), ("Return", 61), definitions=definitions, functions=functions, cell_count=36))


def with_strings(text, size):
    """The strings are where the cells are."""
    assembly = Assembly(cells={0: 0x6C6C6500, 20: 7}, functions=[function(), function(1)])
    assembly.lumps[2 * STRINGS : 2 * STRINGS + 2] = assembly.place(CELLS), min(size, 200)
    file = assembly.bytes()
    file[assembly.place(CELLS) : assembly.place(CELLS) + len(text)] = text
    return file


def refused_pads(p):
    p.note("refused as the show program refuses")
    small = small_program(cell_count=40)
    whole = small.bytes()
    for length in (0, 59):
        p.add(f"length-{length}", whole[:length], 1)
    p.add("length-60", whole[:60], 4)
    p.add("length-65536", whole.ljust(65536, b"\0"))
    p.add("length-65537", whole.ljust(65537, b"\0"), 1)
    p.add("length-65537-no-file", bytes(65537), 1)
    p.add("one-byte-short", whole[:-1], 4)
    for name, number in (("version", 2), ("check_number", 3)):
        bad = small_program(cell_count=36)
        setattr(bad, name, 7)
        p.add(name.replace("_", "-"), bad, number)
    for lump, name in enumerate(LUMP_NAMES):
        p.add(f"{name}-offset-minus-1", with_lump(lump, offset=-1, cell_count=36), 4)
        p.add(f"{name}-far", with_lump(lump, offset=FAR, count=max(1, 40 * (lump == CELLS)), cell_count=36), 4)
    # a file of 36 cells may not end where 64 would
    p.add("cells-past-the-end", with_lump(CELLS, count=41, cell_count=40), 4)
    few = dict(cell_count=36)
    p.add("builtin-5", program(functions=[function(-5)], **few), 5)
    p.add("name", program(functions=[function(name=1)], **few), 6)
    p.add("opcode-66", program((66,), **few), 7)
    p.add("definition-type", program(definitions=[(8, 0)], **few), 8)
    p.add("field-type", program(fields=[(8, 0)], **few), 8)
    p.add("field-saved", program(fields=[(SAVE_FLAG, 0)], **few), 9)
    p.add("entity-cells", program(cells_per_entity=104, **few), 11)
    p.add("entity-cells-64-cells", program(cells_per_entity=104), 11)
    p.add("10-before-11", program(cells_per_entity=104, cell_count=35), 10)
    p.add("9-before-10", program(fields=[(SAVE_FLAG, 0)], cell_count=35), 9)


def long_pads(p):
    """Written lengths about 65,536; the file is shorter where its lumps overlap."""
    p.note("34: more than 65,536 bytes to write, with the added cells; no lumps overlap, then all do")
    for count in (36, 63, 64, 65):
        fixed, at = 60 + 4 * max(count, 64), 60 + 4 * count
        for length in (65_536, 65_537):
            strings = length - fixed
            # all zeros but for one file, which would be long in the case file
            file = placed([0, 0, 0, 0, 0, 0, 0, 0, at, strings, 60, count], at + strings, ANY_RECORDS * (count == 36))
            refused = 34 if count < 64 else 1  # a longer file isn't read
            p.add(f"{count}-cells-{length}-bytes", file, None if length == 65_536 else refused)
            lumps = [60, 2_000, 60, 2_000, 60, 2_000, 60, 400, 60, strings - 62_400, 60, count]
            file = placed(lumps, 60 + 16_000)
            p.add(f"{count}-cells-overlap-{length}-bytes", file, None if length == 65_536 else 34)
    p.note("34: by far too long, longer than any file")
    lumps = [60, 8_000, 60, 8_000, 60, 8_000, 60, 1_800, 60, 64_860, 60]
    for count in (36, 16_200):
        file = placed([*lumps, count], 65_000, ANY_RECORDS)
        assert LARGEST_SHOWN < len(joined(file)) < LARGEST_FILE
        p.add(f"{count}-cells-far-too-long", file, 34)
    p.note("34 comes last")
    bad = placed([*lumps, 36], 65_000, ANY_RECORDS, 104)
    p.add("11-before-34", bad, 11)
    p.add("10-before-34", placed([*lumps, 35], 65_000, ANY_RECORDS), 10)


def random_pads(p):
    """Programs made by chance, their lumps in any order and strings and cells over other lumps, with 36 to 66 cells."""
    p.note("made by chance")
    for seed in range(1, 41):
        chance = Xorshift(seed * 2654435761 % 2**32)
        assembly = random_program(chance, hosts=True)
        assembly.lumps[2 * CELLS + 1] = 36 + chance.below(29)
        p.add(f"chance-{seed}", displaced(chance, assembly))


def pad_cases():
    p = Pads()
    count_pads(p)
    placement_pads(p)
    refused_pads(p)
    long_pads(p)
    random_pads(p)
    return p

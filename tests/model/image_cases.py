"""R-6: lists of calls with program files that are written: cases/images.txt."""

import struct

from call_cases import Calls, fnv
from common import CHANCE_FLOATS, Xorshift, flt, random_program
from model import (
    CELLS, CHECK_NUMBER, ENTITY, FIELD_DEFS, FLOAT, FUNCTIONS, GLOBAL_DEFS, HEADER_SIZE, LARGEST_FILE, POINTER,
    RECORD_SIZES, SAVE_FLAG, STATEMENTS, STRING, STRINGS, VERSION, VOID, Answer, Assembly, function,
)

# what each byte of an output buffer holds before
UNWRITTEN = 238
FAR = 2**31 - 1


class Images(Calls):
    """Lists of calls with one more: `image N`, whose line ends with the digest of its output buffer."""

    def __init__(self):
        super().__init__()
        self.output = None

    def _perform(self, word, given):
        if word != "image":
            return super()._perform(word, given)
        self.output = bytearray([UNWRITTEN] * given[0])
        return self.machine.image(self.output)

    def do(self, call, expect=None):
        answer = super().do(call, expect)
        if call.startswith("image "):
            self.lines[-1] += f" {fnv(bytes(self.output)):016x}"
        return answer

    def image(self, file, spare=0):
        """The file is what must be written, and `spare` bytes of the buffer stay."""
        answer = self.do(f"image {len(file) + spare}", "accepted")
        assert answer == Answer("accepted", len(file)), answer
        assert self.output == bytes(file) + bytes([UNWRITTEN] * spare)

    def not_written(self, number, *sizes):
        for size in sizes:
            self.do(f"image {size}", number)
            assert self.output == bytes([UNWRITTEN] * size)

    def once(self, text, file, cells=64):
        """Loads and writes a file."""
        expected = joined(file)
        self.new(text, file, cells)
        self.ok("load 0")
        self.image(expected)
        self.not_written(34, len(expected) - 1)
        self.image(expected, 3)
        return expected

    def both(self, text, file, cells=64):
        """Loads and writes a file, then loads and writes what was written."""
        expected = self.once(text, file, cells)
        self.new("what was written", expected, cells)
        self.ok("load 0")
        self.image(expected)


def joined(file, check_number=CHECK_NUMBER):
    """What must be written for a file that was loaded under the check number, put together by ranges of bytes; the model goes by
    records."""
    if isinstance(file, Assembly):
        file = file.bytes()
    numbers = struct.unpack_from("<15i", file)
    header, body = b"", b""
    for lump, size in enumerate(RECORD_SIZES):
        offset, count = numbers[2 + 2 * lump : 4 + 2 * lump]
        lump_bytes = bytearray(file[offset : offset + size * count])
        for record in range(count if lump == FUNCTIONS else 0):
            lump_bytes[36 * record + 12 : 36 * record + 16] = bytes(4)
        header += struct.pack("<2i", HEADER_SIZE + len(body), count)
        body += lump_bytes
    return struct.pack("<2i", VERSION, check_number) + header + struct.pack("<i", numbers[14]) + body


STRING_BYTES = b"\0goal\0teams\0\xe1\xff"  # no zero byte at the end
IN_ORDER = (STATEMENTS, GLOBAL_DEFS, FIELD_DEFS, FUNCTIONS, STRINGS, CELLS)
# statement 1 on: AddF, a call of function 3, which calls builtin 7, then State, and the end
RULE_STATEMENTS = [
    ("Done", 5, -6, 7),
    ("AddF", 28, 29, 30),
    ("Call0", 40),
    ("StoreF", 30, 32),
    ("State", 28, 29, 30),
    ("Return", 30),
    ("Goto", -32768, 32767, -1),
    ("MulF", 28, 28, 33),
    ("Call0", 41),
    ("Return", 33),
]
RULE_CELLS = {0: 0x80000001, 28: flt(1.5), 29: flt(2.25), 30: flt(7.0), 40: 3, 41: 2, 63: 0xFFFFFFFF}


def rule_file(profiles=(0, 0, 0, 0), cells=RULE_CELLS, **parts):
    """A file with records in every lump, and no two alike."""
    functions = [
        function(),
        function(1, 30, 2, name=1, source=6),
        # argument sizes past the argument count
        function(-7, 12, 13, (1, 2, 3, 4, 5, 6, 7, 255), arguments=-1, name=13),
        function(7, 33, 1, (1, 3, 0, 9, 0, 0, 0, 11), arguments=1, name=11, source=5),
    ]
    return Assembly(
        RULE_STATEMENTS,
        [record._replace(profile=profile) for record, profile in zip(functions, profiles)],
        [(FLOAT | SAVE_FLAG, 28, 1), (VOID, 28, 6), (POINTER | SAVE_FLAG, 65535, 13), (STRING, 45)],
        [(ENTITY, 65535, 1), (VOID, 0, 6), (FLOAT, 104, 11)],
        strings=STRING_BYTES,
        cells=cells,
        cells_per_entity=117,
        **parts,
    )


WRITTEN = bytes(rule_file().bytes())
PROFILES = (-1, 77, FAR, -(2**31))


def moved_file():
    """The same contents elsewhere: lumps in another order, gaps, profile numbers."""
    return rule_file(PROFILES, layout=(CELLS, STRINGS, FUNCTIONS, GLOBAL_DEFS, STATEMENTS, FIELD_DEFS), gap=5)


# records of every lump at once: statements Done, MulF, MulFV, AddF, MulVF; definitions of five types; a function whose
# profile number is 2
ANY_RECORDS = struct.pack("<9I", 0x00050000, 1, 0x012C0001, 2, 3, 1, 0x00070006, 9, 0xFF000004)


def placed(lumps, length, body=b"", cells_per_entity=105):
    """A file whose lumps are where they are said to be, the body after the header, then zeros."""
    header = struct.pack("<15i", VERSION, CHECK_NUMBER, *lumps, cells_per_entity)
    return bytearray((header + body).ljust(length, b"\0"))


def buffer_images(c):
    length = len(WRITTEN)
    c.new("a file that is written as it is, into buffers of several lengths", WRITTEN)
    c.not_written(13, 0, 60, length, length + 1)  # nothing is loaded
    c.ok("load 0")
    c.image(WRITTEN)
    c.not_written(34, length - 1, 0, 1, 59, 60, 61, length - 64 * 4, length - 4)
    for spare in (1, 4, 100, LARGEST_FILE - length, LARGEST_FILE - length + 1):
        c.image(WRITTEN, spare)
    c.no(15, "get 64")
    c.ok("get 63", "enter 1")
    c.new("63 lent cells: the load is refused, and nothing is written", WRITTEN, 63)
    c.no(12, "load 0")
    c.not_written(13, 0, length)


def placement_images(c):
    backwards = tuple(reversed(IN_ORDER))
    rotated = (FUNCTIONS, STRINGS, CELLS, STATEMENTS, GLOBAL_DEFS, FIELD_DEFS)
    for text, parts in (
        ("profile numbers", dict(profiles=PROFILES)),
        ("one profile number, of the last function", dict(profiles=(0, 0, 0, 256))),
        ("lumps backwards", dict(layout=backwards)),
        ("lumps in another order", dict(layout=rotated)),
        ("gaps of one byte", dict(gap=1)),
        ("gaps of 100 bytes, lumps backwards", dict(layout=backwards, gap=100)),
    ):
        file = rule_file(**parts)
        assert joined(file) == WRITTEN
        c.both(text + ": the same file is written", file)
    assert joined(moved_file()) == WRITTEN
    c.both("all of these", moved_file())
    c.both("bytes after the last lump", rule_file().bytes() + b"more")
    c.both("1,048,576 bytes, most of them in no lump", rule_file().bytes() + bytes(LARGEST_FILE - len(WRITTEN)))


def empty_images(c):
    for offsets in ([0] * 5, [FAR] * 5, [1, FAR, 59, 316, 317], [60] * 5):
        file = placed([*sum(([at, 0] for at in offsets), []), 60, 64], 316, struct.pack("<64i", *range(64)))
        assert joined(file)[:60] == struct.pack("<15i", 6, 5927, *[60, 0] * 5, 60, 64, 105)
        c.both(f"no lump but cells, the empty ones at {', '.join(map(str, offsets))}", file)
    for lump, part in ((STATEMENTS, "statements"), (GLOBAL_DEFS, "definitions"), (FIELD_DEFS, "fields"), (FUNCTIONS, "functions")):
        parts = dict(statements=[("Done", 1, 2, 3)], definitions=[(FLOAT, 4)], fields=[(FLOAT, 5)], functions=[function(6)])
        for at in (0, FAR):
            file = Assembly(**{**parts, part: ()})
            file.lumps[2 * lump] = at
            c.both(f"no {part}, at {at}", file)


def overlap_images(c):
    body = ANY_RECORDS
    same = [60, 4, 60, 4, 60, 4, 60, 2, 60, 36, 60, 64]
    file = placed(same, 316, body)
    assert joined(file)[60 + 96 + 12 : 60 + 96 + 20] == struct.pack("<2i", 0, 3)  # function 0's profile, then its name
    assert joined(file)[60 + 96 + 72 :][:36] == body  # the strings keep those bytes
    c.both("six lumps at one place, a profile number that is part of the others too", file)
    c.both("lumps that overlap in part, at odd places", placed([68, 3, 60, 4, 68, 2, 60, 1, 59, 100, 63, 64], 319, body))
    # statement AddF 0 5927 0; definitions: void of cell 0 named 1, string of cell 0 named 8; a function of profile number 1
    inside = placed([0, 1, 8, 1, 12, 1, 8, 1, 0, 256, 0, 64], 256)
    assert joined(inside)[60:68] == struct.pack("<4h", 6, 0, 5927, 0)
    assert joined(inside)[84:120] == struct.pack("<9i", 0, 1, 8, 0, 12, 1, 8, 1, 0)
    c.both("all lumps in the header, whose bytes are written as the file has them", inside)
    c.both("strings and cells over the whole file", placed([60, 1, 60, 0, 0, 0, 60, 1, 0, 400, 1, 99], 400, body), 99)


def long_images(c):
    """Written lengths about the greatest; the file is shorter, as its lumps overlap."""
    for strings, cells in ((200_000, 12_134), (200_001, 12_134), (200_000, 32_768)):
        lumps = [60, 25_000, 60, 25_000, 60, 25_000, 60, 5_555, 60, strings, 60, cells]
        file = placed(lumps, 60 + max(strings, 4 * cells), ANY_RECORDS)
        written = joined(file)
        text = f"a file of {len(file)} bytes, to be written {len(written)} long"
        if len(written) == LARGEST_FILE:
            c.once(text, file, cells)  # what is written has few zeros at its end, and would be long in the case file
            continue
        assert len(written) > LARGEST_FILE
        c.new(text, file, cells)
        c.ok("load 0")
        c.not_written(34, len(written), len(written) + 1, LARGEST_FILE, 0)
        c.ok("get 0")
    file = placed([0, 0, 0, 0, 0, 0, 0, 0, 316, LARGEST_FILE - 316, 60, 64], LARGEST_FILE, bytes(256) + b"text")
    c.both("1,048,576 bytes, all but header and cells strings", file)
    c.both("32,768 cells", placed([0, 0, 0, 0, 0, 0, 0, 0, 0, 1, 60, 32_768], 60 + 4 * 32_768, ANY_RECORDS), 32_768)


def change_images(c):
    """13 before 34, and what check 13 doesn't look at."""
    assembly = moved_file()
    length = len(WRITTEN)
    c.new("13 before 34: a number of the header another than the state records", assembly)
    c.ok("load 0", "enter 1")
    for offset in range(8, 60, 4):
        byte = c.machine.file[offset]
        c.ok(f"byte {offset} {byte ^ 1}")
        c.not_written(13, 0, length)
        c.ok(f"byte {offset} {byte}")
    c.image(WRITTEN)
    c.not_written(34, length - 1)
    locals_ = assembly.place(FUNCTIONS, 1) + 8
    c.ok(f"byte {locals_} 3")
    c.not_written(13, length - 1, length, length + 1)
    c.ok(f"byte {locals_} 2")
    c.image(WRITTEN)
    c.new("version and check number are written as they must be, whatever the file has now", assembly)
    c.ok("load 0", "byte 0 7", "byte 3 255", "byte 4 0", "byte 6 1")
    c.image(WRITTEN)


def changed_record_images(c):
    assembly = moved_file()
    c.new("bytes changed after the load are written as they are", assembly)
    c.ok("load 0", "enter 1")
    for place, byte in (
        (assembly.place(STATEMENTS, 1), 99),
        (assembly.place(STATEMENTS, 9) + 7, 128),
        (assembly.place(GLOBAL_DEFS, 2) + 1, 255),
        (assembly.place(FIELD_DEFS, 2) + 7, 128),
        (assembly.place(FUNCTIONS, 2) + 3, 127),
        (assembly.place(FUNCTIONS, 3) + 35, 250),
        (assembly.place(STRINGS, len(STRING_BYTES) - 1), 0),
        (assembly.place(CELLS, 63) + 3, 1),
    ):
        c.ok(f"byte {place} {byte}")
        assert joined(c.machine.file) != WRITTEN
        c.image(joined(c.machine.file))
    changed = joined(c.machine.file)
    for place in (assembly.place(FUNCTIONS, 1) + 12, assembly.place(STATEMENTS) - 1):  # a profile number, a gap
        c.ok(f"byte {place} 66")
        c.image(changed)


def running_images(c):
    assembly = moved_file()
    c.new("the same file is written at every point of a run, and after cells were written", assembly, 70, 2050)
    c.ok("load 0", "enter 1")
    c.image(WRITTEN)
    c.ok("statement")
    c.image(WRITTEN, 9)
    c.word("spent", "run 0 1")
    c.image(WRITTEN)
    c.word("builtin", "run 0 9")
    c.image(WRITTEN)
    c.not_written(34, len(WRITTEN) - 1)
    c.ok("put 28 1077936128", "put 0 9", "put 63 5", "put 1 1")
    c.image(WRITTEN)
    c.ok("carry")
    c.word("opcode", "run 0 9")
    c.image(WRITTEN)
    c.no(15, "put 64 1")
    c.ok("carry", "enter 3")
    c.image(WRITTEN)
    c.ok("abandon 1")
    c.image(WRITTEN)
    c.word("ended", "run 0 9")
    c.image(WRITTEN)
    c.ok("get 1", "load 0", "get 28")
    c.image(WRITTEN)
    c.new("with entities", rule_file(), 64, 2048, 235)
    c.ok("load 2")
    c.image(WRITTEN)
    c.ok("enter 1")
    c.word("spent", "run 0 2")
    c.image(WRITTEN)
    c.not_written(34, len(WRITTEN) - 1)


def random_images(c):
    """Programs made by chance, their lumps in any order and strings and cells over other lumps, written during runs."""
    for seed in range(1, 31):
        chance = Xorshift(seed * 2654435761 % 2**32)
        file = displaced(chance, random_program(chance, hosts=True))
        written = joined(file)
        c.new(f"made by chance, {seed}", file)
        c.ok("load 0")
        c.image(written, chance.below(9))
        for _ in range(6):
            c.do(f"put {28 + chance.below(12)} {chance.pick(CHANCE_FLOATS)}")
            c.do(f"enter {1 + chance.below(5)}")
            c.do(f"run 0 {1 + chance.below(30)}")
            c.do(f"image {len(written) - 2 + chance.below(5)}")
        c.image(written)
        c.new("what was written", written)
        c.ok("load 0")
        c.image(written)


def displaced(chance, assembly):
    """A file of the program's records with lumps in another order, gaps, and perhaps strings or cells over other lumps."""
    lumps = list(IN_ORDER)
    order = [lumps.pop(chance.below(len(lumps))) for _ in range(6)]
    old, body, places = assembly.bytes(), b"", [0] * 12
    for lump in order:
        body += bytes(chance.below(256) for _ in range(chance.below(4)))
        count = assembly.lumps[2 * lump + 1]
        places[2 * lump : 2 * lump + 2] = HEADER_SIZE + len(body), count
        body += old[assembly.place(lump) : assembly.place(lump, count)]
    file = placed(places, HEADER_SIZE + len(body), body)
    for place in range(places[2 * FUNCTIONS] + 12, places[2 * FUNCTIONS] + 36 * places[2 * FUNCTIONS + 1], 36):
        file[place] = chance.below(256)  # profile numbers
    if chance.below(2):
        places[2 * STRINGS : 2 * STRINGS + 2] = chance.below(100), len(file) - 100 - chance.below(100)
    if chance.below(2):
        places[2 * CELLS] = chance.below(len(file) - 4 * places[2 * CELLS + 1] + 1)
    file[8:56] = struct.pack("<12i", *places)
    return file


def image_cases():
    c = Images()
    buffer_images(c)
    placement_images(c)
    empty_images(c)
    overlap_images(c)
    change_images(c)
    changed_record_images(c)
    running_images(c)
    random_images(c)
    long_images(c)
    return c

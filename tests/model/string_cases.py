"""R-4: EqS, NeS and NotS by the texts, for cases/statements.txt, files.txt, calls.txt and traces.txt."""

from common import POSITION, STATE_LUMPS, Xorshift, flt, program
from model import (
    CELLS, FIELD_DEFS, FLOAT, FUNCTIONS, GLOBAL_DEFS, LARGEST_FILE, ONE, SIGN, STATEMENTS, STRING, STRINGS,
    Answer, Assembly, function,
)

GREATEST_NUMBER = 0x7FFFFFFF
NEGATIVE = (SIGN, 0xFFFFFFFF)
UNWRITTEN = 0xDEADBEEF
TRUTH = {False: 0, True: ONE}

# the strings before the statements: what is read past their end is the opcode's byte, then a zero byte
BEFORE_STATEMENTS = (STRINGS, STATEMENTS, GLOBAL_DEFS, FIELD_DEFS, FUNCTIONS, CELLS)
STRINGS_LAST = (STATEMENTS, GLOBAL_DEFS, FIELD_DEFS, FUNCTIONS, CELLS, STRINGS)

# "red" twice; two that begin with it; "der" inside one of them; other letters; bytes over 127 and the same ones
# without their highest bit; "a" before different bytes; the opcodes' bytes after "red"; "red" once more at the end
TEXTS = [
    b"", b"red", b"red", b"redder", b"redden", b"der", b"blue", b"RED", b"r", b"ed", b"",
    b"\xe9t\xe9", b"\xe9t\xe9", b"\x69\x74\x69", b"\xe9t\xe8", b"\xff", b"\x7f", b"\x80", b"\xff\xff",
    b"a", b"b", b"a", b"c", b"\x01", b"red\x0c", b"red\x11", b"d", b"red",
]
TEAMS = b"\0".join(TEXTS)  # the last has no zero byte after it


def number_of(index):
    """The string number of one of TEXTS."""
    return sum(len(text) + 1 for text in TEXTS[:index])


def compared(v, x, y, same, pokes=()):
    """EqS and NeS of two string numbers, the second one's result into an operand's cell."""
    v.add("EqS", 28, 29, 30, {28: x, 29: y, 30: UNWRITTEN}, pokes=pokes)
    assert v.after[30] == TRUTH[same], (x, y)
    v.add("NeS", 28, 29, 29, {28: x, 29: y}, pokes=pokes)
    assert v.after[29] == TRUTH[not same], (x, y)


def negated(v, number, empty, operand=28, pokes=()):
    v.add("NotS", operand, 0, 30, {operand: number, 30: UNWRITTEN}, pokes=pokes)
    assert v.after[30] == TRUTH[empty], number


def text_vectors(v):
    v.note("R-4: the same text at two places, texts that share a beginning, one inside another")
    red, again, redder, redden, der, blue, upper, r, ed = map(number_of, range(1, 10))
    for x, y in ((red, again), (red, red), (redder + 3, der), (red + 1, ed), (again + 1, red + 1), (redder + 4, der + 1)):
        compared(v, x, y, True)
        compared(v, y, x, True)
    for x, y in ((red, redder), (redder, redden), (red, blue), (red, upper), (r, red), (red, red + 1), (redder, der), (red, der), (red, 0)):
        compared(v, x, y, False)
        compared(v, y, x, False)
    v.note("R-4: empty texts at several places: number 0, a zero byte of its own, the zero byte that ends another")
    for x, y in ((0, number_of(10)), (red + 3, 0), (red + 3, again + 3)):
        compared(v, x, y, True)
    v.note("R-4: bytes over 127, all eight bits of each count")
    accent, accent_again, plain, other, ff, seven_f, eighty, two_ff = map(number_of, range(11, 19))
    compared(v, accent, accent_again, True)
    compared(v, two_ff + 1, ff, True)
    for x, y in ((accent, plain), (accent, other), (ff, seven_f), (ff, eighty), (seven_f, eighty), (ff, two_ff), (eighty, 0)):
        compared(v, x, y, False)
    v.note("R-4: what stands after the zero byte doesn't count")
    compared(v, number_of(19), number_of(21), True)
    compared(v, number_of(20), number_of(22), False)


def end_vectors(v):
    """The last text has no zero byte after it; past it in the file is the opcode's byte, then a zero byte."""
    count, last = len(TEAMS), number_of(27)
    v.note("R-4: the end of the strings ends a text as a zero byte does; the bytes after it aren't read")
    for x, y, same in (
        (last, number_of(1), True),
        (last, number_of(2), True),
        (last + 1, number_of(9), True),
        (count - 1, number_of(26), True),
        (last, number_of(3), False),
        (last, number_of(24), False),
        (last, number_of(25), False),
        (last, number_of(8), False),
        (count - 1, 0, False),
        (count - 1, last, False),
    ):
        compared(v, x, y, same)
        compared(v, y, x, same)
    v.note("R-4: 33 for a number not below the count, though the file has bytes there, and for a negative one")
    length, offset = len(v.base.bytes()), v.base.lumps[2 * STRINGS]
    bad = (count, count + 1, length - offset - 1, length - offset, length - 1, length, LARGEST_FILE, GREATEST_NUMBER, *NEGATIVE)
    for number in bad:
        for name in ("EqS", "NeS"):
            v.add(name, 28, 29, 30, {28: number, 29: 1}, refused=33)
            v.add(name, 28, 29, 30, {28: 1, 29: number}, refused=33)
        v.add("EqS", 28, 29, 30, {28: number, 29: number}, refused=33)
        v.add("NotS", 28, 0, 30, {28: number}, refused=33)
        v.add("NotS", 0, 0, 30, {0: number}, refused=33)
    v.note("R-4: equal operands are answered unread, whatever number their cell holds")
    for number in (0, count - 1, *bad):
        v.add("EqS", 28, 28, 28, {28: number})
        assert v.after[28] == ONE
        v.add("NeS", 28, 28, 30, {28: number, 30: UNWRITTEN})
        assert v.after[30] == 0
    v.note("R-4: StoreS moves any number that isn't negative, as before")
    for number in (count - 1, count, GREATEST_NUMBER):
        v.add("StoreS", 28, 29, 0, {28: number})
        assert v.after[29] == number
    v.add("StoreS", 28, 29, 0, {28: SIGN}, refused=17)


def not_vectors(v):
    v.note("R-4: NotS gives 1.0 for number 0, for an empty text and for operand 0, else 0.0")
    end_of_red, count = number_of(1) + 3, len(TEAMS)
    for number, empty in ((0, True), (1, False), (end_of_red, True), (end_of_red - 1, False), (number_of(10), True),
                          (number_of(16), False), (number_of(17), False), (count - 1, False)):
        negated(v, number, empty)
        negated(v, number, True, operand=0)
    v.note("R-4: NotS of number 0 gives 1.0 also where its text isn't empty; EqS compares it")
    first = v.base.place(STRINGS)
    filled = [(first, ord("r")), (first + 1, ord("e")), (first + 2, ord("d")), (first + 3, 0)]
    negated(v, 0, True, pokes=filled)
    negated(v, 1, False, pokes=filled)
    negated(v, 3, True, pokes=filled)
    compared(v, 0, number_of(2), True, pokes=filled)
    compared(v, 0, 3, False, pokes=filled)
    v.note("R-4: the texts are those of the file's bytes as they now are")
    for place, byte, same in ((2, ord("x"), False), (3, 0, False), (4, ord("x"), False), (0, ord("x"), True)):
        compared(v, number_of(1), number_of(2), same, pokes=[(first + place, byte)])
    at_end = [(first + count - 1, 0)]
    negated(v, count - 1, True, pokes=at_end)
    compared(v, count - 1, 0, True, pokes=at_end)


# cells of the file for the orders: strings at 28, 29 and 0, floats at 30 and 31
ORDER_DEFINITIONS = [(STRING, 0), (STRING, 28), (STRING, 29), (FLOAT, 30), (FLOAT, 31), (FLOAT, 64), (STRING, 65), (STRING, 66), (FLOAT, 67)]
# an operand's own refusal, by what is done to it: a cell of another type, one that isn't there, a number that isn't
OPERAND = {None: 28, 16: 31, 15: 65, 33: 28}
SECOND = {None: 29, 16: 30, 15: 66, 33: 29}
DESTINATION = {None: 30, 16: 29, 15: 67}


def order_vectors(v):
    """On the file with ORDER_DEFINITIONS: each refusal alone, then with each that comes later."""
    bad, good = len(TEAMS), 1
    for name in ("EqS", "NeS"):
        v.note(f"R-4: {name}: the first operand 16, 15, 33, then the second, then the destination")
        for first, a in OPERAND.items():
            for second, b in SECOND.items():
                for third, c in DESTINATION.items():
                    expected = first or second or third
                    cells = {28: bad if first == 33 else good, 29: bad if second == 33 else good}
                    v.add(name, a, b, c, cells, refused=expected)
        v.note(f"R-4: {name}: a negative operand before all of them, in both places; type before address, address before number")
        for a, b in ((-1, 29), (28, -1), (-1, -1), (31, -1), (65, -1), (-1, 30), (-1, 66)):
            v.add(name, a, b, 29, {28: bad, 29: bad}, refused=15)
        v.add(name, 64, 29, 30, {29: bad}, refused=16)
        v.add(name, 28, 64, 30, {28: good}, refused=16)
        v.add(name, 28, 64, 30, {28: bad}, refused=33)
        v.note(f"R-4: {name}: equal operands: only the destination can be refused")
        for operand in (0, 28, 30, 64, 65, 99):
            v.add(name, operand, operand, 31, {28: bad, 0: bad})
            v.add(name, operand, operand, 29, {28: bad}, refused=16)
            v.add(name, operand, operand, 67, {28: bad}, refused=15)
    not_orders(v, bad, good)


def not_orders(v, bad, good):
    v.note("R-4: NotS: 18, then a negative operand, then 16, 15, 33, then the destination")
    for third, c in DESTINATION.items():
        for first, a in OPERAND.items():
            cells = {28: bad if first == 33 else good}
            v.add("NotS", a, 0, c, cells, refused=first or third)
            v.add("NotS", a, 1, c, cells, refused=18)
        v.add("NotS", -1, 0, c, refused=15)
        v.add("NotS", -1, 1, c, refused=18)
        v.add("NotS", 0, 0, c, {0: bad}, refused=33)
        v.add("NotS", 0, 0, c, {0: good}, refused=third)
    v.note("R-4: NotS: operand 0 of another type, and one past the last cell, before its number")
    at = v.base.place(GLOBAL_DEFS, 0)
    v.add("NotS", 0, 0, 30, {0: bad}, pokes=[(at, FLOAT)], refused=16)
    v.add("NotS", 64, 0, 30, refused=16)
    v.add("NotS", 65, 0, 30, refused=15)


def empty_lump_vectors(v):
    """Without strings there are no functions and no definitions, whose names they would hold."""
    v.note("R-4: with no strings every number is refused 33, 0 too; equal operands are still answered")
    for number in (0, 1, 63, GREATEST_NUMBER, *NEGATIVE):
        for name in ("EqS", "NeS"):
            v.add(name, 28, 29, 30, {28: number, 29: number}, refused=33)
            v.add(name, 28, 28, 30, {28: number})
        v.add("NotS", 28, 0, 30, {28: number}, refused=33)
        v.add("NotS", 0, 0, 30, {0: number}, refused=33)
    v.add("NotS", 64, 0, 30, refused=15)
    v.add("EqS", 28, 64, 30, refused=33)
    v.add("EqS", 64, 28, 30, refused=15)
    v.add("StoreS", 28, 29, 0, {28: 7})


def whole_file_vectors(v):
    """The strings are the file itself: 6, 0, 0, 0 of the version, then 39, 23, 0, 0 of the check number."""
    length = len(v.base.bytes())
    v.note("R-4: strings that are the whole file: its bytes are the texts, those of the statement too")
    negated(v, 0, True)
    negated(v, 1, True)
    negated(v, 4, False)
    compared(v, 0, 1, False)
    compared(v, 1, 2, True)
    at = v.base.place(STATEMENTS)
    v.add("EqS", 28, 29, 30, {28: at, 29: at + 8}, pokes=[(at + 8, 12)])  # the byte of EqS, and another 12
    assert v.after[30] == ONE
    v.add("NeS", 28, 29, 30, {28: at, 29: at + 8}, pokes=[(at + 8, 12)])
    assert v.after[30] == ONE
    negated(v, at, False)
    negated(v, length - 1, False, pokes=[(length - 1, 7)])
    compared(v, length - 1, 0, True, pokes=[(length - 1, 6)])
    for number in (length, length + 1):
        v.add("NotS", 28, 0, 30, {28: number}, refused=33)
        v.add("EqS", 28, 29, 30, {28: 0, 29: number}, refused=33)


def last_lump_vectors(v):
    """Strings at the file's end, of zeros but for the bytes that are set."""
    count, first = v.base.lumps[2 * STRINGS + 1], v.base.place(STRINGS)
    v.note("R-4: numbers over 65,535, and the last byte of the file")

    def bytes_at(*pairs):
        return [(first + number, ord(letter)) for number, letter in pairs]

    negated(v, 65536, False, pokes=bytes_at((65536, "x")))
    negated(v, 65536, True)
    negated(v, 40000, False, pokes=bytes_at((40000, "x")))
    compared(v, 65539, 3, False, pokes=bytes_at((65539, "x")))
    compared(v, 65539, 3, True, pokes=bytes_at((65539, "x"), (3, "x")))
    compared(v, count - 1, 3, True, pokes=bytes_at((count - 1, "x"), (3, "x")))
    compared(v, count - 2, 3, True, pokes=bytes_at((count - 2, "x"), (count - 1, "y"), (3, "x"), (4, "y")))
    compared(v, count - 1, 3, False, pokes=bytes_at((count - 1, "x"), (3, "x"), (4, "x")))
    compared(v, count - 1, 0, True)
    for number in (count, 65536 + count, 2**16 * 2**15):
        v.add("EqS", 28, 29, 30, {28: 0, 29: number}, refused=33)
        v.add("NotS", 28, 0, 30, {28: number}, refused=33)


LONG = bytes(1 + i % 251 for i in range(1500))


def long_vectors(v):
    """One text of 1,500 bytes twice, the second without a zero byte at its end."""
    v.note("R-4: long texts that differ in one byte, at their ends too; one that ends earlier")
    second = len(LONG) + 1
    compared(v, 0, second, True)
    compared(v, 700, second + 700, True)
    compared(v, 0, 251, False)
    compared(v, 0, second + 1, False)
    at = v.base.place(STRINGS)
    for place in (0, 1, 2, 3, 4, 7, 8, 127, 128, 254, 255, 256, 257, 1023, 1024, 1498, 1499):
        compared(v, 0, second, False, pokes=[(at + place, 255)])
        compared(v, 0, second, False, pokes=[(at + second + place, 0)])
    compared(v, 0, second, True, pokes=[(at + 256, 255), (at + second + 256, 255), (at + 300, 0), (at + second + 300, 0)])


def chance_vectors(v):
    v.note("R-4: numbers drawn by chance on strings of few different bytes, unterminated")
    chance = Xorshift(0x7EA3)
    count = v.base.lumps[2 * STRINGS + 1]
    for index in range(120):
        x, y = chance.below(count + 1), chance.below(count + 1)
        v.add(("EqS", "NeS")[index % 2], 28, 29, 30, {28: x, 29: y, 30: UNWRITTEN})
        if index % 3 == 0:
            v.add("NotS", 28, 0, 30, {28: x, 30: UNWRITTEN})


def string_vectors(v):
    v.file("R-4: strings before the statements, the last text unterminated", strings=TEAMS, layout=BEFORE_STATEMENTS)
    text_vectors(v)
    end_vectors(v)
    not_vectors(v)
    v.file("R-4: the same strings at the file's end, with definitions", strings=TEAMS, definitions=ORDER_DEFINITIONS, layout=STRINGS_LAST)
    order_vectors(v)
    v.file("R-4: no strings, in the middle of the file", strings=b"", functions=())
    empty_lump_vectors(v)
    v.file("R-4: no strings, past the end of the file", lambda _: (GREATEST_NUMBER, 0), strings=b"", functions=())
    empty_lump_vectors(v)
    v.file("R-4: the strings are the file", lambda length: (0, length))
    whole_file_vectors(v)
    v.file("R-4: 70,000 bytes of strings, the last of the file", strings=bytes(70_000), layout=STRINGS_LAST)
    last_lump_vectors(v)
    v.file("R-4: two texts of 1,500 bytes", strings=LONG + b"\0" + LONG, layout=STRINGS_LAST)
    long_vectors(v)
    few = Xorshift(0x1E77E5)
    v.file("R-4: strings of few bytes", strings=bytes(few.pick(b"\0ab\xe1") for _ in range(24)), layout=BEFORE_STATEMENTS)
    chance_vectors(v)


# -- files.txt ---------------------------------------------------------------------------------


def comparing(x, y, strings=TEAMS, **parts):
    """EqS and NeS of two numbers, NotS of the first: the three results are returned."""
    statements = [("EqS", 28, 29, 30), ("NeS", 28, 29, 31), ("NotS", 28, 0, 32), ("Return", 30)]
    return program(*statements, cells={28: x, 29: y, 32: UNWRITTEN}, strings=strings, **parts)


def counted_teams():
    """How many of the six names from cell 34 on are the one in cell 28."""
    statements = []
    for cell in range(34, 40):
        statements += [("EqS", cell, 28, 30), ("AddF", 31, 30, 31)]
    names = (number_of(1), number_of(3), number_of(2), number_of(27), number_of(7), 0)
    cells = {28: number_of(1), **{34 + i: name for i, name in enumerate(names)}}
    return program(*statements, ("Return", 31), cells=cells, strings=TEAMS, definitions=[(STRING, 28), (STRING, 34)])


SAME, DIFFERENT = "ended,0,4,0,0,0,0,3f800000,00000000", "ended,0,4,0,0,0,0,00000000,3f800000"


def string_files(f):
    f.note("R-4: EqS and NeS compare texts, NotS asks for an empty one; the three results are returned")
    count = len(TEAMS)
    for name, x, y, begins in (
        ("two-places", number_of(1), number_of(2), SAME + ",00000000"),
        ("one-inside-another", number_of(3) + 3, number_of(5), SAME + ",00000000"),
        ("beginning", number_of(1), number_of(3), DIFFERENT + ",00000000"),
        ("other-last-letter", number_of(3), number_of(4), DIFFERENT + ",00000000"),
        ("bytes-over-127", number_of(11), number_of(12), SAME + ",00000000"),
        ("byte-255-and-127", number_of(15), number_of(16), DIFFERENT + ",00000000"),
        ("empty", number_of(10), 0, SAME + ",3f800000"),
        ("number-0", 0, number_of(1), DIFFERENT + ",3f800000"),
        ("unterminated", number_of(27), number_of(1), SAME + ",00000000"),
        ("last-byte", count - 1, number_of(26), SAME + ",00000000"),
        ("33-first", count, 0, "refused,33,0,1,1,1,0,"),
        ("33-second", 0, count, "refused,33,0,1,1,1,0,"),
        ("33-negative", 0xFFFFFFFF, 0xFFFFFFFF, "refused,33,0,1,1,1,0,"),
    ):
        f.add(f"texts-{name}", comparing(x, y), begins)
        f.add(f"texts-{name}-before-statements", comparing(x, y, layout=BEFORE_STATEMENTS), begins)
    f.note("R-4: the strings' end comes before the zero byte that follows in the file")
    for name, layout in (("in-the-middle", BEFORE_STATEMENTS), ("last", STRINGS_LAST)):
        f.add(f"texts-unterminated-{name}", comparing(3, 0, b"red\0red", layout=layout), DIFFERENT + ",3f800000")
        f.add(f"texts-number-0-not-empty-{name}", comparing(0, 4, b"red\0red", layout=layout), SAME + ",3f800000")
        f.add(f"texts-one-byte-{name}", comparing(0, 0, b"x", layout=layout), SAME + ",3f800000")
    f.add("texts-of-the-file", strings_are_the_file(0, 4), DIFFERENT + ",3f800000")
    f.note("R-4: equal operands aren't read; NotS of operand 0 is, and a refused statement isn't counted")
    bad = dict(cells={0: count, 28: count}, strings=TEAMS)
    unread = program(("EqS", 28, 28, 30), ("NeS", 28, 28, 31), ("EqS", 99, 99, 32), ("Return", 30), **bad)
    f.add("texts-unread", unread, "ended,0,4,0,0,0,0,3f800000,00000000,3f800000")
    f.add("texts-33-not", program(("EqS", 0, 0, 1), ("NotS", 28, 0, 30), **bad), "refused,33,1,2,1,1,0,3f800000,")
    f.add("texts-33-operand-0", program(("EqS", 0, 0, 1), ("NotS", 0, 0, 30), **bad), "refused,33,1,2,1,1,0,3f800000,")
    operand_0 = program(("NotS", 0, 0, 30), ("Return", 30), cells={0: 1}, strings=TEAMS)
    f.add("texts-operand-0", operand_0, "ended,0,2,0,0,0,0,3f800000,")
    f.add("texts-counted-teams", counted_teams(), f"ended,0,13,0,0,0,0,{flt(3.0):08x},")
    long = bytes(1 + i % 255 for i in range(4000))
    strings = long + b"\0" + long[:-1] + b"!\0" + long
    f.add("texts-long-same", comparing(0, 8002, strings, layout=STRINGS_LAST), SAME)
    f.add("texts-long-last-byte", comparing(0, 4001, strings, layout=STRINGS_LAST), DIFFERENT)


def strings_are_the_file(x, y):
    assembly = comparing(x, y)
    assembly.lumps[2 * STRINGS : 2 * STRINGS + 2] = 0, len(assembly.bytes())
    return assembly


# -- calls.txt ---------------------------------------------------------------------------------

# function 1 compares what it was given with cell 36 and gives 1.0 or 0.0; the others are single statements
CALLED = [
    ("Goto",),  # 0: its first byte isn't 0
    ("EqS", 40, 36, 41),  # function 1
    ("Return", 41),
    ("EqS", 28, 29, 30),  # 3: function 2
    ("NeS", 28, 29, 31),
    ("NotS", 28, 0, 32),
    ("Return", 30),
    ("NotS", 0, 0, 30),  # 7
]


def called(strings, **parts):
    functions = [function(), function(1, 40, 2, (1,)), function(3)]
    cells = {36: number_of(1)}
    return Assembly(CALLED, functions, strings=strings, cells=cells, definitions=[(STRING, 36), (STRING, 40)], **parts)


def given(c, x, y, *results):
    """Function 2 on two numbers, by a run; the results of EqS, NeS and NotS."""
    c.ok(f"put 28 {x}", f"put 29 {y}", "enter 2")
    assert c.do("run 0 9") == Answer("ended", 0, 4)
    assert c.machine.cells[1:4] == list(results), (x, y)


def string_calls(c):
    count = len(TEAMS)
    teams = called(TEAMS, layout=BEFORE_STATEMENTS)
    c.new("R-4: a name given to a function, at several places", teams)
    c.ok("load 0")
    for number, result in ((number_of(1), ONE), (number_of(2), ONE), (number_of(27), ONE), (number_of(3), 0), (0, 0)):
        c.ok(f"put 4 {number}", "enter 1")
        assert c.do("run 0 9") == Answer("ended", 0, 2)
        assert c.machine.cells[1] == result
    c.new("R-4: 33 leaves everything, isn't counted and isn't carried on over; with another number the run goes on", teams)
    c.ok("load 0", f"put 28 {number_of(1)}", f"put 29 {count}", "put 30 7", "enter 2")
    assert c.do("run 0 9", 33).count == 0
    c.no(33, "statement")
    c.no(27, "carry")
    c.ok(f"put 29 {count - 1}", "statement", f"put 29 {SIGN}")
    assert c.do("run 0 9", 33).count == 0
    c.ok("put 29 0", "statement", f"put 28 {count}")
    c.no(33, "statement")
    c.ok("put 28 0")
    assert c.do("run 0 9") == Answer("ended", 0, 2)
    assert c.machine.cells[30:33] == [0, ONE, ONE]
    c.ok(f"put 0 {count}", f"field {POSITION} 7")
    c.no(33, "statement")
    c.ok(f"put 0 {count - 1}", "statement", "get 30")
    string_bytes(c, teams)
    no_strings(c)
    great_numbers(c)


def string_bytes(c, teams):
    """The file's bytes change after the load."""
    c.new("R-4: the texts are those of the bytes as they now are", teams)
    first, red, again = teams.place(STRINGS), number_of(1), number_of(2)
    c.ok("load 0")
    given(c, red, again, ONE, 0, 0)
    c.ok(f"byte {first + red + 2} 120")
    given(c, red, again, 0, ONE, 0)
    c.ok(f"byte {first + red + 2} 0", f"byte {first + again + 2} 0")
    given(c, red, again, ONE, 0, 0)
    c.ok(f"byte {first + red} 0")
    given(c, red, again, 0, ONE, ONE)
    c.new("R-4: a count that changed in the header and in the state: the strings end there", teams)
    count, at = len(TEAMS), 44  # where the header has the strings' count
    c.ok("load 0", f"byte {at} {number_of(3) + 3}")
    c.no(13, "enter 2", "statement")
    c.ok(f"field {STATE_LUMPS + 9} {number_of(3) + 3}")
    given(c, number_of(3), number_of(1), ONE, 0, 0)  # of "redder" three letters are left
    c.ok(f"put 28 {number_of(3) + 3}", "enter 2")
    c.no(33, "statement")
    c.ok("abandon 0", f"byte {at} {count}", f"field {STATE_LUMPS + 9} {count}")
    given(c, number_of(27), number_of(1), ONE, 0, 0)
    c.ok(f"byte {at} {count + 1}", f"field {STATE_LUMPS + 9} {count + 1}")  # the byte of Goto, 61, is the last one now
    given(c, number_of(27), number_of(1), 0, ONE, 0)
    given(c, count, 0, 0, ONE, 0)


def no_strings(c):
    statements = [("EqS", 28, 29, 30), ("NotS", 0, 0, 30), ("NeS", 64, 64, 30)]
    c.new("R-4: no strings, nor functions: 33 for every number, at depth 0", Assembly(statements, strings=b""))
    c.ok("load 0")
    c.no(33, "statement")
    c.ok("put 28 1")
    c.no(33, "statement")
    c.ok(f"field {POSITION} 1")
    c.no(33, "statement")
    c.ok(f"field {POSITION} 2", "statement")
    c.no(14, "statement")


def great_numbers(c):
    """Strings at the end of the longest file."""
    room = LARGEST_FILE - len(called(b"", layout=STRINGS_LAST).bytes())
    longest = called(bytes(room), layout=STRINGS_LAST)
    first = longest.place(STRINGS)
    c.new("R-4: the longest file, its strings up to the last byte", longest)
    c.ok("load 0", f"byte {first + room - 1} 120", f"byte {first + 500_000} 120", f"byte {first + 65_536} 121")
    given(c, room - 1, 500_000, ONE, 0, 0)
    given(c, 65_536, 0, 0, ONE, 0)
    given(c, room - 2, 1, ONE, 0, ONE)
    c.ok(f"put 28 {room}", "enter 2")
    c.no(33, "statement")
    c.ok("abandon 0", f"byte {first + room - 2} 120")
    given(c, room - 2, room - 1, 0, ONE, 0)


# -- traces.txt --------------------------------------------------------------------------------


def named():
    """A team's name is looked for in three cells; then one whose number isn't there is asked for."""
    statements = [
        ("EqS", 28, 34, 30),  # 1
        ("EqS", 28, 35, 31),
        ("NeS", 28, 36, 32),
        ("NotS", 28, 0, 33),
        ("If", 31, 2),
        ("Done",),
        ("NotS", 0, 0, 33),  # 7, the end of function 1
        ("Return", 30),
        ("NotS", 37, 0, 33),  # 9: function 2
        ("EqS", 37, 28, 33),  # 10: function 3
        ("EqS", 28, 37, 33),  # 11: function 4
        ("EqS", 37, 37, 33),  # 12: function 5
        ("Return", 33),
    ]
    functions = [function(first) for first in (1, 9, 10, 11, 12)]
    cells = {28: number_of(1), 34: number_of(3), 35: number_of(27), 36: number_of(7), 37: len(TEAMS)}
    return program(*statements, functions=functions, cells=cells, strings=TEAMS, definitions=[(STRING, 28), (STRING, 37)])


def string_traces(t):
    t.note("R-4: names compared by their letters; 33")
    t.new(named())
    for number in range(1, 6):
        t.enter(number)
        t.through()
    t.byte(t.machine.state.lumps[8] + number_of(27) + 2, 0)  # "red" at the end is "re" now
    t.enter(1)
    t.through()

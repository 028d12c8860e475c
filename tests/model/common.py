"""What the case makers share: chance numbers, patterns, programs."""

import struct

from model import (
    CHECK_NUMBER, DEEPEST, FLOAT, HOST_OPCODES, INFINITY, INSIDE_BUILTINS, LOADED_FIELDS, MOST_SAVED, MOST_STATEMENTS, ONE,
    QUIET_NAN, SAVE_FLAG, SIGN, STORED_FIELDS, VECTOR, VOID, Assembly, Settings, function,
)

# `field N V` of calls.txt sets one number of the state
STATE_LENGTH, STATE_LUMPS, STATE_PER_ENTITY = 0, 1, 13
POSITION, CURRENT, DEPTH, SAVED, FRAMES, ENTITIES = 14, 15, 16, 17, 18, 80
CHECK_NUMBER_HELD, GREATEST_DEPTH, GREATEST_SAVED, GREATEST_LIMIT = range(81, 85)  # R-11's settings

STANDARD = Settings(CHECK_NUMBER, DEEPEST, MOST_SAVED, MOST_STATEMENTS)  # 01's

# calls that each operation takes or refuses otherwise, all refused 13 where the state isn't coherent
ANY_CALL = (
    *("enter 1", "enter -1", "statement", "run 0 10", "run 0 0", "run -1 1", "carry"),
    *("abandon 0", "abandon -1", "get 1", "get -1", "put 1 7", "put 64 7"),
)


def record_settings(calls, settings=STANDARD):
    """Makes the state of a list of calls hold the settings, without a load."""
    for index, value in enumerate(settings):
        calls.ok(f"field {CHECK_NUMBER_HELD + index} {value}")


class Xorshift:
    """Marsaglia's 32-bit xorshift with shifts 13, 17, 5."""

    def __init__(self, seed):
        self.state = seed

    def draw(self):
        s = self.state
        s ^= (s << 13) & 0xFFFFFFFF
        s ^= s >> 17
        s ^= (s << 5) & 0xFFFFFFFF
        self.state = s
        return s

    def below(self, count):
        return self.draw() % count

    def pick(self, items):
        return items[self.below(len(items))]


def flt(value):
    """The pattern of a float that is exact in 32 bits."""
    pattern = struct.unpack("<I", struct.pack("<f", value))[0]
    assert struct.unpack("<f", struct.pack("<I", pattern))[0] == value
    return pattern


def hex_of(file):
    """Length, and the bytes in hexadecimal without the zeros at the end; `-` for none."""
    return f"{len(file)} {bytes(file).rstrip(bytes(1)).hex() or '-'}"


MINUS_ZERO = SIGN
MINUS_INFINITY = SIGN | INFINITY
SIGNALLING_NAN = 0x7F800001
NEGATIVE_NAN = 0xFFC12345
LEAST = 0x00000001  # the least subnormal
GREATEST_SUBNORMAL = 0x007FFFFF
LEAST_NORMAL = 0x00800000
GREATEST = 0x7F7FFFFF
HALF, TWO, THREE = flt(0.5), flt(2.0), flt(3.0)
MINUS_ONE = flt(-1.0)

# R-1's arguments: zeros, subnormals, about the halves and whole numbers, about 2**22, 2**23, 2**24 and 2**31, the ends, NaNs
ROUNDED_SIZES = [
    *(0, LEAST, GREATEST_SUBNORMAL, LEAST_NORMAL, flt(0.25)),
    *(0x3EFFFFFF, HALF, 0x3F000001, flt(0.75), 0x3F7FFFFF, ONE, 0x3F800001),
    *(0x3FBFFFFF, flt(1.5), 0x3FC00001, 0x3FFFFFFF, TWO, flt(2.5), flt(3.5)),
    *(0x4A7FFFFF, flt(4194304.5), 0x4AFFFFFD, 0x4AFFFFFE, 0x4AFFFFFF),  # up to 8388607.5
    *(flt(8388608.0), flt(8388609.0), 0x4B7FFFFF, flt(16777218.0), flt(2147483648.0)),
    *(GREATEST, INFINITY, SIGNALLING_NAN, QUIET_NAN, 0x7FFFFFFF),
]


def flat(pairs):
    return [number for pair in pairs for number in pair]


def numbers(items):
    return " ".join(map(str, items))


def triple(first, values):
    return {first + i: value for i, value in enumerate(values)}


FLOAT_ARITHMETIC = ["AddF", "SubF", "MulF", "Div"]
FLOAT_COMPARISONS = ["EqF", "NeF", "Le", "Ge", "Lt", "Gt", "And", "Or"]

def program(*statements, functions=(function(1),), **parts):
    """Statement 0 is Done, function 0 all zeros; the given ones begin at number 1."""
    return Assembly(
        statements=[("Done",), *statements], functions=[function(), *functions], **parts
    )


# floats at 28 to 39, function numbers at 40 to 43, string numbers at 44 to 47, locals from 48
CHANCE_FLOATS = [0, MINUS_ZERO, ONE, MINUS_ONE, TWO, HALF, flt(100.25), flt(16777216.0), QUIET_NAN]
CHANCE_FLOATS += [INFINITY, 0x3DCCCCCD, LEAST]


def random_program(chance, hosts=False, entities=False):
    """`hosts` adds statements and calls that are handed over, `entities` R-3's statements."""
    cells = {cell: chance.pick(CHANCE_FLOATS) for cell in range(28, 40)}
    functions = []
    count = 30 + chance.below(20)
    for _ in range(5):
        sizes = tuple(chance.below(4) for _ in range(chance.below(4)))
        first = 1 + chance.below(count)
        functions.append(function(first, 48 + chance.below(8), chance.below(8), sizes))
    functions.append(function(-(1 + chance.below(4)), arguments=-1))
    functions.append(function(-chance.pick(sorted(INSIDE_BUILTINS)), arguments=-1))
    for cell in range(40, 44):
        cells[cell] = 2 + chance.below(4)
    if hosts:
        cells[43] = 6
    if chance.below(2):
        cells[42] = 7
    # few different bytes, so that texts are often the same; seldom a number past the last
    strings = bytes(chance.pick(b"\0\0ab\xe1") for _ in range(1 + chance.below(8)))
    for cell in range(44, 48):
        cells[cell] = chance.below(len(strings) + (chance.below(8) == 0))
    definitions = [
        (chance.pick([FLOAT, VECTOR, FLOAT | SAVE_FLAG]), 28 + chance.below(12)) for _ in range(4)
    ]
    if chance.below(4) == 0:
        definitions.append((chance.below(8), 28 + chance.below(28)))
    if chance.below(2):  # before all others, on a cell that one of them names
        definitions.insert(0, (chance.pick([VOID, VOID | SAVE_FLAG]), chance.pick(definitions)[1]))
    fields = []
    if entities:
        cells |= {cell: chance.below(4) for cell in range(56, 60)}
        cells |= {cell: chance.pick(CHANCE_FIELDS) for cell in (60, 61)}
        cells |= {cell: 4 * chance.below(3 * 105 + 4) for cell in (62, 63)}
        fields = [(chance.below(8), chance.pick(CHANCE_FIELDS)) for _ in range(chance.below(6))]
    statements = [random_statement(chance, hosts, entities) for _ in range(count)]
    statements += [("Return", 28 + chance.below(30))]
    parts = dict(cells=cells, definitions=definitions, fields=fields, strings=strings)
    return program(*statements, functions=functions, **parts)


# entity numbers at 56 to 59, field numbers at 60 and 61, pointers at 62 and 63
CHANCE_FIELDS = [0, 1, 2, 3, 7, 50, 101, 102, 103, 104, 104, 105]


def random_entity_statement(chance, place):
    kind = chance.below(5)
    if kind == 0:
        return ("Address", 56 + chance.below(4), 60 + chance.below(2), 62 + chance.below(2))
    if kind < 3:
        name = chance.pick(["LoadF", "LoadF", "LoadV", *LOADED_FIELDS])
        return (name, 56 + chance.below(4), 60 + chance.below(2), place())
    name = chance.pick(["StorePF", "StorePF", "StorePV", *STORED_FIELDS])
    return (name, place(), 62 + chance.below(2), 0 if chance.below(20) else 1)


def random_statement(chance, hosts, entities=False):
    def place():
        return chance.pick((28, 48)) + chance.below(12) if chance.below(60) else chance.below(70) - 3

    def written():
        return chance.pick((28, 48, 48)) + chance.below(12) if chance.below(60) else chance.below(70) - 3

    if entities and chance.below(3) == 0:
        return random_entity_statement(chance, place)
    kind = chance.below(100)
    if kind < 35:
        name = chance.pick(FLOAT_ARITHMETIC + FLOAT_COMPARISONS + ["BitAnd", "BitOr"])
        return (name, place(), place(), written())
    if kind < 50:
        name = chance.pick(["AddV", "SubV", "MulV", "MulFV", "MulVF", "EqV", "NeV"])
        return (name, place(), place(), written())
    if kind < 62:
        return (chance.pick(["StoreF", "StoreV"]), place(), chance.pick([written(), 4 + chance.below(20)]))
    if kind < 66:
        name = chance.pick(["EqS", "NeS", "EqEnt", "NeEnt", "EqFnc", "NeFnc"])
        return (name, 44 + chance.below(4), 44 + chance.below(4), written())
    if kind < 70:
        return (chance.pick(["NotF", "NotV"]), place(), 0, written())
    if kind < 73:
        return (chance.pick(["NotS", "NotEnt", "NotFnc"]), 44 + chance.below(4), 0, written())
    if kind < 76:
        name = chance.pick(["StoreS", "StoreEnt", "StoreFld", "StoreFnc"])
        return (name, 44 + chance.below(4), 44 + chance.below(4))
    if kind < 82:
        return (chance.pick(["If", "IfNot"]), place(), chance.below(7) - 2 or 1)
    if kind < 84:
        return ("Goto", 1 + chance.below(4))
    if kind < 90:
        return (f"Call{chance.below(9)}", 40 + chance.below(4))
    if kind < 94:
        return (chance.pick(["Return", "Done"]), place())
    if hosts and kind < 98:
        return (chance.pick(sorted(HOST_OPCODES)), place(), place(), place())
    return ("AddF", place(), place(), written())

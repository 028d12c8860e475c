"""Single statements on a file just loaded: cases/statements.txt."""

import struct
from collections import namedtuple

from common import (
    FLOAT_ARITHMETIC, FLOAT_COMPARISONS, GREATEST, GREATEST_SUBNORMAL, HALF, LEAST, LEAST_NORMAL,
    MINUS_INFINITY, MINUS_ONE, MINUS_ZERO, NEGATIVE_NAN, ROUNDED_SIZES, SIGNALLING_NAN, THREE, TWO,
    Xorshift, flat, flt, hex_of, numbers, triple,
)
from entity_cases import World, entity_vectors, last_cell_vectors
from model import (
    CELLS, ENTITY, FEWEST_CELLS, FIELD, FLOAT, FUNCTION, FUNCTIONS, GLOBAL_DEFS, HOST_OPCODES, INFINITY, ONE,
    OPCODES, OPCODE_NUMBER, POINTER, QUIET_NAN, SAVE_FLAG, SIGN, STATEMENTS, STRING, STRINGS, VECTOR,
    VOID, Answer, Assembly, Machine, function, pack_statement,
)
from string_cases import string_vectors
from void_cases import void_vectors

# The functions of every vector file.  All begin at statement 0, where the vector's statement is.
PLAIN, WITH_LOCALS, BUILTIN_1, BUILTIN_78, RETURN_CELLS = 1, 2, 3, 4, 13
RINT, FLOOR, CEIL, FABS = ROUNDINGS = range(17, 21)
VECTOR_FUNCTIONS = [
    function(),
    function(),  # 1: enters and leaves without touching a cell
    function(local=30, locals=4, sizes=(1, 3)),
    function(first=-1, arguments=-1),
    function(first=-78, arguments=-1),
    function(locals=-1),  # 5: refused 23
    function(local=34, locals=2, sizes=(1, 1, 1)),  # 6: arguments past the locals
    function(arguments=-1),  # 7: refused 24
    function(arguments=9),  # 8: refused 24
    function(sizes=(0, 0, 0, 0, 0, 0, 0, 255)),  # 9: refused 15, argument cells
    function(locals=2049),  # 10: refused 23
    function(first=70000, local=-7),  # 11: begins past the statements, empty local range below 0
    function(local=5, locals=4, sizes=(3, 3, 2)),  # 12: arguments copied over arguments
    function(local=1, locals=3),  # 13: its locals are the return cells
    function(local=35, locals=2),  # 14: two locals, no arguments
    function(local=-1, locals=1),  # 15: refused 15
    function(local=-1, sizes=(1,)),  # 16: refused 15, argument cells
    function(first=-36, arguments=-1),
    function(first=-37, arguments=-1),
    function(first=-38, arguments=-1),
    function(first=-43, local=-1, locals=-1, arguments=9),  # what an entry would refuse plays no part
]


def last_cell_functions(count):
    """Those functions, but that 6 has its last argument and 14 its last local cell past so many cells: refused 15."""
    functions = list(VECTOR_FUNCTIONS)
    functions[6] = functions[6]._replace(local=count - 2)
    functions[14] = functions[14]._replace(local=count - 1)
    return functions


NO_WORLD = World(0, 0, {})


def changes(before, after):
    return [(i, new) for i, (old, new) in enumerate(zip(before, after)) if old != new]


# a statement, and what it finds: the file, the cells that are set, the function entered, bytes changed after that, entities
Given = namedtuple("Given", "base statement cells enter pokes world")


def prepared(given, fewest_cells=FEWEST_CELLS):
    """A machine just before the statement."""
    file, world = given.base.bytes(), given.world
    cells = [0] * given.base.lumps[2 * CELLS + 1]
    machine = Machine(file, cells, [0] * 2048, [0] * world.lent, fewest_cells)
    assert machine.load(world.entities) == Answer("accepted")
    if given.enter >= 0:
        assert machine.enter(given.enter) == Answer("accepted")
        assert machine.state.position == 0
    for offset, byte in given.pokes:
        file[offset] = byte
    at = given.base.place(STATEMENTS)
    file[at : at + 8] = pack_statement(given.statement)
    for cell, value in given.cells.items():
        cells[cell] = value
    for index, value in world.given.items():
        machine.entity_cells[index] = value
    return machine


class Vectors:
    """Writes vectors: single statements on a file just loaded."""

    def __init__(self, fewest_cells=FEWEST_CELLS):
        self.fewest_cells = fewest_cells
        self.given = []
        self.lines = []
        self.seen = []  # (opcode, answer), for the tests of this maker
        self.base = None
        self.after = []  # the cells after the last vector, for those that were worked out by hand

    def note(self, text):
        self.lines.append(f"# {text}")

    def file(self, text, strings_at=None, **parts):
        """`strings_at` gives the strings another offset and count, by the file's length."""
        self.base = Assembly(statements=[("Done",)] * 4, **dict(functions=VECTOR_FUNCTIONS) | parts)
        if strings_at:
            self.base.lumps[2 * STRINGS : 2 * STRINGS + 2] = strings_at(len(self.base.bytes()))
        file = self.base.bytes()
        self.note(text)
        self.lines.append(
            f"file {self.base.place(STATEMENTS)} {self.base.lumps[2 * CELLS + 1]} {hex_of(file)}"
        )

    def add(self, opcode, a=0, b=0, c=0, cells=None, enter=-1, pokes=(), refused=None, world=NO_WORLD):
        number, cells = OPCODE_NUMBER.get(opcode, opcode), cells or {}
        self.given.append(Given(self.base, (number, a, b, c), cells, enter, pokes, world))
        machine = prepared(self.given[-1], self.fewest_cells)
        before, entities_before = list(machine.cells), list(machine.entity_cells)
        answer = machine.statement()
        assert refused is None or answer == Answer("refused", refused), (opcode, a, b, c, cells, world, answer)
        changed = changes(before, machine.cells)
        entity_changes = changes(entities_before, machine.entity_cells)
        state = machine.state
        given = [enter, number, a, b, c, len(pokes), *flat(pokes), len(cells), *flat(cells.items())]
        given += [world.entities, world.lent, len(world.given), *flat(world.given.items())]
        expected = [answer.detail, state.position, state.function, state.depth, state.saved]
        expected += [len(changed), *flat(changed), len(entity_changes), *flat(entity_changes)]
        self.lines.append(f"vector {numbers(given)} = {answer.word} {numbers(expected)}")
        self.seen.append((number, answer))
        self.after = machine.cells
        return answer


# pairs for all four operations, then those that matter to one or two
ARITHMETIC_PAIRS = [
    (flt(1.5), flt(2.25)),
    (ONE, MINUS_ONE),
    (0, MINUS_ZERO),
    (MINUS_ZERO, MINUS_ZERO),
    (ONE, MINUS_ZERO),
    (INFINITY, INFINITY),
    (INFINITY, MINUS_INFINITY),
    (INFINITY, 0),
    (0, INFINITY),
    (ONE, MINUS_INFINITY),
    (QUIET_NAN, ONE),
    (ONE, NEGATIVE_NAN),
    (SIGNALLING_NAN, 0),
    (GREATEST, GREATEST),
    (LEAST, LEAST),
    (ONE, THREE),
    (TWO, THREE),
    (0x3F800001, 0x3F800001),
    (0x3DCCCCCD, 0x3E4CCCCD),  # 0.1 and 0.2
]
SUM_PAIRS = [
    (GREATEST, 0x73000000),  # half a unit in the last place of the greatest: a tie that overflows
    (GREATEST, 0x72FFFFFF),  # just under it
    (MINUS_ZERO, 0),
    (MINUS_ONE, ONE),
    (MINUS_ONE, MINUS_ONE),
    (LEAST, SIGN | LEAST),
    (GREATEST_SUBNORMAL, LEAST),
    (LEAST_NORMAL, SIGN | LEAST),
    (flt(16777216.0), ONE),  # a tie to even, downward
    (flt(16777218.0), ONE),  # a tie to even, upward
    (flt(16777216.0), 0x3F800001),  # just over a tie
    (flt(16777216.0), flt(-0.5)),
    (0x4B7FFFFF, flt(0.5)),
]
PRODUCT_PAIRS = [
    (LEAST, HALF),  # ties between 0 and the least
    (LEAST, flt(0.75)),
    (SIGN | LEAST, flt(0.25)),
    (3, HALF),  # a tie to even, upward
    (5, HALF),  # a tie to even, downward
    (LEAST_NORMAL, HALF),
    (0x00FFFFFF, HALF),  # rounds up from subnormal into the normal range
    (GREATEST, 0x3F800001),
    (0x3FFFFFFF, 0x3FFFFFFF),
    (0x3F7FFFFF, 0x3F800001),
]
QUOTIENT_PAIRS = [
    (ONE, 0),  # a situation of 01
    (0, 0),  # a situation of 01
    (MINUS_INFINITY, TWO),
    (GREATEST, HALF),
    (LEAST, TWO),  # ties between 0 and the least
    (3, TWO),
    (LEAST_NORMAL, THREE),
    (0x00FFFFFF, TWO),
    (0x3F800001, 0x3F7FFFFF),
    (flt(-7.0), TWO),
]
OWN_PAIRS = dict(AddF=SUM_PAIRS, SubF=SUM_PAIRS, MulF=PRODUCT_PAIRS, Div=QUOTIENT_PAIRS)

COMPARED_PAIRS = [
    (ONE, TWO),
    (TWO, ONE),
    (ONE, ONE),
    (0, MINUS_ZERO),
    (flt(-2.0), MINUS_ONE),
    (SIGN | LEAST, MINUS_ZERO),
    (INFINITY, GREATEST),
    (QUIET_NAN, QUIET_NAN),
    (ONE, NEGATIVE_NAN),
    (SIGNALLING_NAN, 0),
]

BIT_PAIRS = [
    (flt(2147483648.0), ONE),  # a situation of 01: saturates to 7fffffff
    (flt(16777216.0), ONE),  # a situation of 01: 16777217 ties to even
    (flt(-1.5), 0),  # a situation of 01
    (flt(-2147483648.0), MINUS_ONE),
    (flt(-2147483904.0), MINUS_ONE),
    (INFINITY, MINUS_INFINITY),
    (MINUS_INFINITY, MINUS_ONE),
    (QUIET_NAN, MINUS_ONE),
    (MINUS_ZERO, MINUS_ZERO),
    (0x3F7FFFFF, 0xBF7FFFFF),  # just under 1 and over -1
    (LEAST, SIGN | GREATEST_SUBNORMAL),
    (flt(12.875), flt(10.875)),
    (flt(-12.875), flt(10.875)),
    (flt(2147483520.0), flt(127.0)),  # 2147483647 rounds up to 2147483648.0
    (flt(16777216.0), THREE),  # 16777219 ties to even, upward
    (flt(33554432.0), THREE),
    (flt(33554432.0), flt(6.0)),
]

# what each operand of a statement is: f float, v vector, s string, e entity, d field, c function
SHAPES = {name: "fff" for name in FLOAT_ARITHMETIC + FLOAT_COMPARISONS + ["BitAnd", "BitOr"]}
SHAPES.update(MulV="vvf", MulFV="fvv", MulVF="vfv", AddV="vvv", SubV="vvv", EqV="vvf", NeV="vvf")
SHAPES.update(EqS="ssf", NeS="ssf", EqEnt="eef", NeEnt="eef", EqFnc="ccf", NeFnc="ccf")
SHAPES.update(StoreF="ff-", StoreV="vv-", StoreS="ss-", StoreEnt="ee-", StoreFld="dd-", StoreFnc="cc-")
SHAPES.update(NotF="f-f", NotV="v-f", NotS="s-f", NotEnt="e-f", NotFnc="c-f")
SHAPES.update({"If": "f--", "IfNot": "f--"})
SHAPES.update({f"Call{n}": "c--" for n in range(9)})

# The file with definitions: where a cell of each kind is, and where wrongly typed ones are
TYPED_CELL = dict(f=30, v=31, s=29, e=34, d=35, c=36)
WRONG_CELL = dict(f=29, v=36, s=30, e=35, d=34, c=34)
TYPED_DEFINITIONS = [
    (FLOAT, 0),
    (STRING, 1),
    (ENTITY, 27),
    (VOID, 28),
    (STRING, 29),
    (FLOAT, 30),
    (VECTOR, 31),
    (ENTITY, 34),
    (FIELD, 35),
    (FUNCTION, 36),
    (POINTER, 37),
    (FLOAT | SAVE_FLAG, 38),
    (STRING | SAVE_FLAG, 39),
    (FLOAT, 40),  # of two definitions the first counts
    (STRING, 40),
    (STRING, 41),
    (FLOAT, 41),
    (VECTOR, 42),  # its second cell is a string
    (STRING, 43),
    (VECTOR, 45),  # its third cell is an entity
    (ENTITY, 47),
    (VOID, 48),  # void ones are passed over, so 48 is a float and 28 has no type
    (FLOAT, 48),
    (ENTITY | SAVE_FLAG, 49),
    (VECTOR | SAVE_FLAG, 50),  # 51 and 52 are floats of their own
    (FLOAT, 51),
    (FLOAT | SAVE_FLAG, 52),
    (STRING, 64),  # past the count
    (FLOAT, 65),
    (STRING, 40000),
    (STRING, 65535),  # no operand is this cell: -1 is no cell
]


def float_vectors(v):
    v.note("float arithmetic: results, rounding, infinities, NaN, signs of zero")
    for name in FLOAT_ARITHMETIC:
        for x, y in ARITHMETIC_PAIRS + OWN_PAIRS[name]:
            v.add(name, 28, 29, 30, {28: x, 29: y, 30: 0xDEADBEEF})
    v.note("operands that are one cell, and a destination that is an operand")
    for name in FLOAT_ARITHMETIC:
        v.add(name, 28, 28, 28, {28: THREE})
        v.add(name, 28, 29, 29, {28: THREE, 29: TWO})
    v.note("comparisons, And, Or")
    for name in FLOAT_COMPARISONS:
        for x, y in COMPARED_PAIRS:
            v.add(name, 28, 29, 30, {28: x, 29: y, 30: 0xDEADBEEF})
    for name in ("And", "Or"):
        for x, y in ((0, 0), (0, ONE), (ONE, MINUS_ZERO), (QUIET_NAN, 0)):
            v.add(name, 28, 29, 30, {28: x, 29: y, 30: 0xDEADBEEF})
    v.note("BitAnd, BitOr: toward zero, saturating, back to the nearest float")
    for name in ("BitAnd", "BitOr"):
        for x, y in BIT_PAIRS:
            v.add(name, 28, 29, 30, {28: x, 29: y, 30: 0xDEADBEEF})
    v.note("floats drawn by chance, of near exponents")
    chance = Xorshift(2463534242)
    for name in FLOAT_ARITHMETIC:
        for _ in range(8):
            x, y = chance.draw(), chance.draw()
            y = (y & 0x807FFFFF) | (((x >> 23) + chance.below(52) - 26) % 256) << 23
            v.add(name, 28, 29, 30, {28: x, 29: y})


def vector_vectors(v):
    a, b = (ONE, TWO, THREE), (flt(0.5), flt(-4.0), flt(10.0))
    v.note("vectors: values, the last cells, overlaps of operands and destination")
    for name in ("AddV", "SubV", "MulV", "EqV", "NeV"):
        for x, y in (
            (a, b),
            ((MINUS_ZERO,) * 3, (ONE,) * 3),
            ((MINUS_ZERO,) * 3, (0,) * 3),
            ((QUIET_NAN, ONE, ONE), (QUIET_NAN, ONE, ONE)),
            ((INFINITY, INFINITY, 0), (ONE, MINUS_ONE, 0)),
            ((GREATEST, GREATEST, GREATEST), (TWO, MINUS_ONE, ONE)),
            ((ONE, TWO, flt(3.5)), (ONE, TWO, THREE)),
            ((ONE, flt(2.5), THREE), (ONE, TWO, THREE)),
            ((flt(1.5), TWO, THREE), (ONE, TWO, THREE)),
        ):
            v.add(name, 40, 44, 48, {**triple(40, x), **triple(44, y), **triple(48, (7, 8, 9))})
    v.note("MulV: every product and sum is rounded, in order")
    for x, y in (
        ((flt(16777216.0), ONE, ONE), (ONE, ONE, ONE)),
        ((ONE, ONE, flt(16777216.0)), (ONE, ONE, ONE)),
        ((flt(16777216.0), flt(-16777216.0), ONE), (ONE, ONE, ONE)),
        ((0x3F800001, MINUS_ONE, 0), (0x3F800001, 0x3F800002, 0)),
        ((GREATEST, GREATEST, flt(-1.0)), (ONE, ONE, GREATEST)),
        ((0, 0, MINUS_ZERO), (MINUS_ONE, MINUS_ONE, ONE)),
    ):
        v.add("MulV", 40, 44, 48, {**triple(40, x), **triple(44, y)})
    for f in (MINUS_ZERO, QUIET_NAN, 0x3DCCCCCD):
        for x in (b, (0, MINUS_ZERO, NEGATIVE_NAN), (GREATEST, LEAST, INFINITY)):
            v.add("MulFV", 28, 40, 48, {28: f, **triple(40, x)})
            v.add("MulVF", 40, 28, 48, {28: f, **triple(40, x)})
    v.note("vector arithmetic reads all before writing")
    for shift in range(-3, 4):
        cells = {**triple(40, (ONE, TWO, THREE, flt(4.0))), **triple(50, (flt(10.0), flt(20.0), flt(30.0)))}
        for name in ("AddV", "MulVF") if shift % 2 == 0 else ("SubV", "MulFV", "AddV"):
            v.add(name, *((50, 40) if name == "MulFV" else (40, 50)), 40 + shift, cells)
    v.add("MulFV", 41, 40, 40, triple(40, a))
    v.add("MulVF", 40, 42, 40, triple(40, a))
    v.add("AddV", 40, 41, 42, triple(40, (ONE, TWO, THREE, flt(4.0), flt(5.0))))
    v.add("MulV", 40, 41, 41, triple(40, (ONE, TWO, THREE, flt(4.0))))
    v.note("vectors at the last cells: 61 is the last place for one")
    for name in ("AddV", "MulV", "MulFV", "MulVF", "EqV", "StoreV", "NotV"):
        shape = SHAPES[name]
        for index, kind in enumerate(shape):
            if kind != "v":
                continue
            for place in (61, 62):
                operands = [0 if other == "-" else 28 + 4 * i for i, other in enumerate(shape)]
                operands[index] = place
                v.add(name, *operands, {**triple(28, a), **triple(32, b), **triple(61, a)})
    v.note("NotV gives one float")
    for x in ((0, 0, 0), (MINUS_ZERO, 0, MINUS_ZERO), (0, 0, LEAST), (0, ONE, 0), (NEGATIVE_NAN, 0, 0)):
        v.add("NotV", 40, 0, 48, {**triple(40, x), **triple(48, (7, 8, 9))})
    v.add("NotV", 40, 0, 63, {63: 5})
    v.add("NotV", 40, 0, 41, triple(40, (0, 0, 0)))


def store_vectors(v):
    v.note("Stores move bits, NaN and negative ones too")
    for value in (NEGATIVE_NAN, SIGNALLING_NAN, MINUS_ZERO, 0xFFFFFFFF):
        for name in ("StoreF", "StoreFnc", "StoreS", "StoreEnt", "StoreFld"):
            v.add(name, 28, 29, 0, {28: value, 29: 1})
        v.add("StoreV", 28, 32, 0, triple(28, (value, ONE, value)))
    v.note("StoreV cell by cell: overlaps")
    for base in (40, 10):  # typed and untyped destinations
        for shift in range(-3, 4):
            v.add("StoreV", base, base + shift, 0, triple(base - 3, range(101, 111)))
    v.note("StoreV at the edges of the untyped destinations, with no definitions")
    for destination in (0, 1, 2, 25, 26, 27, 28):
        v.add("StoreV", 40, destination, 0, triple(40, (11, 12, 13)))
    for destination in (1, 27, 28):
        v.add("StoreV", 0, destination, 0, triple(0, (11, 12, 13)))
        for source in (-1, 61, 62, 64):
            v.add("StoreV", source, destination, 0, triple(61, (11, 12, 13)))
    for destination in (-1, -3, 61, 62, 63, 64, 32767, -32768):
        v.add("StoreV", 40, destination, 0, triple(40, (11, 12, 13)))


def number_vectors(v):
    v.note("entities, functions; strings, of which there is one number, 0: another is refused 33")
    for name in ("EqS", "NeS", "EqEnt", "NeEnt", "EqFnc", "NeFnc"):
        for x, y in ((5, 5), (5, 6), (0x7FFFFFFF, 0x7FFFFFFF), (0xFFFFFFFF, 0xFFFFFFFF)):
            v.add(name, 28, 29, 30, {28: x, 29: y})
        v.add(name, 28, 28, 30, {28: 0xFFFFFFFF})
        v.add(name, 28, 28, 28, {28: 9})
        v.add(name, 29, 28, 28, {28: 9, 29: 9})
        v.add(name, 28, 29, 30, {28: MINUS_ZERO, 29: 0})
    v.note("EqS and NeS: equal operands are not looked at, whatever they are; negative ones are refused")
    for name in ("EqS", "NeS"):
        for operand in (0, 63, 64, 32767, -1, -32768):
            v.add(name, operand, operand, 30)
        v.add(name, 64, 64, 64)
        v.add(name, 64, 63, 30)
        v.add(name, 63, 64, 30)
        v.add(name, 64, -1, 30)
        v.add(name, -1, 64, 30)
        v.add(name, 28, 29, -1)
    v.note("Not: 1.0 for zero; a string number above 0 is refused 33 here")
    for value in (0, MINUS_ZERO, LEAST, QUIET_NAN, 0xFFFFFFFF):
        for name in ("NotF", "NotS", "NotEnt", "NotFnc"):
            v.add(name, 28, 0, 30, {28: value})
    v.note("NotS of operand 0 is refused 33 like another, though it gives 1.0 for any number that is there")
    v.add("NotS", 0, 0, 30, {0: 5})
    v.add("NotS", 0, 0, 0, {0: 5})
    v.add("NotS", 0, 0, 30, {0: 0xFFFFFFFF})
    for name in ("NotF", "NotEnt", "NotFnc"):
        v.add(name, 0, 0, 30, {0: 5})


def jump_vectors(v):
    v.note("If and IfNot: jumps both ways, unused operand ignored")
    for name in ("If", "IfNot"):
        for value in (0, MINUS_ZERO, ONE, LEAST, QUIET_NAN, NEGATIVE_NAN, MINUS_INFINITY):
            v.add(name, 28, 3, 0, {28: value})
            v.add(name, 28, -3, 77, {28: value})
        v.add(name, 28, 0, -1, {28: ONE})
        v.add(name, 63, 32767, 0, {63: ONE})
        v.add(name, 63, -32768, 0, {63: ONE})
        v.add(name, 64, 1, 0)
        v.add(name, -1, 1, 0)
    v.note("Goto looks at no cell")
    for by in (0, 1, -1, 5, 32767, -32768):
        v.add("Goto", by, 0, 0)
    v.add("Goto", 2, -1, 64)


def call_vectors(v):
    v.note("Call: function 0, no function, builtins, functions")
    for opcode in ("Call0", "Call3", "Call8"):
        v.add(opcode, 28, 0, 0, {28: 0})
        v.add(opcode, 28, -1, 64, {28: PLAIN})
        v.add(opcode, 28, 0, 0, {28: BUILTIN_1})
    for number in (21, 22, 0x7FFFFFFF, 0x80000000, 0xFFFFFFFF):
        v.add("Call1", 28, 0, 0, {28: number})
    for number in range(1, 17):
        v.add("Call2", 28, 0, 0, {28: number, **triple(1, range(201, 228))})
    v.add("Call4", 28, 0, 0, {28: WITH_LOCALS, **triple(4, range(204, 216))}, enter=PLAIN)
    v.add("Call5", 64, 0, 0)
    v.add("Call6", -1, 0, 0)
    v.add("Call7", 63, 0, 0, {63: PLAIN})
    v.note("a builtin that is none, in bytes that changed after the load")
    at = v.base.place(FUNCTIONS, BUILTIN_1)
    v.add("Call0", 28, 0, 0, {28: BUILTIN_1}, pokes=[(at, 0xFB)])  # -5
    v.add("Call0", 28, 0, 0, {28: BUILTIN_1}, pokes=[(at, 0xB1)])  # -79
    v.add("Call0", 28, 0, 0, {28: BUILTIN_1}, pokes=[(at + 1, 0)])  # -65281
    v.add("Call0", 28, 0, 0, {28: BUILTIN_1}, pokes=[(at, 0xBE)])  # -66
    v.add("Call0", 28, 0, 0, {28: BUILTIN_1}, pokes=[(at, 0xBD)])  # -67
    v.note("a function that became a builtin, a builtin that became a function")
    plain = v.base.place(FUNCTIONS, PLAIN)
    minus_43 = [(plain + i, byte) for i, byte in enumerate(struct.pack("<i", -43))]
    v.add("Call0", 28, 0, 0, {28: PLAIN}, pokes=minus_43)
    v.add("Call0", 28, 0, 0, {28: BUILTIN_78}, pokes=[(at + 36 + i, 0) for i in range(4)])


def rounding_vectors(v):
    v.note("R-1: rint, floor, ceil and fabs of every kind of float, done inside")
    for number in ROUNDINGS:
        for size in ROUNDED_SIZES:
            for value in (size, SIGN | size):
                v.add("Call1", 28, 0, 0, {28: number, 4: value, 1: 0xDEADBEEF})
    v.note("R-1: which Call it is plays no part; at a depth above 0; the called cell is cell 4, cell 1")
    for count in range(9):
        v.add(f"Call{count}", 28, -1, 64, {28: RINT, 4: flt(-2.5), 7: ONE})
    for number in ROUNDINGS:
        v.add("Call1", 28, 0, 0, {28: number, **triple(1, (7, 8, 9, flt(-1.5), 10, 11))}, enter=WITH_LOCALS)
        v.add("Call1", 4, 0, 0, {4: number, 1: 7})
        v.add("Call1", 1, 0, 0, {4: flt(-7.25), 1: number})
    v.note("R-1: the builtins beside the four are handed over, the numbers beside them are none")
    at = v.base.place(FUNCTIONS, BUILTIN_1)
    for number in (34, 35, 36, 37, 38, 39, 40, 41, 42, 43, 44):
        v.add("Call1", 28, 0, 0, {28: BUILTIN_1, 4: flt(1.5)}, pokes=[(at, 256 - number)])


def return_vectors(v):
    v.note("Return and Done: operand cells, then depth")
    for name in ("Return", "Done"):
        cells = {**triple(0, (100, 101, 102, 103)), **triple(40, (7, 8, 9)), **triple(61, (17, 18, 19))}
        for operand in (0, 1, 2, 3, 40, 61, 62, 63, 64, -1, -3, 32767, -32768):
            v.add(name, operand, 0, 0, cells, enter=PLAIN)
        v.add(name, 40, -1, 64, cells, enter=PLAIN)
        for operand in (0, 40, 61, 62, -1):
            v.add(name, operand, 0, 0, cells)
        v.note("locals are restored after the return cells are written")
        v.add(name, 40, 0, 0, cells, enter=RETURN_CELLS)
        v.add(name, 1, 0, 0, cells, enter=RETURN_CELLS)
        v.add(name, 30, 0, 0, triple(30, (1, 2, 3, 4)), enter=WITH_LOCALS)
        v.note("the local range of the function left changed in the bytes: a cell that isn't there")
        at = v.base.place(FUNCTIONS, WITH_LOCALS) + 4
        v.add(name, 30, 0, 0, cells, enter=WITH_LOCALS, pokes=[(at, 60)])
        v.add(name, 30, 0, 0, cells, enter=WITH_LOCALS, pokes=[(at, 61)])
        v.add(name, 64, 0, 0, cells, enter=WITH_LOCALS, pokes=[(at, 61)])
        v.add(name, 30, 0, 0, cells, enter=WITH_LOCALS, pokes=[(at + 3, 0x80)])


def host_vectors(v):
    v.note("State is handed over, operands unchecked; opcodes that are none")
    for number in sorted(HOST_OPCODES):
        v.add(OPCODES[number], 28, 29, 30)
        v.add(OPCODES[number], -1, 64, 32767)
        v.add(OPCODES[number], 28, 29, 30, enter=PLAIN, world=World(1, 105, {0: 7}))
    for number in (66, 67, 255, 256, 32767, -1, -32768):
        v.add(number, 28, 29, 30)


def refusal_vectors(v):
    """On the file with definitions: every operand of every opcode; their order once a shape."""
    good = {TYPED_CELL["c"]: PLAIN, TYPED_CELL["d"]: 3, TYPED_CELL["e"]: 4}
    shapes_done = set()
    for name, shape in SHAPES.items():
        fine = [0 if kind == "-" else TYPED_CELL[kind] for kind in shape]
        used = [i for i, kind in enumerate(shape) if kind != "-"]
        v.note(f"{name}: its operands typed, then each refused")
        v.add(name, *fine, good)

        def with_bad(number, *changes):
            operands = list(fine)
            for index, operand in changes:
                operands[index] = operand
            v.add(name, *operands, good, refused=number)

        for i in used:
            with_bad(16, (i, WRONG_CELL[shape[i]]))
            with_bad(15, (i, -1))
        if name.startswith(("Store", "Not")):
            unused = shape.index("-")
            with_bad(18, (unused, 1))
            with_bad(18, (unused, -1))
            with_bad(18, (unused, 30), (0, -1))
        if shape not in shapes_done:
            shapes_done.add(shape)
            for i in used:
                for j in used:
                    if i < j:
                        with_bad(15, (i, -2), (j, WRONG_CELL[shape[j]]))
                        with_bad(16, (i, WRONG_CELL[shape[i]]), (j, 66))


def type_vectors(v):
    v.note("every type under every type: only float and vector pass for each other; void is none")
    kinds = dict(f="NotF", v="NotV", s="NotS", e="NotEnt", c="NotFnc", d="StoreFld")
    places = (28, 29, 30, 31, 34, 35, 36, 37)
    for kind, name in kinds.items():
        for place in places:
            v.add(name, place, *((35, 0) if kind == "d" else (0, 30)))
    v.note("the destination of a comparison may be a vector's cell")
    v.add("NotF", 30, 0, 31, {31: 5})
    v.note("first of two definitions, void first, save flag")
    for place in (38, 39, 40, 41, 48, 49):
        v.add("NotF", place, 0, 30)
        v.add("NotS", place, 0, 30)
        v.add("NotEnt", place, 0, 30)
    v.note("vectors: a wrong second cell, a wrong third one, floats of their own")
    for place in (31, 42, 45, 46, 47, 50, 51, 30, 27, 26):
        v.add("NotV", place, 0, 30)
        v.add("AddV", 31, 31, place)
    v.note("type before address, past the count too; cell 65535 is no operand's")
    for place in (63, 64, 65, 66, 32767, -1):
        v.add("NotF", place, 0, 30)
        v.add("NotF", 30, 0, place)
        v.add("NotV", place, 0, 30)
        v.add("NotS", place, 0, 30)
    for place in (61, 62):
        v.add("NotV", place, 0, 30)
        v.add("SubV", 31, 31, place)
        v.add("StoreV", place, 50, 0)
        v.add("StoreV", 50, place, 0)
    v.note("NotS and EqS: operand 0 is a float here; equal operands aren't checked")
    v.add("NotS", 0, 0, 30)
    v.add("EqS", 0, 0, 30)
    v.add("NeS", 30, 30, 30)
    v.add("EqS", 64, 64, 30)
    v.add("EqS", 29, 29, 29)
    v.add("EqS", 30, -1, 30)
    v.add("NeS", -1, 30, 30)
    v.add("NotS", -1, 1, 30)
    v.add("NotS", -1, 0, 29)
    v.note("StoreV: 1 to 27 by address alone, 0 and 28 typed")
    for destination in (0, 1, 2, 25, 26, 27, 28, 29, 30, 31, 50):
        v.add("StoreV", 50, destination, 0, triple(50, (ONE, TWO, THREE)))
        v.add("StoreV", 34, destination, 0, triple(34, (5, 6, 7)))
    v.note("negative entity, field and string values: in the access, before the next one's type")
    bad = 0x80000000
    for name, cell in (("StoreEnt", 34), ("StoreFld", 35), ("StoreS", 29), ("StoreFnc", 36)):
        for destination in (cell, 30, 66, -1):
            v.add(name, cell, destination, 0, {cell: bad})
        v.add(name, cell, cell, 1, {cell: bad})
    for name in ("EqEnt", "NeEnt"):
        v.add(name, 34, 49, 30, {34: bad, 49: 1})
        v.add(name, 34, 49, 30, {34: 1, 49: 0xFFFFFFFF})
        v.add(name, 34, 30, 30, {34: bad})
        v.add(name, 30, 34, 30, {34: bad})
        v.add(name, 34, 49, 29, {49: bad})
        v.add(name, 34, 34, 30, {34: bad})
    v.add("NotEnt", 34, 0, 29, {34: bad})
    v.add("NotEnt", 34, 0, 30, {34: bad})
    v.add("NotEnt", 34, 1, 30, {34: bad})
    v.add("EqS", 29, 39, 30, {29: bad, 39: bad})
    v.note("types over 7 in bytes that changed after the load: they match nothing; bit 15 is ignored")
    at = v.base.place(GLOBAL_DEFS, 5)  # float, cell 30
    for low, high in ((8, 0), (8, 0x80), (2, 0x40), (2, 0x80), (3, 0x80), (0xFF, 0x7F)):
        v.add("NotF", 30, 0, 31, pokes=[(at, low), (at + 1, high)])
    v.add("NotF", 30, 0, 31, pokes=[(at + 2, 31), (at, 1)])  # the definition moves to cell 31


def typed_rounding_vectors(v):
    """On a file that types the operand's cell 36, cell 4 and cell 1, in this order."""
    argument, result = (v.base.place(GLOBAL_DEFS, index) for index in (1, 2))
    v.note("R-1: cell 4 and cell 1 of every type, with the save flag too; only float and vector pass")
    for type_ in range(8):
        refused = None if type_ in (FLOAT, VECTOR) else 16
        for number, at in ((RINT, argument), (FABS, result)):
            v.add("Call1", 36, 0, 0, {36: number, 4: flt(2.5)}, pokes=[(at, type_)], refused=refused)
        v.add("Call1", 36, 0, 0, {36: CEIL, 4: flt(2.5)}, pokes=[(argument + 1, 0x80), (argument, type_)], refused=refused)
    v.note("R-1: both of another type; a NaN is no exception")
    both = [(argument, STRING), (result, STRING)]
    v.add("Call1", 36, 0, 0, {36: FLOOR}, pokes=both, refused=16)
    v.add("Call1", 36, 0, 0, {36: FLOOR, 4: QUIET_NAN}, pokes=both[:1], refused=16)
    v.note("R-1: the Call's own checks come first: its operand, then 19, 20 and 5")
    v.add("Call1", 37, 0, 0, {37: FLOOR}, pokes=both, refused=16)  # cell 37 is a string
    v.add("Call1", 64, 0, 0, pokes=both, refused=15)
    v.add("Call1", -1, 0, 0, pokes=both, refused=15)
    v.add("Call1", 36, 0, 0, {36: 0}, pokes=both, refused=19)
    v.add("Call1", 36, 0, 0, {36: 21}, pokes=both, refused=20)
    floor = v.base.place(FUNCTIONS, FLOOR)
    v.add("Call1", 36, 0, 0, {36: FLOOR}, pokes=[*both, (floor, 256 - 39)], refused=5)
    v.note("R-1: another builtin looks at neither cell, and an entered function neither")
    v.add("Call1", 36, 0, 0, {36: FLOOR}, pokes=[*both, (floor, 256 - 35)])
    v.add("Call1", 36, 0, 0, {36: PLAIN}, pokes=both)


def last_place_vectors(v):
    count = v.base.lumps[2 * CELLS + 1]
    for place in range(count - 3, count + 1):
        v.add("NotV", place, 0, 28)
        v.add("AddF", 28, 29, place)
        v.add("SubV", 28, 28, place)
        v.add("Return", place, 0, 0, enter=PLAIN)
        v.add("StoreV", 28, place, 0, triple(28, (1, 2, 3)))
        v.add("StoreV", place, 27, 0, {**triple(27, (1, 2, 3)), **triple(count - 3, (7, 8, 9))})
    for number in (2, 6, 9, 14):
        v.add("Call0", 28, 0, 0, {28: number, **triple(4, range(204, 212))})
    v.add("Call1", 28, 0, 0, {28: CEIL, 4: HALF})


def large_vectors(v):
    for place in (32764, 32765, 32766, 32767):
        v.add("NotF", place, 0, 28, {place: ONE})
        v.add("NotV", place, 0, 28)
        v.add("NotS", place, 0, 28)
        v.add("StoreV", 28, place, 0, triple(28, (1, 2, 3)))
        v.add("StoreV", place, 1, 0, triple(32764, (1, 2, 3, 4)))
        v.add("Return", place, 0, 0, triple(32764, (1, 2, 3, 4)), enter=PLAIN)


def statement_vectors():
    v = Vectors()
    fields = [(STRING, 28), (ENTITY, 29), (STRING, 30), (VOID, 40)]
    v.file("64 cells, no definitions; field definitions bind no cell", fields=fields)
    float_vectors(v)
    vector_vectors(v)
    store_vectors(v)
    number_vectors(v)
    jump_vectors(v)
    call_vectors(v)
    rounding_vectors(v)
    return_vectors(v)
    host_vectors(v)
    fields = [(FLOAT, 29), (STRING, 30), (ENTITY, 36)]
    v.file("64 cells, definitions of every type", definitions=TYPED_DEFINITIONS, fields=fields)
    refusal_vectors(v)
    type_vectors(v)
    definitions = [(FUNCTION, 36), (FLOAT, 4), (FLOAT, 1), *[(STRING, cell) for cell in (1, 2, 3, 4, 5, 6, 37)]]
    v.file("64 cells, cells 1 to 6 defined", definitions=definitions, fields=[(STRING, 4), (STRING, 1)])
    typed_rounding_vectors(v)
    v.file("64 cells, the fewest; lumps in another order", functions=last_cell_functions(64), layout=(5, 4, 3, 2, 1, 0))
    last_place_vectors(v)
    v.file(
        "32,768 cells, the most; cell 32768 is defined as a string, 32769 as a float",
        cell_count=32768,
        definitions=[(STRING, 32768), (FLOAT, 32769), (STRING, 65535)],
    )
    large_vectors(v)
    last_cell_vectors(v)
    entity_vectors(v)
    string_vectors(v)
    void_vectors(v)
    return v

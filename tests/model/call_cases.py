"""Lists of calls, each with what it answers and leaves: cases/calls.txt."""

import struct
from dataclasses import replace
from functools import lru_cache

from common import (
    ANY_CALL, CHANCE_FLOATS, CHECK_NUMBER_HELD, CURRENT, DEPTH, ENTITIES, FRAMES, GREATEST_DEPTH, GREATEST_LIMIT,
    GREATEST_SAVED, HALF, LEAST, MINUS_INFINITY, MINUS_ZERO, NEGATIVE_NAN, POSITION, SAVED, SIGNALLING_NAN, STANDARD,
    STATE_LENGTH, STATE_LUMPS, STATE_PER_ENTITY, THREE, TWO, Xorshift, flt, hex_of, numbers, random_program,
    record_settings,
)
from entity_calls import entity_calls
from model import (
    CELLS, FIELD_DEFS, FLOAT, FUNCTION, FUNCTIONS, GLOBAL_DEFS, HOST_OPCODES, ONE, POINTER, RECORD_SIZES,
    STATEMENTS, STRING, STRINGS, VECTOR, Answer, Assembly, Frame, Machine, Settings, function,
)
from string_cases import string_calls
from void_cases import many_voids, void_calls

FNV_BASIS = 0xCBF29CE484222325
FNV_PRIME = 0x100000001B3


@lru_cache(maxsize=16)  # a refused call leaves what the one before it left
def fnv(data):
    digest = FNV_BASIS
    for byte in data:
        digest = ((digest ^ byte) * FNV_PRIME) & 0xFFFFFFFFFFFFFFFF
    return digest


def digest_of(machine):
    text = "".join(f"{frame.position},{frame.function};" for frame in machine.state.frames)
    cells = b"".join(struct.pack("<I", cell) for cell in machine.cells)
    saved = b"".join(struct.pack("<I", cell) for cell in machine.saved_store)
    entities = b"".join(struct.pack("<I", cell) for cell in machine.entity_cells)
    return fnv(text.encode() + cells + saved + entities)


def set_field(state, field, value):
    if field == STATE_LENGTH:
        return replace(state, length=value)
    if field < STATE_PER_ENTITY:
        lumps = list(state.lumps)
        lumps[field - STATE_LUMPS] = value
        return replace(state, lumps=tuple(lumps))
    names = {13: "cells_per_entity", 14: "position", 15: "function", 16: "depth", 17: "saved", 80: "entities"}
    if field in names:
        return replace(state, **{names[field]: value})
    if field >= CHECK_NUMBER_HELD:
        settings = list(state.settings)
        settings[field - CHECK_NUMBER_HELD] = value
        return replace(state, settings=Settings(*settings))
    index, which = divmod(field - FRAMES, 2)
    frames = list(state.frames)
    old = frames[index]
    frames[index] = Frame(value, old.function) if which == 0 else Frame(old.position, value)
    return replace(state, frames=tuple(frames))


def frame_field(index, function=False):
    return FRAMES + 2 * index + (1 if function else 0)


class Calls:
    def __init__(self):
        self.lines = []
        self.seen = []  # (call, answer)
        self.cases = 0
        self.machine = None

    def new(self, text, file, cells=64, saved=2048, lent=0):
        """Lent bytes, cells, saved store and entity cells; the state is all zeros until a load."""
        if isinstance(file, Assembly):
            file = file.bytes()
        cell_fill = [0xDEAD0000 + i for i in range(cells)]
        saved_fill = [0xBEEF0000 + i for i in range(saved)]
        entity_fill = [0xCAFE0000 + i for i in range(lent)]
        self.machine = Machine(bytearray(file), cell_fill, saved_fill, entity_fill)
        self.cases += 1
        self.lines += [f"# {text}", f"new {cells} {saved} {lent} {hex_of(file)}"]

    def do(self, call, expect=None):
        """One call; `expect` is the word or the refusal that was worked out by hand."""
        word, *given = call.split()
        answer = self._perform(word, [int(number) for number in given])
        if isinstance(expect, str):
            assert answer.word == expect, (call, answer, expect)
        elif expect is not None:
            assert (answer.word, answer.detail) == ("refused", expect), (call, answer, expect)
        state = self.machine.state
        after = [answer.detail, answer.count, state.position, state.function, state.depth, state.saved]
        self.lines.append(f"{call} = {answer.word} {numbers(after)} {digest_of(self.machine):016x}")
        self.seen.append((call, answer))
        return answer

    def _perform(self, word, given):
        machine = self.machine
        return {
            "load": machine.load,
            "enter": machine.enter,
            "statement": machine.statement,
            "run": machine.run,
            "carry": machine.carry_on,
            "abandon": machine.abandon,
            "get": machine.read,
            "put": machine.write,
            "byte": self._byte,
            "field": self._field,
            "lend": self._lend,
            "eput": self._eput,
        }[word](*given)

    def ok(self, *calls):
        for call in calls:
            self.do(call, "accepted")

    def no(self, number, *calls):
        for call in calls:
            self.do(call, number)

    def word(self, word, *calls):
        for call in calls:
            self.do(call, word)

    def bytes(self, offset, new):
        for i, byte in enumerate(new):
            if self.machine.file[offset + i] != byte:
                self.ok(f"byte {offset + i} {byte}")

    def number(self, offset, value):
        """A signed 32-bit number in the file."""
        self.bytes(offset, struct.pack("<i", value))

    def _byte(self, offset, value):
        self.machine.file[offset] = value
        return Answer("accepted")

    def _lend(self, count, first):
        self.machine.entity_cells = [(first + i) % 2**32 for i in range(count)]
        return Answer("accepted")

    def _eput(self, index, value):
        self.machine.entity_cells[index] = value
        return Answer("accepted")

    def _field(self, field, value):
        self.machine.state = set_field(self.machine.state, field, value)
        return Answer("accepted")


# functions of the house
OUTER, INNER, BUILTIN, ENDLESS, RECURSIVE, NEGATIVE_LOCALS, LARGE, NINE_ARGUMENTS = range(1, 9)
BUILTIN_ENTERED, MISSING_LOCALS, WIDE_ARGUMENT, SAME_LOCALS, NOTHING = range(9, 14)
HOUSE_FUNCTIONS = [
    function(),
    function(1, 40, 2, (1,)),
    function(4, 44, 3, (3,)),
    function(-7, arguments=-1),
    function(8),
    function(9, 50, 1),
    function(1, 40, -1),
    function(1, 0, 2047),
    function(1, arguments=9),
    function(-7),
    function(1, 62, 3),
    function(1, 40, sizes=(255,)),
    function(3, 40, 4),
    function(3),
]
HOUSE_CELLS = {4: ONE, 5: TWO, 6: THREE, 28: TWO, 36: INNER, 37: BUILTIN, 38: RECURSIVE, 39: 0}
HOUSE_CELLS |= {40: flt(40.0), 41: flt(41.0), 44: flt(44.0), 45: flt(45.0), 46: flt(46.0), 50: flt(50.0)}


def house(**parts):
    return Assembly(
        statements=[
            ("Done", 28),
            ("AddF", 40, 28, 40),  # function 1
            ("Call1", 36),
            ("Return", 40),
            ("MulF", 44, 28, 45),  # function 2
            ("Call0", 37),
            ("State", -1, 64, 5),
            ("Return", 44),
            ("Goto", 0),  # function 4
            ("AddF", 50, 28, 50),  # function 5
            ("Call0", 38),
            ("Return", 50),
            ("Call0", 39),
        ],
        functions=HOUSE_FUNCTIONS,
        cells=HOUSE_CELLS,
        definitions=[(FLOAT, 28), (STRING, 29), (FLOAT, 40)],
        **parts,
    )


HOUSE = house()


def local_place(number, field):
    """Where a number of a function's record is in the house's file."""
    fields = ("first", "local", "locals", "profile", "name", "source", "arguments")
    return HOUSE.place(FUNCTIONS, number) + 4 * fields.index(field)


def life_calls(c):
    c.new("a whole life: load, entry, run, hand-overs of both kinds, carrying on, the end", HOUSE, 70, 2050)
    c.ok("load 0", "get 28", "enter 1")
    answer = c.do("run 0 100", "builtin")
    assert answer == Answer("builtin", BUILTIN_7, 3)
    c.ok("put 1 1077936128", "carry")
    assert c.do("run 0 100") == Answer("opcode", 60, 0)
    c.ok("carry")
    assert c.do("run 0 100") == Answer("ended", 0, 2)
    c.ok("get 1", "get 2", "get 3", "get 40", "get 44", "load 0", "enter 1")
    c.new("the same by single statements", HOUSE)
    c.ok("load 0", "enter 1", "statement", "statement", "statement")
    c.word("builtin", "statement", "statement")
    c.ok("carry")
    c.word("opcode", "statement")
    c.ok("carry", "statement", "statement")
    c.no(25, "statement")
    c.new("runs to a depth above 0, and back", HOUSE)
    c.ok("load 0", "enter 1", "enter 5")
    c.word("spent", "run 0 1", "run 1 1", "run 1 2")
    c.no(29, "run 5 9")
    c.ok("abandon 3")
    c.word("ended", "run 2 1")
    c.ok("put 38 0", "enter 5")
    c.no(19, "run 2 5")
    c.ok("field 14 11")
    c.word("ended", "run 2 5")


BUILTIN_7 = 7


def load_calls(c):
    for cells, saved in ((63, 2048), (0, 2048), (64, 2047), (64, 0), (0, 0)):
        text = f"load with {cells} lent cells and {saved} saved: 12, and the state of zeros is refused 13"
        c.new(text, HOUSE, cells, saved)
        c.no(12, "load 0")
        c.no(13, *ANY_CALL)
    c.new("lent cells beyond the count stay as they are", HOUSE, 80, 2100)
    c.no(13, *ANY_CALL)
    c.ok("load 0", "get 63", "put 63 5", "enter 2", "abandon 0")
    c.no(15, "get 64", "put 64 1", "get 79", "put 79 1", "get 80")
    c.new("a load refused for each reason leaves cells and saved store", HOUSE)
    for offset, value, number in (
        (0, 7, 2),
        (4, 0, 3),
        (8, -1, 4),
        (local_place(BUILTIN, "first"), -5, 5),
        (local_place(OUTER, "name"), 1, 6),
        (local_place(OUTER, "source"), -1, 6),
        (HOUSE.place(STATEMENTS, 3), 66, 7),
        (HOUSE.place(GLOBAL_DEFS, 1), 8 + (29 << 16), 8),
        (HOUSE.place(GLOBAL_DEFS, 1) + 4, -1, 6),
        (52, 63, 10),
        (56, 104, 11),
    ):
        old = struct.unpack_from("<i", c.machine.file, offset)[0]
        c.number(offset, value)
        c.no(number, "load 0")
        c.no(13, "enter 1", "get 1")
        c.number(offset, old)
    c.ok("load 0", "enter 1", "enter 2")
    c.word("builtin", "run 0 9")
    c.ok("load 0", "get 40")
    c.new("32,768 cells are the most", house(cell_count=32768), 32768)
    c.ok("load 0", "get 32767", "put 32767 9")
    c.no(15, "get 32768", "put 32768 9")
    c.new("32,769 cells are one too many", house(cell_count=32769), 32769)
    c.no(10, "load 0")
    record_state(c)
    c.no(13, "get 1", "enter 1", "abandon 0")
    c.new("1,048,576 bytes are the most", HOUSE.bytes() + bytes(1_048_576 - len(HOUSE.bytes())))
    c.ok("load 0", "enter 1", "statement")
    c.new("1,048,577 bytes are one too many", HOUSE.bytes() + bytes(1_048_577 - len(HOUSE.bytes())))
    c.no(1, "load 0")
    record_state(c)
    c.no(13, "get 1", "enter 1", "abandon 0")
    c.new("59 bytes", HOUSE.bytes()[:59])
    c.no(1, "load 0")
    c.ok("field 0 59")
    record_settings(c)
    c.no(13, *ANY_CALL)
    c.new("no bytes", b"")
    c.no(1, "load 0")
    c.no(13, *ANY_CALL)


def record_state(c):
    """Make the state record what the header says, as if it had been loaded."""
    record_file(c)
    record_settings(c)


def record_file(c):
    file = c.machine.file
    c.ok(f"field {STATE_LENGTH} {len(file)}")
    for index, value in enumerate(struct.unpack_from("<13i", file, 8)):
        c.ok(f"field {STATE_LUMPS + index} {value}")


def state_calls(c):
    """Check 13: each of its clauses alone, and states made up that pass."""
    c.new("13: what the state records of the file, one number after another", HOUSE)
    c.ok("load 0", "enter 1", "enter 2")
    recorded = [len(HOUSE.bytes()), *HOUSE.lumps, 105]
    for field, value in enumerate(recorded):
        c.ok(f"field {field} {value + 1}")
        c.no(13, *(ANY_CALL if field in (0, 5, 13) else ("statement", "get 1")))
        c.ok(f"field {field} {max(value - 1, 0)}")
        if value > 0:
            c.no(13, "get 1")
        c.ok(f"field {field} {value}")
    c.ok("get 1")
    c.new("13: the header's numbers changed, one after another", HOUSE)
    c.ok("load 0", "enter 1", "enter 2")
    for index, value in enumerate(recorded[1:]):
        c.ok(f"byte {8 + 4 * index} {(value + 1) % 256}")
        c.no(13, "statement", "get 1")
        c.ok(f"byte {8 + 4 * index} {value % 256}")
        c.ok(f"byte {11 + 4 * index} 128")
        c.no(13, "get 1")
        c.ok(f"byte {11 + 4 * index} 0")
    c.ok("get 1")
    c.new("version and check number aren't looked at again", HOUSE)
    c.ok("load 0", "byte 0 7", "byte 4 0", "enter 1", "statement", "get 1")
    c.new("the file's own cells aren't looked at again", HOUSE)
    c.ok("load 0", f"byte {HOUSE.place(CELLS, 28)} 99", "get 28", "enter 1", "statement")

    def both(index, value):
        """A number of the header and what the state records of it."""
        c.number(8 + 4 * index, value)
        c.ok(f"field {STATE_LUMPS + index} {value}")

    c.new("13: lumps outside 4, though as recorded", HOUSE)
    c.ok("load 0", "enter 1")
    for lump in range(6):
        offset, count = HOUSE.lumps[2 * lump : 2 * lump + 2]
        both(2 * lump, -1)
        c.no(13, "get 1", "enter 1")
        both(2 * lump, offset)
        both(2 * lump + 1, -1)
        c.no(13, "get 1", "run 0 5")
        both(2 * lump + 1, count)
        end = len(HOUSE.bytes()) - count * RECORD_SIZES[lump]
        both(2 * lump, end + 1)
        if count:
            c.no(13, "get 1", "abandon 0")
        else:
            c.ok("get 1")
        both(2 * lump, offset)
    c.ok("get 1")
    both(2 * FIELD_DEFS, 2**31 - 1)
    c.ok("get 1")
    both(2 * STRINGS + 1, 0)
    c.ok("get 1")
    both(2 * FUNCTIONS + 1, 1)  # function 1 is no more
    c.no(13, *ANY_CALL)
    both(2 * FUNCTIONS + 1, 2)
    c.ok("get 1", "abandon 0")
    longer = house(cell_count=70).bytes()
    struct.pack_into("<h", longer, HOUSE.place(STATEMENTS, 3) + 2, 62)  # the Return's operand
    struct.pack_into("<i", longer, local_place(OUTER, "local"), 63)
    c.new("lumps that moved in file and state: what they hold now counts", longer, 70)
    c.ok("load 0")
    both(2 * STATEMENTS + 1, 1)
    c.ok("enter 1")
    c.no(14, "statement", "carry")
    both(2 * STATEMENTS + 1, 2)
    c.ok("statement")
    both(2 * STATEMENTS + 1, 13)
    both(2 * CELLS + 1, 64)
    c.ok("field 14 3")
    c.no(15, "statement", "get 64")
    c.no(15, "abandon 0")
    both(2 * GLOBAL_DEFS + 1, 0)
    c.new("13: cells and cells per entity outside 10 and 11, though as recorded", house(cell_count=65), 65)
    c.ok("load 0", "enter 13")
    both(2 * CELLS + 1, 63)
    c.no(13, *ANY_CALL)
    both(2 * CELLS + 1, 64)
    c.ok("get 1")
    both(2 * CELLS + 1, 65)
    both(12, 104)
    c.no(13, *ANY_CALL)
    both(12, -1)
    c.no(13, "get 1")
    both(12, 106)
    c.ok("get 1")
    c.new("13: lent cells fewer than the file's", HOUSE.bytes() + bytes(4), 64)
    c.ok("load 0")
    both(2 * CELLS + 1, 65)
    c.no(13, *ANY_CALL)
    c.new("13: a saved store of 2,047", HOUSE, 64, 2047)
    c.no(12, "load 0")
    record_state(c)
    c.no(13, *ANY_CALL)
    c.new("the same state with a saved store of 2,048 passes, without any load", HOUSE, 64, 2048)
    record_state(c)
    c.ok("get 28", "enter 1", "put 28 1073741824", "statement", "abandon 0")

    c.new("13: depth over 31", HOUSE)
    c.ok("load 0", f"field {DEPTH} 31", "get 1")  # 31 times function 0, which has no locals
    c.no(22, "enter 1")
    c.ok(f"field {DEPTH} 32")
    c.no(13, *ANY_CALL)
    c.ok(f"field {DEPTH} 2147483647")
    c.no(13, *ANY_CALL)
    c.ok(f"field {DEPTH} 31", "abandon 30", "enter 1", "abandon 0")

    c.new("13: the current function is absent", HOUSE)
    c.ok("load 0", "enter 13")
    for number in (14, 15, 2147483647):
        c.ok(f"field {CURRENT} {number}")
        c.no(13, *(ANY_CALL if number == 14 else ("get 1", "abandon 0", "statement")))
    c.ok(f"field {CURRENT} 4", "get 1", "abandon 0")
    c.ok(f"field {CURRENT} 14", "get 1", "enter 13", "statement")  # at depth 0 it isn't looked at
    c.new("13: an entered function in a frame is absent; the lowest frame's isn't looked at", HOUSE)
    c.ok("load 0", "enter 13", "enter 4", "enter 13")
    for index in (1, 2):
        old = c.machine.state.frames[index].function
        c.ok(f"field {frame_field(index, True)} 14")
        c.no(13, *(ANY_CALL if index == 1 else ("get 1", "enter 1")))
        c.ok(f"field {frame_field(index, True)} {old}")
    c.ok(f"field {frame_field(0, True)} 2147483647", "get 1")
    c.ok(f"field {frame_field(3, True)} 14", f"field {frame_field(30, True)} 2147483647")
    c.ok(f"field {frame_field(30)} -5", "get 1")
    c.ok("abandon 2", "enter 13", "enter 13", "abandon 0", "enter 1", "abandon 0")
    c.new("13: negative local counts that add up", HOUSE)
    c.ok("load 0", "enter 13", "enter 5")
    c.number(local_place(NOTHING, "locals"), -1)
    c.ok(f"field {SAVED} 0")
    c.no(13, *ANY_CALL)
    c.ok(f"field {CURRENT} {NOTHING}", f"field {frame_field(1, True)} {RECURSIVE}")
    c.no(13, *ANY_CALL)
    c.ok(f"field {frame_field(1, True)} 4", f"field {SAVED} 1", f"field {CURRENT} {RECURSIVE}", "get 1")
    c.ok(f"field {frame_field(0, True)} {NOTHING}", "get 1", "abandon 0", "get 1")
    c.no(23, f"enter {NOTHING}")
    c.new("13: a saved count that isn't the sum", HOUSE)
    c.ok("load 0", f"field {SAVED} 1")
    c.no(13, *ANY_CALL)
    c.ok(f"field {SAVED} 0", "enter 1", "enter 2")
    for saved in (4, 6, 0, 2048):
        c.ok(f"field {SAVED} {saved}")
        c.no(13, *(ANY_CALL if saved == 4 else ("get 1", "abandon 1", "statement")))
    c.ok(f"field {SAVED} 5", "get 1")
    c.number(local_place(OUTER, "locals"), 3)
    c.no(13, "get 1", "statement")
    c.ok(f"field {SAVED} 6", "get 1")
    c.new("13: a saved count over 2,048 that is the sum", house(cell_count=2100), 2100, 2100)
    c.ok("load 0")
    c.number(local_place(LARGE, "locals"), 2048)
    c.ok(f"enter {LARGE}", "get 1")
    c.number(local_place(LARGE, "locals"), 2049)
    c.no(13, "get 1")
    c.ok(f"field {SAVED} 2049")
    c.no(13, *ANY_CALL)
    c.number(local_place(LARGE, "locals"), 2048)
    c.ok(f"field {SAVED} 2048", "abandon 0")
    c.new("a made-up state: frames and saved cells that no entry wrote", HOUSE)
    c.ok("load 0", f"field {DEPTH} 3", f"field {SAVED} 8", f"field {CURRENT} {OUTER}", f"field {POSITION} 3")
    c.ok(f"field {frame_field(0)} -9223372036854775808", f"field {frame_field(0, True)} 77")
    c.ok(f"field {frame_field(1)} 9223372036854775807", f"field {frame_field(1, True)} {INNER}")
    c.ok(f"field {frame_field(2)} 7", f"field {frame_field(2, True)} {INNER}")
    c.ok("get 40", "statement", "statement")
    c.no(14, "statement", "carry", "run 0 1")
    c.ok("enter 4", "abandon 1", "abandon 0")
    c.no(14, "statement", "carry")
    c.ok("enter 4", "abandon 0")
    c.new("positions far outside stand until a fetch", HOUSE)
    c.ok("load 0", "enter 4")
    for position in (-1, 13, 131072, 2**31, 2**32 + 8, 8 - 2**32, 2**63 - 1, -(2**63)):
        c.ok(f"field {POSITION} {position}")
        c.no(14, "statement", "carry", "run 0 3")
        c.ok("enter 13", "statement")
    c.ok(f"field {POSITION} 12", "put 39 13", "statement", "statement")


def settings_calls(c):
    """R-11: settings of a state made up by the host."""
    c.new("R-11: each setting at both ends, one past them and far out, in a state: 13", HOUSE)
    c.ok("load 0", f"enter {NOTHING}")
    ends = ((0, 65_535), (1, 31), (0, 2_048), (1, 99_999))
    for index, (least, greatest) in enumerate(ends):
        field = CHECK_NUMBER_HELD + index
        for value in (least, least + 1, greatest - 1, greatest):
            c.ok(f"field {field} {value}", "get 1")
        for value in (*range(least), greatest + 1, greatest + 65_536, 2_147_483_647):
            c.ok(f"field {field} {value}")
            c.no(13, *(ANY_CALL if value <= greatest + 1 else ("get 1", "abandon 0")))
        c.ok(f"field {field} {STANDARD[index]}", "get 1")
    c.new("R-11: a state of zeros but for what it records of the file, then the least settings", HOUSE)
    record_file(c)
    c.no(13, *ANY_CALL)
    c.ok(f"field {GREATEST_DEPTH} 1")
    c.no(13, *ANY_CALL)
    c.ok(f"field {GREATEST_LIMIT} 1", "get 1", f"field {GREATEST_DEPTH} 0")
    c.no(13, *ANY_CALL)
    c.ok(f"field {GREATEST_DEPTH} 1", f"enter {NOTHING}")
    c.no(22, f"enter {NOTHING}")
    c.no(28, "run 0 2")
    c.word("ended", "run 0 1")
    c.no(23, "enter 1")
    c.new("R-11: a saved store of 2,047, whatever saved count is the greatest", HOUSE, 64, 2047)
    c.no(12, "load 0")
    record_file(c)
    for saved in (0, 1, 2047, 2048):
        record_settings(c, STANDARD._replace(saved=saved))
        c.no(13, *(ANY_CALL if saved == 0 else ("get 1", "enter 13")))
    c.new("R-11: the check number held isn't compared with the file's", HOUSE)
    c.ok("load 0", "enter 1", "statement")
    for value in (0, 1, 5_926, 5_928, 65_535):
        c.ok(f"field {CHECK_NUMBER_HELD} {value}", "get 1", "put 36 13", "statement", "statement")
        c.word("ended", "run 0 1")
        c.ok("enter 1", f"byte 4 {value % 256}", "statement")
    c.ok("abandon 0", "get 40")
    depth_settings_calls(c)
    saved_settings_calls(c)
    limit_settings_calls(c)


def depth_settings_calls(c):
    c.new("R-11: a depth over the greatest is 13; at the greatest, entries are 22", HOUSE)
    c.ok("load 0", *[f"enter {NOTHING}"] * 3)
    for greatest in (2, 1):
        c.ok(f"field {GREATEST_DEPTH} {greatest}")
        c.no(13, *ANY_CALL)
    c.ok(f"field {GREATEST_DEPTH} 3", "get 1")
    c.no(22, f"enter {NOTHING}", "enter 1", f"enter {NEGATIVE_LOCALS}", f"enter {BUILTIN_ENTERED}")
    c.no(20, "enter 14", "enter -1")
    c.ok("statement", f"enter {NOTHING}")
    c.no(22, f"enter {NOTHING}")
    c.ok(f"field {GREATEST_DEPTH} 4", "enter 1")
    c.no(22, f"enter {NOTHING}")
    c.ok("statement")
    c.no(22, "statement", "run 0 5")
    c.ok("put 36 3")
    c.word("builtin", "statement", "run 0 5")  # a builtin needs no depth
    c.ok("carry")
    c.word("ended", "run 0 9")
    c.ok(f"field {GREATEST_DEPTH} 2", "load 0", *[f"enter {NOTHING}"] * 31)  # the load's settings are 01's
    c.no(22, f"enter {NOTHING}")
    c.new("R-11: depths made up, over the greatest, at it and below it", HOUSE)
    c.ok("load 0", f"field {GREATEST_DEPTH} 5", f"field {frame_field(7, True)} 77")  # no frame above the depth is looked at
    for depth in (6, 7, 31, 32, 2_147_483_647):
        c.ok(f"field {DEPTH} {depth}")
        c.no(13, *(ANY_CALL if depth == 6 else ("get 1", "abandon 0")))
    for depth in (4, 5):
        c.ok(f"field {DEPTH} {depth}", "get 1")
    c.no(22, "enter 1")
    c.ok("abandon 4", "enter 1", "abandon 0")
    for greatest in (2, 3, 7):
        c.new(f"R-11: Calls as deep as {greatest}", HOUSE)
        c.ok("load 0", f"field {GREATEST_DEPTH} {greatest}", "enter 5")
        assert c.do("run 0 99", 22).count == 2 * greatest - 1
        assert c.machine.state.depth == greatest
        c.no(22, "statement")
        c.ok(f"field {GREATEST_DEPTH} {greatest + 1}", "statement", "statement")
        c.no(22, "statement")
        c.ok(f"field {GREATEST_DEPTH} {greatest}")
        c.no(13, "statement", "abandon 0")
        c.ok(f"field {GREATEST_DEPTH} 31", f"abandon {greatest}", f"field {GREATEST_DEPTH} {greatest}", "abandon 0")


def saved_settings_calls(c):
    c.new("R-11: a saved count over the greatest is 13, though it is the sum; at the greatest it passes", HOUSE)
    c.ok("load 0", "enter 1", "enter 2")
    for greatest in (4, 0):
        c.ok(f"field {GREATEST_SAVED} {greatest}")
        c.no(13, *ANY_CALL)
    c.ok(f"field {GREATEST_SAVED} 5", "get 1", f"enter {NOTHING}")
    c.no(23, "enter 5", "enter 1", f"enter {NEGATIVE_LOCALS}", f"enter {LARGE}")
    c.ok(f"field {GREATEST_SAVED} 6", "enter 5")
    c.no(23, "enter 5")
    c.ok(f"enter {NOTHING}", f"field {SAVED} 7")
    c.no(13, "get 1")  # not the sum
    c.ok(f"field {GREATEST_SAVED} 7")
    c.no(13, "get 1")
    c.ok(f"field {SAVED} 6", "abandon 0", f"field {GREATEST_SAVED} 0", "get 1", f"enter {NOTHING}")
    c.no(23, "enter 5")
    c.new("R-11: 23 before 15, 22 before 23", HOUSE)
    c.ok("load 0", f"field {GREATEST_SAVED} 2")
    c.no(23, f"enter {MISSING_LOCALS}")
    c.ok(f"field {GREATEST_SAVED} 3")
    c.no(15, f"enter {MISSING_LOCALS}")
    c.ok("enter 2", f"field {GREATEST_DEPTH} 1")
    c.no(22, "enter 2")
    c.ok(f"field {GREATEST_DEPTH} 2")
    c.no(23, "enter 2")
    for greatest in (1, 2, 5):
        c.new(f"R-11: Calls that save {greatest}", HOUSE)
        c.ok("load 0", f"field {GREATEST_SAVED} {greatest}", "enter 5")
        assert c.do("run 0 99", 23).count == 2 * greatest - 1
        assert c.machine.state.saved == greatest
        c.no(23, "statement")
        c.ok(f"field {GREATEST_SAVED} {greatest - 1}")
        c.no(13, "statement", "abandon 0")
        c.ok(f"field {GREATEST_SAVED} {greatest}", "abandon 0")


def limit_settings_calls(c):
    c.new("R-11: 28 above the greatest limit, before 29; a run stops at it", HOUSE)
    c.ok("load 0", f"enter {ENDLESS}")
    for greatest in (1, 2, 5, 99_998):
        c.ok(f"field {GREATEST_LIMIT} {greatest}")
        c.no(28, f"run 0 {greatest + 1}", "run 0 99999", "run 0 0", "run 0 -1", f"run 1 {greatest + 1}", f"run -1 {greatest + 1}")
        c.no(29, f"run 1 {greatest}", f"run -1 {greatest}")
        for limit in (min(greatest, 5), 1):
            assert c.do(f"run 0 {limit}", "spent").count == limit
    c.ok(f"field {GREATEST_LIMIT} 3", "put 36 13", "enter 1")
    assert c.do("run 1 3", "spent").count == 3
    c.no(28, "run 1 4")
    assert c.do("run 1 3", "ended").count == 1


def raw_calls(c):
    c.new("raw access, by address alone", HOUSE, 66)
    c.ok("load 0")
    for cell in (0, 1, 28, 29, 40, 63):
        c.ok(f"get {cell}", f"put {cell} {0xFFFFFFFF - cell}", f"get {cell}")
    for cell in (-1, 64, 65, 66, 65536, 2147483647, -2147483648):
        c.no(15, f"get {cell}", f"put {cell} 9")


def depth_0_calls(c):
    c.new("statements at depth 0: like any other, Return refused 25 after its operands", HOUSE)
    c.ok("load 0")
    c.no(25, "statement")
    c.ok(f"byte {HOUSE.place(STATEMENTS)} 43")
    c.no(25, "statement")
    c.ok(f"byte {HOUSE.place(STATEMENTS) + 2} 62")
    c.no(15, "statement")
    c.ok(f"field {CURRENT} 99")
    c.no(15, "statement")
    c.ok(f"byte {HOUSE.place(STATEMENTS) + 2} 61")
    c.no(25, "statement")
    c.ok(f"field {CURRENT} 0", f"field {POSITION} 1", "statement", "statement", "get 44", "statement")
    c.word("builtin", "statement")
    c.ok("carry", "carry", "statement")
    c.no(25, "statement")
    c.ok("enter 0", f"byte {HOUSE.place(STATEMENTS) + 2} 28", "statement", "get 1")


def run_calls(c):
    c.new("28 and 29 at their edges", HOUSE)
    c.ok("load 0")
    c.no(29, "run 0 1", "run -1 1", "run 1 1")
    c.no(28, "run 0 0", "run 0 100000")
    c.ok("enter 4")
    c.no(28, "run 0 0", "run 0 -1", "run 0 100000", "run 0 2147483647", "run 0 -2147483648")
    c.no(28, "run -1 0", "run 1 0", "run 9 100000")
    c.no(29, "run -1 1", "run 1 1", "run 2 1", "run -2147483648 99999", "run 2147483647 99999")
    c.word("spent", "run 0 1", "run 0 99999")
    c.ok(f"field {POSITION} 99")
    c.no(28, "run 0 0")
    c.no(29, "run 1 5")
    c.no(14, "run 0 5")
    c.ok("enter 4", "enter 13")
    c.no(29, "run 3 5")
    c.word("ended", "run 2 1")
    c.new("the statement after the limit isn't fetched: spent, though there is none", HOUSE)
    at = HOUSE.place(STATEMENTS, 8)
    c.ok("load 0", f"byte {at + 2} 77", "enter 4")
    c.word("spent", "run 0 1")
    c.no(14, "run 0 1")
    c.ok(f"field {POSITION} 8", f"byte {at + 2} 1", f"byte {at + 8} 66")
    c.word("spent", "run 0 1")
    c.no(7, "run 0 1")
    c.new("ended at exactly the limit, spent one short of it, refused and handed over at the limit", HOUSE)
    c.ok("load 0", "put 36 13")
    for limit, word in ((3, "spent"), (4, "ended"), (5, "ended")):
        c.ok("enter 1")
        c.do(f"run 0 {limit}", word)
        if word == "spent":
            c.word("ended", "run 0 1")
    c.ok("put 36 2")
    for limit, word in ((2, "spent"), (3, "spent"), (4, "builtin")):
        c.ok("enter 1")
        c.do(f"run 0 {limit}", word)
        c.ok("abandon 0")
    c.ok("put 36 14")
    for limit, word in ((1, "spent"), (2, "refused")):
        c.ok("enter 1")
        assert c.do(f"run 0 {limit}", word).count == 1
        c.ok("abandon 0")
    c.new("a refused statement leaves what the ones before it did, and the count", HOUSE)
    c.ok("load 0", "put 36 5", "put 38 10", "enter 1")
    assert c.do("run 0 50", 15) == Answer("refused", 15, 3)
    assert c.do("run 0 50", 15) == Answer("refused", 15, 0)
    c.ok("put 38 5")
    assert c.do("run 0 500", 22).count == 58
    c.ok("abandon 17")
    c.word("spent", "run 3 5")
    c.ok("put 38 0", "enter 5")
    c.no(19, "run 3 5")


def carry_calls(c):
    c.new("carry on: 14, 7, 27, and what is handed over", HOUSE)
    c.ok("load 0")
    at = HOUSE.place(STATEMENTS)
    c.no(27, "carry")  # Done
    c.ok("enter 1")
    c.no(27, "carry")  # plain
    c.ok("statement")
    c.no(27, "carry")  # a Call that would enter
    for value in (0, 14, 0xFFFFFFFF, 3, 8, 10, 6, 9):
        c.ok(f"put 36 {value}")
        c.do("carry", 27 if value not in (3, 9) else "accepted")
        c.ok(f"field {POSITION} 2")
    c.ok(f"byte {at + 2 * 8 + 2} 29")  # the operand is a string now
    c.no(27, "carry")
    c.no(16, "statement")
    c.ok(f"byte {at + 2 * 8 + 2} 64")
    c.no(27, "carry")
    c.no(15, "statement")
    c.ok(f"byte {at + 2 * 8 + 2} 37", "carry")
    c.no(27, "carry")  # Return
    for opcode in range(66):
        if opcode in (*range(24, 32), *range(36, 44), 59, 60, 61) or opcode % 16 == 0:
            c.ok(f"byte {at + 3 * 8} {opcode}", f"field {POSITION} 3")
            c.do("carry", "accepted" if opcode in HOST_OPCODES else 27)
    c.ok(f"field {POSITION} 3", f"byte {at + 3 * 8} 66")
    c.no(7, "carry", "statement", "run 0 4")
    c.ok(f"byte {at + 3 * 8 + 1} 255")
    c.no(7, "carry")
    c.ok(f"byte {at + 3 * 8} 255")
    c.no(7, "carry", "statement")
    for position in (-1, 13, 14):
        c.ok(f"field {POSITION} {position}")
        c.no(14, "carry")
    c.new("carry on looks at the cells as they now are", HOUSE)
    c.ok("load 0", "enter 2", "statement")
    c.word("builtin", "statement")
    c.ok("put 37 13")
    c.no(27, "carry")
    c.ok("put 37 0")
    c.no(27, "carry")
    c.ok("put 37 3")
    c.number(local_place(BUILTIN, "first"), -5)
    c.no(27, "carry")
    c.no(5, "statement", "run 0 1")
    c.number(local_place(BUILTIN, "first"), -78)
    assert c.do("statement") == Answer("builtin", 78, 0)
    c.ok("carry")
    c.word("opcode", "run 0 1")
    for opcode in (6, 24, 30):
        c.ok(f"byte {at + 6 * 8} {opcode}")
        c.no(27, "carry")
        c.no(15, "statement")
    c.ok(f"byte {at + 6 * 8} 38")
    c.no(27, "carry")
    c.no(18, "statement")
    c.ok(f"byte {at + 6 * 8} 60")
    assert c.do("run 0 1") == Answer("opcode", 60, 0)
    c.ok("carry")
    c.new("carry on at the last statement: the position stands past it", HOUSE)
    c.ok("load 0", "enter 4", f"field {POSITION} 12", "put 39 9")
    c.ok("carry")
    c.no(14, "carry", "statement")


def abandon_calls(c):
    c.new("abandon: its edges", HOUSE)
    c.ok("load 0", "abandon 0")
    c.no(29, "abandon 1", "abandon -1", "abandon 31", "abandon 2147483647", "abandon -2147483648")
    c.ok("enter 1", "abandon 1")
    c.no(29, "abandon 2", "abandon -1")
    c.ok("put 40 7", "put 41 8", "put 1 9", "abandon 0", "get 40", "get 41", "get 1")
    c.new("abandon over several functions that share cells: innermost first", HOUSE)
    c.ok("load 0")
    order = (OUTER, SAME_LOCALS, INNER, OUTER, SAME_LOCALS, NOTHING, RECURSIVE, 0)
    for target in (0, 1, 3, 7):
        for index, number in enumerate(order[c.machine.state.depth :]):
            c.ok(f"enter {number}", f"put {40 + index % 5} {1000 * target + index}")
        c.ok(f"abandon {target}")
    c.ok("abandon 0")
    c.new("abandon with a local cell that is missing: 15, and nothing is left", HOUSE)
    c.ok("load 0", "enter 1", "enter 2", "enter 5", "enter 12")
    c.number(local_place(INNER, "local"), 62)
    c.no(15, "abandon 0", "abandon 1")
    c.ok("abandon 2")
    c.no(15, "abandon 0", "abandon 1")
    c.number(local_place(INNER, "local"), -1)
    c.no(15, "abandon 1")
    c.number(local_place(INNER, "local"), 61)
    c.ok("abandon 1")
    c.number(local_place(OUTER, "local"), 2147483647)
    c.no(15, "abandon 0")
    c.ok("abandon 1")
    c.number(local_place(OUTER, "local"), 42)
    c.ok("abandon 0", "get 42", "get 40")
    c.ok("enter 13")
    c.number(local_place(NOTHING, "local"), -7)  # an empty range has no cell to miss
    c.ok("abandon 0")
    c.new("Return with a local cell that is missing", HOUSE)
    c.ok("load 0", "enter 12")
    c.number(local_place(SAME_LOCALS, "local"), 61)
    c.no(15, "statement", "run 0 1")
    c.number(local_place(SAME_LOCALS, "local"), 60)
    c.ok("statement")


def refused_entry_calls(c):
    c.new("refused entries pile nothing up: 40 of them, then one that is taken", HOUSE)
    c.ok("load 0")
    kinds = ((-1, 20), (14, 20), (6, 23), (7, 15), (8, 24), (9, 21), (10, 15), (11, 15), (3, 24))
    kinds += ((-2147483648, 20),)
    for index in range(40):
        number, refusal = kinds[index % len(kinds)]
        c.no(refusal, f"enter {number}")
    c.ok("enter 1")
    for index in range(40):
        number, refusal = kinds[(index * 3) % len(kinds)]
        c.no(23 if number == LARGE else refusal, f"enter {number}")  # 2 saved and 2,047
    c.ok("enter 2", "abandon 0")
    c.new("refused Calls pile nothing up", HOUSE)
    c.ok("load 0", "enter 1", "statement")
    refusals = ((0, 19), (14, 20), (0xFFFFFFFF, 20), (6, 23), (7, 23), (8, 24), (10, 15), (11, 15))
    for value, refusal in refusals:
        c.ok(f"put 36 {value}")
        for _ in range(5):
            c.no(refusal, "statement")
        c.no(refusal, "run 0 5")
    c.ok("put 36 2", "statement", "abandon 0")
    c.new("entries of bytes that changed: builtins that are none, locals, arguments", HOUSE)
    c.ok("load 0")
    c.number(local_place(BUILTIN_ENTERED, "first"), -5)
    c.no(21, f"enter {BUILTIN_ENTERED}")
    c.number(local_place(BUILTIN_ENTERED, "first"), -2147483648)
    c.no(21, f"enter {BUILTIN_ENTERED}")
    c.number(local_place(BUILTIN_ENTERED, "first"), 2147483647)
    c.ok(f"enter {BUILTIN_ENTERED}")
    c.no(14, "statement")
    c.ok("abandon 0")
    c.number(local_place(INNER, "name"), -1)
    c.number(local_place(INNER, "source"), 99)
    c.number(local_place(INNER, "profile"), -99)
    c.ok("enter 2")
    c.number(local_place(INNER, "arguments"), -1)
    c.no(24, "enter 2")
    c.ok("abandon 0")
    c.number(local_place(INNER, "arguments"), 8)
    at = HOUSE.place(FUNCTIONS, INNER) + 28
    c.bytes(at, bytes([1, 0, 2, 3, 0, 1, 1, 1]))
    c.ok("enter 2", "get 44", "get 45", "get 52", "abandon 0", "get 44", "get 52")
    c.bytes(at, bytes([255]))
    c.no(15, "enter 2")


def nested_calls(c):
    c.new("31 nested entries, and abandonment to each depth", HOUSE)
    c.ok("load 0")
    order = [OUTER, RECURSIVE, INNER, NOTHING, SAME_LOCALS]
    for target in range(31, -1, -1):
        while c.machine.state.depth < 31:
            depth = c.machine.state.depth
            c.ok(f"enter {order[(depth * 7 + target) % 5]}")
        c.no(22, "enter 1")
        c.ok(f"abandon {target}")
    c.new("depth 31 by Calls: entry and Call refused 22, Return still possible", HOUSE)
    c.ok("load 0", "enter 5")
    assert c.do("run 0 99999", 22) == Answer("refused", 22, 61)
    c.no(22, "statement", "enter 13", "enter 6", "enter 9")
    c.no(20, "enter 14", "enter -1")
    c.ok(f"field {POSITION} 5")
    c.word("builtin", "statement", "run 0 1")  # a builtin needs no depth
    c.ok("carry")
    c.word("opcode", "statement")
    c.ok(f"field {POSITION} 11", "statement", "statement", "statement")
    c.word("ended", "run 7 99999", "run 0 99999")
    c.new("no functions: a Call of 0 is 19 all the same", Assembly([("Call0", 28)]))
    c.ok("load 0")
    c.no(19, "statement")
    c.ok("put 28 1")
    c.no(20, "statement", "enter 0")
    c.no(27, "carry")
    c.new("saved store: 2,000 and 48 are taken, 49 not", house(cell_count=2100), 2100)
    c.ok("load 0")
    c.number(local_place(LARGE, "locals"), 2000)
    c.number(local_place(INNER, "locals"), 49)
    c.ok(f"enter {LARGE}")
    c.no(23, "enter 2")
    c.number(local_place(INNER, "locals"), 48)
    c.ok("enter 2", "enter 13")
    c.no(23, "enter 5", "enter 1")
    c.ok("abandon 1", "enter 1")
    c.no(23, "enter 2")
    c.ok("abandon 0")


# function 1 does the four on cell 4, function 2 calls rint by Call0 to Call8, function 3 rounds without end
ALL_FOUR, EVERY_CALL, ROUNDS_ON, RINT, FLOOR, CEIL, FABS, FLOOR_ENTERED, FLOOR_LOCALS, BESIDE = range(1, 11)
ROUNDING = Assembly(
    statements=[
        ("Done", 28),
        *[statement for i in range(4) for statement in (("Call1", 36 + i), ("StoreF", 1, 40 + i))],
        ("Return", 40),  # 9
        *[(f"Call{count}", 36) for count in range(9)],  # 10 to 18
        ("Return", 1),
        ("Call1", 36),  # 20
        ("Goto", -1),
        ("Call1", 37),  # 22, the last
    ],
    functions=[
        function(),
        function(1),
        function(10, 50, 2, (1,)),
        function(20),
        *[function(-number, arguments=-1) for number in (36, 37, 38, 43)],
        function(-37),
        function(-37, 62, 3),
        function(-35, arguments=-1),
    ],
    cells={36: RINT, 37: FLOOR, 38: CEIL, 39: FABS, 44: EVERY_CALL, 50: flt(50.5), 51: flt(51.5)},
    definitions=[(FLOAT, 4), (FLOAT, 1), (FUNCTION, 36)],
)


def rounding_values(c):
    c.new("R-1: rint, floor, ceil and fabs of one cell, by runs that end after 9 statements", ROUNDING)
    c.ok("load 0")
    sizes = (HALF, 0x3EFFFFFF, flt(1.5), flt(2.5), 0x4AFFFFFF, flt(8388609.0), LEAST)
    values = [value for size in sizes for value in (size, MINUS_ZERO | size)]
    for value in (SIGNALLING_NAN, *values, 0, MINUS_ZERO, MINUS_INFINITY, NEGATIVE_NAN):
        c.ok(f"put 4 {value}", "enter 1")
        assert c.do("run 0 20") == Answer("ended", 0, 9)
    c.new("R-1: each counts as one completed statement, and the run goes on", ROUNDING)
    c.ok("load 0", f"put 4 {flt(-2.5)}", "enter 1", "statement", "get 1", "statement")
    assert c.do("run 0 1") == Answer("spent", 0, 1)
    assert c.machine.state.position == 4 and c.machine.cells[1] == flt(-3.0)
    assert c.do("run 0 6") == Answer("ended", 0, 6)
    for limit, word in ((8, "spent"), (9, "ended")):
        c.ok("enter 1")
        assert c.do(f"run 0 {limit}", word).count == limit
        c.ok("abandon 0")
    c.ok(f"put 4 {HALF}", f"enter {ROUNDS_ON}")
    assert c.do("run 0 99999") == Answer("spent", 0, 99_999)
    assert c.machine.state.position == 21
    c.new("R-1: Call0 to Call8 alike; the caller's locals are restored", ROUNDING)
    c.ok("load 0", f"put 4 {flt(-0.25)}", f"enter {EVERY_CALL}", *["statement"] * 4)
    c.word("ended", "run 0 6")
    c.ok("get 1", "get 50", f"put 4 {flt(6.5)}", f"enter {EVERY_CALL}")
    assert c.do("run 0 99") == Answer("ended", 0, 10)
    c.ok("get 1")


def rounding_refusals(c):
    c.new("R-1: 16 for cell 4 and for cell 1; carrying on is 27 in either case", ROUNDING)
    argument, result, called = (ROUNDING.place(GLOBAL_DEFS, index) for index in range(3))
    c.ok("load 0", f"put 4 {flt(2.5)}", "put 1 7", "enter 1")
    for place in (argument, result):
        for type_ in (STRING, POINTER, FUNCTION):
            c.ok(f"byte {place} {type_}")
            c.no(16, "statement")
            c.no(27, "carry")
            assert c.do("run 0 5", 16).count == 0
        c.ok(f"byte {place} {VECTOR}")
    c.no(27, "carry")
    c.ok("statement", "get 1", f"byte {argument} {STRING}")
    assert c.do("run 0 5", 16).count == 1  # the StoreF from cell 1 is completed
    c.ok(f"put 37 {BESIDE}")
    c.word("builtin", "statement")  # another builtin looks at neither cell
    c.ok("carry")
    c.new("R-1: the Call's own checks first: 16, 19, 20, 5", ROUNDING)
    c.ok("load 0", "enter 1", f"byte {argument} {STRING}", f"byte {result} {STRING}", f"byte {called} {FLOAT}", "put 36 0")
    c.no(16, "statement")
    c.ok(f"byte {called} {FUNCTION}")
    for value, refusal in ((0, 19), (11, 20), (0xFFFFFFFF, 20), (RINT, 16)):
        c.ok(f"put 36 {value}")
        c.no(refusal, "statement", "run 0 1")
        c.no(27, "carry")
    record = ROUNDING.place(FUNCTIONS, RINT)
    c.number(record, -39)
    c.no(5, "statement")
    c.number(record, 9)  # no builtin any more, and with no arguments it can be entered
    c.number(record + 24, 0)
    c.ok("statement", "statement")
    c.new("R-1: a host entry of the four is refused as before", ROUNDING)
    c.ok("load 0", f"put 4 {flt(2.5)}")
    c.no(24, *[f"enter {number}" for number in (RINT, FLOOR, CEIL, FABS)])
    c.no(21, f"enter {FLOOR_ENTERED}")
    c.no(15, f"enter {FLOOR_LOCALS}")


def rounding_elsewhere(c):
    c.new("R-1: bytes that changed: which builtin it is now counts", ROUNDING)
    c.ok("load 0", f"put 4 {flt(-1.5)}", "enter 1")
    for number, result in ((36, -2.0), (37, -2.0), (38, -1.0), (43, 1.5)):
        c.number(ROUNDING.place(FUNCTIONS, RINT), -number)
        c.ok(f"field {POSITION} 1")
        c.no(27, "carry")
        c.ok("statement")
        assert c.machine.cells[1] == flt(result)
    for number in (35, 44):
        c.number(ROUNDING.place(FUNCTIONS, RINT), -number)
        c.ok(f"field {POSITION} 1")
        assert c.do("statement") == Answer("builtin", number)
        c.ok("carry")
    c.new("R-1: at depth 0, at depth 31, at the last statement", ROUNDING)
    c.ok("load 0", f"put 4 {flt(-1.5)}", f"field {POSITION} 1", "statement", "get 1", f"field {POSITION} 22", "statement")
    c.no(14, "statement", "carry")
    c.ok(*["enter 1"] * 31)
    c.no(22, "enter 1")
    c.ok("statement", "statement", "statement")
    c.word("ended", "run 30 99")
    c.ok("abandon 0", "get 1")


def random_calls(c):
    chance = Xorshift(521288629)
    for index in range(36):
        assembly = random_program(chance, hosts=True)
        c.new(f"calls by chance, {index}", assembly, 64 + chance.below(4))
        c.ok("load 0")
        for _ in range(28):
            c.do(random_call(chance, c.machine, assembly))


def random_entity_calls(c):
    chance = Xorshift(362436069)
    for index in range(10):
        assembly = random_program(chance, hosts=True, entities=True)
        c.new(f"R-3: calls by chance, {index}", assembly, 64, 2048, 3 * 105 + chance.below(3))
        c.ok(f"load {2 + chance.below(2)}")
        for _ in range(40):
            if chance.below(6) == 0:
                c.do(random_entity_change(chance, c.machine))
            else:
                c.do(random_call(chance, c.machine, assembly))


def random_entity_change(chance, machine):
    kind = chance.below(10)
    if kind < 6 and machine.entity_cells:
        return f"eput {chance.below(len(machine.entity_cells))} {chance.pick(CHANCE_FLOATS)}"
    if kind < 8:
        return f"put {56 + chance.below(8)} {chance.pick([0, 1, 2, 3, 104, 105, 420, 836, 1256])}"
    if kind < 9:
        return f"field {ENTITIES} {chance.below(5)}"
    return f"lend {chance.pick([0, 209, 210, 314, 315, 315, 420, 430])} {chance.draw()}"


def random_call(chance, machine, assembly):
    depth = machine.state.depth
    kind = chance.below(100)
    if kind < 18:
        return f"enter {1 + chance.below(5) if chance.below(6) else chance.below(10) - 1}"
    if kind < 38:
        return "statement"
    if kind < 60:
        target = chance.below(depth + 1) if depth and chance.below(8) else chance.below(depth + 3) - 1
        return f"run {target} {chance.pick([1, 2, 5, 20, 100, 300]) if chance.below(12) else 0}"
    if kind < 72:
        return "carry"
    if kind < 78:
        return f"abandon {chance.below(depth + 1) if chance.below(5) else chance.below(depth + 3) - 1}"
    if kind < 83:
        return f"get {chance.below(68) - 2}"
    if kind < 90:
        return f"put {chance.below(66) - 1} {chance.pick(CHANCE_FLOATS)}"
    if kind < 94:
        return f"put {40 + chance.below(4)} {chance.below(8)}"
    if kind < 97:
        return f"field {POSITION} {chance.below(40)}"
    place = assembly.place(STATEMENTS, 1 + chance.below(30)) + chance.below(8)
    return f"byte {place} {chance.below(66)}"


def large_calls(c):
    """Files near the greatest length, of many records."""
    last = (FUNCTIONS, STRINGS, FIELD_DEFS, CELLS, GLOBAL_DEFS, STATEMENTS)
    entered = [function(), function(100_000), function(65_536, 40, 1)]
    many = Assembly([("Done",)] * 130_000, entered, layout=last, cells={0: 7, 28: 2, 40: 3})
    c.new("130,000 statements: a function at 100,000, another at 65,536", many)
    at = many.place(STATEMENTS, 100_000)
    c.ok("load 0", "enter 1", "statement", "enter 1", f"byte {at} 51", f"byte {at + 2} 28", "statement")
    c.word("ended", "run 0 9")
    c.ok(f"field {POSITION} 130000")
    c.no(14, "statement")
    c.ok(f"field {POSITION} 129999")
    c.no(25, "statement")
    c.ok("enter 1", f"byte {at} 61", f"byte {at + 3} 128", "statement", "get 0")
    c.word("ended", "run 0 9")
    last = (STATEMENTS, STRINGS, FIELD_DEFS, CELLS, GLOBAL_DEFS, FUNCTIONS)
    many = Assembly([("Done",), ("Call0", 28)], [function()] * 29_000, layout=last, cells={28: 28_999})
    c.new("29,000 functions", many)
    c.ok("load 0", "enter 28999", f"field {POSITION} 1", "statement", "statement", "abandon 0")
    c.no(20, "enter 29000")
    many_voids(c)


def call_cases():
    c = Calls()
    life_calls(c)
    load_calls(c)
    state_calls(c)
    settings_calls(c)
    raw_calls(c)
    depth_0_calls(c)
    run_calls(c)
    carry_calls(c)
    abandon_calls(c)
    refused_entry_calls(c)
    nested_calls(c)
    rounding_values(c)
    rounding_refusals(c)
    rounding_elsewhere(c)
    entity_calls(c)
    string_calls(c)
    void_calls(c)
    random_calls(c)
    random_entity_calls(c)
    large_calls(c)
    return c

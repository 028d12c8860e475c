"""Records read through the view, and programs gone through statement by statement: cases/traces.txt."""

from call_cases import digest_of
from common import ONE, TWO, Xorshift, flt, hex_of, program, random_program, triple
from model import (
    ENTITY, FIELD, FLOAT, FUNCTION, FUNCTIONS, GLOBAL_DEFS, POINTER, RECORD_SIZES, SAVE_FLAG, STATEMENTS,
    STRING, VECTOR, VOID, Answer, Machine, Program, function,
)
from string_cases import string_traces

MOST_STEPS = 40


class Traces:
    def __init__(self):
        self.lines = []
        self.seen = []  # (line's word, first word of what is expected, its number)
        self.machine = None
        self.file = b""

    def note(self, text):
        self.lines.append(f"# {text}")

    def new(self, assembly, refused=0, entities=0, lent=0):
        """64 lent cells, a saved store of 2,048 and entity cells, as the file before left them; zeros at
        first, and entity cells anew where another number of them is lent."""
        cells, saved, entity_cells = [0] * 64, [0] * 2048, []
        if self.machine:
            cells, saved, entity_cells = self.machine.cells, self.machine.saved_store, self.machine.entity_cells
        if len(entity_cells) != lent:
            entity_cells = [0] * lent
        self.file = assembly.bytes()
        self.machine = Machine(self.file, cells, saved, entity_cells)
        answer = self.machine.load(entities)
        assert answer.detail == refused, answer
        self._write(f"new {hex_of(self.file)} {entities} {lent}", [*answer[:2]])

    def _write(self, line, expected):
        self.lines.append(f"{line} = {' '.join(map(str, expected))}")
        self.seen.append((line.split(" ")[0], *expected[:2]))

    # -- what the view's readers find ----------------------------------------------------------

    def _records(self, lump, lent):
        """The lump's count, and the reader of its records; nothing where refusal 4's condition fails."""
        offset, count = self.machine.state.lumps[2 * lump : 2 * lump + 2]
        if offset < 0 or count < 0 or (count > 0 and offset + RECORD_SIZES[lump] * count > lent):
            return None, None
        return count, Program(bytes(self.file[:lent]), self.machine.state.lumps)

    def _statement(self, position, lent):
        count, program_ = self._records(STATEMENTS, lent)
        if program_ is None:
            return ["refused", 4]
        if not 0 <= position < count:
            return ["refused", 14]
        record = program_.statement(position)
        if not 0 <= record.opcode <= 65:
            return ["refused", 7]
        return ["at", position, *(number & 0xFFFF for number in record)]

    def statement(self, position, lent=None):
        lent = len(self.file) if lent is None else lent
        self._write(f"statement {position} {lent}", self._statement(position, lent))

    def function(self, number, lent=None):
        lent = len(self.file) if lent is None else lent
        count, program_ = self._records(FUNCTIONS, lent)
        fields = [0] * 14
        if program_ is None:
            answer = Answer("refused", 4)
        elif not 0 <= number < count:
            answer = Answer("refused", 20)
        else:
            answer, record = Answer("accepted"), program_.function(number)
            first, local, locals_, _, name, source, arguments, sizes = record
            fields = [x & 0xFFFFFFFF for x in (first, local, locals_, name, source, arguments)] + [*sizes]
        self._write(f"function {number} {lent}", [*answer[:2], *fields])

    def definition(self, index, lent=None):
        lent = len(self.file) if lent is None else lent
        count, program_ = self._records(GLOBAL_DEFS, lent)
        if program_ is None:
            expected = ["refused", 4]
        elif not 0 <= index < count:
            expected = ["none"]
        else:
            type_, cell, name = program_.definition(GLOBAL_DEFS, index)
            expected = ["at", type_, cell, name & 0xFFFFFFFF]
        self._write(f"definition {index} {lent}", expected)

    # -- the machine ---------------------------------------------------------------------------

    def byte(self, place, value):
        self.file[place] = value
        self._write(f"byte {place} {value}", ["accepted", 0])

    def _state(self):
        state = self.machine.state
        return [state.position, state.function, state.depth, state.saved, f"{digest_of(self.machine):016x}"]

    def _lent(self, lent, operation):
        """The operation with so many of the file's bytes lent."""
        self.machine.file = self.file[:lent]
        answer = operation()
        self.machine.file = self.file
        return answer

    def enter(self, number, refused=0):
        answer = self.machine.enter(number)
        assert answer.detail == refused, answer
        self._write(f"enter {number} {len(self.file)}", [*answer[:2], *self._state()])

    def trace(self, lent=None):
        """The record of the statement at the position, and then one step."""
        lent = len(self.file) if lent is None else lent
        record = self._statement(self.machine.state.position, lent)
        answer = self._lent(lent, self.machine.statement)
        self._write(f"trace 0 {lent}", [*record, *answer[:2], *self._state()])
        return answer

    def through(self):
        """Steps until the depth is 0 or one does not complete, at most MOST_STEPS."""
        for _ in range(MOST_STEPS):
            if self.trace().word != "accepted" or self.machine.state.depth == 0:
                return

    def records(self):
        """Each record of three lumps, with one before the first and one after the last."""
        lumps = self.machine.state.lumps
        for lump, read in ((STATEMENTS, self.statement), (FUNCTIONS, self.function), (GLOBAL_DEFS, self.definition)):
            for index in range(-1, lumps[2 * lump + 1] + 1):
                read(index)


def example():
    """01's own file."""
    statements = [("AddF", 28, 29, 30), ("Return", 30)]
    return program(*statements, functions=[function(1, 30, 1)], cells={28: flt(1.5), 29: flt(2.25)})


def calling():
    """A call with arguments, a branch taken and one not taken, a builtin, definitions of several types."""
    statements = [
        ("StoreF", 28, 4),  # 1
        ("StoreV", 31, 7),
        ("Call2", 40),  # enters function 2
        ("IfNot", 1, 2),  # cell 1 is not 0
        ("If", 1, 2),
        ("Done",),  # 6, jumped over
        ("Call0", 41),  # a builtin
        ("Return", 28),
        ("MulFV", 44, 45, 50),  # 9: function 2
        ("Goto", 2),
        ("Done",),
        ("Return", 50),  # 12
    ]
    functions = [
        function(1, 30, 2, name=5, source=1, profile=77),
        function(9, 44, 6, (1, 3), name=300, source=1),
        function(-7, arguments=-1, name=2),
    ]
    cells = {28: TWO, 31: ONE, 32: TWO, 33: flt(-0.5), 40: 2, 41: 3}
    definitions = [(FLOAT | SAVE_FLAG, 28, 258), (VECTOR, 31, 3), (FUNCTION, 40, 4), (FUNCTION, 41, 2)]
    return program(*statements, functions=functions, cells=cells, definitions=definitions, strings=bytes(320))


def rounding():
    """R-1's four builtins, called from two depths; then one whose cell 4 is of another type."""
    statements = [
        ("StoreF", 28, 4),  # 1
        ("Call1", 40),
        ("Call1", 41),
        ("Call0", 44),  # enters function 2
        ("Return", 1),
        ("Call1", 42),  # 6: function 2
        ("Call1", 43),
        ("Return", 1),
        ("Call1", 43),  # 9: function 3
    ]
    functions = [function(1), function(6, 4, 1), function(9)]
    functions += [function(-number, arguments=-1) for number in (36, 37, 38, 43)]
    cells = {28: flt(-2.5), 40: 4, 41: 5, 42: 6, 43: 7, 44: 2}
    return program(*statements, functions=functions, cells=cells, definitions=[(FLOAT, 4), (FLOAT, 1)])


def fielded():
    """R-3: pointers made, all six kinds written and read back; one player after another, until there is none."""
    kinds = ((28, "F", 0), (29, "V", 1), (32, "S", 4), (33, "Ent", 5), (34, "Fld", 6), (35, "Fnc", 7))
    statements = []
    for source, kind, field in kinds:
        statements += [("Address", 40, 41 + field, 56), (f"StoreP{kind}", source, 56), (f"Load{kind}", 40, 41 + field, 57)]
    statements += [
        ("Call1", 53),  # 19: enters function 2
        ("Return", 28),
        ("LoadEnt", 40, 46, 40),  # 21: function 2 has the player as a local
        ("Address", 40, 46, 56),
        ("StorePEnt", 54, 56),  # the one after it is number 3
        ("Call0", 53),
        ("Return", 40),
        ("StorePV", 28, 55),  # 26: function 3, at the last cells of the last player
        ("StorePF", 28, 55, 1),  # 27: function 4
        ("Call0", 52),  # 28: function 5 enters function 6, which writes and returns
        ("Return", 28),
        ("Address", 40, 41, 56),  # 30
        ("StorePF", 31, 56),
        ("Return", 29),
    ]
    functions = [function(1, 57, 3), function(21, 40, 1), function(26), function(27), function(28), function(30, 56, 1)]
    cells = {28: flt(1.25), **triple(29, (ONE, TWO, flt(-0.5))), 32: 2, 33: 2, 34: 7, 35: 3, 52: 6, 53: 2, 54: 3, 55: 4 * 316}
    cells |= {40: 1, **{41 + field: field for field in range(8)}}
    fields = [(FLOAT, 0), (VECTOR, 1), (STRING, 4), (ENTITY, 5), (VOID, 6), (FIELD, 6), (FUNCTION, 7)]
    definitions = [(POINTER, 56), (ENTITY, 40), (FIELD, 41)]
    return program(
        *statements, functions=functions, cells=cells, definitions=definitions, fields=fields, cells_per_entity=106
    )


def refusing():
    """The last statement of each function but one is refused or not there."""
    statements = [("AddF", 28, 29, 30), ("AddF", 28, -1, 30), ("StoreF", 28, 29, 1), ("Address", 1, 2, 3), ("Goto", -9)]
    functions = [function(1), function(3), function(4), function(5), function(99)]
    return program(*statements, functions=functions, cells={28: ONE}, definitions=[(STRING, 30)])


def cut(t):
    """Reads and a step with fewer bytes lent: to the end of each lump, and one byte less."""
    ends = [(lump, t.machine.state.lumps[2 * lump + 1]) for lump in (STATEMENTS, GLOBAL_DEFS, FUNCTIONS)]
    for lump, count in ends:
        end = t.machine.state.lumps[2 * lump] + RECORD_SIZES[lump] * count
        for lent in (end, end - 1):
            t.statement(0, lent)
            t.function(1, lent)
            t.definition(0, lent)
    t.trace(len(t.file) - 1)


def trace_cases():
    t = Traces()
    t.note("01's own file: every record, and each statement of the run")
    t.new(example())
    t.records()
    t.enter(1)
    t.through()
    t.note("calls, branches, a builtin; fewer bytes lent")
    t.new(calling())
    t.records()
    t.enter(1)
    cut(t)
    t.through()
    t.note("R-1: the four builtins done inside")
    t.new(rounding())
    t.enter(1)
    t.through()
    t.byte(t.machine.state.lumps[2], STRING)  # cell 4
    t.enter(3)
    t.through()
    fielded_cases(t)
    string_traces(t)
    t.note("refused statements, and positions where there is none")
    t.new(refusing())
    t.records()
    for number in range(1, 6):
        t.enter(number)
        t.through()
        t.through()
    t.enter(-1, 20)
    t.enter(6, 20)
    t.note("an opcode that is none, in bytes that changed after the load; numbers far outside")
    t.new(calling())
    t.byte(t.machine.state.lumps[0] + 8, 66)
    t.statement(1)
    t.enter(1)
    t.through()
    for number in (2**31, 2**63 - 1, -(2**63)):
        t.statement(number)
        t.function(number)
        t.definition(number)
    t.note("a file that is refused: nothing is recorded of it")
    broken = calling()
    broken.version = 7
    t.new(broken, 2)
    t.records()
    t.trace()
    chance_cases(t)
    return t


def fielded_cases(t):
    t.note("R-3: entity fields: written through pointers and read, until an entity is not below the number")
    t.new(fielded(), entities=3, lent=318)
    t.enter(5)
    t.through()
    t.enter(1)
    t.through()
    t.note("R-3: what was written stays, by a load too; fewer entities of the same lent cells")
    t.new(fielded(), entities=2, lent=318)
    for number in (3, 4, 1):
        t.enter(number)
        t.through()
    t.note("R-3: lent entity cells anew, zeros: enough, one short, none; too many entities")
    t.new(fielded(), entities=3, lent=320)
    t.enter(3)
    t.through()
    t.new(fielded(), 13, entities=3, lent=317)
    t.trace()
    t.new(fielded(), 13, entities=-1, lent=317)
    t.new(fielded(), entities=0, lent=0)
    t.enter(1)
    t.through()
    t.new(fielded(), 13, entities=601, lent=0)


def chance_cases(t):
    t.note("programs made by chance")
    chance = Xorshift(0x7ACE)
    for index in range(14):
        entities = 3 if index >= 8 else 0
        t.new(random_program(chance, hosts=True, entities=entities > 0), entities=entities, lent=105 * entities)
        for _ in range(6):
            t.function(chance.below(8) - 1)
            t.definition(chance.below(7) - 1)
        t.enter(1)
        t.through()

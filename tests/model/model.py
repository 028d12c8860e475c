"""A model of the QuakeC program machine, written from document 01 and from 02's change requests.

Quotations in comments are 01's words, or 02's where a request (R-1 ..) is named.  The model works the way 01 tells it: it goes through a
statement step by step, writing as it goes, and a refusal undoes what was written.  It is meant to
be read beside 01 and to be run, not to be fast.

    python3 model.py < FILE     prints the show program's line for FILE
"""

import re
import struct
import sys
from collections import namedtuple
from dataclasses import dataclass, replace
from fractions import Fraction

# ---------------------------------------------------------------------------------------------
# Floats: "IEEE 754 single, rounded once per operation".  A float is its 32-bit pattern; values
# are exact fractions.
# ---------------------------------------------------------------------------------------------

QUIET_NAN = 0x7FC00000  # "a NaN made by arithmetic is stored as 7fc00000"
INFINITY = 0x7F800000
SIGN = 0x80000000
ONE = 0x3F800000
ZERO = 0x00000000


def is_nan(x):
    return x & 0x7FFFFFFF > INFINITY


def is_infinite(x):
    return x & 0x7FFFFFFF == INFINITY


def is_zero(x):
    return x & 0x7FFFFFFF == 0


def sign_of(x):
    return x & SIGN


def times_power(value, exponent):
    """value * 2**exponent"""
    return value * (1 << exponent) if exponent >= 0 else value / (1 << -exponent)


def value_of(x):
    """The exact value of a finite pattern; both zeros give 0."""
    exponent, fraction = (x >> 23) & 0xFF, x & 0x7FFFFF
    if exponent == 0:
        exponent, whole = 1, fraction  # subnormal
    else:
        whole = fraction + 0x800000
    magnitude = times_power(Fraction(whole), exponent - 150)
    return -magnitude if x & SIGN else magnitude


def nearest(value):
    """The pattern nearest to an exact value other than 0, ties to even."""
    sign, size = (SIGN, -value) if value < 0 else (0, value)
    # 2**exponent <= size < 2**(exponent + 1), but never below the subnormal range
    exponent = size.numerator.bit_length() - size.denominator.bit_length()
    if times_power(size, -exponent) < 1:
        exponent -= 1
    exponent = max(exponent, -126)
    scaled = times_power(size, 23 - exponent)
    whole = scaled.numerator // scaled.denominator
    rest = scaled - whole
    if rest > Fraction(1, 2) or (rest == Fraction(1, 2) and whole % 2 == 1):
        whole += 1
    # a whole of 2**24 carries into the exponent; a subnormal has exponent field 0
    pattern = ((exponent + 126) << 23) + whole
    return sign | min(pattern, INFINITY)


def float_add(x, y):
    if is_nan(x) or is_nan(y):
        return QUIET_NAN
    if is_infinite(x) and is_infinite(y):
        return x if x == y else QUIET_NAN
    if is_infinite(x):
        return x
    if is_infinite(y):
        return y
    if is_zero(x) and is_zero(y):
        return x & y  # -0 only from two -0
    total = value_of(x) + value_of(y)
    return nearest(total) if total != 0 else ZERO


def float_sub(x, y):
    return float_add(x, y if is_nan(y) else y ^ SIGN)


def float_mul(x, y):
    if is_nan(x) or is_nan(y):
        return QUIET_NAN
    sign = sign_of(x) ^ sign_of(y)
    if is_infinite(x) or is_infinite(y):
        return QUIET_NAN if is_zero(x) or is_zero(y) else sign | INFINITY
    if is_zero(x) or is_zero(y):
        return sign
    return nearest(value_of(x) * value_of(y))


def float_div(x, y):
    if is_nan(x) or is_nan(y):
        return QUIET_NAN
    sign = sign_of(x) ^ sign_of(y)
    if is_infinite(x):
        return QUIET_NAN if is_infinite(y) else sign | INFINITY
    if is_infinite(y):
        return sign
    if is_zero(y):
        return QUIET_NAN if is_zero(x) else sign | INFINITY
    if is_zero(x):
        return sign
    return nearest(value_of(x) / value_of(y))


def order(x):
    """A number that orders all patterns but NaN as their floats."""
    if is_infinite(x):
        return -(1 << 200) if x & SIGN else 1 << 200
    return value_of(x)


def float_eq(x, y):
    return not is_nan(x) and not is_nan(y) and order(x) == order(y)


def float_lt(x, y):
    return not is_nan(x) and not is_nan(y) and order(x) < order(y)


def float_le(x, y):
    return not is_nan(x) and not is_nan(y) and order(x) <= order(y)


def truth(flag):
    """ "Comparisons give 1.0 or 0.0." """
    return ONE if flag else ZERO


def whole_of(x):
    """ "toward zero into a signed 32-bit whole number, saturating, NaN to 0" """
    if is_nan(x):
        return 0
    if is_infinite(x):
        return -0x80000000 if x & SIGN else 0x7FFFFFFF
    value = value_of(x)
    whole = abs(value.numerator) // value.denominator
    whole = -whole if value < 0 else whole
    return max(-0x80000000, min(0x7FFFFFFF, whole))


def float_of(whole):
    """ "the result back to the nearest float, ties to even" """
    return nearest(Fraction(whole)) if whole else ZERO


def rounding(to_whole):
    """R-1's rint, floor or ceil, by what it makes of an exact value."""

    def rounded(x):
        if is_nan(x):
            return QUIET_NAN  # "A NaN gives 7fc00000 under all four."
        if is_infinite(x):
            return x  # "an infinity is unchanged"
        whole = to_whole(value_of(x))
        # "a zero result takes the argument's sign"
        return nearest(Fraction(whole)) if whole else sign_of(x)

    return rounded


def whole_below(value):
    return value.numerator // value.denominator


def whole_above(value):
    return -whole_below(-value)


def nearest_whole(value):
    """ "the nearest whole number, halves away from zero" """
    size = whole_below(abs(value) + Fraction(1, 2))
    return -size if value < 0 else size


def float_abs(x):
    """ "Fabs clears the sign." """
    return QUIET_NAN if is_nan(x) else x & ~SIGN


# ---------------------------------------------------------------------------------------------
# File
# ---------------------------------------------------------------------------------------------

VERSION = 6
CHECK_NUMBER = 5927
HEADER_SIZE = 60
LARGEST_FILE = 1_048_576
FEWEST_CELLS = 64  # "Files of 36 to 63 cells are refused 10 from now on."
FEWEST_PADDED = 36  # what the padding program "alone still admits"
MOST_CELLS = 32_768
FEWEST_PER_ENTITY = 105
DEEPEST = 31
MOST_SAVED = 2_048
MOST_STATEMENTS = 99_999
GREATEST_CHECK_NUMBER = 65_535
MOST_PAIRS = 64  # "Up to 64 pairs of address and value"
MOST_ENTITIES = 600  # "up to 600 entities"
GREATEST_POINTER = 2_147_483_647

# "offset and count of statements, global definitions, field definitions, functions, strings, cells"
STATEMENTS, GLOBAL_DEFS, FIELD_DEFS, FUNCTIONS, STRINGS, CELLS = range(6)
RECORD_SIZES = (8, 8, 8, 36, 1, 4)

VOID, STRING, FLOAT, VECTOR, ENTITY, FIELD, FUNCTION, POINTER = range(8)
SAVE_FLAG = 0x8000

OPCODES = (
    "Done MulF MulV MulFV MulVF Div AddF AddV SubF SubV EqF EqV EqS EqEnt EqFnc NeF NeV NeS NeEnt "
    "NeFnc Le Ge Lt Gt LoadF LoadV LoadS LoadEnt LoadFld LoadFnc Address StoreF StoreV StoreS "
    "StoreEnt StoreFld StoreFnc StorePF StorePV StorePS StorePEnt StorePFld StorePFnc Return NotF "
    "NotV NotS NotEnt NotFnc If IfNot Call0 Call1 Call2 Call3 Call4 Call5 Call6 Call7 Call8 State "
    "Goto And Or BitAnd BitOr"
).split()
OPCODE_NUMBER = {name: number for number, name in enumerate(OPCODES)}

# "minus 1-4, 6-32, 34-38, 40-41, 43-49, 51-59, 67-70, 72-78"
BUILTINS = {
    number
    for low, high in ((1, 4), (6, 32), (34, 38), (40, 41), (43, 49), (51, 59), (67, 70), (72, 78))
    for number in range(low, high + 1)
}
# "Builtins 43, 37, 38 and 36 are now done by the machine", fabs, floor, ceil and rint
INSIDE_BUILTINS = {
    36: rounding(nearest_whole),
    37: rounding(whole_below),
    38: rounding(whole_above),
    43: float_abs,
}
# "Only opcode 60 and the other builtins still go to the host."
HOST_OPCODES = {60}

Statement = namedtuple("Statement", "opcode a b c")
Definition = namedtuple("Definition", "type cell name")
Function = namedtuple("Function", "first local locals profile name source arguments sizes")


def unpacked_statement(unpacked, index):
    """R-12: "four to a statement in the file's order", the operands signed as in the file."""
    numbers = unpacked[4 * index : 4 * index + 4]
    return Statement(*[number - 0x10000 if number >= 0x8000 else number for number in numbers])


def read_header(file):
    """Fifteen signed 32-bit numbers: version, check number, six lumps, cells per entity."""
    numbers = struct.unpack_from("<15i", file, 0)
    return numbers[0], numbers[1], numbers[2:14], numbers[14]


class Program:
    """The records of a file, found by twelve lump numbers: offset and count of each lump."""

    def __init__(self, file, lumps):
        self.file, self.lumps = file, lumps

    def count(self, lump):
        return self.lumps[2 * lump + 1]

    def _unpack(self, shape, lump, index):
        return struct.unpack_from(shape, self.file, self.lumps[2 * lump] + RECORD_SIZES[lump] * index)

    def statement(self, index):
        return Statement(*self._unpack("<4h", STATEMENTS, index))

    def definition(self, lump, index):
        return Definition(*self._unpack("<HHi", lump, index))

    def function(self, index):
        numbers = self._unpack("<7i8B", FUNCTIONS, index)
        return Function(*numbers[:7], numbers[7:])

    def cell(self, index):
        return self._unpack("<I", CELLS, index)[0]

    def text(self, number):
        """R-4: the bytes from a string number "up to a zero byte or the end of the strings"."""
        offset = self.lumps[2 * STRINGS]
        rest = bytes(self.file[offset + number : offset + self.count(STRINGS)])
        return rest.split(b"\0", 1)[0]

    def packed(self, lump):
        """R-6: the bytes of a lump as they are written."""
        numbers = range(self.count(lump))
        if lump == STATEMENTS:
            return b"".join(pack_statement(self.statement(i)) for i in numbers)
        if lump in (GLOBAL_DEFS, FIELD_DEFS):
            return b"".join(pack_definition(self.definition(lump, i)) for i in numbers)
        if lump == FUNCTIONS:  # "profile numbers 0"; all eight argument sizes as they are
            return b"".join(pack_function(self.function(i)._replace(profile=0)) for i in numbers)
        if lump == STRINGS:
            start = self.lumps[2 * STRINGS]
            return bytes(self.file[start : start + self.count(STRINGS)])
        # "from the file's own cells and not from the running ones"
        return b"".join(struct.pack("<I", self.cell(i)) for i in numbers)

    def written(self, cells_per_entity, check_number, added=0):
        """R-6: the program's file, "header, then the six lumps in header order without gaps", with so many
        zero cells added."""
        header, body = [VERSION, check_number], b""
        for lump in range(6):
            # an empty lump's offset is where it would begin, as any other's
            header += [HEADER_SIZE + len(body), self.count(lump)]
            body += self.packed(lump)
        header[-1] += added  # the cells are the last lump
        return struct.pack("<15i", *header, cells_per_entity) + body + bytes(RECORD_SIZES[CELLS] * added)


# ---------------------------------------------------------------------------------------------
# State and answers
# ---------------------------------------------------------------------------------------------


class Refused(Exception):
    def __init__(self, number):
        super().__init__(number)
        self.number = number


class HandedOver(Exception):
    def __init__(self, word, number):
        super().__init__(word, number)
        self.word, self.number = word, number


def check(fine, number):
    if not fine:
        raise Refused(number)


Frame = namedtuple("Frame", "position function")

# word: accepted, ended, spent, refused, builtin or opcode; detail: the refusal's, builtin's or
# opcode's number, the cell that a raw read gives, or the length that was written; count: completed statements of a run
Answer = namedtuple("Answer", "word detail count", defaults=(0, 0))

# R-11: "Check number (0 to 65,535), greatest depth (1 to 31), greatest saved count (0 to 2,048) and greatest run limit (1 to
# 99,999) become settings given at load and held in the state."
Settings = namedtuple("Settings", "check_number depth saved limit")


def settings_fit(settings):
    return (
        0 <= settings.check_number <= GREATEST_CHECK_NUMBER
        and 1 <= settings.depth <= DEEPEST
        and 0 <= settings.saved <= MOST_SAVED
        and 1 <= settings.limit <= MOST_STATEMENTS
    )


@dataclass(frozen=True)
class State:
    # what the state records of the file, for check 13
    length: int = 0
    lumps: tuple = (0,) * 12
    cells_per_entity: int = 0
    # "Position, function and depths start at 0. Frames start as zeros"
    position: int = 0
    function: int = 0
    depth: int = 0
    saved: int = 0
    frames: tuple = (Frame(0, 0),) * DEEPEST
    entities: int = 0  # "their number given at load and kept in the state"
    settings: Settings = Settings(0, 0, 0, 0)


def lumps_fit(lumps, length):
    """Refusal 4's condition: "an empty lump may have any non-negative offset"."""
    for lump, size in enumerate(RECORD_SIZES):
        offset, count = lumps[2 * lump], lumps[2 * lump + 1]
        if offset < 0 or count < 0:
            return False
        if count > 0 and offset + count * size > length:
            return False
    return True


def check_same_type(definition, wanted):
    """ "Float and vector pass for each other; otherwise types must match" """
    found = definition.type & ~SAVE_FLAG
    check(found == wanted or {found, wanted} == {FLOAT, VECTOR}, 16)


class Machine:
    """Lent file bytes, cells, saved store and entity cells, and the state.

    `fewest_cells` is the least count of cells by which 10 refuses; another than 64 is for the padding
    program and for the machine as it was before R-7.
    """

    def __init__(self, file, cells, saved_store, entity_cells=(), fewest_cells=FEWEST_CELLS):
        self.file, self.cells, self.saved_store = file, cells, saved_store
        self.entity_cells = entity_cells  # entity after entity, from 0
        self.fewest_cells = fewest_cells
        self.state = State()
        self._written = []  # (buffer, index, what stood there), to undo a refusal
        self._unpacked = None  # the buffer that the second engine's run reads

    # -- the operations ------------------------------------------------------------------------

    def load(self, entities=0, check_number=CHECK_NUMBER, depth=DEEPEST, saved=MOST_SAVED, limit=MOST_STATEMENTS):
        """The settings are 01's where none are given."""
        try:
            state, program = self._checked_file(entities, Settings(check_number, depth, saved, limit))
        except Refused as refusal:
            self.state = State()  # a refused load gives back a state of zeros
            return Answer("refused", refusal.number)
        # "A load fills the lent cells from 0 and leaves those past the file's count."
        for index in range(program.count(CELLS)):
            self.cells[index] = program.cell(index)
        self.state = state
        return Answer("accepted")

    def enter(self, function):
        return self._operation(lambda: self._enter(function, self.state.position))

    def statement(self):
        return self._operation(self._statement)

    def run(self, target, limit):
        return self._operation(lambda: self._run(target, limit))

    def unpack(self, unpacked):
        """R-12: writes the statements into the unpack buffer, numbers of 16 bits without a sign."""
        return self._operation(lambda: self._unpack(unpacked))

    def run_unpacked(self, unpacked, target, limit):
        """R-12: the second engine's run."""
        return self._operation(lambda: self._run_unpacked(unpacked, target, limit))

    def carry_on(self):
        return self._operation(self._carry_on)

    def abandon(self, target):
        return self._operation(lambda: self._abandon(target))

    def read(self, cell):
        return self._operation(lambda: Answer("accepted", self._get(cell)))

    def write(self, cell, value):
        return self._operation(lambda: self._put(cell, value))

    def write_pairs(self, numbers):
        """R-9: raw writes, "all or none", of addresses and values in turn."""
        return self._operation(lambda: self._write_pairs(numbers))

    def image(self, output):
        """R-6: writes the loaded program into the output buffer; the answer has the written length."""
        return self._operation(lambda: self._image(output))

    # -- load ----------------------------------------------------------------------------------

    def _checked_file(self, entities, settings):
        # "Settings out of range are refused 36, before the file is looked at"
        check(settings_fit(settings), 36)
        file = self.file
        check(HEADER_SIZE <= len(file) <= LARGEST_FILE, 1)
        version, check_number, lumps, cells_per_entity = read_header(file)
        check(version == VERSION, 2)
        check(check_number == settings.check_number, 3)
        check(lumps_fit(lumps, len(file)), 4)
        program = Program(file, lumps)

        def check_name(name):
            check(0 <= name < program.count(STRINGS), 6)

        for index in range(program.count(FUNCTIONS)):
            function = program.function(index)
            check(function.first >= 0 or -function.first in BUILTINS, 5)
            check_name(function.name)
            check_name(function.source)
        for index in range(program.count(STATEMENTS)):
            check(0 <= program.statement(index).opcode < len(OPCODES), 7)
        for lump in (GLOBAL_DEFS, FIELD_DEFS):
            for index in range(program.count(lump)):
                definition = program.definition(lump, index)
                check_name(definition.name)
                check(lump == GLOBAL_DEFS or not definition.type & SAVE_FLAG, 9)
                check(definition.type & ~SAVE_FLAG <= POINTER, 8)
        cell_count = program.count(CELLS)
        check(self.fewest_cells <= cell_count <= MOST_CELLS, 10)
        check(cells_per_entity >= FEWEST_PER_ENTITY, 11)
        # "the lent saved store stays 2,048 at least"
        check(len(self.cells) >= cell_count and len(self.saved_store) >= MOST_SAVED, 12)
        # R-3: "More than 600 entities, or lent entity cells too few for them, are refused 13, at
        # load after 12."  So is a negative number of them.
        check(entities >= 0 and self._entities_fit(entities, cells_per_entity), 13)
        state = State(len(file), lumps, cells_per_entity, entities=entities, settings=settings)
        return state, program

    def _entities_fit(self, entities, cells_per_entity):
        return entities <= MOST_ENTITIES and entities * cells_per_entity <= len(self.entity_cells)

    # -- check 13, and undoing -----------------------------------------------------------------

    def _operation(self, body):
        """Checks 13, then does the body; "a refusal gives its number and leaves state and buffers"."""
        try:
            check(self._coherent(), 13)
            return self._undoing(body) or Answer("accepted")
        except Refused as refusal:
            return Answer("refused", refusal.number)
        except HandedOver as over:
            return Answer(over.word, over.number)

    def _undoing(self, body):
        before, self._written = self.state, []
        try:
            return body()
        except (Refused, HandedOver):
            self.state = before
            for buffer, index, old in reversed(self._written):
                buffer[index] = old
            raise

    def _coherent(self):
        state, file = self.state, self.file
        # "file length, header lumps or cells per entity not as the state records, or outside 1, 4, 10 or 11"
        if len(file) != state.length or not HEADER_SIZE <= len(file) <= LARGEST_FILE:
            return False
        _, _, lumps, cells_per_entity = read_header(file)
        if lumps != state.lumps or not lumps_fit(lumps, len(file)):
            return False
        cell_count = lumps[2 * CELLS + 1]
        if not self.fewest_cells <= cell_count <= MOST_CELLS:
            return False
        if cells_per_entity != state.cells_per_entity or cells_per_entity < FEWEST_PER_ENTITY:
            return False
        # "lent cells fewer than the file's, or saved store under 2,048"
        if len(self.cells) < cell_count or len(self.saved_store) < MOST_SAVED:
            return False
        if not self._entities_fit(state.entities, cells_per_entity):
            return False
        # "Settings out of range are refused .. 13 in a state", and "depth over 31" and "saved count over 2,048" use them;
        # the check number is held, and not compared with the file's again
        if not settings_fit(state.settings):
            return False
        if state.depth > state.settings.depth:
            return False
        # "an entered function (at depth above 0 the current one and every frame's but the lowest)
        # absent or of negative local count; saved count over 2,048 or not the sum"
        entered = []
        if state.depth > 0:
            entered = [frame.function for frame in state.frames[1 : state.depth]] + [state.function]
        total = 0
        for number in entered:
            if not 0 <= number < self._program.count(FUNCTIONS):
                return False
            locals_ = self._program.function(number).locals
            if locals_ < 0:
                return False
            total += locals_
        return state.saved <= state.settings.saved and state.saved == total

    # -- cells ---------------------------------------------------------------------------------

    @property
    def _program(self):
        return Program(self.file, self.state.lumps)

    def _store(self, buffer, index, value):
        self._written.append((buffer, index, buffer[index]))
        buffer[index] = value

    def _check_address(self, cell):
        check(0 <= cell < self._program.count(CELLS), 15)

    def _check_range(self, first, count):
        """An empty range has no cell to miss."""
        if count > 0:
            self._check_address(first)
            self._check_address(first + count - 1)

    def _get(self, cell):
        self._check_address(cell)
        return self.cells[cell]

    def _put(self, cell, value):
        self._check_address(cell)
        self._store(self.cells, cell, value)

    def _check_definition(self, lump, cell, wanted):
        """ "the first .. definition, in file order, with that cell".  "Void definitions are passed over", of
        globals by R-5 and of fields by R-3."""
        program = self._program
        for index in range(program.count(lump)):
            definition = program.definition(lump, index)
            if definition.type & ~SAVE_FLAG != VOID and definition.cell == cell:
                check_same_type(definition, wanted)
                return

    def _check_type(self, cell, wanted):
        self._check_definition(GLOBAL_DEFS, cell, wanted)

    def _get_typed(self, cell, wanted):
        """ "A typed access checks type, then address." """
        self._check_type(cell, wanted)
        value = self._get(cell)
        # "Entity and field values must not be negative."
        check(wanted not in (ENTITY, FIELD) or value < SIGN, 17)
        return value

    def _get_string(self, cell):
        """R-4, of EqS, NeS and NotS: "a string number below 0 or not below the string length is refused
        33, in each access after type and address, for operand 0 too"."""
        number = self._get_typed(cell, STRING)
        check(number < self._program.count(STRINGS), 33)  # a negative one is a great one here
        return number

    def _put_typed(self, cell, wanted, value):
        self._check_type(cell, wanted)
        self._put(cell, value)

    def _check_destination(self, cell, wanted):
        """The checks of a typed write."""
        self._check_type(cell, wanted)
        for i in range(3 if wanted == VECTOR else 1):
            self._check_type(cell + i, FLOAT if wanted == VECTOR else wanted)
            self._check_address(cell + i)

    def _get_vector(self, cell):
        """ "A vector checks its first cell as vector, then each of its three as float." """
        self._check_type(cell, VECTOR)
        return [self._get_typed(cell + i, FLOAT) for i in range(3)]

    def _put_vector(self, cell, values):
        self._check_type(cell, VECTOR)
        for i in range(3):
            self._put_typed(cell + i, FLOAT, values[i])

    # -- statements ----------------------------------------------------------------------------

    def _fetch(self):
        check(0 <= self.state.position < self._program.count(STATEMENTS), 14)
        if self._unpacked is None:
            statement = self._program.statement(self.state.position)
        else:
            statement = unpacked_statement(self._unpacked, self.state.position)
        check(0 <= statement.opcode < len(OPCODES), 7)
        return statement

    def _statement(self):
        opcode, a, b, c = self._fetch()
        if opcode in HOST_OPCODES:
            raise HandedOver("opcode", opcode)
        name = OPCODES[opcode]
        if name in ("Done", "Return"):
            self._return(a)
        elif name.startswith("Call"):
            self._call(a)
        elif name == "Goto":
            self._advance(a)
        elif name in ("If", "IfNot"):
            zero = is_zero(self._get_typed(a, FLOAT))
            # "If jumps unless the float is +0 or -0 (so on NaN); IfNot jumps on those two."
            self._advance(b if zero == (name == "IfNot") else 1)
        else:
            self._call_free(name, a, b, c)
            self._advance(1)

    def _advance(self, by):
        self.state = replace(self.state, position=self.state.position + by)

    def _call_free(self, name, a, b, c):
        # "18: third operand of a Store (31 to 36) or second of a Not isn't 0"; R-3: "with 18 for the
        # third operand of 37 to 42"
        if name.startswith("Store"):
            check(c == 0, 18)
            if name in STORED_FIELDS:
                self._store_field(STORED_FIELDS[name], a, b)
            else:
                self._store_statement(name, a, b)
        elif name in LOADED_FIELDS:
            self._load_field(LOADED_FIELDS[name], a, b, c)
        elif name == "Address":
            self._address(a, b, c)
        elif name.startswith("Not"):
            check(b == 0, 18)
            self._put_typed(c, FLOAT, truth(self._is_null(name, a)))
        elif name in FLOAT_STATEMENTS:
            x, y = self._get_typed(a, FLOAT), self._get_typed(b, FLOAT)
            self._put_typed(c, FLOAT, FLOAT_STATEMENTS[name](x, y))
        elif name.startswith(("Eq", "Ne")):
            self._put_typed(c, FLOAT, truth(self._is_equal(name, a, b) == name.startswith("Eq")))
        else:
            self._vector_statement(name, a, b, c)

    def _vector_statement(self, name, a, b, c):
        """AddV, SubV, MulV, MulFV, MulVF: "Vector arithmetic reads all before writing." """
        v = self._get_typed(a, FLOAT) if name == "MulFV" else self._get_vector(a)
        w = self._get_typed(b, FLOAT) if name == "MulVF" else self._get_vector(b)
        if name == "MulFV":
            self._put_vector(c, [float_mul(y, v) for y in w])
        elif name == "MulVF":
            self._put_vector(c, [float_mul(x, w) for x in v])
        elif name == "MulV":
            # "MulV starts from +0 and adds three products in order."
            total = ZERO
            for x, y in zip(v, w):
                total = float_add(total, float_mul(x, y))
            self._put_typed(c, FLOAT, total)
        else:
            operation = {"AddV": float_add, "SubV": float_sub}[name]
            self._put_vector(c, [operation(x, y) for x, y in zip(v, w)])

    def _is_equal(self, name, a, b):
        """Eq and Ne of vectors, strings, entities and functions."""
        if name.endswith("V"):
            v, w = self._get_vector(a), self._get_vector(b)
            return all(float_eq(x, y) for x, y in zip(v, w))
        if name.endswith("S"):
            # "EqS, NeS and NotS refuse negative operands 15 before any type check."
            check(a >= 0 and b >= 0, 15)
            # "Equal operands of EqS and NeS are still answered unread."
            if a == b:
                return True
            first, second = self._get_string(a), self._get_string(b)
            # "EqS and NeS now follow `pr_exec.c` and compare bytes"
            return self._program.text(first) == self._program.text(second)
        wanted = ENTITY if name.endswith("Ent") else FUNCTION
        return self._get_typed(a, wanted) == self._get_typed(b, wanted)

    def _is_null(self, name, a):
        """What a Not asks of its operand.  Each writes one float, NotV too, by pr_exec.c."""
        if name == "NotF":
            return is_zero(self._get_typed(a, FLOAT))
        if name == "NotV":
            return all(is_zero(x) for x in self._get_vector(a))
        if name == "NotS":
            check(a >= 0, 15)
            number = self._get_string(a)
            # "NotS is 1.0 for string number 0 and for an empty string, and still for operand 0."
            return a == 0 or number == 0 or self._program.text(number) == b""
        return self._get_typed(a, ENTITY if name == "NotEnt" else FUNCTION) == 0

    def _store_statement(self, name, a, b):
        if name == "StoreV":
            self._store_v(a, b)
            return
        wanted = STORED_TYPES[name]
        value = self._get_typed(a, wanted)
        # "negative string in StoreS", in the access of the source
        check(name != "StoreS" or value < SIGN, 17)
        self._put_typed(b, wanted, value)

    def _store_v(self, source, destination):
        """ "StoreV goes cell by cell, source before destination, each typed as float; where the
        destination is 1 to 27 all three, source and destination, are checked by address alone." """
        for i in range(3):
            if 1 <= destination <= 27:
                self._put(destination + i, self._get(source + i))
            else:
                self._put_typed(destination + i, FLOAT, self._get_typed(source + i, FLOAT))

    # -- entity fields (R-3) -------------------------------------------------------------------

    def _check_field_type(self, cell, wanted):
        """As `Entity::type_check`."""
        self._check_definition(FIELD_DEFS, cell, wanted)

    def _field_places(self, entity, field, wanted):
        """The lent entity cells of a field: "cell by cell, 16 by field definition (not for 30) and 31
        for a field cell not below the cells per entity".  A vector has three, each a float."""
        places = []
        for cell in range(field, field + (3 if wanted == VECTOR else 1)):
            self._check_field_type(cell, FLOAT if wanted == VECTOR else wanted)
            check(cell < self.state.cells_per_entity, 31)
            places.append(entity * self.state.cells_per_entity + cell)
        return places

    def _move(self, wanted, values, buffer, places):
        """ "then 17 for a negative string, entity or field moved" """
        check(wanted not in (STRING, ENTITY, FIELD) or all(value < SIGN for value in values), 17)
        for place, value in zip(places, values):
            self._store(buffer, place, value)

    def _load_field(self, wanted, a, b, c):
        """ "Opcodes 24 to 29 read the field in the second operand of the entity in the first" """
        entity, field = self._get_typed(a, ENTITY), self._get_typed(b, FIELD)
        self._check_destination(c, wanted)
        # "After the operand checks .. comes 30 for an entity not below the count"
        check(entity < self.state.entities, 30)
        values = [self.entity_cells[place] for place in self._field_places(entity, field, wanted)]
        self._move(wanted, values, self.cells, range(c, c + len(values)))

    def _address(self, a, b, c):
        """ "30 makes a pointer .. its cell typed 7" """
        entity, field = self._get_typed(a, ENTITY), self._get_typed(b, FIELD)
        self._check_destination(c, POINTER)
        check(entity < self.state.entities, 30)
        check(field < self.state.cells_per_entity, 31)
        # "(entity times cells per entity, plus field) times 4"
        pointer = (entity * self.state.cells_per_entity + field) * 4
        check(pointer <= GREATEST_POINTER, 32)
        self._put(c, pointer)

    def _store_field(self, wanted, a, b):
        """ "37 to 42 write the first operand through the pointer in the second" """
        values = self._get_vector(a) if wanted == VECTOR else [self._get_typed(a, wanted)]
        pointer = self._get_typed(b, POINTER)
        # "32 for a pointer that is negative, no multiple of 4 or past the last entity"
        check(pointer < SIGN and pointer % 4 == 0, 32)
        entity, field = divmod(pointer // 4, self.state.cells_per_entity)
        check(entity < self.state.entities, 32)
        self._move(wanted, values, self.entity_cells, self._field_places(entity, field, wanted))

    # -- calls ---------------------------------------------------------------------------------

    def _called(self, operand):
        """The Call row: the function to be entered, or the builtin to be done inside, and its first
        statement; any other builtin is handed over."""
        number = self._get_typed(operand, FUNCTION)
        check(number != 0, 19)
        check(number < self._program.count(FUNCTIONS), 20)  # a negative one is a great one here
        first = self._program.function(number).first
        if first < 0:
            check(-first in BUILTINS, 5)
            if -first not in INSIDE_BUILTINS:
                raise HandedOver("builtin", -first)
        return number, first

    def _call(self, operand):
        number, first = self._called(operand)
        if first >= 0:
            self._enter(number, self.state.position + 1)
            return
        # "float in cell 4, result in cell 1, both typed"
        argument = self._get_typed(4, FLOAT)
        self._put_typed(1, FLOAT, INSIDE_BUILTINS[-first](argument))
        # "Each counts as one completed statement and the run goes on."
        self._advance(1)

    def _enter(self, number, recorded):
        state = self.state
        check(0 <= number < self._program.count(FUNCTIONS), 20)
        function = self._program.function(number)
        check(state.depth < state.settings.depth, 22)
        check(function.locals >= 0 and state.saved + function.locals <= state.settings.saved, 23)
        self._check_range(function.local, function.locals)
        check(0 <= function.arguments <= 8, 24)
        # "Entry saves the local range onto the saved store, then copies arguments"
        for i in range(function.locals):
            self._store(self.saved_store, state.saved + i, self.cells[function.local + i])
        # "argument i, component j comes from cell 4+3i+j, to successive cells from the first local
        # cell, one at a time"
        destination = function.local
        for i in range(function.arguments):
            for j in range(function.sizes[i]):
                self._put(destination, self._get(4 + 3 * i + j))
                destination += 1
        check(function.first >= 0, 21)
        frames = list(state.frames)
        frames[state.depth] = Frame(recorded, state.function)
        self.state = replace(
            state,
            position=function.first,
            function=number,
            depth=state.depth + 1,
            saved=state.saved + function.locals,
            frames=tuple(frames),
        )

    def _return(self, operand):
        for i in range(3):
            self._check_address(operand + i)
        check(self.state.depth > 0, 25)
        function = self._program.function(self.state.function)
        check(self.state.saved >= function.locals, 26)
        self._check_range(function.local, function.locals)
        # "copy three cells from the first operand to cells 1, 2, 3, one at a time, then restore
        # the locals and the recorded position"
        for i in range(3):
            self._put(1 + i, self._get(operand + i))
        self._leave()

    def _leave(self):
        state = self.state
        function = self._program.function(state.function)
        self._check_range(function.local, function.locals)
        saved = state.saved - function.locals
        for i in range(function.locals):
            self._put(function.local + i, self.saved_store[saved + i])
        frames = list(state.frames)
        frame = frames[state.depth - 1]
        frames[state.depth - 1] = Frame(0, 0)  # "a frame that is left becomes zeros again"
        self.state = replace(
            state,
            position=frame.position,
            function=frame.function,
            depth=state.depth - 1,
            saved=saved,
            frames=tuple(frames),
        )

    # -- many raw writes -----------------------------------------------------------------------

    def _write_pairs(self, numbers):
        # "The refusal is that of the first bad pair, or 15 for more than 64 pairs or an unpaired number."
        check(len(numbers) % 2 == 0, 15)
        check(len(numbers) <= 2 * MOST_PAIRS, 15)
        for address, value in zip(numbers[0::2], numbers[1::2]):
            self._put(address, value)  # in order, so that "of two pairs with one address the later holds"

    # -- writing the program -------------------------------------------------------------------

    def _image(self, output):
        # "R-6 writes the check number held"
        file = self._program.written(self.state.cells_per_entity, self.state.settings.check_number)
        # "An output buffer that is too short, or a written length over 1,048,576, is refused 34 and
        # nothing is written."  Bytes past the length stay, too.
        check(len(file) <= LARGEST_FILE, 34)
        check(len(file) <= len(output), 34)
        for index, byte in enumerate(file):
            output[index] = byte
        return Answer("accepted", len(file))

    # -- unpacked statements (R-12) ------------------------------------------------------------

    def _check_unpacked(self, unpacked):
        # "An unpack buffer shorter than four numbers a statement is refused 37, at unpacking and at each run, after 13 and
        # before 28, and stays untouched."
        check(len(unpacked) >= 4 * self._program.count(STATEMENTS), 37)

    def _unpack(self, unpacked):
        self._check_unpacked(unpacked)
        for index in range(self._program.count(STATEMENTS)):
            for i, number in enumerate(self._program.statement(index)):
                unpacked[4 * index + i] = number & 0xFFFF  # numbers past the last statement stay

    def _run_unpacked(self, unpacked, target, limit):
        """As the first engine's run, but for where a statement is read."""
        self._check_unpacked(unpacked)
        self._unpacked = unpacked
        try:
            return self._run(target, limit)
        finally:
            self._unpacked = None

    # -- run, carry on, abandon ----------------------------------------------------------------

    def _run(self, target, limit):
        check(1 <= limit <= self.state.settings.limit, 28)
        check(0 <= target < self.state.depth, 29)
        count = 0
        while True:
            try:
                self._undoing(self._statement)
            except Refused as refusal:
                return Answer("refused", refusal.number, count)
            except HandedOver as over:
                return Answer(over.word, over.number, count)
            count += 1  # "The count is of completed statements."
            if self.state.depth == target:
                return Answer("ended", 0, count)
            if count == limit:
                return Answer("spent", 0, count)

    def _carry_on(self):
        statement = self._fetch()
        over = statement.opcode in HOST_OPCODES
        if OPCODES[statement.opcode].startswith("Call"):
            try:
                self._called(statement.a)
            except HandedOver:
                over = True
            except Refused:
                pass
        check(over, 27)  # "that statement, with the cells as they now are, would not be handed over"
        self._advance(1)

    def _abandon(self, target):
        check(0 <= target <= self.state.depth, 29)
        while self.state.depth > target:  # "leaving innermost first, no return value"
            self._leave()


STORED_TYPES = {
    "StoreF": FLOAT,
    "StoreS": STRING,
    "StoreEnt": ENTITY,
    "StoreFld": FIELD,
    "StoreFnc": FUNCTION,
}

# what is moved by 24 to 29 and by 37 to 42; "28 and 41 .. follow `pr_exec.c`", which moves one cell
LOADED_FIELDS = {
    "LoadF": FLOAT,
    "LoadV": VECTOR,
    "LoadS": STRING,
    "LoadEnt": ENTITY,
    "LoadFld": FIELD,
    "LoadFnc": FUNCTION,
}
STORED_FIELDS = {name.replace("Load", "StoreP"): type_ for name, type_ in LOADED_FIELDS.items()}

FLOAT_STATEMENTS = {
    "MulF": float_mul,
    "Div": float_div,
    "AddF": float_add,
    "SubF": float_sub,
    "EqF": lambda x, y: truth(float_eq(x, y)),
    "NeF": lambda x, y: truth(not float_eq(x, y)),
    "Le": lambda x, y: truth(float_le(x, y)),
    "Ge": lambda x, y: truth(float_le(y, x)),
    "Lt": lambda x, y: truth(float_lt(x, y)),
    "Gt": lambda x, y: truth(float_lt(y, x)),
    "And": lambda x, y: truth(not is_zero(x) and not is_zero(y)),
    "Or": lambda x, y: truth(not is_zero(x) or not is_zero(y)),
    "BitAnd": lambda x, y: float_of(whole_of(x) & whole_of(y)),
    "BitOr": lambda x, y: float_of(whole_of(x) | whole_of(y)),
}


# ---------------------------------------------------------------------------------------------
# The show program
# ---------------------------------------------------------------------------------------------

LARGEST_SHOWN = 65_536


def show(file, fewest_cells=FEWEST_CELLS):
    """The line that the show program prints for a file, without its line end; with fewer cells than 64, as it was before R-7."""
    if len(file) > LARGEST_SHOWN:
        return "refused,1"
    machine = Machine(file, [0] * MOST_CELLS, [0] * MOST_SAVED, fewest_cells=fewest_cells)
    answer = machine.load()
    if answer.word == "refused":
        return f"refused,{answer.detail}"
    answer = machine.enter(1)
    if answer.word != "refused":
        answer = machine.run(0, MOST_STATEMENTS)
    state = machine.state
    numbers = (answer.detail, answer.count, state.position, state.function, state.depth, state.saved)
    cells = [f"{machine.cells[cell]:08x}" for cell in (1, 2, 3)]
    return ",".join([answer.word, *map(str, numbers), *cells])


# ---------------------------------------------------------------------------------------------
# The padding program
# ---------------------------------------------------------------------------------------------

LARGEST_PADDED = 65_536


def pad(file):
    """All that the padding program writes for a file: "It reads and refuses as the show program does"."""
    if len(file) > LARGEST_SHOWN:
        return b"refused,1\n"
    machine = Machine(file, [0] * MOST_CELLS, [0] * MOST_SAVED, fewest_cells=FEWEST_PADDED)
    answer = machine.load()
    if answer.word == "refused":
        return f"refused,{answer.detail}\n".encode()
    state = machine.state
    # "it writes them by R-6 with zero cells added up to 64 and everything else equal"
    missing = max(FEWEST_CELLS - state.lumps[2 * CELLS + 1], 0)
    padded = Program(file, state.lumps).written(state.cells_per_entity, CHECK_NUMBER, missing)
    # "over 65,536 bytes to write is 34"
    return padded if len(padded) <= LARGEST_PADDED else b"refused,34\n"


# ---------------------------------------------------------------------------------------------
# Outcome sentences
# ---------------------------------------------------------------------------------------------

SHORTEST_DISPLAY = 120

# what a run answered and where it left the state; word and detail as in the show program's line
Outcome = namedtuple("Outcome", "word detail statements position function", defaults=("ended", 0, 0, 0, 0))


def outcome_of(answer, state):
    """A run's outcome, by its answer and the state after it."""
    return Outcome(answer.word, answer.detail, answer.count, state.position, state.function)


def sentence(outcome):
    """ "without a line end, with the show program's outcome word and decimal numbers" """
    word, detail, statements, position, function_ = outcome
    numbers = f"detail {detail}, statements {statements}, position {position}, function {function_}"
    return f"Run {word}, {numbers}.".encode("ascii")


def read_sentence(line):
    """ "The five can be worked out from the line." """
    fields = [field.split(" ")[1] for field in line.decode("ascii").rstrip(".").split(", ")]
    return Outcome(fields[0], *map(int, fields[1:]))


def compose(outcome, display):
    """Writes the line into a display buffer; the answer has its length."""
    # "A display buffer under 120 bytes takes the existing refusal 12 and is untouched."
    if len(display) < SHORTEST_DISPLAY:
        return Answer("refused", 12)
    line = sentence(outcome)
    for index, byte in enumerate(line):  # bytes past the length stay
        display[index] = byte
    return Answer("accepted", len(line))  # "its length is given"


# ---------------------------------------------------------------------------------------------
# An assembler of program files
# ---------------------------------------------------------------------------------------------


def function(first=0, local=0, locals=0, sizes=(), arguments=None, name=0, source=0, profile=0):
    """A function record; the argument count is the number of sizes unless it is given."""
    count = len(sizes) if arguments is None else arguments
    return Function(first, local, locals, profile, name, source, count, (*sizes, *[0] * (8 - len(sizes))))


def pack_statement(statement):
    opcode, a, b, c = (*statement, 0, 0, 0)[:4]
    return struct.pack("<4h", OPCODE_NUMBER.get(opcode, opcode), a, b, c)


def pack_definition(definition):
    type_, cell, name = (*definition, 0)[:3]
    return struct.pack("<HHi", type_, cell, name)


def pack_function(record):
    return struct.pack("<7i8B", *record[:7], *record.sizes)


class Assembly:
    """A file in the making: `lumps` are the header's twelve numbers, `bytes()` the whole file.

    Lumps stand after the header in the order given by `layout`, `gap` zero bytes before each.
    """

    def __init__(
        self,
        statements=(),
        functions=(),
        definitions=(),
        fields=(),
        strings=b"\0",
        cells=None,
        cell_count=64,
        cells_per_entity=FEWEST_PER_ENTITY,
        layout=(STATEMENTS, GLOBAL_DEFS, FIELD_DEFS, FUNCTIONS, STRINGS, CELLS),
        gap=0,
    ):
        values = [0] * cell_count
        for cell, value in (cells or {}).items():
            values[cell] = value
        records = [
            [pack_statement(s) for s in statements],
            [pack_definition(d) for d in definitions],
            [pack_definition(d) for d in fields],
            [pack_function(f) for f in functions],
            [bytes([byte]) for byte in strings],
            [struct.pack("<I", value) for value in values],
        ]
        self.version, self.check_number, self.cells_per_entity = VERSION, CHECK_NUMBER, cells_per_entity
        self.lumps = [0] * 12
        self.body = b""
        for lump in layout:
            self.body += bytes(gap)
            self.lumps[2 * lump] = HEADER_SIZE + len(self.body)
            self.lumps[2 * lump + 1] = len(records[lump])
            self.body += b"".join(records[lump])

    def header(self):
        return struct.pack("<15i", self.version, self.check_number, *self.lumps, self.cells_per_entity)

    def bytes(self):
        return bytearray(self.header() + self.body)

    def place(self, lump, index=0):
        """Where a record begins in the file."""
        return self.lumps[2 * lump] + RECORD_SIZES[lump] * index


# ---------------------------------------------------------------------------------------------
# Load files
# ---------------------------------------------------------------------------------------------

GREATEST_SEED = 2**32 - 1
MOST_LOAD_STATEMENTS = 1_000


def draws(s):
    """ "each draw replaces s three times .. each kept to 32 bits, and gives s" """
    while True:
        s ^= s << 13 & 0xFFFFFFFF
        s ^= s >> 17
        s ^= s << 5 & 0xFFFFFFFF
        yield s


def load_file(seed, n):
    """The bytes of the load file of a seed and n statements between the first and the last."""
    drawn = draws(seed)
    # "cells 28 to 63 take a draw modulo 256 as a float, the others 0"
    cells = {cell: float_of(next(drawn) % 256) for cell in range(28, 64)}
    statements = [("Done", 0, 0, 0)]
    for _ in range(n):
        opcode = ("MulF", "AddF", "SubF")[next(drawn) % 3]
        statements.append((opcode, *[28 + next(drawn) % 36 for _ in range(3)]))
    statements.append(("Return", 28, 0, 0))
    # the assembler's form, without gaps, is R-6's; 64 cells, 105 cells per entity, strings of one zero byte
    return bytes(Assembly(statements, [function(), function(1)], cells=cells).bytes())


def write_load_file(seed, n, output):
    """Writes it into an output buffer; the answer has its length."""
    # "A seed of 0 or another n is refused 35, then a short output buffer 34; nothing is written."
    if not (1 <= seed <= GREATEST_SEED and 1 <= n <= MOST_LOAD_STATEMENTS):
        return Answer("refused", 35)
    file = load_file(seed, n)
    if len(file) > len(output):
        return Answer("refused", 34)
    for index, byte in enumerate(file):
        output[index] = byte
    return Answer("accepted", len(file))


def load_file_program(text):
    """All that the program writes for its input: seed and n in decimal digits, a blank between them, a line end."""
    given = re.fullmatch(rb"([0-9]+) ([0-9]+)\n", text)
    seed, n = map(int, given.groups()) if given else (0, 0)
    output = bytearray(LARGEST_SHOWN)
    answer = write_load_file(seed, n, output)
    return b"refused,35\n" if answer.word == "refused" else bytes(output[: answer.detail])


if __name__ == "__main__":
    print(show(sys.stdin.buffer.read()))

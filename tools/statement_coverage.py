#!/usr/bin/env python3
"""Counts what the cases of tests/model/cases/statements.txt reach, as the table of docs/VECTORS.md:

    python3 tools/statement_coverage.py

A case may count in several rows. `under` is the note of the case file under which most of a row's cases stand.
"""
import struct
from collections import Counter
from fractions import Fraction

import statement_vectors

INFINITY = 0x7F800000
HOST = {60}
INSIDE = (36, 37, 38, 43)
STORES, STORE_V, STRING_PAIRS, GOTO = range(31, 37), 32, (12, 17), 61
# R-4's: EqS and NeS, NotS
NOT_S = 46
STRING_OPCODES = (*STRING_PAIRS, NOT_S)
# R-3's: loads of a field, Address, stores through a pointer
LOADS, ADDRESS, STORES_P = range(24, 30), 30, range(37, 43)
FIELD_OPCODES = (*LOADS, ADDRESS, *STORES_P)
# what the operands are: f float, v vector, s string, e entity, d field, c function, p pointer, 0 unused and 0, - not looked at
KINDS = {1: 'fff', 2: 'vvf', 3: 'fvv', 4: 'vfv', 5: 'fff', 6: 'fff', 7: 'vvv', 8: 'fff', 9: 'vvv',
         10: 'fff', 11: 'vvf', 12: 'ssf', 13: 'eef', 14: 'ccf', 15: 'fff', 16: 'vvf', 17: 'ssf', 18: 'eef', 19: 'ccf',
         20: 'fff', 21: 'fff', 22: 'fff', 23: 'fff', 31: 'ff0', 32: 'vv0', 33: 'ss0', 34: 'ee0', 35: 'dd0', 36: 'cc0',
         44: 'f0f', 45: 'v0f', 46: 's0f', 47: 'e0f', 48: 'c0f', 49: 'f--', 50: 'f--', 62: 'fff', 63: 'fff', 64: 'fff',
         65: 'fff', **{op: 'c--' for op in range(51, 60)}, **{op: 'ed' + kind for op, kind in zip(range(24, 31), 'fvsedcp')},
         **{op: kind + 'p0' for op, kind in zip(STORES_P, 'fvsedc')}}
TYPES = dict(s=1, f=2, v=2, e=4, d=5, c=6, p=7)
ARITHMETIC = {1: 'mul', 3: 'mul', 4: 'mul', 5: 'div', 6: 'add', 7: 'add', 8: 'sub', 9: 'sub'}
BITS = (64, 65)
VECTORS = (3, 4, 7, 9)


# ---- floats

def is_nan(x):
    return x & 0x7FFFFFFF > INFINITY


def is_infinite(x):
    return x & 0x7FFFFFFF == INFINITY


def is_subnormal(x):
    return 0 < x & 0x7FFFFFFF < 0x00800000


def exact(x):
    e, digits = x >> 23 & 255, x & 0x7FFFFF
    size = digits * Fraction(2) ** -149 if e == 0 else (0x800000 + digits) * Fraction(2) ** (e - 150)
    return -size if x >> 31 else size


def is_tie(op, x, y):
    """The exact result lies half way between two floats."""
    if any(map(is_nan, (x, y))) or any(map(is_infinite, (x, y))) or (op == 'div' and exact(y) == 0):
        return False
    p, q = exact(x), exact(y)
    result = abs(dict(mul=lambda: p * q, div=lambda: p / q, add=lambda: p + q, sub=lambda: p - q)[op]())
    step = -149
    while result >= Fraction(2) ** (step + 24):
        step += 1
    return result / Fraction(2) ** step % 1 == Fraction(1, 2)


# ---- a case

class Case:
    def __init__(self, vector, note):
        self.vector, self.note = vector, note
        self.kinds = KINDS.get(vector.opcode, '---')
        self.operands = (vector.a, vector.b, vector.c)
        self.accepted = vector.word == 'accepted'
        self.written = 1 if vector.opcode in STORES else 2

    def cell(self, cell):
        return self.vector.cells.get(cell, 0)

    def result(self, cell):
        return dict(self.vector.changed).get(cell, self.cell(cell))

    def floats_of(self, index):
        kind, at = self.kinds[index], self.operands[index]
        return [at] if kind == 'f' else [at, at + 1, at + 2] if kind == 'v' else []

    def floats_read(self):
        """The floats that a statement which is no Store computes with."""
        if not self.accepted or self.vector.opcode in (*STORES, *FIELD_OPCODES):
            return []
        return [self.cell(at) for index in (0, 1) if index != self.written for at in self.floats_of(index)]

    def floats_made(self):
        if not self.accepted or self.vector.opcode not in (*ARITHMETIC, 2, *BITS):
            return []
        return [self.result(at) for at in self.floats_of(2)]

    def operations(self):
        """The single operations of an arithmetic statement: a name and two floats."""
        if self.accepted and self.vector.opcode in ARITHMETIC:
            name, x, y = ARITHMETIC[self.vector.opcode], self.floats_of(0), self.floats_of(1)
            count = max(len(x), len(y))
            for i in range(count):
                yield name, self.cell(x[i % len(x)]), self.cell(y[i % len(y)])

    def vector_places(self):
        return [self.operands[i] for i in range(3) if self.kinds[i] == 'v']

    def overlaps(self):
        """The cells that are written hold some that are read, without being the same operand."""
        written = self.floats_of(self.written)
        read = [self.floats_of(i) for i in range(self.written) if self.operands[i] != self.operands[self.written]]
        return self.accepted and any(set(written) & set(cells) for cells in read)

    # ---- what is wrong with the operands, each by itself

    def bytes(self):
        """The file's bytes as they are at the statement."""
        changed = bytearray(self.vector.file.bytes)
        for place, byte in self.vector.pokes:
            changed[place] = byte
        return changed

    def definitions(self):
        offset, count = struct.unpack_from('<2i', self.vector.file.bytes, 16)
        changed = self.bytes()
        return [struct.unpack_from('<2H', changed, offset + 8 * i) for i in range(count)]

    def types_of(self, cell):
        """The types of the definitions for a cell, in file order."""
        return [kind % 32768 for kind, at in self.definitions() if at == cell]

    def type_of(self, cell):
        """R-5: void definitions are passed over."""
        return next((kind for kind in self.types_of(cell) if kind), None)

    def marked(self, test):
        """An operand is a cell whose definitions begin with a void one, and their types pass the test."""
        typed = [at for at, kind in zip(self.operands, self.kinds) if kind in TYPES]
        return any(types[:1] == [0] and test(types) for types in map(self.types_of, typed))

    def by_address(self):
        return self.vector.opcode == STORE_V and 1 <= self.vector.b <= 27

    def unread(self, index):
        return self.vector.opcode in STRING_PAIRS and index < 2 and self.vector.a == self.vector.b >= 0

    def fault_of_cell(self, kind, cell):
        defined = None if cell < 0 or self.by_address() else self.type_of(cell)
        defined = 2 if defined == 3 else defined
        if defined not in (None, TYPES[kind]):
            return 16
        return 0 if 0 <= cell < self.vector.file.count else 15

    def fault(self, index):
        kind, at = self.kinds[index], self.operands[index]
        if kind == '-' or self.unread(index):
            return 0
        if kind == '0':
            return 18 if at else 0
        for cell in (at, at + 1, at + 2) if kind == 'v' else (at,):
            number = self.fault_of_cell(kind, cell)
            if number:
                return number
        if kind == 's' and self.vector.opcode in STRING_OPCODES and self.text(self.cell(at)) is None:
            return 33
        read = index != self.written or self.vector.opcode in STORES and index == 0
        must = kind in 'ed' or (kind == 's' and self.vector.opcode == 33)
        return 17 if read and must and self.cell(at) >> 31 else 0

    def faults(self):
        found = [number for number in map(self.fault, range(3)) if number]
        # a Call, whose operand may be fine, is refused for its function too, and R-3's for what their operands name
        if self.kinds not in ('---', 'c--'):
            refused = self.vector.word == 'refused'
            assert not found if not refused else self.vector.number in found or not found and self.vector.opcode in FIELD_OPCODES
        return found

    # ---- R-4

    def strings(self):
        offset, count = struct.unpack_from('<2i', self.vector.file.bytes, 40)
        changed = self.bytes()
        struct.pack_into('<4h', changed, self.vector.file.statements, self.vector.opcode, *self.operands)
        return bytes(changed[offset:offset + count])

    def text(self, number):
        """The bytes of a string number, or nothing where it is refused 33."""
        strings = self.strings()
        if number >= len(strings):
            return None
        end = strings.find(0, number)
        return strings[number:] if end < 0 else strings[number:end]

    def texts(self):
        """The numbers and texts that an EqS or NeS compares, or NotS looks at."""
        if not self.accepted or self.vector.opcode not in STRING_OPCODES or self.unread(0):
            return []
        numbers = [self.cell(at) for at, kind in zip(self.operands, self.kinds) if kind == 's']
        return [(number, self.text(number)) for number in numbers]

    def pair(self, test):
        """EqS or NeS of two texts that pass the test."""
        found = self.texts()
        return len(found) == 2 and test(*found)

    def alone(self, test):
        """NotS, of another operand than 0, of a text that passes the test."""
        found = self.texts()
        return len(found) == 1 and self.vector.a != 0 and test(*found[0])

    def ends_with_strings(self):
        return any(number + len(text) == len(self.strings()) for number, text in self.texts())

    # ---- R-3

    def refused_after_operands(self, *numbers):
        """Refused for the entity, the field cell, the pointer or what is moved."""
        return self.vector.opcode in FIELD_OPCODES and self.vector.refused(*numbers) and not self.faults()

    def named_field(self):
        """The field cell that a load or a store through a pointer names first."""
        if self.vector.opcode in LOADS:
            return self.cell(self.vector.b)
        return self.cell(self.vector.b) // 4 % self.vector.file.per_entity

    def field_types(self):
        """The types of the field definitions for that cell, in file order."""
        offset, count = struct.unpack_from('<2i', self.vector.file.bytes, 24)
        changed, field = self.bytes(), self.named_field()
        found = [struct.unpack_from('<2H', changed, offset + 8 * i) for i in range(count)]
        return [kind % 32768 for kind, at in found if at == field]

    def vector_leaves(self):
        """A vector's first field cell is there, and another not."""
        last = self.vector.file.per_entity - 1
        return self.vector.opcode in (25, 38) and last - 1 <= self.named_field() <= last


def cases():
    note, notes = '', []
    with open(statement_vectors.CASES, encoding='ascii') as lines:
        for line in lines:
            if line.startswith('#'):
                note = line[1:].strip()
            elif line.startswith('vector'):
                notes.append(note)
    return [Case(vector, note) for vector, note in zip(statement_vectors.vectors(), notes)]


# ---- the rows

def operand_row(case, number):
    return case.vector.refused(number) and number in case.faults()


def wholes(case):
    return [case.cell(at) for at in case.operands[:2]] if case.vector.opcode in BITS else []


def too_far(x, sign):
    return not is_nan(x) and x >> 31 == sign and (is_infinite(x) or exact(x) >= 2**31 or exact(x) < -2**31)


def inside(case):
    """A Call of one of R-1's four builtins, by the function in its operand's cell."""
    offset, count = struct.unpack_from('<2i', case.vector.file.bytes, 32)
    number = case.cell(case.vector.a)
    if case.vector.opcode not in statement_vectors.CALL_OPCODES or number >= count:
        return False
    return -struct.unpack_from('<i', case.bytes(), offset + 36 * number)[0] in INSIDE


def past_the_strings(case):
    """Refused 33 for a number not below the strings' count at which, counted from their offset, the file has a byte."""
    offset, _ = struct.unpack_from('<2i', case.vector.file.bytes, 40)
    operands = [at for at, kind in zip(case.operands, case.kinds) if kind == 's']
    length = len(case.vector.file.bytes)
    return operand_row(case, 33) and any(len(case.strings()) <= case.cell(at) < length - offset for at in operands)


def one_begins(x, y):
    return x[1] != y[1] and (x[1].startswith(y[1]) or y[1].startswith(x[1]))


def differ_later(x, y):
    return x[1] != y[1] and x[1][:1] == y[1][:1] and not one_begins(x, y)


ROWS = [
    ('a NaN is computed with', lambda c: any(map(is_nan, c.floats_read()))),
    ('arithmetic makes a NaN', lambda c: any(map(is_nan, c.floats_made()))),
    ('an infinity is computed with', lambda c: any(map(is_infinite, c.floats_read()))),
    ('arithmetic makes an infinity', lambda c: any(map(is_infinite, c.floats_made()))),
    ('-0 is computed with', lambda c: 0x80000000 in c.floats_read()),
    ('arithmetic makes -0', lambda c: 0x80000000 in c.floats_made()),
    ('a subnormal is computed with', lambda c: any(map(is_subnormal, c.floats_read()))),
    ('arithmetic makes a subnormal', lambda c: any(map(is_subnormal, c.floats_made()))),
    ('a result half way between two floats', lambda c: any(is_tie(*operation) for operation in c.operations())),
    ('`as i32` saturates upward', lambda c: any(too_far(x, 0) for x in wholes(c))),
    ('`as i32` saturates downward', lambda c: any(too_far(x, 1) for x in wholes(c))),
    ('a vector at the last three cells', lambda c: c.accepted and c.vector.file.count - 3 in c.vector_places()),
    ('a vector that ends past the last cell',
     lambda c: c.vector.refused(15) and any(at in c.vector_places() for at in (c.vector.file.count - 2, c.vector.file.count - 1))),
    ('a StoreV whose vectors overlap', lambda c: c.vector.opcode == STORE_V and c.overlaps()),
    ('a vector statement that writes over cells that it reads', lambda c: c.vector.opcode in VECTORS and c.overlaps()),
    ('an operand refused 15: no such cell', lambda c: operand_row(c, 15)),
    ('an operand refused 16: another type', lambda c: operand_row(c, 16)),
    ('an operand refused 17: a negative number', lambda c: operand_row(c, 17)),
    ('an operand refused 18: the unused one is given', lambda c: operand_row(c, 18)),
    ('two operands that would be refused', lambda c: len(c.faults()) > 1),
    ('two operands that would be refused with different numbers', lambda c: len(set(c.faults())) > 1),
    ('refused at the fetch, 7', lambda c: c.vector.refused(7)),
    ('a Call: 19, 20, 5, a builtin', lambda c: c.vector.refused(19, 20, 5) or c.vector.word == 'builtin'),
    ('a Call of rint, floor, ceil or fabs, done inside', lambda c: inside(c) and c.accepted),
    ('such a Call, refused 16 for cell 4 or cell 1', lambda c: inside(c) and c.vector.refused(16) and not c.faults()),
    ('a field is loaded', lambda c: c.accepted and c.vector.opcode in LOADS),
    ('a pointer is made', lambda c: c.accepted and c.vector.opcode == ADDRESS),
    ('a field is written through a pointer', lambda c: c.accepted and c.vector.opcode in STORES_P),
    ('refused 30: an entity not below the number', lambda c: c.refused_after_operands(30)),
    ('refused 32: a pointer', lambda c: c.refused_after_operands(32)),
    ('refused 16 by field definition', lambda c: c.refused_after_operands(16)),
    ('refused 31: a field cell not below the cells per entity', lambda c: c.refused_after_operands(31)),
    ('of these a vector that would leave its entity', lambda c: c.refused_after_operands(31) and c.vector_leaves()),
    ('refused 17: a negative string, entity or field moved', lambda c: c.refused_after_operands(17)),
    ('a void field definition before another', lambda c: c.vector.opcode in (*LOADS, *STORES_P) and 0 in c.field_types()[:-1]),
    ('600 entities', lambda c: c.vector.entities == 600),
    ('an operand refused 33: no such string number', lambda c: operand_row(c, 33)),
    ('of these a number at which the file still has bytes', past_the_strings),
    ('of these no strings at all', lambda c: operand_row(c, 33) and not c.strings()),
    ('EqS or NeS of one text at two places', lambda c: c.pair(lambda x, y: x[0] != y[0] and x[1] == y[1] != b'')),
    ('EqS or NeS of two texts of which one begins with the other', lambda c: c.pair(one_begins)),
    ('EqS or NeS of two texts that differ later than in their first byte', lambda c: c.pair(differ_later)),
    ('a text with a byte over 127', lambda c: any(byte > 127 for _, text in c.texts() for byte in text)),
    ('a text that the end of the strings ends', lambda c: c.ends_with_strings()),
    ('equal operands of EqS or NeS, unread', lambda c: c.accepted and c.vector.opcode in STRING_PAIRS and c.unread(0)),
    ('NotS of an empty text, its number not 0', lambda c: c.alone(lambda number, text: number and not text)),
    ("NotS of number 0, its text not empty", lambda c: c.alone(lambda number, text: not number and text)),
    ("NotS of another text that isn't empty", lambda c: c.alone(lambda number, text: number and text)),
    ("NotS of operand 0, its text not empty", lambda c: c.vector.opcode == NOT_S and c.vector.a == 0 and any(text for _, text in c.texts())),
    ('a void definition before another of that cell, and accepted', lambda c: c.accepted and c.marked(any)),
    ('a void definition before another of that cell, and refused 16', lambda c: operand_row(c, 16) and c.marked(any)),
    ('void definitions only of a cell', lambda c: c.marked(lambda types: not any(types))),
]


def opcodes_with(found, test):
    return {c.vector.opcode for c in found if test(c)} & set(range(66))


def table():
    found = cases()
    yield '| cases | that reach | under |'
    yield '|---|---|---|'
    for what, test in ROWS:
        reached = [c for c in found if test(c)]
        assert reached, what
        yield f'| {len(reached)} | {what} | {Counter(c.note for c in reached).most_common(1)[0][0]} |'
    accepted = opcodes_with(found, lambda c: c.accepted)
    refused = opcodes_with(found, lambda c: c.vector.word == 'refused')
    handed = opcodes_with(found, lambda c: c.vector.word == 'opcode')
    assert handed == HOST and accepted == set(range(66)) - HOST and set(range(66)) - HOST - refused == {GOTO}
    yield ''
    yield (f'Of the {len(found)} cases {sum(c.accepted for c in found)} are accepted. Of the 66 opcodes {len(accepted)} are accepted '
           f'at least once and {len(handed)} handed over; of those accepted all but Goto, which looks at no cell, are refused at '
           'least once.')


def main():
    for line in table():
        print(line)


if __name__ == '__main__':
    main()

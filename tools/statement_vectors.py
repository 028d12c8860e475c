#!/usr/bin/env python3
"""Turns tests/model/cases/statements.txt, which the model in tests/model answers, into what crates/statement_vectors reads:

    python3 tools/statement_vectors.py > crates/statement_vectors/stdin

A line is a letter and two numbers of eight hexadecimal digits:

    f LENGTH 0   a file of that many bytes, all zeros
    b PLACE WORD four bytes of the file from that place on, the lowest first
    c CELL VALUE the cell holds the value
    n E L        there are E entities and L lent entity cells, all zeros; without this line there are none of either
    e INDEX VALUE the lent entity cell holds the value
    w CELL VALUE the cell is to hold the value after the statement; every other cell what it held before
    x INDEX VALUE the lent entity cell is to hold the value after the statement; every other one what it held before
    r KIND N     the statement at position 0 is fetched and executed, and its answer held against KIND and N; then all
                 cells are zeros again, and there are no entities and no lent entity cells

They come in this order; `b` also follows `r`, where bytes are to be as they were.

The kinds are those of `Executed`: 0 the run goes on at N, as a signed number of 16 bits, 1 a Call of function N, 2 a
Return of the cells from N on, 3 refused with N, 4 the builtin N is handed over, 5 the opcode N is handed over.

Execution neither enters nor leaves a function, so where the model goes on to do so, the answer is what comes before:
a Call of the function whose number the first operand's cell holds, a Return from the first operand's cell on.
"""
import os
import struct
import sys

CASES = os.path.join(os.path.dirname(os.path.abspath(__file__)), '..', 'tests', 'model', 'cases', 'statements.txt')
NEXT, CALLS, RETURNS, REFUSED, BUILTIN, OPCODE = range(6)
CALL_OPCODES = range(51, 60)
RETURN_OPCODES = (0, 43)
# refusals of an entry; 15 is one of an operand too
OF_ENTRY = (22, 23, 24)


class File:
    def __init__(self, words):
        self.statements, self.count, length = (int(word) for word in words[:3])
        given = b'' if words[3] == '-' else bytes.fromhex(words[3])
        self.bytes = given + bytes(length - len(given))
        # loading gives the cells of the file, and entering a function moves some: here all of them are zeros
        offset, count = struct.unpack_from('<2i', self.bytes, 48)
        assert count == self.count and not any(self.bytes[offset:offset + 4 * count])
        self.per_entity, = struct.unpack_from('<i', self.bytes, 56)


class Vector:
    def __init__(self, file, words):
        at = words.index('=')
        given, expected = iter(words[:at]), iter(words[at + 2:])
        self.file, self.word = file, words[at + 1]
        self.entered = int(next(given))
        self.opcode, self.a, self.b, self.c = (int(next(given)) for _ in range(4))
        self.pokes = pairs(given)
        self.cells = dict(pairs(given))
        self.entities, self.lent = int(next(given)), int(next(given))
        self.entity_cells = dict(pairs(given))
        self.number, self.position, self.function, self.depth, self.saved = (int(next(expected)) for _ in range(5))
        self.changed = pairs(expected)
        self.entity_changes = pairs(expected)

    def refused(self, *numbers):
        return self.word == 'refused' and self.number in numbers

    def answer(self):
        """What execution answers: a kind and a number."""
        if self.opcode in RETURN_OPCODES:
            # a negative operand names no cell: its sixteen bits, above all cells
            return RETURNS, self.a if self.a >= 0 else self.a % 65536 + 65536
        if self.opcode in CALL_OPCODES:
            there = 0 <= self.a < self.file.count
            # a Call of a builtin that is done inside enters nothing
            if self.word == 'accepted' and self.depth > (self.entered >= 0):
                return CALLS, self.function
            if self.refused(*OF_ENTRY) or (there and self.refused(15)):
                return CALLS, self.cells[self.a]
        if self.word == 'accepted':
            assert -32768 <= self.position < 32768
            return NEXT, self.position % 65536
        return {'refused': REFUSED, 'builtin': BUILTIN, 'opcode': OPCODE}[self.word], self.number

    def written(self):
        """The cells that differ after execution alone."""
        return [] if self.answer()[0] in (CALLS, RETURNS) else self.changed


def pairs(numbers):
    return [(int(next(numbers)), int(next(numbers))) for _ in range(int(next(numbers)))]


def vectors():
    file = None
    with open(CASES, encoding='ascii') as lines:
        for line in lines:
            kind, *words = line.split()
            if kind == 'file':
                file = File(words)
            elif kind == 'vector':
                yield Vector(file, words)


def line(letter, x, y):
    assert 0 <= x < 2**32 and 0 <= y < 2**32
    print(f'{letter} {x:08x} {y:08x}')


def words_of(changes, length):
    """The places of the words that hold changed bytes; the last may begin earlier, so as to end in the file."""
    return sorted({min(place - place % 4, length - 4) for place in changes})


def write_file(file):
    line('f', len(file.bytes), 0)
    for place in range(0, len(file.bytes), 4):
        place = min(place, len(file.bytes) - 4)
        word, = struct.unpack_from('<I', file.bytes, place)
        if word:
            line('b', place, word)


def write_words(bytes_, places):
    for place in places:
        line('b', place, *struct.unpack_from('<I', bytes_, place))


def write_vector(v):
    changed = bytearray(v.file.bytes)
    for place, byte in v.pokes:
        changed[place] = byte
    struct.pack_into('<4h', changed, v.file.statements, v.opcode, v.a, v.b, v.c)
    poked = words_of([place for place, _ in v.pokes], len(changed))
    write_words(changed, poked + [v.file.statements, v.file.statements + 4])
    for cell, value in v.cells.items():
        line('c', cell, value)
    if v.entities or v.lent:
        line('n', v.entities, v.lent)
    for index, value in v.entity_cells.items():
        line('e', index, value)
    for cell, value in v.written():
        line('w', cell, value)
    for index, value in v.entity_changes:
        line('x', index, value)
    line('r', *v.answer())
    write_words(v.file.bytes, poked)


def main():
    file = None
    for v in vectors():
        if v.file is not file:
            file = v.file
            write_file(file)
        write_vector(v)


if __name__ == '__main__':
    main()

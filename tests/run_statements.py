#!/usr/bin/env python3
"""Runs the single statements of tests/model/cases/statements.txt on the machine, as lists of calls for the built call_cases
program, and compares answer, state and cells after each with the file's. After `tools/program call_cases`:

    python3 tests/run_statements.py

The cells before a statement are the model's; what is expected after it is the file's. Entity cells can't be read there: those
after a statement are held to the model's by the digest, the model's answer to the file's. Lent ones that the vector does not
give are not zeros here, but those that the statement may read.
"""
import os
import struct
import subprocess
import sys

ROOT = os.path.dirname(os.path.dirname(os.path.abspath(__file__)))
PROGRAM = os.path.join(ROOT, "crates/call_cases/out/call_cases")
# what call_cases reads in one run
MOST_BYTES = 262144

sys.path.insert(0, os.path.join(ROOT, "tests/model"))
import model
from replay import Numbers, bytes_of, digest, lines_of


def looked_at(count, statement, cells):
    """The first 64 cells, those that the statement names and the two after each, and the given ones."""
    named = {operand + i for operand in statement for i in range(3)}
    return sorted(c for c in set(range(64)) | named | set(cells) if 0 <= c < count)


def read_by_load(per_entity, opcode, operands, cells):
    """The entity cells that opcodes 24 to 29 read, by what their operands hold."""
    if opcode not in range(24, 30):
        return []
    entity, field = (cells.get(operand, 0) for operand in operands[:2])
    return [entity * per_entity + field + i for i in range(3)]


def prepared(machine, entities, vector, offset):
    """The calls before the statement, which are done on the model too. The vector: function, statement, bytes, cells, entity cells."""
    function, statement, changed_bytes, set_cells, given = vector
    lent = len(machine.entity_cells)
    calls = ["lend %d 1" % lent, "load %d" % entities]
    machine.entity_cells = [1 + i for i in range(lent)]
    machine.load(entities)
    if function >= 0:
        machine.enter(function)
        calls.append("enter %d" % function)
    placed = changed_bytes + list(enumerate(struct.pack("<4h", *statement), offset))
    for place, byte in placed:
        machine.file[place] = byte
    per_entity = struct.unpack_from("<i", machine.file, 56)[0]
    zeros = [(i, 0) for i in read_by_load(per_entity, statement[0], statement[1:], dict(set_cells)) if i < lent]
    for cell, value in set_cells:
        machine.cells[cell] = value
    for index, value in zeros + given:
        machine.entity_cells[index] = value
    calls += ["byte %d %d" % pair for pair in placed] + ["put %d %d" % pair for pair in set_cells]
    return calls + ["eput %d %d" % pair for pair in zeros + given]


def vectors():
    """For each vector its line, its list of calls, how many of these only prepare, and what the others must answer. The first
    of these is the statement's, with its digest."""
    for line in lines_of("statements.txt"):
        kind, *words = line.split(" ")
        if kind == "file":
            offset, count = int(words[0]), int(words[1])
            content = bytes_of(words[2], words[3])
            continue
        at = words.index("=")
        given, word, expected = Numbers(words[:at]), words[at + 1], Numbers(words[at + 2:])
        function = given.next()
        statement = [given.next() for _ in range(4)]
        changed_bytes, set_cells = given.pairs(), given.pairs()
        entities, lent = given.next(), given.next()
        saved = [0xBEEF0000 + i for i in range(2048)]
        machine = model.Machine(bytearray(content), [0] * count, saved, [0] * lent)
        calls = prepared(machine, entities, (function, statement, changed_bytes, set_cells, given.pairs()), offset)
        before = len(calls)
        number, *state = [expected.next() for _ in range(5)]
        cells, after = dict(enumerate(machine.cells)), dict(expected.pairs())
        cells.update(after)
        ending = " 0 %d %d %d %d" % tuple(state)
        assert machine.statement()[:2] == (word, number) and machine.cells == [cells[c] for c in range(count)], line
        answers = ["%s %d" % (word, number) + ending + " " + digest(machine)]
        calls.append("statement")
        for c in looked_at(count, statement, list(after) + [c for c, _ in set_cells]):
            calls.append("get %d" % c)
            answers.append("accepted %d" % cells[c] + ending)
        new = "new %d 2048 %d %d %s" % (count, lent, len(content), bytes(content).rstrip(b"\0").hex())
        yield line, "".join(row + "\n" for row in [new] + calls), before, answers


def differences(batch):
    """The vectors of a batch that one run of the program answers otherwise."""
    run = subprocess.run([PROGRAM], input="".join(v[1] for v in batch).encode(), stdout=subprocess.PIPE)
    rows = run.stdout.decode().splitlines()
    for line, _, before, answers in batch:
        got, rows = rows[before:before + len(answers)], rows[before + len(answers):]
        # after the statement itself the digests are not looked at
        got = got[:1] + [row.rsplit(" ", 1)[0] for row in got[1:]]
        if got != answers:
            yield line, [pair for pair in zip(got, answers) if pair[0] != pair[1]] or "no answer"


def main():
    batches, size = [[]], 0
    for vector in vectors():
        if size + len(vector[1]) > MOST_BYTES:
            batches.append([])
            size = 0
        batches[-1].append(vector)
        size += len(vector[1])
    differ = [d for batch in batches for d in differences(batch)]
    for line, pairs in differ:
        print(line, pairs)
    print("%d statements, %d differ" % (sum(map(len, batches)), len(differ)))
    sys.exit(differ != [])


if __name__ == "__main__":
    main()

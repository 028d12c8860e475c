"""R-12: lists of calls that mix both engines, cases/engines.txt, and lists with unpack buffers as a host may lend them,
cases/unpacked.txt."""

import copy
import struct

from call_cases import (
    BUILTIN, ENDLESS, HOUSE, NOTHING, OUTER, RECURSIVE, ROUNDING, Calls, fnv, local_place, random_call, random_entity_change,
)
from common import (
    CHANCE_FLOATS, CURRENT, DEPTH, ENTITIES, GREATEST_LIMIT, POSITION, SAVED, STATE_LUMPS, Xorshift, flt, random_program,
)
from entity_calls import PLAYERS, STRIDE
from model import FLOAT, GLOBAL_DEFS, OPCODE_NUMBER, STATEMENTS, STRING, Answer, Assembly, function, outcome_of
from sentence_cases import Outcomes


def unpacked_for(machine):
    """Zeros, four for each statement that the state records, into which the statements were unpacked, if that wasn't refused."""
    unpacked = [0] * (4 * max(machine.state.lumps[2 * STATEMENTS + 1], 0))
    machine.unpack(unpacked)
    return unpacked


def left_by(machine):
    return machine.state, machine.cells, machine.saved_store, machine.entity_cells


class Engines(Outcomes):
    """Lists of calls with `sentence N` and one more: `run2 T L`, the second engine's run."""

    def _perform(self, word, given):
        if word != "run2":
            return super()._perform(word, given)
        first = copy.deepcopy(self.machine)
        answer = self.machine.run_unpacked(unpacked_for(self.machine), *given)
        # "the same outcome, count, state, cells, saved store and entity cells as the first"
        assert first.run(*given) == answer and left_by(first) == left_by(self.machine)
        self.outcome = outcome_of(answer, self.machine.state)
        return answer


def mixed_engines(c):
    c.new("R-12: a whole life by the second engine", HOUSE, 70, 2050)
    c.no(13, "run2 0 5", "run2 -1 0")
    c.ok("load 0", "enter 1")
    assert c.do("run2 0 100") == Answer("builtin", 7, 3)
    c.says("builtin", 7, 3, 5, 2)
    c.ok("put 1 1077936128", "carry")
    assert c.do("run2 0 100") == Answer("opcode", 60, 0)
    c.ok("carry")
    assert c.do("run2 0 100") == Answer("ended", 0, 2)
    c.says("ended", 0, 2, 0, 0)
    c.ok("get 1", "get 40", "get 44")
    for text, engines in (("first, second", ("run", "run2")), ("second, first", ("run2", "run")), ("second alone", ("run2", "run2"))):
        c.new(f"R-12: a statement by one engine, the next by the other: {text}", HOUSE)
        c.ok("load 0", "enter 1")
        for index in range(3):
            c.word("spent", f"{engines[index % 2]} 0 1")
        for engine in engines:
            assert c.do(f"{engine} 0 9") == Answer("builtin", 7, 0)
        c.ok("carry")
        c.word("opcode", *[f"{engine} 0 1" for engine in engines])
        c.ok("carry")
        c.word("spent", f"{engines[0]} 0 1")
        c.word("ended", f"{engines[1]} 0 1")
        c.no(29, f"{engines[0]} 0 1")
    c.new("R-12: entries of the host between runs of either, abandonments of what either entered", HOUSE)
    c.ok("load 0", f"enter {RECURSIVE}")
    assert c.do("run2 0 5") == Answer("spent", 0, 5)
    c.ok("enter 1")
    assert c.do("run 0 2") == Answer("spent", 0, 2)
    c.ok("abandon 3", "put 50 1065353216", f"enter {RECURSIVE}")
    assert c.do("run2 3 2") == Answer("spent", 0, 2)
    c.ok(f"put 38 {NOTHING}")
    c.word("ended", "run 4 99", "run2 3 99", "run2 1 99", "run 0 99")
    c.ok("get 50", "get 1")
    c.new("R-12: as deep as 31 by the second engine, the Returns by the first", HOUSE)
    c.ok("load 0", "enter 5")
    assert c.do("run2 0 99999") == Answer("refused", 22, 61)
    c.no(22, "run 0 9", "run2 0 9", "statement")
    c.ok("put 38 3")
    c.word("builtin", "run2 0 9")
    c.ok("carry")
    assert c.do("run 7 99") == Answer("ended", 0, 24)
    assert c.do("run2 0 99") == Answer("ended", 0, 7)


def refused_engines(c):
    c.new("R-12: 28, 29, and under a lower limit", HOUSE)
    c.ok("load 0 5927 31 2048 50")
    c.no(29, "run2 0 1", "run2 -1 1", "run2 1 50")
    c.no(28, "run2 0 0", "run2 0 51", "run2 -1 99999", "run2 9 -1", "run2 0 2147483647", "run2 0 -2147483648")
    c.ok(f"enter {ENDLESS}")
    c.no(28, "run2 0 0", "run2 0 51", "run2 1 0")
    c.no(29, "run2 1 50", "run2 -1 1", "run2 -2147483648 5", "run2 2147483647 5")
    assert c.do("run2 0 50") == Answer("spent", 0, 50)
    c.ok("load 0", f"enter {ENDLESS}")
    assert c.do("run2 0 99999") == Answer("spent", 0, 99_999)
    c.no(28, "run2 0 100000")
    c.new("R-12: each run2 unpacks the bytes as they are now", HOUSE)
    at = HOUSE.place(STATEMENTS, 8)
    c.ok("load 0", "enter 4")
    c.word("spent", "run2 0 3")
    for opcode, answer in ((66, 7), (255, 7), (61, "spent"), (60, "opcode"), (0, "ended")):
        c.ok(f"byte {at} {opcode}")
        c.do("run2 0 3", answer)
    c.ok("enter 4", f"byte {at} 61", f"byte {at + 1} 1")
    c.no(7, "run2 0 3", "run 0 3")
    c.ok(f"byte {at + 1} 0", f"byte {at + 2} 255", f"byte {at + 3} 255")  # Goto -1
    c.word("spent", "run2 0 1")
    c.word("ended", "run2 0 1")  # the Return before it
    c.ok("load 0", f"byte {at + 2} 77", f"byte {at + 3} 0", "enter 4")
    assert c.do("run2 0 9") == Answer("refused", 14, 1)
    c.no(14, "run2 0 1", "run 0 1")
    c.new("R-12: the statement after the limit isn't fetched", HOUSE)
    c.ok("load 0", f"byte {at + 2} 77", "enter 4")
    c.word("spent", "run2 0 1")
    c.no(14, "run2 0 1")
    c.new("R-12: 13", HOUSE.bytes() + bytes(4))
    c.ok("load 0", "enter 1")
    for offset, byte in ((12, 12), (12, 14), (8, 61), (52, 63), (56, 104), (local_place(OUTER, "locals"), 3)):
        old = c.machine.file[offset]
        c.ok(f"byte {offset} {byte}")
        c.no(13, "run2 0 5", "run2 0 0", "run2 -1 5", "run 0 5")
        c.ok(f"byte {offset} {old}")
    c.word("spent", "run2 0 2")
    c.new("R-12: no statements at all", Assembly((), [function()]))
    c.ok("load 0", "enter 0")
    c.no(14, "run2 0 5", "run 0 5")
    c.no(28, "run2 0 0")
    c.new("R-12: a refused statement leaves what the ones before it did, and the count", HOUSE)
    c.ok("load 0", "put 36 5", "put 38 10", "enter 1")
    assert c.do("run2 0 50", 15) == Answer("refused", 15, 3)
    c.says("refused", 15, 3, 10, 5)
    assert c.do("run2 0 50", 15) == Answer("refused", 15, 0)
    c.ok("put 38 0")
    c.no(19, "run2 0 50", "run 0 50")


def other_engines(c):
    c.new("R-12: what is done inside", ROUNDING)
    c.ok("load 0")
    for value, engine in ((flt(-2.5), "run2"), (flt(0.5), "run"), (0x7F800001, "run2")):
        c.ok(f"put 4 {value}", "enter 1")
        assert c.do(f"{engine} 0 20") == Answer("ended", 0, 9)
    c.ok("enter 1")
    c.word("spent", "run2 0 3")
    c.word("ended", "run 0 6")
    c.new("R-12: entities, read and written by either", PLAYERS, lent=3 * STRIDE)
    c.ok("load 3", "put 33 0")
    for engines in (("run2", "run"), ("run", "run2"), ("run2", "run2")):
        c.ok("enter 4")
        c.do(f"{engines[0]} 0 7")
        c.do(f"{engines[1]} 0 8")
        c.ok("abandon 0", "enter 1")
        c.do(f"{engines[0]} 0 5")
        c.do(f"{engines[1]} 0 90")
        c.ok("abandon 0", "enter 2")
        c.do(f"{engines[1]} 0 30")
        c.ok("abandon 0")
    last = (3, 4, 2, 5, 1, 0)
    many = Assembly([("Done",)] * 70_000, [function(), function(66_000), function(65_536, 40, 1)], layout=last, cells={0: 7, 28: 2, 40: 3})
    c.new("R-12: 70,000 statements: a function at 66,000, another at 65,536", many)
    at = many.place(STATEMENTS, 66_000)
    c.ok("load 0", "enter 1", f"byte {at} 51", f"byte {at + 2} 28")
    c.word("spent", "run2 0 1")
    c.word("ended", "run2 0 9")
    c.ok("enter 2")
    c.word("ended", "run2 0 9")


def random_engines(c):
    for seed in range(1, 41):
        chance = Xorshift(seed * 2654435761 % 2**32)
        entities = chance.below(3)
        c.new(f"R-12: made by chance, {seed}", random_program(chance, hosts=True, entities=entities > 0), 64 + chance.below(4), 2048, 105 * entities)
        c.ok(f"load {entities}")
        for _ in range(14):
            c.do(f"enter {1 + chance.below(5)}")
            c.do(f"{chance.pick(('run', 'run2', 'run2'))} {chance.below(3)} {1 + chance.below(30)}")
            c.do(chance.pick(("carry", "statement", f"abandon {chance.below(4)}", "sentence 120", f"put {40 + chance.below(4)} {chance.below(8)}",
                              f"put {28 + chance.below(30)} {chance.pick(CHANCE_FLOATS)}", f"byte {60 + chance.below(300)} {chance.below(66)}")))
            c.do(f"{chance.pick(('run', 'run2'))} {chance.below(3)} {1 + chance.below(30)}")


def engine_cases():
    c = Engines()
    mixed_engines(c)
    refused_engines(c)
    other_engines(c)
    random_engines(c)
    return c


class Unpacked(Calls):
    """Lists of calls with an unpack buffer: `buffer N V` and `set I V` change it, `unpack` writes it, `runs2 T L` runs from it."""

    def __init__(self):
        super().__init__()
        self.buffer = []

    def new(self, *given, **lent):
        super().new(*given, **lent)
        self.buffer = []

    def _perform(self, word, given):
        if word == "buffer":
            self.buffer = [(given[1] + i) % 2**16 for i in range(given[0])]
            return Answer("accepted")
        if word == "set":
            self.buffer[given[0]] = given[1]
            return Answer("accepted")
        if word == "unpack":
            return self.machine.unpack(self.buffer)
        if word == "runs2":
            before = list(self.buffer)
            answer = self.machine.run_unpacked(self.buffer, *given)
            assert self.buffer == before
            return answer
        return super()._perform(word, given)

    def do(self, call, expect=None):
        answer = super().do(call, expect)
        if call.split()[0] in ("unpack", "runs2"):
            self.lines[-1] += f" {fnv(struct.pack(f'<{len(self.buffer)}H', *self.buffer)):016x}"
        return answer

    def statement(self, index, *words):
        """A statement in the buffer, as it must be read."""
        opcode, a, b, c = (*words, 0, 0, 0)[:4]
        for i, number in enumerate((OPCODE_NUMBER.get(opcode, opcode), a, b, c)):
            if self.buffer[4 * index + i] != number % 2**16:
                self.ok(f"set {4 * index + i} {number % 2**16}")

    def short(self, *sizes):
        """Buffers that are too short stay as they are."""
        for size in sizes:
            self.ok(f"buffer {size} 40000")
            before = list(self.buffer)
            self.no(37, "unpack", "runs2 0 5", "runs2 0 0", "runs2 -1 5", "runs2 0 100000", "runs2 9 9")
            assert self.buffer == before

    def unpacked(self, file, spare=0, first=60000):
        """Unpacks; what stands there then was put together by hand from the file's bytes."""
        offset, count = struct.unpack_from("<2i", file, 8)
        self.ok(f"buffer {4 * count + spare} {first}", "unpack")
        rest = [(first + 4 * count + i) % 2**16 for i in range(spare)]
        assert self.buffer == [*struct.unpack_from(f"<{4 * count}H", file, offset), *rest]


def length_buffers(c):
    c.new("R-12: buffers too short by one number and more, of the right length, and longer ones: 13 statements", HOUSE)
    c.ok("load 0", f"enter {ENDLESS}")
    c.short(0, 1, 3, 4, 13, 48, 50, 51)
    for spare in (0, 1, 3, 4, 8, 100):
        c.unpacked(HOUSE.bytes(), spare)
        assert c.do("runs2 0 5") == Answer("spent", 0, 5)
        c.no(28, "runs2 0 0", "runs2 0 100000", "runs2 -1 0")
        c.no(29, "runs2 1 5", "runs2 -1 5")
    c.new("R-12: 13 before 37, at unpacking and at each run", HOUSE, lent=STRIDE)
    for size in (0, 51, 52, 60):
        c.ok(f"buffer {size} 700")
        c.no(13, "unpack", "runs2 0 5", "runs2 0 0", "runs2 -1 5")  # nothing is loaded
    c.ok("load 1", "enter 1")
    for size in (51, 52):
        c.ok(f"buffer {size} 700")
        for field, bad, good in ((DEPTH, 32, 1), (SAVED, 1, 2), (CURRENT, 99, 1), (ENTITIES, 2, 1), (GREATEST_LIMIT, 0, 99_999), (STATE_LUMPS + 1, 12, 13)):
            c.ok(f"field {field} {bad}")
            c.no(13, "unpack", "runs2 0 5", "runs2 0 0", "runs2 -1 5")
            c.ok(f"field {field} {good}")
        c.do("runs2 0 1", 37 if size == 51 else 7)
    c.no(7, "runs2 0 5")
    c.ok("unpack")
    c.word("spent", "runs2 0 2")
    c.ok(f"field {GREATEST_LIMIT} 3")
    c.no(28, "runs2 0 4", "runs2 -1 4")
    assert c.do("runs2 0 3") == Answer("builtin", 7, 1)
    c.ok("lend 104 1")
    c.no(13, "unpack", "runs2 0 3")
    c.ok("buffer 0 0")
    c.no(13, "unpack", "runs2 0 3")


def once_unpacked(c):
    c.new("R-12: unpacked once, for every run of the match", HOUSE, 70, 2050)
    c.ok("load 0")
    c.unpacked(HOUSE.bytes(), 5)
    c.ok("enter 1")
    assert c.do("runs2 0 100") == Answer("builtin", 7, 3)
    c.ok("carry")
    assert c.do("run 0 100") == Answer("opcode", 60, 0)
    assert c.do("runs2 0 100") == Answer("opcode", 60, 0)
    c.ok("carry", "unpack")
    assert c.do("runs2 0 1") == Answer("spent", 0, 1)
    assert c.do("run 0 1") == Answer("ended", 0, 1)
    c.ok("load 0", f"enter {RECURSIVE}")
    assert c.do("runs2 0 7") == Answer("spent", 0, 7)
    assert c.do("run 0 2") == Answer("spent", 0, 2)
    assert c.do("runs2 0 99999") == Answer("refused", 22, 52)
    c.ok("abandon 3")
    assert c.do("runs2 2 99") == Answer("ended", 0, 1)
    c.no(29, "runs2 2 99")
    assert c.do("runs2 0 99") == Answer("ended", 0, 2)


def changed_bytes(c):
    c.new("R-12: bytes changed after unpacking: the first engine reads them, the second the buffer", HOUSE)
    at = HOUSE.place(STATEMENTS, 8)
    c.ok("load 0", f"enter {ENDLESS}")
    c.unpacked(HOUSE.bytes())
    c.ok(f"byte {at} 66")
    c.no(7, "run 0 3", "statement", "carry")
    c.word("spent", "runs2 0 3")
    c.ok("unpack")
    c.no(7, "runs2 0 3", "run 0 3")
    c.ok(f"byte {at} 0")
    c.no(7, "runs2 0 3")
    c.ok("set 32 60")
    c.word("opcode", "runs2 0 3")
    c.no(27, "carry")  # the statement in the file is Done
    c.ok(f"byte {at} 60", "set 32 0", "carry", f"field {POSITION} 8")
    c.word("opcode", "run 0 3")
    c.word("ended", "runs2 0 3")
    c.new("R-12: functions, definitions, strings and cells are the file's as they are now, for both", HOUSE)
    c.ok("load 0")
    c.unpacked(HOUSE.bytes())
    c.ok("enter 1", f"byte {HOUSE.place(GLOBAL_DEFS, 0)} {STRING}")  # cell 28's type
    c.no(16, "runs2 0 1", "run 0 1")
    c.ok(f"byte {HOUSE.place(GLOBAL_DEFS, 0)} {FLOAT}")
    c.word("spent", "runs2 0 2")
    c.number(local_place(BUILTIN, "first"), -8)
    assert c.do("runs2 0 9") == Answer("builtin", 8, 1)
    c.number(local_place(BUILTIN, "first"), -5)
    c.no(5, "runs2 0 9", "run 0 9")


def wrong_buffers(c):
    c.new("R-12: a buffer of zeros, though nothing was unpacked: every statement is Done 0 0 0", HOUSE)
    c.ok("load 0", "buffer 52 0", *["set %d 0" % i for i in range(52)], "enter 1", "enter 2")
    assert c.do("runs2 1 9") == Answer("ended", 0, 1)
    c.ok("get 1", "get 40")
    assert c.do("runs2 0 9") == Answer("ended", 0, 1)
    c.new("R-12: operands in another order, other operands, opcodes that are none", HOUSE)
    c.ok("load 0")
    c.unpacked(HOUSE.bytes(), 4)
    c.ok(f"put 29 {flt(8.0)}", f"put 30 {flt(2.0)}", "enter 1")

    def at_1(*statement, answer="spent", limit=1, position=1):
        """What a run of one statement answers when the buffer has this one at position 1."""
        c.statement(1, *statement)
        c.ok(f"field {POSITION} {position}")
        return c.do(f"runs2 0 {limit}", answer)

    for operands in ((28, 30, 31), (30, 28, 31), (31, 28, 30), (31, 30, 28)):
        at_1("Div", *operands)
        at_1("SubF", *operands)
        c.ok("get 30", "get 31")
    at_1("StoreF", 28, 33)
    at_1("StoreF", 33, 28)
    at_1("StoreF", 28, 33, 1, answer=18)
    at_1("NotF", 28, 0, 33)
    at_1("NotF", 28, 33, 0, answer=18)
    at_1("AddF", 64, 28, 28, answer=15)
    at_1("AddF", -1, 28, 28, answer=15)
    at_1("AddF", 28, 32_767, 28, answer=15)
    at_1("AddF", 28, 28, -32_768, answer=15)
    at_1("AddF", 29, 28, 28, answer=16)
    for opcode in (66, 67, 127, 128, 255, 256, 256 + 6, 32_767, 32_768, 65_535, 65_530):
        assert at_1(opcode, 28, 28, 28, answer=7, limit=9).count == 0
    for a in (0, 1, 12, -1, -2, 32_767, -32_768):
        at_1("Goto", a)
        assert c.machine.state.position == 1 + a
        at_1("If", 28, a)
        assert c.machine.state.position == 1 + a
        at_1("IfNot", 28, a)
        assert c.machine.state.position == 2
    assert at_1("State", 1, 2, 3, answer="opcode") == Answer("opcode", 60, 0)
    c.no(27, "carry")
    at_1("Call3", 37, answer="builtin")
    at_1("Call3", 36)
    c.ok("abandon 1")
    at_1("Return", 62, answer=15)
    at_1("Done", 28, answer="ended")
    c.ok("get 1")


def count_buffers(c):
    c.new("R-12: 14 by the file's count of statements, whatever the buffer has past it", HOUSE)
    c.ok("load 0")
    c.unpacked(HOUSE.bytes(), 40)
    for index in range(13, 23):
        c.statement(index, "Goto", 0)
    c.ok(f"enter {ENDLESS}")
    for position in (13, 14, 22, 23, 100, -1, 2**16, 2**32 + 8, 2**61, 2**62, 2**63 - 1, -(2**63), -(2**61) + 8):
        c.ok(f"field {POSITION} {position}")
        c.no(14, "runs2 0 5", "run 0 5")
    c.statement(8, "Goto", 5)
    c.ok(f"field {POSITION} 8")
    assert c.do("runs2 0 5") == Answer("refused", 14, 1)
    c.statement(8, "Goto", 4)
    c.statement(12, "Goto", 0)
    c.ok(f"field {POSITION} 8")
    assert c.do("runs2 0 5") == Answer("spent", 0, 5)

    def both(index, value):
        """A number of the header and what the state records of it."""
        c.number(8 + 4 * index, value)
        c.ok(f"field {STATE_LUMPS + index} {value}")

    c.new("R-12: fewer and more statements, in file and state", HOUSE)
    c.ok("load 0", f"enter {ENDLESS}")
    for count in (9, 1, 20, 14):
        both(1, count)
        c.short(4 * count - 1, 4 * (count - 1), 0)
        c.unpacked(c.machine.file, 8)
        c.ok(f"field {POSITION} 8")
        c.do("runs2 0 3", "spent" if count > 8 else 14)
        c.ok(f"field {POSITION} {count}")
        c.no(14, "runs2 0 3")
    both(1, 0)
    for size in (0, 1, 4):
        c.ok(f"buffer {size} 61", "unpack")
        c.no(14, "runs2 0 3")
        c.no(28, "runs2 0 0")
    both(1, 13)
    c.ok(f"field {POSITION} 8")
    both(0, HOUSE.lumps[0] + 8)  # all statements one further on: the last is a definition's bytes
    c.unpacked(c.machine.file)
    c.do("runs2 0 1")
    both(0, 61)
    c.unpacked(c.machine.file)
    c.ok(f"field {POSITION} 8")
    c.do("runs2 0 1")
    inside = Assembly([("Done",)], [function()])
    inside.lumps[0:2] = 0, 2
    c.new("R-12: statements over the header: AddF 0 5927 0, then Done 0 2 0", inside)
    c.ok("load 0", "enter 0")
    c.unpacked(inside.bytes())
    assert c.buffer == [6, 0, 5927, 0, 0, 0, 2, 0]
    c.no(15, "runs2 0 1", "run 0 1")
    c.ok("byte 4 0", "byte 5 0", "unpack")  # the check number isn't looked at again
    assert c.do("runs2 0 9") == Answer("ended", 0, 2)


def large_buffers(c):
    many = Assembly([("Done",)] * 130_000, [function(), function(129_998)], layout=(3, 4, 2, 5, 1, 0), cells={0: 7})
    at = many.place(STATEMENTS, 129_998)
    c.new("R-12: 130,000 statements", many)
    c.ok(f"byte {at} 61", f"byte {at + 2} 1", "load 0", "enter 1", "buffer 519999 0")
    c.no(37, "unpack", "runs2 0 5")
    c.ok("buffer 520001 9", "unpack")
    assert c.do("runs2 0 5") == Answer("ended", 0, 2)


def random_buffers(c):
    """Unpacked, then perhaps a number changed; both engines in turn."""
    for seed in range(1, 41):
        chance = Xorshift(seed * 2654435761 % 2**32)
        entities = chance.below(3)
        assembly = random_program(chance, hosts=True, entities=entities > 0)
        count = assembly.lumps[1]
        c.new(f"R-12: made by chance, {seed}", assembly, 64 + chance.below(3), 2048, 105 * entities)
        c.ok(f"load {entities}")
        c.unpacked(assembly.bytes(), chance.below(9))
        for _ in range(12):
            kind = chance.below(8)
            if kind == 0:
                c.ok(f"set {chance.below(len(c.buffer))} {chance.pick((0, 6, 28, 43, 48, 61, 66, 65_535, chance.below(65_536)))}")
            if kind == 1:
                c.do(f"buffer {4 * count - 2 + chance.below(5)} {chance.below(65_536)}")
                c.do("unpack")
            if kind == 2:
                c.do("unpack")
            c.do(f"enter {1 + chance.below(5)}")
            c.do(f"runs2 {chance.below(3)} {1 + chance.below(30)}")
            c.do(random_call(chance, c.machine, assembly))
            if entities and chance.below(3) == 0:
                c.do(random_entity_change(chance, c.machine))
            c.do(f"{chance.pick(('run', 'runs2'))} {chance.below(3)} {1 + chance.below(30)}")


def unpacked_cases():
    c = Unpacked()
    length_buffers(c)
    once_unpacked(c)
    changed_bytes(c)
    wrong_buffers(c)
    count_buffers(c)
    random_buffers(c)
    large_buffers(c)
    return c

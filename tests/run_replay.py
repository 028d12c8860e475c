#!/usr/bin/env python3
"""Runs the host's replay program on lists of calls and compares what it prints with what the model of tests/model answers.

    python3 tests/run_replay.py REPLAY      the lists of calls.txt, images.txt, outcomes.txt, pairs.txt, settings.txt and engines.txt of tests/model/cases, the load files of
                                            load_files.txt, the list of rust/host/tests/replay, the rule files of tests/rules written, and lists
                                            made by chance
    python3 tests/run_replay.py --write     writes the list of rust/host/tests/replay, with what the model prints for it
    python3 tests/run_replay.py --check     says whether the committed one is that

REPLAY is the built program, as rust/host/target/debug/examples/replay. Each list is played again with every run by the second engine. Lists of calls.txt that change a state's numbers, or
entity cells between calls, can't be replayed, and are left out.
"""
import os
import struct
import subprocess
import sys
import tempfile

ROOT = os.path.dirname(os.path.dirname(os.path.abspath(__file__)))
FOLDER = os.path.join(ROOT, "rust/host/tests/replay")
RULES = os.path.join(ROOT, "tests/rules")

sys.path.insert(0, os.path.join(ROOT, "tests/model"))
import model
from common import Xorshift, random_program
from replay import bytes_of, lines_of, second_run

FNV_BASIS, FNV_PRIME = 14695981039346656037, 1099511628211
# how many lists are made by chance
RANDOM_LISTS = 300
# numbers at and past the edges of what is accepted, and of 32 and 64 bits
EDGES = [-2**64, -2**63, -2**31 - 1, -1, 0, 30, 31, 63, 64, 2048, 100000, 2**31 - 1, 2**31, 2**32, 2**32 + 1, 2**63 - 1, 2**64]
# what calls.txt calls otherwise
NAMES = {"get": "read", "put": "write", "byte": "poke"}
# the case files that have lists of calls
LISTS = "calls.txt", "images.txt", "outcomes.txt", "pairs.txt", "settings.txt", "engines.txt"
# what each byte of an output or display buffer that is lent holds
UNWRITTEN = 238
# what only calls.txt has; its `lend` is of entity cells alone
LEFT_OUT = ("field", "lend", "eput")


def digest(data):
    result = FNV_BASIS
    for byte in data:
        result = (result ^ byte) * FNV_PRIME % 2**64
    return "%016x" % result


class Digests:
    """Digests of lists of cells; one that was seen last is not worked out again."""

    def __init__(self):
        self.last = {}

    def of(self, name, numbers):
        packed = struct.pack("<%dI" % len(numbers), *numbers)
        if self.last.get(name, (None,))[0] != packed:
            self.last[name] = packed, digest(packed)
        return self.last[name][1]


class Lent:
    """The model, with what the host lends and the state of the last accepted load."""

    def __init__(self, program):
        self.program, self.length = bytearray(program), len(program)
        self.loaded, self.state = False, None
        self.outcome = model.Outcome()  # the last run's
        self.digests = Digests()
        self.lend(64, 2048, 0)

    def lend(self, cells, saved, entity_cells):
        self.cells = [(3221225472 + i) % 2**32 for i in range(cells)]
        self.saved = [(2684354560 + i) % 2**32 for i in range(saved)]
        self.entity_cells = [7 * i % 2**32 for i in range(entity_cells)]

    def poke(self, offset, byte):
        if 0 <= offset < self.length:
            self.program[offset] = byte % 256

    def file(self, length):
        # a longer file is answered by its length alone
        length = min(length, model.LARGEST_FILE + 1)
        self.program.extend(bytes(max(0, length - len(self.program))))
        self.length = length

    def perform(self, line):
        """What replay prints for a line; nothing for a change of what is lent."""
        name, *words = line.split()
        given = [int(word) for word in words]
        if name in ("lend", "poke", "file"):
            getattr(self, name)(*given)
            return None
        if name not in ("load", "sentence", "loadfile") and not self.loaded:
            return line + " => no state"
        machine = model.Machine(bytearray(self.program[:self.length]), self.cells, self.saved, self.entity_cells)
        if name == "sentence":
            answer = self.sentence(*given)
        elif name == "loadfile":
            answer = load_file(*given)
        elif name == "load":
            answer = self.load(machine, *given)
        elif name == "image":
            answer = self.image(machine, *given)
        else:
            answer = self.operate(machine, name, given)
        return "%s => %s | %s" % (line, answer, self.shown())

    def operate(self, machine, name, given):
        machine.state = self.state
        if name in ("write", "pairs"):
            given[1::2] = [value % 2**32 for value in given[1::2]]
        if name == "run2":
            answer = second_run(machine, *given)
        else:
            answer = machine.write_pairs(given) if name == "pairs" else self.operation(machine, name)(*given)
        self.state = machine.state
        if name in ("run", "run2"):
            self.outcome = model.outcome_of(answer, machine.state)
        return words_of(name, answer)

    def sentence(self, size):
        display = bytearray([UNWRITTEN] * size)
        return "%s %s" % (words_of("sentence", model.compose(self.outcome, display)), digest(display))

    def load(self, machine, entities, *settings):
        answer = machine.load(entities, *settings)
        if answer.word == "refused":
            return "refused %d" % answer.detail
        self.loaded, self.state = True, machine.state
        return "ok"

    def image(self, machine, size):
        machine.state, output = self.state, bytearray([UNWRITTEN] * size)
        return "%s %s" % (words_of("image", machine.image(output)), digest(output))

    @staticmethod
    def operation(machine, name):
        return getattr(machine, {"carry": "carry_on"}.get(name, name))

    def shown(self):
        first = "-"
        if self.loaded:
            s = self.state
            frames = "".join("%d,%d;" % frame for frame in s.frames)
            first = "%d %d %d %d %s" % (s.position, s.function, s.depth, s.saved, digest(frames.encode()))
        buffers = ("cells", self.cells), ("saved", self.saved), ("entity", self.entity_cells)
        return " ".join([first] + [self.digests.of(*buffer) for buffer in buffers])


def load_file(seed, n, room):
    output = bytearray([UNWRITTEN] * room)
    return "%s %s" % (words_of("loadfile", model.write_load_file(seed, n, output)), digest(output))


def words_of(name, answer):
    if name in ("run", "run2"):
        return "%s %d %d" % (answer.word, answer.detail, answer.count)
    if answer.word == "accepted":
        return "%s %d" % ("completed" if name == "statement" else "ok", answer.detail)
    return "%s %d" % (answer.word, answer.detail)


def expected(program, lines):
    lent = Lent(program)
    answers = (lent.perform(line) for line in lines)
    return [answer for answer in answers if answer is not None]


def lists(file):
    """The program and the calls of each list of a case file; no calls where one of them can't be replayed."""
    program, calls, left_out = None, [], False
    for line in lines_of(file):
        name, *words = line.split(" ")
        if name == "new":
            if program is not None:
                yield program, [] if left_out else calls
            program, left_out = bytes_of(words[3], words[4]), False
            calls = ["lend %s %s %s" % (words[0], words[1], words[2])]
            continue
        left_out = left_out or name in LEFT_OUT
        calls.append(" ".join([NAMES.get(name, name)] + words[:words.index("=")]))
    yield program, [] if left_out else calls


def by_second(lines):
    """The same calls, or what is printed for them, with every run by the second engine."""
    return ["run2" + line[3:] if line.startswith("run ") else line for line in lines]


def in_turn(count):
    """So many pairs of which the first 63 write to cells one after the other."""
    return "pairs " + " ".join("%d %d" % (i % 63, 500 + i) for i in range(count))


def fixed_list():
    """A program and calls that reach each kind of answer, and each change of what is lent."""
    f = model.function
    program = model.Assembly(
        statements=[("Done",), ("AddF", 28, 29, 30), ("Call0", 40), ("State", 28, 28, 31), ("Call0", 41), ("Return", 30),
                    ("AddF", 28, 33, 30), ("Goto", 0), ("LoadF", 50, 51, 52), ("Address", 50, 51, 53), ("StorePF", 28, 53),
                    ("Return", 52)],
        functions=[f(profile=-1), f(1, 30, 2), f(-7, arguments=-1, profile=255), f(5, 44, 1), f(6), f(7), f(8, profile=2**31 - 1)],
        definitions=[(model.STRING, 33)],
        cells={28: 0x3FC00000, 29: 0x40100000, 40: 2, 41: 3, 50: 1, 51: 104},
    )
    data = program.bytes()
    calls = """
        statement
        read 0
        image 0
        loadfile 1 1 413
        loadfile 1 1 412
        pairs 1 2
        run 0 1
        sentence 119
        sentence 120
        lend 10 2048 2
        load 0
        carry
        lend 64 2048 0
        load 0
        lend 10 2048 2
        load 0
        lend 70 2050 5
        enter 3
        load 0
        image %(length)d
        image %(short)d
        image 0
        image 60
        image %(spare)d
        read 28
        read 63
        read 64
        read -1
        write 50 4294967295
        write 64 1
        pairs
        pairs 50 7 51 8 50 9
        pairs 50 1 64 1
        pairs 50
        pairs 50 1 51
        enter 1
        pairs 30 5 31 6
        sentence 120
        run 0 1
        sentence 120
        image %(length)d
        run 0 100
        sentence 120
        image %(length)d
        statement
        carry
        statement
        sentence 121
        run 0 100
        sentence 128
        carry
        statement
        run 0 1000
        sentence 1000
        sentence 0
        carry
        statement
        statement
        run 0 0
        sentence 120
        run 0 100000
        run 1 5
        run 0 5
        enter 4
        statement
        run 0 9
        abandon 0
        loadfile 2463534242 7 500
        loadfile 4294967295 1000 8405
        loadfile 0 7 500
        loadfile 5 0 0
        loadfile 5 1001 9000
        loadfile 5 1000 0
        enter 5
        run 0 77
        sentence 120
        abandon -1
        abandon 2
        abandon 1
        abandon 0
        enter 2
        enter 7
        enter -9223372036854775808
        statement
        statement
        poke 0 7
        read 1
        image %(length)d
        load 0
        poke 0 6
        load 0
        enter 1
        lend 64 2048 0
        read 1
        lend 63 2048 0
        read 1
        pairs
        pairs 1 2 3
        image 0
        image %(length)d
        lend 64 2047 1
        read 1
        run 0 5
        sentence 120
        sentence 107
        image %(length)d
        lend 64 2048 1
        read 1
        file %(short)d
        read 1
        image %(length)d
        load 0
        file %(spare)d
        load 0
        file %(length)d
        read 1
        file 59
        load 0
        file 0
        load 0
        statement
        file %(length)d
        load 0
        run 0 1
        poke 60 66
        statement
        image %(length)d
        file 100
        statement
        poke 200 9
        file %(length)d
        statement
        poke 60 61
        statement
        statement
        load 18446744073709551616
        enter 18446744073709551617
        enter -18446744073709551615
        read 9223372036854775808
        write -9223372036854775809 1
        write 63 -1
        write 62 4294967297
        read 62
        pairs 62 -1 61 4294967298 18446744073709551616 1
        pairs -18446744073709551616 1
        pairs 62 -1 61 18446744073709551618 60 -18446744073709551617
        read 61
        %(most)s
        %(more)s
        %(odd)s
        enter 1
        run 9223372036854775807 1
        run 18446744073709551616 18446744073709551616
        abandon -9223372036854775808
        abandon 18446744073709551616
        poke -1 7
        poke 18446744073709551676 7
        poke 68 -195
        statement
        file 1048577
        statement
        load 0
        file 18446744073709551616
        statement
        load 0
        file %(length)d
        statement
        lend 64 2048 211
        load 2
        enter 6
        run 0 9
        enter 6
        statement
        lend 64 2048 209
        statement
        lend 64 2048 210
        write 50 1
        write 51 105
        statement
        write 51 104
        run 0 1
        read 53
        write 53 840
        statement
        write 53 418
        run 0 1
        write 53 836
        run 0 1
        load 3
        load -1
        load 601
        load 1
        enter 6
        statement
        lend 64 2048 63000
        load 600
        enter 6
        run 0 3
        image %(spare)d
        abandon 0
        load 0
        enter 6
        statement
        load 0 5927 31 2048 99999
        load 0 5927 32 2048 99999
        load 0 -1 31 2048 99999
        load 0 5928 31 2048 99999
        read 28
        load 0 5927 1 0 3
        enter 1
        enter 4
        enter 4
        run 0 4
        run 0 99999
        run 0 3
        abandon 0
        load 0 5927 3 2 99998
        enter 1
        enter 3
        enter 4
        enter 5
        enter 5
        run 0 99999
        run 2 99998
        load 0
        enter 3
        poke 4 40
        read 28
        load 0
        load 0 5927 31 2048 99999
        load 0 5928 2 2 5
        image %(length)d
        poke 4 0
        image %(length)d
        enter 1
        run 0 6
        run 0 5
        load 3 5888 2 2 5
        load 2 5888 4 4 4
        lend 64 2048 211
        load 2 5888 4 4 4
        enter 6
        run 0 5
        run 0 4
        load 601 5888 0 4 4
        load 0 5888 18446744073709551617 4 4
        load 0 5888 4 -18446744073709551615 4
        load 0 18446744073709557504 4 4 4
        load 0 5888 4 4 9223372036854775808
        file 59
        load 0 5888 4 4 0
        load 0 5888 4 4 4
        file %(length)d
        load 0 5888 31 0 1
        enter 4
        run 0 1
        run 0 2
        run2 0 1
        run2 0 2
        poke 4 39
        poke 68 6
        poke 60 0
        load 0
        run2 0 5
        enter 1
        run2 0 1
        sentence 120
        run 0 1
        run2 0 5
        carry
        run 0 5
        run2 0 5
        sentence 120
        carry
        run2 0 2
        run 0 5
        enter 5
        run2 0 77
        run2 1 5
        run2 0 0
        run2 0 100000
        run2 18446744073709551616 18446744073709551616
        run2 -9223372036854775808 1
        poke 116 66
        run2 0 5
        run 0 5
        poke 116 61
        poke 118 2
        run2 0 5
        poke 12 11
        run2 0 5
        poke 12 12
        lend 64 2047 0
        run2 0 5
        lend 64 2048 211
        load 2
        enter 6
        run2 0 2
        run 0 1
        run2 0 1
        sentence 120
        file %(short)d
        run2 0 5
        file %(length)d
        run2 0 5
    """ % {"length": len(data), "short": len(data) - 1, "spare": len(data) + 40, "most": in_turn(64), "more": in_turn(65), "odd": in_turn(64) + " 0"}
    return data, [line.strip() for line in calls.strip().splitlines()]


def load_file_lists():
    """Load files written into buffers, then each that load_files.txt knows: loaded, written again, entered and run."""
    asked = [line.split(" = ")[0].split(" ") for line in lines_of("load_files.txt")]
    yield bytes(60), [" ".join(["loadfile"] + given) for kind, *given in asked if kind == "buffer"]
    for kind, *given in asked:
        if kind == "file":
            seed, n = map(int, given)
            program = model.load_file(seed, n)
            yield program, ["load 0", "image %d" % len(program), "enter 1", "run 0 %d" % n, "run 0 %d" % (n + 1),
                            "load 0", "enter 1", "run 0 %d" % (n + 1), "sentence 120", "loadfile %d %d %d" % (seed, n, len(program)),
                            "load 0 5927 1 0 %d" % (n + 1), "enter 1", "run 0 %d" % (n + 1), "load 0 5926 1 0 %d" % (n + 1)]


def rule_lists():
    """The rule files, each written before and during a run of its first function."""
    for name in sorted(os.listdir(RULES)):
        if not name.endswith(".dat"):
            continue
        with open(os.path.join(RULES, name), "rb") as f:
            program = f.read()
        longest = 2 * len(program)  # their lumps don't overlap
        lend = "lend %d 2048 0" % model.MOST_CELLS
        yield program, [lend, "load 0", "image %d" % longest, "enter 1", "run 0 50", "image %d" % longest, "image 60"]


def random_call(chance, length):
    """A call, or a change of what is lent."""
    kind = chance.below(100)
    if kind < 25:
        return "enter %d" % (chance.below(9) - 1)
    if kind < 45:
        return "statement"
    if kind < 65:
        return "%s %d %d" % (chance.pick(("run", "run2")), chance.below(4) - 1, chance.below(60))
    if kind < 75:
        return "carry"
    if kind < 82:
        return "abandon %d" % (chance.below(5) - 1)
    if kind < 87:
        return "read %d" % (chance.below(70) - 3)
    if kind < 89:
        pairs = ["%d %d" % (chance.pick((26, 40, 48)) + chance.below(17), chance.draw()) for _ in range(chance.below(6))]
        return " ".join(["pairs", *pairs, *["3"] * (chance.below(10) == 0)])
    if kind < 92:
        return "write %d %d" % (28 + chance.below(40), chance.draw())
    if kind < 94:
        return "poke %d %d" % (60 + chance.below(max(1, length - 60)), chance.below(256))
    if kind < 95:
        return "sentence %d" % chance.pick([120, 120, 121, 119, chance.below(200)])
    if kind < 96:
        return "loadfile %d %d %d" % (chance.pick([0, 1, chance.draw()]), chance.pick([0, 1, 2, 20, 1001]), chance.pick([0, 412, 413, 600]))
    if kind < 98:
        return "image %d" % chance.pick([length, length, length + 1, max(0, length - 1), chance.below(2 * length + 1)])
    return chance.pick([random_load(chance, 0), random_load(chance, 2), "load -1", "lend 64 2048 2", "lend 64 2048 315", "lend 66 2050 210", "lend 66 2050 0", "lend 63 2048 1", "lend 64 2047 0", "file %d" % length,
                        "file %d" % max(0, length - 1), "file %d" % (length + 1), "poke 4 0", "poke 4 39",
                        "poke %d %d" % (chance.below(60), chance.below(256))])


def random_load(chance, entities):
    """A load, often with settings of which some are narrow."""
    if chance.below(2):
        return "load %d" % entities
    depth, saved, limit = chance.pick((1, 2, 3, 31)), chance.pick((0, 2, 5, 2048)), chance.pick((1, 10, 40, 99999))
    return "load %d %d %d %d %d" % (entities, chance.pick((5927, 5927, 5927, 5888, 0)), depth, saved, limit)


def edged(chance, call):
    """A call, now and then with a number at an edge."""
    name, *numbers = call.split()
    if numbers and name in ("enter", "run", "run2", "abandon", "read", "write", "pairs", "load") and chance.below(12) == 0:
        numbers[chance.below(len(numbers))] = str(chance.pick(EDGES))
    return " ".join([name, *numbers])


def damaged(chance, program):
    """A program, now and then with bytes changed, cut short, or of chance bytes altogether."""
    kind = chance.below(12)
    if kind == 0:
        for _ in range(1 + chance.below(3)):
            program[chance.below(len(program))] = chance.below(256)
    if kind == 1:
        program = program[:chance.below(len(program))]
    if kind == 2:
        program = bytearray(chance.below(256) for _ in range(chance.below(70)))
    return program


def random_lists():
    """Programs of the model's case makers, each with calls made by chance from a fixed seed."""
    for seed in range(1, RANDOM_LISTS + 1):
        chance = Xorshift(seed * 2654435761 % 2**32)
        entities = chance.below(4)
        program = damaged(chance, random_program(chance, hosts=True, entities=entities > 0).bytes())
        lend = "lend %d %d %d" % (64 + chance.below(8), 2048 + chance.below(4), 105 * entities + chance.below(2))
        load = random_load(chance, entities)
        yield program, [lend, load] + [edged(chance, random_call(chance, len(program))) for _ in range(60)]


def committed():
    """The files of the fixed list: the program, the calls, and what is printed."""
    program, calls = fixed_list()
    text = "".join(line + "\n" for line in calls)
    answers = "".join(line + "\n" for line in expected(program, calls))
    return {"program.dat": bytes(program), "calls": text.encode(), "expected": answers.encode()}


def check():
    wrong = 0
    for name, content in committed().items():
        with open(os.path.join(FOLDER, name), "rb") as f:
            if f.read() != content:
                wrong += 1
                print("rust/host/tests/replay/%s is not what tests/run_replay.py --write makes" % name)
    print("replay's fixed list: %d files differ" % wrong)
    return wrong


def run(replay, program, calls):
    with tempfile.NamedTemporaryFile() as file:
        file.write(program)
        file.flush()
        text = "".join(line + "\n" for line in calls)
        done = subprocess.run([replay, file.name], input=text.encode(), stdout=subprocess.PIPE, check=True)
    return done.stdout.decode().splitlines()


def compare(replay):
    counted, left_out, differ = 0, 0, 0
    every = [fixed_list()] + [each for name in LISTS for each in lists(name)] + list(load_file_lists()) + list(rule_lists()) + list(random_lists())
    for program, calls in every:
        if not calls:
            left_out += 1
            continue
        answers = expected(program, calls)
        for asked, wanted in ((calls, answers), (by_second(calls), by_second(answers))):
            got = run(replay, program, asked)
            counted += len(wanted)
            pairs = [pair for pair in zip(got, wanted) if pair[0] != pair[1]]
            if got != wanted:
                differ += 1
                print(pairs[0] if pairs else "%d lines instead of %d" % (len(got), len(wanted)))
    print("%d calls replayed, %d lists differ, %d lists left out" % (counted, differ, left_out))
    return differ


def main():
    if sys.argv[1:] == ["--write"]:
        os.makedirs(FOLDER, exist_ok=True)
        for name, content in committed().items():
            with open(os.path.join(FOLDER, name), "wb") as f:
                f.write(content)
        return 0
    if sys.argv[1:] == ["--check"]:
        return check()
    if len(sys.argv) == 2:
        return compare(sys.argv[1])
    sys.exit(__doc__)


if __name__ == "__main__":
    sys.exit(main() != 0)

"""Reads the case files as README.md describes them and holds a model against them.

    python3 replay.py            exits 1 if any case differs
    python3 replay.py --first    stops at the first difference

It shares no code with the case makers, so it also shows that the formats can be read.
"""

import functools
import importlib
import os
import struct
import sys

FOLDER = os.path.join(os.path.dirname(os.path.abspath(__file__)), "cases")
FNV_BASIS, FNV_PRIME = 14695981039346656037, 1099511628211


def lines_of(name):
    with open(os.path.join(FOLDER, name), encoding="ascii") as file:
        for line in file:
            if not line.startswith("#"):
                yield line.rstrip("\n")


def bytes_of(length, text):
    start = b"" if text == "-" else bytes.fromhex(text)
    return bytearray(start + bytes(int(length) - len(start)))


class Numbers:
    """Takes decimal numbers one after another."""

    def __init__(self, words):
        self.words = iter(words)

    def next(self):
        return int(next(self.words))

    def pairs(self):
        return [(self.next(), self.next()) for _ in range(self.next())]


def replay_statements(model):
    """Yields a line, what it expects and what the model gives."""
    for line in lines_of("statements.txt"):
        kind, *words = line.split(" ")
        if kind == "file":
            statements, cell_count = int(words[0]), int(words[1])
            file = bytes_of(words[2], words[3])
            continue
        at = words.index("=")
        given, word, expected = Numbers(words[:at]), words[at + 1], words[at + 2 :]
        function, *statement = [given.next() for _ in range(5)]
        placed, set_cells = given.pairs(), given.pairs()
        entities, entity_cells = given.next(), [0] * given.next()
        machine = model.Machine(bytearray(file), [0] * cell_count, [0] * 2048, entity_cells)
        assert machine.load(entities).word == "accepted"
        if function >= 0:
            assert machine.enter(function).word == "accepted"
        for offset, byte in placed:
            machine.file[offset] = byte
        struct.pack_into("<4h", machine.file, statements, *statement)
        for cell, value in set_cells:
            machine.cells[cell] = value
        for index, value in given.pairs():
            machine.entity_cells[index] = value
        cells, entity_cells = list(machine.cells), list(machine.entity_cells)
        answer, state = machine.statement(), machine.state
        got = [answer.detail, state.position, state.function, state.depth, state.saved]
        got += changes(cells, machine.cells) + changes(entity_cells, machine.entity_cells)
        yield line, [word, *expected], [answer.word, *map(str, got)]


def changes(before, after):
    """How many numbers differ, then the index and the new value of each."""
    changed = [(i, new) for i, (old, new) in enumerate(zip(before, after)) if new != old]
    return [len(changed)] + [number for pair in changed for number in pair]


def replay_files(model):
    for line in lines_of("files.txt"):
        _, length, text, expected = line.split(" ")
        yield line, expected, model.show(bytes_of(length, text))


def replay_pads(model):
    for line in lines_of("pads.txt"):
        given, answer = line.split(" = ")
        refused = answer.startswith("refused")
        expected = f"{answer}\n".encode() if refused else bytes(bytes_of(*answer.split(" ")))
        yield line, expected, model.pad(bytes_of(*given.split(" ")[1:]))


def set_number(model, machine, field, value):
    """Sets one number of the state, counted as README.md counts them."""
    state = machine.state
    flat = [state.length, *state.lumps, state.cells_per_entity]
    flat += [state.position, state.function, state.depth, state.saved]
    flat += [number for frame in state.frames for number in frame] + [state.entities, *state.settings]
    flat[field] = value
    frames = tuple(model.Frame(*flat[i : i + 2]) for i in range(18, 80, 2))
    machine.state = model.State(flat[0], tuple(flat[1:13]), *flat[13:18], frames, flat[80], model.Settings(*flat[81:]))
    return model.Answer("accepted")


def set_byte(model, machine, offset, value):
    machine.file[offset] = value
    return model.Answer("accepted")


def lend(model, machine, count, first):
    machine.entity_cells = [(first + i) % 2**32 for i in range(count)]
    return model.Answer("accepted")


def set_entity_cell(model, machine, index, value):
    machine.entity_cells[index] = value
    return model.Answer("accepted")


def digest(machine):
    text = "".join(f"{position},{function};" for position, function in machine.state.frames)
    numbers = machine.cells + machine.saved_store + machine.entity_cells
    return fnv(text.encode("ascii") + struct.pack(f"<{len(numbers)}I", *numbers))


@functools.lru_cache(maxsize=16)  # a refused call leaves what the one before it left
def fnv(data):
    result = FNV_BASIS
    for byte in data:
        result = (result ^ byte) * FNV_PRIME % 2**64
    return f"{result:016x}"


def replay_calls(model):
    yield from replay_lists(model, "calls.txt")


def replay_images(model):
    yield from replay_lists(model, "images.txt")


def replay_outcomes(model):
    yield from replay_lists(model, "outcomes.txt")


def replay_pairs(model):
    yield from replay_lists(model, "pairs.txt")


def replay_settings(model):
    yield from replay_lists(model, "settings.txt")


def replay_engines(model):
    yield from replay_lists(model, "engines.txt")


def replay_unpacked(model):
    yield from replay_lists(model, "unpacked.txt")


def replay_sentences(model):
    for line in lines_of("sentences.txt"):
        given, expected = line.split(" = ")
        *display, word, detail, statements, position, function = given.split(" ")
        outcome = model.Outcome(word, *map(int, (detail, statements, position, function)))
        if display:
            buffer = bytearray([238] * int(display[1]))
            answer = model.compose(outcome, buffer)
            yield line, expected, f"{answer.word} {answer.detail} {fnv(bytes(buffer))}"
            continue
        yield line, (expected.encode(), outcome), (model.sentence(outcome), model.read_sentence(expected.encode()))


def replay_load_files(model):
    for line in lines_of("load_files.txt"):
        given, expected = line.split(" = ")
        yield line, expected, load_file_answer(model, *given.split(" "))


def load_file_answer(model, kind, *given):
    """What stands after `=`."""
    if kind == "input":
        written = model.load_file_program(bytes.fromhex(given[0].strip("-")))
        return written.decode().rstrip("\n") if written.startswith(b"refused") else f"{len(written)} {fnv(written)}"
    seed, n, *room = map(int, given)
    if kind == "buffer":
        output = bytearray([238] * room[0])
        answer = model.write_load_file(seed, n, output)
        return f"{answer.word} {answer.detail} {fnv(bytes(output))}"
    file = model.load_file(seed, n)
    if kind == "bytes":
        return f"{len(file)} {file.rstrip(bytes(1)).hex()}"
    return f"{len(file)} {fnv(file)} {model.show(file)}"


def replay_lists(model, name):
    for line in lines_of(name):
        kind, *words = line.split(" ")
        if kind == "new":
            cells = [0xDEAD0000 + i for i in range(int(words[0]))]
            saved = [0xBEEF0000 + i for i in range(int(words[1]))]
            entity_cells = [0xCAFE0000 + i for i in range(int(words[2]))]
            machine = model.Machine(bytes_of(words[3], words[4]), cells, saved, entity_cells)
            outcome = model.Outcome()  # the last run's
            unpacked = []
            continue
        at = words.index("=")
        if kind == "sentence":
            display = bytearray([238] * int(words[0]))
            answer, output = model.compose(outcome, display), [fnv(bytes(display))]
        elif kind in BUFFER_CALLS:
            answer, output = buffer_call(model, machine, unpacked, kind, [int(word) for word in words[:at]])
        else:
            answer, output = call(model, machine, kind, [int(word) for word in words[:at]])
        if kind in ("run", "run2"):
            outcome = model.outcome_of(answer, machine.state)
        state = machine.state
        got = [answer.detail, answer.count, state.position, state.function, state.depth, state.saved]
        yield line, words[at + 1 :], [answer.word, *map(str, got), digest(machine), *output]


BUFFER_CALLS = ("buffer", "set", "unpack", "runs2")


def buffer_call(model, machine, unpacked, kind, given):
    """The answer of a call with the unpack buffer, and the digest of the buffer where the line has it."""
    if kind == "buffer":
        unpacked[:] = [(given[1] + i) % 2**16 for i in range(given[0])]
        return model.Answer("accepted"), []
    if kind == "set":
        unpacked[given[0]] = given[1]
        return model.Answer("accepted"), []
    answer = machine.unpack(unpacked) if kind == "unpack" else machine.run_unpacked(unpacked, *given)
    return answer, [fnv(struct.pack(f"<{len(unpacked)}H", *unpacked))]


def second_run(machine, target, limit):
    """`run2`: from zeros, four for each statement that the state records, unpacked just before."""
    unpacked = [0] * 4 * machine.state.lumps[1]
    machine.unpack(unpacked)
    return machine.run_unpacked(unpacked, target, limit)


def call(model, machine, kind, given):
    """The answer, and what an image's line has besides: the digest of its output buffer."""
    operations = dict(load="load", enter="enter", statement="statement", run="run")
    operations |= dict(carry="carry_on", abandon="abandon", get="read", put="write")
    if kind in operations:
        return getattr(machine, operations[kind])(*given), []
    if kind == "pairs":
        return machine.write_pairs(given), []
    if kind == "run2":
        return second_run(machine, *given), []
    if kind == "image":
        output = bytearray([238] * given[0])
        return machine.image(output), [fnv(bytes(output))]
    changed = {"field": set_number, "byte": set_byte, "lend": lend, "eput": set_entity_cell}
    return changed[kind](model, machine, *given), []


# lump's number in the header, record size, shape, and the refusal where there is no such record
READS = {"statement": (0, 8, "<4H", "refused 14"), "function": (3, 36, "<7I8B", "refused 20"), "definition": (1, 8, "<HHI", "none")}


def read_record(machine, kind, index, lent):
    """What stands after `=`: a record of the lent bytes, where the state records its lump."""
    lump, size, shape, absent = READS[kind]
    offset, count = machine.state.lumps[2 * lump : 2 * lump + 2]
    nothing = [0] * 14 if kind == "function" else []
    if count > 0 and offset + size * count > lent:
        return ["refused", 4, *nothing]
    if not 0 <= index < count:
        return [*absent.split(" "), *nothing]
    record = struct.unpack_from(shape, machine.file, offset + size * index)
    if kind == "function":
        return ["accepted", 0, *record[:3], *record[4:]]
    if kind == "statement":
        return ["at", index, *record] if record[0] < 66 else ["refused", 7]
    return ["at", *record]


def replay_traces(model):
    cells, saved, entity_cells = [0] * 64, [0] * 2048, []
    for line in lines_of("traces.txt"):
        given, expected = line.split(" = ")
        kind, *words = given.split(" ")
        if kind == "new":
            file, entities, lent = bytes_of(*words[:2]), int(words[2]), int(words[3])
            if len(entity_cells) != lent:
                entity_cells = [0] * lent
            machine = model.Machine(file, cells, saved, entity_cells)
            answer = machine.load(entities)
            yield line, expected, f"{answer.word} {answer.detail}"
            continue
        number, lent = map(int, words)
        if kind == "byte":
            got = list(set_byte(model, machine, number, lent)[:2])
        elif kind in READS:
            got = read_record(machine, kind, number, lent)
        else:
            got = read_record(machine, "statement", machine.state.position, lent) if kind == "trace" else []
            machine.file = file[:lent]
            answer = machine.enter(number) if kind == "enter" else machine.statement()
            machine.file = file
            state = machine.state
            got += [*answer[:2], state.position, state.function, state.depth, state.saved, digest(machine)]
        yield line, expected, " ".join(map(str, got))


REPLAYS = (replay_statements, replay_calls, replay_files, replay_traces, replay_images, replay_pads)
REPLAYS += (replay_sentences, replay_outcomes, replay_pairs, replay_load_files, replay_settings)
REPLAYS += (replay_engines, replay_unpacked)


def differences(model):
    """Yields (line, expected, got) for every case that the model answers otherwise."""
    for replay in REPLAYS:
        for line, expected, got in replay(model):
            if expected != got:
                yield line, expected, got


def main():
    found = 0
    for line, expected, got in differences(importlib.import_module("model")):
        found += 1
        print(f"{line[:200]}\n  expected {expected}\n  got      {got}")
        if "--first" in sys.argv:
            break
    print(f"{found} differences")
    return 1 if found else 0


if __name__ == "__main__":
    sys.exit(main())

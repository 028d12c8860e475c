"""The program files that are measured: function 1 of each is a loop, whose number of turns stands in one cell. So two lengths have
files of one size, which load alike. All end within 99,999 statements, the most that a run has here and in the Rust."""
import os
import struct
import subprocess
import sys

ROOT = os.path.dirname(os.path.dirname(os.path.abspath(__file__)))
sys.path.insert(0, os.path.join(ROOT, "tests", "model"))
import model  # noqa: E402

ONE, COUNT, LIMIT, GOES_ON, SUM, PRODUCT, CALLED = 40, 41, 42, 43, 44, 45, 46
VELOCITY, POSITION, STEP = 51, 54, 57
HALF = 47
# four cells with the numbers of entities, a field's place, and pointers
ENTITY, FIELD, POINTER = 51, 55, 56
# three cells with the numbers of texts
NAME = 51
# how many entities the programs over fields are given
ENTITIES = 5


def cell(value):
    return model.nearest(model.Fraction(value))


def loop(body, turns, functions=(), more=(), definitions=(), cells=None, before=(), after=(), strings=b"\0"):
    """The body so many times, counted and compared, in function 1; the result is SUM and the two cells after it."""
    size = len(body) + 2
    statements = [("Done",), *before, *body,
        ("AddF", COUNT, ONE, COUNT),
        ("Lt", COUNT, LIMIT, GOES_ON),
        ("If", GOES_ON, -size),
        *after,
        ("Return", SUM),
        *more]
    values = {ONE: cell(1), COUNT: 0, LIMIT: cell(turns), PRODUCT: cell(3), CALLED: 2, **(cells or {})}
    return bytes(model.Assembly(
        statements=statements,
        functions=[model.function(), model.function(first=1), *functions],
        definitions=definitions,
        strings=strings,
        cells=values,
    ).bytes())


def floats(turns, definitions=()):
    body = [("AddF", SUM, ONE, SUM), ("MulF", SUM, PRODUCT, 47), ("SubF", 47, SUM, 48), ("MulF", 48, ONE, 49), ("AddF", 49, ONE, 50)]
    return loop(body, turns, definitions=definitions)


def floats_with_definitions(turns):
    return floats(turns, definitions=[(model.FLOAT, 60, 0)] * 1500)


def branches(turns):
    """Floats, comparisons and jumps, within the counted loop."""
    body = [("AddF", SUM, ONE, SUM), ("MulF", SUM, PRODUCT, 47), ("Lt", 47, SUM, 48), ("IfNot", 48, 1), ("Goto", 1), ("SubF", 47, SUM, 49),
            ("EqF", 49, ONE, 50), ("If", 50, 1)]
    return loop(body, turns)


def calls(turns):
    """A Call of a function with two locals, which adds and returns."""
    body = [("Call0", CALLED)]
    more = [("AddF", SUM, ONE, SUM), ("Return", SUM)]
    return loop(body, turns, functions=[model.function(first=6, local=51, locals=2)], more=more)


def vectors(turns):
    """A position that moves, its distance squared, and a copy."""
    body = [("MulVF", VELOCITY, STEP, 58), ("AddV", POSITION, 58, POSITION), ("SubV", POSITION, VELOCITY, 61), ("MulV", 61, 61, SUM),
            ("StoreV", 61, 58)]
    cells = {VELOCITY: cell(1), VELOCITY + 1: cell(2), VELOCITY + 2: cell(-3), STEP: cell(model.Fraction(1, 64))}
    return loop(body, turns, cells=cells)


def floors(turns):
    """A sum of halves, and its floor by builtin 37, which the machine does itself."""
    body = [("AddF", SUM, HALF, SUM), ("StoreF", SUM, 4), ("Call1", CALLED), ("StoreF", 1, PRODUCT)]
    return loop(body, turns, functions=[model.function(first=-37, arguments=-1)], cells={HALF: cell(model.Fraction(1, 2))})


def names(turns):
    """Team names: one that is at two places, two that begin alike, and a test whether one is empty. The Rust compares numbers alone."""
    body = [("EqS", NAME, NAME + 1, 47), ("NeS", NAME, NAME + 2, 48), ("NotS", NAME + 2, 0, 49), ("AddF", SUM, 47, SUM)]
    texts = [b"", b"Northern Rovers", b"Northern Rovers", b"Northern United", b""]
    return loop(body, turns, cells={NAME: 1, NAME + 1: 17, NAME + 2: 33}, strings=b"\0".join(texts))


def over_entities(body, turns, before=(), after=()):
    """A loop over a field of four entities, 1 to 4."""
    entities = {ENTITY + i: i + 1 for i in range(4)}
    return loop(body, turns, cells={FIELD: 49, **entities}, before=before, after=after)


def field_reads(turns):
    """Four reads and a sum; before the loop each entity's field is set."""
    before = [statement for i in range(4) for statement in (("Address", ENTITY + i, FIELD, POINTER), ("StorePF", ONE, POINTER))]
    body = [("LoadF", ENTITY + i, FIELD, 47 + i) for i in range(4)] + [("AddF", SUM, 48, SUM)]
    return over_entities(body, turns, before=before)


def field_writes(turns):
    """A pointer is made and written through, for each of four entities; after the loop one is read."""
    body = [statement for i in range(4) for statement in (("Address", ENTITY + i, FIELD, POINTER), ("StorePF", COUNT, POINTER))]
    return over_entities(body, turns, after=[("LoadF", ENTITY + 3, FIELD, SUM)])


def field_sums(turns):
    """A read, a sum and a write, for each of two entities, as in `e.frags = e.frags + 1`."""
    body = []
    for i in range(2):
        body += [("LoadF", ENTITY + i, FIELD, 47), ("AddF", 47, ONE, 47), ("Address", ENTITY + i, FIELD, POINTER), ("StorePF", 47, POINTER)]
    return over_entities(body, turns, after=[("LoadF", ENTITY + 1, FIELD, SUM)])


def rule_file(turns):
    """tests/rules/ball.dat, as fteqcc compiled it, with the constant 9 of `left = 9` changed: 220 definitions, most of them
    before those of the cells that it uses."""
    with open(os.path.join(ROOT, "tests", "rules", "ball.dat"), "rb") as file:
        content = bytearray(file.read())
    lumps = model.read_header(content)[2]
    first, count = lumps[2 * model.CELLS], lumps[2 * model.CELLS + 1]
    places = [first + 4 * i for i in range(count) if struct.unpack_from("<I", content, first + 4 * i)[0] == cell(9)]
    assert len(places) == 1, places
    struct.pack_into("<I", content, places[0], cell(turns))
    return bytes(content)


# name, file by turns, turns of the short and of the long run
PROGRAMS = [
    ("float arithmetic, no definitions", floats, 1000, 12000),
    ("float arithmetic, 1,500 definitions that don't match", floats_with_definitions, 20, 200),
    ("many small calls", calls, 1000, 16000),
    ("calls of floor", floors, 1000, 14000),
    ("vectors", vectors, 1000, 12000),
    ("floats, comparisons and jumps", branches, 700, 9000),
    ("comparisons of team names", names, 1000, 14000),
    ("a rule file of fteqcc, 220 definitions", rule_file, 50, 1000),
]

# the same over entities, which the show program has none of
ENTITY_PROGRAMS = [
    ("field reads", field_reads, 1000, 12000),
    ("field writes: Address and StorePF", field_writes, 700, 9000),
    ("fields read, added to and written", field_sums, 700, 9000),
]


def answer(file, entities):
    """What the show program would print with so many entities of zeros, by the model."""
    entity_cells = [0] * (entities * model.read_header(file)[3])
    machine = model.Machine(file, [0] * model.MOST_CELLS, [0] * model.MOST_SAVED, entity_cells)
    machine.load(entities)
    machine.enter(1)
    answered, state = machine.run(0, model.MOST_STATEMENTS), machine.state
    numbers = (answered.detail, answered.count, state.position, state.function, state.depth, state.saved)
    return ",".join([answered.word, *map(str, numbers), *(f"{number:08x}" for number in machine.cells[1:4])])



def function_of(*statements):
    """A file whose function 1 has these statements, and function 2 is builtin 7; cell 28 names it."""
    functions = [model.function(), model.function(first=1), model.function(first=-7, arguments=-1)]
    return bytes(model.Assembly(statements=[("Done",), *statements], functions=functions, cells={28: 2}).bytes())


def returning():
    return function_of(("Return", 28))


def calling_a_builtin():
    return function_of(("Call0", 28), ("Return", 1))


def players():
    """tests/rules/players.dat, as fteqcc compiled it: 134 field definitions, that of frags the 62nd."""
    with open(os.path.join(ROOT, "tests", "rules", "players.dat"), "rb") as file:
        return file.read()


# name, what rust/host/examples/bench.rs is told to do, file, what it must print for a number of times
OPERATIONS = [
    ("a call of a function that returns at once", "call", returning, lambda times: times),
    ("a call of a function that calls one builtin", "call", calling_a_builtin, lambda times: 2 * times),
    ("a raw read", "read", returning, lambda times: 2 * times),
    ("a raw write", "write", returning, lambda times: times - 1),
    ("a field read by its definition", "field", players, lambda times: times),
    ("a field written by its definition", "set_field", players, lambda times: times - 1),
    ("a field read by its name, among 134", "named_field", players, lambda times: times),
]

# how many times, to count instructions and to take the time
FEW = (1_000, 11_000)
MANY = (20_000, 320_000)


def in_form(scale):
    """A file as R-6 writes it, so many times 384 bytes and 316 more, with parts of all kinds: statements and cells above all."""
    return bytes(model.Assembly(
        statements=[("Done",)] * (20 * scale),
        definitions=[(model.FLOAT, 60, 0)] * (8 * scale),
        fields=[(model.FLOAT, 60, 0)] * (2 * scale),
        functions=[model.function()] * (2 * scale),
        strings=bytes(40 * scale),
        cell_count=64 + 8 * scale,
    ).bytes())


def short_file():
    return in_form(15)


def long_file():
    return in_form(2700)


# file, and how often it is written, to count instructions and to take the time
WRITINGS = [
    (short_file, (100, 1_100), (2_000, 32_000)),
    (long_file, (2, 12), (10, 160)),
]


# what the program load_file is given: the seed, and the most statements that can be drawn
LOAD_FILE_ASKED = b"2463534242 1000\n"


def load_file():
    """02's heavy file (R-10), as the program load_file makes it: 1,000 drawn statements, a Return, and a Done that nothing does."""
    made = subprocess.run([os.path.join(ROOT, "crates", "load_file", "out", "load_file")], input=LOAD_FILE_ASKED, check=True, capture_output=True)
    return made.stdout


# name, what rust/host/examples/bench.rs is told to do, what it must print for a number of times
LOAD_FILES = [
    ("making a load file of 1,000 drawn statements, 8,405 bytes", "make", lambda times: 8_405 * times),
    ("loading it, and a call of its function: 1,001 statements", "load", lambda times: 1_001 * times),
    ("unpacking its 1,002 statements", "unpack", lambda times: times),
]
LOAD_FILE_TIMES = (10, 110), (100, 1_600)

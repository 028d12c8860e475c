"""R-5: void global definitions are passed over, for cases/statements.txt, files.txt and calls.txt."""

from common import ONE, POSITION, THREE, TWO, flt, program, triple
from entity_cases import World
from model import (
    CELLS, ENTITY, FIELD, FIELD_DEFS, FLOAT, FUNCTION, FUNCTIONS, GLOBAL_DEFS, POINTER, SAVE_FLAG, STATEMENTS,
    STRING, STRINGS, VECTOR, VOID, Answer, Assembly, function,
)

FLAGGED_VOID = VOID | SAVE_FLAG

# A compiler's markers before, between and after the definitions that count
MARKED = [
    (VOID, 60),  # of another cell, before all others
    (VOID, 28),
    (FLOAT, 28),
    (FLAGGED_VOID, 29),
    (STRING, 29),
    (VOID, 30),  # 30 and 31 have no other
    (FLAGGED_VOID, 31),
    (VOID, 32),
    (FLAGGED_VOID, 32),
    (VOID, 32),
    (ENTITY, 32),
    (FIELD, 33),  # a void one after the first
    (VOID, 33),
    (FLOAT, 33),
    (VOID, 34),  # of those that follow the first
    (FUNCTION | SAVE_FLAG, 34),
    (STRING, 34),
    (VOID, 35),  # the one that counts is the last of all
    (VOID, 36),
    (VECTOR, 36),
    (VOID, 37),
    (FLOAT, 37),
    (FLAGGED_VOID, 38),
    (VOID, 39),  # a vector whose second cell is a string
    (VECTOR, 39),
    (VOID, 40),
    (STRING, 40),
    (VOID, 42),  # a vector whose third cell is an entity
    (VECTOR, 42),
    (FLAGGED_VOID, 44),
    (ENTITY, 44),
    (VOID, 64),  # past the last cell
    (VOID, 65),
    (STRING, 65),
    (FLAGGED_VOID, 66),
    (FLOAT, 66),
    (VOID, 65535),
    (VOID, 4),  # R-1's argument and result
    (FLOAT, 4),
    (FLAGGED_VOID, 1),
    (VOID, 0),
    (POINTER, 35),
]
TYPE_OF = {28: FLOAT, 29: STRING, 30: None, 31: None, 32: ENTITY, 33: FIELD, 34: FUNCTION, 35: POINTER, 36: VECTOR, 60: None}
MARKED_FIELDS = [(VOID, 28), (STRING, 28), (FLOAT, 29), (VOID, 30), (VOID, 31), (ENTITY, 31)]

# a read and a write of each type, by the operand that stands for it; 50 to 56 have no definitions
READS = {
    FLOAT: ("NotF", None, 0, 50), STRING: ("NotS", None, 0, 50), ENTITY: ("NotEnt", None, 0, 50), FIELD: ("StoreFld", None, 51, 0),
    FUNCTION: ("NotFnc", None, 0, 50), POINTER: ("StorePF", 50, None, 0),
}
WRITES = {
    FLOAT: ("StoreF", 50, None, 0), STRING: ("StoreS", 50, None, 0), ENTITY: ("StoreEnt", 50, None, 0),
    FIELD: ("StoreFld", 50, None, 0), FUNCTION: ("StoreFnc", 50, None, 0), POINTER: ("Address", 50, 51, None),
}
ONE_ENTITY = World(1, 105, {})


def refusal(type_, wanted):
    """By hand: float and vector pass for each other, a cell without a type for all."""
    return None if type_ in (None, wanted) or {type_, wanted} == {FLOAT, VECTOR} else 16


def access(v, cell, wanted, statements, refused, pokes=()):
    """The statement that reads or writes the cell as the type; a pointer's needs an entity."""
    name, *operands = statements[wanted]
    operands = [cell if operand is None else operand for operand in operands]
    v.add(name, *operands, {52: 7}, refused=refused, world=ONE_ENTITY, pokes=pokes)


def typed_vectors(v):
    v.note("R-5: void definitions before, between and after: read and written as each type")
    for cell, type_ in TYPE_OF.items():
        for wanted in READS:
            access(v, cell, wanted, READS, refusal(type_, wanted))
            access(v, cell, wanted, WRITES, refusal(type_, wanted))
    v.note("R-5: past the last cell: 16 by the definition that counts, else 15")
    for cell, type_ in ((64, None), (65, STRING), (66, FLOAT), (67, None), (-1, None)):
        for wanted in READS:
            expected = refusal(type_, wanted) or 15
            access(v, cell, wanted, READS, expected)
            access(v, cell, wanted, WRITES, expected)
    v.note("R-5: vectors, whose cells have void definitions too")
    given = {**triple(36, (ONE, TWO, THREE)), **triple(50, (THREE, TWO, ONE))}
    for cell, refused in ((36, None), (37, None), (39, 16), (40, 16), (42, 16), (30, 16), (29, 16), (28, 16), (60, None), (0, None)):
        v.add("NotV", cell, 0, 50, given, refused=refused)
        v.add("AddV", 50, cell, 56, given, refused=refused)
        v.add("MulVF", 50, 50, cell, given, refused=refused)
        v.add("StoreV", cell, 56, 0, given, refused=refused)
        v.add("StoreV", 50, cell, 0, given, refused=refused)
        v.add("LoadV", 60, 61, cell, given, refused=refused, world=World(1, 105, triple(0, (ONE, TWO, THREE))))
        v.add("StorePV", cell, 60, 0, given, refused=refused, world=ONE_ENTITY)


def other_vectors(v):
    v.note("R-5: branches, calls, comparisons of two, R-1's argument and result")
    for name in ("If", "IfNot"):
        v.add(name, 28, 3, 0, {28: ONE})
        v.add(name, 31, 3, 0, {31: ONE})
        v.add(name, 29, 3, 0, refused=16)
    v.add("Call0", 34, 0, 0, {34: 1})
    v.add("Call0", 30, 0, 0, {30: 3})  # a builtin's
    v.add("Call0", 35, 0, 0, {35: 1}, refused=16)
    for number in (17, 18, 19, 20):
        v.add("Call1", 34, 0, 0, {34: number, 4: flt(-2.5), 1: 7})
    for name in ("EqS", "NeS"):
        v.add(name, 29, 30, 31)
        v.add(name, 28, 29, 30, refused=16)
        v.add(name, 29, 32, 28, refused=16)
        v.add(name, 29, 30, 29, refused=16)
    v.add("EqEnt", 32, 31, 28, {32: 5, 31: 5})
    v.add("EqFnc", 34, 31, 28, {34: 5, 31: 5})
    v.add("AddF", 28, 30, 31, {28: ONE, 30: TWO})
    v.add("AddF", 28, 33, 31, refused=16)
    v.note("R-5: what was accepted stays so: field definitions are looked up as before, and bind no cell")
    for field, type_ in ((28, STRING), (29, FLOAT), (30, None), (31, ENTITY), (32, None)):
        for name, wanted in (("LoadF", FLOAT), ("LoadS", STRING), ("LoadEnt", ENTITY)):
            v.add(name, 60, 61, 30, {61: field}, refused=refusal(type_, wanted), world=ONE_ENTITY)
        v.add("StorePF", 28, 60, 0, {60: 4 * field}, refused=refusal(type_, FLOAT), world=ONE_ENTITY)


def changed_vectors(v):
    v.note("R-5: bytes that changed: what is void now, with the flag or without, and what is no type at all")
    real = v.base.place(GLOBAL_DEFS, 2)  # the float at cell 28, after a void one
    for low, high, as_float, as_string in (
        (VOID, 0x00, None, None),
        (VOID, 0x80, None, None),
        (VOID, 0x40, 16, 16),  # 16384 is no void
        (VOID, 0x01, 16, 16),
        (8, 0x00, 16, 16),
        (8, 0x80, 16, 16),
        (STRING, 0x80, 16, None),
        (VECTOR, 0x00, None, 16),
    ):
        pokes = [(real, low), (real + 1, high)]
        access(v, 28, FLOAT, READS, as_float, pokes)
        access(v, 28, STRING, WRITES, as_string, pokes)
    marker = v.base.place(GLOBAL_DEFS, 1)
    v.note("R-5: a void one that became another, and one that moved to another cell")
    access(v, 28, FLOAT, READS, 16, [(marker, STRING)])
    access(v, 28, STRING, READS, None, [(marker, STRING)])
    access(v, 28, FLOAT, READS, None, [(marker + 2, 60)])
    access(v, 28, FLOAT, READS, None, [(marker + 1, 0x80)])
    access(v, 28, FLOAT, READS, 16, [(marker, 8)])
    between = v.base.place(GLOBAL_DEFS, 8)  # the second of three at cell 32
    access(v, 32, ENTITY, READS, 16, [(between, FUNCTION)])
    access(v, 32, FUNCTION, READS, None, [(between, FUNCTION)])


def void_vectors(v):
    v.file("R-5: 64 cells, void definitions among the others", definitions=MARKED, fields=MARKED_FIELDS)
    typed_vectors(v)
    other_vectors(v)
    changed_vectors(v)


# -- files.txt ---------------------------------------------------------------------------------

SHOWN_CELLS = {28: flt(1.5), 29: flt(2.25)}
ENDED = "ended,0,2,0,0,0,0,40700000,00000000,00000000"


def void_files(f):
    f.note("R-5: a compiler's void definition on a cell that another names too, and on one that no other names")
    for name, definitions, begins in (
        ("first", [(VOID, 28), (FLOAT, 28)], ENDED),
        ("with-save-flag-first", [(FLAGGED_VOID, 28), (FLOAT, 28)], ENDED),
        ("on-every-cell", [(VOID, cell) for cell in range(64)] + [(FLOAT, 28), (FLOAT, 29), (FLOAT, 30)], ENDED),
        ("alone", [(VOID, 28), (FLAGGED_VOID, 29), (VOID, 30)], ENDED),
        ("before-a-vector", [(VOID, 30), (VECTOR | SAVE_FLAG, 30)], ENDED),
        ("after", [(FLOAT, 28), (VOID, 28)], ENDED),
        ("before-a-string", [(VOID, 28), (STRING, 28), (FLOAT, 28)], "refused,16,0,1,1,1,1,"),
        ("three-before-a-string", [(VOID, 30), (FLAGGED_VOID, 30), (VOID, 30), (STRING, 30)], "refused,16,0,1,1,1,1,"),
        ("after-a-string", [(STRING, 29), (VOID, 29), (FLOAT, 29)], "refused,16,0,1,1,1,1,"),
        ("of-another-cell-before-a-string", [(VOID, 27), (VOID, 0), (STRING, 28)], "refused,16,0,1,1,1,1,"),
        ("499-before-a-string", [(VOID, 0)] * 499 + [(STRING, 30)], "refused,16,0,1,1,1,1,"),
        ("499-before-a-float", [(VOID, 30)] * 499 + [(FLOAT, 30)], ENDED),
    ):
        file = program(("AddF", 28, 29, 30), ("Return", 30), functions=[function(1, 30, 1)], definitions=definitions, cells=SHOWN_CELLS)
        f.add(f"void-{name}", file, begins)
    f.note("R-5: a load looks at void definitions as before")
    for name, parts, begins in (
        ("name-not-there", dict(definitions=[(VOID, 28, 1)]), "refused,6"),
        ("with-save-flag-name-negative", dict(definitions=[(FLAGGED_VOID, 28, -1)]), "refused,6"),
        ("field-with-save-flag", dict(fields=[(FLAGGED_VOID, 28)]), "refused,9"),
    ):
        f.add(f"void-{name}", program(("Return",), **parts), begins)
    cells = {28: 2, 29: flt(7.0), 30: 3}
    functions = [function(1), function(4, 40, 1, (1,)), function(-37, arguments=-1)]
    statements = [("StoreF", 29, 4), ("Call1", 28), ("Return", 1), ("AddF", 40, 40, 4), ("Call1", 30), ("Return", 1)]
    definitions = [(VOID, cell) for cell in (28, 30, 40, 4, 1)] + [(FUNCTION, 28), (FUNCTION, 30), (FLOAT, 40), (FLOAT, 4), (FLOAT, 1)]
    file = program(*statements, functions=functions, cells=cells, definitions=definitions)
    f.add("void-calls", file, f"ended,0,6,0,0,0,0,{flt(14.0):08x},")


# -- calls.txt ---------------------------------------------------------------------------------


def void_calls(c):
    definitions = [(VOID, 28), (FLOAT, 28), (FLAGGED_VOID, 36), (FUNCTION, 36), (VOID, 40)]
    statements = [("Done",), ("AddF", 28, 28, 40), ("Call1", 36), ("Return", 40), ("NotS", 28, 0, 41), ("StoreF", 40, 28), ("Return", 28)]
    assembly = Assembly(statements, [function(), function(1, 40, 1), function(4, 41, 1)], definitions=definitions, cells={28: ONE, 36: 2})
    c.new("R-5: void definitions before the others; the float that follows still refuses a string", assembly)
    c.ok("load 0", "enter 1")
    assert c.do("run 0 9", 16) == Answer("refused", 16, 2)
    c.no(27, "carry")
    c.no(16, "statement")
    real, function_ = assembly.place(GLOBAL_DEFS, 1), assembly.place(GLOBAL_DEFS, 3)
    c.ok(f"byte {real} {VOID}", "put 28 0", "statement", f"byte {real} {FLOAT}")
    assert c.do("run 0 9") == Answer("ended", 0, 3)
    assert c.machine.cells[1] == TWO
    c.new("R-5: bytes that changed: a definition that becomes void, and void again with the flag", assembly)
    c.ok("load 0", "enter 1", f"byte {function_} {STRING}", "statement")
    c.no(16, "statement")
    c.no(27, "carry")
    c.ok(f"byte {function_} {VOID}", f"byte {function_ + 1} 128", f"byte {real + 1} 64")
    c.ok("statement")
    c.no(16, "statement")
    c.ok("abandon 1", f"field {POSITION} 1")
    c.no(16, "statement")
    c.ok(f"byte {real + 1} 128", "statement")


def many_voids(c):
    """Of a file near the greatest length."""
    last = (STATEMENTS, STRINGS, FIELD_DEFS, CELLS, FUNCTIONS, GLOBAL_DEFS)
    statements = [("AddF", 28, 28, 29), ("NotF", 0, 0, 28)]
    many = Assembly(statements, definitions=[(VOID, 0)] * 129_000, layout=last)
    c.new("129,000 definitions: a lookup goes through them all, and passes over those that are void", many)
    c.ok("load 0", "statement", "statement", f"field {POSITION} 1", f"byte {many.place(GLOBAL_DEFS, 128_999)} {STRING}")
    c.no(16, "statement")
    c.ok(f"byte {many.place(GLOBAL_DEFS, 65_000)} {FLOAT}", "statement")

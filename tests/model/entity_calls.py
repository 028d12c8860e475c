"""R-3's lists of calls, for cases/calls.txt: entities lent, given at load, read and written by runs."""

import struct

from common import (
    ANY_CALL, CURRENT, DEPTH, ENTITIES, POSITION, SAVED, STATE_LENGTH, STATE_LUMPS, STATE_PER_ENTITY, THREE, TWO, flt,
    record_settings,
)
from model import (
    ENTITY, FIELD, FIELD_DEFS, FLOAT, FUNCTION, FUNCTIONS, ONE, POINTER, STATEMENTS, STRING, VECTOR, VOID, Answer,
    Assembly, function,
)

STRIDE = 105
SCORE, ORIGIN, NAME, NEXT, WHICH, THINK = 0, 1, 7, 8, 9, 10  # field cells of a player
WALK, MOVE, THINKS, RISES, GOES_ON, NOTHING = range(1, 7)  # functions
PLAYER, FIRST, AT, X, TOTAL = 28, 46, 31, 33, 32  # cells
PLAYER_CELLS = {28: 0, 29: SCORE, 30: NEXT, 34: ONE, 35: ORIGIN, 39: NOTHING, 40: THINK, 42: 19, 43: NAME}
PLAYER_CELLS |= {44: WHICH, 45: SCORE, 46: 0, 48: flt(48.0), 49: GOES_ON, 50: flt(50.0)}
PLAYER_FIELDS = [(FLOAT, SCORE), (VECTOR, ORIGIN), (STRING, NAME), (ENTITY, NEXT), (FIELD, WHICH), (VOID, THINK)]
PLAYER_FIELDS += [(FUNCTION, THINK), (FLOAT, THINK)]
PLAYER_FUNCTIONS = [
    function(),
    function(1),
    function(11, 36, 3),
    function(20, 48, 3),
    function(28),
    function(32, 28, 1),
    function(37, 50, 1),
]
PLAYER_STATEMENTS = [
    ("Done", 28),
    ("StoreEnt", FIRST, PLAYER),  # 1: adds up the scores along NEXT, and makes each one more
    ("LoadF", PLAYER, 29, X),
    ("AddF", TOTAL, X, TOTAL),
    ("AddF", X, 34, X),
    ("Address", PLAYER, 29, AT),
    ("StorePF", X, AT),
    ("LoadEnt", PLAYER, 30, PLAYER),
    ("NotEnt", PLAYER, 0, X),
    ("IfNot", X, -7),
    ("Return", TOTAL),
    ("LoadV", PLAYER, 35, 36),  # 11: doubles ORIGIN and calls THINK, both from locals
    ("AddV", 36, 36, 36),
    ("Address", PLAYER, 35, AT),
    ("StorePV", 36, AT),
    ("LoadFnc", PLAYER, 40, 41),
    ("Call1", 41),
    ("Address", PLAYER, 43, AT),
    ("StorePS", 42, AT),
    ("Return", 36),
    ("Address", PLAYER, 44, AT),  # 20: writes WHICH, NEXT and THINK
    ("StorePFld", 45, AT),
    ("LoadFld", PLAYER, 44, 49),
    ("Address", PLAYER, 30, AT),
    ("StorePEnt", FIRST, AT),
    ("Address", PLAYER, 40, AT),
    ("StorePFnc", 39, AT),
    ("Done", 0),
    ("LoadF", PLAYER, 29, X),  # 28: raises a score without end, through a pointer made before
    ("AddF", X, 34, X),
    ("StorePF", X, AT),
    ("Goto", -3),
    ("Address", PLAYER, 29, AT),  # 32: writes a score, goes on with the next player as a local
    ("StorePF", 34, AT),
    ("LoadEnt", PLAYER, 30, PLAYER),
    ("Call0", 49),
    ("Return", PLAYER),
    ("LoadS", PLAYER, 43, 42),  # 37, the last
]


def players(**parts):
    return Assembly(
        statements=PLAYER_STATEMENTS,
        functions=PLAYER_FUNCTIONS,
        cells=PLAYER_CELLS,
        definitions=[(ENTITY, PLAYER), (FIELD, 29), (POINTER, AT), (FLOAT, X), (VECTOR, 36), (FUNCTION, 41), (STRING, 42)],
        fields=PLAYER_FIELDS,
        **parts,
    )


PLAYERS = players()


def again(c, text, lent):
    """Goes on in the same list, for another load, with so many entity cells as `new` would lend."""
    c.lines.append(f"# {text}")
    c.ok(f"lend {lent} {0xCAFE0000}")


def place(entity, field):
    return STRIDE * entity + field


def chain(c, *entities):
    """Each one's NEXT is the one after it, the last one's is 0; scores are 1, 2, 3 .."""
    for index, entity in enumerate(entities):
        after = entities[index + 1] if index + 1 < len(entities) else 0
        c.ok(f"eput {place(entity, NEXT)} {after}", f"eput {place(entity, SCORE)} {flt(1.0 + index)}")
    c.ok(f"put {FIRST} {entities[0]}")


def scores(c, *entities):
    return [c.machine.entity_cells[place(entity, SCORE)] for entity in entities]


def walk_calls(c):
    c.new("R-3: a run that goes through the players and writes each", PLAYERS, lent=3 * STRIDE + 2)
    c.ok("load 3")
    chain(c, 0, 2, 1)
    c.ok("enter 1")
    assert c.do("run 0 100") == Answer("ended", 0, 26)
    assert scores(c, 0, 2, 1) == [TWO, THREE, flt(4.0)] and c.machine.cells[1] == flt(6.0)
    c.ok(f"put {TOTAL} 0", "enter 1")
    assert c.do("run 0 26") == Answer("ended", 0, 26)
    assert c.machine.cells[1] == flt(9.0)
    c.ok("get 1", "load 3", "get 32", "enter 1")
    c.word("ended", "run 0 99")
    again(c, "R-3: the same by single statements and short runs, the host changing a player between", 4 * STRIDE)
    c.ok("load 4")
    chain(c, 1, 3, 2)
    c.ok("enter 1", *["statement"] * 7)
    for limit in (1, 2, 4):
        c.word("spent", f"run 0 {limit}")
    c.ok(f"eput {place(3, SCORE)} {flt(100.0)}", f"eput {place(2, SCORE)} {flt(-50.0)}", f"eput {place(0, SCORE)} 77")
    c.word("ended", "run 0 99999")
    again(c, "R-3: a run that is spent writes on and on; the pointer is an old one", STRIDE)
    c.ok("load 1", "eput 0 0", "enter 4", f"put {AT} 0")
    assert c.do("run 0 99") == Answer("spent", 0, 99)
    assert scores(c, 0) == [flt(25.0)]
    c.ok(f"put {AT} 416", f"field {POSITION} 28")
    c.word("spent", "run 0 9")
    c.ok(f"put {AT} 420")
    assert c.do("run 0 9", 32).count == 1  # the AddF


def refusal_calls(c):
    c.new("R-3: refused in the middle: what was written before stays, the refused statement writes nothing", PLAYERS, lent=3 * STRIDE)
    c.ok("load 3")
    chain(c, 0, 2)
    c.ok(f"eput {place(2, NEXT)} 3", "enter 1")
    assert c.do("run 0 100", 30) == Answer("refused", 30, 17)  # the third LoadF
    assert scores(c, 0, 2) == [TWO, THREE]
    assert c.do("run 0 100", 30) == Answer("refused", 30, 0)
    c.no(30, "statement")
    c.no(27, "carry")
    c.ok(f"put {PLAYER} 1", f"eput {place(1, NEXT)} 2147483648")
    assert c.do("run 0 100", 17).count == 5  # its LoadEnt
    c.ok(f"eput {place(1, NEXT)} 0")
    c.word("ended", "run 0 100")
    field_refusals(c)
    again(c, "R-3: a third operand is refused 18 first, also with a bad pointer and no entities", STRIDE)
    at = PLAYERS.place(STATEMENTS, 30)
    c.ok("load 0", "enter 4", f"field {POSITION} 30", f"byte {at + 6} 1")
    c.no(18, "statement", "run 0 1")
    c.ok(f"byte {at + 6} 0")
    c.no(32, "statement")
    c.no(27, "carry")


def field_refusals(c):
    again(c, "R-3: each kind of refusal of a field statement, in a run and alone", 3 * STRIDE)
    c.ok("load 3", "enter 2", "put 28 2", f"eput {place(2, THINK)} 6")
    for put, back, refusal in (
        ("put 28 3", "put 28 2", 30),
        ("put 28 2147483648", "put 28 2", 17),
        ("put 35 103", "put 35 1", 31),
        ("put 35 2147483647", "put 35 1", 31),
        ("put 35 8", "put 35 1", 16),
        ("put 35 4294967295", "put 35 1", 17),
        (f"field {ENTITIES} 2", f"field {ENTITIES} 3", 30),
        (f"field {ENTITIES} 0", f"field {ENTITIES} 3", 30),
    ):
        c.ok(put)
        c.no(refusal, "statement", "run 0 3")
        c.no(27, "carry")
        c.ok(back)
    c.ok("statement", "statement", "statement")
    for put, refusal in (("419", 32), ("1260", 32), ("4294967292", 32), ("1256", 31), ("868", 16), ("836", 31)):
        c.ok(f"put {AT} {put}")
        c.no(refusal, "statement")
        c.no(27, "carry")
    c.ok(f"put {AT} 844", f"field {ENTITIES} 2")
    c.no(32, "statement", "run 0 9")
    c.ok(f"field {ENTITIES} 3", "statement")


def kept_calls(c):
    c.new("R-3: a Return keeps what was written to entities, and restores the locals", PLAYERS, lent=2 * STRIDE)
    c.ok("load 2", f"eput {place(1, THINK)} {THINKS}", *[f"eput {place(1, ORIGIN) + i} {flt(1.5 + i)}" for i in range(3)])
    c.ok("put 28 1", "enter 2")
    assert c.do("run 0 99") == Answer("ended", 0, 17)
    cells = c.machine.entity_cells
    assert cells[place(1, ORIGIN) : place(1, ORIGIN) + 3] == [flt(3.0), flt(5.0), flt(7.0)]
    assert [cells[place(1, field)] for field in (NAME, NEXT, WHICH, THINK)] == [19, 0, SCORE, NOTHING]
    c.ok("get 36", "get 1", "get 48")
    again(c, "R-3: an entry and a Return by single statements touch no entity cell", 2 * STRIDE)
    c.ok("load 2", f"enter {THINKS}", "put 28 1", "statement", "statement", f"field {POSITION} 27", "statement")
    c.ok(f"enter {THINKS}", "enter 1", f"field {POSITION} 10", "statement", "abandon 0")
    again(c, "R-3: an abandonment restores locals and keeps what was written", 4 * STRIDE)
    c.ok("load 4")
    chain(c, 3, 1, 2, 0)
    c.ok(f"eput {place(0, NEXT)} 4", "put 28 3", f"enter {GOES_ON}")
    assert c.do("run 0 999", 30) == Answer("refused", 30, 16)
    assert c.machine.state.depth == 5 and scores(c, 0, 1, 2, 3) == [ONE] * 4
    c.ok("abandon 3", "get 28", f"eput {place(1, SCORE)} 99", "abandon 0", "get 28")
    c.ok("enter 6", f"field {POSITION} 30", f"put {AT} 16", "statement", "abandon 0")
    again(c, "R-3: a load keeps all lent entity cells, and the number given is the new one", 3 * STRIDE + 1)
    c.ok("load 3", "put 28 2", f"put {AT} {4 * place(2, SCORE)}", f"field {POSITION} 30", "statement")
    c.ok("load 2", "put 28 2", f"field {POSITION} 2")
    c.no(30, "statement")
    c.ok(f"put {AT} {4 * place(2, SCORE)}", f"field {POSITION} 6")
    c.no(32, "statement")
    c.ok(f"put {AT} {4 * place(2, SCORE) - 4}", "statement", "load 0")
    c.ok(f"field {POSITION} 2")
    c.no(30, "statement")
    c.ok("load 3", "get 28")


def load_calls(c):
    c.new("R-3: loads of more entities than the lent cells suffice for, or of fewer than none", PLAYERS, lent=0)
    for lent, numbers in ((0, (1, 2)), (104, (1,)), (105, (2, -1)), (314, (3, -2147483648)), (316, (4, 600, 2147483647))):
        c.ok(f"lend {lent} 7")
        for number in numbers:
            c.no(13, f"load {number}")
            c.no(13, *(ANY_CALL if number == 2 else ("get 1", "enter 1")))
    c.ok("lend 62999 8")
    c.no(13, "load 600")
    c.ok("lend 63105 9")
    c.no(13, "load 601", "get 1")
    c.ok("load 600", "put 28 600", f"field {POSITION} 2")
    c.no(30, "statement")
    c.ok(f"field {ENTITIES} 601")
    c.no(13, "statement")
    again(c, "R-3: 600 entities are the most, and 63,000 cells just enough", 63_000)
    c.ok("load 600", "put 28 599", f"field {POSITION} 5", "statement", "get 31", "statement", f"field {POSITION} 2")
    c.ok("statement", "put 28 600", f"field {POSITION} 5")
    c.no(30, "statement")
    c.ok("put 28 599", "put 29 104", "statement", "get 31", "statement", "put 31 252000", f"field {POSITION} 6")
    c.no(32, "statement")
    c.lines.append("# R-3: as many as the lent cells suffice for")
    for lent, numbers in ((0, (0,)), (104, (0,)), (105, (0, 1)), (314, (2,)), (316, (3,))):
        c.ok(f"lend {lent} 7")
        for number in numbers:
            c.ok(f"load {number}", "get 1", "enter 1", "statement")
    c.new("R-3: 13 comes after 12, and after 11 and 10", PLAYERS, 63, 2048, STRIDE)
    c.no(12, "load 0", "load 1", "load 2", "load 601", "load -1")
    c.ok("byte 56 104")
    c.no(11, "load 0", "load 601", "load -1")
    c.ok("byte 52 63")
    c.no(10, "load 2")


def state_calls(c):
    c.new("R-3: 13 by the number of entities that the state holds", PLAYERS, lent=3 * STRIDE + 1)
    c.ok("load 3", "enter 1", "put 28 2", f"field {POSITION} 2")
    for number in (4, 5, 600, 601, 65536, 2147483647):
        c.ok(f"field {ENTITIES} {number}")
        c.no(13, *(ANY_CALL if number in (4, 601) else ("get 1", "statement")))
    for number in (0, 1, 2):
        c.ok(f"field {ENTITIES} {number}", "get 1")
        c.no(30, "statement")
    c.ok(f"field {ENTITIES} 3", "statement", "abandon 0")
    again(c, "R-3: 13 by the entity cells that are lent now; those lent later are what counts", 3 * STRIDE)
    c.ok("load 3", "enter 4", f"put {AT} 836", "put 28 1", "statement")
    for lent in (3 * STRIDE - 1, STRIDE, 0):
        c.ok(f"lend {lent} 1000")
        c.no(13, *ANY_CALL)
    c.ok(f"lend {3 * STRIDE} 1065353216", "statement")
    c.word("spent", "run 0 4")
    c.ok(f"lend {3 * STRIDE - 1} 5")
    c.no(13, "run 0 4")
    c.ok(f"lend {3 * STRIDE + 9} 4294967290")
    c.word("spent", "run 0 4")
    c.ok(f"field {ENTITIES} 0", "lend 0 0", "get 1")
    c.no(32, "run 0 4")
    c.ok(f"field {POSITION} 28")
    c.no(30, "run 0 4")
    c.ok("abandon 0")
    again(c, "R-3: with none given at load, lent entity cells belong to no entity", 2 * STRIDE)
    c.ok("load 0", "enter 1", "statement")
    c.no(30, "statement")
    c.ok(f"field {POSITION} 5")
    c.no(30, "statement")
    c.ok(f"field {POSITION} 6")
    c.no(32, "statement")
    c.ok(f"field {ENTITIES} 2", "statement", "load 2", f"field {POSITION} 5", "statement")


def recorded_calls(c):
    def both(value):
        """The cells per entity, in the header and in the state."""
        for i, byte in enumerate(struct.pack("<i", value)):
            if c.machine.file[56 + i] != byte:
                c.ok(f"byte {56 + i} {byte}")
        c.ok(f"field {STATE_PER_ENTITY} {value}")

    c.new("R-3: a state with entities, made up without a load", PLAYERS, lent=2 * STRIDE)
    c.ok(f"field {STATE_LENGTH} {len(PLAYERS.bytes())}")
    for index, value in enumerate(struct.unpack_from("<13i", PLAYERS.bytes(), 8)):
        c.ok(f"field {STATE_LUMPS + index} {value}")
    record_settings(c)
    c.ok("get 1", f"put {PLAYER} 1", "put 29 5", f"field {ENTITIES} 2", f"field {POSITION} 2", "statement")
    c.ok(f"field {CURRENT} 5", f"field {DEPTH} 1", f"field {SAVED} 1", f"field {POSITION} 5", "statement", "statement", "abandon 0")
    again(c, "R-3: cells per entity changed in file and state: what is there now counts, and 13", 3 * STRIDE + 3)
    c.ok("load 3", "put 28 2", "put 29 104", f"field {POSITION} 5", "statement", "get 31", "put 29 105", f"field {POSITION} 5")
    c.no(31, "statement")
    both(106)
    c.ok("statement", "get 31", "statement")
    both(107)
    c.no(13, "statement", "get 1")
    c.ok(f"field {ENTITIES} 2", f"field {POSITION} 6")
    c.no(32, "statement")
    c.ok(f"put {AT} 852", "statement")
    both(2147483647)
    c.no(13, "get 1")
    c.ok(f"field {ENTITIES} 0", "get 1")
    c.new("R-3: entities times cells per entity over 32 bits: too few lent cells all the same", players(cells_per_entity=8388608), lent=8)
    c.no(13, "load 512", "load 511", "load 1")
    c.ok("byte 56 255", "byte 57 255", "byte 58 255", "byte 59 127")
    c.no(13, "load 1", "load 2", "load 600")
    c.ok("load 0", "enter 1")
    c.no(30, "run 0 9")
    both(8388608)
    c.ok(f"field {ENTITIES} 512")
    c.no(13, "get 1", "statement")


def carry_calls(c):
    c.new("R-3: none of the thirteen is handed over: carrying on is 27, whether it would be refused or not", PLAYERS, lent=STRIDE)
    at = PLAYERS.place(STATEMENTS, 1)
    c.ok("load 1", "enter 1", f"byte {at + 2} 56", f"byte {at + 4} 57")
    for opcode in (*range(24, 31), *range(37, 43)):
        c.ok(f"byte {at} {opcode}", f"byte {at + 6} {58 if opcode <= 30 else 0}", f"field {POSITION} 1", "put 57 80", "put 56 0")
        c.no(27, "carry")
        c.do("statement", 17 if opcode in (26, 27, 28) else "accepted")  # the lent cells are negative
        c.ok(f"field {POSITION} 1", f"field {ENTITIES} 0")
        c.no(27, "carry")
        c.no(30 if opcode <= 30 else 32, "statement")
        c.ok(f"field {ENTITIES} 1")
    c.ok(f"byte {at} 60", f"field {POSITION} 1", "carry")
    again(c, "R-3: after the last statement the position stands past it", STRIDE)
    c.ok("load 1", "enter 6", f"eput {NAME} 5", "statement", "get 42")
    c.no(14, "statement", "carry")
    again(c, "R-3: field definitions in changed bytes count as they now are", STRIDE)
    score, think = PLAYERS.place(FIELD_DEFS, 0), PLAYERS.place(FIELD_DEFS, 5)
    c.ok("load 1", f"field {POSITION} 2", f"byte {score} {STRING}")
    c.no(16, "statement")
    c.ok(f"byte {score} {VOID}", "statement", f"field {POSITION} 15", f"eput {THINK} 6", "statement")
    c.ok(f"byte {think} {FLOAT}", f"field {POSITION} 15")
    c.no(16, "statement")
    c.ok(f"byte {think + 2} 99", "statement")
    c.ok(f"byte {PLAYERS.place(FUNCTIONS, 6)} 10", "enter 6", "statement")


def entity_calls(c):
    walk_calls(c)
    refusal_calls(c)
    kept_calls(c)
    load_calls(c)
    state_calls(c)
    recorded_calls(c)
    carry_calls(c)

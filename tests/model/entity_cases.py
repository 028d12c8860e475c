"""R-3's single statements: opcodes 24 to 30 and 37 to 42, for cases/statements.txt."""

from collections import namedtuple

from common import GREATEST, NEGATIVE_NAN, ONE, SIGNALLING_NAN, THREE, TWO, triple
from model import (
    ENTITY, FIELD, FIELD_DEFS, FLOAT, FUNCTION, LOADED_FIELDS, POINTER, SAVE_FLAG, SIGN, STORED_FIELDS,
    STRING, VECTOR, VOID,
)

# the number of entities given at load, the number of lent entity cells, and those that aren't 0
World = namedtuple("World", "entities lent given")

STRIDE = 105  # cells per entity
LARGEST = 0x7FFFFFFF  # of a signed number

# where a cell of each type is, of the cells and of an entity's
TYPED_CELL = {ENTITY: 28, FIELD: 29, POINTER: 30, FLOAT: 31, VECTOR: 32, STRING: 35, FUNCTION: 36}
TYPED_FIELD = {FLOAT: 0, VECTOR: 4, STRING: 7, ENTITY: 8, FIELD: 9, FUNCTION: 10, POINTER: 11}
SOURCE = {**TYPED_CELL, ENTITY: 37, FIELD: 38}  # what is moved isn't the operand that says whose field it is
# a cell and a field cell of another type than each; those past the last have definitions too
WRONG_CELL = {type_: 36 if type_ == STRING else 35 for type_ in TYPED_CELL}
WRONG_FIELD = {type_: 10 if type_ == STRING else 7 for type_ in TYPED_FIELD}
PAST_CELL = {type_: 67 if type_ == STRING else 66 for type_ in TYPED_CELL}  # wrong and not there
PAST_FIELD = {type_: 107 if type_ == STRING else 106 for type_ in TYPED_FIELD}

DEFINITIONS = [
    (ENTITY, 28),
    (FIELD, 29),
    (POINTER, 30),
    (FLOAT, 31),
    (VECTOR, 32),
    (STRING, 35),
    (FUNCTION, 36),
    (ENTITY, 37),
    (FIELD, 38),
    (STRING, 1),  # a destination of 1 to 27 is typed for a load, as it isn't for StoreV
    (STRING, 66),
    (FUNCTION, 67),
    (VOID, 39),
    (FIELD | SAVE_FLAG, 57),
    (ENTITY | SAVE_FLAG, 58),
    (POINTER | SAVE_FLAG, 59),
]
# 12 to 27: void, first of two, a vector's cells.  There are none from 28 to 105
FIELDS = [
    (FLOAT, 0),
    (VECTOR, 1),  # 2 and 3 are undefined
    (VECTOR, 4),  # 5 and 6 are floats of their own
    (FLOAT, 4),
    (FLOAT, 5),
    (FLOAT, 6),
    (STRING, 7),
    (ENTITY, 8),
    (FIELD, 9),
    (FUNCTION, 10),
    (POINTER, 11),
    (VOID, 12),
    (VOID, 13),  # void ones are passed over: 13 is a string, 26 an entity
    (STRING, 13),
    (FLOAT, 14),  # of two definitions the first counts
    (STRING, 14),
    (STRING, 15),
    (FLOAT, 15),
    (VECTOR, 16),  # its second cell is a string
    (STRING, 17),
    (VECTOR, 19),  # its third cell is an entity
    (ENTITY, 21),
    (STRING, 22),
    (VOID, 22),
    (VECTOR, 23),
    (VOID, 24),
    (FLOAT, 24),
    (VOID, 26),
    (VOID, 26),
    (ENTITY, 26),
    (FLOAT, 27),
    (STRING, 106),  # past the cells per entity
    (FUNCTION, 107),
    (STRING, 65535),
]


def place(entity, field, stride=STRIDE):
    return entity * stride + field


def pointer(entity, field, stride=STRIDE):
    return 4 * place(entity, field, stride)


def world(entities=3, given=None, more=0, stride=STRIDE):
    """So many entities, with lent cells for exactly these and `more`."""
    return World(entities, entities * stride + more, dict(given or {}))


def width(type_):
    return 3 if type_ == VECTOR else 1


def telling(at, count, values, lent):
    """The values at a place, and others around them: one before, one after, an entity further and back."""
    near = [at - 1, at + count, at - STRIDE, at + STRIDE, 0, lent - 1]
    return {i: 0x5000 + i for i in near if 0 <= i < lent} | triple(at, values)


def load_of(v, name, entity, field, values, given=None, refused=None, entities=3, more=0):
    """A load of typed operands to the typed destination of its type."""
    type_ = LOADED_FIELDS[name]
    lent = entities * STRIDE + more
    given = telling(place(entity, field), width(type_), values, lent) if given is None else given
    cells = {28: entity, 29: field, **triple(SOURCE[type_], (0xAAAA,) * width(type_))}
    v.add(name, 28, 29, SOURCE[type_], cells, refused=refused, world=World(entities, lent, given))


def store_of(v, name, at, values, refused=None, entities=3, more=0, given=None):
    """A store of the typed source of its type through a pointer that is given as a number."""
    type_ = STORED_FIELDS[name]
    lent = entities * STRIDE + more
    if given is None:
        given = telling(at // 4, width(type_), (0xBBBB,) * width(type_), lent) if at < 4 * lent - 8 else {lent - 1: 0xBBBB}
    cells = {30: at, **triple(SOURCE[type_], values)}
    v.add(name, SOURCE[type_], 30, 0, cells, refused=refused, world=World(entities, lent, given))


MOVED_BITS = (0, 1, ONE, NEGATIVE_NAN, SIGNALLING_NAN, SIGN, LARGEST, 0xFFFFFFFF)


def moved_vectors(v):
    v.note("R-3: loads and stores move bits; 17 for a negative string, entity or field, though not for a function")
    for kind, type_ in LOADED_FIELDS.items():
        store = kind.replace("Load", "StoreP")
        for value in MOVED_BITS if type_ != VECTOR else ():
            negative = 17 if type_ in (STRING, ENTITY, FIELD) and value >= SIGN else None
            load_of(v, kind, 1, TYPED_FIELD[type_], [value], refused=negative)
            store_of(v, store, pointer(1, TYPED_FIELD[type_]), [value], refused=negative)
    for values in ((ONE, TWO, THREE), (NEGATIVE_NAN, SIGN, 0xFFFFFFFF), (0, SIGNALLING_NAN, LARGEST)):
        load_of(v, "LoadV", 1, 4, values)
        store_of(v, "StorePV", pointer(1, 4), values)
    v.note("R-3: what is there already is written once more; a whole entity beside it stays")
    store_of(v, "StorePF", pointer(1, 0), [0xBBBB])
    store_of(v, "StorePEnt", pointer(2, 8), [5], given={place(2, i): 7000 + i for i in range(STRIDE)})


def entity_numbers(v):
    v.note("R-3: an entity below the number, the last, and not below it: 30")
    for kind, type_ in LOADED_FIELDS.items():
        values = (41, 42, 43)[: width(type_)]
        for entity in (0, 2):
            load_of(v, kind, entity, TYPED_FIELD[type_], values)
        for entity in (3, 4, 600, 65535, 65536, LARGEST):
            load_of(v, kind, entity, TYPED_FIELD[type_], (), {0: 9}, refused=30)
            load_of(v, kind, entity, TYPED_FIELD[type_], (), {0: 9, 3 * STRIDE: 8}, refused=30, more=STRIDE)
        for entity in (SIGN, 0xFFFFFFFF):
            load_of(v, kind, entity, TYPED_FIELD[type_], (), {0: 9}, refused=17)
    v.note("R-3: no entities, with lent entity cells and without; one; 600")
    for more in (0, 1, STRIDE, 3 * STRIDE):
        given = {0: 5} if more else {}
        for kind, type_ in LOADED_FIELDS.items():
            load_of(v, kind, 0, TYPED_FIELD[type_], (), given, refused=30, entities=0, more=more)
        v.add("Address", 28, 29, 30, {30: 5}, refused=30, world=World(0, more, given))
        for kind in STORED_FIELDS:
            store_of(v, kind, 0, (1, 1, 1), refused=32, entities=0, more=more, given=given)
    load_of(v, "LoadF", 0, 104, [6], entities=1)
    load_of(v, "LoadF", 1, 0, [6], refused=30, entities=1, more=1)
    for entity, refused in ((0, None), (599, None), (600, 30)):
        load_of(v, "LoadF", entity, 104, [6], {place(min(entity, 599), 104): 6}, refused, entities=600, more=200)
        v.add("Address", 28, 29, 30, {28: entity, 29: 104}, refused=refused, world=world(600))
    store_of(v, "StorePF", pointer(599, 104), [6], entities=600, given={place(599, 103): 3})
    store_of(v, "StorePF", pointer(600, 0), [6], refused=32, entities=600, more=200, given={})


def field_numbers(v):
    v.note("R-3: the last cell of an entity is read, the one after it refused 31, though another entity is there")
    for kind, type_ in LOADED_FIELDS.items():
        last = STRIDE - width(type_)
        for entity in (0, 2):
            load_of(v, kind, entity, last, (44, 45, 46)[: width(type_)])
        given = {place(0, i): 0xC000 + i for i in range(STRIDE - 4, STRIDE + 4)}
        for field in (STRIDE, STRIDE + 3, 32767, 32768, 65534, 65536, 65536 + TYPED_FIELD[type_], LARGEST):
            load_of(v, kind, 0, field, (), given, refused=31)
            load_of(v, kind, 2, field, (), given, refused=31, more=8)
        load_of(v, kind, 0, 65535, (), given, refused=31 if type_ == STRING else 16)
        for field in (SIGN, 0xFFFFFFFF):
            load_of(v, kind, 0, field, (), given, refused=17)
    v.note("R-3: a vector that leaves its entity at its second or third cell: 31, and nothing of it is moved")
    for entity in (0, 1, 2):
        for field, refused in ((101, None), (102, None), (103, 31), (104, 31)):
            given = {place(entity, 100) + i: 0xC000 + i for i in range(9) if place(entity, 100) + i < 3 * STRIDE + 4}
            load_of(v, "LoadV", entity, field, (), given, refused, more=4)
            store_of(v, "StorePV", pointer(entity, field), (ONE, TWO, THREE), refused, more=4, given=given)
    load_of(v, "LoadV", 2, 103, (), {place(2, 103): 5}, refused=31)
    store_of(v, "StorePV", pointer(2, 104), (ONE, TWO, THREE), refused=31)
    v.note("R-3: 31 where the cell after the entity's last holds a negative number, 31 before 17")
    for kind in ("LoadS", "LoadEnt", "LoadFld"):
        load_of(v, kind, 0, STRIDE, (), {STRIDE: 0xFFFFFFFF}, refused=31)


def address_vectors(v):
    v.note("R-3: Address gives (entity times cells per entity, plus field) times 4")
    for entity in (0, 1, 2):
        for field in (0, 1, 50, 104):
            v.add("Address", 28, 29, 30, {28: entity, 29: field, 30: 7}, world=world())
    v.note("R-3: Address of every kind of field: no 16 by field definition; 30, 31, and 17 for its operands")
    for field in (*range(12), 13, 15, 17, 22):
        v.add("Address", 28, 29, 30, {28: 2, 29: field}, world=world(3))
    for entity, field, refused in (
        *((3, 0, 30), (3, 105, 30), (3, LARGEST, 30), (LARGEST, 104, 30), (LARGEST, LARGEST, 30), (599, 0, 30)),
        *((2, 105, 31), (0, 106, 31), (0, 210, 31), (1, 65535, 31), (1, 65536, 31), (0, LARGEST, 31)),
        *((SIGN, 0, 17), (0, SIGN, 17), (0xFFFFFFFF, SIGN, 17), (3, SIGN, 17), (SIGN, 105, 17)),
    ):
        v.add("Address", 28, 29, 30, {28: entity, 29: field, 30: 7}, refused=refused, world=world(3, more=STRIDE))
    v.note("R-3: a pointer's cell is typed 7, for Address and for the stores through it")
    for cell, type_ in ((28, ENTITY), (29, FIELD), (30, None), (31, FLOAT), (32, VECTOR), (35, STRING), (36, FUNCTION), (39, VOID)):
        refused = 16 if type_ not in (None, VOID) else None
        v.add("Address", 28, 29, cell, {28: 1, 29: 4}, refused=refused, world=world())
        v.add("StorePF", 31, cell, 0, {31: 4, 30: 420, cell: 420}, refused=refused, world=world())
    v.note("R-3: operands that are one cell, and destinations that are an operand")
    v.add("Address", 40, 40, 40, {40: 2}, world=world())
    v.add("Address", 40, 41, 41, {40: 2, 41: 7}, world=world())
    v.add("LoadEnt", 40, 41, 40, {40: 2, 41: 8}, world=world(3, {place(2, 8): 77}))
    v.add("LoadFld", 40, 41, 41, {40: 2, 41: 9}, world=world(3, {place(2, 9): 78}))
    v.add("LoadV", 41, 42, 40, {41: 2, 42: 4}, world=world(3, triple(place(2, 4), (ONE, TWO, THREE))))
    v.add("LoadFnc", 40, 40, 40, {40: 1}, world=world(3, {place(1, 1): 1}), refused=16)
    v.add("StorePV", 40, 41, 0, {40: ONE, 41: 4 * 150, 42: TWO}, world=world())
    v.add("StorePF", 40, 40, 0, {40: 4 * 28}, world=world())


def pointer_vectors(v):
    v.note("R-3: pointers that are negative, no multiple of 4, or past the last entity: 32")
    end = pointer(3, 0)
    for kind, type_ in STORED_FIELDS.items():
        values = (ONE, TWO, THREE)[: width(type_)]
        for at in (0, 4 * 28, end - 4 * width(type_)):
            refused = 16 if at == 0 and type_ not in (FLOAT, VECTOR) else None
            store_of(v, kind, at, values, refused)
        for at in (-4, -1, -420, 1, 2, 3, 4 * 28 + 2, end - 1, end - 3, end, end + 4, 2**31 - 4, LARGEST, -(2**31)):
            store_of(v, kind, at % 2**32, values, refused=32, more=9, given={0: 5, 28: 6, 3 * STRIDE: 7})
    for at in (end - 8, end - 4):
        store_of(v, "StorePV", at, (ONE, TWO, THREE), refused=31, given={3 * STRIDE - 1: 7})
    v.note("R-3: the entity is found by the cells per entity: every pointer about the end of one")
    for at in range(pointer(1, 0) - 12, pointer(1, 0) + 16, 4):
        v.add("StorePFnc", 40, 41, 0, {40: 9, 41: at}, world=world())


def type_vectors(v):
    v.note("R-3: field definitions of every type under every access")
    for kind, type_ in LOADED_FIELDS.items():
        store = kind.replace("Load", "StoreP")
        for other, field in TYPED_FIELD.items():
            fine = type_ == other or {type_, other} == {FLOAT, VECTOR}
            values = (3, 4, 5)[: width(type_)]
            load_of(v, kind, 1, field, values, refused=None if fine else 16)
            store_of(v, store, pointer(1, field), values, refused=None if fine else 16)
    v.note("R-3: void definitions are passed over, of two the first counts")
    for field, found in ((12, None), (13, STRING), (14, FLOAT), (15, STRING), (22, STRING), (26, ENTITY), (28, None)):
        for kind, type_ in LOADED_FIELDS.items():
            if type_ == VECTOR:
                continue
            refused = None if found in (None, type_) else 16
            load_of(v, kind, 2, field, [6], refused=refused)
            store_of(v, kind.replace("Load", "StoreP"), pointer(2, field), [6], refused=refused)
    v.note("R-3: a vector's cells are floats each: a wrong second one, a wrong third one, undefined and void ones")
    for field in (0, 1, 2, 3, 4, 5, 6, 10, 11, 12, 14, 15, 16, 17, 18, 19, 20, 21, 23, 24, 25, 27, 28):
        load_of(v, "LoadV", 1, field, (ONE, TWO, THREE))
        store_of(v, "StorePV", pointer(1, field), (ONE, TWO, THREE))
    v.note("R-3: field definitions in bytes that changed after the load: over 7, with bit 15, void, moved")
    at = v.base.place(FIELD_DEFS, 0)  # float, field cell 0
    for low, high in ((8, 0), (0, 0), (2, 0x80), (3, 0x80), (1, 0x80), (0, 0x80), (2, 0x40), (0, 0x40), (0xFF, 0x7F)):
        for name in ("LoadF", "LoadS"):
            v.add(name, 28, 29, 40, {28: 1}, pokes=[(at, low), (at + 1, high)], world=world(3, {STRIDE: 7}))
    for name in ("LoadF", "LoadS"):  # the definition moves to field cell 28 as a string
        for field in (0, 28):
            given = {place(1, field): 7}
            v.add(name, 28, 29, 40, {28: 1, 29: field}, pokes=[(at, 1), (at + 2, 28)], world=world(3, given))


# -- the order of checks ------------------------------------------------------------------------
#
# A fault is what is changed of a statement that would be accepted: operands by place, cells, what is
# at the field.  Two faults are put together where they change different things.

Fault = namedtuple("Fault", "refusal operands cells given", defaults=({}, {}, None))


def operand_faults(index, type_, cell):
    """Another type, no such cell, both, and a negative value in the cell."""
    yield Fault(16, {index: WRONG_CELL[type_]})
    yield Fault(16, {index: PAST_CELL[type_]})
    yield Fault(15, {index: -1})
    if type_ == VECTOR:
        yield Fault(15, {index: 62})
    if type_ in (ENTITY, FIELD) and cell is not None:
        yield Fault(17, {}, {cell: SIGN})


def load_faults(name):
    type_ = LOADED_FIELDS.get(name, POINTER)
    yield from operand_faults(0, ENTITY, 28)
    yield from operand_faults(1, FIELD, 29)
    yield from operand_faults(2, type_, None)
    yield Fault(30, {}, {28: 3})
    if name == "Address":
        yield Fault(31, {}, {29: STRIDE})
        return
    yield Fault(16, {}, {29: WRONG_FIELD[type_]})
    yield Fault(16, {}, {29: PAST_FIELD[type_]})
    yield Fault(31, {}, {29: STRIDE})
    if type_ == VECTOR:
        yield Fault(31, {}, {29: 104})
        yield Fault(16, {}, {29: 19})
    if type_ in (STRING, ENTITY, FIELD):
        yield Fault(17, given=SIGN)


def store_faults(name):
    type_ = STORED_FIELDS[name]
    yield Fault(18, {2: 1})
    yield Fault(18, {2: -1})
    yield from operand_faults(0, type_, SOURCE[type_])
    yield from operand_faults(1, POINTER, None)
    for at in (pointer(1, 0) + 2, 2**32 - 4, pointer(3, 0)):
        yield Fault(32, {}, {30: at})
    yield Fault(16, {}, {30: pointer(2, WRONG_FIELD[type_])})
    if type_ == VECTOR:
        yield Fault(31, {}, {30: pointer(1, 104)})
        yield Fault(16, {}, {30: pointer(2, 19)})
    if type_ == STRING:
        yield Fault(17, {}, {SOURCE[STRING]: SIGN})


def apply(v, name, faults):
    """The statement with these faults; the first one's refusal is expected."""
    loads = name not in STORED_FIELDS
    type_ = STORED_FIELDS[name] if not loads else LOADED_FIELDS.get(name, POINTER)
    operands = [28, 29, SOURCE[type_]] if loads else [SOURCE[type_], 30, 0]
    cells = {28: 1, 29: TYPED_FIELD[type_]} if loads else {30: pointer(1, TYPED_FIELD[type_])}
    given = 5
    for fault in faults:
        for index, operand in fault.operands.items():
            operands[index] = operand
        cells |= fault.cells
        given = fault.given or given
    field = place(1, TYPED_FIELD[type_])
    v.add(name, *operands, cells, refused=faults[0].refusal, world=world(3, {field: given} if loads else {}))


def apart(first, second):
    """Whether two faults change different things; one of a cell's value needs the operand that names it."""
    named = {28: 0, 29: 1, 30: 1, **{cell: 0 for cell in SOURCE.values()}}
    both = {**first.cells, **second.cells}
    if set(first.operands) & set(second.operands) or set(first.cells) & set(second.cells):
        return False
    if (first.given and 29 in second.cells) or (second.given and 29 in first.cells):
        return False
    return not any(named[cell] in {**first.operands, **second.operands} for cell in both)


def order_vectors(v):
    for name in (*LOADED_FIELDS, "Address", *STORED_FIELDS):
        v.note(f"R-3: {name}: each refusal alone, then with each that comes later")
        faults = list(store_faults(name) if name in STORED_FIELDS else load_faults(name))
        for index, first in enumerate(faults):
            apply(v, name, [first])
            for second in faults[index + 1 :]:
                if apart(first, second) and (first.refusal, second.refusal) != (18, 18):
                    apply(v, name, [first, second])


def operand_vectors(v):
    v.note("R-3: a load's destination is typed, of 1 to 27 too; the last cells")
    for destination in (0, 1, 2, 26, 27, 28, 31, 32, 33, 35, 39, 40, 60, 61, 62, 63, 64, -1, -3, 32767):
        given = triple(STRIDE, (ONE, TWO, THREE))
        v.add("LoadV", 28, 29, destination, {28: 1}, world=world(3, given))
        v.add("LoadF", 28, 29, destination, {28: 1}, world=world(3, given))
    v.note("R-3: a store's source of three cells, the last ones; a pointer in the last cell")
    for source in (0, 1, 26, 27, 28, 31, 32, 33, 35, 40, 60, 61, 62, 63, -1, -3):
        v.add("StorePV", source, 30, 0, {30: pointer(1, 4), 61: ONE, 62: TWO, 63: THREE}, world=world())
    v.add("StorePF", 62, 63, 0, {62: ONE, 63: pointer(2, 104)}, world=world())
    v.add("StorePF", 62, 64, 0, {62: ONE, 63: pointer(2, 104)}, world=world())
    v.add("LoadF", 62, 63, 61, {62: 2, 63: 104}, world=world(3, {3 * STRIDE - 1: 5}))
    v.add("Address", 61, 62, 63, {61: 2, 62: 104}, world=world())
    v.note("R-3: at a depth above 0; lent entity cells past the last entity stay")
    for name in ("LoadF", "Address"):
        v.add(name, 40, 41, 42, {40: 2, 41: 104}, enter=1, world=world(3, {314: 6, 315: 7}, more=3))
    v.add("StorePF", 40, 41, 0, {40: ONE, 41: pointer(2, 104)}, enter=2, world=world(3, {314: 6, 315: 7}, more=3))
    v.note("R-3: the save flag of a definition is ignored")
    v.add("Address", 58, 57, 59, {58: 2, 57: 7}, world=world())
    v.add("LoadF", 58, 57, 40, {58: 2, 57: 0}, world=world(3, {210: 6}))
    v.add("StorePEnt", 58, 59, 0, {58: 2, 59: pointer(2, 8)}, world=world())
    v.add("StorePF", 59, 59, 0, {59: pointer(2, 28)}, refused=16, world=world())
    v.note("R-3: other statements leave the entity cells")
    given = {0: 5, 30: 6, 104: 7, 314: 8}
    for name, *operands in (("AddF", 40, 41, 42), ("StoreV", 40, 1), ("Call1", 43), ("Return", 40), ("Done", 40), ("Goto", 3)):
        v.add(name, *operands, cells={40: ONE, 41: TWO, 43: 2}, enter=2, world=world(3, given))


LONG = 65540  # cells per entity: more than 16 bits can say
LONG_FIELDS = [(STRING, 0), (ENTITY, 3), (FLOAT, 32768), (STRING, 65535), (ENTITY, 65535), (FLOAT, 65533)]


def long_vectors(v):
    """One entity of 65,540 cells: definitions are of cells up to 65535, and bind no others."""
    for field in (0, 1, 3, 32767, 32768, 65533, 65534, 65535, 65536, 65537, 65539, 65540, 131072, 131075, LARGEST):
        at = {field: 0x777} if field < LONG else {}
        for name in ("LoadF", "LoadS", "LoadEnt"):
            v.add(name, 28, 29, 40, {29: field}, world=World(1, LONG, at))
        v.add("Address", 28, 29, 40, {29: field}, world=World(1, LONG, at))
        v.add("StorePF", 41, 40, 0, {40: 4 * field % 2**32, 41: ONE}, world=World(1, LONG, at))
    for field in (32766, 65532, 65533, 65534, 65536, 65537, 65538, 65539):
        given = {i: 0x1000 + i for i in range(field, field + 3) if i < LONG}
        v.add("LoadV", 28, 29, 40, {29: field}, world=World(1, LONG, given))
        v.add("StorePV", 40, 43, 0, {43: 4 * field, **triple(40, (ONE, TWO, THREE))}, world=World(1, LONG, given))


def last_cell_vectors(v):
    """On a file of 32,768 cells."""
    v.note("R-3: the last of 32,768 cells as operands")
    given = {STRIDE + 104: GREATEST}
    v.add("LoadF", 32766, 32767, 32765, {32766: 1, 32767: 104}, world=world(2, given))
    v.add("LoadV", 32764, 32764, 32765, {32764: 1}, world=world(2, triple(106, (ONE, TWO, THREE))))
    v.add("LoadV", 32764, 32764, 32766, {32764: 1}, world=world(2))
    v.add("Address", 32766, 32767, 32767, {32766: 1, 32767: 104}, world=world(2))
    v.add("StorePV", 32765, 32764, 0, {32764: 420, **triple(32765, (ONE, TWO, THREE))}, world=world(2))
    v.add("StorePV", 32766, 32764, 0, {32764: 420}, world=world(2))
    v.add("StorePF", 32767, 32766, 0, {32766: 836, 32767: ONE}, world=world(2))


def entity_vectors(v):
    v.file("R-3: 64 cells, 105 cells per entity, definitions and field definitions", definitions=DEFINITIONS, fields=FIELDS)
    moved_vectors(v)
    entity_numbers(v)
    field_numbers(v)
    address_vectors(v)
    pointer_vectors(v)
    type_vectors(v)
    order_vectors(v)
    operand_vectors(v)
    edges = [(STRING, 107), (FLOAT, 108), (VOID, 109), (STRING, 109)]
    v.file("R-3: 107 cells per entity: definitions of the field cells after the last", fields=edges, cells_per_entity=107)
    edge_vectors(v)
    v.file("R-3: 65,540 cells per entity", fields=LONG_FIELDS, cells_per_entity=LONG)
    long_vectors(v)


def edge_vectors(v):
    v.note("R-3: in a vector each cell is checked by type, then by number, before the next")
    for field in range(104, 110):
        v.add("LoadV", 28, 29, 40, {29: field}, world=world(2, {107: 5, 108: 6}, stride=107))
    for field in (104, 105, 106):
        for entity in (0, 1):
            at = pointer(entity, field, 107)
            v.add("StorePV", 40, 43, 0, {43: at, **triple(40, (ONE, TWO, THREE))}, world=world(2, stride=107))
    for name in ("LoadF", "LoadS", "LoadFnc"):
        for field in (106, 107, 108, 109, 110):
            v.add(name, 28, 29, 40, {29: field}, world=world(2, {106: 5, 107: 6}, stride=107))
    for at in (pointer(1, 0), pointer(1, 106, 107), pointer(2, 0, 107), pointer(1, 0, 107) - 4):
        v.add("StorePF", 40, 41, 0, {40: ONE, 41: at}, world=world(2, stride=107))

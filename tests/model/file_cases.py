"""Whole files and the show program's line for each: cases/files.txt."""

from common import (
    FLOAT_ARITHMETIC, GREATEST, MINUS_INFINITY, NEGATIVE_NAN, THREE, TWO, Xorshift, flt, hex_of, program,
    random_program, triple,
)
from model import (
    BUILTINS, CELLS, FIELD_DEFS, FLOAT, FUNCTION, FUNCTIONS, GLOBAL_DEFS, HOST_OPCODES, LOADED_FIELDS,
    ONE, OPCODES, POINTER, QUIET_NAN, RECORD_SIZES, SAVE_FLAG, STATEMENTS, STORED_FIELDS, STRING,
    STRINGS, VECTOR, VOID, Assembly, function, show,
)
from string_cases import string_files
from void_cases import void_files


class Files:
    def __init__(self):
        self.lines = []
        self.seen = []

    def note(self, text):
        self.lines.append(f"# {text}")

    def add(self, name, file, begins=""):
        """`begins` is what the line was worked out by hand to begin with."""
        if isinstance(file, Assembly):
            file = file.bytes()
        line = show(file)
        assert line.startswith(begins), (name, line, begins)
        assert " " not in name and name not in [other for other, _ in self.seen], name
        self.lines.append(f"{name} {hex_of(file)} {line}")
        self.seen.append((name, line))
        return line


SHOWN_CELLS = {28: flt(1.5), 29: flt(2.25)}


def small_program(**parts):
    """01's example, with a definition and a field definition so that no lump is empty."""
    parts = dict(definitions=[(FLOAT, 28)], fields=[(VECTOR, 3)], cells=SHOWN_CELLS) | parts
    return program(("AddF", 28, 29, 30), ("Return", 30), functions=[function(1, 30, 1)], **parts)


def with_bytes(assembly, place, new):
    file = assembly.bytes()
    file[place : place + len(new)] = new
    return file


def with_lump(lump, offset=None, count=None, **parts):
    assembly = small_program(**parts)
    if offset is not None:
        assembly.lumps[2 * lump] = offset
    if count is not None:
        assembly.lumps[2 * lump + 1] = count
    return assembly


LUMP_NAMES = ("statements", "definitions", "fields", "functions", "strings", "cells")
ENDED = "ended,0,2,0,0,0,0,40700000,00000000,00000000"


def header_files(f):
    f.note("01's example, lengths")
    example = program(("AddF", 28, 29, 30), ("Return", 30), functions=[function(1, 30, 1)], cells=SHOWN_CELLS)
    f.add("example", example, ENDED)
    whole = small_program().bytes()
    f.add("all-lumps", whole, ENDED)
    for length in (0, 1, 59):
        f.add(f"length-{length}", whole[:length], "refused,1")
    f.add("length-60", whole[:60], "refused,4")
    f.add("length-60-zeros", bytearray(60), "refused,2")
    empty = Assembly(strings=b"", cell_count=0)
    f.add("length-60-empty-lumps", empty, "refused,10")
    f.add("one-byte-short", whole[:-1], "refused,4")
    f.add("one-byte-more", whole + b"\xff", ENDED)
    f.add("length-65536", whole + bytes(65536 - len(whole)), ENDED)
    f.add("length-65537", whole + bytes(65537 - len(whole)), "refused,1")
    f.note("version, check number")
    for number in (5, 7, -6, 6 + (1 << 24)):
        assembly = small_program()
        assembly.version = number
        f.add(f"version-{number}", assembly, "refused,2")
    for number in (5926, -5927, 5927 + 65536):
        assembly = small_program()
        assembly.check_number = number
        f.add(f"check-number-{number}", assembly, "refused,3")
    f.note("lumps: negative, past the end, sizes that wrap 32 bits, empty ones anywhere")
    for lump, name in enumerate(LUMP_NAMES):
        size = RECORD_SIZES[lump]
        f.add(f"{name}-offset-minus-1", with_lump(lump, offset=-1), "refused,4")
        f.add(f"{name}-empty-offset-minus-1", with_lump(lump, offset=-1, count=0), "refused,4")
        f.add(f"{name}-count-minus-1", with_lump(lump, count=-1), "refused,4")
        f.add(f"{name}-far", with_lump(lump, offset=2**31 - 1, count=1), "refused,4")
        wraps = (2**32 + size - 1) // size if size > 2 else 2**31 - 1
        f.add(f"{name}-wraps", with_lump(lump, count=wraps), "refused,4")
        nothing = f.add(f"{name}-empty-far", with_lump(lump, offset=2**31 - 1, count=0))
        expected = ("refused,14,0,1,1,1,1,", ENDED, ENDED, "refused,20,0,0,0,0,0,", "refused,6", "refused,10")
        assert nothing.startswith(expected[lump]), nothing
        layout = [other for other in range(6) if other != lump] + [lump]
        last = small_program(layout=layout)
        f.add(f"{name}-last", last, ENDED)
        f.add(f"{name}-last-one-short", last.bytes()[:-1], "refused,4")
    f.note("lumps in other orders, with gaps, overlapping")
    f.add("backward", small_program(layout=(5, 4, 3, 2, 1, 0)), ENDED)
    f.add("gaps", small_program(layout=(3, 5, 1, 0, 4, 2), gap=3), ENDED)
    f.add("strings-are-the-file", with_lump(STRINGS, offset=0, count=len(whole)), ENDED)
    cells_are_header = with_lump(CELLS, offset=0, count=64)
    # cell 28 lies past the header, in the functions
    f.add("cells-are-the-header", cells_are_header, "ended,0,2,0,0,0,0,")
    same = with_lump(FIELD_DEFS, offset=small_program().place(GLOBAL_DEFS))
    f.add("fields-are-definitions", same, ENDED)
    f.add("definitions-are-statements", with_lump(GLOBAL_DEFS, offset=60, count=1), ENDED)
    same = with_lump(FUNCTIONS, offset=small_program().place(CELLS), count=2)
    f.add("functions-are-cells", same, "ended,0,1,")  # a function of zeros, at statement 0
    same = with_lump(STATEMENTS, offset=small_program().place(FUNCTIONS), count=9)
    f.add("statements-are-functions", same, "ended,0,1,")  # function 1's first record is a Done
    f.note("cells and cells per entity")
    for count in (63, 64, 65):
        f.add(f"{count}-cells", small_program(cell_count=count), "refused,10" if count < 64 else ENDED)
    for count in (-1, 104, 105, 2**31 - 1):
        begins = ENDED if count >= 105 else "refused,11"
        f.add(f"{count}-entity-cells", small_program(cells_per_entity=count), begins)


def record_files(f):
    f.note("functions: builtins")
    for number in (5, 33, 39, 42, 50, 60, 66, 71, 79, 257, 2**31):
        functions = [function(1), function(-number)]
        f.add(f"builtin-{number}", program(("Return",), functions=functions), "refused,5")
    every = [function(1)] + [function(-number, arguments=-1) for number in sorted(BUILTINS)]
    f.add("every-builtin", program(("Return",), functions=every), "ended,0,1,")
    f.note("functions: names and source files; strings of 3 bytes")

    def named(**fields):
        return program(("Return",), functions=[function(1), function(**fields)], strings=b"\0a\0")

    for number in (-1, 3, 2**31 - 1):
        f.add(f"name-{number}", named(name=number), "refused,6")
        f.add(f"source-{number}", named(source=number), "refused,6")
    f.add("name-2", named(name=2, source=2), "ended,0,1,")
    f.add("no-strings", program(("Return",), strings=b""), "refused,6")
    f.add("no-strings-no-functions", Assembly(strings=b"", statements=[("Done",)]), "refused,20,0,0,0,0,0,")
    f.add("function-0-is-checked", Assembly(functions=[function(name=1), function()]), "refused,6")
    functions = [function(1, profile=77), function(1, profile=-1, arguments=99)]
    f.add("profile-and-count", program(("Return",), functions=functions), "ended,0,1,")
    f.note("statements: opcodes, executed or not")
    for number in (66, 256, 32767, -1):
        f.add(f"opcode-{number}", program(("Return",), (number,)), "refused,7")
    f.add("opcode-65", program(("Return",), (65, -1, -1, -1)), "ended,0,1,")
    f.note("definitions: name, save flag, type")

    def defined(definitions=(), fields=()):
        return program(("Return",), definitions=definitions, fields=fields)

    for number in (-1, 1):
        f.add(f"definition-name-{number}", defined([(FLOAT, 28, number)]), "refused,6")
        f.add(f"field-name-{number}", defined(fields=[(FLOAT, 28, number)]), "refused,6")
    for number in (8, 0x7FFF, 0x8008, 0x4002):
        f.add(f"definition-type-{number}", defined([(number, 28)]), "refused,8")
        begins = "refused,9" if number >= 0x8000 else "refused,8"
        f.add(f"field-type-{number}", defined(fields=[(number, 28)]), begins)
    f.add("field-saved", defined(fields=[(SAVE_FLAG | FLOAT, 28)]), "refused,9")
    f.add("every-type", defined([(t, 28) for t in range(8)], [(t, 65535) for t in range(8)]), "ended,0,1,")
    f.add("every-type-saved", defined([(SAVE_FLAG | t, 65535) for t in range(8)]), "ended,0,1,")
    f.note("the order of the load's checks")
    both = small_program()
    both.version, both.check_number = 7, 1
    f.add("2-before-3", both, "refused,2")
    both = with_lump(CELLS, offset=-1)
    both.check_number = 1
    f.add("3-before-4", both, "refused,3")
    bad_five = function(-5)
    f.add("4-before-5", cut(program(functions=[bad_five])), "refused,4")
    f.add("5-before-6-in-a-record", program(functions=[function(-5, name=-1)]), "refused,5")
    f.add("6-in-an-earlier-record", program(functions=[function(name=-1), bad_five]), "refused,6")
    f.add("5-in-an-earlier-record", program(functions=[bad_five, function(name=-1)]), "refused,5")
    f.add("functions-before-statements", program((66,), functions=[function(source=-1)]), "refused,6")
    f.add("statements-before-definitions", program((66,), definitions=[(8, 0, -1)]), "refused,7")
    f.add("definition-6-before-8", defined([(8, 0, -1)]), "refused,6")
    f.add("definition-8-in-an-earlier-record", defined([(8, 0), (FLOAT, 0, -1)]), "refused,8")
    f.add("definition-6-in-an-earlier-record", defined([(FLOAT, 0, -1), (8, 0)]), "refused,6")
    f.add("definitions-before-fields", defined([(8, 0)], [(FLOAT, 0, -1)]), "refused,8")
    f.add("field-6-before-9", defined(fields=[(SAVE_FLAG | 8, 0, -1)]), "refused,6")
    f.add("field-9-before-8", defined(fields=[(SAVE_FLAG | 8, 0)]), "refused,9")
    f.add("field-8-in-an-earlier-record", defined(fields=[(8, 0), (SAVE_FLAG, 0)]), "refused,8")
    f.add("fields-before-cells", program(fields=[(8, 0)], cell_count=63), "refused,8")
    f.add("10-before-11", program(cell_count=36, cells_per_entity=104), "refused,10")
    f.add("6-before-11", program(functions=[function(name=1)], cells_per_entity=104), "refused,6")


def cut(assembly):
    return assembly.bytes()[:-1]


def entry_files(f):
    f.note("the host's entry of function 1: refusals and their order")

    def entered(*args, **fields):
        return program(("Return", 40), functions=[function(*args, **fields)], cells=triple(0, range(16, 32)))

    refused = "refused,{},0,0,0,0,0,00000011,00000012,00000013"
    cells = triple(0, range(16, 32))
    f.add("no-function-1", Assembly([("Done",)], [function()], cells=cells), refused.format(20))
    f.add("no-functions", Assembly(statements=[("Done",)], cells=cells), refused.format(20))
    f.add("locals-minus-1", entered(1, 40, -1), refused.format(23))
    f.add("locals-2049", entered(1, 0, 2049), refused.format(23))
    f.add("locals-most", entered(1, 0, 2**31 - 1), refused.format(23))
    f.add("locals-2048-missing", entered(1, 0, 2048), refused.format(15))
    f.add("local-63", entered(1, 63, 1), "ended,0,1,")
    f.add("local-63-two", entered(1, 63, 2), refused.format(15))
    f.add("local-64", entered(1, 64, 1), refused.format(15))
    f.add("local-minus-1", entered(1, -1, 2), refused.format(15))
    f.add("local-greatest", entered(1, 2**31 - 1, 2), refused.format(15))
    f.add("local-minus-1-empty", entered(1, -1, 0), "ended,0,1,")
    f.add("local-64-empty", entered(1, 64, 0), "ended,0,1,")
    f.add("local-greatest-empty", entered(1, 2**31 - 1, 0), "ended,0,1,")
    f.add("arguments-minus-1", entered(1, arguments=-1), refused.format(24))
    f.add("arguments-9", entered(1, arguments=9), refused.format(24))
    f.add("arguments-8", entered(1, 40, sizes=(1,) * 8), "ended,0,1,")
    f.add("arguments-8-of-3", entered(1, 40, sizes=(3,) * 8), "ended,0,1,")
    f.add("sizes-past-the-count-unused", entered(1, 40, sizes=(1, 255, 255), arguments=1), "ended,0,1,")
    f.add("size-60", entered(1, 0, sizes=(60,)), "ended,0,1,")
    f.add("size-61", entered(1, 0, sizes=(61,)), refused.format(15))
    f.add("size-255", entered(1, 0, sizes=(255,)), refused.format(15))
    f.add("argument-to-63", entered(1, 63, sizes=(1,)), "ended,0,1,")
    f.add("argument-to-64", entered(1, 63, sizes=(1, 1)), refused.format(15))
    f.add("argument-to-minus-1", entered(1, -1, sizes=(1,)), refused.format(15))
    f.add("argument-of-no-size-to-minus-1", entered(1, -1, sizes=(0, 0)), "ended,0,1,")
    f.add("builtin", entered(-1), refused.format(21))
    f.add("builtin-arguments-minus-1", entered(-1, arguments=-1), refused.format(24))
    f.add("23-before-15", entered(1, 64, -1), refused.format(23))
    f.add("local-15-before-24", entered(1, 64, 1, arguments=9), refused.format(15))
    f.add("24-before-21", entered(-1, 40, 1, arguments=9), refused.format(24))
    f.add("argument-15-before-21", entered(-1, 64, sizes=(1,)), refused.format(15))
    f.add("local-15-before-21", entered(-1, 64, 1), refused.format(15))
    f.add("23-before-21", entered(-1, 0, 2049), refused.format(23))
    f.add("begins-past-the-statements", entered(2), "refused,14,0,2,1,1,0,")
    f.add("begins-far-away", entered(2**31 - 1, 40, 3), f"refused,14,0,{2**31 - 1},1,1,3,")


def statement_files(f):
    f.note("statements refused in a run; the count is of those completed")
    for name, statement, number in (
        ("16-string", ("AddF", 29, 28, 30), 16),
        ("16-destination", ("AddF", 28, 28, 29), 16),
        ("15-first", ("AddF", 64, 28, 30), 15),
        ("15-negative", ("AddF", -1, 28, 30), 15),
        ("15-store-v", ("StoreV", 61, 62), 15),
        ("15-return", ("Return", 62), 15),
        ("15-return-negative", ("Return", -1), 15),
        ("15-done", ("Done", 63), 15),
        ("15-eq-s", ("EqS", -1, 29, 30), 15),
        ("17-entity", ("StoreEnt", 31, 32), 17),
        ("17-field", ("StoreFld", 31, 32), 17),
        ("17-string", ("StoreS", 31, 32), 17),
        ("18-store", ("StoreF", 28, 30, 1), 18),
        ("18-not", ("NotF", 28, 1, 30), 18),
        ("19", ("Call0", 30), 19),
        ("20", ("Call0", 31), 20),
        ("20-equal", ("Call0", 33), 20),
        ("16-call", ("Call0", 29), 16),
        ("15-call", ("Call0", 64), 15),
        ("14-forward", ("Goto", 100), 14),
        ("14-backward", ("Goto", -100), 14),
        ("14-if", ("If", 28, -3), 14),
    ):
        cells = {28: ONE, 31: 0xFFFFFFFF, 33: 2}
        file = program(("StoreF", 28, 1), statement, definitions=[(STRING, 29)], cells=cells)
        line = f.add(f"refused-{name}", file, f"refused,{number},")
        jumped = number == 14
        position = 2 + statement[-1] if jumped else 2
        after = f"{2 if jumped else 1},{position},1,1,0,3f800000,00000000,00000000"
        assert line == f"refused,{number},{after}", line
    f.add("runs-off-the-end", program(("StoreF", 28, 1), cells={28: ONE}), "refused,14,1,2,1,1,0,3f800000")
    f.note("handed over")
    for number in sorted(HOST_OPCODES):
        file = program(("NotF", 28, 0, 2), (number, -1, 64, 5))
        f.add(f"opcode-{OPCODES[number]}", file, f"opcode,{number},1,2,1,1,0,")
    no_entity_files(f)
    for number in (1, 7, 35, 78):
        functions = [function(1), function(-number, arguments=-1)]
        file = program(("NotF", 28, 0, 2), ("Call1", 30), functions=functions, cells={30: 2})
        f.add(f"calls-builtin-{number}", file, f"builtin,{number},1,2,1,1,0,")
    f.note("limit")
    f.add("endless", program(("Goto", 0)), "spent,0,99999,1,1,1,0,")
    two = program(("Goto", 1), ("If", 28, -1), cells={28: QUIET_NAN})
    f.add("endless-two", two, "spent,0,99999,2,1,1,0,")
    counted = dict(cells={30: flt(49999.0), 31: ONE}, functions=[function(1, 30, 1)])
    count = [("SubF", 30, 31, 30), ("If", 30, -1)]
    f.add("ends-at-99999", program(*count, ("Return", 30), **counted), "ended,0,99999,0,0,0,0,")
    longer = program(("StoreF", 31, 1), *count, ("Return", 30), **counted)
    f.add("ends-at-100000", longer, "spent,0,99999,4,1,1,1,3f800000")
    longer = program(("Goto", 1), *count, ("Return", 64), **counted)
    f.add("refused-at-100000", longer, "spent,0,99999,4,1,1,1,")
    f.note("values, one statement each; the result is returned")
    for name in FLOAT_ARITHMETIC + ["BitAnd", "BitOr"]:
        for index, (x, y) in enumerate([(flt(7.5), flt(-2.5)), (GREATEST, GREATEST)]):
            file = program((name, 28, 29, 30), ("Return", 30), cells={28: x, 29: y})
            f.add(f"{name}-{index}", file, "ended,0,2,")
    vectors = {**triple(28, (ONE, TWO, THREE)), **triple(31, (flt(0.5), flt(-4.0), QUIET_NAN))}
    operands = dict(AddV=(28, 31), SubV=(28, 31), MulV=(28, 31), MulFV=(29, 28), MulVF=(28, 29))
    for name, (a, b) in (operands | dict(EqV=(28, 28), NeV=(31, 31))).items():
        f.add(f"{name}-returned", program((name, a, b, 40), ("Return", 40), cells=vectors), "ended,0,2,")
    f.note("definitions: the first counts, void is passed over, the save flag doesn't matter")
    for name, definitions, begins in (
        ("first-float", [(FLOAT, 28), (STRING, 28)], "ended,0,2,"),
        ("first-string", [(STRING, 28), (FLOAT, 28)], "refused,16,0,"),
        ("void-first", [(VOID, 28), (FLOAT, 28)], "ended,0,2,"),
        ("vector-for-float", [(VECTOR | SAVE_FLAG, 28)], "ended,0,2,"),
        ("pointer", [(POINTER, 28)], "refused,16,0,"),
        ("of-another-cell", [(STRING, 27), (STRING, 31)], "ended,0,2,"),
    ):
        statements = [("AddF", 28, 29, 30), ("Return", 30)]
        file = program(*statements, definitions=definitions, cells=SHOWN_CELLS)
        f.add(f"definition-{name}", file, begins)


def no_entity_files(f):
    f.note("R-3: the show program has no entities: loads and Address are refused 30, stores through pointers 32, after their operands")
    for name in (*LOADED_FIELDS, "Address", *STORED_FIELDS):
        operands, number = ((28, 29, 30), 30) if name not in STORED_FIELDS else ((29, 28, 0), 32)
        f.add(f"no-entities-{name}", program((name, *operands)), f"refused,{number},0,1,1,1,0,")
    for statement, number in (
        (("LoadF", 28, 29, 35), 16),
        (("StorePF", 28, 29, 1), 18),
        (("StorePEnt", 30, 29), 17),
    ):
        file = program(statement, definitions=[(STRING, 35)], cells={30: 0x80000000})
        f.add(f"no-entities-{statement[0]}-{number}", file, f"refused,{number},0,1,1,1,0,")


def call_files(f):
    f.note("returns: the three cells, one at a time, then the locals")
    cells = triple(0, range(0x10, 0x50))
    for operand in (0, 1, 2, 3, 26, 60, 61):
        f.add(f"return-{operand}", program(("Return", operand, -1, 99), cells=cells), "ended,0,1,0,0,0,0,")
    done = program(("Done", 40), cells=cells)
    f.add("done-40", done, "ended,0,1,0,0,0,0,00000038,00000039,0000003a")
    over = program(("Return", 40), functions=[function(1, 2, 3)], cells=cells)
    f.add("return-over-locals", over, "ended,0,1,0,0,0,0,00000038,00000012,00000013")
    over = program(("AddF", 1, 1, 1), ("Return", 1), functions=[function(1, 1, 3)], cells=cells)
    f.add("return-into-return-cells", over, "ended,0,2,0,0,0,0,00000011,00000012,00000013")
    f.note("arguments of sizes 0 to 3, and odd ones")
    usual = [(), (0,), (1,), (2,), (3,), (1, 3), (3, 1), (0, 2), (3, 0, 3), (1,) * 8, (3,) * 8]
    for sizes in usual + [(5,), (5, 5), (0, 255), (1, 40)]:
        total = sum(sizes)
        count = 64 if total < 20 else 400
        cells = triple(0, range(0x1000, 0x1000 + count))
        name = "-".join(map(str, sizes)) if len(sizes) < 4 else f"{len(sizes)}-of-{sizes[0]}"
        # the last three cells that are copied to, or the first of the locals
        shown = 40 + max(total - 3, 0)
        functions = [function(1, 40, total + 1, sizes)]
        file = program(("Return", shown), functions=functions, cells=cells, cell_count=count)
        f.add(f"sizes-{name or 'none'}", file, "ended,0,1,")
    f.note("arguments copied one at a time over argument cells; beyond the locals they stay")
    cells = triple(0, range(0x100, 0x140))
    ranges = [(first, (3, 3), 6) for first in (5, 4, 3, 7)]
    for first, sizes, locals_ in ranges + [(8, (8, 8), 1), (1, (3, 3, 3), 9), (5, (12,), 12)]:
        for shown in (first, first + 3):
            functions = [function(1, first, locals_, sizes)]
            file = program(("Return", shown), functions=functions, cells=cells)
            f.add(f"overlap-{first}-{len(sizes)}-show-{shown}", file, "ended,0,1,")
    stays = [function(1), function(3, 40, 1, (1, 3))]
    statements = [("Call2", 30), ("Return", 40), ("Return", 40)]
    file = program(*statements, functions=stays, cells=cells | {30: 2})
    f.add("beyond-the-locals", file, "ended,0,3,0,0,0,0,00000128,00000107,00000108")
    f.note("many records: definitions, statements, functions")
    last = (FUNCTIONS, STRINGS, FIELD_DEFS, CELLS, STATEMENTS, GLOBAL_DEFS)
    many = dict(definitions=[(VOID, 0)] * 7900, layout=last, cells=SHOWN_CELLS)
    f.add("definitions-7900", program(("AddF", 28, 29, 30), ("Return", 30), **many), ENDED)
    f.add("definitions-7900-void-cell", program(("AddF", 28, 29, 0), ("Return", 0), **many), "ended,0,2,0,0,0,0,40700000,")
    last = (FUNCTIONS, STRINGS, CELLS, GLOBAL_DEFS, FIELD_DEFS, STATEMENTS)
    many = program(*[("Done",)] * 7900, functions=[function(7900)], layout=last, cells={0: 5})
    f.add("statements-7901", many, "ended,0,1,0,0,0,0,00000005")
    last = (STATEMENTS, STRINGS, CELLS, GLOBAL_DEFS, FIELD_DEFS, FUNCTIONS)
    functions = [function(1)] + [function()] * 1600
    many = program(("Call0", 28), ("Return", 28), functions=functions, layout=last, cells={28: 1601})
    f.add("functions-1602", many, "ended,0,3,0,0,0,0,00000641")
    f.note("nested calls")
    chain = [("Call0", 30), ("Return", 1), ("Call0", 31), ("Return", 1)]
    chain_cells = {30: 2, 31: 3, 32: 7, 33: 8, 34: 9}
    functions = [function(1, 30, 2), function(3, 31, 2)]

    def chained(last=function(5, 30, 3), end=(("Return", 32),)):
        return program(*chain, *end, functions=[*functions, last], cells=chain_cells)

    f.add("chain", chained(), "ended,0,5,0,0,0,0,00000007,00000008,00000009")
    f.add("chain-entry-15", chained(function(5, 62, 3)), "refused,15,1,3,2,2,4,")
    f.add("chain-entry-23", chained(function(5, 30, -3)), "refused,23,1,3,2,2,4,")
    f.add("chain-entry-24", chained(function(5, 30, 3, arguments=-1)), "refused,24,1,3,2,2,4,")
    f.add("chain-argument-15", chained(function(5, 30, 3, sizes=(61,))), "refused,15,1,3,2,2,4,")
    f.add("chain-return-15", chained(end=[("Return", 62)]), "refused,15,2,5,3,3,7,")
    f.add("chain-off-the-end", chained(end=[]), "refused,14,2,5,3,3,7,")
    f.add("call-of-itself-by-0", program(("Call0", 28)), "refused,19,0,1,1,1,0,")
    # where a function 2 would be, a builtin's record could be read
    past = program(("Call0", 28), cells={0: 0xFFFFFFF9, 28: 2}, layout=(0, 1, 2, 4, 3, 5))
    f.add("call-past-the-functions", past, "refused,20,0,1,1,1,0,")
    # S(0) = S(1) = 3 and S(n) = 9 + S(n-1) + S(n-2) statements, and 3 more in function 1
    f.add("fibonacci-10", fibonacci(10), f"ended,0,1062,0,0,0,0,{flt(55.0):08x},")
    f.add("fibonacci-15", fibonacci(15), f"ended,0,11838,0,0,0,0,{flt(610.0):08x},")
    # 2 statements for 0, 5 for each other, and 3 more in function 1
    f.add("factorial-12", factorial(12), f"ended,0,65,0,0,0,0,{flt(479001600.0):08x},")
    f.add("factorial-40", factorial(40), "refused,22,91,7,2,31,60,")
    f.add("even-17", even(17), "ended,0,73,0,0,0,0,00000000,")
    f.add("even-29", even(29), "ended,0,121,0,0,0,0,00000000,")
    f.add("even-28", even(28), "ended,0,117,0,0,0,0,3f800000,")
    f.add("even-30", even(30), "refused,22,")
    f.note("depth 31: the last entry that is taken, the first that isn't")
    f.add("depth-31", nested(30), "ended,0,154,0,0,0,0,")
    f.add("depth-32", nested(31), "refused,22,123,4,1,31,93,")
    for calls in (29, 30):
        begins = "refused,22,92,5,1,31,31," if calls == 30 else "refused,23,89,5,1,30,30,"
        f.add(f"depth-{calls + 2}-locals-minus-1", nested_then_bad(calls), begins)
    f.note("saved store: 2,048 exactly, and over")
    for first, second in ((2000, 48), (2000, 49), (2048, 0), (2048, 1), (0, 2048), (0, 2049), (1, 2047)):
        begins = "ended,0,3," if first + second <= 2048 else f"refused,23,0,1,1,1,{first},"
        functions = [function(1, 0, first), function(3, 36, second)]
        statements = [("Call0", 30), ("Return", 0), ("Return", 0)]
        file = program(*statements, functions=functions, cells={30: 2}, cell_count=2100)
        f.add(f"saved-{first}-{second}", file, begins)
    for locals_, begins in ((66, "refused,22,30,1,1,31,2046,"), (68, "refused,23,29,1,1,30,2040,")):
        functions = [function(1, 0, locals_)]
        file = program(("Call0", 30), functions=functions, cells={30: 1}, cell_count=locals_)
        f.add(f"saved-{locals_}-each", file, begins)


def fibonacci(n):
    """Function 2, argument in its local 40: n below 2 is n, else the sum of the two before."""
    return program(
        ("StoreF", 30, 4),
        ("Call1", 36),
        ("Return", 1),
        ("Lt", 40, 29, 42),
        ("IfNot", 42, 2),
        ("Return", 40),
        ("SubF", 40, 28, 4),
        ("Call1", 36),
        ("StoreF", 1, 41),
        ("SubF", 40, 29, 4),
        ("Call1", 36),
        ("AddF", 1, 41, 41),
        ("Return", 41),
        functions=[function(1), function(4, 40, 3, (1,))],
        cells={28: ONE, 29: TWO, 30: flt(float(n)), 36: 2},
        definitions=[(FLOAT, 28), (FLOAT, 29), (FUNCTION, 36), (FLOAT, 40), (FLOAT, 41)],
    )


def factorial(n):
    return program(
        ("StoreF", 30, 4),
        ("Call1", 36),
        ("Return", 1),
        ("If", 40, 2),
        ("Return", 28),
        ("SubF", 40, 28, 4),
        ("Call1", 36),
        ("MulF", 1, 40, 41),
        ("Return", 41),
        functions=[function(1), function(4, 40, 2, (1,))],
        cells={28: ONE, 30: flt(float(n)), 36: 2},
    )


def even(n):
    """Two functions with one local range that call each other."""
    return program(
        ("StoreF", 30, 4),
        ("Call1", 36),
        ("Return", 1),
        ("If", 40, 2),
        ("Return", 28),
        ("SubF", 40, 28, 4),
        ("Call1", 37),
        ("Return", 1),
        ("If", 40, 2),
        ("Return", 31),
        ("SubF", 40, 28, 4),
        ("Call1", 36),
        ("Return", 1),
        functions=[function(1), function(4, 40, 1, (1,)), function(9, 40, 1, (1,))],
        cells={28: ONE, 30: flt(float(n)), 36: 2, 37: 3},
    )


def nested(calls):
    """Function 1 calls itself so many times; the last one returns at once."""
    return program(
        ("SubF", 28, 29, 28),
        ("IfNot", 28, 4),
        ("AddF", 30, 29, 30),
        ("Call0", 36),
        ("Return", 30),
        ("AddF", 30, 28, 32),
        ("Return", 30),
        functions=[function(1, 30, 3)],
        cells={28: flt(calls + 1.0), 29: ONE, 36: 1},
    )


def nested_then_bad(calls):
    """Function 1 calls itself so many times; the last one calls a function of locals -1."""
    return program(
        ("SubF", 28, 29, 28),
        ("IfNot", 28, 3),
        ("Call0", 36),
        ("Return", 30),
        ("Call0", 37),
        functions=[function(1, 30, 1), function(1, 30, -1)],
        cells={28: flt(calls + 1.0), 29: ONE, 36: 1, 37: 2},
    )


ROUNDED_NAMES = {36: "rint", 37: "floor", 38: "ceil", 43: "fabs"}
# three arguments, and their results under rint, floor, ceil and fabs as they were worked out by hand
ROUNDED_BY_HAND = [
    ((0xBF000000, 0x3EFFFFFF, NEGATIVE_NAN), {  # -0.5, just under 0.5
        36: "bf800000,00000000,7fc00000", 37: "bf800000,00000000,7fc00000",
        38: "80000000,3f800000,7fc00000", 43: "3f000000,3effffff,7fc00000"}),
    ((0xC0200000, MINUS_INFINITY, 0x4AFFFFFF), {  # -2.5, minus infinity, 8388607.5
        36: "c0400000,ff800000,4b000000", 37: "c0400000,ff800000,4afffffe",
        38: "c0000000,ff800000,4b000000", 43: "40200000,7f800000,4affffff"}),
    ((0xBE800000, 0x80000001, 0xCB000001), {  # -0.25, the least negative, -8388609.0
        36: "80000000,80000000,cb000001", 37: "bf800000,bf800000,cb000001",
        38: "80000000,80000000,cb000001", 43: "3e800000,00000001,4b000001"}),
]


def rounded_program(number, arguments=(flt(2.5),), **parts):
    """The builtin of each argument in turn, the results from cell 32 on; 1 statement more than three for each argument."""
    statements = []
    for index in range(len(arguments)):
        statements += [("StoreF", 28 + index, 4), ("Call1", 31), ("StoreF", 1, 32 + index)]
    functions = [function(1), function(-number, arguments=-1)]
    return program(*statements, ("Return", 32), functions=functions, cells={31: 2, **triple(28, arguments)}, **parts)


def rounding_files(f):
    f.note("R-1: rint, floor, ceil and fabs are done inside")
    for number, name in ROUNDED_NAMES.items():
        for index, (arguments, results) in enumerate(ROUNDED_BY_HAND):
            f.add(f"{name}-{index}", rounded_program(number, arguments), f"ended,0,10,0,0,0,0,{results[number]}")
    f.note("R-1: cell 4 and cell 1 typed; the refused Call isn't counted, and its result isn't there")
    for name, definitions, begins in (
        ("float-and-vector", [(FLOAT | SAVE_FLAG, 4), (VECTOR, 1)], "ended,0,4,0,0,0,0,40000000,"),
        ("argument-refused", [(STRING, 4), (FLOAT, 1)], "refused,16,0,1,1,1,0,00000000,"),
        ("result-refused", [(FLOAT, 4), (STRING, 1)], "refused,16,1,2,1,1,0,00000000,"),
    ):
        f.add(f"rounding-{name}", rounded_program(37, definitions=definitions), begins)
    # the argument comes to cell 4 by a StoreV, which looks at no type there
    moved = dict(functions=[function(1), function(-37, arguments=-1)], cells={28: TWO, 31: 2})
    by_address = program(("StoreV", 28, 4), ("Call1", 31), definitions=[(STRING, 4)], **moved)
    f.add("rounding-call-refused", by_address, "refused,16,1,2,1,1,0,00000000,")
    # Call and Goto in turn: the 99,999th is a Call, and the position is then the Goto's
    endless = program(("Call1", 31), ("Goto", -1), **moved)
    f.add("rounding-endless", endless, "spent,0,99999,2,1,1,0,00000000,")
    entered = program(("Return",), functions=[function(-36), function(-43)])
    f.add("rounding-entered", entered, "refused,21,0,0,0,0,0,")
    f.add("rounding-entered-24", program(functions=[function(-36, arguments=-1)]), "refused,24,0,0,0,0,0,")


def random_files(f):
    f.note("programs by chance")
    chance = Xorshift(88675123)
    for index in range(30):
        f.add(f"chance-{index}", random_program(chance))


def file_cases():
    f = Files()
    header_files(f)
    record_files(f)
    entry_files(f)
    statement_files(f)
    call_files(f)
    rounding_files(f)
    string_files(f)
    void_files(f)
    random_files(f)
    return f

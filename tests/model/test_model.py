"""Checks of the model by results that were worked out by hand from document 01.

    python3 test_model.py

Also: the arithmetic against C, compiled with gcc where there is one; the case files against what
make_cases.py makes; and which opcodes and refusals the cases reach.
"""

import copy
import os
import shutil
import struct
import subprocess
import tempfile
import unittest
from unittest import mock

import make_cases
import model
import replay
from common import CHANCE_FLOATS, STANDARD, Xorshift, flt, random_program, triple
from model import (
    BUILTINS, CELLS, ENTITY, FIELD, FIELD_DEFS, FLOAT, FUNCTION, FUNCTIONS, GLOBAL_DEFS, HOST_OPCODES, INFINITY,
    OPCODES, POINTER, QUIET_NAN, SAVE_FLAG, SIGN, STATEMENTS, STRING, STRINGS, VECTOR, VOID, Answer, Assembly, Frame,
    Machine, State, function, replace, show,
)
from pad_cases import pad_cases
from sentence_cases import sentence_cases
from statement_cases import Vectors, last_cell_functions, last_place_vectors, prepared, statement_vectors

RULES = os.path.join(os.path.dirname(os.path.dirname(os.path.abspath(__file__))), "rules")

ACCEPTED = Answer("accepted")
ONE, TWO, THREE = 0x3F800000, 0x40000000, 0x40400000
MINUS_ZERO = 0x80000000


def refused(number, count=0):
    return Answer("refused", number, count)


def loaded(*statements, functions=(), cells=None, lent=None, entities=0, entity_cells=(), **parts):
    """A machine just loaded: the statements from 0, function 0 all zeros, the given ones from 1."""
    assembly = Assembly(statements, [function(), *functions], cells=cells, **parts)
    lent = assembly.lumps[2 * CELLS + 1] if lent is None else lent
    machine = Machine(assembly.bytes(), [0] * lent, [0] * 2048, entity_cells)
    machine.assembly = assembly
    assert machine.load(entities) == ACCEPTED
    return machine


def result(name, x, y):
    """Cell 30 after a statement with floats in cells 28 and 29."""
    machine = loaded((name, 28, 29, 30), cells={28: x, 29: y})
    assert machine.statement() == ACCEPTED
    assert machine.state.position == 1
    return machine.cells[30]


def everything(machine):
    buffers = (machine.cells, machine.saved_store, machine.entity_cells)
    return machine.state, *map(list, buffers), bytes(machine.file)


class Situations(unittest.TestCase):
    """01's situations, the starred ones and the rest."""

    def test_bit_operations(self):
        self.assertEqual(result("BitAnd", 0x4F000000, ONE), ONE)  # 2147483648.0
        self.assertEqual(result("BitOr", 0x4B800000, ONE), 0x4B800000)  # 16777216.0
        self.assertEqual(result("BitOr", 0xBFC00000, 0), 0xBF800000)  # -1.5 gives -1.0

    def test_dot_product_of_minus_zeros(self):
        machine = loaded(("MulV", 40, 44, 48), cells={**triple(40, [MINUS_ZERO] * 3), **triple(44, [ONE] * 3), 48: 7})
        self.assertEqual(machine.statement(), ACCEPTED)
        self.assertEqual(machine.cells[48], 0)

    def test_division_by_zero(self):
        self.assertEqual(result("Div", ONE, 0), 0x7F800000)
        self.assertEqual(result("Div", 0, 0), 0x7FC00000)

    def test_branches(self):
        for value, position in ((QUIET_NAN, 5), (MINUS_ZERO, 1), (0, 1), (ONE, 5)):
            machine = loaded(("If", 28, 5), cells={28: value})
            self.assertEqual(machine.statement(), ACCEPTED)
            self.assertEqual(machine.state.position, position)
            machine = loaded(("IfNot", 28, 5), cells={28: value})
            self.assertEqual(machine.statement(), ACCEPTED)
            self.assertEqual(machine.state.position, 6 - position)

    def test_return_0(self):
        machine = loaded(("Return", 0), functions=[function()], cells={0: 9, 1: 5, 2: 6, 3: 7})
        self.assertEqual(machine.enter(1), ACCEPTED)
        self.assertEqual(machine.statement(), ACCEPTED)
        self.assertEqual(machine.cells[:4], [9, 9, 9, 9])

    def test_64_cells(self):
        machine = loaded(("NotF", 63, 0, 30), ("NotF", 64, 0, 30), lent=70)
        self.assertEqual(machine.statement(), ACCEPTED)
        self.assertEqual(machine.statement(), refused(15))
        self.assertEqual(machine.read(63), ACCEPTED)
        self.assertEqual(machine.read(64), refused(15))

    def test_depth(self):
        machine = loaded()
        for _ in range(31):
            self.assertEqual(machine.enter(0), ACCEPTED)
        self.assertEqual(machine.state.depth, 31)
        self.assertEqual(machine.enter(0), refused(22))

    def test_saved_store(self):
        functions = [function(0, 0, 2000), function(0, 0, 48), function(0, 0, 49)]
        machine = loaded(functions=functions, cell_count=2000)
        self.assertEqual(machine.enter(1), ACCEPTED)
        self.assertEqual(machine.enter(3), refused(23))
        self.assertEqual(machine.enter(2), ACCEPTED)
        self.assertEqual(machine.state.saved, 2048)

    def test_arguments(self):
        machine = loaded(functions=[function(0, 40, 4, (1, 3))], cells=triple(0, range(100, 164)))
        self.assertEqual(machine.enter(1), ACCEPTED)
        self.assertEqual(machine.cells[40:44], [104, 107, 108, 109])
        self.assertEqual(machine.saved_store[:4], [140, 141, 142, 143])

    def test_store_v(self):
        machine = loaded(("StoreV", 40, 41), cells=triple(40, (1, 2, 3, 4)))
        self.assertEqual(machine.statement(), ACCEPTED)
        self.assertEqual(machine.cells[40:45], [1, 1, 1, 1, 0])

    def test_show(self):
        """The file as 01 describes it, put together here without the assembler."""
        statements = struct.pack("<12h", 0, 0, 0, 0, 6, 28, 29, 30, 43, 30, 0, 0)
        functions = struct.pack("<7i8x", *[0] * 7) + struct.pack("<7i8x", 1, 30, 1, 0, 0, 0, 0)
        cells = [0] * 64
        cells[28], cells[29] = 0x3FC00000, 0x40100000
        body = statements + functions + b"\0" + struct.pack("<64I", *cells)
        header = [6, 5927, 60, 3, 0, 0, 0, 0, 84, 2, 156, 1, 157, 64, 105]
        line = "ended,0,2,0,0,0,0,40700000,00000000,00000000"
        self.assertEqual(show(struct.pack("<15i", *header) + body), line)

    def test_show_refusals(self):
        self.assertEqual(show(b""), "refused,1")
        self.assertEqual(show(bytes(65537)), "refused,1")
        self.assertEqual(show(bytes(60)), "refused,2")
        file = Assembly([("Done",)], [function()], cells={1: 0x11, 3: 0xABCDEF01}).bytes()
        self.assertEqual(show(file), "refused,20,0,0,0,0,0,00000011,00000000,abcdef01")


class Tempting(unittest.TestCase):
    """What 01 calls tempting, and must not be done."""

    def test_a_refused_statement_is_not_counted(self):
        machine = loaded(("NotF", 28, 0, 30), ("NotF", 64, 0, 30), functions=[function()])
        machine.enter(1)
        self.assertEqual(machine.run(0, 9), refused(15, 1))
        self.assertEqual(machine.state.position, 1)

    def test_the_return_is_copied_before_the_locals_are_restored(self):
        machine = loaded(("StoreF", 28, 40), ("Return", 40), functions=[function(0, 40, 1)], cells={28: ONE, 40: TWO})
        machine.enter(1)
        self.assertEqual(machine.run(0, 9), Answer("ended", 0, 2))
        self.assertEqual((machine.cells[1], machine.cells[40]), (ONE, TWO))

    def test_restored_locals_win_over_the_return_cells(self):
        machine = loaded(("Return", 40), functions=[function(0, 2, 1)], cells={2: 5, 40: 7, 41: 8, 42: 9})
        machine.enter(1)
        machine.statement()
        self.assertEqual(machine.cells[1:4], [7, 5, 9])

    def test_the_first_definition_counts(self):
        for definitions, answer in (
            ([(FLOAT, 28), (STRING, 28)], ACCEPTED),
            ([(STRING, 28), (FLOAT, 28)], refused(16)),
            ([(VOID, 28), (FLOAT, 28)], ACCEPTED),
            ([(SAVE_FLAG | VECTOR, 28)], ACCEPTED),
        ):
            self.assertEqual(loaded(("NotF", 28, 0, 30), definitions=definitions).statement(), answer)


class Floats(unittest.TestCase):
    def test_by_hand(self):
        for name, x, y, expected in (
            ("AddF", 0x3FC00000, 0x40100000, 0x40700000),  # 1.5 + 2.25 = 3.75
            ("AddF", 0x4B800000, ONE, 0x4B800000),  # 16777217 ties to the even 16777216
            ("AddF", 0x4B800001, ONE, 0x4B800002),  # 16777219 ties to the even 16777220
            ("AddF", MINUS_ZERO, MINUS_ZERO, MINUS_ZERO),
            ("AddF", MINUS_ZERO, 0, 0),
            ("AddF", ONE, 0xBF800000, 0),
            ("AddF", INFINITY, SIGN | INFINITY, QUIET_NAN),
            ("AddF", 0xFFFFFFFF, ONE, QUIET_NAN),
            ("AddF", 0x7F7FFFFF, 0x73000000, INFINITY),
            ("AddF", 0x7F7FFFFF, 0x72FFFFFF, 0x7F7FFFFF),
            ("AddF", 0x007FFFFF, 1, 0x00800000),
            ("SubF", 0, 0, 0),
            ("SubF", MINUS_ZERO, 0, MINUS_ZERO),
            ("SubF", INFINITY, INFINITY, QUIET_NAN),
            ("MulF", 1, 0x3F000000, 0),  # half the least ties to 0
            ("MulF", 3, 0x3F000000, 2),
            ("MulF", 5, 0x3F000000, 2),
            ("MulF", 1, 0x3F400000, 1),
            ("MulF", 0x00FFFFFF, 0x3F000000, 0x00800000),
            ("MulF", INFINITY, MINUS_ZERO, QUIET_NAN),
            ("MulF", 0x7F7FFFFF, TWO, INFINITY),
            ("MulF", 0xBF800000, 0, MINUS_ZERO),
            ("Div", ONE, THREE, 0x3EAAAAAB),
            ("Div", ONE, MINUS_ZERO, SIGN | INFINITY),
            ("Div", INFINITY, INFINITY, QUIET_NAN),
            ("Div", TWO, SIGN | INFINITY, MINUS_ZERO),
            ("EqF", 0, MINUS_ZERO, ONE),
            ("EqF", QUIET_NAN, QUIET_NAN, 0),
            ("NeF", QUIET_NAN, QUIET_NAN, ONE),
            ("Le", ONE, QUIET_NAN, 0),
            ("Ge", ONE, QUIET_NAN, 0),
            ("Ge", ONE, ONE, ONE),
            ("Lt", 0xC0000000, 0xBF800000, ONE),
            ("Gt", INFINITY, 0x7F7FFFFF, ONE),
            ("Lt", MINUS_ZERO, 0, 0),
            ("And", QUIET_NAN, ONE, ONE),
            ("And", MINUS_ZERO, ONE, 0),
            ("Or", MINUS_ZERO, 0, 0),
            ("Or", 0, 1, ONE),
            ("BitAnd", SIGN | INFINITY, 0xBF800000, 0xCF000000),  # -2147483648
            ("BitOr", INFINITY, 0, 0x4F000000),  # 2147483647 rounds up
            ("BitOr", QUIET_NAN, TWO, TWO),
            ("BitAnd", 0x40F00000, 0x40B00000, 0x40A00000),  # 7.5 and 5.5: 7 & 5 = 5
        ):
            with self.subTest(name=name, x=hex(x), y=hex(y)):
                self.assertEqual(hex(result(name, x, y)), hex(expected))

    def test_stores_move_bits(self):
        machine = loaded(("StoreF", 28, 29), ("StoreFnc", 28, 30), cells={28: 0xFFC12345})
        machine.statement()
        machine.statement()
        self.assertEqual(machine.cells[28:31], [0xFFC12345] * 3)


# R-1's table by hand: argument, then rint, floor, ceil, fabs
ROUNDED = [
    (0x3F000000, 0x3F800000, 0x00000000, 0x3F800000, 0x3F000000),  # 0.5: 1, 0, 1
    (0xBF000000, 0xBF800000, 0xBF800000, 0x80000000, 0x3F000000),  # -0.5: -1, -1, -0
    (0x3EFFFFFF, 0x00000000, 0x00000000, 0x3F800000, 0x3EFFFFFF),  # 0.49999997: 0, 0, 1
    (0xBEFFFFFF, 0x80000000, 0xBF800000, 0x80000000, 0x3EFFFFFF),
    (0xBE800000, 0x80000000, 0xBF800000, 0x80000000, 0x3E800000),  # -0.25: -0, -1, -0
    (0x3F000001, 0x3F800000, 0x00000000, 0x3F800000, 0x3F000001),
    (0x3F7FFFFF, 0x3F800000, 0x00000000, 0x3F800000, 0x3F7FFFFF),
    (0x3FC00000, 0x40000000, 0x3F800000, 0x40000000, 0x3FC00000),  # 1.5: 2, 1, 2
    (0x3FBFFFFF, 0x3F800000, 0x3F800000, 0x40000000, 0x3FBFFFFF),
    (0x40200000, 0x40400000, 0x40000000, 0x40400000, 0x40200000),  # 2.5: 3, 2, 3
    (0xC0200000, 0xC0400000, 0xC0400000, 0xC0000000, 0x40200000),  # -2.5: -3, -3, -2
    (0x40600000, 0x40800000, 0x40400000, 0x40800000, 0x40600000),  # 3.5: 4, 3, 4
    (0x3F800000, 0x3F800000, 0x3F800000, 0x3F800000, 0x3F800000),
    (0xC0000000, 0xC0000000, 0xC0000000, 0xC0000000, 0x40000000),
    (0x4AFFFFFF, 0x4B000000, 0x4AFFFFFE, 0x4B000000, 0x4AFFFFFF),  # 8388607.5: 8388608, 8388607, 8388608
    (0xCAFFFFFF, 0xCB000000, 0xCB000000, 0xCAFFFFFE, 0x4AFFFFFF),
    (0x4AFFFFFD, 0x4AFFFFFE, 0x4AFFFFFC, 0x4AFFFFFE, 0x4AFFFFFD),  # 8388606.5: 8388607, 8388606, 8388607
    (0x4A7FFFFF, 0x4A800000, 0x4A7FFFFC, 0x4A800000, 0x4A7FFFFF),  # 4194303.75: 4194304, 4194303, 4194304
    (0x4B000001, 0x4B000001, 0x4B000001, 0x4B000001, 0x4B000001),  # 8388609
    (0xCB7FFFFF, 0xCB7FFFFF, 0xCB7FFFFF, 0xCB7FFFFF, 0x4B7FFFFF),
    (0x7F7FFFFF, 0x7F7FFFFF, 0x7F7FFFFF, 0x7F7FFFFF, 0x7F7FFFFF),
    (0xCF000001, 0xCF000001, 0xCF000001, 0xCF000001, 0x4F000001),  # below -2147483648
    (0x00000000, 0x00000000, 0x00000000, 0x00000000, 0x00000000),
    (0x80000000, 0x80000000, 0x80000000, 0x80000000, 0x00000000),
    (0x00000001, 0x00000000, 0x00000000, 0x3F800000, 0x00000001),  # the least subnormal: 0, 0, 1
    (0x807FFFFF, 0x80000000, 0xBF800000, 0x80000000, 0x007FFFFF),
    (0x7F800000, 0x7F800000, 0x7F800000, 0x7F800000, 0x7F800000),
    (0xFF800000, 0xFF800000, 0xFF800000, 0xFF800000, 0x7F800000),
    (0x7F800001, 0x7FC00000, 0x7FC00000, 0x7FC00000, 0x7FC00000),
    (0xFFC12345, 0x7FC00000, 0x7FC00000, 0x7FC00000, 0x7FC00000),
    (0xFFFFFFFF, 0x7FC00000, 0x7FC00000, 0x7FC00000, 0x7FC00000),
]
ROUNDED_BUILTINS = (36, 37, 38, 43)


class Rounding(unittest.TestCase):
    """R-1: builtins 36 rint, 37 floor, 38 ceil and 43 fabs are done by the machine."""

    def machine(self, number, argument=0, definitions=(), operand=28):
        """Statement 0 is a Call of function 1, the builtin."""
        functions = [function(-number, arguments=-1), function(0)]
        cells = {28: 1, 4: argument, 1: 0x11, 2: 0x12, 3: 0x13}
        return loaded(("Call1", operand), functions=functions, cells=cells, definitions=definitions)

    def test_values(self):
        for argument, *results in ROUNDED:
            for number, expected in zip(ROUNDED_BUILTINS, results):
                with self.subTest(number=number, argument=hex(argument)):
                    machine = self.machine(number, argument)
                    before = everything(machine)
                    self.assertEqual(machine.statement(), ACCEPTED)
                    self.assertEqual(hex(machine.cells[1]), hex(expected))
                    machine.cells[1] = 0x11
                    machine.state = replace(machine.state, position=0)  # it was 1 further
                    self.assertEqual(everything(machine), before)

    def test_the_run_goes_on(self):
        statements = [("StoreF", 29, 4), ("Call3", 28), ("AddF", 1, 29, 30), ("Return", 30)]
        machine = loaded(*statements, functions=[function(-36, arguments=-1), function(0)], cells={28: 1, 29: 0x3FC00000})
        machine.enter(2)
        self.assertEqual(machine.run(0, 2), Answer("spent", 0, 2))
        self.assertEqual((machine.state.position, machine.cells[1]), (2, TWO))
        self.assertEqual(machine.run(0, 9), Answer("ended", 0, 2))
        self.assertEqual(machine.cells[1], 0x40600000)  # 2 + 1.5

    def test_every_call(self):
        for count in range(9):
            machine = loaded((f"Call{count}", 28), functions=[function(-37)], cells={28: 1, 4: 0xBFC00000})
            self.assertEqual(machine.statement(), ACCEPTED)
            self.assertEqual(machine.cells[1], 0xC0000000)

    def test_types(self):
        for definitions, answer in (
            ([(FLOAT, 4), (VECTOR, 1)], ACCEPTED),
            ([(VECTOR, 4), (FLOAT | SAVE_FLAG, 1)], ACCEPTED),
            ([(STRING, 4)], refused(16)),
            ([(STRING, 1)], refused(16)),
            ([(VOID, 4), (FLOAT, 4)], ACCEPTED),
            ([(VOID, 4), (STRING, 4)], refused(16)),
            ([(ENTITY, 1), (FLOAT, 1)], refused(16)),
            ([(STRING, 5), (STRING, 2), (STRING, 3)], ACCEPTED),
        ):
            machine = self.machine(43, SIGN, definitions)
            before = everything(machine)
            self.assertEqual(machine.statement(), answer)
            if answer != ACCEPTED:
                self.assertEqual(machine.carry_on(), refused(27))
                self.assertEqual(everything(machine), before)

    def test_the_call_is_checked_first(self):
        definitions = [(STRING, 4), (STRING, 1), (FLOAT, 29)]
        self.assertEqual(self.machine(36, definitions=definitions, operand=64).statement(), refused(15))
        self.assertEqual(self.machine(36, definitions=definitions, operand=29).statement(), refused(16))
        machine = self.machine(36, definitions=definitions)
        for value, refusal in ((0, 19), (3, 20), (1, 16)):
            machine.write(28, value)
            self.assertEqual(machine.statement(), refused(refusal))
            self.assertEqual(machine.carry_on(), refused(27))
        machine.file[machine.assembly.place(FUNCTIONS, 1)] = 256 - 39
        self.assertEqual(machine.statement(), refused(5))

    def test_not_handed_over_any_more(self):
        for number in sorted(BUILTINS):
            machine = self.machine(number)
            over = number not in ROUNDED_BUILTINS
            self.assertEqual(machine.carry_on(), ACCEPTED if over else refused(27))
            machine.state = replace(machine.state, position=0)
            self.assertEqual(machine.statement(), Answer("builtin", number) if over else ACCEPTED)

    def test_host_entry(self):
        for number in ROUNDED_BUILTINS:
            machine = loaded(functions=[function(-number, arguments=-1), function(-number), function(-number, 63, 2)])
            for entered, refusal in ((1, 24), (2, 21), (3, 15)):
                self.assertEqual(machine.enter(entered), refused(refusal))

    def test_depth_31(self):
        machine = self.machine(37, 0x3F000000)
        for _ in range(31):
            self.assertEqual(machine.enter(2), ACCEPTED)
        self.assertEqual(machine.statement(), ACCEPTED)
        self.assertEqual((machine.state.position, machine.state.depth, machine.cells[1]), (1, 31, 0))


C_SOURCE = r"""
#include <math.h>
#include <stdint.h>
#include <stdio.h>
#include <string.h>

static float of(uint32_t b) { float f; memcpy(&f, &b, 4); return f; }
static uint32_t to(volatile float f) { uint32_t b; float g = f; memcpy(&b, &g, 4); return f != f ? 0x7fc00000u : b; }
static int32_t whole(float f) {
    if (f != f) return 0;
    if (f >= 2147483648.0f) return INT32_MAX;
    if (f < -2147483648.0f) return INT32_MIN;
    return (int32_t)f;
}

int main(void) {
    unsigned a, b;
    while (scanf("%x %x", &a, &b) == 2) {
        float x = of(a), y = of(b);
        printf("%x %x %x %x %d%d%d %x %x %x %x %x %x\n", to(x + y), to(x - y), to(x * y), to(x / y), x == y, x < y,
               x <= y, to((float)(whole(x) & whole(y))), to((float)(whole(x) | whole(y))), to(roundf(x)), to(floorf(x)),
               to(ceilf(x)), to(fabsf(x)));
    }
    return 0;
}
"""


def chance_pairs(count):
    """Pairs of patterns: any, of near exponents, small, whole, about halves, and the special ones."""
    chance = Xorshift(123456789)
    special = [0, SIGN, 1, 0x007FFFFF, 0x00800000, 0x7F7FFFFF, INFINITY, QUIET_NAN, 0x7F800001, ONE, 0x3F7FFFFF]
    for index in range(count):
        x, y = chance.draw(), chance.draw()
        kind = index % 7
        if kind == 1:
            y = (y & 0x807FFFFF) | (((x >> 23) + chance.below(60) - 30) % 256) << 23
        elif kind == 2:  # exponents that add up to about the subnormal range
            y = (y & 0x807FFFFF) | ((127 - ((x >> 23) & 0xFF) - chance.below(30)) % 256) << 23
        elif kind == 3:  # quotients in the subnormal range
            y = (y & 0x807FFFFF) | ((((x >> 23) & 0xFF) + 120 + chance.below(35)) % 256) << 23
        elif kind == 4:  # whole numbers about 2**31
            x, y = ((z & 0x807FFFFF) | (127 + chance.below(33)) << 23 for z in (x, y))
        elif kind == 5:
            x = chance.pick(special) | (x & SIGN)
            y = chance.pick(special) | (y & SIGN) if chance.below(2) else y
        elif kind == 6:  # one step, or none, from a multiple of a half below 2**24
            halves = chance.draw() >> 7 + chance.below(24)
            half = struct.unpack("<I", struct.pack("<f", halves / 2.0))[0]
            x = (max(half, 1) + chance.below(3) - 1) | (x & SIGN)
        yield x, y


class AgainstC(unittest.TestCase):
    def test_arithmetic(self):
        if not shutil.which("gcc"):
            self.skipTest("no gcc")
        pairs = list(chance_pairs(30000))
        with tempfile.TemporaryDirectory() as folder:
            source, program = os.path.join(folder, "floats.c"), os.path.join(folder, "floats")
            with open(source, "w", encoding="ascii") as file:
                file.write(C_SOURCE)
            flags = ["-O0", "-fno-fast-math", "-ffp-contract=off"]
            subprocess.run(["gcc", *flags, "-o", program, source, "-lm"], check=True)
            text = "".join(f"{x:x} {y:x}\n" for x, y in pairs)
            ran = subprocess.run([program], input=text, capture_output=True, text=True, check=True)
            lines = ran.stdout.splitlines()
        self.assertEqual(len(lines), len(pairs))
        for (x, y), line in zip(pairs, lines):
            got = [model.float_add(x, y), model.float_sub(x, y), model.float_mul(x, y), model.float_div(x, y)]
            flags = f"{model.float_eq(x, y):d}{model.float_lt(x, y):d}{model.float_le(x, y):d}"
            bits = [model.FLOAT_STATEMENTS[name](x, y) for name in ("BitAnd", "BitOr")]
            bits += [model.INSIDE_BUILTINS[number](x) for number in ROUNDED_BUILTINS]
            mine = " ".join([*(f"{z:x}" for z in got), flags, *(f"{z:x}" for z in bits)])
            self.assertEqual(mine, line, f"{x:08x} {y:08x}")

    def test_against_struct(self):
        """Sums and products are exact in a double, or are rounded there harmlessly."""
        for x, y in chance_pairs(4000):
            f, g = (struct.unpack("<f", struct.pack("<I", z))[0] for z in (x, y))
            for mine, value in ((model.float_add(x, y), f + g), (model.float_mul(x, y), f * g)):
                try:
                    pattern = struct.unpack("<I", struct.pack("<f", value))[0]
                except OverflowError:
                    pattern = INFINITY | (SIGN if value < 0 else 0)
                expected = QUIET_NAN if value != value else pattern
                self.assertEqual(mine, expected, f"{x:08x} {y:08x}")


class Load(unittest.TestCase):
    def setUp(self):
        self.assembly = Assembly(
            [("Done",)], [function(), function(-7)], [(FLOAT, 28)], [(VECTOR, 3)], b"\0a\0", {28: ONE}
        )

    def load(self, cells=64, saved=2048, cut=None):
        machine = Machine(self.assembly.bytes()[:cut], [5] * cells, [6] * saved)
        answer = machine.load()
        if answer != ACCEPTED:
            self.assertEqual((machine.state, machine.cells), (State(), [5] * cells))
        self.assertEqual(machine.saved_store, [6] * saved)
        return answer

    def test_accepted(self):
        self.assertEqual(self.load(), ACCEPTED)

    def test_lent_cells_past_the_count_stay(self):
        machine = Machine(self.assembly.bytes(), [5] * 66, [6] * 2048)
        machine.load()
        self.assertEqual(machine.cells, [0] * 28 + [ONE] + [0] * 35 + [5, 5])

    def test_12(self):
        self.assertEqual(self.load(cells=63), refused(12))
        self.assertEqual(self.load(saved=2047), refused(12))

    def test_header(self):
        self.assertEqual(self.load(cut=59), refused(1))
        self.assertEqual(self.load(cut=-1), refused(4))
        self.assembly.check_number = 5928
        self.assertEqual(self.load(), refused(3))
        self.assembly.version = 5
        self.assertEqual(self.load(), refused(2))

    def test_an_empty_lump_may_be_anywhere_but_below_0(self):
        self.assembly.lumps[4:6] = 2**31 - 1, 0
        self.assertEqual(self.load(), ACCEPTED)
        self.assembly.lumps[4:6] = -1, 0
        self.assertEqual(self.load(), refused(4))

    def test_builtins(self):
        listed = "1-4 6-32 34-38 40-41 43-49 51-59 67-70 72-78"
        numbers = set()
        for piece in listed.split():
            low, high = map(int, piece.split("-"))
            numbers |= set(range(low, high + 1))
        self.assertEqual(BUILTINS, numbers)

    def test_cells(self):
        for count in (0, 35, 36, 50, 63):
            self.assembly = Assembly(cell_count=count, cells_per_entity=104)
            self.assertEqual(self.load(), refused(10))
        self.assembly = Assembly(cell_count=64, cells_per_entity=104)
        self.assertEqual(self.load(), refused(11))
        self.assembly = Assembly(cell_count=64)
        self.assertEqual(self.load(), ACCEPTED)


class Statements(unittest.TestCase):
    def answer(self, *statement, cells=None, definitions=()):
        machine = loaded(statement, cells=cells, definitions=definitions)
        before = everything(machine)
        answer = machine.statement()
        if answer != ACCEPTED:
            self.assertEqual(everything(machine), before)
        return answer

    def test_order_of_operand_checks(self):
        definitions = [(STRING, 29), (STRING, 64)]
        self.assertEqual(self.answer("AddF", 29, 64, -1, definitions=definitions), refused(16))
        self.assertEqual(self.answer("AddF", 65, 29, 28, definitions=definitions), refused(15))
        self.assertEqual(self.answer("AddF", 64, 29, 28, definitions=definitions), refused(16))
        self.assertEqual(self.answer("AddF", -1, 29, 28, definitions=[(STRING, 65535)]), refused(15))
        self.assertEqual(self.answer("StoreF", 29, 28, 1, definitions=definitions), refused(18))
        self.assertEqual(self.answer("NotF", 29, -1, 28, definitions=definitions), refused(18))
        self.assertEqual(self.answer("StoreS", 28, 30, cells={28: SIGN}, definitions=[(FLOAT, 30)]), refused(17))

    def test_strings(self):
        definitions = [(FLOAT, 28)]
        self.assertEqual(self.answer("EqS", 28, -1, 30, definitions=definitions), refused(15))
        self.assertEqual(self.answer("EqS", 28, 29, 30, definitions=definitions), refused(16))
        self.assertEqual(self.answer("EqS", 28, 28, 30, definitions=definitions), ACCEPTED)
        self.assertEqual(self.answer("EqS", 99, 99, 30), ACCEPTED)
        self.assertEqual(self.answer("NotS", 0, 0, 30, definitions=[(FLOAT, 0)]), refused(16))

    def test_store_v_untyped(self):
        definitions = [(STRING, 1), (ENTITY, 28), (STRING, 40)]
        for source, destination, answer in (
            (40, 1, ACCEPTED),
            (40, 27, ACCEPTED),
            (32, 27, ACCEPTED),
            (32, 28, refused(16)),
            (32, 0, refused(16)),
            (62, 1, refused(15)),
            (-1, 1, refused(15)),
        ):
            self.assertEqual(self.answer("StoreV", source, destination, definitions=definitions), answer)

    def test_vectors(self):
        self.assertEqual(self.answer("NotV", 61, 0, 63), ACCEPTED)
        self.assertEqual(self.answer("NotV", 62, 0, 63), refused(15))
        self.assertEqual(self.answer("AddV", 28, 31, 62), refused(15))
        self.assertEqual(self.answer("NotV", 28, 0, 30, definitions=[(STRING, 30)]), refused(16))
        machine = loaded(("AddV", 40, 41, 41), ("NotV", 50, 0, 51), cells=triple(40, map(flt, (1, 2, 3, 4))))
        machine.statement()
        machine.statement()
        self.assertEqual(machine.cells[40:45], [flt(1), flt(3), flt(5), flt(7), 0])
        self.assertEqual(machine.cells[50:54], [0, ONE, 0, 0])

    def test_negative_values(self):
        self.assertEqual(self.answer("StoreEnt", 28, 29, cells={28: SIGN}), refused(17))
        self.assertEqual(self.answer("StoreFld", 28, 29, cells={28: SIGN}), refused(17))
        self.assertEqual(self.answer("StoreFnc", 28, 29, cells={28: SIGN}), ACCEPTED)
        self.assertEqual(self.answer("EqEnt", 28, 29, 30, cells={29: SIGN}), refused(17))

    def test_handed_over(self):
        self.assertEqual(HOST_OPCODES, {60})
        self.assertEqual(self.answer("State", -1, -1, -1), Answer("opcode", 60))
        self.assertEqual(self.answer("LoadF", -1, -1, -1), refused(15))


class VoidMarkers(unittest.TestCase):
    """R-5."""

    FLAGGED = VOID | SAVE_FLAG

    def answers(self, definitions):
        """NotF, NotS and NotEnt of cell 28: as a float, a string, an entity."""
        found = []
        for name in ("NotF", "NotS", "NotEnt"):
            machine = loaded((name, 28, 0, 30), definitions=definitions)
            before = everything(machine)
            found.append(machine.statement())
            if found[-1] != ACCEPTED:
                self.assertEqual(everything(machine), before)
        return [answer.detail for answer in found]

    def test_reads(self):
        for definitions, expected in (
            ([(VOID, 28)], [0, 0, 0]),
            ([(self.FLAGGED, 28)], [0, 0, 0]),
            ([(VOID, 28), (VOID, 28), (self.FLAGGED, 28)], [0, 0, 0]),
            ([(VOID, 28), (FLOAT, 28)], [0, 16, 16]),
            ([(self.FLAGGED, 28), (FLOAT, 28)], [0, 16, 16]),
            ([(VOID, 28), (self.FLAGGED, 28), (VOID, 28), (STRING, 28)], [16, 0, 16]),
            ([(VOID, 28), (ENTITY, 28), (FLOAT, 28)], [16, 16, 0]),
            ([(ENTITY, 28), (VOID, 28), (FLOAT, 28)], [16, 16, 0]),
            ([(STRING, 28), (VOID, 28)], [16, 0, 16]),
            ([(VOID, 27), (STRING, 28)], [16, 0, 16]),
            ([(VOID, 28), (FLOAT, 29), (VECTOR | SAVE_FLAG, 28)], [0, 16, 16]),
            ([(VOID, 28), (FLOAT, 29)], [0, 0, 0]),
            ([(VOID, 28), (POINTER, 28)], [16, 16, 16]),
        ):
            self.assertEqual(self.answers(definitions), expected, definitions)

    def test_writes_and_vectors(self):
        definitions = [(VOID, 28), (STRING, 28), (VOID, 40), (VECTOR, 40), (VOID, 41), (FLOAT, 41), (VOID, 42), (VOID, 43), (STRING, 44)]
        for statement, answer in (
            (("StoreF", 30, 28), refused(16)),
            (("StoreS", 30, 28), ACCEPTED),
            (("AddF", 30, 31, 43), ACCEPTED),
            (("AddF", 30, 31, 28), refused(16)),
            (("NotV", 40, 0, 30), ACCEPTED),
            (("NotV", 41, 0, 30), ACCEPTED),
            (("NotV", 42, 0, 30), refused(16)),
            (("AddV", 31, 31, 40), ACCEPTED),
            (("AddV", 31, 31, 26), refused(16)),
            (("StoreV", 40, 31), ACCEPTED),
            (("StoreV", 31, 42), refused(16)),
        ):
            self.assertEqual(loaded(statement, definitions=definitions).statement(), answer, statement)

    def test_type_before_address(self):
        definitions = [(VOID, 64), (VOID, 65), (STRING, 65)]
        for operand, number in ((64, 15), (65, 16), (66, 15)):
            self.assertEqual(loaded(("NotF", operand, 0, 30), definitions=definitions).statement(), refused(number))

    def test_bytes_as_they_are_now(self):
        """A type with another bit than the save flag's is no void, though its lower byte is 0."""
        machine = loaded(("NotF", 28, 0, 30), definitions=[(VOID, 28), (STRING, 28)])
        place = machine.assembly.place(1, 1)
        for low, high, answer in ((STRING, 0, refused(16)), (0, 0x40, refused(16)), (8, 0, refused(16)), (0, 0x80, ACCEPTED)):
            machine.file[place : place + 2] = bytes([low, high])
            self.assertEqual(machine.statement(), answer)

    def test_the_load_is_as_before(self):
        for type_, answer in ((VOID, ACCEPTED), (self.FLAGGED, ACCEPTED), (8, refused(8))):
            file = Assembly(functions=[function()], definitions=[(type_, 28)]).bytes()
            self.assertEqual(Machine(file, [0] * 64, [0] * 2048).load(), answer)
        file = Assembly(functions=[function()], definitions=[(VOID, 28, 1)]).bytes()
        self.assertEqual(Machine(file, [0] * 64, [0] * 2048).load(), refused(6))

    def test_a_marked_file_runs(self):
        """01's example with a void definition before each that counts."""
        definitions = [(VOID, 28), (self.FLAGGED, 29), (VOID, 30), (FLOAT, 28), (FLOAT, 29), (FLOAT, 30)]
        statements = [("Done",), ("AddF", 28, 29, 30), ("Return", 30)]
        cells = {28: 0x3FC00000, 29: 0x40100000}
        file = Assembly(statements, [function(), function(1, 30, 1)], definitions=definitions, cells=cells).bytes()
        self.assertEqual(show(file), "ended,0,2,0,0,0,0,40700000,00000000,00000000")


class Texts(unittest.TestCase):
    """R-4.  Of the strings below, 1 and 5 are "red", 9 is "redder", 12 is "der", 16 is "der" too, 20 is empty,
    21 is e9, 23 is 69, 25 is "red" up to the end; 28 is no number any more."""

    STRINGS = b"\0red\0red\0redder\0der\0\0\xe9\0\x69\0red"

    def run_one(self, *statement, cells, strings=STRINGS, **parts):
        """What cell 30 holds after the statement, or the refusal."""
        machine = loaded(statement, cells={30: 7, **cells}, strings=strings, **parts)
        before = everything(machine)
        answer = machine.statement()
        if answer == ACCEPTED:
            return machine.cells[30]
        self.assertEqual(everything(machine), before)
        return answer

    def test_the_strings(self):
        self.assertEqual(len(self.STRINGS), 28)
        self.assertEqual([self.STRINGS[n] for n in (1, 5, 9, 12, 16, 20, 21, 23, 25)], list(b"rrrdd\0\xe9\x69r"))

    def test_letters(self):
        for x, y, same in (
            (1, 5, True), (1, 1, True), (12, 16, True), (2, 26, True), (1, 25, True), (27, 3, True),
            (0, 20, True), (4, 0, True), (8, 15, True),
            (1, 9, False), (9, 1, False), (25, 9, False), (1, 16, False), (21, 23, False), (1, 0, False), (0, 27, False), (2, 1, False),
        ):
            cells = {28: x, 29: y}
            self.assertEqual(self.run_one("EqS", 28, 29, 30, cells=cells), ONE if same else 0, (x, y))
            self.assertEqual(self.run_one("NeS", 28, 29, 30, cells=cells), 0 if same else ONE, (x, y))

    def test_the_end_is_a_zero_byte(self):
        """Whatever stands after the strings: the statement EqS, 12 0 28 0 .., or nothing."""
        for layout in ((4, 0, 1, 2, 3, 5), (0, 1, 2, 3, 5, 4)):
            for strings, same in ((b"\0ab\0ab", ONE), (b"\0ab\x0c\0ab", 0), (b"\0abc\0ab", 0), (b"\0a\0\0ab", 0)):
                cells = {28: 1, 29: len(strings) - 2}
                self.assertEqual(self.run_one("EqS", 28, 29, 30, cells=cells, strings=strings, layout=layout), same)

    def test_not(self):
        for number, result in ((0, ONE), (1, 0), (4, ONE), (20, ONE), (21, 0), (27, 0), (28, refused(33)), (SIGN, refused(33))):
            self.assertEqual(self.run_one("NotS", 28, 0, 30, cells={28: number}), result)
            result = ONE if number < 28 else refused(33)
            self.assertEqual(self.run_one("NotS", 0, 0, 30, cells={0: number}), result)
        # number 0, its text not empty
        self.assertEqual(self.run_one("NotS", 28, 0, 30, cells={28: 0}, strings=b"red"), ONE)
        self.assertEqual(self.run_one("EqS", 28, 29, 30, cells={28: 0, 29: 0}, strings=b"red"), ONE)
        self.assertEqual(self.run_one("NeS", 28, 29, 30, cells={28: 0, 29: 1}, strings=b"red"), ONE)

    def test_numbers_that_are_not_there(self):
        for number in (28, 29, 1000, 0x7FFFFFFF, SIGN, 0xFFFFFFFF):
            for name in ("EqS", "NeS"):
                for cells in ({28: number, 29: 1}, {28: 1, 29: number}, {28: number, 29: number}):
                    self.assertEqual(self.run_one(name, 28, 29, 30, cells=cells), refused(33))
                unread = ONE if name == "EqS" else 0
                self.assertEqual(self.run_one(name, 28, 28, 30, cells={28: number}), unread)

    def test_order(self):
        """16 by cell 31, a float; 15 by cell 64; 33 by cell 28, whose number is 28."""
        definitions = [(FLOAT, 31)]
        for statement, number in (
            (("EqS", 28, 31, -1), 33), (("EqS", 28, 64, -1), 33), (("EqS", 28, 29, -1), 33), (("EqS", 28, -1, 30), 15),
            (("NeS", 31, 28, -1), 16), (("NeS", 64, 28, -1), 15), (("NeS", -1, 28, 30), 15),
            (("EqS", 29, 31, -1), 16), (("EqS", 29, 64, -1), 15), (("EqS", 29, 28, -1), 33), (("EqS", 29, 32, -1), 15),
            (("EqS", 28, 28, -1), 15), (("NotS", 28, 1, -1), 18), (("NotS", -1, 0, 30), 15), (("NotS", 31, 0, -1), 16),
            (("NotS", 64, 0, -1), 15), (("NotS", 28, 0, -1), 33), (("NotS", 29, 0, -1), 15),
        ):
            answer = self.run_one(*statement, cells={28: 28, 29: 1, 32: 1}, definitions=definitions)
            self.assertEqual(answer, refused(number), statement)

    def test_no_strings(self):
        for cells in ({}, {28: 1}, {0: 5}):
            for statement in (("EqS", 28, 29, 30), ("NeS", 28, 29, 30), ("NotS", 28, 0, 30), ("NotS", 0, 0, 30)):
                machine = Machine(Assembly([statement], strings=b"", cells=cells).bytes(), [0] * 64, [0] * 2048)
                self.assertEqual(machine.load(), ACCEPTED)
                self.assertEqual(machine.statement(), refused(33))
        machine = Machine(Assembly([("EqS", 28, 28, 30)], strings=b"").bytes(), [0] * 64, [0] * 2048)
        machine.load()
        self.assertEqual((machine.statement(), machine.cells[30]), (ACCEPTED, ONE))

    def test_store_is_as_before(self):
        self.assertEqual(self.run_one("StoreS", 28, 30, cells={28: 28}), 28)
        self.assertEqual(self.run_one("StoreS", 28, 30, cells={28: SIGN}), refused(17))

    def test_bytes_as_they_are_now(self):
        machine = loaded(*[("EqS", 28, 29, 30)] * 3, cells={28: 1, 29: 3}, strings=b"\0a\0b\0")
        place, results = machine.assembly.place(4, 3), []
        for byte in (ord("b"), ord("a"), 0):
            machine.file[place] = byte
            machine.statement()
            results.append(machine.cells[30])
        self.assertEqual(results, [0, ONE, 0])


FIELD_KINDS = (("F", FLOAT), ("V", VECTOR), ("S", STRING), ("Ent", ENTITY), ("Fld", FIELD), ("Fnc", FUNCTION))


class Sparse:
    """So many lent entity cells, all zeros, without holding them."""

    def __init__(self, length):
        self.length, self.written = length, {}

    def __len__(self):
        return self.length

    def __getitem__(self, index):
        assert 0 <= index < self.length
        return self.written.get(index, 0)

    def __setitem__(self, index, value):
        assert 0 <= index < self.length
        self.written[index] = value


class EntityFields(unittest.TestCase):
    """R-3.  Entity e's field f is lent entity cell 105 e + f."""

    def machine(self, *statement, cells=None, entities=3, lent=None, **parts):
        lent = 105 * entities if lent is None else lent
        return loaded(statement, cells=cells, entities=entities, entity_cells=[1000 + i for i in range(lent)], **parts)

    def answer(self, *statement, **given):
        machine = self.machine(*statement, **given)
        before = everything(machine)
        answer = machine.statement()
        if answer != ACCEPTED:
            self.assertEqual(everything(machine), before)
        return answer

    def test_loads(self):
        for kind, type_ in FIELD_KINDS:
            machine = self.machine(f"Load{kind}", 28, 29, 30, cells={28: 2, 29: 7, 33: 9}, fields=[(type_, 7)])
            self.assertEqual(machine.statement(), ACCEPTED)
            three = [1217, 1218, 1219, 9] if kind == "V" else [1217, 0, 0, 9]
            self.assertEqual(machine.cells[30:34], three)
            self.assertEqual(machine.entity_cells, [1000 + i for i in range(315)])
            self.assertEqual(machine.state.position, 1)

    def test_address(self):
        for entity, field, pointer in ((0, 0, 0), (0, 104, 416), (1, 0, 420), (2, 104, 1256)):
            machine = self.machine("Address", 28, 29, 30, cells={28: entity, 29: field}, definitions=[(POINTER, 30)])
            self.assertEqual(machine.statement(), ACCEPTED)
            self.assertEqual(machine.cells[30], pointer)

    def test_stores(self):
        for kind, type_ in FIELD_KINDS:
            machine = self.machine(f"StoreP{kind}", 28, 31, cells={28: 5, 29: 6, 30: 7, 31: 864}, fields=[(type_, 6)])
            self.assertEqual(machine.statement(), ACCEPTED)
            expected = [1000 + i for i in range(315)]
            expected[216 : 219 if kind == "V" else 217] = [5, 6, 7] if kind == "V" else [5]
            self.assertEqual(machine.entity_cells, expected)
            self.assertEqual(machine.cells[28:32], [5, 6, 7, 864])

    def test_entity_and_field_numbers(self):
        for entity, field, refusal in ((2, 104, 0), (3, 0, 30), (3, 105, 30), (2, 105, 31), (0, 105, 31), (2**31 - 1, 2**31 - 1, 30)):
            for name in ("LoadF", "LoadFnc", "Address"):
                answer = self.answer(name, 28, 29, 30, cells={28: entity, 29: field}, lent=500)
                self.assertEqual(answer, refused(refusal) if refusal else ACCEPTED)
        for name in ("LoadF", "LoadV", "LoadS", "LoadEnt", "LoadFld", "LoadFnc", "Address"):
            self.assertEqual(self.answer(name, 28, 29, 30, cells={28: SIGN, 29: 2**31}), refused(17))
            self.assertEqual(self.answer(name, 28, 29, 30, cells={28: 3, 29: SIGN}), refused(17))
            self.assertEqual(self.answer(name, 28, 29, 30, entities=0), refused(30))

    def test_pointers(self):
        for pointer, refusal in ((1256, 0), (1260, 32), (2**31 - 4, 32), (2, 32), (1255, 32), (2**32 - 4, 32), (2**31, 32)):
            answer = self.answer("StorePF", 28, 29, cells={29: pointer}, lent=500)
            self.assertEqual(answer, refused(refusal) if refusal else ACCEPTED)
        self.assertEqual(self.answer("StorePF", 28, 29, entities=0, lent=500), refused(32))

    def test_a_vector_stays_within_its_entity(self):
        for entity in (0, 1, 2):
            for field, answer in ((102, ACCEPTED), (103, refused(31)), (104, refused(31))):
                self.assertEqual(self.answer("LoadV", 28, 29, 30, cells={28: entity, 29: field}, lent=320), answer)
                cells = {28: 5, 29: 6, 30: 7, 31: 4 * (105 * entity + field)}
                self.assertEqual(self.answer("StorePV", 28, 31, cells=cells, lent=320), answer)

    def test_greatest_pointer(self):
        """Of 2**28 cells per entity: entity 1's last field is at 2**31 - 4, entity 2's first would be at 2**31."""
        for entity, field, answer in ((1, 2**28 - 1, ACCEPTED), (2, 0, refused(32)), (2, 2**28, refused(31)), (3, 0, refused(30))):
            cells = {28: entity, 29: field}
            machine = loaded(
                ("Address", 28, 29, 30), ("StorePF", 31, 30), cells=cells, entities=3, entity_cells=Sparse(3 * 2**28),
                cells_per_entity=2**28,
            )
            self.assertEqual(machine.statement(), answer)
            if answer == ACCEPTED:
                self.assertEqual(machine.cells[30], 2**31 - 4)
                machine.write(31, 7)
                self.assertEqual(machine.statement(), ACCEPTED)
                self.assertEqual(machine.entity_cells.written, {2**29 - 1: 7})

    def test_field_definitions(self):
        for fields, answer in (
            ([], ACCEPTED),
            ([(FLOAT, 7)], ACCEPTED),
            ([(VECTOR, 7)], ACCEPTED),
            ([(STRING, 7)], refused(16)),
            ([(VOID, 7)], ACCEPTED),
            ([(VOID, 7), (STRING, 7)], refused(16)),
            ([(VOID, 7), (FLOAT, 7), (STRING, 7)], ACCEPTED),
            ([(STRING, 7), (FLOAT, 7)], refused(16)),
            ([(STRING, 6), (STRING, 8)], ACCEPTED),
        ):
            self.assertEqual(self.answer("LoadF", 28, 29, 30, cells={29: 7}, fields=fields), answer)
            self.assertEqual(self.answer("StorePF", 28, 29, cells={29: 28}, fields=fields), answer)
            self.assertEqual(self.answer("Address", 28, 29, 30, cells={29: 7}, fields=fields), ACCEPTED)
        # 65,543 is no other cell's number; a vector has three
        self.assertEqual(self.answer("LoadF", 28, 29, 30, cells={29: 65536 + 7}, fields=[(STRING, 7)]), refused(31))
        self.assertEqual(self.answer("LoadF", 28, 29, 30, cells={29: 105}, fields=[(STRING, 105)]), refused(16))
        for cell in (7, 8, 9, 10):
            answer = ACCEPTED if cell == 10 else refused(16)
            self.assertEqual(self.answer("LoadV", 28, 29, 30, cells={29: 7}, fields=[(STRING, cell)]), answer)
        self.assertEqual(self.answer("LoadV", 28, 29, 30, cells={29: 104}, fields=[(STRING, 105)]), refused(16))
        self.assertEqual(self.answer("LoadV", 28, 29, 30, cells={29: 104}, fields=[(STRING, 106)]), refused(31))

    def test_negative_values_moved(self):
        for kind, answer in (("F", ACCEPTED), ("S", refused(17)), ("Ent", refused(17)), ("Fld", refused(17)), ("Fnc", ACCEPTED)):
            machine = self.machine(f"Load{kind}", 28, 29, 30, cells={29: 7})
            machine.entity_cells[7] = 0xFFC12345
            self.assertEqual(machine.statement(), answer)
            self.assertEqual(machine.cells[30], 0xFFC12345 if answer == ACCEPTED else 0)
            cells = {28: 0xFFC12345, 29: 28}
            self.assertEqual(self.answer(f"StoreP{kind}", 28, 29, cells=cells), answer)
        # an entity is refused at its own access, a string after everything else
        definitions, fields = [(FLOAT, 30)], [(FLOAT, 7)]
        for kind, pointer_cell, refusals in (("Ent", 30, 17), ("S", 30, 16), ("Fld", 29, 17), ("S", 29, 16)):
            given = dict(cells={28: SIGN, 29: 28}, definitions=definitions, fields=fields)
            self.assertEqual(self.answer(f"StoreP{kind}", 28, pointer_cell, **given), refused(refusals))
        self.assertEqual(self.answer("StorePS", 28, 29, cells={28: SIGN, 29: 2}), refused(32))

    def test_order(self):
        definitions, fields = [(STRING, 40), (STRING, 64)], [(STRING, 7)]
        good = {28: 3, 29: 7, 31: 2}
        for statement, refusal in (
            (("LoadF", 40, -1, -1), 16),
            (("LoadF", 64, -1, -1), 16),
            (("LoadF", 28, -1, 40), 15),
            (("LoadF", 28, 29, 40), 16),
            (("LoadF", 28, 29, 65), 15),
            (("LoadV", 28, 29, 63), 16),
            (("LoadF", 28, 29, 30), 30),
            (("Address", 28, 29, 40), 16),
            (("Address", 28, 29, -1), 15),
            (("StorePF", 40, 31, 1), 18),
            (("StorePF", -1, 40, 0), 15),
            (("StorePF", 28, 40, 0), 16),
            (("StorePF", 28, 31, 0), 32),
        ):
            answer = self.answer(*statement, cells=good, definitions=definitions, fields=fields)
            self.assertEqual(answer, refused(refusal), statement)

    def test_load(self):
        assembly = Assembly([("Done",)])
        for entities, lent, answer in (
            *((0, 0, ACCEPTED), (1, 105, ACCEPTED), (1, 104, refused(13)), (2, 400, ACCEPTED), (-1, 400, refused(13))),
            *((600, 63000, ACCEPTED), (600, 62999, refused(13)), (601, 70000, refused(13))),
        ):
            machine = Machine(assembly.bytes(), [5] * 64, [6] * 2048, [7] * lent)
            self.assertEqual(machine.load(entities), answer)
            self.assertEqual(machine.entity_cells, [7] * lent)
            self.assertEqual(machine.state.entities, entities if answer == ACCEPTED else 0)
        machine = Machine(assembly.bytes(), [5] * 63, [6] * 2048, [])
        self.assertEqual(machine.load(601), refused(12))

    def test_check_13(self):
        machine = self.machine("Done", entities=2, lent=215)
        good = machine.state
        for entities, answer in ((0, ACCEPTED), (2, ACCEPTED), (3, refused(13)), (601, refused(13))):
            machine.state = replace(good, entities=entities)
            self.assertEqual(machine.read(1), answer)
        machine.state = good
        machine.entity_cells = [7] * 209
        for answer in (machine.run(0, 0), machine.abandon(-1), machine.read(-1), machine.enter(-1), machine.carry_on()):
            self.assertEqual(answer, refused(13))
        machine.entity_cells = [7] * 210
        self.assertEqual(machine.read(1), ACCEPTED)

    def test_runs_keep_what_was_written(self):
        statements = [("StorePF", 28, 40), ("Call0", 41), ("Return", 0), ("StorePF", 28, 42), ("StorePF", 28, 43)]
        functions = [function(0, 40, 1), function(3, 42, 1)]
        cells = {28: 9, 40: 4, 41: 2, 42: 8, 43: 105 * 4}
        machine = loaded(*statements, functions=functions, cells=cells, entities=1, entity_cells=[0] * 105)
        machine.enter(1)
        self.assertEqual(machine.run(0, 9), refused(32, 3))
        self.assertEqual(machine.entity_cells[:4], [0, 9, 9, 0])
        machine.write(42, 1)
        self.assertEqual(machine.abandon(0), ACCEPTED)
        self.assertEqual((machine.cells[40], machine.cells[42]), (4, 8))
        self.assertEqual(machine.entity_cells[:4], [0, 9, 9, 0])
        self.assertEqual(machine.load(1), ACCEPTED)
        self.assertEqual(machine.entity_cells[:4], [0, 9, 9, 0])

    def test_not_handed_over(self):
        for opcode in (*range(24, 31), *range(37, 43)):
            machine = self.machine(opcode, 28, 29, 30 if opcode <= 30 else 0)
            self.assertEqual(machine.carry_on(), refused(27))


class CallMachine(unittest.TestCase):
    def test_entry_and_return(self):
        functions = [function(1, 40, 2, (1,)), function(3, 41, 1)]
        cells = {4: 104, 36: 2, 40: 140, 41: 141, 42: 142}
        machine = loaded(("Done",), ("Call0", 36), ("Return", 40), ("Return", 40), functions=functions, cells=cells)
        machine.enter(1)
        self.assertEqual(machine.state.frames[0], Frame(0, 0))
        self.assertEqual((machine.state.position, machine.state.saved), (1, 2))
        self.assertEqual(machine.cells[40:43], [104, 141, 142])
        machine.statement()
        self.assertEqual(machine.state.frames[1], Frame(2, 1))
        self.assertEqual((machine.state.position, machine.state.function, machine.state.saved), (3, 2, 3))
        machine.write(41, 7)
        machine.statement()
        self.assertEqual(machine.cells[1:4], [104, 7, 142])
        self.assertEqual(machine.cells[40:43], [104, 141, 142])
        self.assertEqual((machine.state.position, machine.state.function, machine.state.depth), (2, 1, 1))
        self.assertEqual(machine.state.frames[1], Frame(0, 0))
        self.assertEqual(machine.saved_store[:4], [140, 141, 141, 0])
        machine.statement()
        self.assertEqual(machine.state, replace(machine.state, position=0, function=0, depth=0, saved=0))
        self.assertEqual(machine.cells[40:43], [140, 141, 142])

    def test_arguments_one_at_a_time(self):
        machine = loaded(functions=[function(0, 5, 0, (3,))], cells=triple(0, range(100, 110)))
        machine.enter(1)
        self.assertEqual(machine.cells[4:9], [104, 104, 104, 104, 108])

    def test_refused_entries(self):
        functions = [
            function(0, 0, -1),
            function(0, 63, 2),
            function(0, 0, 0, arguments=9),
            function(0, 63, 1, (1, 1)),
            function(-7, arguments=-1),
            function(-7),
        ]
        machine = loaded(functions=functions)
        before = everything(machine)
        for number, refusal in ((-1, 20), (7, 20), (1, 23), (2, 15), (3, 24), (4, 15), (5, 24), (6, 21)):
            self.assertEqual(machine.enter(number), refused(refusal))
            self.assertEqual(everything(machine), before)

    def test_calls(self):
        functions = [function(), function(-7, arguments=-1)]
        machine = loaded(*[("Call0", 28)] * 5, functions=functions)
        for value, answer in ((0, refused(19)), (3, refused(20)), (0xFFFFFFFF, refused(20)), (2, Answer("builtin", 7))):
            machine.write(28, value)
            self.assertEqual(machine.statement(), answer)
        machine.file[machine.assembly.place(FUNCTIONS, 2)] = 0xFB  # -5
        self.assertEqual(machine.statement(), refused(5))
        self.assertEqual(machine.carry_on(), refused(27))
        self.assertEqual(machine.enter(2), refused(24))

    def test_return_refusals(self):
        machine = loaded(("Return", 62), ("Return", 0))
        self.assertEqual(machine.statement(), refused(15))
        machine.state = replace(machine.state, position=1, function=77)
        self.assertEqual(machine.statement(), refused(25))

    def test_runs(self):
        machine = loaded(("Goto", 0), ("Return", 0), functions=[function(0), function(1)])
        self.assertEqual(machine.run(0, 0), refused(28))
        self.assertEqual(machine.run(0, 1), refused(29))
        machine.enter(1)
        self.assertEqual(machine.run(0, 99_999), Answer("spent", 0, 99_999))
        self.assertEqual(machine.run(0, 100_000), refused(28))
        self.assertEqual(machine.run(1, 5), refused(29))
        machine.enter(2)
        self.assertEqual(machine.run(1, 1), Answer("ended", 0, 1))

    def test_carry_on(self):
        machine = loaded(("State",), ("Call0", 28), ("AddF",), functions=[function(-7)], cells={28: 1})
        self.assertEqual(machine.carry_on(), ACCEPTED)
        self.assertEqual(machine.carry_on(), ACCEPTED)
        self.assertEqual(machine.carry_on(), refused(27))
        machine.file[machine.assembly.place(STATEMENTS, 2)] = 66
        self.assertEqual(machine.carry_on(), refused(7))
        machine.state = replace(machine.state, position=3)
        self.assertEqual(machine.carry_on(), refused(14))

    def test_abandon(self):
        functions = [function(0, 40, 2), function(0, 41, 2)]
        machine = loaded(functions=functions, cells={40: 140, 41: 141, 42: 142})
        machine.enter(1)
        machine.write(41, 1)
        machine.enter(2)
        machine.write(41, 2)
        machine.write(42, 3)
        machine.enter(1)
        self.assertEqual(machine.abandon(4), refused(29))
        self.assertEqual(machine.abandon(-1), refused(29))
        place = machine.assembly.place(FUNCTIONS, 2) + 4
        machine.file[place] = 63
        before = everything(machine)
        self.assertEqual(machine.abandon(0), refused(15))
        self.assertEqual(everything(machine), before)
        machine.file[place] = 41
        self.assertEqual(machine.abandon(1), ACCEPTED)
        self.assertEqual(machine.cells[40:43], [140, 1, 142])
        self.assertEqual(machine.abandon(0), ACCEPTED)
        self.assertEqual(machine.cells[40:43], [140, 141, 142])
        self.assertEqual(machine.state.frames, State().frames)


class Check13(unittest.TestCase):
    def test_made_up_states(self):
        functions = [function(0, 40, 2), function(0, 41, 3), function(0, 0, -1)]
        machine = loaded(functions=functions)
        machine.enter(1)
        machine.enter(2)
        good = machine.state

        def answer(**changes):
            machine.state = replace(good, **changes)
            return machine.read(1)

        def frames(index, number):
            changed = list(good.frames)
            changed[index] = Frame(0, number)
            return tuple(changed)

        self.assertEqual(answer(), ACCEPTED)
        self.assertEqual(answer(length=good.length + 1), refused(13))
        for index in range(12):
            lumps = list(good.lumps)
            lumps[index] += 1
            self.assertEqual(answer(lumps=tuple(lumps)), refused(13))
        self.assertEqual(answer(cells_per_entity=106), refused(13))
        self.assertEqual(answer(depth=32), refused(13))
        self.assertEqual(answer(function=4), refused(13))
        self.assertEqual(answer(saved=4), refused(13))
        self.assertEqual(answer(frames=frames(1, 4)), refused(13))
        self.assertEqual(answer(frames=frames(0, 4)), ACCEPTED)
        self.assertEqual(answer(frames=frames(2, 4)), ACCEPTED)
        self.assertEqual(answer(frames=frames(1, 3), saved=2), refused(13))
        self.assertEqual(answer(frames=frames(0, 3)), ACCEPTED)
        self.assertEqual(answer(depth=0, saved=0, function=99), ACCEPTED)
        self.assertEqual(answer(depth=1, saved=3), ACCEPTED)

    def test_before_everything_else(self):
        machine = loaded(functions=[function()])
        machine.state = replace(machine.state, saved=1)
        for answer in (machine.run(0, 0), machine.run(-1, 1), machine.abandon(-1), machine.read(-1), machine.enter(-1)):
            self.assertEqual(answer, refused(13))


def contents(machine):
    """What R-6 says is equal: statements, functions but for profile numbers, definitions, strings, starting cells, cells per entity."""
    program = model.Program(machine.file, machine.state.lumps)
    offset, count = program.lumps[2 * STRINGS], program.count(STRINGS)
    return (
        [program.statement(i) for i in range(program.count(STATEMENTS))],
        [program.function(i)._replace(profile=0) for i in range(program.count(FUNCTIONS))],
        [[program.definition(lump, i) for i in range(program.count(lump))] for lump in (GLOBAL_DEFS, FIELD_DEFS)],
        bytes(machine.file[offset : offset + count]),
        [program.cell(i) for i in range(program.count(CELLS))],
        machine.state.cells_per_entity,
    )


def machine_of(file):
    """A machine with the file, and what its load answers."""
    machine = Machine(bytearray(file), [0] * model.MOST_CELLS, [0] * 2048)
    return machine, machine.load()


def written(machine):
    """All that the machine writes, into a buffer that is long enough."""
    output = bytearray(model.LARGEST_FILE)
    answer = machine.image(output)
    assert answer.word == "accepted", answer
    return bytes(output[: answer.detail])


def accepted_files():
    """Files that load: those of files.txt, those that images.txt begins its lists with, and the compiled rule files."""
    for line in replay.lines_of("files.txt"):
        _, length, text, _ = line.split(" ")
        yield replay.bytes_of(length, text)
    for line in replay.lines_of("images.txt"):
        if line.startswith("new "):
            yield replay.bytes_of(*line.split(" ")[4:])
    for name in sorted(os.listdir(RULES)):
        if name.endswith(".dat"):
            with open(os.path.join(RULES, name), "rb") as file:
                yield file.read()


class Images(unittest.TestCase):
    """R-6: program files written."""

    STATEMENT = bytes.fromhex("0600 1c00 feff 1e00")  # AddF 28 -2 30
    DEFINITION = bytes.fromhex("0280 1c00 01000000")  # a saved float, cell 28, name 1
    FUNCTION = "f9ffffff 03000000 02000000 %s 01000000 00000000 ffffffff 01020304050607ff"
    STRING_BYTES = b"\0a"
    CELL_BYTES = bytes.fromhex("efbeadde" + "00" * 248 + "01000000")
    # 60: statements; 68: global definitions; 76: field definitions, none, and functions; 112: strings; 114: 64 cells; 370
    HEADER = """06000000 27170000 3c000000 01000000 44000000 01000000 4c000000 00000000
                4c000000 01000000 70000000 02000000 72000000 40000000 69000000"""

    def setUp(self):
        """Strings at 60, a byte of no lump, cells at 63, the function at 319, the definition at 355, the statement at 363."""
        header = [6, 5927, 363, 1, 355, 1, 1000, 0, 319, 1, 60, 2, 63, 64, 105]
        function_bytes = bytes.fromhex(self.FUNCTION % "09000000")
        body = self.STRING_BYTES + b"?" + self.CELL_BYTES + function_bytes + self.DEFINITION + self.STATEMENT
        self.machine, answer = machine_of(struct.pack("<15i", *header) + body)
        self.assertEqual(answer, ACCEPTED)
        function_bytes = bytes.fromhex(self.FUNCTION % "00000000")
        self.expected = bytes.fromhex(self.HEADER) + self.STATEMENT + self.DEFINITION + function_bytes + self.STRING_BYTES + self.CELL_BYTES
        self.assertEqual(len(self.expected), 370)

    def test_byte_for_byte(self):
        output = bytearray([238] * 373)
        self.assertEqual(self.machine.image(output), Answer("accepted", 370))
        self.assertEqual(output.hex(), self.expected.hex() + "eeeeee")
        output = bytearray([238] * 370)
        self.assertEqual(self.machine.image(output), Answer("accepted", 370))
        self.assertEqual(output, self.expected)

    def test_too_short(self):
        for size in (0, 1, 60, 369):
            output = bytearray([238] * size)
            before = everything(self.machine)
            self.assertEqual(self.machine.image(output), refused(34))
            self.assertEqual(output, bytes([238] * size))
            self.assertEqual(everything(self.machine), before)

    def test_13_first(self):
        state = self.machine.state
        for changed in (dict(saved=1), dict(depth=32), dict(entities=1), dict(length=370), dict(cells_per_entity=106)):
            self.machine.state = replace(state, **changed)
            for size in (0, 369, 370):
                output = bytearray([238] * size)
                self.assertEqual(self.machine.image(output), refused(13))
                self.assertEqual(output, bytes([238] * size))
        self.machine.state = State()
        self.assertEqual(self.machine.image(bytearray()), refused(13))

    def test_too_long(self):
        """Four lumps of 200,000 bytes at one place, one of 199,980 and 12,134 cells: 60 + 800,000 + 199,980 + 48,536."""
        for strings, length in ((200_000, 1_048_576), (200_001, 1_048_577)):
            lumps = [60, 25_000, 60, 25_000, 60, 25_000, 60, 5_555, 60, strings, 60, 12_134]
            machine, answer = machine_of(struct.pack("<15i", 6, 5927, *lumps, 105) + bytes(strings))
            self.assertEqual(answer, ACCEPTED)
            output = bytearray([238] * 1_048_580)
            if length > 1_048_576:
                self.assertEqual(machine.image(output), refused(34))
                self.assertEqual(output, bytes([238] * 1_048_580))
            else:
                self.assertEqual(machine.image(output), Answer("accepted", length))
                self.assertEqual(output[60:], bytes(length - 60) + bytes([238] * 4))

    def test_nothing_else_changes(self):
        before = everything(self.machine)
        self.assertEqual(written(self.machine), self.expected)
        self.assertEqual(everything(self.machine), before)

    def test_running_cells(self):
        machine = loaded(("StoreF", 28, 29), ("Call0", 40), ("Return",), functions=[function(0, 28, 2), function(-7)],
                         cells={28: ONE, 40: 2})
        file = bytes(machine.file)
        machine.enter(1)
        for answer in (Answer("builtin", 7, 1), Answer("ended", 0, 1)):
            self.assertEqual(machine.run(0, 9), answer)
            self.assertEqual(machine.write(63, 5), ACCEPTED)
            self.assertEqual(written(machine), file)
            machine.carry_on()

    def test_the_laws(self):
        """Loaded again the contents are equal, and written again the bytes."""
        count = 0
        for file in accepted_files():
            machine, answer = machine_of(file)
            if answer.word == "refused":
                continue
            output = bytearray(model.LARGEST_FILE)
            if machine.image(output) == refused(34):
                continue  # too long
            first = written(machine)
            again, answer = machine_of(first)
            self.assertEqual(answer, ACCEPTED)
            self.assertEqual(contents(again), contents(machine))
            self.assertEqual(written(again), first)
            count += 1
        self.assertGreater(count, 300)

    def test_alike(self):
        """The same contents at other places, with other profile numbers."""
        layouts = ((0, 1, 2, 3, 4, 5), (5, 4, 3, 2, 1, 0), (3, 5, 0, 4, 2, 1), (1, 0, 3, 2, 5, 4))
        found = set()
        for number, layout in enumerate(layouts):
            functions = [function(profile=number), function(1, sizes=(1, 2), arguments=1, profile=-number)]
            parts = dict(statements=[("Done", 1, 2, 3)], functions=functions, definitions=[(FLOAT, 28)], fields=[(FLOAT, 3)])
            file = Assembly(**parts, strings=b"\0b", cells={5: 6}, layout=layout, gap=number).bytes()
            found.add((bytes(file), written(machine_of(file)[0])))
        self.assertEqual(len(found), 4)
        # the first is one that is written as it is
        in_order = Assembly(**dict(parts, functions=[function(), function(1, sizes=(1, 2), arguments=1)]), strings=b"\0b", cells={5: 6})
        self.assertEqual({image for _, image in found}, {bytes(in_order.bytes())})


class Padding(unittest.TestCase):
    """R-7: the padding program, and statements on padded files."""

    def test_byte_for_byte(self):
        """36 cells, of which the first and the last aren't 0, before the strings; 28 zero cells are added."""
        statement, strings = bytes.fromhex("0600 1c00 feff 1e00"), b"\0a"
        cells = bytes.fromhex("efbeadde" + "00" * 136 + "01000000")
        header = struct.pack("<15i", 6, 5927, 60, 1, 9, 0, 9, 0, 9, 0, 212, 2, 68, 36, 107)
        written = struct.pack("<15i", 6, 5927, 60, 1, 68, 0, 68, 0, 68, 0, 68, 2, 70, 64, 107)
        self.assertEqual(model.pad(header + statement + cells + strings + b"more"), written + statement + strings + cells + bytes(112))

    def test_refusals(self):
        self.assertEqual(model.pad(bytes(59)), b"refused,1\n")
        self.assertEqual(model.pad(bytes(65_537)), b"refused,1\n")
        self.assertEqual(model.pad(bytes(65_536)), b"refused,2\n")
        self.assertEqual(model.pad(Assembly(cell_count=35).bytes()), b"refused,10\n")
        self.assertEqual(model.pad(Assembly(cell_count=36, cells_per_entity=104).bytes()), b"refused,11\n")
        # header, strings and 64 cells: 60 + 65,220 + 256
        for strings, refused_34 in ((65_220, False), (65_221, True)):
            file = Assembly(cell_count=36, strings=bytes(strings)).bytes()
            self.assertEqual(model.pad(file) == b"refused,34\n", refused_34)

    def test_what_it_writes(self):
        """What is written loads, has the same contents but for the added cells, and is padded alike; of 64 cells or more it is R-6's."""
        count = 0
        for file, got in pad_cases().seen:
            if got.startswith(b"refused"):
                continue
            before = Machine(bytearray(file), [0] * model.MOST_CELLS, [0] * 2048, fewest_cells=36)
            self.assertEqual(before.load(), ACCEPTED)
            after, answer = machine_of(got)
            self.assertEqual(answer, ACCEPTED)
            *others, cells, per_entity = contents(before)
            cells += [0] * (64 - len(cells))
            self.assertEqual(contents(after), (*others, cells, per_entity))
            self.assertEqual(written(after), got)
            self.assertEqual(model.pad(got), got)
            if before.state.lumps[2 * CELLS + 1] >= 64:
                self.assertEqual(written(before), got)
            count += 1
        self.assertGreater(count, 100)

    def both(self, machine, step):
        """Does a step on the machine, which is as before R-7, and on one with the file padded, from the same old cells, stores
        and state; the added cells hold anything.  Says whether it completed."""
        count, state = machine.state.lumps[2 * CELLS + 1], machine.state
        file = model.Program(machine.file, state.lumps).written(state.cells_per_entity, 5927, 64 - count)
        added = [0xADD0000 + i for i in range(count, 64)]
        after = Machine(bytearray(file), machine.cells + added, list(machine.saved_store), list(machine.entity_cells))
        after.state = replace(state, length=len(file), lumps=model.read_header(file)[2])
        recorded = dict(length=state.length, lumps=state.lumps)
        old, new = step(machine), step(after)
        if old != refused(15):  # 15 alone may be another now: "no longer refuses an access to an added cell"
            self.assertEqual(new, old)
            self.assertEqual(replace(after.state, **recorded), machine.state)
            self.assertEqual(after.cells, machine.cells + added)
            self.assertEqual((after.saved_store, after.entity_cells), (machine.saved_store, list(machine.entity_cells)))
        return old == ACCEPTED

    def test_cases_that_completed(self):
        """The cases at the last cells, of 36 cells as they stood before and of each other count below 64."""
        for count in range(36, 64):
            v = Vectors(fewest_cells=36)
            v.file("", cell_count=count, functions=last_cell_functions(count), layout=(5, 4, 3, 2, 1, 0))
            last_place_vectors(v)
            done = [self.both(prepared(given, 36), Machine.statement) for given in v.given]
            self.assertEqual(done, [answer == ACCEPTED for _, answer in v.seen])
            self.assertEqual(sum(done), 10)

    def test_all_cases_with_fewer_cells(self):
        """The cases of 64 cells, in files that have fewer."""
        every = [given for given in statement_vectors().given if given.base.lumps[2 * CELLS + 1] == 64]
        for count in (36, 49, 63):
            done = 0
            for given in every:
                if any(cell >= count for cell in given.cells):
                    continue
                base = copy.copy(given.base)
                base.lumps = [*base.lumps[:-1], count]
                done += self.both(prepared(given._replace(base=base), 36), Machine.statement)
            self.assertGreater(done, 1000)

    def test_an_added_cell(self):
        """Refused 15 in the file of 36 cells; the padded file has the cell."""
        file = Assembly([("AddF", 28, 28, 36)], [function()], cells={28: ONE}, cell_count=36).bytes()
        machine = Machine(file, [0] * 36, [0] * 2048, fewest_cells=36)
        self.assertEqual(machine.load(), ACCEPTED)
        self.assertEqual(machine.statement(), refused(15))
        machine, answer = machine_of(model.pad(file))
        self.assertEqual((answer, machine.statement(), machine.cells[36]), (ACCEPTED, ACCEPTED, TWO))
        self.assertEqual((machine.read(63), machine.read(64)), (ACCEPTED, refused(15)))

    def test_whole_runs(self):
        """Function 1 of each file of fewer cells, as it ran before and after padding; 15 alone may differ."""
        words = set()
        for file, got in pad_cases().seen:
            before = Machine(bytearray(file), [0] * 64, [0] * 2048, fewest_cells=36)
            if got.startswith(b"refused") or before.load() != ACCEPTED:
                continue
            after = Machine(bytearray(got), [0] * 64, [0] * 2048)
            self.assertEqual(after.load(), ACCEPTED)
            old, new = before.enter(1), after.enter(1)
            if old == new == ACCEPTED:
                old, new = before.run(0, 99_999), after.run(0, 99_999)
            if old[:2] == refused(15)[:2]:
                continue
            state = replace(after.state, length=before.state.length, lumps=before.state.lumps)
            self.assertEqual((new, state), (old, before.state))
            self.assertEqual((after.cells, after.saved_store), (before.cells, before.saved_store))
            words.add(old.word)
        self.assertEqual(words, {"ended", "spent", "refused", "builtin", "opcode"})

    def test_programs_made_by_chance(self):
        """Each statement of their runs, with fewer cells."""
        done = 0
        for seed in range(1, 41):
            chance = Xorshift(seed * 2654435761 % 2**32)
            assembly = random_program(chance, entities=True)
            assembly.lumps[2 * CELLS + 1] = 58 + chance.below(6)
            machine = Machine(assembly.bytes(), [0] * 63, [0] * 2048, [0] * 420, fewest_cells=36)
            machine.cells = machine.cells[: assembly.lumps[2 * CELLS + 1]]
            self.assertEqual(machine.load(4), ACCEPTED)
            self.both(machine, lambda machine: machine.enter(1))
            for _ in range(60):
                if not self.both(machine, Machine.statement):
                    break
                done += 1
        self.assertGreater(done, 100)


def with_check_number(file, check_number):
    return bytearray(file[:4] + struct.pack("<i", check_number) + file[8:])


def random_operation(chance):
    """The name and the numbers of a call of the machine."""
    return chance.pick((
        ("enter", 1 + chance.below(5)), ("enter", 1 + chance.below(5)), ("run", chance.below(3), 1 + chance.below(40)), ("statement",),
        ("carry_on",), ("abandon", chance.below(5)), ("write", 28 + chance.below(30), chance.pick(CHANCE_FLOATS)),
        ("write", 40 + chance.below(4), chance.below(8)), ("read", chance.below(66)),
    ))


class HouseLimits(unittest.TestCase):
    """R-11: settings given at load and held in the state.  Function 1 goes on without end, 2 has three locals and calls itself, 3 has
    one and returns."""

    FILE = Assembly(
        [("Goto", 0), ("Call0", 28), ("Return", 0)],
        [function(), function(0), function(1, 40, 3), function(2, 40, 1)],
        cells={28: 2},
    ).bytes()
    ENDS = (("check_number", 0, 65_535), ("depth", 1, 31), ("saved", 0, 2_048), ("limit", 1, 99_999))

    def load(self, settings=STANDARD, file=FILE, lent=2048, entities=0, **changed):
        """A machine with so many lent for the saved store, and what its load answers."""
        machine = Machine(bytearray(file), [5] * 64, [6] * lent)
        return machine, machine.load(entities, *settings._replace(**changed))

    def test_where_none_are_given(self):
        machine = Machine(bytearray(self.FILE), [5] * 64, [6] * 2048)
        self.assertEqual(machine.load(), ACCEPTED)
        self.assertEqual(machine.state.settings, (5927, 31, 2_048, 99_999))

    def test_ranges(self):
        for name, least, greatest in self.ENDS:
            for value in (least - 1, -1, greatest + 1, 2**31, 2**63, -(2**63), STANDARD._asdict()[name] + 2**16, STANDARD._asdict()[name] + 2**32):
                machine, answer = self.load(**{name: value})
                self.assertEqual(answer, refused(36))
                self.assertEqual((machine.state, machine.cells), (State(), [5] * 64))
                machine, _ = self.load()
                machine.state = replace(machine.state, settings=STANDARD._replace(**{name: value}))
                self.assertEqual(machine.read(1), refused(13))
            for value in (least, greatest):
                file = with_check_number(self.FILE, value) if name == "check_number" else self.FILE
                machine, answer = self.load(file=file, **{name: value})
                self.assertEqual(answer, ACCEPTED)
                self.assertEqual(machine.state.settings, STANDARD._replace(**{name: value}))
                self.assertEqual(machine.read(1), ACCEPTED)
                machine, _ = self.load()
                machine.state = replace(machine.state, settings=STANDARD._replace(**{name: value}))
                self.assertEqual(machine.read(1), ACCEPTED)

    def test_36_first(self):
        for file in (b"", bytes(59), bytes(60), bytes(1_048_577), with_check_number(self.FILE, 1)):
            for name, least, _ in self.ENDS:
                self.assertEqual(self.load(file=file, lent=0, entities=601, **{name: least - 1})[1], refused(36))
        self.assertEqual(self.load(file=b"")[1], refused(1))

    def test_12_by_2048(self):
        self.assertEqual(self.load(saved=0, lent=2047)[1], refused(12))
        machine, answer = self.load(saved=0)
        self.assertEqual(answer, ACCEPTED)
        machine.saved_store = [6] * 2047
        self.assertEqual(machine.read(1), refused(13))

    def test_check_number(self):
        for held in (0, 1, 5927, 65_535, 65_536, 65_536 + 5_927, -1, -5927):
            for given in (0, 1, 5927, 65_535):
                machine, answer = self.load(file=with_check_number(self.FILE, held), check_number=given)
                self.assertEqual(answer, ACCEPTED if held == given else refused(3))
                if held != given:
                    continue
                # it isn't compared with the file's again, and it is what is written
                for other in (5927, 7, -1):
                    machine.file[:] = with_check_number(machine.file, other)
                    self.assertEqual(machine.read(1), ACCEPTED)
                    self.assertEqual(written(machine), with_check_number(self.FILE, given))
                machine.state = replace(machine.state, settings=STANDARD._replace(check_number=300))
                self.assertEqual(written(machine), with_check_number(self.FILE, 300))

    def test_depth(self):
        for greatest in (1, 2, 7, 31):
            machine, _ = self.load(depth=greatest)
            for _ in range(greatest):
                self.assertEqual(machine.enter(3), ACCEPTED)
            self.assertEqual((machine.enter(3), machine.enter(4)), (refused(22), refused(20)))
            self.assertEqual(machine.abandon(0), ACCEPTED)
            machine.enter(2)
            self.assertEqual(machine.run(0, 99), refused(22, greatest - 1))
            good = machine.state
            for held, answer in ((greatest - 1, refused(13)), (greatest, ACCEPTED), (min(greatest + 1, 31), ACCEPTED)):
                machine.state = replace(good, settings=STANDARD._replace(depth=held))
                self.assertEqual(machine.read(1), answer)

    def test_saved(self):
        for greatest, calls in ((0, None), (2, None), (3, 0), (5, 0), (6, 1), (8, 1), (9, 2)):
            machine, _ = self.load(saved=greatest)
            self.assertEqual(machine.enter(1), ACCEPTED)
            self.assertEqual(machine.enter(2), refused(23) if calls is None else ACCEPTED)
            if calls is None:
                continue
            self.assertEqual(machine.run(0, 99), refused(23, calls))
            good = machine.state
            self.assertEqual(good.saved, 3 * (calls + 1))
            for held, answer in ((good.saved - 1, refused(13)), (good.saved, ACCEPTED), (2_048, ACCEPTED)):
                machine.state = replace(good, settings=STANDARD._replace(saved=held))
                self.assertEqual(machine.read(1), answer)

    def test_limit(self):
        for greatest in (1, 2, 99, 99_999):
            machine, _ = self.load(limit=greatest)
            machine.enter(1)
            self.assertEqual(machine.run(0, greatest + 1), refused(28))
            self.assertEqual(machine.run(-1, greatest + 1), refused(28))
            self.assertEqual(machine.run(1, greatest), refused(29))
            self.assertEqual(machine.run(0, 0), refused(28))
            self.assertEqual(machine.run(0, min(greatest, 99)), Answer("spent", 0, min(greatest, 99)))

    def test_narrower_settings(self):
        """Where 22, 23 or 28 doesn't refuse, all goes as under 01's settings; the depth and the saved count stay within them."""
        narrowed = {22: 0, 23: 0, 28: 0}
        for seed in range(1, 101):
            chance = Xorshift(seed * 2654435761 % 2**32)
            file = random_program(chance, hosts=True, entities=True).bytes()
            settings = STANDARD._replace(depth=1 + chance.below(5), saved=chance.pick((0, 3, 8, 20)), limit=1 + chance.below(40))
            narrow, wide = (Machine(bytearray(file), [0] * 64, [0] * 2048, [0] * 315) for _ in range(2))
            self.assertEqual((narrow.load(3, *settings), wide.load(3)), (ACCEPTED, ACCEPTED))
            for _ in range(40):
                name, *numbers = random_operation(chance)
                before = narrow.state
                answer, other = getattr(narrow, name)(*numbers), getattr(wide, name)(*numbers)
                if answer != other:
                    self.assertIn(answer[:2], [("refused", number) for number in narrowed])
                    narrowed[answer.detail] += 1
                    wide = copy.deepcopy(narrow)
                    wide.state = replace(wide.state, settings=STANDARD)
                self.assertEqual(replace(narrow.state, settings=STANDARD), wide.state)
                self.assertEqual(everything(narrow)[1:], everything(wide)[1:])
                self.assertEqual(narrow.state.settings, settings)
                self.assertLessEqual(narrow.state.depth, settings.depth)
                self.assertLessEqual(narrow.state.saved, settings.saved)
                if answer == refused(28):
                    self.assertEqual(narrow.state, before)
        self.assertGreater(min(narrowed.values()), 20)

    def test_laws_of_writing(self):
        """R-6's, for loads under one check number."""
        for check_number in (0, 256, 65_535):
            for file in list(accepted_files())[::7]:
                standard, answer = machine_of(file)
                output = bytearray(model.LARGEST_FILE)
                if answer != ACCEPTED or standard.image(output).word == "refused":
                    continue
                machine = Machine(with_check_number(file, check_number), [0] * model.MOST_CELLS, [0] * 2048)
                self.assertEqual(machine.load(0, check_number, 31, 2_048, 99_999), ACCEPTED)
                # lumps over the header have the check number among their bytes
                first = written(machine)
                self.assertEqual(first[4:8], struct.pack("<i", check_number))
                again = Machine(bytearray(first), [0] * model.MOST_CELLS, [0] * 2048)
                self.assertEqual(again.load(), refused(3))
                self.assertEqual(again.load(0, check_number, 1, 0, 1), ACCEPTED)
                self.assertEqual(contents(again), contents(machine))
                self.assertEqual(written(again), first)

    def test_load_files(self):
        """R-10: "under check number 5927 and a run limit above n"."""
        chance = Xorshift(1812433253)
        for n in (1, 2, 1000, *[1 + chance.below(300) for _ in range(10)]):
            file = model.load_file(chance.draw(), n)
            for limit in (n + 1, n + 2, 99_999):
                settings = STANDARD._replace(depth=1 + chance.below(31), saved=chance.below(2_049), limit=limit)
                machine, answer = self.load(settings, file)
                self.assertEqual((answer, machine.enter(1)), (ACCEPTED, ACCEPTED))
                self.assertEqual(machine.run(0, n + 1), Answer("ended", 0, n + 1))
            self.assertEqual(self.load(file=file, check_number=5926)[1], refused(3))
            machine, _ = self.load(file=file, depth=1, saved=0, limit=n)
            machine.enter(1)
            self.assertEqual(machine.run(0, n + 1), refused(28))


class BothEngines(Machine):
    """Each run is done by both engines, which must agree, the second from statements unpacked just before."""

    def run(self, target, limit):
        first = Machine(self.file, list(self.cells), list(self.saved_store), list(self.entity_cells), self.fewest_cells)
        first.state = self.state
        wanted, answer = first.run(target, limit), replay.second_run(self, target, limit)
        assert (answer, *everything(self)[:4]) == (wanted, *everything(first)[:4])
        return answer


class SecondEngine(unittest.TestCase):
    """R-12: statements unpacked into a lent buffer, and the engine that runs from it."""

    STATEMENTS = [("Goto", 1), ("SubF", 28, 29, 30), ("If", 28, -2), ("Return", 30)]
    # Goto is 61, SubF 8, If 49, Return 43; -2 is 65534
    UNPACKED = [61, 1, 0, 0, 8, 28, 29, 30, 49, 28, 65534, 0, 43, 30, 0, 0]

    def machine(self):
        cells = {28: 0, 29: flt(2.0), 31: ONE}
        return loaded(*self.STATEMENTS, functions=[function()], cells=cells)

    def test_by_hand(self):
        machine = self.machine()
        for spare in (0, 1, 5):
            unpacked = [7] * (16 + spare)
            before = everything(machine)
            self.assertEqual(machine.unpack(unpacked), ACCEPTED)
            self.assertEqual(unpacked, self.UNPACKED + [7] * spare)
            self.assertEqual(everything(machine), before)
        machine.enter(1)
        self.assertEqual(machine.run_unpacked(unpacked, 0, 2), Answer("spent", 0, 2))
        self.assertEqual((machine.cells[30], machine.state.position), (flt(-2.0), 2))
        self.assertEqual(machine.run_unpacked(unpacked, 0, 9), Answer("ended", 0, 2))
        self.assertEqual(unpacked, self.UNPACKED + [7] * 5)

    def test_too_short(self):
        machine = self.machine()
        machine.enter(1)
        for size in range(16):
            unpacked, before = [7] * size, everything(machine)
            self.assertEqual(machine.unpack(unpacked), refused(37))
            for target, limit in ((0, 5), (0, 0), (-1, 5), (5, 100_000)):
                self.assertEqual(machine.run_unpacked(unpacked, target, limit), refused(37))
            self.assertEqual((unpacked, everything(machine)), ([7] * size, before))
        machine.state = replace(machine.state, saved=1)
        for size in (0, 15, 16):
            unpacked = [7] * size
            self.assertEqual((machine.unpack(unpacked), machine.run_unpacked(unpacked, 0, 0)), (refused(13), refused(13)))
            self.assertEqual(unpacked, [7] * size)

    def test_28_and_29(self):
        machine = self.machine()
        machine.enter(1)
        for target, limit, number in ((0, 0, 28), (0, 100_000, 28), (-1, 0, 28), (-1, 1, 29), (1, 1, 29)):
            self.assertEqual(machine.run_unpacked(self.UNPACKED, target, limit), refused(number))

    def test_other_contents(self):
        """What the buffer holds is what runs, and 14 is by the file's count."""
        for numbers, answer in (
            ([66, 0, 0, 0], refused(7)),
            ([65535, 0, 0, 0], refused(7)),
            ([256 + 61, 0, 0, 0], refused(7)),
            ([60, 0, 0, 0], Answer("opcode", 60)),
            ([61, 4, 0, 0], refused(14, 1)),
            ([61, 65535, 0, 0], refused(14, 1)),
            ([61, 3, 0, 0], Answer("ended", 0, 2)),
            ([8, 28, 29, 64], refused(15)),
            ([8, 28, 29, 65535], refused(15)),
            ([44, 28, 1, 30], refused(18)),
            ([0, 28, 1, 2], Answer("ended", 0, 1)),
        ):
            machine = self.machine()
            machine.enter(1)
            unpacked = numbers + self.UNPACKED[4:] + [61, 0, 0, 0] * 2
            self.assertEqual(machine.run_unpacked(unpacked, 0, 9), answer, numbers)

    def test_changed_bytes(self):
        machine = self.machine()
        unpacked = list(self.UNPACKED)
        machine.file[machine.assembly.place(STATEMENTS, 0)] = 66
        machine.enter(1)
        self.assertEqual(machine.run(0, 9), refused(7))
        self.assertEqual(machine.run_unpacked(unpacked, 0, 9), Answer("ended", 0, 4))
        self.assertEqual(machine.unpack(unpacked), ACCEPTED)
        self.assertEqual(unpacked, [66] + self.UNPACKED[1:])

    def test_the_same_as_the_first(self):
        """Programs made by chance, unpacked once; runs of either engine in lists that mix them with other calls."""
        words = set()
        for seed in range(1, 201):
            chance = Xorshift(seed * 2654435761 % 2**32)
            file = random_program(chance, hosts=True, entities=True).bytes()
            first, mixed = (Machine(bytearray(file), [0] * 64, [0] * 2048, [0] * 315) for _ in range(2))
            settings = STANDARD._replace(depth=3 + chance.below(29), saved=40 + chance.below(2_000), limit=30 + chance.below(9_970))
            self.assertEqual((first.load(3, *settings), mixed.load(3, *settings)), (ACCEPTED, ACCEPTED))
            unpacked = [chance.below(65_536) for _ in range(4 * mixed.state.lumps[1] + chance.below(4))]
            self.assertEqual(mixed.unpack(unpacked), ACCEPTED)
            kept = list(unpacked)
            for _ in range(30):
                name, *numbers = random_operation(chance)
                answer = getattr(first, name)(*numbers)
                if name == "run" and chance.below(3):
                    other = mixed.run_unpacked(unpacked, *numbers)
                    words.add(other.word)
                else:
                    other = getattr(mixed, name)(*numbers)
                self.assertEqual(answer, other)
                self.assertEqual(everything(first), everything(mixed))
                self.assertEqual(unpacked, kept)
        self.assertEqual(words, {"ended", "spent", "refused", "builtin", "opcode"})

    def test_any_contents(self):
        """Buffers of chance numbers, or opcodes with chance operands: every run has an answer, at most the limit's count, and 13 still holds."""
        for seed in range(1, 201):
            chance = Xorshift(seed * 2654435761 % 2**32)
            assembly = random_program(chance, hosts=True, entities=True)
            machine = Machine(assembly.bytes(), [0] * 64, [0] * 2048, [0] * 315)
            machine.load(3)
            unpacked = [chance.below(65_536) for _ in range(4 * assembly.lumps[1])]
            if chance.below(4):
                unpacked[::4] = [chance.below(66) for _ in range(assembly.lumps[1])]
                unpacked[1::4] = [chance.below(64) for _ in range(assembly.lumps[1])]
            for _ in range(10):
                machine.enter(1 + chance.below(5))
                limit = 1 + chance.below(30)
                answer = machine.run_unpacked(unpacked, chance.below(3), limit)
                self.assertLessEqual(answer.count, limit)
                self.assertEqual(machine.read(1).word, "accepted")


class PairsOfWrites(unittest.TestCase):
    """R-9: many raw writes in one operation."""

    def setUp(self):
        self.machine = loaded(("Return", 28), functions=[function(0, 40, 2)], cells={40: 7, 41: 8}, lent=70)

    def unchanged(self, numbers, number):
        before = everything(self.machine)
        self.assertEqual(self.machine.write_pairs(numbers), refused(number))
        self.assertEqual(everything(self.machine), before)

    def test_all_or_none(self):
        self.assertEqual(self.machine.write_pairs([28, 1, 63, 2, 0, 3]), ACCEPTED)
        self.assertEqual([self.machine.cells[cell] for cell in (28, 63, 0, 29)], [1, 2, 3, 0])
        for bad in (-1, 64, 69, 2**63 - 1, -(2**63)):
            self.unchanged([bad, 9, 28, 9], 15)
            self.unchanged([28, 9, bad, 9, 29, 9], 15)
            self.unchanged([28, 9, 29, 9, bad, 9], 15)

    def test_how_many(self):
        before = everything(self.machine)
        self.assertEqual(self.machine.write_pairs([]), ACCEPTED)
        self.assertEqual(everything(self.machine), before)
        self.assertEqual(self.machine.write_pairs([number for i in range(64) for number in (i, i + 1)]), ACCEPTED)
        self.assertEqual(self.machine.cells[:64], list(range(1, 65)))
        self.unchanged([28, 1] * 65, 15)
        for count in (1, 3, 127, 129):
            self.unchanged([28] * count, 15)

    def test_the_later_holds(self):
        self.assertEqual(self.machine.write_pairs([28, 1, 29, 2, 28, 3, 29, 4, 28, 5]), ACCEPTED)
        self.assertEqual(self.machine.cells[28:30], [5, 4])

    def test_13_first(self):
        self.machine.state = replace(self.machine.state, saved=1)
        for numbers in ([], [28, 1], [28], [-1, 1], [28, 1] * 65):
            self.unchanged(numbers, 13)

    def test_a_single_pair(self):
        for address in (-1, 0, 1, 28, 63, 64, 69, 70):
            for value in (0, 0xFFFFFFFF):
                other = copy.deepcopy(self.machine)
                self.assertEqual(self.machine.write_pairs([address, value]), other.write(address, value))
                self.assertEqual(everything(self.machine), everything(other))

    def test_one_after_another(self):
        """Where all are good it is as so many raw writes."""
        chance = Xorshift(5)
        for _ in range(50):
            numbers = [number for _ in range(chance.below(65)) for number in (chance.below(64), chance.draw())]
            other = copy.deepcopy(self.machine)
            self.assertEqual(self.machine.write_pairs(numbers), ACCEPTED)
            for address, value in zip(numbers[::2], numbers[1::2]):
                self.assertEqual(other.write(address, value), ACCEPTED)
            self.assertEqual(everything(self.machine), everything(other))

    def test_a_return_restores(self):
        self.machine.enter(1)
        self.assertEqual(self.machine.write_pairs([40, 1, 41, 2, 42, 3]), ACCEPTED)
        self.assertEqual(self.machine.run(0, 9), Answer("ended", 0, 1))
        self.assertEqual(self.machine.cells[40:43], [7, 8, 3])


class OutcomeSentences(unittest.TestCase):
    """R-8: a run's outcome in words."""

    LONGEST = ("builtin", 4294967295, 4294967295, -9223372036854775808, 4294967295)

    def test_worked_out_by_hand(self):
        for outcome, line in (
            (("ended", 0, 2, 0, 0), b"Run ended, detail 0, statements 2, position 0, function 0."),
            (("spent", 0, 99999, 4, 1), b"Run spent, detail 0, statements 99999, position 4, function 1."),
            (("refused", 14, 2, -98, 1), b"Run refused, detail 14, statements 2, position -98, function 1."),
            (("builtin", 78, 1, 2, 1), b"Run builtin, detail 78, statements 1, position 2, function 1."),
            (("opcode", 60, 10, 20, 30), b"Run opcode, detail 60, statements 10, position 20, function 30."),
            (self.LONGEST, b"Run builtin, detail 4294967295, statements 4294967295, position -9223372036854775808, function 4294967295."),
        ):
            self.assertEqual(model.sentence(model.Outcome(*outcome)), line)
            self.assertEqual(model.read_sentence(line), outcome)

    def test_the_longest(self):
        """No outcome has a longer line: each word has at most 7 letters, each number at most so many digits."""
        longest = len(model.sentence(model.Outcome(*self.LONGEST)))
        self.assertEqual(longest, len("Run , detail , statements , position , function .") + 7 + 10 + 10 + 20 + 10)
        for outcome, _ in sentence_cases().seen:
            self.assertLessEqual(len(model.sentence(outcome)), longest)
        self.assertLessEqual(longest, 120)

    def test_display(self):
        for room in (0, 106, 119):
            display = bytearray([238] * room)
            self.assertEqual(model.compose(model.Outcome(*self.LONGEST), display), refused(12))
            self.assertEqual(display, bytes([238] * room))
        display = bytearray([238] * 122)
        self.assertEqual(model.compose(model.Outcome("spent", 0, 5, -1, 9), display), Answer("accepted", 59))
        self.assertEqual(display, b"Run spent, detail 0, statements 5, position -1, function 9." + bytes([238] * 63))

    def test_no_two_alike(self):
        """Different outcomes have different lines."""
        outcomes = {outcome for outcome, _ in sentence_cases().seen}
        self.assertEqual(len({model.sentence(outcome) for outcome in outcomes}), len(outcomes))

    def test_of_runs(self):
        """Word, detail, statements, position and function are those of the show program's line."""
        words = set()
        for line in replay.lines_of("files.txt"):
            _, length, text, shown = line.split(" ")
            fields = shown.split(",")
            machine, _ = machine_of(replay.bytes_of(length, text))
            if len(fields) == 2 or int(fields[2]) > 1000 or machine.enter(1) != ACCEPTED:
                continue
            outcome = model.outcome_of(machine.run(0, 99999), machine.state)
            self.assertEqual([*map(str, outcome)], fields[:5])
            words.add(outcome.word)
        self.assertEqual(words, {"ended", "refused", "builtin", "opcode"})


class LoadFiles(unittest.TestCase):
    """R-10: load files."""

    def test_draws(self):
        """Worked out by hand for seed 1; 723471715 is Marsaglia's first number for his seed."""
        drawn = model.draws(1)
        # 1 ^ 1 << 13 = 8193; >> 17 is 0; 8193 ^ 8193 << 5 = 270369
        self.assertEqual(next(drawn), 270369)
        self.assertEqual(next(drawn), 67634689)
        self.assertEqual(next(model.draws(2463534242)), 723471715)
        for seed in (1, 2, 2463534242, 4294967295):
            drawn, chance = model.draws(seed), Xorshift(seed)
            self.assertEqual([next(drawn) for _ in range(2000)], [chance.draw() for _ in range(2000)])

    def test_byte_for_byte(self):
        """Seed 1 and n 1: 36 draws for cells 28 to 63, then opcode and three operands."""
        drawn = model.draws(1)
        numbers = [next(drawn) for _ in range(40)]
        header = struct.pack("<15i", 6, 5927, 60, 3, 84, 0, 84, 0, 84, 2, 156, 1, 157, 64, 105)
        opcode = (1, 6, 8)[numbers[36] % 3]
        statements = struct.pack("<12h", 0, 0, 0, 0, opcode, *[28 + number % 36 for number in numbers[37:]], 43, 28, 0, 0)
        functions = bytes(36) + b"\1" + bytes(35)
        cells = bytes(4 * 28) + b"".join(struct.pack("<f", number % 256) for number in numbers[:36])
        self.assertEqual(model.load_file(1, 1), header + statements + functions + bytes(1) + cells)
        # 270369 = 33 modulo 256, 67634689 = 1
        self.assertEqual(cells[112:120], bytes.fromhex("00000442 0000803f"))

    def test_the_same_beginning(self):
        """With another n the cells and the first statements are the same."""
        for seed in (1, 77, 4294967295):
            short, long = model.load_file(seed, 5), model.load_file(seed, 1000)
            self.assertEqual(short[-256:], long[-256:])
            self.assertEqual(short[60 : 60 + 8 * 6], long[60 : 60 + 8 * 6])

    def test_the_promise(self):
        """It loads, function 1 ends after n + 1 statements under every limit above n, and R-6 writes the same bytes."""
        chance = Xorshift(1812433253)
        for n in (1, 2, 36, 999, 1000, *[1 + chance.below(1000) for _ in range(20)]):
            file = model.load_file(chance.draw(), n)
            machine = Machine(bytearray(file), [0xDEAD] * 64, [0xBEEF] * 2048)
            for limit in (n + 1, n + 2, 99_999):
                self.assertEqual(machine.load(), ACCEPTED)
                self.assertEqual(machine.enter(1), ACCEPTED)
                self.assertEqual(machine.run(0, limit), Answer("ended", 0, n + 1))
                self.assertEqual((machine.state.position, machine.state.function, machine.state.depth), (0, 0, 0))
            self.assertEqual(written(machine), file)
            self.assertEqual(model.pad(file), file)
            machine.load(), machine.enter(1)
            self.assertEqual(machine.run(0, n), Answer("spent", 0, n))
            self.assertEqual(contents(machine)[2:4], ([[], []], b"\0"))

    def test_refusals(self):
        for seed, n, room, number in ((0, 1, 9000, 35), (1, 0, 9000, 35), (1, 1001, 9000, 35), (0, 1, 0, 35), (1, 1001, 0, 35), (1, 1, 412, 34), (1, 1000, 8404, 34)):
            output = bytearray([238] * room)
            self.assertEqual(model.write_load_file(seed, n, output), refused(number))
            self.assertEqual(output, bytes([238] * room))
        output = bytearray([238] * 415)
        self.assertEqual(model.write_load_file(9, 1, output), Answer("accepted", 413))
        self.assertEqual(output, model.load_file(9, 1) + bytes([238] * 2))
        self.assertEqual(model.write_load_file(4294967295, 1000, bytearray(8405)), Answer("accepted", 8405))

    def test_program(self):
        self.assertEqual(model.load_file_program(b"5 7\n"), model.load_file(5, 7))
        for text in (b"0 7\n", b"4294967296 7\n", b"5 0\n", b"5 1001\n", b"5\n", b"", b"a b\n", b"-5 7\n"):
            self.assertEqual(model.load_file_program(text), b"refused,35\n")


class CaseFiles(unittest.TestCase):
    @classmethod
    def setUpClass(cls):
        cls.texts, cls.makers = make_cases.make()

    def test_up_to_date(self):
        for name, text in self.texts.items():
            with open(os.path.join(make_cases.FOLDER, name), encoding="ascii") as file:
                self.assertTrue(file.read() == text, f"{name} isn't what make_cases.py makes")

    def test_readable(self):
        """Each run by both engines."""
        with mock.patch.object(model, "Machine", BothEngines):
            self.assertEqual(list(replay.differences(model)), [])

    def test_lists_can_be_replayed(self):
        """tests/run_replay.py plays every list of these: nothing in them changes what replay can't."""
        for name in ("images.txt", "outcomes.txt", "pairs.txt", "settings.txt", "engines.txt"):
            calls = {call.split(" ")[0] for call, _ in self.makers[name].seen}
            self.assertFalse(calls & {"field", "lend", "eput"})

    def test_every_opcode(self):
        seen = self.makers["statements.txt"].seen
        accepted = {opcode for opcode, answer in seen if answer.word == "accepted"}
        handed = {opcode for opcode, answer in seen if answer.word == "opcode"}
        self.assertEqual(handed, HOST_OPCODES)
        self.assertEqual(accepted, set(range(66)) - HOST_OPCODES)
        # only Goto can't be refused
        refusing = {opcode for opcode, answer in seen if answer.word == "refused"}
        self.assertEqual(set(range(66)) - HOST_OPCODES - refusing, {OPCODES.index("Goto")})

    def test_every_refusal_of_a_field_statement(self):
        """Address 15, 16, 17, 30, 31; a load 15, 16, 17, 30, 31; a store 15, 16, 18, 32, 31 only with three cells."""
        found = {}
        for opcode, answer in self.makers["statements.txt"].seen:
            if answer.word == "refused":
                found.setdefault(opcode, set()).add(answer.detail)
        for opcode in (*range(24, 31), *range(37, 43)):
            expected = {15, 16, 17, 30, 31} if opcode <= 30 else {15, 16, 18, 32}
            expected |= {38: {31}, 39: {17}, 40: {17}, 41: {17}}.get(opcode, set())
            self.assertEqual(found[opcode], expected, OPCODES[opcode])

    def test_every_refusal_of_a_string_comparison(self):
        seen = self.makers["statements.txt"].seen
        for name, expected in (("EqS", {15, 16, 33}), ("NeS", {15, 16, 33}), ("NotS", {15, 16, 18, 33})):
            answers = [answer for opcode, answer in seen if opcode == OPCODES.index(name)]
            self.assertEqual({answer.detail for answer in answers if answer.word == "refused"}, expected)
        others = {opcode for opcode, answer in seen if answer == refused(33)}
        self.assertEqual(others, {OPCODES.index(name) for name in ("EqS", "NeS", "NotS")})

    def test_every_refusal(self):
        calls = {answer.detail for _, answer in self.makers["calls.txt"].seen if answer.word == "refused"}
        shown = [line.split(",") for _, line in self.makers["files.txt"].seen]
        files = {int(fields[1]) for fields in shown if fields[0] == "refused"}
        images = {answer.detail for call, answer in self.makers["images.txt"].seen if call.startswith("image ") and answer.word == "refused"}
        self.assertEqual(images, {13, 34})
        pads = {int(got[8:]) for _, got in self.makers["pads.txt"].seen if got.startswith(b"refused,")}
        self.assertEqual(pads, {*range(1, 12), 34})
        loads = {answer[1] for given, answer in self.makers["load_files.txt"].seen if given.startswith("buffer ") and answer[0] == "refused"}
        self.assertEqual(loads, {34, 35})
        settings = {answer.detail for call, answer in self.makers["settings.txt"].seen if call.startswith("load ") and answer.word == "refused"}
        self.assertEqual(settings, {36, *range(1, 9), 10, 11, 12, 13})
        unpacked = {answer.detail for call, answer in self.makers["unpacked.txt"].seen if call == "unpack" and answer.word == "refused"}
        self.assertEqual(unpacked, {13, 37})
        # 26 can't be met after 13; 8 and 9 are a field definition's in the files
        self.assertEqual(calls | files | images | loads | settings | unpacked, set(range(1, 38)) - {26})
        # a file alone can't reach these: nothing lent is short, no state is made up, nothing changed
        self.assertEqual(set(range(1, 25)) - files, {12, 13})
        # without entities 31 isn't reached
        self.assertEqual({30, 31, 32, 33} & files, {30, 32, 33})
        self.assertEqual({fields[0] for fields in shown}, {"ended", "spent", "refused", "builtin", "opcode"})


if __name__ == "__main__":
    unittest.main()

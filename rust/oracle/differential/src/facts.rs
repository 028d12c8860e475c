//! The smallest input of each class of difference, run by the unchanged Rust and here. Each line of docs/DIFFERENCES.md that says what the
//! Rust does is one of these; a line that comes out otherwise fails.

use crate::classes::Class;
use crate::entities::Lent;
use crate::oracle::{self, End, Variant};
use crate::ours::{Answer, Ours};
use crate::program::{Function, Program, View};

/// What both must give: the end, and one cell after it.
struct Fact {
    name: &'static str,
    bytes: Vec<u8>,
    calls: Vec<usize>,
    /// The start of the text that the Rust's end is printed as.
    rust: &'static str,
    here: &'static str,
    /// A cell that is printed, with what it must be in the Rust and here.
    cell: Option<(usize, u32, u32)>,
    /// How many entities there are, of zeros.
    entities: usize,
    /// An entity cell that is printed, as above.
    entity_cell: Option<(usize, u32, u32)>,
}

impl Fact {
    /// With an entity cell that must be so in the Rust, and so here.
    fn and_entity_cell(mut self, cell: usize, rust: u32, here: u32) -> Fact {
        self.entity_cell = Some((cell, rust, here));
        self
    }

    fn with_entities(mut self, entities: usize) -> Fact {
        self.entities = entities;
        self
    }
}

pub fn run() -> bool {
    let lists = [
        named(),
        rust_decides(),
        overflows(),
        at_once(),
        by_design(),
        panics(),
        floats(),
        texts(),
        compared_texts(),
        tested_texts(),
        void_definitions(),
        loads(),
        fields(),
        pointers(),
        negative_in_fields(),
        cut_to_16_bits(),
    ];
    let mut good = true;
    for fact in lists.iter().flatten() {
        good &= check(fact);
    }
    good & positions() & reserved()
}

/// Function 1 at statement 1, without locals.
fn program(statements: &[[i16; 4]], cells: &[(usize, u32)]) -> Program {
    let mut program = Program::new(64);
    program.statements.extend(statements);
    program.functions.push(Function { first: 1, ..Function::default() });
    for &(cell, value) in cells {
        program.cells[cell] = value;
    }
    program
}

fn fact(name: &'static str, program: &Program, rust: &'static str, here: &'static str, cell: Option<(usize, u32, u32)>) -> Fact {
    Fact { name, bytes: program.bytes(), calls: vec![1], rust, here, cell, entities: 2, entity_cell: None }
}

const DONE: [i16; 4] = [0; 4];
const ONE: u32 = 0x3f80_0000;

fn named() -> Vec<Fact> {
    let mut arguments = program(&[DONE], &[(4, 10), (7, 20)]);
    arguments.functions[1] = Function { first: 1, local: 40, argc: 2, sizes: [1, 1, 0, 0, 0, 0, 0, 0], ..Function::default() };
    let mut missing = arguments.clone();
    missing.functions[1].local = 63;
    let cells = [(30, 1), (31, 2), (32, 3)];
    vec![
        fact("argument copying: two arguments of one cell", &arguments, "ends", "ended", Some((40, 20, 10))),
        fact("argument copying: the second cell is missing", &missing, "ends", "refused 15", None),
        fact("Return: Return 30 0 0", &program(&[[43, 30, 0, 0]], &cells), "ends", "ended", Some((2, 0, 2))),
        fact("Return: Return 62 0 0 of 64 cells", &program(&[[43, 62, 0, 0]], &[]), "ends", "refused 15", None),
        fact("Return: Return 30 -1 0", &program(&[[43, 30, -1, 0]], &cells), "error Globals error: Invalid address (-1)", "ended", None),
        fact("NotV: NotV 28 0 31", &program(&[[45, 28, 0, 31], DONE], &[]), "ends", "ended", Some((33, ONE, 0))),
        fact(
            "NotV: NotV 28 0 63 of 64 cells",
            &program(&[[45, 28, 0, 63], DONE], &[]),
            "panics: a cell number equal to the count",
            "ended",
            Some((63, ONE, ONE)),
        ),
    ]
}

/// The same in both.
fn rust_decides() -> Vec<Fact> {
    const MINUS_0: u32 = 0x8000_0000;
    let mut typed = program(&[[6, 28, 29, 30], DONE], &[]);
    typed.globaldefs.push((1, 28, 0));
    let minus_0 = [(28, MINUS_0), (29, MINUS_0), (30, MINUS_0), (31, ONE), (32, ONE), (33, ONE)];
    let overlap = [(40, ONE), (41, ONE), (42, ONE), (28, ONE), (29, ONE), (30, ONE)];
    let two = 2.0_f32.to_bits();
    vec![
        fact("types: AddF 28 29 30, cell 28 a string", &typed, "error Globals error: type check failed", "refused 16", None),
        fact(
            "unused operands: StoreF 28 29 1",
            &program(&[[31, 28, 29, 1], DONE], &[]),
            "error Globals error: Nonzero arg3",
            "refused 18",
            None,
        ),
        fact("branch tests: If 28 5 0 on -0 goes on", &program(&[[49, 28, 5, 0], DONE], &[(28, MINUS_0)]), "ends", "ended", None),
        fact(
            "dot product: MulV of three -0 and three 1.0",
            &program(&[[2, 28, 31, 34], DONE], &minus_0),
            "ends",
            "ended",
            Some((34, 0, 0)),
        ),
        fact("overlap: AddV 40 28 41", &program(&[[7, 40, 28, 41], DONE], &overlap), "ends", "ended", Some((42, two, two))),
        fact("overlap: StoreV 40 41 0", &program(&[[32, 40, 41, 0], DONE], &[(40, 7)]), "ends", "ended", Some((43, 7, 7))),
        fact(
            "saturation: BitAnd of 2147483648.0 and 1.0",
            &program(&[[64, 28, 29, 30], DONE], &[(28, 0x4f00_0000), (29, ONE)]),
            "ends",
            "ended",
            Some((30, ONE, ONE)),
        ),
    ]
}

/// Where the debug build checks sums, and the release build wraps.
fn overflows() -> Vec<Fact> {
    let debug = cfg!(debug_assertions);
    let either = |in_debug, in_release| if debug { in_debug } else { in_release };
    const SUM: &str = "panics: a sum over the type's range (debug build)";
    let mut vector = program(&[[7, 32_766, 28, 31], DONE], &[]);
    vector.cells.resize(32_768, 0);
    let mut locals = program(&[[51, 28, 0, 0], DONE], &[(28, 2)]);
    locals.functions[1].locals = 1;
    locals.functions.push(Function { locals: -1, ..Function::default() });
    let mut first = program(&[DONE], &[]);
    first.functions[1].first = i32::MIN;
    vec![
        fact("32,768 cells, AddV 32766 28 31", &vector, either(SUM, "error Globals error: Invalid address (-32768)"), "refused 15", None),
        fact(
            "one cell saved, then a Call of a function with -1 locals",
            &locals,
            either(SUM, "panics: a cell number equal to the count"),
            "refused 23",
            None,
        ),
        fact(
            "first statement -2147483648",
            &first,
            either("load panics: a sum over", "load error Invalid built-in function ID"),
            "load refused 5",
            None,
        ),
    ]
}

/// Two things wrong at once: both refuse, by another number.
fn at_once() -> Vec<Fact> {
    const MISSING: &str = "error Globals error: Invalid address (65)";
    let mut order = program(&[DONE], &[]);
    order.functions[1] = Function { first: 1, local: 65, argc: 9, sizes: [1, 0, 0, 0, 0, 0, 0, 0], ..Function::default() };
    let mut negative = program(&[[51, 28, 0, 0], DONE], &[(28, 2)]);
    negative.functions[1].locals = 1;
    negative.functions.push(Function { local: 65, locals: -1, ..Function::default() });
    let in_either_build = if cfg!(debug_assertions) { "panics: a sum over" } else { MISSING };
    let string = program(&[[33, 28, 65, 0], DONE], &[(28, u32::MAX)]);
    vec![
        fact("-1 locals while a cell is saved, first local cell missing", &negative, in_either_build, "refused 23", None),
        fact("StoreS 28 65 0 of ffffffff", &string, MISSING, "refused 17", None),
        fact("argument count 9 and a missing argument cell", &order, MISSING, "refused 24", None),
    ]
}

fn by_design() -> Vec<Fact> {
    let mut traces = program(&[[7, 28, 31, 34], DONE], &[(28, ONE)]);
    traces.globaldefs.push((1, 36, 0));
    let mut wrapped = program(&[DONE], &[]);
    wrapped.functions[1].local = 65_536 + 30;
    wrapped.functions[1].locals = 1;
    let mut function_0 = fact("host entry of function 0", &program(&[], &[]), "ends", "ended", None);
    function_0.calls = vec![0];
    let mut locals = program(&[DONE], &[]);
    locals.functions[1].locals = 2_049;
    let type_failed = "error Globals error: type check failed";
    let undoes = "a refusal undoes: AddV 28 31 34, cell 36 a string";
    let past = program(&[[6, 65, 28, 30]], &[]);
    vec![
        fact(undoes, &traces, type_failed, "refused 16", Some((34, ONE, 0))),
        fact("a first local cell of 65,566, one local", &wrapped, "ends", "refused 15", None),
        function_0,
        fact("2,049 locals", &locals, "error Local stack overflow", "refused 23", None),
        fact("a cell past the count: AddF 65 28 30", &past, "error Globals error: Invalid address (65)", "refused 15", None),
    ]
}

fn panics() -> Vec<Fact> {
    let mut builtin = program(&[], &[]);
    builtin.functions[1].first = -1;
    let mut arguments = program(&[DONE], &[]);
    arguments.functions[1].argc = 9;
    let equal = program(&[[6, 64, 28, 30]], &[]);
    vec![
        fact("Call of function 0", &program(&[[51, 28, 0, 0]], &[]), "panics: Call of function 0", "refused 19", None),
        fact("host entry of a builtin", &builtin, "panics: host entry of a builtin", "refused 21", None),
        fact("argument count 9", &arguments, "panics: argument count outside 0 to 8", "refused 24", None),
        fact("a cell equal to the count: AddF 64 28 30", &equal, "panics: a cell number equal to the count", "refused 15", None),
        fact("no statement: Goto 5", &program(&[[61, 5, 0, 0]], &[]), "panics: no statement at the position", "refused 14", None),
        fact("Goto 0, for ever", &program(&[[61, 0, 0, 0]], &[]), "panics: the 100,000th statement", "spent", None),
    ]
}

/// Function 1 calls function 2, a builtin, for a float in cell 4, and returns its result.
fn rounding(first: i32, x: u32) -> Program {
    let mut program = program(&[[52, 28, 0, 0], [43, 1, 2, 3]], &[(4, x), (28, 2)]);
    program.functions.push(Function { first, ..Function::default() });
    program
}

fn floats() -> Vec<Fact> {
    let quotient = |more: &[[i16; 4]]| {
        let mut statements = vec![[5, 28, 28, 30]];
        statements.extend(more);
        statements.push(DONE);
        program(&statements, &[])
    };
    let payload = program(&[[6, 28, 29, 30], DONE], &[(28, 0x7fa0_0001), (29, ONE)]);
    let stored = program(&[[31, 28, 30, 0], DONE], &[(28, 0x7fa0_0001)]);
    vec![
        fact("NaN: 0.0/0.0", &quotient(&[]), "ends", "ended", Some((30, 0xffc0_0000, 0x7fc0_0000))),
        fact("NaN: 7fa00001 + 1.0", &payload, "ends", "ended", Some((30, 0x7fe0_0001, 0x7fc0_0000))),
        fact("NaN: fabs of 7fc00001", &rounding(-43, 0x7fc0_0001), "ends", "ended", Some((1, 0x7fc0_0001, 0x7fc0_0000))),
        fact("NaN: floor of 7fc00001", &rounding(-37, 0x7fc0_0001), "ends", "ended", Some((1, 0x7fc0_0001, 0x7fc0_0000))),
        fact("NaN: ceil of ffc00000", &rounding(-38, 0xffc0_0000), "ends", "ended", Some((1, 0xffc0_0000, 0x7fc0_0000))),
        fact("NaN: rint of 7f800001", &rounding(-36, 0x7f80_0001), "ends", "ended", Some((1, 0x7fc0_0001, 0x7fc0_0000))),
        fact("rint of 0.49999997, in both", &rounding(-36, 0x3eff_ffff), "ends", "ended", Some((1, 0, 0))),
        fact("ceil of -0.5, in both", &rounding(-38, 0xbf00_0000), "ends", "ended", Some((1, 0x8000_0000, 0x8000_0000))),
        fact("NaN: StoreF moves bits in both", &stored, "ends", "ended", Some((30, 0x7fa0_0001, 0x7fa0_0001))),
        fact(
            "NaN read as an entity: 0.0/0.0, then NotEnt",
            &quotient(&[[47, 30, 0, 31]]),
            "error Globals error: Negative entity ID (-4194304)",
            "ended",
            None,
        ),
        fact(
            "NaN read as a function: 0.0/0.0, then StoreFnc",
            &quotient(&[[36, 30, 31, 0]]),
            "panics: a negative function number is stored",
            "ended",
            None,
        ),
        fact(
            "StoreFnc of ffffffff",
            &program(&[[36, 28, 29, 0], DONE], &[(28, u32::MAX)]),
            "panics: a negative function number is stored",
            "ended",
            Some((29, 0, u32::MAX)),
        ),
        fact(
            "StoreS of ffffffff",
            &program(&[[33, 28, 29, 0], DONE], &[(28, u32::MAX)]),
            "panics: a negative string number is stored",
            "refused 17",
            None,
        ),
        fact(
            "StoreEnt of ffffffff",
            &program(&[[34, 28, 29, 0], DONE], &[(28, u32::MAX)]),
            "error Globals error: Negative entity ID (-1)",
            "refused 17",
            None,
        ),
    ]
}

fn texts() -> Vec<Fact> {
    let called = |strings: &[u8], name: i32| {
        let mut called = program(&[[51, 28, 0, 0], DONE, DONE], &[(28, 2)]);
        called.strings = strings.to_vec();
        called.functions.push(Function { first: 2, name, ..Function::default() });
        called
    };
    vec![
        fact(
            "a called function's name without a zero byte",
            &called(b"\0f", 1),
            "panics: a name without a zero byte after it is converted",
            "ended",
            None,
        ),
        fact(
            "a host-entered function's name without a zero byte, no log",
            &{
                let mut entered = program(&[DONE], &[]);
                entered.strings = b"\0f".to_vec();
                entered.functions[1].name = 1;
                entered
            },
            "ends",
            "ended",
            None,
        ),
        fact(
            "a called function's name within a character",
            &called("\0é\0".as_bytes(), 2),
            "panics: a name that begins or ends within a character is converted",
            "ended",
            None,
        ),
        fact(
            "a called function's name with a character of two bytes",
            &called("\0é\0".as_bytes(), 1),
            "panics: a name that begins or ends within a character is converted",
            "ended",
            None,
        ),
        fact("a called function's name with two characters of two bytes", &called("\0éé\0".as_bytes(), 1), "ends", "ended", None),
        fact("strings that aren't UTF-8", &called(b"\0\xff\0", 0), "load panics: load: the strings aren't UTF-8", "ended", None),
    ]
}

/// A statement on these cells, in a file with these strings.
fn on_strings(statement: [i16; 4], cells: &[(usize, u32)], strings: &[u8]) -> Program {
    let mut program = program(&[statement, DONE], cells);
    program.strings = strings.to_vec();
    program
}

/// EqS and NeS: by the texts here, by the numbers in the Rust.
fn compared_texts() -> Vec<Fact> {
    const TWICE: &[u8] = b"\0a\0a\0";
    let of = |opcode: i16, first: u32, second: u32| on_strings([opcode, 28, 29, 30], &[(28, first), (29, second)], TWICE);
    let equal_operands = on_strings([12, 28, 28, 30], &[(28, u32::MAX)], TWICE);
    let at_the_end = on_strings([12, 28, 29, 30], &[(28, 1), (29, 3)], b"\0a\0a");
    let mut typed = of(12, 5, 1);
    typed.globaldefs.push((2, 29, 0));
    let equal_to_count = on_strings([12, 28, 64, 30], &[(28, 5)], TWICE);
    const MISSING: &str = "panics: a cell number equal to the count";
    vec![
        fact("strings: EqS of 1 and 3, same text", &of(12, 1, 3), "ends", "ended", Some((30, 0, ONE))),
        fact("strings: NeS of 1 and 3, same text", &of(17, 1, 3), "ends", "ended", Some((30, ONE, 0))),
        fact("strings: EqS of 1 and 3, the second without a zero byte", &at_the_end, "ends", "ended", Some((30, 0, ONE))),
        fact("strings: EqS of 0 and 2, both empty", &of(12, 0, 2), "ends", "ended", Some((30, 0, ONE))),
        fact("strings: EqS of 1 and 2, other texts", &of(12, 1, 2), "ends", "ended", Some((30, 0, 0))),
        fact("strings: EqS of 5 and 5, out of range", &of(12, 5, 5), "ends", "refused 33", Some((30, ONE, 0))),
        fact("strings: EqS of 4 and 5, the second out of range", &of(12, 4, 5), "ends", "refused 33", None),
        fact("strings: NeS of ffffffff and 1", &of(17, u32::MAX, 1), "ends", "refused 33", Some((30, ONE, 0))),
        fact("strings: EqS 28 28 30 of ffffffff, unread", &equal_operands, "ends", "ended", Some((30, ONE, ONE))),
        fact("strings: EqS of 5 and a cell that is a float", &typed, "error Globals error: type check failed", "refused 33", None),
        fact("strings: EqS of 5 and a cell equal to the count", &equal_to_count, MISSING, "refused 33", None),
    ]
}

/// NotS: of an empty text too here, of number 0 and operand 0 alone in the Rust.
fn tested_texts() -> Vec<Fact> {
    let of = |number: u32, strings: &[u8]| on_strings([46, 28, 0, 30], &[(28, number)], strings);
    let operand_0 = |number: u32| on_strings([46, 0, 0, 30], &[(0, number)], b"\0a\0");
    vec![
        fact("strings: NotS of 1, an empty text", &of(1, b"\0\0"), "ends", "ended", Some((30, 0, ONE))),
        fact("strings: NotS of 0, text \"a\"", &of(0, b"a\0"), "ends", "ended", Some((30, ONE, ONE))),
        fact("strings: NotS 0 0 30 of 1, text \"a\"", &operand_0(1), "ends", "ended", Some((30, ONE, ONE))),
        fact("strings: NotS of 1 of one byte", &of(1, b"\0"), "ends", "refused 33", None),
        fact("strings: NotS 0 0 30 of 3 of three bytes", &operand_0(3), "ends", "refused 33", Some((30, ONE, 0))),
    ]
}

/// AddF 28 29 30 with definitions of cell 28.
fn void_definitions() -> Vec<Fact> {
    const SAVED: u16 = 0x8000;
    let defined = |types: &[u16]| {
        let mut program = program(&[[6, 28, 29, 30], DONE], &[(28, ONE)]);
        program.globaldefs.extend(types.iter().map(|&type_| (type_, 28, 0)));
        program
    };
    const FAILED: &str = "error Globals error: type check failed";
    vec![
        fact("void: AddF, cell 28 void, then a float", &defined(&[0, 2]), FAILED, "ended", Some((30, 0, ONE))),
        fact("void: AddF, cell 28 void with the save flag, then a float", &defined(&[SAVED, 2]), FAILED, "ended", Some((30, 0, ONE))),
        fact("void: AddF, cell 28 void alone", &defined(&[0]), FAILED, "ended", Some((30, 0, ONE))),
        fact("void: AddF, cell 28 void, then a string", &defined(&[0, 1]), FAILED, "refused 16", None),
        fact("void: AddF, cell 28 a float, then void", &defined(&[2, 0]), "ends", "ended", Some((30, ONE, ONE))),
    ]
}

fn loads() -> Vec<Fact> {
    let whole = program(&[DONE], &[]);
    let with = |at: usize, number: i32| {
        let mut bytes = whole.bytes();
        bytes[at..at + 4].copy_from_slice(&number.to_le_bytes());
        bytes
    };
    let file = |name, bytes, rust, here| Fact { name, bytes, calls: vec![1], rust, here, cell: None, entities: 0, entity_cell: None };
    let with_cells = |number: usize| {
        let mut program = whole.clone();
        program.cells.resize(number, 0);
        program
    };
    let mut too_few = with_cells(63);
    too_few.entity_cells = 104;
    let mut long = whole.bytes();
    long.resize(1_048_577, 0);
    let mut type_8 = whole.clone();
    type_8.globaldefs.push((8, 28, 0));
    vec![
        file("version 7", with(0, 7), "load panics: load: the version isn't 6", "load refused 2"),
        file("check number 5928", with(4, 5928), "load panics: load: the check number isn't 5927", "load refused 3"),
        file(
            "cells past the end of the file",
            with(48, 9_999),
            "load panics: load: a lump ends past the end of the file",
            "load refused 4",
        ),
        file("functions past the end of the file", with(32, 9_999), "load error I/O error: failed to fill whole buffer", "load refused 4"),
        file("-1 statements", with(12, -1), "load panics: load: a negative count, memory for it is asked", "load refused 4"),
        file("an empty lump (fields) at offset -1", with(24, -1), "ends", "load refused 4"),
        file("-1 cells per entity", with(56, -1), "ends", "load refused 11"),
        file("104 cells per entity", with(56, 104), "load error Entity error: addr_count (104)", "load refused 11"),
        file("32,769 cells", with_cells(32_769).bytes(), "ends", "load refused 10"),
        file("63 cells", with_cells(63).bytes(), "ends", "load refused 10"),
        file("36 cells", with_cells(36).bytes(), "ends", "load refused 10"),
        file("35 cells", with_cells(35).bytes(), "load error Global count lower", "load refused 10"),
        file("63 cells, 104 cells per entity", too_few.bytes(), "load error Entity error: addr_count (104)", "load refused 10"),
        file("1,048,577 bytes", long, "ends", "load refused 1"),
        file("a definition of type 8", type_8.bytes(), "load panics: load: a definition's type is over 7", "load refused 8"),
    ]
}

const NO_ENTITY: &str = "panics: an entity that isn't there is read, or written by number 600";
const NO_FIELD: &str = "panics: a field cell equal to the cells per entity";
const WRONG_TYPE: &str = "error Entity error: type check failed";

/// Reading and writing fields: entity in cell 28, field in cell 29, pointer in cell 30, two entities of 105 cells.
fn fields() -> Vec<Fact> {
    let load = |opcode: i16, entity: u32, field: u32| program(&[[opcode, 28, 29, 31], DONE], &[(28, entity), (29, field)]);
    let store = |opcode: i16, pointer: u32| program(&[[opcode, 31, 30, 0], DONE], &[(30, pointer), (31, ONE), (32, ONE), (33, ONE)]);
    let defined = |mut program: Program, definitions: &[(u16, u16)]| {
        program.fielddefs.extend(definitions.iter().map(|&(type_, cell)| (type_, cell, 0)));
        program
    };
    let string = defined(program(&[[24, 28, 29, 65], DONE], &[(29, 3)]), &[(1, 3)]);
    let third = program(&[[37, 31, 30, 1], DONE], &[]);
    vec![
        fact("fields: StorePF of 1.0 to entity 0, field 3", &store(37, 12), "ends", "ended", None).and_entity_cell(3, ONE, ONE),
        fact("fields: StorePF with third operand 1", &third, "error storep_f: nonzero arg3", "refused 18", None),
        fact("fields: LoadF of entity 2 of 2", &load(24, 2, 3), NO_ENTITY, "refused 30", None),
        fact("fields: LoadF of entity 600", &load(24, 600, 3), NO_ENTITY, "refused 30", None),
        fact("fields: LoadF without entities", &load(24, 0, 3), NO_ENTITY, "refused 30", None).with_entities(0),
        fact("fields: LoadF of field 105", &load(24, 0, 105), NO_FIELD, "refused 31", None),
        fact("fields: LoadF of field 106", &load(24, 0, 106), "error Entity error: Invalid address (106)", "refused 31", None),
        fact("fields: LoadV of field 103", &load(25, 0, 103), NO_FIELD, "refused 31", None),
        fact("fields: StorePV to field 103 of entity 0", &store(38, 412), NO_FIELD, "refused 31", None).and_entity_cell(104, ONE, 0),
        fact("fields: LoadF of field 3, a string", &defined(load(24, 0, 3), &[(1, 3)]), WRONG_TYPE, "refused 16", None),
        fact("fields: LoadF of field 3, void, then a float", &defined(load(24, 0, 3), &[(0, 3), (2, 3)]), "ends", "ended", None),
        fact("fields: StorePV to field 3, cell 5 a string", &defined(store(38, 12), &[(1, 5)]), WRONG_TYPE, "refused 16", None)
            .and_entity_cell(4, ONE, 0),
        fact("fields: LoadF 28 29 65 of field 3, a string", &string, WRONG_TYPE, "refused 15", None),
        fact("fields: LoadFld", &load(28, 0, 3), "panics: LoadFld or StorePFld", "ended", None),
        fact("fields: StorePFld", &store(41, 12), "panics: LoadFld or StorePFld", "ended", None).and_entity_cell(3, 0, ONE),
    ]
}

fn pointers() -> Vec<Fact> {
    let address = |entity: u32, field: u32| program(&[[30, 28, 29, 30], DONE], &[(28, entity), (29, field)]);
    let store = |pointer: u32| program(&[[37, 31, 30, 0], DONE], &[(30, pointer), (31, ONE)]);
    let as_float = |mut program: Program| {
        program.globaldefs.push((2, 30, 0));
        program
    };
    const BAD: &str = "panics: a pointer is negative or no multiple of 4";
    const OVER: &str = "panics: a pointer to be made is over 2,147,483,647";
    vec![
        fact("pointers: Address of entity 1, field 3", &address(1, 3), "ends", "ended", Some((30, 432, 432))),
        fact("pointers: Address of entity 2 of 2", &address(2, 3), "ends", "refused 30", Some((30, 852, 0))),
        fact("pointers: Address of field 105", &address(0, 105), "ends", "refused 31", Some((30, 420, 0))),
        fact("pointers: Address of entity 2,147,483,647", &address(i32::MAX as u32, 3), OVER, "refused 30", None),
        fact("pointers: Address of field 2,147,483,647", &address(0, i32::MAX as u32), OVER, "refused 31", None),
        fact("pointers: Address to a cell that is a float", &as_float(address(1, 3)), "ends", "refused 16", Some((30, 432, 0))),
        fact("pointers: StorePF by a cell that is a float", &as_float(store(12)), "ends", "refused 16", None).and_entity_cell(3, ONE, 0),
        fact("pointers: StorePF to entity 2 of 2", &store(840), "error No entity at list entry 2", "refused 32", None),
        fact("pointers: StorePF to entity 600", &store(252_000), NO_ENTITY, "refused 32", None),
        fact("pointers: StorePF to entity 601", &store(252_420), "error Invalid entity ID (601)", "refused 32", None),
        fact("pointers: StorePF without entities", &store(0), "error No entity at list entry 0", "refused 32", None).with_entities(0),
        fact("pointers: StorePF by -4", &store(-4_i32 as u32), BAD, "refused 32", None),
        fact("pointers: StorePF by 2", &store(2), BAD, "refused 32", None),
    ]
}

/// Bits ffffffff are moved to field 3 of entity 0 as a float, and read as something else.
fn negative_in_fields() -> Vec<Fact> {
    let moved = |load: [i16; 4]| program(&[[37, 31, 30, 0], load, DONE], &[(29, 3), (30, 12), (31, u32::MAX)]);
    let store = |opcode: i16| program(&[[opcode, 31, 30, 0], DONE], &[(30, 12), (31, u32::MAX)]);
    let ends = Some((32, 0, u32::MAX));
    const NEGATIVE: &str = "error Entity error: Negative entity ID (-1)";
    const STRING: &str = "panics: a negative string number is stored";
    const FUNCTION: &str = "panics: a negative function number is stored";
    vec![
        fact("negative: LoadS", &moved([26, 28, 29, 32]), STRING, "refused 17", None),
        fact("negative: LoadEnt", &moved([27, 28, 29, 32]), NEGATIVE, "refused 17", None),
        fact("negative: LoadEnt to a cell that isn't there", &moved([27, 28, 29, 65]), NEGATIVE, "refused 15", None),
        fact("negative: LoadFnc", &moved([29, 28, 29, 32]), FUNCTION, "ended", ends),
        fact("negative: StorePS", &store(39), STRING, "refused 17", None),
        fact("negative: StorePEnt", &store(40), "error Globals error: Negative entity ID (-1)", "refused 17", None),
        fact("negative: StorePFnc", &store(42), FUNCTION, "ended", None).and_entity_cell(3, 0, u32::MAX),
    ]
}

/// The Rust's field numbers have 16 bits.
fn cut_to_16_bits() -> Vec<Fact> {
    let load = |field: u32| program(&[[37, 31, 30, 0], [24, 28, 29, 32], DONE], &[(29, field), (30, 12), (31, ONE)]);
    let long = |mut program: Program| {
        program.entity_cells = 40_000;
        program
    };
    let negative = program(&[[39, 31, 30, 0], DONE], &[(30, 4 * 32_768), (31, u32::MAX)]);
    const CUT: &str = "error Entity error: Invalid address (-32768)";
    vec![
        fact("16 bits: LoadF of field 65,539", &load(65_539), "ends", "refused 31", Some((32, ONE, 0))),
        fact("16 bits: LoadF of field 32,768 of 40,000 cells", &long(load(32_768)), CUT, "ended", None),
        fact("16 bits: StorePS of ffffffff to field 32,768 of 40,000 cells", &long(negative), CUT, "refused 17", None),
    ]
}

fn end_text(end: &End) -> String {
    match end {
        End::Done => "ends".into(),
        End::Error(text) => format!("error {}", text),
        End::Panic(panic) => format!("panics: {}", Class::of(panic).name()),
    }
}

/// How a run ended, and what it left in the cells and in the entity cells.
struct Ran {
    end: String,
    cells: Vec<u32>,
    entities: Vec<u32>,
}

impl Ran {
    fn not_loaded(end: String) -> Ran {
        Ran { end, cells: Vec::new(), entities: Vec::new() }
    }
}

fn by_the_rust(fact: &Fact, lent: &Lent) -> Ran {
    match oracle::load(Variant::Unchanged, &fact.bytes, lent) {
        Err(end) => Ran::not_loaded(format!("load {}", end_text(&end))),
        Ok(mut level) => {
            let cells = View(&fact.bytes).cells();
            let seen = oracle::call(&mut *level, cells, false, |l| l.execute_program(fact.calls[0]));
            Ran { end: end_text(&seen.end), cells: seen.cells, entities: seen.entities }
        }
    }
}

fn here(fact: &Fact, lent: &Lent) -> Ran {
    match Ours::load(&fact.bytes, lent) {
        Err(number) => Ran::not_loaded(format!("load {}", Answer::Refused(number))),
        Ok(mut ours) => {
            let left = ours.execute(fact.calls[0]);
            Ran { end: left.answer.to_string(), cells: left.cells, entities: left.entities }
        }
    }
}

/// Whether a cell is as expected in both, and the text that says what it is.
fn check_cell(name: &str, expected: Option<(usize, u32, u32)>, rust: &[u32], here: &[u32]) -> (bool, String) {
    let Some((cell, rusts, ours)) = expected else {
        return (true, String::new());
    };
    match (rust.get(cell), here.get(cell)) {
        (Some(&a), Some(&b)) => ((a, b) == (rusts, ours), format!("; {} {}: Rust {:08x}, here {:08x}", name, cell, a, b)),
        _ => (false, String::new()),
    }
}

fn check(fact: &Fact) -> bool {
    let lent = Lent::zeros(&fact.bytes, fact.entities);
    let (rust, here) = (by_the_rust(fact, &lent), here(fact, &lent));
    let (good, cell) = check_cell("cell", fact.cell, &rust.cells, &here.cells);
    let (entities_good, entity_cell) = check_cell("entity cell", fact.entity_cell, &rust.entities, &here.entities);
    let good = good && entities_good && rust.end.starts_with(fact.rust) && here.end == fact.here;
    let mark = if good { "" } else { "NOT AS EXPECTED " };
    println!("{}{}: Rust {}; here {}{}{}", mark, fact.name, rust.end, here.end, cell, entity_cell);
    good
}

/// A host entry's position, and what an entry at depth 31 leaves.
fn positions() -> bool {
    let bytes = program(&[DONE], &[]).bytes();
    let lent = Lent::default();
    let mut level = oracle::load_whole(Variant::Unchanged, &bytes, &lent);
    let mut ours = Ours::load(&bytes, &lent).expect("a whole file");
    let seen = oracle::call(&mut *level, 64, false, |l| l.execute_program(1));
    let left = ours.execute(1);
    println!("position after a host entry that ended: Rust {}, here {}", seen.observed.pc, left.position);
    let good = seen.observed.pc == 1 && left.position == 0;
    let mut deep = oracle::load_whole(Variant::Unchanged, &bytes, &lent);
    let mut depths = Vec::new();
    for _ in 0..32 {
        let seen = oracle::call(&mut *deep, 64, false, |l| l.enter_function(1));
        depths.push((seen.end, seen.observed.frames.len(), ours.enter(1)));
    }
    let (end, depth, left) = &depths[31];
    println!("entry at depth 31: Rust {}, depth {}; here {}, depth {}", end_text(end), depth, left.answer, left.depth);
    good && *depth == 32 && left.answer == Answer::Refused(22) && left.depth == 31
}

/// The Rust reserves memory by a count; the process ends. In a process of its own.
fn reserved() -> bool {
    let mut bytes = program(&[DONE], &[]).bytes();
    bytes[36..40].copy_from_slice(&i32::MAX.to_le_bytes());
    let path = std::env::temp_dir().join(format!("differential-{}.dat", std::process::id()));
    std::fs::write(&path, &bytes).expect("a temporary file");
    let this = std::env::current_exe().expect("this program");
    let output = (std::process::Command::new(this).arg("load").arg(&path)).output().expect("a process");
    let _ = std::fs::remove_file(&path);
    let here = Ours::load(&bytes, &Lent::default()).err();
    let text = String::from_utf8_lossy(&output.stderr);
    let line = text.lines().next().unwrap_or("").trim_end();
    println!("2,147,483,647 functions: Rust {} (\"{}\"); here load refused {:?}", output.status, line, here);
    !output.status.success() && here == Some(4)
}

/// For `reserved`: a load by the unchanged Rust, in this process.
pub fn load(path: &str) -> bool {
    let bytes = std::fs::read(path).expect("a file");
    oracle::load(Variant::Unchanged, &bytes, &Lent::default()).is_ok()
}

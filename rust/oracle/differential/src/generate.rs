//! Random program files. A program's number decides everything about it.

use crate::entities::{self, Lent};
use crate::program::{Function, Program, LEAST_CELLS};
use crate::random::Random;

/// How a file is made.
#[derive(Clone, Copy, Debug, PartialEq, Eq, PartialOrd, Ord)]
pub enum Kind {
    /// Whole programs: functions that calculate, branch and call, with definitions that mostly fit.
    Random,
    /// Operands, local ranges, argument counts, depths and sizes at their limits.
    Boundary,
    /// One of the others with bytes changed, cut off or added.
    Damaged,
}

pub const KINDS: [Kind; 3] = [Kind::Random, Kind::Boundary, Kind::Damaged];

/// A file, the functions that the host enters one after the other, and the entities.
pub struct Case {
    pub kind: Kind,
    pub bytes: Vec<u8>,
    pub calls: Vec<usize>,
    /// How many entities are asked for.
    pub entities: usize,
    /// Decides what the entities hold.
    pub content: u64,
}

impl Case {
    pub fn lent(&self) -> Lent {
        Lent::random(&self.bytes, self.entities, self.content)
    }
}

/// How many entities a case asks for.
pub fn entities(r: &mut Random) -> usize {
    match r.below(500) {
        0 => r.pick(&[599, 600]),
        _ => r.pick(&[0, 1, 2, 3, 3, 5, 8, 8, 20]),
    }
}

pub fn case(seed: u64, number: u64) -> Case {
    let mut random = Random::new(seed, number);
    let entities = entities(&mut random);
    with_entities(&mut random, entities)
}

pub fn case_without_entities(seed: u64, number: u64) -> Case {
    with_entities(&mut Random::new(seed, number), 0)
}

fn with_entities(r: &mut Random, entities: usize) -> Case {
    let kind = match r.below(10) {
        0..=5 => Kind::Random,
        6 | 7 => Kind::Boundary,
        _ => Kind::Damaged,
    };
    let bytes = match kind {
        Kind::Random => whole(r, entities).bytes(),
        Kind::Boundary => boundary(r, entities).bytes(),
        Kind::Damaged => damaged(r, entities),
    };
    let calls = if r.percent(70) { vec![1] } else { (0..r.between(1, 3)).map(|_| r.pick(&[1, 1, 2, 0, 3, 9])).collect() };
    Case { kind, bytes, calls, entities, content: r.next() }
}

// ---- values

/// Float bits that arithmetic treats in different ways.
const FLOATS: [u32; 20] = [
    0x0000_0000, // 0
    0x8000_0000, // -0
    0x3f80_0000, // 1
    0xbf80_0000, // -1
    0x3fc0_0000, // 1.5
    0x4010_0000, // 2.25
    0x4040_0000, // 3
    0xc0a0_0000, // -5
    0x4b80_0000, // 16777216
    0x4b80_0001, // 16777218
    0x4f00_0000, // 2147483648
    0xcf00_0000, // -2147483648
    0x4eff_ffff, // 2147483520
    0x7f7f_ffff, // the greatest
    0x0080_0000, // the least normal
    0x0000_0001, // the least
    0x807f_ffff,
    0x3eaa_aaab, // 1/3
    0x501502f9,  // 1e10
    0x42c80000,  // 100
];
/// The strings of most programs. Names are those of 0, 1 and 3; two texts are there twice, one of them the empty one.
const TEXTS: &[u8] = b"\0main\0red\0blue\0red\0\0redder\0";
/// Numbers in them whose texts are different: "", "main", "ain", "in", "red", "blue", "ue", "redder".
const DIFFERENT: [u32; 8] = [0, 1, 2, 3, 6, 10, 12, 20];
/// "red" and "" once more, and "ed" twice.
const AGAIN: [u32; 4] = [15, 19, 7, 16];
/// At the limits of the range, and past them.
const AT_LIMITS: [u32; 6] = [26, 27, 28, 0x7fff_ffff, 0x8000_0000, u32::MAX];

/// A string number, mostly one of those with different texts.
pub fn string_number(r: &mut Random) -> u32 {
    match r.below(60) {
        0 => r.pick(&AT_LIMITS),
        1..=8 => r.pick(&AGAIN),
        _ => r.pick(&DIFFERENT),
    }
}

const NOT_FINITE: [u32; 6] = [0x7f80_0000, 0xff80_0000, 0x7fc0_0000, 0xffc0_0000, 0x7fa0_0001, 0xffff_ffff];

/// What a program is like.
struct Style {
    infinities: bool,
    returns: Returns,
    arguments: Arguments,
    not_v: bool,
    /// Percent of operands that are chosen without a look at the types.
    careless: u32,
    handed_over: bool,
    /// Whether there are statements that read and write the entities' fields.
    fields: bool,
    entities: usize,
}

#[derive(Clone, Copy, PartialEq)]
enum Returns {
    /// Three operands in a row: the Rust and pr_exec.c agree.
    InARow,
    /// As compilers write them.
    FirstAlone,
    Any,
}

#[derive(Clone, Copy, PartialEq)]
enum Arguments {
    None,
    /// One cell: the Rust and pr_exec.c agree.
    One,
    Many,
}

fn style(r: &mut Random, entities: usize) -> Style {
    Style {
        infinities: r.percent(30),
        returns: r.pick(&[Returns::InARow, Returns::InARow, Returns::FirstAlone, Returns::FirstAlone, Returns::Any]),
        arguments: r.pick(&[Arguments::None, Arguments::None, Arguments::One, Arguments::Many]),
        not_v: r.percent(40),
        careless: r.pick(&[0, 0, 1, 3, 15]),
        handed_over: r.percent(10),
        fields: r.percent(if entities > 0 { 60 } else { 10 }),
        entities,
    }
}

fn float(r: &mut Random, style: &Style) -> u32 {
    match r.below(10) {
        0..=5 => r.pick(&FLOATS),
        6 | 7 => (r.between(-8, 8) as f32).to_bits(),
        8 if style.infinities => r.pick(&NOT_FINITE),
        9 if style.infinities => r.next() as u32,
        _ => ((r.between(-4000, 4000) as f32) / 16.0).to_bits(),
    }
}

// ---- types of cells

/// Types as in definitions; `UNTYPED` for a cell without one.
const UNTYPED: u16 = 99;
const STRING: u16 = 1;
const FLOAT: u16 = 2;
const VECTOR: u16 = 3;
const ENTITY: u16 = 4;
const FIELD: u16 = 5;
const FUNCTION: u16 = 6;
const POINTER: u16 = 7;

/// Any type of a global definition, seldom void: runs are kept to files without such.
fn global_type(r: &mut Random) -> u16 {
    match r.below(40) {
        0 => 0,
        _ => 1 + r.below(7) as u16,
    }
}

/// How many cells a program's statements use. With few of them one statement often reads what another wrote.
const USED: [usize; 7] = [36, 40, 64, 64, 64, 100, 180];
const USED_WITH_FIELDS: [usize; 7] = [64, 64, 64, 64, 100, 100, 180];

/// A program whose statements use so many cells. It has 64 at least: fewer are refused (02, R-7).
fn with_cells(used: usize) -> Program {
    Program::new(used.max(LEAST_CELLS))
}

/// The types that the definitions give, and one that each cell is used as. For a cell with a field number or a pointer also the type of the
/// field.
struct Cells {
    /// Operands and local cells are mostly below this.
    used: usize,
    types: Vec<u16>,
    uses: Vec<u16>,
    of_field: Vec<u16>,
    fields: Fields,
}

/// The fields that statements use: cell within the entity, and type.
struct Fields {
    per_entity: i32,
    list: Vec<(u16, u16)>,
}

impl Fields {
    fn new(r: &mut Random, program: &mut Program, style: &Style) -> Fields {
        if style.fields {
            program.entity_cells = r.pick(&[105, 105, 105, 106, 107, 120]);
        }
        let mut fields = Fields { per_entity: program.entity_cells, list: Vec::new() };
        let share = r.pick(&[0, 30, 70, 95]);
        let mut cell = r.below(60) as u16;
        for _ in 0..if style.fields { 10 } else { 1 } {
            let type_ = r.pick(&[FLOAT, FLOAT, VECTOR, VECTOR, STRING, ENTITY, ENTITY, FIELD, FUNCTION]);
            fields.list.push((cell, type_));
            if style.fields && r.percent(share) {
                fields.define(r, program, cell, type_);
            }
            cell += if type_ == VECTOR { 3 } else { 1 } + r.pick(&[0, 0, 1]);
        }
        if style.fields && r.percent(20) {
            // A vector that ends with the entity, or after it.
            fields.list.push((program.entity_cells as u16 - r.pick(&[1, 2, 3, 3]), VECTOR));
        }
        fields
    }

    fn define(&self, r: &mut Random, program: &mut Program, cell: u16, type_: u16) {
        // Void definitions are passed over.
        if r.percent(10) {
            program.fielddefs.push((0, cell, 0));
        }
        program.fielddefs.push((type_, cell, 0));
        if type_ == VECTOR && r.percent(50) {
            program.fielddefs.push((FLOAT, cell, 0));
        } else if r.percent(3) {
            let other = r.below(8) as u16;
            program.fielddefs.push((other, cell + r.below(3) as u16, 0));
        }
    }

    /// A field number, mostly of one of the fields, and the field's type.
    fn number(&self, r: &mut Random) -> (u32, u16) {
        let (cell, type_) = r.pick(&self.list);
        let number = match r.below(100) {
            0 => u32::MAX,
            1 => r.pick(&[32_767, 32_768, 65_535, 65_536 + cell as u32, 0x7fff_ffff]),
            2 => (self.per_entity + r.between(-3, 1) as i32) as u32,
            _ => cell as u32,
        };
        (number, type_)
    }

    /// A pointer, mostly to one of the fields of an entity, and the field's type.
    fn pointer(&self, r: &mut Random, entities: usize) -> (u32, u16) {
        let (cell, type_) = r.pick(&self.list);
        let entity = entities::some_entity(r, entities) as i64;
        let pointer = 4 * (entity * self.per_entity as i64 + cell as i64);
        let number = match r.below(100) {
            0 => r.pick(&[u32::MAX, 0x8000_0000, 0x7fff_fffc, 0x7fff_ffff]),
            1 => pointer as u32 + r.between(1, 3) as u32,
            2 => 4 * 600 * self.per_entity as u32,
            _ => pointer as u32,
        };
        (number, type_)
    }
}

impl Cells {
    fn new(r: &mut Random, program: &mut Program, used: usize, functions: usize, style: &Style) -> Cells {
        let count = program.cells.len();
        let share = r.pick(&[0, 0, 20, 60, 95]);
        let fields = Fields::new(r, program, style);
        let mut cells = Cells { used, types: vec![UNTYPED; count], uses: vec![FLOAT; count], of_field: vec![UNTYPED; count], fields };
        let mut cell = 28;
        while cell < count {
            let type_ = match style.fields {
                true => r.pick(&WITH_FIELDS),
                false => r.pick(&[FLOAT, FLOAT, FLOAT, FLOAT, VECTOR, VECTOR, STRING, ENTITY, FIELD, FUNCTION, FUNCTION]),
            };
            let width = if type_ == VECTOR { 3 } else { 1 };
            cells.uses[cell] = type_;
            if r.percent(share) {
                cells.define(r, program, cell, type_);
            }
            for c in cell..(cell + width).min(count) {
                program.cells[c] = cells.value(r, c, type_, functions, style);
            }
            cell += width;
        }
        if r.percent(5) {
            let name = 0;
            program.globaldefs.push((global_type(r), r.below(count + 4) as u16, name));
        }
        cells
    }

    fn define(&mut self, r: &mut Random, program: &mut Program, cell: usize, type_: u16) {
        let flag = if r.percent(20) { 0x8000 } else { 0 };
        program.globaldefs.push((type_ | flag, cell as u16, 0));
        self.types[cell] = type_;
        // Compilers define the first component of a vector once more, as a float.
        if type_ == VECTOR && r.percent(50) {
            program.globaldefs.push((FLOAT, cell as u16, 0));
        } else if r.percent(3) {
            program.globaldefs.push((global_type(r), cell as u16, 0));
        }
    }

    fn value(&mut self, r: &mut Random, cell: usize, type_: u16, functions: usize, style: &Style) -> u32 {
        match type_ {
            STRING => string_number(r),
            FIELD if style.fields => {
                let (number, of) = self.fields.number(r);
                self.of_field[cell] = of;
                number
            }
            POINTER => {
                let (number, of) = self.fields.pointer(r, style.entities);
                self.of_field[cell] = of;
                number
            }
            ENTITY if style.fields && r.percent(97) => entities::some_entity(r, style.entities) as u32,
            ENTITY | FIELD if r.percent(3) => u32::MAX - r.below(3) as u32,
            ENTITY | FIELD => r.below(5) as u32,
            FUNCTION if r.percent(3) => r.pick(&[0, 77, u32::MAX, functions as u32]),
            FUNCTION if r.percent(5) => 1,
            // Mostly one of the later functions, so that calls don't go round for ever.
            FUNCTION => (1 + r.below(functions - 1)).max(1 + r.below(functions - 1)) as u32,
            _ => float(r, style),
        }
    }

    /// A cell that may be read or written as the type.
    fn operand(&self, r: &mut Random, want: u16, style: &Style) -> i16 {
        let count = self.types.len();
        if r.percent(style.careless) {
            return if r.percent(50) { r.below(count) as i16 } else { edge(r, count) };
        }
        let width = if want == VECTOR { 3 } else { 1 };
        for _ in 0..if want == FUNCTION { 60 } else { 12 } {
            let cell = r.below(self.used - width + 1);
            let fits = (0..width).all(|i| self.fits(cell + i, if want == VECTOR { FLOAT } else { want }));
            if fits && (want == FLOAT || want == VECTOR || self.uses[cell] == want) {
                return cell as i16;
            }
        }
        r.below(28 - 2) as i16
    }

    /// A cell that is used as the type, for a field of that type.
    fn for_field(&self, r: &mut Random, want: u16, of: u16, style: &Style) -> i16 {
        for _ in 0..40 {
            let cell = 28 + r.below(self.used - 28);
            if self.uses[cell] == want && self.of_field[cell] == of {
                return cell as i16;
            }
        }
        self.operand(r, want, style)
    }

    fn fits(&self, cell: usize, want: u16) -> bool {
        let type_ = self.types[cell];
        type_ == UNTYPED || type_ == want || (type_ == VECTOR && want == FLOAT)
    }
}

/// What the cells of a program with statements on fields are used as.
const WITH_FIELDS: [u16; 17] =
    [FLOAT, FLOAT, FLOAT, VECTOR, VECTOR, STRING, ENTITY, ENTITY, ENTITY, FIELD, FIELD, FIELD, FIELD, FUNCTION, FUNCTION, POINTER, POINTER];

/// A cell number at a limit.
fn edge(r: &mut Random, count: usize) -> i16 {
    let count = count.min(32_768) as i64;
    let cell = r.pick(&[
        0,
        1,
        2,
        3,
        4,
        26,
        27,
        28,
        29,
        count - 4,
        count - 3,
        count - 2,
        count - 1,
        count,
        count + 1,
        count + 2,
        -1,
        -2,
        -3,
        32_765,
        32_766,
        32_767,
        -32_768,
    ]);
    cell as i16
}

// ---- whole programs

/// The opcodes of statements that neither branch nor call, with the types of their operands.
const SHAPES: [(i16, [u16; 3]); 37] = [
    (1, [FLOAT, FLOAT, FLOAT]),
    (2, [VECTOR, VECTOR, FLOAT]),
    (3, [FLOAT, VECTOR, VECTOR]),
    (4, [VECTOR, FLOAT, VECTOR]),
    (5, [FLOAT, FLOAT, FLOAT]),
    (6, [FLOAT, FLOAT, FLOAT]),
    (7, [VECTOR, VECTOR, VECTOR]),
    (8, [FLOAT, FLOAT, FLOAT]),
    (9, [VECTOR, VECTOR, VECTOR]),
    (10, [FLOAT, FLOAT, FLOAT]),
    (11, [VECTOR, VECTOR, FLOAT]),
    (12, [STRING, STRING, FLOAT]),
    (13, [ENTITY, ENTITY, FLOAT]),
    (14, [FUNCTION, FUNCTION, FLOAT]),
    (15, [FLOAT, FLOAT, FLOAT]),
    (16, [VECTOR, VECTOR, FLOAT]),
    (17, [STRING, STRING, FLOAT]),
    (18, [ENTITY, ENTITY, FLOAT]),
    (19, [FUNCTION, FUNCTION, FLOAT]),
    (20, [FLOAT, FLOAT, FLOAT]),
    (21, [FLOAT, FLOAT, FLOAT]),
    (22, [FLOAT, FLOAT, FLOAT]),
    (23, [FLOAT, FLOAT, FLOAT]),
    (31, [FLOAT, FLOAT, NONE]),
    (32, [VECTOR, VECTOR, NONE]),
    (33, [STRING, STRING, NONE]),
    (34, [ENTITY, ENTITY, NONE]),
    (35, [FIELD, FIELD, NONE]),
    (36, [FUNCTION, FUNCTION, NONE]),
    (44, [FLOAT, NONE, FLOAT]),
    (46, [STRING, NONE, FLOAT]),
    (47, [ENTITY, NONE, FLOAT]),
    (48, [FUNCTION, NONE, FLOAT]),
    (62, [FLOAT, FLOAT, FLOAT]),
    (63, [FLOAT, FLOAT, FLOAT]),
    (64, [FLOAT, FLOAT, FLOAT]),
    (65, [FLOAT, FLOAT, FLOAT]),
];
const NOT_V: (i16, [u16; 3]) = (45, [VECTOR, NONE, FLOAT]);
/// The opcodes that read a field and those that write one, by its type.
const ACCESSES: [(u16, i16, i16); 6] =
    [(FLOAT, 24, 37), (VECTOR, 25, 38), (STRING, 26, 39), (ENTITY, 27, 40), (FIELD, 28, 41), (FUNCTION, 29, 42)];
/// The operand isn't used and should be 0.
const NONE: u16 = 98;

struct Maker<'a> {
    r: &'a mut Random,
    style: Style,
    cells: Cells,
    functions: usize,
}

impl Maker<'_> {
    fn operand(&mut self, want: u16) -> i16 {
        if want == NONE {
            return self.r.percent(self.style.careless / 3) as i16;
        }
        self.cells.operand(self.r, want, &self.style)
    }

    fn calculation(&mut self) -> [i16; 4] {
        let shape = if self.style.not_v && self.r.percent(8) { NOT_V } else { self.r.pick(&SHAPES) };
        let (opcode, [a, b, c]) = shape;
        [opcode, self.operand(a), self.operand(b), self.operand(c)]
    }

    fn load(&mut self) -> [i16; 4] {
        let (type_, opcode, _) = self.r.pick(&ACCESSES);
        let field = self.cells.for_field(self.r, FIELD, type_, &self.style);
        [opcode, self.operand(ENTITY), field, self.operand(type_)]
    }

    /// Makes a pointer and stores through it, as compilers write it; or one of the two alone.
    fn store(&mut self, program: &mut Program) {
        let (type_, _, opcode) = self.r.pick(&ACCESSES);
        let field = self.cells.for_field(self.r, FIELD, type_, &self.style);
        let pointer = self.cells.for_field(self.r, POINTER, type_, &self.style);
        let (entity, from) = (self.operand(ENTITY), self.operand(type_));
        let (address, store) = ([30, entity, field, pointer], [opcode, from, pointer, self.operand(NONE)]);
        match self.r.below(4) {
            0 => program.statements.push(address),
            1 => program.statements.push(store),
            _ => program.statements.extend([address, store]),
        }
    }

    /// A branch, mostly forward.
    fn branch(&mut self) -> [i16; 4] {
        let by = match self.r.below(200) {
            0 => self.r.between(-3, 0),
            1..=3 => self.r.between(-40, 40),
            _ => self.r.between(1, 3),
        } as i16;
        match self.r.below(3) {
            0 => [61, by, 0, 0],
            1 => [49, self.operand(FLOAT), by, 0],
            _ => [50, self.operand(FLOAT), by, 0],
        }
    }

    fn call(&mut self) -> [i16; 4] {
        if self.cells.uses[..self.cells.used].contains(&FUNCTION) {
            [51 + self.r.below(9) as i16, self.operand(FUNCTION), 0, 0]
        } else {
            self.calculation()
        }
    }

    fn give_back(&mut self) -> [i16; 4] {
        if self.r.percent(25) {
            return [0, 0, 0, 0];
        }
        let a = self.operand(VECTOR);
        match self.style.returns {
            Returns::InARow => [43, a, a.wrapping_add(1), a.wrapping_add(2)],
            Returns::FirstAlone => [43, a, 0, 0],
            Returns::Any => [43, a, self.operand(FLOAT), self.operand(FLOAT)],
        }
    }

    fn handed_over(&mut self) -> [i16; 4] {
        let opcode = self.r.pick(&[24, 25, 26, 27, 28, 29, 30, 37, 38, 39, 40, 41, 42, 60, 60, 60, 60, 60]);
        [opcode, self.operand(ENTITY), self.operand(FIELD), self.operand(FLOAT)]
    }

    fn statement(&mut self) -> [i16; 4] {
        match self.r.below(20) {
            0 | 1 => self.branch(),
            2 | 3 => self.call(),
            4 if self.style.handed_over && self.r.percent(30) => self.handed_over(),
            5 if self.r.percent(20) => self.give_back(),
            _ => self.calculation(),
        }
    }

    /// Counts a cell down to 0: some statements, several times.
    fn counted_loop(&mut self, program: &mut Program) {
        let (counter, one) = (self.operand(FLOAT), self.operand(FLOAT));
        for (cell, value) in [(counter, self.r.between(1, 60) as f32), (one, 1.0)] {
            if let Some(cell) = program.cells.get_mut(cell as usize) {
                *cell = value.to_bits();
            }
        }
        let inner = self.r.between(0, 4);
        for _ in 0..inner {
            let statement = if self.style.fields && self.r.percent(40) { self.load() } else { self.calculation() };
            program.statements.push(statement);
        }
        program.statements.push([8, counter, one, counter]);
        program.statements.push([49, counter, -(inner as i16) - 1, 0]);
    }

    fn body(&mut self, program: &mut Program) {
        let length = self.r.pick(&[1, 2, 3, 4, 6, 9, 14]);
        for _ in 0..length {
            match self.r.below(100) {
                0 | 1 => self.counted_loop(program),
                2..=20 if self.style.fields => self.store(program),
                21..=40 if self.style.fields => {
                    let statement = self.load();
                    program.statements.push(statement);
                }
                _ => {
                    let statement = self.statement();
                    program.statements.push(statement);
                }
            }
        }
        let statement = self.give_back();
        program.statements.push(statement);
    }

    fn function(&mut self, program: &mut Program) {
        let locals = self.r.pick(&[0, 0, 1, 2, 3, 5]);
        let mut function = Function {
            first: program.statements.len() as i32,
            local: self.r.between(28, self.cells.used as i64 - 6) as i32,
            locals,
            name: self.r.pick(&[0, 1, 3]),
            source: 0,
            ..Function::default()
        };
        arguments(self.r, self.style.arguments, &mut function);
        program.functions.push(function);
        self.body(program);
    }
}

fn arguments(r: &mut Random, arguments: Arguments, function: &mut Function) {
    match arguments {
        Arguments::None => {}
        Arguments::One => {
            function.argc = 1;
            function.sizes[0] = 1;
        }
        Arguments::Many => {
            function.argc = r.between(0, 3) as i32;
            for size in &mut function.sizes[..function.argc as usize] {
                *size = r.pick(&[1, 1, 3, 0, 2]);
            }
        }
    }
}

fn whole(r: &mut Random, entities: usize) -> Program {
    let style = style(r, entities);
    let used = r.pick(if style.fields { &USED_WITH_FIELDS } else { &USED });
    let mut program = with_cells(used);
    program.strings = TEXTS.to_vec();
    if r.percent(3) {
        let others = [&b"\0main"[..], &b"\0m\xc3\xa9in\0"[..], &b"\0m\xffin\0"[..], &b"\0main\0red\0blue\0red"[..]];
        program.strings = r.pick(&others).to_vec();
    }
    let functions = r.between(2, 6) as usize;
    let cells = Cells::new(r, &mut program, used, functions, &style);
    let mut maker = Maker { r, style, cells, functions };
    for _ in 1..maker.functions {
        maker.function(&mut program);
    }
    if maker.style.handed_over && maker.r.percent(50) {
        let last = program.functions.len() - 1;
        program.functions[last].first = -(maker.r.between(1, 78) as i32);
    }
    if maker.functions > 2 && maker.r.percent(20) {
        let function = maker.r.between(2, maker.functions as i64 - 1) as usize;
        program.functions[function].first = -maker.r.pick(&[36, 37, 38, 43]);
        program.cells[4] = float(maker.r, &maker.style);
    }
    if maker.r.percent(10) {
        let flag = if maker.r.percent(10) { 0x8000 } else { 0 };
        program.fielddefs.push((maker.r.below(8) as u16 | flag, 0, 0));
    }
    program
}

// ---- at the limits

fn boundary(r: &mut Random, entities: usize) -> Program {
    match r.below(26) {
        0..=9 => statements_at_edges(r),
        10..=13 => entry_at_edges(r),
        14 | 15 => recursion(r),
        16 | 17 => endless(r),
        18 => branches_out(r),
        19 => sizes_at_edges(r),
        _ => fields_at_edges(r, entities),
    }
}

/// Entities, fields and pointers at their limits.
fn fields_at_edges(r: &mut Random, asked: usize) -> Program {
    let mut program = few_cells(r);
    let per_entity = match r.below(40) {
        0 => r.pick(&[32_767, 32_768, 32_769, 40_000, 65_536]),
        _ => r.pick(&[105, 105, 106, 110]),
    };
    program.entity_cells = per_entity;
    let per_entity = per_entity as i64;
    let number = entities::number(program.entity_cells, asked) as i64;
    let field = |r: &mut Random| r.pick(&[0, 1, 2, 50, per_entity - 4, per_entity - 3, per_entity - 2, per_entity - 1]);
    let past = [per_entity, per_entity + 1, per_entity + 2, 32_766, 32_767, 32_768, 65_535, 65_536, 65_541, i32::MAX as i64, -1];
    let (inside, pointed) = (field(r), field(r));
    let entity = r.pick(&[0, 0, 1, number - 1, number - 1, number, number + 1, 599, 600, 601, i32::MAX as i64, -1]);
    let to = r.pick(&[0, number - 1, number - 1, number, 599, 600, 601]).max(0);
    let pointer = match r.below(12) {
        0 => r.pick(&[-4, -1, 1, 2, 3, i32::MAX as i64, 0x7fff_fffc, i32::MIN as i64]),
        1 => 4 * number * per_entity - r.pick(&[0, 4]),
        _ => 4 * (to * per_entity + pointed),
    };
    program.cells[28] = entity as u32;
    program.cells[29] = if r.percent(25) { r.pick(&past) } else { inside } as u32;
    program.cells[30] = pointer as u32;
    for cell in 31..34 {
        program.cells[cell] = r.pick(&[0, 1, 2, 5, u32::MAX, 0x8000_0000, 0x3f80_0000, 0x7fa0_0001]);
    }
    program.globaldefs.retain(|_| r.percent(40));
    for _ in 0..r.below(4) {
        let cell = r.pick(&[inside, pointed]) + r.between(0, 2);
        program.fielddefs.push((r.pick(&[0, 1, 2, 2, 3, 3, 4, 5, 6, 7]), cell as u16, 0));
    }
    for _ in 0..r.between(1, 3) {
        let statement = field_statement(r, program.cells.len());
        program.statements.push(statement);
    }
    program.statements.push([0, 0, 0, 0]);
    program
}

/// On entity cell 28, field cell 29, pointer cell 30 and the cells from 31 on; some operands are others.
fn field_statement(r: &mut Random, count: usize) -> [i16; 4] {
    let mut statement = match r.below(13) as i16 {
        load @ 0..=5 => [24 + load, 28, 29, 31],
        6 => [30, 28, 29, 30],
        store => [30 + store, 31, 30, 0],
    };
    if r.percent(15) {
        let operand = 1 + r.below(3);
        statement[operand] = edge(r, count);
    }
    statement
}

fn few_cells(r: &mut Random) -> Program {
    let mut program = Program::new(r.pick(&[LEAST_CELLS, LEAST_CELLS, 65]));
    if r.percent(70) {
        program.strings = TEXTS.to_vec();
    }
    let plain = Style { infinities: true, ..style(r, 0) };
    for cell in 0..program.cells.len() {
        program.cells[cell] = float(r, &plain);
        if r.percent(30) {
            program.cells[cell] = r.below(4) as u32;
        }
    }
    for _ in 0..r.below(5) {
        // Half of them among the cells that `field_statement` uses.
        let end = r.pick(&[36, program.cells.len() + 3]);
        program.globaldefs.push((global_type(r), r.below(end) as u16, 0));
    }
    program.functions.push(Function { first: 1, local: 30, ..Function::default() });
    program
}

/// Statements whose operands are at the limits of the cells.
fn statements_at_edges(r: &mut Random) -> Program {
    let mut program = few_cells(r);
    if r.percent(1) {
        program.cells.resize(32_768, 0);
    }
    let count = program.cells.len();
    for _ in 0..r.between(1, 4) {
        let opcode = r.below(66) as i16;
        let mut operand = || {
            if r.percent(70) {
                r.below(count) as i16
            } else {
                edge(r, count)
            }
        };
        let (a, mut b, mut c) = (operand(), operand(), operand());
        if matches!(opcode, 31..=42) && r.percent(90) {
            c = 0;
        }
        if (44..=48).contains(&opcode) && r.percent(90) {
            b = 0;
        }
        program.statements.push([opcode, a, b, c]);
    }
    program.statements.push([0, 0, 0, 0]);
    program
}

/// An entry whose local range or arguments are at the limits.
fn entry_at_edges(r: &mut Random) -> Program {
    let mut program = few_cells(r);
    let count = program.cells.len() as i64;
    let local = r.pick(&[0, 1, 4, 5, 28, 30, count - 3, count - 1, count, count + 1, -1, -4, 32_767, 65_536 + 30, 1 << 30]);
    let locals = r.pick(&[0, 0, 1, 2, 3, 5, 30, 36, 37, 64, 65, 2_048, 2_049, -1, 1 << 30]);
    program.functions[1].local = local as i32;
    program.functions[1].locals = locals;
    program.functions[1].argc = r.pick(&[0, 0, 0, 1, 1, 2, 3, 7, 8, 9, -1]);
    for size in &mut program.functions[1].sizes {
        *size = r.pick(&[0, 1, 1, 2, 3, 3, 3, 200]);
    }
    program.functions.push(Function { first: 2, ..Function::default() });
    program.cells[29] = 1;
    // Function 2 calls function 1.
    program.statements.extend([[0, 0, 0, 0], [51, 29, 0, 0], [6, 28, 31, 32], [0, 0, 0, 0]]);
    program
}

/// A function that calls itself until the depth or the saved cells run out, or a counter does.
fn recursion(r: &mut Random) -> Program {
    let mut program = Program::new(200);
    let locals = r.pick(&[0, 1, 3, 64, 66, 67, 68, 69, 70, 100]);
    program.cells[30] = (r.pick(&[3, 29, 30, 31, 32, 100]) as f32).to_bits();
    program.cells[31] = 1.0_f32.to_bits();
    program.cells[32] = 1;
    program.functions.push(Function { first: 1, local: 40, locals, ..Function::default() });
    program.statements.extend([[6, 40, 31, 40], [8, 30, 31, 30], [50, 30, 2, 0], [51, 32, 0, 0], [43, 40, 41, 42]]);
    program
}

/// Loops without an end, or with one near the limit of 99,999 statements.
fn endless(r: &mut Random) -> Program {
    let mut program = Program::new(64);
    program.cells[28] = 1.0_f32.to_bits();
    program.functions.push(Function { first: 1, ..Function::default() });
    if r.percent(90) {
        // Ends: two statements for each count, and the Done.
        program.cells[29] = (r.between(1, 400) as f32).to_bits();
        program.statements.extend([[8, 29, 28, 29], [49, 29, -1, 0], [0, 0, 0, 0]]);
    } else {
        program.cells[29] = (r.between(49_997, 50_001) as f32).to_bits();
        program.statements.extend([[8, 29, 28, 29], [49, 29, -1, 0], [0, 0, 0, 0]]);
    }
    program
}

/// Branches to and past both ends of the statements, and functions that begin there.
fn branches_out(r: &mut Random) -> Program {
    let mut program = few_cells(r);
    let by = r.pick(&[-3, -2, -1, 0, 1, 2, 3, 4, 32_767, -32_768]);
    program.functions[1].first = r.pick(&[0, 1, 2, 3, 4, 100, i32::MAX]);
    program.statements.extend([[61, by, 0, 0], [49, 28, by, 0], [50, 28, by, 0]]);
    program
}

/// Counts of cells, of statements and of bytes at the limits.
fn sizes_at_edges(r: &mut Random) -> Program {
    let mut program = few_cells(r);
    program.statements.push([0, 0, 0, 0]);
    match r.below(40) {
        0 => program.cells.resize(r.pick(&[32_767, 32_768, 32_769, 40_000]), 0),
        1 => program.strings.resize(1_048_576 - r.pick(&[500, 501, 600, 700]), 0),
        2 => {
            let more = 1_048_576 - program.bytes().len() + r.pick(&[0, 1, 2]);
            program.strings.resize(1 + more - r.pick(&[0, 1]), 0);
        }
        3..=20 => program.cells.truncate(r.pick(&[0, 28, 35, 35, 36, 63, 64])),
        21..=30 => program.entity_cells = r.pick(&[0, 104, 105, 106, -1, i32::MIN, i32::MAX]),
        _ => program.functions.clear(),
    }
    program
}

// ---- damaged

pub fn damaged(r: &mut Random, entities: usize) -> Vec<u8> {
    let mut bytes = if r.percent(60) { whole(r, entities).bytes() } else { boundary(r, entities).bytes() };
    for _ in 0..r.between(1, 3) {
        damage(r, &mut bytes);
    }
    bytes
}

fn damage(r: &mut Random, bytes: &mut Vec<u8>) {
    let length = bytes.len();
    if length < 61 {
        return;
    }
    match r.below(12) {
        0..=3 => {
            let at = 60 + r.below(length - 60);
            bytes[at] = r.next() as u8;
        }
        4 | 5 => {
            let at = r.below(60);
            bytes[at] = r.next() as u8;
        }
        6 | 7 => header_number(r, bytes),
        8 => bytes.truncate(r.pick(&[0, 1, 4, 8, 59, 60, 61, length - 1, length - 4, length / 2])),
        9 => bytes.extend(vec![0; r.below(9)]),
        10 => {
            // Two parts of the file overlap.
            let (from, to) = (8 + 8 * r.below(6), 8 + 8 * r.below(6));
            bytes.copy_within(from..from + 4, to);
        }
        _ => {
            let at = 60 + r.below(length - 60);
            let end = (at + r.below(9)).min(length);
            bytes[at..end].fill(r.pick(&[0, 0xff, 0x80, 1]));
        }
    }
}

/// A number of the header becomes another, mostly one at a limit.
fn header_number(r: &mut Random, bytes: &mut [u8]) {
    let at = 4 * r.below(15);
    let old = i32::from_le_bytes(bytes[at..at + 4].try_into().unwrap());
    let length = bytes.len() as i32;
    let new = match r.below(12) {
        0 => 0,
        1 => -1,
        2 => old.wrapping_add(1),
        3 => old.wrapping_sub(1),
        4 => length,
        5 => length + 1,
        6 => i32::MAX,
        7 => i32::MIN,
        8 => -(r.below(100) as i32),
        9 => r.below(200) as i32,
        10 => 60,
        _ => old.wrapping_add(r.between(-9, 9) as i32),
    };
    bytes[at..at + 4].copy_from_slice(&new.to_le_bytes());
}

// ---- for the functions alone

/// A file whose statement 0 is a call-free statement or a Return, and whose function 1 begins there.
pub fn one_statement(r: &mut Random, entities: usize) -> Program {
    let style = style(r, entities);
    let used = if style.fields { 64 } else { r.pick(&[36, 40, 64]) };
    let mut program = with_cells(used);
    program.strings = TEXTS.to_vec();
    let cells = Cells::new(r, &mut program, used, 3, &style);
    for cell in 1..28 {
        program.cells[cell] = float(r, &style);
    }
    let (opcode, types) = match r.below(20) {
        0 => (43, [UNTYPED; 3]),
        1 => NOT_V,
        2..=12 if style.fields => on_a_field(r),
        _ => r.pick(&SHAPES),
    };
    let of = ACCESSES.iter().find(|(_, load, store)| opcode == *load || opcode == *store).map_or(FLOAT, |&(type_, ..)| type_);
    let count = program.cells.len();
    let careless = r.pick(&[0, 10, 40]);
    let mut operands = types.map(|want| match want {
        NONE => r.percent(5) as i16,
        _ if r.percent(careless) => edge(r, count),
        UNTYPED => r.below(count) as i16,
        FIELD | POINTER if types.contains(&ENTITY) || types.contains(&POINTER) => cells.for_field(r, want, of, &style),
        want => cells.operand(r, want, &style),
    });
    if r.percent(10) {
        // Overlapping operands.
        operands[2] = operands[0].wrapping_add(r.between(-2, 2) as i16);
    }
    if r.percent(5) && types[1] != NONE {
        operands[1] = operands[0];
    }
    program.statements[0] = [opcode, operands[0], operands[1], operands[2]];
    if types[0] == STRING && r.percent(85) {
        set_strings(r, &mut program, operands);
    }
    // A Return at depth 0 leaves function 0.
    program.functions[0].locals = r.percent(20) as i32;
    program.functions.push(Function { local: 30, locals: r.pick(&[0, 1, 4]), ..Function::default() });
    program
}

/// Most cells hold no strings, and few of them a number in range.
fn set_strings(r: &mut Random, program: &mut Program, operands: [i16; 3]) {
    for operand in operands {
        if let Some(cell) = usize::try_from(operand).ok().and_then(|cell| program.cells.get_mut(cell)) {
            *cell = string_number(r);
        }
    }
}

/// An opcode that reads or writes a field, or makes a pointer, with the types of its operands. The Rust has no functions of 28 and 41.
fn on_a_field(r: &mut Random) -> (i16, [u16; 3]) {
    let (type_, load, store) = r.pick(&ACCESSES);
    match r.below(5) {
        0 => (30, [ENTITY, FIELD, POINTER]),
        1 | 2 if load != 28 => (load, [ENTITY, FIELD, type_]),
        _ if store != 41 => (store, [type_, POINTER, NONE]),
        _ => (24, [ENTITY, FIELD, FLOAT]),
    }
}

/// A file of functions with local ranges and arguments, for lists of entries and leavings.
pub fn functions_alone(r: &mut Random) -> Program {
    let mut program = Program::new(r.pick(&[64, 300]));
    let count = program.cells.len() as i64;
    for cell in &mut program.cells {
        *cell = r.next() as u32;
    }
    let kind = r.pick(&[Arguments::None, Arguments::One, Arguments::Many]);
    for _ in 0..r.between(1, 5) {
        let locals = r.pick(&[0, 1, 2, 5, 20, 66, 67, 250]).min(count as i32 - 30);
        let mut function =
            Function { first: r.below(4) as i32, local: r.between(0, count - 1 - locals as i64) as i32, locals, ..Function::default() };
        arguments(r, kind, &mut function);
        if r.percent(5) {
            function.locals = r.pick(&[-1, 2_048, 2_049, 300]);
        } else if r.percent(5) {
            function.local = r.pick(&[-3, 301, 305, 32_767, 65_536 + 30]);
        }
        program.functions.push(function);
    }
    program
}

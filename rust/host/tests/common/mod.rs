//! What the tests share: chance numbers from a fixed seed, and program files made by chance.

#![allow(dead_code)]

use host::assemble::{Assembly, Function};
use host::{Machine, SAVED_STORE};

/// Marsaglia's xorshift of 64 bits.
pub struct Chance(u64);

impl Chance {
    pub fn new(seed: u64) -> Chance {
        Chance(seed.wrapping_mul(0x9e37_79b9_7f4a_7c15) | 1)
    }

    pub fn draw(&mut self) -> u64 {
        self.0 ^= self.0 << 13;
        self.0 ^= self.0 >> 7;
        self.0 ^= self.0 << 17;
        self.0
    }

    pub fn below(&mut self, count: u64) -> u64 {
        (self.draw() >> 11) % count
    }

    pub fn between(&mut self, low: i64, high: i64) -> i64 {
        low + self.below((high - low + 1) as u64) as i64
    }

    pub fn one_in(&mut self, count: u64) -> bool {
        self.below(count) == 0
    }

    pub fn pick<T: Copy>(&mut self, items: &[T]) -> T {
        items[self.below(items.len() as u64) as usize]
    }

    /// Numbers that a host might give: mostly small, some at the ends.
    pub fn number(&mut self) -> i64 {
        match self.below(20) {
            0 => self.pick(&[i64::MIN, i64::MAX, -1, 1 << 31, 1 << 32, -(1 << 31)]),
            1..=3 => self.between(-3, 100_001),
            _ => self.between(-1, 70),
        }
    }
}

const FLOATS: [u32; 10] = [
    0,
    0x8000_0000,
    0x3f80_0000,
    0xbf80_0000,
    0x4000_0000,
    0x42c8_8000,
    0x4b80_0000,
    0x7fc0_0000,
    0x7f80_0000,
    1,
];

/// Places of fields at and near the ends of an entity.
const PLACES: [u32; 8] = [0, 1, 50, 101, 102, 103, 104, 105];

/// Floats at 28 to 35, places of fields at 36 to 39, function numbers at 40 to 43, small numbers, which name entities too, at 44 to
/// 47, locals from 48 on, among them pointers at 58 and 59.
pub fn random_assembly(chance: &mut Chance) -> Assembly {
    let count = chance.between(3, 40);
    let mut assembly = Assembly {
        cell_count: chance.pick(&[64, 64, 64, 64, 65, 70]),
        ..Assembly::default()
    };
    for cell in 28..36 {
        assembly.cells.push((cell, chance.pick(&FLOATS)));
    }
    for cell in 36..40 {
        assembly.cells.push((cell, chance.pick(&PLACES)));
    }
    for cell in 40..44 {
        assembly.cells.push((cell, chance.below(8) as u32));
    }
    for cell in 58..60 {
        let entity = chance.below(3) as u32;
        let pointer = 4 * (105 * entity + chance.pick(&PLACES));
        assembly.cells.push((cell, pointer));
    }
    for cell in 44..48 {
        assembly.cells.push((cell, chance.below(3) as u32));
    }
    for _ in 0..7 {
        let function = random_function(chance, count);
        assembly.functions.push(function);
    }
    for _ in 0..chance.below(6) {
        let kind = chance.pick(&[0, 1, 2, 2, 2, 3, 4, 5, 6, 7, 0x8002]);
        assembly
            .definitions
            .push((kind, 28 + chance.below(30) as u16, 0));
    }
    for _ in 0..chance.below(4) {
        let kind = chance.pick(&[0, 1, 2, 2, 2, 2, 3, 4, 6]);
        let place = chance.pick(&PLACES) as u16;
        assembly.fields.push((kind, place, 0));
    }
    for _ in 0..count {
        let statement = random_statement(chance);
        assembly.statements.push(statement);
    }
    assembly
}

fn random_function(chance: &mut Chance, statements: i64) -> Function {
    if chance.one_in(8) {
        return Function {
            first: -(chance.between(1, 4) as i32),
            arguments: chance.pick(&[-1, 0]),
            ..Function::default()
        };
    }
    let mut function = Function {
        first: chance.between(0, statements - 1) as i32,
        local: chance.between(48, 58) as i32,
        locals: chance.below(8) as i32,
        arguments: chance.below(4) as i32,
        ..Function::default()
    };
    if chance.one_in(10) {
        function.locals = chance.pick(&[-1, 2048, 2049, 500, 20]);
    }
    if chance.one_in(10) {
        function.arguments = chance.pick(&[-1, 8, 9]);
    }
    for size in &mut function.sizes {
        *size = chance.below(4) as u8;
    }
    function
}

fn random_statement(chance: &mut Chance) -> [i16; 4] {
    if chance.one_in(5) {
        return random_field_statement(chance);
    }
    let opcode = match chance.below(10) {
        0 => chance.between(51, 59),
        1 => chance.pick(&[0, 43]),
        2 => chance.pick(&[49, 50, 61]),
        3..=5 => 60,
        _ => chance.between(0, 65),
    };
    let mut place = || match chance.below(30) {
        0 => chance.between(-3, 75) as i16,
        _ => chance.between(28, 60) as i16,
    };
    let (a, b, c) = (place(), place(), place());
    match opcode {
        49 | 50 => [opcode as i16, a, chance.between(-3, 6) as i16, 0],
        51..=59 => [opcode as i16, chance.between(40, 43) as i16, 0, 0],
        61 => [opcode as i16, chance.between(-3, 6) as i16, 0, 0],
        31..=36 => [opcode as i16, a, b, 0],
        44..=48 => [opcode as i16, a, 0, c],
        _ => [opcode as i16, a, b, c],
    }
}

/// A statement over an entity's field. Pointers are at 58 and 59.
fn random_field_statement(chance: &mut Chance) -> [i16; 4] {
    let entity = chance.between(44, 47) as i16;
    let place = chance.between(36, 39) as i16;
    let pointer = chance.between(58, 59) as i16;
    let value = chance.pick(&[28, 30, 33, 44, 48, 50, 53]);
    match chance.below(4) {
        0 => [30, entity, place, pointer],
        1 => [chance.between(24, 29) as i16, entity, place, value],
        _ => {
            let third = i16::from(chance.one_in(20));
            [chance.between(37, 42) as i16, value, pointer, third]
        }
    }
}

/// A program file: as assembled, with a few bytes changed, cut, or of chance bytes altogether.
pub fn random_file(chance: &mut Chance) -> Vec<u8> {
    let mut file = random_assembly(chance).bytes();
    match chance.below(10) {
        0 => {
            for _ in 0..chance.between(1, 4) {
                let at = chance.below(file.len() as u64) as usize;
                file[at] = chance.draw() as u8;
            }
        }
        1 => {
            let at = chance.below(60) as usize;
            file[at] = chance.pick(&[0, 1, 0x7f, 0x80, 0xff]);
        }
        2 => file.truncate(chance.below(file.len() as u64) as usize),
        3 => {
            let from = chance.pick(&[0, 8, 60]);
            for byte in &mut file[from..] {
                *byte = chance.draw() as u8;
            }
        }
        _ => {}
    }
    file
}

/// More cells, a longer saved store and more entity cells than are asked for, or now and then too few; a number in each.
pub fn random_machine(chance: &mut Chance) -> Machine {
    let file = random_file(chance);
    let cells = if chance.one_in(12) { 63 } else { 80 };
    let saved = if chance.one_in(12) {
        SAVED_STORE - 1
    } else {
        SAVED_STORE + 8
    };
    let numbered = |first: u32, count: usize| (0..count as u32).map(|i| first + i).collect();
    let entities = if chance.one_in(8) {
        chance.pick(&[0, 104, 210, 314])
    } else {
        320
    };
    Machine::with_entities(
        file,
        numbered(0xc000_0000, cells),
        numbered(0xa000_0000, saved),
        numbered(0x4000_0000, entities),
    )
}

//! The entity cells that a case lends, and what the Rust does otherwise with entities, fields and pointers.

use crate::compare::{Call, Failing};
use crate::generate;
use crate::oracle::{End, Seen};
use crate::ours::{Answer, Left};
use crate::program::View;
use crate::random::Random;

/// How many cells a case lends at most, so that the runs don't take long.
const MOST: usize = 200_000;
/// The Rust cuts field numbers to 16 bits, so more cells per entity than these can't be told apart.
const MOST_PER_ENTITY: i32 = 65_536;
/// The cells of an entity that the Rust can name.
pub const NAMED: usize = 32_768;

/// What is lent: the number of entities, the cells of each, and what they hold.
#[derive(Clone, Default)]
pub struct Lent {
    pub number: usize,
    pub per_entity: usize,
    pub cells: Vec<u32>,
}

/// As many entities as are asked for, or fewer where they would have too many cells.
pub fn number(per_entity: i32, asked: usize) -> usize {
    match per_entity {
        105..=MOST_PER_ENTITY => asked.min(MOST / per_entity as usize),
        _ => 0,
    }
}

impl Lent {
    pub fn zeros(bytes: &[u8], asked: usize) -> Lent {
        let per_entity = View(bytes).entity_cells();
        let number = number(per_entity, asked);
        let per_entity = per_entity.max(0) as usize;
        Lent { number, per_entity, cells: vec![0; number * per_entity] }
    }

    /// What suits the file's field definitions, mostly; the seed decides. Cells that the Rust can't name hold 0.
    pub fn random(bytes: &[u8], asked: usize, seed: u64) -> Lent {
        let mut lent = Lent::zeros(bytes, asked);
        if lent.number == 0 {
            return lent;
        }
        let mut r = Random::new(seed, 0);
        let types = types(&View(bytes), lent.per_entity);
        for (i, cell) in lent.cells.iter_mut().enumerate() {
            let field = i % types.len();
            if field < NAMED {
                *cell = value(&mut r, types[field], lent.number);
            }
        }
        lent
    }
}

/// The type of each field cell: the first definition's that isn't void; void without one.
fn types(view: &View, per_entity: usize) -> Vec<u16> {
    let mut types = vec![0; per_entity];
    for (type_, cell) in view.field_definitions() {
        match types.get_mut(cell as usize) {
            Some(t) if *t == 0 => *t = type_,
            _ => {}
        }
    }
    types
}

fn value(r: &mut Random, type_: u16, entities: usize) -> u32 {
    const STRING: u16 = 1;
    const ENTITY: u16 = 4;
    const FIELD: u16 = 5;
    const FUNCTION: u16 = 6;
    match type_ {
        _ if r.percent(1) => r.pick(&[u32::MAX, 0x8000_0000, 0x7fff_ffff, 0x7fa0_0001]),
        STRING => generate::string_number(r),
        ENTITY => some_entity(r, entities) as u32,
        FIELD => r.below(105) as u32,
        FUNCTION => r.below(6) as u32,
        0 if r.percent(60) => r.below(4) as u32,
        _ => ((r.between(-64, 64) as f32) / 4.0).to_bits(),
    }
}

/// The number of an entity, now and then of the one past the last.
pub fn some_entity(r: &mut Random, entities: usize) -> usize {
    let past = r.percent(4) as usize;
    r.below((entities + past).max(1))
}

const POINTER: u16 = 7;
const STORE_P_S: i16 = 39;

/// Whether a difference is one of those that the Rust takes more, or less, by its own arithmetic and checks. What is said of the statement
/// is read from the file and from the cells, not from this machine's answer alone.
pub fn by_design(call: &Call, counted: bool, rust: &Seen, ours: &Left) -> Option<&'static str> {
    if let Some(name) = cut_to_16_bits(call, rust, ours) {
        return Some(name);
    }
    // The Rust came to this statement too.
    if counted && rust.fetched < ours.count + 1 {
        return None;
    }
    let Failing::Statement([opcode, a, b, c]) = Failing::of(call, ours) else {
        return None;
    };
    let Answer::Refused(number) = ours.answer else {
        return None;
    };
    let (entity, second) = (value_of(ours, a), value_of(ours, b));
    let per_entity = call.view.entity_cells().max(1) as usize;
    let other_type = |cell: i16| call.view.global_type(cell).is_some_and(|type_| type_ != POINTER);
    // The last cell of a vector is two further.
    let last = |field: usize| if matches!(opcode, 25 | 38) { field + 2 } else { field };
    match (number, opcode) {
        (16, 30) if other_type(c) => Some(POINTER_CELL),
        (16, 37..=42) if other_type(b) => Some(POINTER_CELL),
        (30, 30) if entity >= call.entities => Some("Address of an entity that isn't there: the Rust makes the pointer"),
        (31, 30) if second >= per_entity => Some("Address of a field that isn't there: the Rust makes the pointer"),
        (16 | 31, 24..=29) if last(second) >= NAMED => Some(CUT),
        // A negative string is refused after the field's checks; the Rust doesn't get past them.
        (16 | 31, 37..=42) | (17, STORE_P_S) if last(second / 4 % per_entity) >= NAMED => Some(CUT),
        _ => None,
    }
}

const POINTER_CELL: &str = "a pointer cell with a definition of another type, which the Rust doesn't look at";
const CUT: &str = "a field number past 32,767, which the Rust cuts to 16 bits";

/// Where an entity has more cells than the Rust can name, this machine goes on where the Rust has an error, or panics at the sum.
fn cut_to_16_bits(call: &Call, rust: &Seen, ours: &Left) -> Option<&'static str> {
    let stops = match &rust.end {
        End::Error(text) => text.starts_with("Entity error: Invalid address (-"),
        End::Panic(panic) => panic.message.contains("with overflow") && panic.place.starts_with("world/entity.rs"),
        End::Done => false,
    };
    let goes_on = ours.count >= rust.fetched;
    (stops && goes_on && call.view.entity_cells() as i64 > NAMED as i64).then_some(CUT)
}

/// What a cell holds, 0 for one that isn't there.
fn value_of(ours: &Left, cell: i16) -> usize {
    let found = usize::try_from(cell).ok().and_then(|cell| ours.cells.get(cell));
    found.map_or(0, |&value| value as usize)
}

/// The entity cells that a vector written through the pointer may have changed before the Rust came to an error.
pub fn written(call: &Call, ours: &Left, pointer: i16) -> Vec<usize> {
    let first = value_of(ours, pointer) / 4;
    let end = call.entities * call.view.entity_cells().max(0) as usize;
    (first..first + 3).filter(|&cell| cell < end).collect()
}

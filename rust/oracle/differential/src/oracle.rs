//! Runs richter's functions and keeps how they ended: by themselves, with an error, or in a panic.

use crate::entities::{Lent, NAMED};
use richter::count;
use richter::observe::{observe, Observed};
use std::cell::RefCell;
use std::io::Cursor;
use std::panic::{catch_unwind, AssertUnwindSafe};

/// How a call of the Rust ended.
#[derive(Clone, Debug, PartialEq)]
pub enum End {
    Done,
    Error(String),
    Panic(Panic),
}

#[derive(Clone, Debug, Default, PartialEq)]
pub struct Panic {
    pub message: String,
    /// File name and line.
    pub place: String,
}

/// A loaded level of richter's, unchanged or changed.
pub trait Level {
    fn execute_program(&mut self, function: usize) -> Result<(), String>;
    fn enter_function(&mut self, function: usize) -> Result<(), String>;
    fn leave_function(&mut self) -> Result<(), String>;
    /// The function of a call-free opcode, or of Return.
    fn op(&mut self, statement: [i16; 4]) -> Result<(), String>;
    fn cell(&self, cell: usize) -> u32;
    /// All entity cells; 0 for those that the Rust can't name.
    fn entities(&self) -> Vec<u32>;
    fn observe(&self) -> Observed;
}

macro_rules! level {
    ($name:ident, $load:ident, $from:ident) => {
        struct $name {
            level: $from::server::LevelState,
            entities: usize,
            per_entity: usize,
        }

        impl Level for $name {
            fn execute_program(&mut self, function: usize) -> Result<(), String> {
                let id = $from::server::progs::FunctionId(function);
                self.level.execute_program(id).map_err(|e| e.to_string())
            }

            fn enter_function(&mut self, function: usize) -> Result<(), String> {
                let id = $from::server::progs::FunctionId(function);
                let level = &mut self.level;
                (level.cx.enter_function(&mut level.globals, id)).map_err(|e| e.to_string())
            }

            fn leave_function(&mut self) -> Result<(), String> {
                let level = &mut self.level;
                (level.cx.leave_function(&mut level.globals)).map_err(|e| e.to_string())
            }

            fn op(&mut self, [opcode, a, b, c]: [i16; 4]) -> Result<(), String> {
                let level = &mut self.level;
                let of_level = match opcode {
                    0 | 43 => Some(level.op_return(a, b, c)),
                    24 => Some(level.op_load_f(a, b, c)),
                    25 => Some(level.op_load_v(a, b, c)),
                    26 => Some(level.op_load_s(a, b, c)),
                    27 => Some(level.op_load_ent(a, b, c)),
                    29 => Some(level.op_load_fnc(a, b, c)),
                    30 => Some(level.op_address(a, b, c)),
                    37 => Some(level.op_storep_f(a, b, c)),
                    38 => Some(level.op_storep_v(a, b, c)),
                    39 => Some(level.op_storep_s(a, b, c)),
                    40 => Some(level.op_storep_ent(a, b, c)),
                    42 => Some(level.op_storep_fnc(a, b, c)),
                    _ => None,
                };
                if let Some(result) = of_level {
                    return result.map_err(|e| e.to_string());
                }
                let g = &mut level.globals;
                match opcode {
                    1 => g.op_mul_f(a, b, c),
                    2 => g.op_mul_v(a, b, c),
                    3 => g.op_mul_fv(a, b, c),
                    4 => g.op_mul_vf(a, b, c),
                    5 => g.op_div(a, b, c),
                    6 => g.op_add_f(a, b, c),
                    7 => g.op_add_v(a, b, c),
                    8 => g.op_sub_f(a, b, c),
                    9 => g.op_sub_v(a, b, c),
                    10 => g.op_eq_f(a, b, c),
                    11 => g.op_eq_v(a, b, c),
                    12 => g.op_eq_s(a, b, c),
                    13 => g.op_eq_ent(a, b, c),
                    14 => g.op_eq_fnc(a, b, c),
                    15 => g.op_ne_f(a, b, c),
                    16 => g.op_ne_v(a, b, c),
                    17 => g.op_ne_s(a, b, c),
                    18 => g.op_ne_ent(a, b, c),
                    19 => g.op_ne_fnc(a, b, c),
                    20 => g.op_le(a, b, c),
                    21 => g.op_ge(a, b, c),
                    22 => g.op_lt(a, b, c),
                    23 => g.op_gt(a, b, c),
                    31 => g.op_store_f(a, b, c),
                    32 => g.op_store_v(a, b, c),
                    33 => g.op_store_s(a, b, c),
                    34 => g.op_store_ent(a, b, c),
                    35 => g.op_store_fld(a, b, c),
                    36 => g.op_store_fnc(a, b, c),
                    44 => g.op_not_f(a, b, c),
                    45 => g.op_not_v(a, b, c),
                    46 => g.op_not_s(a, b, c),
                    47 => g.op_not_ent(a, b, c),
                    48 => g.op_not_fnc(a, b, c),
                    62 => g.op_and(a, b, c),
                    63 => g.op_or(a, b, c),
                    64 => g.op_bit_and(a, b, c),
                    65 => g.op_bit_or(a, b, c),
                    _ => unreachable!("no op_ function of opcode {}", opcode),
                }
                .map_err(|e| format!("Globals error: {}", e))
            }

            fn cell(&self, cell: usize) -> u32 {
                u32::from_le_bytes(self.level.globals.get_bytes(cell as i16).unwrap())
            }

            fn entities(&self) -> Vec<u32> {
                let mut cells = Vec::with_capacity(self.entities * self.per_entity);
                for number in 0..self.entities {
                    let entity = self.level.world.entity($from::server::progs::EntityId(number));
                    let named = self.per_entity.min(NAMED);
                    cells.extend((0..named).map(|field| u32::from_le_bytes(entity.get_bytes(field as i16).unwrap())));
                    cells.resize((number + 1) * self.per_entity, 0);
                }
                cells
            }

            fn observe(&self) -> Observed {
                observe(&self.level.cx)
            }
        }

        fn $load(bytes: &[u8], lent: &Lent) -> Result<Box<dyn Level>, String> {
            let progs = $from::server::progs::load(Cursor::new(bytes)).map_err(|e| e.to_string())?;
            let mut level = $from::server::LevelState::new(progs, lent.number);
            for (number, cells) in lent.cells.chunks(lent.per_entity.max(1)).enumerate() {
                let entity = level.world.entity_mut($from::server::progs::EntityId(number)).unwrap();
                for (field, cell) in cells.iter().take(NAMED).enumerate() {
                    entity.put_bytes(cell.to_le_bytes(), field as i16).unwrap();
                }
            }
            Ok(Box::new($name { level, entities: lent.number, per_entity: lent.per_entity }))
        }
    };
}

level!(Unchanged, load_unchanged, richter);
level!(Changed, load_changed, changed);

/// Which of the two.
#[derive(Clone, Copy, PartialEq, Eq, Debug)]
pub enum Variant {
    Unchanged,
    /// With the switches that are on.
    Changed,
}

thread_local! {
    static LAST_PANIC: RefCell<Panic> = RefCell::default();
}

/// Panics of the Rust are kept, not printed. Call once.
pub fn install() {
    count::install(&[("richter::server", richter::SERVER_SOURCE), ("changed::server", changed::SERVER_SOURCE)]);
    std::panic::set_hook(Box::new(|info| {
        let message = match info.payload().downcast_ref::<&str>() {
            Some(text) => text.to_string(),
            None => (info.payload().downcast_ref::<String>().cloned()).unwrap_or_default(),
        };
        let place = info.location().map(|l| {
            let file = l.file().rsplit("server/").next().unwrap_or("");
            format!("{}:{}", file, l.line())
        });
        let place = place.unwrap_or_default();
        LAST_PANIC.with(|last| *last.borrow_mut() = Panic { message, place });
    }));
}

/// The end of a call, with panics caught.
pub fn ended<T>(call: impl FnOnce() -> Result<T, String>) -> Result<T, End> {
    match catch_unwind(AssertUnwindSafe(call)) {
        Ok(Ok(value)) => Ok(value),
        Ok(Err(text)) => Err(End::Error(text)),
        Err(_) => Err(End::Panic(LAST_PANIC.with(|last| last.borrow().clone()))),
    }
}

/// A load, with what is lent in the entities.
pub fn load(variant: Variant, bytes: &[u8], lent: &Lent) -> Result<Box<dyn Level>, End> {
    ended(|| match variant {
        Variant::Unchanged => load_unchanged(bytes, lent),
        Variant::Changed => load_changed(bytes, lent),
    })
}

/// A file that the Rust is known to load.
pub fn load_whole(variant: Variant, bytes: &[u8], lent: &Lent) -> Box<dyn Level> {
    match load(variant, bytes, lent) {
        Ok(level) => level,
        Err(end) => panic!("a whole file isn't loaded: {:?}", end),
    }
}

/// How a call ended and what it left.
pub struct Seen {
    pub end: End,
    /// Statements fetched, and how many were at each call of a builtin.
    pub fetched: u64,
    pub builtins_at: Vec<u64>,
    pub observed: Observed,
    pub cells: Vec<u32>,
    pub entities: Vec<u32>,
}

impl Seen {
    /// Whether the run was stopped at the statement that `call_until` was asked for.
    pub fn stopped(&self) -> bool {
        matches!(&self.end, End::Panic(panic) if panic.message == count::STOPPED)
    }
}

/// A call on a level. Counting logs, and a log message of richter's converts names; `counted` says whether to.
pub fn call(level: &mut dyn Level, cells: usize, counted: bool, what: impl FnOnce(&mut dyn Level) -> Result<(), String>) -> Seen {
    count::start(counted);
    seen(level, cells, what)
}

/// `execute_program`, stopped right after it has fetched so many statements: the last of them isn't done. It is counted, and so logs.
pub fn execute_until(level: &mut dyn Level, cells: usize, fetched: u64, function: usize) -> Seen {
    count::start_until(fetched);
    seen(level, cells, |l| l.execute_program(function))
}

fn seen(level: &mut dyn Level, cells: usize, what: impl FnOnce(&mut dyn Level) -> Result<(), String>) -> Seen {
    let end = match ended(|| what(level)) {
        Ok(()) => End::Done,
        Err(end) => end,
    };
    let (fetched, builtins_at) = (count::fetched(), count::builtins_at());
    count::start(false);
    Seen {
        end,
        fetched,
        builtins_at,
        observed: level.observe(),
        cells: (0..cells.min(32_768)).map(|i| level.cell(i)).collect(),
        entities: level.entities(),
    }
}

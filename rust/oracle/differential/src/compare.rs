//! The rules of the comparison: one call of the Rust beside the same call of this machine.

use crate::classes::{number_of, Class};
use crate::entities;
use crate::oracle::{End, Seen};
use crate::ours::{Answer, Left};
use crate::program::{Function, Lump, View};
use crate::strings::{self, Outside};
use richter::observe::Observed;

#[derive(Clone, Debug, PartialEq)]
pub enum Verdict {
    /// Equal in everything. `traces`: the Rust's error left something behind, which is excepted.
    Same {
        traces: bool,
    },
    /// Refused by both, by other numbers: the Rust's, then ours.
    OtherNumber(u32, u32),
    /// Not in the domain; whether this machine answers as the class allows was checked.
    LeftOut(Class),
    /// From a statement on outside R-4's limit; that everything was equal up to it was checked.
    Outside(Outside),
    /// The file has void global definitions, which R-5 keeps the runs from.
    VoidGlobals,
    /// A difference that 01 names under "By design", or a file that R-7 refuses.
    ByDesign(&'static str),
    Differs(String),
}

/// What is excepted, for a variant of the Rust.
#[derive(Clone, Copy)]
pub struct Rules {
    /// NaN compares as NaN in cells and saved cells.
    pub nan_as_nan: bool,
    /// How many host entries have ended before. The unchanged Rust's position is so much further at depth 0.
    pub entries_ended: i64,
    /// Whether an entry's own end adds 1 to the position as well.
    pub ended_adds: bool,
    /// Frames above the lowest are of Calls, for which the Rust records the Call and this machine the statement after it.
    pub call_frames: bool,
    /// Whether the count of statements is known.
    pub counted: bool,
    /// How many cells of arguments an entry may have written where it failed.
    pub all_arguments: bool,
}

/// A call that is being compared: what was called, on which file.
pub struct Call<'a> {
    pub view: View<'a>,
    /// The host entry's function.
    pub entered: Option<usize>,
    /// Whether nothing but the entry was done, so that an error is the entry's.
    pub entry_only: bool,
    /// The statement, where it isn't the one at our position.
    pub statement: Option<[i16; 4]>,
    /// How many entities there are.
    pub entities: usize,
}

pub fn compare(call: &Call, rules: Rules, rust: &Seen, ours: &Left) -> Verdict {
    if !ours.rest_untouched {
        return differs(NOT_THE_PROGRAMS.into());
    }
    // The Rust's log doesn't tell which builtin it calls. Four are done here, so the one that is handed over need not be its first.
    if let Answer::Builtin(number) = ours.answer {
        if matches!(number, 36 | 37 | 38 | 43) {
            return differs(format!("{}, which the machine does itself", ours.answer));
        }
        return builtin(rules, rust, ours);
    }
    if matches!(ours.answer, Answer::Opcode(number) if number != 60) {
        return differs(format!("{}, which the machine does itself", ours.answer));
    }
    match &rust.end {
        End::Done => done(rules, rust, ours),
        End::Error(text) => error(call, rules, rust, ours, text),
        End::Panic(panic) => {
            let class = Class::of(panic);
            match class {
                Class::HandedOver => handed_over(rules, rust.fetched, ours),
                Class::Runaway => runaway(rules, rust, ours),
                _ if allowed(class, call, rules, rust, ours) => left_out(class, rules, rust, ours),
                _ => differs(format!("{} where the Rust panics: {:?}", ours.answer, panic)),
            }
        }
    }
}

fn differs(text: String) -> Verdict {
    Verdict::Differs(text)
}

/// Whether this machine may answer so where the Rust panics so, at this statement.
fn allowed(class: Class, call: &Call, rules: Rules, rust: &Seen, ours: &Left) -> bool {
    let failing = Failing::of(call, ours);
    let refused = |numbers: &[u32]| matches!(ours.answer, Answer::Refused(n) if numbers.contains(&n));
    match class {
        Class::CellEqualToCount if failing.is_store_s() => refused(&[15, 17]),
        Class::CellEqualToCount if failing.first_string_is_out(call, ours) => refused(&[33]),
        // A load's destination is checked first here; the Rust doesn't come to it.
        Class::AbsentEntity => refused(if failing.is_load() { &[15, 16, 30] } else { &[32] }),
        Class::FieldCellEqualToCount => refused(if failing.is_load() { &[15, 16, 31] } else { &[31] }),
        // The Rust has checked everything before, so it must be completed here.
        Class::NegativeFunction if call.statement.is_some() => ours.answer == Answer::Completed,
        Class::NegativeFunction => !rules.counted || ours.count >= rust.fetched,
        _ => class.allows(ours.answer),
    }
}

fn builtin(rules: Rules, rust: &Seen, ours: &Left) -> Verdict {
    // The Rust panics at the statement that is handed over here, or at an earlier one that is completed here.
    if let End::Panic(panic) = &rust.end {
        let class = Class::of(panic);
        if class.goes_on() && rust.fetched <= ours.count + 1 {
            return Verdict::LeftOut(class);
        }
    }
    if rules.counted && !rust.builtins_at.contains(&(ours.count + 1)) {
        return differs(format!("{} after {} statements, the Rust calls builtins at {:?}", ours.answer, ours.count, rust.builtins_at));
    }
    Verdict::LeftOut(Class::HandedOver)
}

fn handed_over(rules: Rules, fetched: u64, ours: &Left) -> Verdict {
    if !Class::HandedOver.allows(ours.answer) {
        return differs(format!("{} where the Rust goes to the host", ours.answer));
    }
    if rules.counted && ours.count + 1 != fetched {
        return differs(format!("{} statements before a hand-over, the Rust {}", ours.count, fetched - 1));
    }
    Verdict::LeftOut(Class::HandedOver)
}

/// A panic: the same number of statements was completed, where the Rust got that far and this machine stopped there.
fn left_out(class: Class, rules: Rules, rust: &Seen, ours: &Left) -> Verdict {
    let completed = match class {
        Class::NoStatement => rust.fetched,
        _ => rust.fetched.saturating_sub(1),
    };
    if rules.counted && !class.goes_on() && completed != ours.count {
        return differs(format!("{} statements, the Rust {} and a panic", ours.count, completed));
    }
    Verdict::LeftOut(class)
}

fn runaway(rules: Rules, rust: &Seen, ours: &Left) -> Verdict {
    if ours.answer != Answer::Spent || ours.count != 99_999 {
        return differs(format!("{} after {} where the Rust runs away", ours.answer, ours.count));
    }
    match state(rules, &rust.observed, ours, false).or_else(|| cells(rules, rust, ours, &Traces::default())) {
        Some(text) => differs(text),
        None => Verdict::LeftOut(Class::Runaway),
    }
}

/// A run that both were stopped in, before a statement that is outside R-4's limit.
pub fn stopped(rules: Rules, rust: &Seen, ours: &Left, outside: Outside) -> Verdict {
    if !ours.rest_untouched {
        return differs(NOT_THE_PROGRAMS.into());
    }
    match &rust.end {
        End::Panic(panic) if !rust.stopped() && Class::of(panic).goes_on() => return Verdict::LeftOut(Class::of(panic)),
        end if !rust.stopped() => return differs(format!("the Rust doesn't come to statement {}: {:?}", ours.count + 1, end)),
        _ => {}
    }
    match state(rules, &rust.observed, ours, false).or_else(|| cells(rules, rust, ours, &Traces::default())) {
        Some(text) => differs(text),
        None => Verdict::Outside(outside),
    }
}

const NOT_THE_PROGRAMS: &str = "a cell, a frame or a saved cell that isn't the program's was written";

fn done(rules: Rules, rust: &Seen, ours: &Left) -> Verdict {
    if !matches!(ours.answer, Answer::Ended | Answer::Completed) {
        return differs(format!("{} where the Rust ends", ours.answer));
    }
    if rules.counted && rust.fetched != ours.count {
        return differs(format!("{} statements, the Rust {}", ours.count, rust.fetched));
    }
    let mut rules = rules;
    rules.entries_ended += rules.ended_adds as i64;
    match state(rules, &rust.observed, ours, false).or_else(|| cells(rules, rust, ours, &Traces::default())) {
        Some(text) => differs(text),
        None => Verdict::Same { traces: false },
    }
}

fn error(call: &Call, rules: Rules, rust: &Seen, ours: &Left, text: &str) -> Verdict {
    let Answer::Refused(number) = ours.answer else {
        return differs(format!("{} where the Rust ends with the error {}", ours.answer, text));
    };
    let Some(rusts) = number_of(text) else {
        return differs(format!("an error without a number: {}", text));
    };
    if rules.counted && ours.count != rust.fetched.saturating_sub(1) {
        return differs(format!("{} statements, the Rust {}", ours.count, rust.fetched.saturating_sub(1)));
    }
    let failing = Failing::of(call, ours);
    let traces = failing.traces(call, rules, rusts, ours);
    let found = state(rules, &rust.observed, ours, failing.is_entry()).or_else(|| cells(rules, rust, ours, &traces));
    if let Some(text) = found {
        return differs(text);
    }
    if rusts != number {
        return match (rusts, number) {
            // The Rust meets a missing argument cell before a wrong count.
            (15, 24) if failing.is_entry() => Verdict::OtherNumber(15, 24),
            // A negative string is refused where it is read; the Rust looks at the destination first.
            (15 | 16, 17) if failing.is_store_s() => Verdict::OtherNumber(rusts, 17),
            // The first number is outside the strings; the Rust doesn't look at it, and meets the second operand.
            (15 | 16, 33) if failing.first_string_is_out(call, ours) => Verdict::OtherNumber(rusts, 33),
            // A negative local count and the saved cells add up to a small number in the release build.
            (15, 23) if failing.has_negative_locals() => Verdict::OtherNumber(15, 23),
            // A load's destination is checked first here; the Rust meets what is wrong with the field before it.
            (16 | 17 | 31, 15 | 16) if failing.is_load() && text.starts_with("Entity error") => Verdict::OtherNumber(rusts, number),
            _ => differs(format!("refused {}, the Rust's error stands for {}", number, rusts)),
        };
    }
    let strays = rust.observed.frames.len() != ours.depth || rust.observed.local_stack.len() != ours.saved.len();
    Verdict::Same { traces: strays || cells(rules, rust, ours, &Traces::default()).is_some() }
}

/// The cells and entity cells that the Rust may have written before it came to an error; they are excepted.
#[derive(Default)]
struct Traces {
    cells: Vec<usize>,
    entities: Vec<usize>,
}

/// What failed where the Rust ended with an error.
pub enum Failing {
    Entry(Option<Function>),
    Statement([i16; 4]),
}

impl Failing {
    pub fn of(call: &Call, ours: &Left) -> Failing {
        if let (Some(function), true) = (call.entered, call.entry_only || ours.depth == 0) {
            return Failing::Entry(call.view.function(function));
        }
        let statement = call.statement.or_else(|| call.view.statement(ours.position));
        match statement {
            Some([51..=59, a, _, _]) => {
                let number = ours.cells.get(a as usize).copied().unwrap_or(0);
                Failing::Entry(call.view.function(number as usize))
            }
            Some(statement) => Failing::Statement(statement),
            None => Failing::Entry(None),
        }
    }

    fn is_entry(&self) -> bool {
        matches!(self, Failing::Entry(_))
    }

    fn is_store_s(&self) -> bool {
        matches!(self, Failing::Statement([33, ..]))
    }

    fn first_string_is_out(&self, call: &Call, ours: &Left) -> bool {
        matches!(*self, Failing::Statement(statement) if strings::first_out_of_range(&call.view, &ours.cells, statement))
    }

    /// Whether it is one of the opcodes that read a field.
    fn is_load(&self) -> bool {
        matches!(self, Failing::Statement([24..=29, ..]))
    }

    fn has_negative_locals(&self) -> bool {
        matches!(self, Failing::Entry(Some(f)) if f.locals < 0)
    }

    fn traces(&self, call: &Call, rules: Rules, rusts: u32, ours: &Left) -> Traces {
        let entities = match *self {
            Failing::Statement([38, _, b, _]) => entities::written(call, ours, b),
            _ => Vec::new(),
        };
        Traces { cells: self.cells(rules, rusts), entities }
    }

    fn cells(&self, rules: Rules, rusts: u32) -> Vec<usize> {
        let three = |first: i16| (0..3).map(|i| first.wrapping_add(i) as usize).collect();
        match *self {
            // Arguments are copied last, and a missing cell is all that can go wrong then.
            Failing::Entry(Some(ref f)) if rusts == 15 => {
                let cells = if rules.all_arguments { f.components() } else { 1 };
                (0..cells).map(|i| (f.local as usize).wrapping_add(i) as i16 as usize).collect()
            }
            Failing::Statement([3 | 4 | 7 | 9 | 25 | 45, _, _, c]) => three(c),
            Failing::Statement([32, _, b, _]) => three(b),
            Failing::Statement([0 | 43, ..]) => three(1),
            _ => Vec::new(),
        }
    }
}

/// The first difference of position, function, frames or saved cells. A failed entry leaves a frame and saved cells in the Rust.
fn state(rules: Rules, rust: &Observed, ours: &Left, strays: bool) -> Option<String> {
    let further = |lowest: bool| if lowest { rules.entries_ended } else { 0 };
    let pc = rust.pc as i64 - further(ours.depth == 0);
    if pc != ours.position {
        return Some(format!("position {}, the Rust's {}", ours.position, rust.pc));
    }
    if rust.function != ours.function {
        return Some(format!("function {}, the Rust's {}", ours.function, rust.function));
    }
    let frames: Vec<(i64, usize)> = (rust.frames.iter().enumerate())
        .map(|(i, &(pc, f))| {
            let after = (rules.call_frames && i > 0) as i64;
            (pc as i64 - further(i == 0) + after, f)
        })
        .collect();
    let many = frames.len() == ours.depth || (strays && frames.len() == ours.depth + 1);
    if !many || frames[..ours.depth] != ours.frames[..] {
        return Some(format!("frames {:?}, the Rust's {:?}", ours.frames, rust.frames));
    }
    let saved = &rust.local_stack;
    let many = saved.len() == ours.saved.len() || (strays && saved.len() > ours.saved.len());
    let equal = |(&a, &b): (&u32, &u32)| same_cell(rules, a, b);
    if !many || !saved.iter().zip(&ours.saved).all(equal) {
        return Some(format!("saved {:x?}, the Rust's {:x?}", ours.saved, saved));
    }
    None
}

fn same_cell(rules: Rules, a: u32, b: u32) -> bool {
    a == b || (rules.nan_as_nan && f32::from_bits(a).is_nan() && f32::from_bits(b).is_nan())
}

/// The first difference of a cell or an entity cell.
fn cells(rules: Rules, rust: &Seen, ours: &Left, excepted: &Traces) -> Option<String> {
    let found = first_difference(rules, &rust.cells, &ours.cells, &excepted.cells);
    if let Some(text) = found {
        return Some(format!("cell {}", text));
    }
    first_difference(rules, &rust.entities, &ours.entities, &excepted.entities).map(|text| format!("entity cell {}", text))
}

fn first_difference(rules: Rules, rust: &[u32], ours: &[u32], excepted: &[usize]) -> Option<String> {
    if rust.len() != ours.len() {
        return Some(format!("count {}, the Rust's {}", ours.len(), rust.len()));
    }
    (0..ours.len())
        .find(|&i| !same_cell(rules, rust[i], ours[i]) && !excepted.contains(&i))
        .map(|i| format!("{} {:08x}, the Rust's {:08x}", i, ours[i], rust[i]))
}

/// A load of both.
pub fn compare_load(view: &View, rust: Result<&Seen, &End>, ours: Result<&Left, u32>) -> Verdict {
    match (rust, ours) {
        (Ok(rust), Ok(ours)) => done(LOADED, rust, ours),
        (Ok(_), Err(number)) => match taken_by_the_rust(view, number) {
            Some(name) => Verdict::ByDesign(name),
            None => differs(format!("load refused {} where the Rust takes the file", number)),
        },
        (Err(End::Error(text)), Err(number)) => match number_of(text) {
            Some(rusts) if rusts == number => Verdict::Same { traces: false },
            // The header is checked first here; the Rust finds a lump past the end where it reads it.
            Some(rusts) if matches!(number, 1 | 4) => Verdict::OtherNumber(rusts, number),
            // The Rust goes on to the cells per entity.
            Some(11) if number == 10 && view.has_cells_for_the_rust_alone() => Verdict::OtherNumber(11, 10),
            _ => differs(format!("load refused {}, the Rust's error: {}", number, text)),
        },
        (Err(End::Error(text)), Ok(_)) => differs(format!("load accepted, the Rust's error: {}", text)),
        (Err(End::Panic(panic)), ours) => {
            let answer = ours.map_or_else(Answer::Refused, |_| Answer::Completed);
            let class = Class::of(panic);
            match class.allows(answer) {
                true => Verdict::LeftOut(class),
                false => differs(format!("load {} where the Rust panics: {:?}", answer, panic)),
            }
        }
        (Err(End::Done), _) => unreachable!("a load that is done is loaded"),
    }
}

const LOADED: Rules =
    Rules { nan_as_nan: false, entries_ended: 0, ended_adds: false, call_frames: false, counted: false, all_arguments: false };

/// "the sizes and address ranges of the table hold also where the Rust takes more".
fn taken_by_the_rust(view: &View, number: u32) -> Option<&'static str> {
    const LUMPS: [Lump; 6] = [Lump::Statements, Lump::GlobalDefs, Lump::FieldDefs, Lump::Functions, Lump::Strings, Lump::Cells];
    match number {
        1 if view.0.len() > 1_048_576 => Some("a file of more than 1,048,576 bytes"),
        4 if LUMPS.iter().any(|&l| view.count(l) == 0 && view.offset(l) < 0) => Some("an empty lump at a negative offset"),
        10 if view.cells() > 32_768 => Some("more than 32,768 cells"),
        10 if view.has_cells_for_the_rust_alone() => Some("36 to 63 cells, which R-7 refuses"),
        11 if view.entity_cells() < 0 => Some("negative cells per entity"),
        _ => None,
    }
}

/// Whether a difference is that the Rust wraps the cells of an entry to 16 bits, where this machine refuses them 15.
pub fn wraps_an_address(call: &Call, ours: &Left) -> bool {
    if ours.answer != Answer::Refused(15) {
        return false;
    }
    let entry = call.entry_only || ours.depth == 0;
    let function = match (call.entered, entry, call.view.statement(ours.position)) {
        (Some(function), true, _) => call.view.function(function),
        (_, _, Some([51..=59, a, _, _])) => {
            let number = ours.cells.get(a as usize).copied().unwrap_or(0);
            call.view.function(number as usize)
        }
        _ => None,
    };
    function.is_some_and(|f| {
        let cells = f.components().max(f.locals.max(0) as usize) as i64;
        f.local < 0 || f.local as i64 + cells > 32_768
    })
}

//! A sample of the Rust's answers, as lines that the show program must print. Nothing in it comes from this machine.

use crate::classes::{number_of, Class};
use crate::entities::Lent;
use crate::generate::{self, Case};
use crate::oracle::{self, End, Seen, Variant};
use crate::program::{Lump, View};
use crate::runs::{names_are_texts, reserves_too_much};
use crate::strings::{self, Trace};
use changed::switches;
use std::collections::BTreeMap;
use std::fmt::Write;

/// Files are small, so that the sample is.
const BYTES: usize = 752;
const TRIED: u64 = 40_000;

/// An answer of the Rust: the show program's line, the numbers of the builtins that the run called, and which of EqS, NeS and NotS compared
/// or tested string numbers.
struct Answered {
    line: String,
    builtins: Vec<i32>,
    strings: Trace,
}

impl Answered {
    fn load(line: String) -> Answered {
        Answered { line, builtins: Vec::new(), strings: Trace::default() }
    }

    /// Outcome and detail, and the builtins and string opcodes if there are any: what the cases are counted by.
    fn kind(&self) -> String {
        let answer = self.line.split(',').take(2).collect::<Vec<_>>().join(",");
        let mut names: Vec<&str> = self.builtins.iter().map(|&number| builtin_name(number)).collect();
        names.extend(self.strings.names());
        match names.is_empty() {
            true => answer,
            false => format!("{} with {}", answer, names.join(" and ")),
        }
    }
}

/// Of the builtins that the machine does itself; empty for another.
fn builtin_name(number: i32) -> &'static str {
    match number {
        36 => "rint",
        37 => "floor",
        38 => "ceil",
        43 => "fabs",
        _ => "",
    }
}

/// How many cases of one kind and one variant are kept. A spent run takes long, and loads are alike.
fn most(answered: &Answered) -> usize {
    let line = &answered.line;
    match line.split(',').next() {
        Some("spent") => 6,
        _ if !answered.builtins.is_empty() || answered.strings.any() => 12,
        Some("ended") => 120,
        _ if line.split(',').count() == 2 => 12,
        _ => 25,
    }
}

/// Writes `NAME LENGTH HEX LINE` for each, in the format of tests/model's files.txt.
pub fn write(seed: u64, path: &str) -> bool {
    let mut kept: BTreeMap<String, usize> = BTreeMap::new();
    let mut text = String::from(HOW);
    for number in 0..TRIED {
        let mut case = generate::case_without_entities(seed ^ 0x5a, number);
        case.calls = vec![1];
        if case.bytes.len() > BYTES || reserves_too_much(&case.bytes) || !names_are_texts(&View(&case.bytes)) {
            continue;
        }
        let unchanged = answered(&case, Variant::Unchanged).map(|answered| ("unchanged", answered));
        let either = unchanged.or_else(|| answered(&case, Variant::Changed).map(|answered| ("changed", answered)));
        let Some((name, answered)) = either else {
            continue;
        };
        let count = kept.entry(format!("{} {}", name, answered.kind())).or_default();
        if *count < most(&answered) {
            *count += 1;
            writeln!(text, "{}-{} {} {}", name, number, file(&case.bytes), answered.line).unwrap();
        }
    }
    let lines = text.lines().filter(|l| !l.starts_with('#')).count();
    println!("{} answers of the Rust", lines);
    for (answer, count) in kept {
        println!("  {:>4} {}", count, answer);
    }
    std::fs::write(path, text).is_ok()
}

const HOW: &str = "\
# Answers of richter's program machine, as the show program's lines: NAME LENGTH HEX LINE, bytes not given are zeros.
# Made by `rust/oracle/differential.sh sample`, from the Rust alone: load, then execute_program of function 1. unchanged: richter as it
# is, where no named difference of document 01 plays a part. changed: the others, with the named differences changed to pr_exec.c's
# way and NaN made canonical. There are no entities and no void global definitions, no file has 36 to 63 cells (02's R-7), and EqS, NeS
# and NotS are within the limit of 02's R-4. An error is written as the refusal it stands for, the panic at the 100,000th statement as
# spent.
";

fn file(bytes: &[u8]) -> String {
    let given = bytes.iter().rposition(|&b| b != 0).map_or(0, |last| last + 1);
    let hex: String = bytes[..given].iter().map(|b| format!("{:02x}", b)).collect();
    format!("{} {}", bytes.len(), if hex.is_empty() { "-" } else { &hex })
}

fn answered(case: &Case, variant: Variant) -> Option<Answered> {
    let view = View(&case.bytes);
    switches::set(&switches::ALL);
    if view.has_cells_for_the_rust_alone() {
        return None;
    }
    if variant == Variant::Unchanged && !agrees_with_pr_exec(case) {
        return None;
    }
    let mut level = match oracle::load(variant, &case.bytes, &Lent::default()) {
        Ok(level) => level,
        Err(End::Error(text)) => return refused_load(&view, &text).map(Answered::load),
        Err(_) => return None,
    };
    if view.has_void_globals() {
        return None;
    }
    // What 01's sizes refuse and the Rust takes.
    if view.cells() > 32_768 || view.entity_cells() < 0 || negative_offset(&view) || wraps(&view) || has_pointers_by_design(&view) {
        return None;
    }
    let seen = oracle::call(&mut *level, view.cells(), true, |l| l.execute_program(1));
    let builtins = if seen.builtins_at.is_empty() { Vec::new() } else { builtins_called(case, variant)? };
    if builtins.iter().any(|&number| builtin_name(number).is_empty()) {
        return None;
    }
    let strings = strings_met(case, variant, seen.fetched)?;
    let line = ended(&view, variant, &seen)?;
    Some(Answered { line, builtins, strings })
}

/// What the EqS, NeS and NotS of a run met; none where one is outside R-4's limit, or refused here by another number. The run is made again
/// and stopped at each of its statements; a long one isn't, and counts as outside.
fn strings_met(case: &Case, variant: Variant, fetched: u64) -> Option<Trace> {
    const LONG: u64 = 200;
    let view = View(&case.bytes);
    let mut trace = Trace::default();
    if !strings::in_file(&view) {
        return Some(trace);
    }
    if fetched > LONG {
        return None;
    }
    for count in 1..=fetched {
        let mut level = oracle::load_whole(variant, &case.bytes, &Lent::default());
        let seen = oracle::execute_until(&mut *level, view.cells(), count, 1);
        let statement = view.statement(seen.observed.pc as i64).filter(|_| seen.stopped())?;
        if strings::first_out_of_range(&view, &seen.cells, statement) {
            return None;
        }
        trace.add(strings::met(&view, &seen.cells, statement));
    }
    trace.outside.is_none().then_some(trace)
}

/// The numbers of the builtins that the run calls, the least first. The Rust's log doesn't tell them apart, so the run is made again with
/// each builtin function replaced by one that panics. None where that can't tell: other parts of the file overlap the functions.
fn builtins_called(case: &Case, variant: Variant) -> Option<Vec<i32>> {
    let view = View(&case.bytes);
    let functions = (0..).map_while(|i| view.function(i)).enumerate();
    let mut numbers = Vec::new();
    for (function, builtin) in functions.map(|(i, f)| (i, -f.first)).filter(|&(_, builtin)| builtin > 0) {
        if calls(case, variant, function)? {
            numbers.push(builtin);
        }
    }
    numbers.sort_unstable();
    numbers.dedup();
    (!numbers.is_empty()).then_some(numbers)
}

/// Whether the run calls the function, a builtin. None where the file with another builtin in its place isn't loaded.
fn calls(case: &Case, variant: Variant, function: usize) -> Option<bool> {
    const SET_ORIGIN: i32 = -2;
    let mut bytes = case.bytes.clone();
    let at = View(&case.bytes).offset(Lump::Functions) as usize + 36 * function;
    bytes[at..at + 4].copy_from_slice(&SET_ORIGIN.to_le_bytes());
    let mut level = oracle::load(variant, &bytes, &Lent::default()).ok()?;
    let end = oracle::call(&mut *level, 0, false, |l| l.execute_program(1)).end;
    Some(matches!(end, End::Panic(panic) if panic.message.contains("builtin_set_origin")))
}

fn negative_offset(view: &View) -> bool {
    use crate::program::Lump::*;
    [Statements, GlobalDefs, FieldDefs, Functions, Strings, Cells].iter().any(|&l| view.offset(l) < 0)
}

/// Whether a statement would make a pointer, which the Rust does without entities too, or take one from a cell of another type.
fn has_pointers_by_design(view: &View) -> bool {
    let mut statements = (0..).map_while(|position| view.statement(position));
    statements.any(|[opcode, _, b, _]| match opcode {
        30 => true,
        37..=42 => view.global_type(b).is_some_and(|type_| type_ != 7),
        _ => false,
    })
}

/// Whether the cells of an entry could be wrapped to 16 bits.
fn wraps(view: &View) -> bool {
    let functions = (0..).map_while(|i| view.function(i));
    functions.into_iter().any(|f| {
        let cells = f.components() as i64 + f.locals.max(0) as i64;
        f.local < 0 || f.local as i64 + cells > 32_768
    })
}

/// Only what can't be the header's: a lump past the end is another number there, found earlier.
fn refused_load(view: &View, text: &str) -> Option<String> {
    use crate::program::Lump::*;
    let inside = [(Statements, 8), (GlobalDefs, 8), (FieldDefs, 8), (Functions, 36), (Strings, 1), (Cells, 4)].iter().all(|&(l, size)| {
        let (at, count) = (view.offset(l) as i64, view.count(l) as i64);
        at >= 0 && count >= 0 && (count == 0 || at + count * size <= view.0.len() as i64)
    });
    let number = number_of(text)?;
    (inside && number != 4).then(|| format!("refused,{}", number))
}

/// Whether the unchanged and the changed Rust do the same, so that no named difference plays a part. The position is one further.
fn agrees_with_pr_exec(case: &Case) -> bool {
    let cells = View(&case.bytes).cells();
    let seen = [Variant::Unchanged, Variant::Changed].map(|variant| {
        let mut level = oracle::load(variant, &case.bytes, &Lent::default()).ok()?;
        Some(oracle::call(&mut *level, cells, true, |l| l.execute_program(1)))
    });
    match seen {
        [Some(a), Some(b)] => a.end == b.end && a.fetched == b.fetched && a.cells == b.cells,
        [None, None] => true,
        _ => false,
    }
}

fn ended(view: &View, variant: Variant, seen: &Seen) -> Option<String> {
    let state = &seen.observed;
    let (word, count) = match &seen.end {
        End::Done => ("ended,0".to_string(), seen.fetched),
        End::Error(text) => {
            let number = number_of(text)?;
            if leaves_traces(view, seen, number) {
                return None;
            }
            (format!("refused,{}", number), seen.fetched.saturating_sub(1))
        }
        End::Panic(panic) if Class::of(panic) == Class::Runaway => ("spent,0".to_string(), seen.fetched),
        End::Panic(_) => return None,
    };
    let further = (variant == Variant::Unchanged && seen.end == End::Done) as usize;
    // An entry that fails for depth or saved cells has pushed its frame, and nothing else.
    let pushed = (word == "refused,22" || word == "refused,23") as usize;
    Some(format!(
        "{},{},{},{},{},{},{:08x},{:08x},{:08x}",
        word,
        count,
        state.pc - further,
        state.function,
        state.frames.len() - pushed,
        state.local_stack.len(),
        seen.cells[1],
        seen.cells[2],
        seen.cells[3]
    ))
}

/// Whether the error came in an entry after its frame was pushed, or in a statement that may have written part of cells 1 to 3.
fn leaves_traces(view: &View, seen: &Seen, number: u32) -> bool {
    let first = |cell: i16| (-2..=3).contains(&cell);
    let in_entry = !matches!(number, 16 | 20 | 22 | 23);
    match view.statement(seen.observed.pc as i64) {
        _ if seen.fetched == 0 => in_entry,
        None | Some([0 | 43, ..]) => true,
        Some([51..=59, ..]) => in_entry,
        Some([3 | 4 | 7 | 9 | 45, _, _, c]) => first(c),
        Some([32, _, b, _]) => first(b),
        Some(_) => false,
    }
}

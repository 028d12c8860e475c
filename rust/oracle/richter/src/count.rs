//! Counts the statements that `execute_program` fetches, and stops it at one of them, without a change to it: it logs each one right after
//! the fetch, and this is the logger. With the level off, which is how the benchmark runs, nothing is logged.

use log::{LevelFilter, Log, Metadata, Record};
use std::cell::{Cell, RefCell};
use std::sync::OnceLock;

/// Where the two messages stand in a `server/mod.rs`.
struct Lines {
    module: &'static str,
    statement: u32,
    builtin: u32,
}

static LINES: OnceLock<Vec<Lines>> = OnceLock::new();

thread_local! {
    static FETCHED: Cell<u64> = const { Cell::new(0) };
    static STOP_AT: Cell<u64> = const { Cell::new(u64::MAX) };
    static BUILTINS_AT: RefCell<Vec<u64>> = const { RefCell::new(Vec::new()) };
}

fn line_of(source: &str, text: &str) -> u32 {
    let found: Vec<usize> = (source.lines().enumerate())
        .filter(|(_, line)| line.contains(text))
        .map(|(i, _)| i + 1)
        .collect();
    assert!(found.len() == 1, "{} lines with {}", found.len(), text);
    found[0] as u32
}

/// The panic by which a run is stopped.
pub const STOPPED: &str = "stopped at a statement by the count";

struct Counter;

/// A statement was fetched, and nothing of it is done yet.
fn statement() {
    FETCHED.with(|n| n.set(n.get() + 1));
    if fetched() == STOP_AT.with(Cell::get) {
        panic!("{}", STOPPED);
    }
}

impl Log for Counter {
    fn enabled(&self, _: &Metadata) -> bool {
        true
    }

    fn log(&self, record: &Record) {
        let module = record.module_path();
        let lines = (LINES.get().unwrap().iter()).find(|l| Some(l.module) == module);
        if let Some(lines) = lines {
            if record.line() == Some(lines.statement) {
                statement();
            }
            if record.line() == Some(lines.builtin) {
                BUILTINS_AT.with(|at| at.borrow_mut().push(fetched()));
            }
        }
    }

    fn flush(&self) {}
}

/// Takes the process's logger, for these modules and their sources. Once.
pub fn install(modules: &[(&'static str, &str)]) {
    let lines = modules
        .iter()
        .map(|&(module, source)| Lines {
            module,
            // The message is the macro's second line.
            statement: line_of(source, "\"              {:<9} {:>5} {:>5} {:>5}\"") - 1,
            builtin: line_of(source, "debug!(\"Calling built-in function {}\", name)"),
        })
        .collect();
    assert!(LINES.set(lines).is_ok());
    log::set_logger(&Counter).unwrap();
}

/// Counts from 0, or not at all.
pub fn start(on: bool) {
    FETCHED.with(|n| n.set(0));
    STOP_AT.with(|n| n.set(u64::MAX));
    BUILTINS_AT.with(|at| at.borrow_mut().clear());
    log::set_max_level(if on {
        LevelFilter::Debug
    } else {
        LevelFilter::Off
    });
}

/// Counts from 0, and stops the run by a panic where it has fetched so many statements.
pub fn start_until(fetched: u64) {
    start(true);
    STOP_AT.with(|n| n.set(fetched));
}

pub fn fetched() -> u64 {
    FETCHED.with(|n| n.get())
}

/// The count at each call of a builtin.
pub fn builtins_at() -> Vec<u64> {
    BUILTINS_AT.with(|at| at.borrow().clone())
}

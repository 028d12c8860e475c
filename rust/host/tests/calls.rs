//! However a call ends, the machine is as it was before it; and what a call hands over counts.

use std::panic::{catch_unwind, AssertUnwindSafe};

use host::assemble::{statement, Assembly, Function};
use host::{Caller, Cause, Handover, Machine, Refusal, CELLS, SAVED_STORE};

/// A function of the rules that begins at a statement.
fn from(first: i32) -> Function {
    Function {
        first,
        ..Function::default()
    }
}

fn builtin(number: i32) -> Function {
    Function {
        first: -number,
        arguments: -1,
        ..Function::default()
    }
}

fn loaded(program: &Assembly) -> Machine {
    let mut machine = Machine::new(program.bytes(), vec![0; CELLS], vec![0; SAVED_STORE]);
    machine.load().unwrap();
    machine
}

/// The end of the match, which needs no builtin: cell 30 is returned.
const END_OF_MATCH: i64 = 3;

/// Function 1 calls builtin 7 and, after it, function 4, which calls builtin 7 in its turn. Both have local cells.
fn calling() -> Assembly {
    let local = |first, local| Function {
        local,
        locals: 2,
        ..from(first)
    };
    Assembly {
        statements: vec![
            statement("Done", 0, 0, 0),
            statement("Call0", 28, 0, 0),
            statement("Call0", 29, 0, 0),
            statement("Done", 0, 0, 0),
            statement("Call0", 28, 0, 0),
            statement("Done", 0, 0, 0),
            statement("Return", 30, 0, 0),
        ],
        functions: vec![from(0), local(1, 40), builtin(7), from(6), local(4, 42)],
        cells: vec![(28, 2), (29, 4), (30, 12.0_f32.to_bits()), (40, 1), (43, 2)],
        ..Assembly::default()
    }
}

fn assert_the_match_ends(machine: &mut Machine) {
    let ended = machine.call(END_OF_MATCH, 10, |_, _| Ok::<(), Refusal>(()));
    assert_eq!(ended, Ok(1));
    assert_eq!(machine.read_float(1), Ok(12.0));
}

/// The server catches the panic: 40 of them, where 31 frames are all that there are.
#[test]
fn a_builtin_that_panics() {
    for asked in [1, 2] {
        let mut machine = loaded(&calling());
        let before = machine.clone();
        for _ in 0..40 {
            let mut handed = 0;
            let caught = catch_unwind(AssertUnwindSafe(|| {
                machine.call(1, 100, |_, _| {
                    handed += 1;
                    assert!(handed < asked, "a builtin fails");
                    Ok::<(), Refusal>(())
                })
            }));
            assert!(caught.is_err());
            assert_eq!(machine.context(), before.context());
            assert_eq!(machine.cells()[40..44], before.cells()[40..44]);
        }
        assert_the_match_ends(&mut machine);
    }
}

/// The same in a call that a builtin makes.
#[test]
fn a_builtin_of_a_builtin_that_panics() {
    let mut machine = loaded(&calling());
    let before = machine.clone();
    for _ in 0..40 {
        let caught = catch_unwind(AssertUnwindSafe(|| {
            machine.call(1, 100, |_, machine| {
                let called = machine.call(4, 100, |_, _| -> Result<(), Refusal> {
                    panic!("a builtin fails")
                });
                called.map(drop)
            })
        }));
        assert!(caught.is_err());
        assert_eq!(machine.context(), before.context());
    }
    assert_the_match_ends(&mut machine);
}

/// A builtin that itself catches what fails below it, and goes on.
#[test]
fn a_builtin_that_catches() {
    let mut machine = loaded(&calling());
    let before = machine.clone();
    let mut caught = 0;
    let called = machine.call(1, 100, |_, machine| {
        let failed = catch_unwind(AssertUnwindSafe(|| {
            machine.call(4, 100, |_, _| -> Result<(), Refusal> {
                panic!("a builtin fails")
            })
        }));
        caught += u32::from(failed.is_err());
        Ok::<(), Refusal>(())
    });
    assert!(called.is_ok());
    assert_eq!(caught, 2);
    assert_eq!(machine.context(), before.context());
}

/// `(choose())()`, as fteqcc compiles it: a Call of what the last one returned. Its own result takes the place of the
/// function's number.
#[test]
fn a_builtin_through_a_result() {
    for cell in 1..=3 {
        let program = Assembly {
            statements: vec![
                statement("Done", 0, 0, 0),
                statement("Call0", 28, 0, 0),
                statement("Call0", cell, 0, 0),
                statement("AddF", cell, 30, 31),
                statement("Return", 31, 0, 0),
            ],
            functions: vec![from(0), from(1), builtin(7), builtin(8)],
            cells: vec![(28, 2), (30, 1.0_f32.to_bits())],
            ..Assembly::default()
        };
        let mut machine = loaded(&program);
        let called = machine.call(1, 100, |handover, machine| {
            let result = match handover {
                Handover::Builtin(7) => 3,
                _ => 0.25_f32.to_bits(),
            };
            (1..=3).try_for_each(|cell| machine.write(cell, result))
        });
        assert!(called.is_ok(), "cell {cell}: {called:?}");
        assert_eq!(machine.read_float(1), Ok(1.25));
    }
}

/// What a builtin enters comes back to the statement after its own.
#[test]
fn a_builtin_that_calls() {
    let mut machine = loaded(&calling());
    let mut places = Vec::new();
    let called = machine.call(1, 100, |_, machine| {
        if places.is_empty() {
            machine.call(END_OF_MATCH, 10, |_, _| Ok::<(), Refusal>(()))?;
        }
        places.push((machine.position(), machine.function(), machine.depth()));
        Ok::<(), host::CallError<Refusal>>(())
    });
    assert_eq!(called, Ok(5));
    assert_eq!(places, [(1, 1, 1), (4, 4, 2)]);
}

/// A thousand hand-overs and a jump back: without counting them, a limit of 100 statements would allow 100,000.
#[test]
fn a_limit_on_handovers() {
    let mut program = Assembly {
        statements: vec![statement("Call0", 28, 0, 0); 1_000],
        functions: vec![from(0), from(0), builtin(7)],
        cells: vec![(28, 2)],
        ..Assembly::default()
    };
    program.statements.push(statement("Goto", -1_000, 0, 0));
    let mut machine = loaded(&program);
    let before = machine.clone();
    let mut handed = 0;
    let error = machine.call(1, 100, |_, _| {
        handed += 1;
        Ok::<(), Refusal>(())
    });
    let error = error.unwrap_err();
    assert_eq!(handed, 100);
    assert_eq!((error.cause, error.count), (Cause::Spent, 100));
    assert_eq!((error.position, error.function), (100, 1));
    assert_eq!(machine.context(), before.context());
}

/// A hand-over is one of the statements that are counted.
#[test]
fn handovers_count() {
    let mut machine = loaded(&calling());
    let accepted = |_: Handover, _: &mut Caller<'_>| Ok::<(), Refusal>(());
    // Call0, Call0 (entering), Call0, Done, Done
    assert_eq!(machine.call(1, 100, accepted), Ok(5));
    assert_eq!(machine.call(1, 5, accepted), Ok(5));
    let error = machine.call(1, 4, accepted).unwrap_err();
    assert_eq!((error.cause, error.count), (Cause::Spent, 4));
    // the one that is given up isn't
    let mut handed = 0;
    let error = machine.call(1, 100, |handover, _| {
        handed += 1;
        if handed == 2 {
            Err(handover)
        } else {
            Ok(())
        }
    });
    let error = error.unwrap_err();
    assert_eq!(error.cause, Cause::Host(Handover::Builtin(7)));
    assert_eq!(error.count, 2);
    assert_eq!((error.position, error.function), (4, 4));
}

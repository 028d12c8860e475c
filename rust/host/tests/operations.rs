//! Each operation once, by document 01's example and by hand.

use std::fs;
use std::path::Path;

use host::assemble::{statement, Assembly, Function};
use host::{
    Context, Handover, LoadError, Machine, Outcome, Refusal, Run, RunOutcome, CELLS, SAVED_STORE,
};

fn number(refusal: Result<(), Refusal>) -> u32 {
    refusal.unwrap_err().number()
}

fn load_number(refused: Result<(), LoadError>) -> u32 {
    refused.unwrap_err().refusal().unwrap().number()
}

/// Document 01's file for the show program, made as 01 describes it.
fn shown() -> Assembly {
    Assembly {
        statements: vec![
            statement("Done", 0, 0, 0),
            statement("AddF", 28, 29, 30),
            statement("Return", 30, 0, 0),
        ],
        functions: vec![
            Function::default(),
            Function {
                first: 1,
                local: 30,
                locals: 1,
                ..Function::default()
            },
        ],
        cells: vec![(28, 0x3fc0_0000), (29, 0x4010_0000)],
        ..Assembly::default()
    }
}

fn machine(assembly: &Assembly) -> Machine {
    Machine::new(assembly.bytes(), vec![7; 100], vec![9; SAVED_STORE + 2])
}

#[test]
fn the_assembled_file_is_the_show_programs() {
    let committed = Path::new(env!("CARGO_MANIFEST_DIR")).join("../../crates/show/stdin");
    assert_eq!(shown().bytes(), fs::read(committed).unwrap());
}

#[test]
fn load_fills_the_files_cells() {
    let mut machine = machine(&shown());
    assert!(!machine.loaded());
    assert_eq!(machine.load(), Ok(()));
    assert!(machine.loaded());
    assert_eq!(machine.cells()[28..30], [0x3fc0_0000, 0x4010_0000]);
    assert_eq!(machine.cells()[30..64], [0; 34]);
    assert_eq!(machine.cells()[64..], [7; 36]);
    assert_eq!(machine.saved(), [9; SAVED_STORE + 2]);
    assert_eq!(machine.context().file.length, machine.program().len());
    assert_eq!(machine.context().file.functions.count, 2);
}

#[test]
fn enter_run_and_read() {
    let mut machine = machine(&shown());
    machine.load().unwrap();
    machine.enter(1).unwrap();
    assert_eq!((machine.position(), machine.function()), (1, 1));
    assert_eq!((machine.depth(), machine.saved_count()), (1, 1));
    assert_eq!(machine.saved()[..2], [0, 9]);
    let run = machine.run(0, 99_999);
    assert_eq!(
        run,
        Run {
            outcome: RunOutcome::Ended,
            count: 2,
            position: 0,
            function: 0,
        }
    );
    assert_eq!((machine.position(), machine.function()), (0, 0));
    assert_eq!((machine.depth(), machine.saved_count()), (0, 0));
    assert_eq!(machine.read(1), Ok(0x4070_0000));
    assert_eq!(machine.read(30), Ok(0));
}

#[test]
fn statements_one_by_one() {
    let mut machine = machine(&shown());
    machine.load().unwrap();
    assert_eq!(machine.statement(), Outcome::Refused(Refusal::new(25)));
    machine.enter(1).unwrap();
    assert_eq!(machine.statement(), Outcome::Completed);
    assert_eq!(machine.position(), 2);
    assert_eq!(machine.statement(), Outcome::Completed);
    assert_eq!(machine.depth(), 0);
}

#[test]
fn hand_overs_and_carrying_on() {
    let mut machine = machine(&Assembly {
        statements: vec![
            statement("Call0", 28, 0, 0),
            statement("State", 0, 0, 0),
            statement("Done", 0, 0, 0),
        ],
        functions: vec![
            Function::default(),
            Function {
                first: -78,
                arguments: -1,
                ..Function::default()
            },
        ],
        cells: vec![(28, 1)],
        ..Assembly::default()
    });
    machine.load().unwrap();
    machine.enter(0).unwrap();
    let builtin = Handover::Builtin(78);
    assert_eq!(machine.statement(), Outcome::HandedOver(builtin));
    let run = machine.run(0, 5);
    assert_eq!(
        run,
        Run {
            outcome: RunOutcome::HandedOver(builtin),
            count: 0,
            position: 0,
            function: 0,
        }
    );
    assert_eq!(machine.carry_on(), Ok(()));
    assert_eq!(
        machine.statement(),
        Outcome::HandedOver(Handover::Opcode(60))
    );
    assert_eq!(machine.carry_on(), Ok(()));
    assert_eq!(number(machine.carry_on()), 27);
    let run = machine.run(0, 1);
    assert_eq!(
        run,
        Run {
            outcome: RunOutcome::Ended,
            count: 1,
            position: 0,
            function: 0,
        }
    );
}

#[test]
fn runs_are_spent_and_abandoned() {
    let mut machine = machine(&Assembly {
        statements: vec![statement("Goto", 0, 0, 0)],
        functions: vec![Function {
            local: 40,
            locals: 3,
            ..Function::default()
        }],
        cells: vec![(40, 1), (41, 2), (42, 3)],
        ..Assembly::default()
    });
    machine.load().unwrap();
    machine.enter(0).unwrap();
    machine.enter(0).unwrap();
    machine.write(41, 77).unwrap();
    let run = machine.run(1, 50);
    assert_eq!(
        run,
        Run {
            outcome: RunOutcome::Spent,
            count: 50,
            position: 0,
            function: 0,
        }
    );
    assert_eq!(number(machine.abandon(3)), 29);
    assert_eq!(number(machine.abandon(-1)), 29);
    assert_eq!(machine.abandon(2), Ok(()));
    assert_eq!((machine.depth(), machine.saved_count()), (2, 6));
    assert_eq!(machine.abandon(0), Ok(()));
    assert_eq!((machine.depth(), machine.saved_count()), (0, 0));
    assert_eq!(machine.read(41), Ok(2));
}

#[test]
fn raw_access() {
    let mut machine = machine(&shown());
    assert_eq!(machine.write(5, 1), Err(Refusal::STATE));
    machine.load().unwrap();
    assert_eq!(machine.write(63, u32::MAX), Ok(()));
    assert_eq!(machine.read(63), Ok(u32::MAX));
    for address in [-1, 64, i64::MIN, i64::MAX, 1 << 32] {
        assert_eq!(number(machine.write(address, 1)), 15);
        assert_eq!(machine.read(address), Err(Refusal::new(15)));
    }
    machine.write_float(40, -0.5).unwrap();
    assert_eq!(machine.read_float(40), Ok(-0.5));
}

/// A refused load leaves what an earlier one made.
#[test]
fn a_refused_load() {
    let mut machine = machine(&shown());
    machine.load().unwrap();
    machine.enter(1).unwrap();
    let before = machine.clone();
    machine.program_mut()[0] = 7;
    assert_eq!(load_number(machine.load()), 2);
    assert_eq!(machine.context(), before.context());
    assert_eq!(machine.cells(), before.cells());
    machine.program_mut()[0] = 6;
    assert_eq!(machine.run(0, 10).outcome, RunOutcome::Ended);
}

/// A context can be kept and put back, with its buffers.
#[test]
fn a_state_is_restored() {
    let mut machine = machine(&shown());
    machine.load().unwrap();
    machine.enter(1).unwrap();
    let kept = machine.clone();
    let first = machine.run(0, 10);
    let (cells, saved) = (machine.cells().to_vec(), machine.saved().to_vec());
    *machine.cells_mut() = kept.cells().to_vec();
    *machine.saved_mut() = kept.saved().to_vec();
    machine.set_context(*kept.context());
    assert_eq!(machine.run(0, 10), first);
    assert_eq!((machine.cells(), machine.saved()), (&cells[..], &saved[..]));
}

/// A context of zeros is no state, wherever it comes from.
#[test]
fn a_context_of_zeros() {
    let mut machine = machine(&shown());
    machine.load().unwrap();
    let kept = *machine.context();
    machine.set_context(Context::default());
    assert!(!machine.loaded());
    assert_eq!(machine.read(0), Err(Refusal::STATE));
    machine.set_context(kept);
    assert!(machine.loaded());
}

#[test]
fn vectors() {
    let mut machine = machine(&shown());
    machine.load().unwrap();
    machine.write_vector(61, [1.0, -2.5, 0.25]).unwrap();
    assert_eq!(machine.read_vector(61), Ok([1.0, -2.5, 0.25]));
    assert_eq!(machine.read_float(62), Ok(-2.5));
    let before = machine.clone();
    for address in [-3, -2, -1, 62, 63, 64, i64::MIN, i64::MAX, i64::MAX - 1] {
        let refused = Err(Refusal::new(15));
        assert_eq!(machine.write_vector(address, [7.0; 3]), refused);
        assert_eq!(machine.read_vector(address).map(drop), refused);
        assert_eq!(machine.cells(), before.cells());
    }
}

#[test]
fn empty_buffers() {
    let mut machine = Machine::new(Vec::new(), Vec::new(), Vec::new());
    assert_eq!(load_number(machine.load()), 1);
    assert_eq!(number(machine.enter(0)), 13);
    assert_eq!(machine.statement(), Outcome::Refused(Refusal::STATE));
    assert_eq!(number(machine.carry_on()), 13);
    let mut machine = Machine::new(shown().bytes(), vec![0; CELLS], Vec::new());
    assert_eq!(load_number(machine.load()), 12);
}

/// The sentences are those of the table in README.md.
#[test]
fn sentences() {
    let readme = Path::new(env!("CARGO_MANIFEST_DIR")).join("../../README.md");
    let readme = fs::read_to_string(readme).unwrap();
    let mut rows = 0;
    for line in readme.lines() {
        let columns: Vec<&str> = line.split('|').map(str::trim).collect();
        let ["", number, _, sentence, ""] = columns[..] else {
            continue;
        };
        if let Ok(number) = number.parse() {
            rows += 1;
            assert_eq!(number, rows);
            assert_eq!(Refusal::new(number).sentence(), sentence);
        }
    }
    assert_eq!(rows, 37);
    assert_eq!(Refusal::new(0).sentence(), Refusal::new(38).sentence());
}

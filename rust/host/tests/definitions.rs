//! A file with as many definitions as fit, of cells or of fields, looked up to the last, on a thread with little stack.

use std::thread;

use host::assemble::{statement, Assembly, Function};
use host::{Machine, Run, RunOutcome, Settings, CELLS, SAVED_STORE};

/// The longest file that a load accepts, in bytes.
const LONGEST: usize = 1_048_576;

const FLOAT: u16 = 2;
const STRING: u16 = 1;

fn file(first: [i16; 4]) -> Assembly {
    Assembly {
        statements: vec![
            statement("Done", 0, 0, 0),
            first,
            statement("Return", 30, 0, 0),
        ],
        functions: vec![
            Function::default(),
            Function {
                first: 1,
                ..Function::default()
            },
        ],
        ..Assembly::default()
    }
}

/// How many definitions still fit into a file.
fn room(file: &Assembly) -> usize {
    (LONGEST - file.bytes().len()) / 8
}

/// A file that adds two cells without a definition to cell 30, which only the last of its definitions names.
fn longest(last: u16) -> Vec<u8> {
    let mut file = file(statement("AddF", 28, 29, 30));
    file.cells = vec![(28, 1.5_f32.to_bits()), (29, 2.25_f32.to_bits())];
    file.definitions = vec![(FLOAT, 40, 0); room(&file) - 1];
    file.definitions.push((last, 30, 0));
    file.bytes()
}

/// A file that reads field 49 of entity 0, which only the last of its field definitions names.
fn longest_of_fields(last: u16) -> Vec<u8> {
    let mut file = file(statement("LoadF", 28, 29, 30));
    file.cells = vec![(29, 49)];
    file.fields = vec![(FLOAT, 40, 0); room(&file) - 1];
    file.fields.push((last, 49, 0));
    file.bytes()
}

/// What function 1 answers and leaves in cell 30. Field 49 of the one entity is 3.75.
fn run(file: Vec<u8>) -> (Run, f32) {
    let mut entity = vec![0; 105];
    entity[49] = 3.75_f32.to_bits();
    let mut machine = Machine::with_entities(file, vec![0; CELLS], vec![0; SAVED_STORE], entity);
    machine
        .load_with(Settings {
            entities: 1,
            ..Settings::default()
        })
        .expect("the file is accepted");
    machine.enter(1).expect("function 1 is there");
    let run = machine.run(0, 10);
    (run, machine.read_float(30).expect("cell 30 is there"))
}

fn on_little_stack(file: Vec<u8>) -> (Run, f32) {
    assert!(file.len() > LONGEST - 8);
    let little = thread::Builder::new().stack_size(64 << 10);
    little.spawn(|| run(file)).unwrap().join().unwrap()
}

#[test]
fn as_many_definitions_as_fit_are_looked_up_on_a_stack_of_64_kib() {
    for longest in [longest, longest_of_fields] {
        let (ended, value) = on_little_stack(longest(FLOAT));
        assert_eq!((ended.outcome, ended.count), (RunOutcome::Ended, 2));
        assert_eq!(value, 3.75);
        // The last definition is looked at: with another type it refuses.
        let (refused, kept) = on_little_stack(longest(STRING));
        let RunOutcome::Refused(refusal) = refused.outcome else {
            panic!("{refused:?}");
        };
        assert_eq!((refusal.number(), refused.count, kept), (16, 0, 0.0));
    }
}

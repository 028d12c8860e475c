//! Names, definitions and texts, by hand.

use host::assemble::{Assembly, Function};
use host::{Definition, Machine, Program};

fn file() -> Assembly {
    let mut file = Assembly::default();
    let (start, end) = (file.text("StartFrame"), file.text("EndMatch"));
    file.functions = vec![
        Function::default(),
        Function {
            first: 4,
            name: start,
            ..Function::default()
        },
        Function {
            first: -7,
            name: end,
            arguments: -1,
            ..Function::default()
        },
        Function {
            first: 9,
            name: start,
            ..Function::default()
        },
    ];
    file.definitions = vec![(2, 40, start), (0x8003, 41, end), (1, 40, end)];
    file.fields = vec![(4, 3, end)];
    file
}

#[test]
fn functions() {
    let bytes = file().bytes();
    let program = Program::new(&bytes);
    assert_eq!(program.function_count(), 4);
    assert_eq!(program.function(2), Some(file().functions[2]));
    assert_eq!(program.function(4), None);
    assert_eq!(program.function(-1), None);
    assert_eq!(program.function(i64::MAX), None);
    assert_eq!(program.function_name(2), Some(&b"EndMatch"[..]));
    // the first of two
    assert_eq!(program.find_function_by_name("StartFrame"), Some(1));
    assert_eq!(program.find_function_by_name(""), Some(0));
    assert_eq!(program.find_function_by_name("Start"), None);
    assert_eq!(program.find_function_by_name("StartFrames"), None);
}

#[test]
fn definitions() {
    let bytes = file().bytes();
    let program = Program::new(&bytes);
    let end = program.find_text("EndMatch").unwrap() as i32;
    let vector = Definition {
        kind: 3,
        save: true,
        cell: 41,
        name: end,
    };
    assert_eq!(program.definition_count(), 3);
    assert_eq!(program.definition(1), Some(vector));
    assert_eq!(program.find_definition_by_name("EndMatch"), Some(vector));
    assert_eq!(
        program.find_definition_of_cell(40).map(|found| found.kind),
        Some(2)
    );
    assert_eq!(program.find_definition_of_cell(42), None);
    assert_eq!(program.definition(3), None);
    let field = Definition {
        kind: 4,
        save: false,
        cell: 3,
        name: end,
    };
    assert_eq!(program.field_count(), 1);
    assert_eq!(program.field(0), Some(field));
    assert_eq!(program.find_field_by_name("EndMatch"), Some(field));
    assert_eq!(program.find_field_by_name("StartFrame"), None);
}

#[test]
fn statements() {
    let mut file = file();
    file.statements = vec![[0, 0, 0, 0], [61, -3, 0, 0], [66, 1, 2, 3], [-1, 0, 0, 0]];
    let bytes = file.bytes();
    let program = Program::new(&bytes);
    assert_eq!(program.statement(1), Some([61, -3, 0, 0]));
    for position in [-1, 2, 3, 4, i64::MIN, i64::MAX] {
        assert_eq!(program.statement(position), None);
    }
}

#[test]
fn texts() {
    let mut file = file();
    file.strings.extend(b"no zero after \xff this");
    let bytes = file.bytes();
    let program = Program::new(&bytes);
    let last = file.strings.len() as i64;
    assert_eq!(program.text(0), Some(&b""[..]));
    assert_eq!(program.text(1), Some(&b"StartFrame"[..]));
    assert_eq!(program.text(6), Some(&b"Frame"[..]));
    assert_eq!(program.text(last - 1), Some(&b"s"[..]));
    assert_eq!(program.text(last), None);
    assert_eq!(program.text(-1), None);
    assert_eq!(program.find_text("Frame"), Some(6));
    assert_eq!(program.find_text(""), Some(0));
    assert_eq!(program.find_text(b"\xff this"), Some(last - 6));
    assert_eq!(program.find_text(b"Match\0no zero after \xff this"), None);
    assert_eq!(program.find_text("absent"), None);
}

/// Headers that name more than there is.
#[test]
fn absurd_headers() {
    let whole = file().bytes();
    for place in (8..60).step_by(4) {
        for number in [-1, i32::MIN, i32::MAX, 1 << 20] {
            let mut bytes = whole.clone();
            bytes[place..place + 4].copy_from_slice(&number.to_le_bytes());
            let program = Program::new(&bytes);
            program.find_function_by_name("EndMatch");
            program.find_definition_by_name("absent");
            program.find_field_by_name("absent");
            program.find_text("absent");
            for record in [0, 1, i64::from(i32::MAX) - 1] {
                program.function(record);
                program.definition(record);
                program.field(record);
                program.text(record);
            }
        }
    }
    for length in 0..whole.len() {
        let program = Program::new(&whole[..length]);
        program.find_function_by_name("absent");
        program.text(3);
    }
}

#[test]
fn by_the_machine() {
    let machine = Machine::new(file().bytes(), Vec::new(), Vec::new());
    assert_eq!(machine.find_function_by_name("EndMatch"), Some(2));
    assert_eq!(
        machine
            .find_definition_by_name("StartFrame")
            .map(|found| found.cell),
        Some(40)
    );
    let number = machine.find_text("EndMatch").unwrap();
    assert_eq!(machine.text(number), Some(&b"EndMatch"[..]));
}

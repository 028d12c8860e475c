//! Void definitions on cells that real definitions name too, as a compiler leaves them: they are passed over.

use std::fs;
use std::path::{Path, PathBuf};

use host::assemble::{statement, Assembly, Function};
use host::{Machine, Outcome, Program, Refusal, RunOutcome, CELLS, SAVED_STORE};

const VOID: u16 = 0;
const STRING: u16 = 1;
const FLOAT: u16 = 2;
const SAVE: u16 = 0x8000;

const ONE: u32 = 0x3f80_0000;
const REFUSED: Outcome = Outcome::Refused(Refusal::new(16));

/// What `AddF 28 29 30` answers where cell 28 has definitions of these types.
fn added(types: &[u16]) -> Outcome {
    let file = Assembly {
        statements: vec![statement("AddF", 28, 29, 30)],
        functions: vec![Function::default()],
        definitions: types.iter().map(|kind| (*kind, 28, 0)).collect(),
        cells: vec![(28, ONE)],
        ..Assembly::default()
    };
    let mut machine = Machine::new(file.bytes(), vec![0; CELLS], vec![0; SAVED_STORE]);
    machine.load().unwrap();
    let answer = machine.statement();
    let sum = if answer == Outcome::Completed { ONE } else { 0 };
    assert_eq!(machine.read(30), Ok(sum));
    answer
}

#[test]
fn the_real_definition_is_found() {
    for marker in [VOID, SAVE | VOID] {
        assert_eq!(added(&[marker, FLOAT]), Outcome::Completed);
        assert_eq!(added(&[marker, SAVE | FLOAT]), Outcome::Completed);
        assert_eq!(added(&[marker, marker, FLOAT]), Outcome::Completed);
        assert_eq!(added(&[marker]), Outcome::Completed);
        assert_eq!(added(&[FLOAT, marker]), Outcome::Completed);
        // the first real one counts
        assert_eq!(added(&[marker, STRING]), REFUSED);
        assert_eq!(added(&[marker, STRING, FLOAT]), REFUSED);
        assert_eq!(added(&[marker, FLOAT, STRING]), Outcome::Completed);
        assert_eq!(added(&[STRING, marker]), REFUSED);
    }
}

fn rules() -> PathBuf {
    Path::new(env!("CARGO_MANIFEST_DIR")).join("../../tests/rules")
}

fn header_number(file: &[u8], at: usize) -> usize {
    i32::from_le_bytes(file[at..at + 4].try_into().unwrap()) as usize
}

/// A compiled rule file with a marker on each cell that has a definition, before all definitions. The longer lump stands at the end of
/// the file.
fn marked(name: &str, marker: u16) -> Vec<u8> {
    let mut file = fs::read(rules().join(name)).unwrap();
    let (offset, count) = (header_number(&file, 16), header_number(&file, 20));
    let real = file[offset..offset + 8 * count].to_vec();
    let mut markers = real.clone();
    for definition in markers.chunks_mut(8) {
        definition[..2].copy_from_slice(&marker.to_le_bytes());
    }
    let length = file.len() as i32;
    file[16..20].copy_from_slice(&length.to_le_bytes());
    file[20..24].copy_from_slice(&(2 * count as i32).to_le_bytes());
    file.extend(markers);
    file.extend(real);
    file
}

/// Outcome and count of a function, and the machine after it.
fn run(program: Vec<u8>, function: &str, arguments: &[(i64, u32)]) -> (RunOutcome, u32, Machine) {
    let mut machine = Machine::new(program, vec![0; CELLS], vec![0; SAVED_STORE]);
    machine.load().unwrap();
    for (cell, value) in arguments {
        machine.write(*cell, *value).unwrap();
    }
    let number = machine.find_function_by_name(function).unwrap();
    machine.enter(number).unwrap();
    let run = machine.run(0, 99_999);
    (run.outcome, run.count, machine)
}

/// Every function of tests/rules/expected.txt does with markers what it does without, and leaves the same cells.
#[test]
fn rule_files_with_markers_run_as_without() {
    let expected = fs::read_to_string(rules().join("expected.txt")).unwrap();
    let mut ended = 0;
    for row in expected.lines() {
        let words: Vec<&str> = row.split(' ').collect();
        let arguments: Vec<(i64, u32)> = (words[2..].iter())
            .map_while(|word| word.split_once('='))
            .map(|(cell, value)| {
                let value = u32::from_str_radix(value, 16).unwrap();
                (cell.parse().unwrap(), value)
            })
            .collect();
        let whole = fs::read(rules().join(words[0])).unwrap();
        let (outcome, count, without) = run(whole, words[1], &arguments);
        for marker in [VOID, SAVE | VOID] {
            let (with_markers, counted, with) = run(marked(words[0], marker), words[1], &arguments);
            assert_eq!((with_markers, counted), (outcome, count), "{row}");
            assert_eq!(with.cells(), without.cells(), "{row}");
        }
        ended += u32::from(outcome == RunOutcome::Ended && count > 2);
    }
    assert!(ended >= 12, "{ended} functions ended");
}

/// The markers are there, and the crate's lookup of a cell passes them over too.
#[test]
fn the_crate_finds_the_real_definition() {
    let (file, whole) = (marked("season.dat", VOID), rules().join("season.dat"));
    let whole = fs::read(whole).unwrap();
    let (with, without) = (Program::new(&file), Program::new(&whole));
    assert_eq!(with.definition_count(), 2 * without.definition_count());
    let points = without.find_definition_by_name("reds_points").unwrap();
    assert_eq!(with.find_definition_of_cell(points.cell), Some(points));
    // by its name a marker is found as it stands in the file
    let marker = with.find_definition_by_name("reds_points").unwrap();
    assert_eq!((marker.kind, marker.cell), (VOID, points.cell));
}

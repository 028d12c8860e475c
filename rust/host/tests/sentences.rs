//! The sentence of a run: the line, the ends of its numbers, the display buffer.

mod common;

use common::Chance;
use host::assemble::{statement, Assembly, Function};
use host::{Handover, Machine, Refusal, Run, RunOutcome, CELLS, DISPLAY, SAVED_STORE};

fn refused(number: u32) -> RunOutcome {
    RunOutcome::Refused(Refusal::new(number))
}

fn builtin(number: u32) -> RunOutcome {
    RunOutcome::HandedOver(Handover::Builtin(number))
}

fn opcode(number: u32) -> RunOutcome {
    RunOutcome::HandedOver(Handover::Opcode(number))
}

fn run(outcome: RunOutcome, count: u32, position: i64, function: usize) -> Run {
    Run {
        outcome,
        count,
        position,
        function,
    }
}

/// By hand, from the words of document 02.
#[test]
#[rustfmt::skip]
fn lines() {
    let lines = [
        (run(RunOutcome::Ended, 2, 0, 0), "Run ended, detail 0, statements 2, position 0, function 0."),
        (run(RunOutcome::Spent, 99_999, 17, 10), "Run spent, detail 0, statements 99999, position 17, function 10."),
        (run(refused(14), 7, -3, 1), "Run refused, detail 14, statements 7, position -3, function 1."),
        (run(builtin(7), 1, 100, 5), "Run builtin, detail 7, statements 1, position 100, function 5."),
        (run(opcode(60), 0, -1, 5), "Run opcode, detail 60, statements 0, position -1, function 5."),
        (run(RunOutcome::Ended, 0, 0, 0), "Run ended, detail 0, statements 0, position 0, function 0."),
        (run(RunOutcome::Spent, 10, i64::MAX, 9), "Run spent, detail 0, statements 10, position 9223372036854775807, function 9."),
        (run(refused(u32::MAX), 1, i64::MIN, 0), "Run refused, detail 4294967295, statements 1, position -9223372036854775808, function 0."),
    ];
    for (run, line) in lines {
        assert_eq!(run.sentence(), line.as_bytes());
        assert_eq!(run.to_string(), line);
    }
    assert_eq!(format!("{:.9}|", lines[0].0), "Run ended|");
}

/// No line is longer: the longest word, and each number with as many digits as its type has room for.
#[test]
fn the_longest_line() {
    let longest = run(builtin(u32::MAX), u32::MAX, i64::MIN, usize::MAX);
    let line = "Run builtin, detail 4294967295, statements 4294967295, position -9223372036854775808, function 18446744073709551615.";
    assert_eq!(longest.to_string(), line);
    assert_eq!(line.len(), 116);
    for outcome in [RunOutcome::Ended, RunOutcome::Spent, opcode(u32::MAX)] {
        let run = Run { outcome, ..longest };
        assert!(run.sentence().len() < 116);
    }
}

/// The five of a line, by what stands between its words.
fn read_back(line: &str) -> Run {
    let words: Vec<&str> = line.strip_suffix('.').unwrap().split(", ").collect();
    let ["detail", detail] = words[1].split(' ').collect::<Vec<_>>()[..] else {
        panic!("{line}");
    };
    let detail = detail.parse().unwrap();
    let outcome = match words[0] {
        "Run ended" => RunOutcome::Ended,
        "Run spent" => RunOutcome::Spent,
        "Run refused" => refused(detail),
        "Run builtin" => builtin(detail),
        "Run opcode" => opcode(detail),
        _ => panic!("{line}"),
    };
    let number = |index: usize, name: &str| words[index].strip_prefix(name).unwrap();
    assert_eq!(words.len(), 5);
    run(
        outcome,
        number(2, "statements ").parse().unwrap(),
        number(3, "position ").parse().unwrap(),
        number(4, "function ").parse().unwrap(),
    )
}

/// A number of any length, also at the ends of its bits.
fn draw(chance: &mut Chance) -> u64 {
    match chance.below(4) {
        0 => chance.pick(&[0, 1, 9, 10, u64::MAX, 1 << 31, 1 << 63, (1 << 63) - 1]),
        _ => chance.draw() >> chance.below(64),
    }
}

#[test]
fn the_five_are_read_back() {
    let mut chance = Chance::new(8);
    for _ in 0..20_000 {
        let detail = draw(&mut chance) as u32;
        let outcome = chance.pick(&[
            RunOutcome::Ended,
            RunOutcome::Spent,
            refused(detail),
            builtin(detail),
            opcode(detail),
        ]);
        let count = draw(&mut chance) as u32;
        let position = draw(&mut chance) as i64;
        let run = run(outcome, count, position, draw(&mut chance) as usize);
        assert_eq!(read_back(&run.to_string()), run);
    }
}

/// Every length from 0 on: 12 below 120 bytes, where nothing is written; from there on the bytes past the line stay.
#[test]
fn display_buffers() {
    let runs = [
        run(RunOutcome::Ended, 0, 0, 0),
        run(builtin(u32::MAX), u32::MAX, i64::MIN, usize::MAX),
    ];
    for run in runs {
        let line = run.sentence();
        for length in (0..200).chain([1_000, 65_536]) {
            let mut display = vec![238; length];
            let answer = run.write_sentence(&mut display);
            if length < DISPLAY {
                assert_eq!(answer, Err(Refusal::new(12)));
                assert_eq!(display, vec![238; length]);
            } else {
                assert_eq!(answer, Ok(line.len()));
                assert_eq!(display[..line.len()], line);
                assert!(display[line.len()..].iter().all(|byte| *byte == 238));
            }
        }
    }
}

/// What a machine's own runs say: each outcome, with position and function where the run stopped.
#[test]
fn runs_of_a_machine() {
    let program = Assembly {
        statements: vec![
            statement("Done", 0, 0, 0),
            statement("Call0", 28, 0, 0),
            statement("State", 0, 0, 0),
            statement("Goto", 0, 0, 0),
            statement("AddF", 64, 28, 28),
        ],
        functions: vec![
            Function::default(),
            Function {
                first: 1,
                ..Function::default()
            },
            Function {
                first: -7,
                arguments: -1,
                ..Function::default()
            },
            Function {
                first: 4,
                ..Function::default()
            },
        ],
        cells: vec![(28, 2)],
        ..Assembly::default()
    };
    let mut machine = Machine::new(program.bytes(), vec![0; CELLS], vec![0; SAVED_STORE]);
    let refused = "Run refused, detail 13, statements 0, position 0, function 0.";
    assert_eq!(machine.run(0, 9).to_string(), refused);
    machine.load().unwrap();
    let mut said = Vec::new();
    machine.enter(1).unwrap();
    said.push(machine.run(0, 9).to_string());
    machine.carry_on().unwrap();
    said.push(machine.run(0, 9).to_string());
    machine.carry_on().unwrap();
    said.push(machine.run(0, 9).to_string());
    machine.enter(3).unwrap();
    said.push(machine.run(0, 9).to_string());
    machine.abandon(0).unwrap();
    machine.enter(0).unwrap();
    said.push(machine.run(0, 9).to_string());
    assert_eq!(
        said,
        [
            "Run builtin, detail 7, statements 0, position 1, function 1.",
            "Run opcode, detail 60, statements 0, position 2, function 1.",
            "Run spent, detail 0, statements 9, position 3, function 1.",
            "Run refused, detail 15, statements 0, position 4, function 3.",
            "Run ended, detail 0, statements 1, position 0, function 0.",
        ]
    );
}

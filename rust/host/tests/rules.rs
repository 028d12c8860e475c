//! The rule files of tests/rules, compiled by fteqcc: each function of expected.txt, whose answers are the model's, and four stories
//! of a host. tests/rules/README.md has the format.

use std::fs;
use std::path::{Path, PathBuf};

use host::{
    Caller, Cause, Handover, Machine, Program, Refusal, RunOutcome, Settings, CELLS, SAVED_STORE,
};

fn rules() -> PathBuf {
    Path::new(env!("CARGO_MANIFEST_DIR")).join("../../tests/rules")
}

fn loaded(name: &str) -> Machine {
    let program = fs::read(rules().join(name)).unwrap();
    let mut machine = Machine::new(program, vec![0; CELLS], vec![0; SAVED_STORE]);
    machine.load().unwrap();
    machine
}

fn function(machine: &Machine, name: &str) -> i64 {
    machine.find_function_by_name(name).unwrap()
}

/// `CELL=VALUE`, if a word is that.
fn cell(word: &str) -> Option<(i64, u32)> {
    let (cell, value) = word.split_once('=')?;
    Some((
        cell.parse().unwrap(),
        u32::from_str_radix(value, 16).unwrap(),
    ))
}

fn outcome(run: RunOutcome) -> String {
    match run {
        RunOutcome::Ended => "ended".to_string(),
        RunOutcome::Spent => "spent".to_string(),
        RunOutcome::Refused(refusal) => format!("refused:{}", refusal.number()),
        RunOutcome::HandedOver(Handover::Builtin(number)) => format!("builtin:{number}"),
        RunOutcome::HandedOver(Handover::Opcode(number)) => format!("opcode:{number}"),
    }
}

#[test]
fn functions_answer_as_the_model_does() {
    let expected = fs::read_to_string(rules().join("expected.txt")).unwrap();
    for row in expected.lines() {
        let words: Vec<&str> = row.split(' ').collect();
        let arguments: Vec<_> = words[2..].iter().map_while(|word| cell(word)).collect();
        let rest = &words[2 + arguments.len()..];
        let mut machine = loaded(words[0]);
        for (address, value) in arguments {
            machine.write(address, value).unwrap();
        }
        let number = function(&machine, words[1]);
        machine.enter(number).unwrap();
        let run = machine.run(0, 99_999);
        assert_eq!(outcome(run.outcome), rest[0], "{row}");
        assert_eq!(run.count.to_string(), rest[1], "{row}");
        for (address, value) in rest[2..].iter().filter_map(|word| cell(word)) {
            assert_eq!(machine.read(address), Ok(value), "cell {address}: {row}");
        }
    }
    assert!(expected.lines().count() >= 20);
}

/// Tosses with a host whose coin gives `coin`: the side that kicks off, and what was printed.
fn toss(coin: f32) -> (f32, String) {
    let mut machine = loaded("toss.dat");
    let number = function(&machine, "toss");
    let mut printed = Vec::new();
    let count = machine.call(number, 99_999, |handover, machine| match handover {
        Handover::Builtin(7) => machine.write_float(1, coin),
        Handover::Builtin(23) => {
            let text = i64::from(machine.read(4)?);
            printed.extend_from_slice(machine.text(text).unwrap());
            Ok(())
        }
        other => panic!("{other:?}"),
    });
    // AddF, StoreF, StoreF; Ge, IfNot, EqF, IfNot, StoreV, Return; a Goto where the home side kicks off, a StoreF where the guests do;
    // and two hand-overs
    assert_eq!(count, Ok(12));
    let side = machine.read_float(1).unwrap();
    (side, String::from_utf8(printed).unwrap())
}

#[test]
fn the_host_tosses() {
    assert_eq!(toss(0.25), (1.0, "The home side kicks off.\n".to_string()));
    assert_eq!(toss(0.75), (2.0, "The guests kick off.\n".to_string()));
}

/// Whether the captain plays, by the field that the machine reads of `self`.
#[test]
fn the_captain_plays() {
    let program = fs::read(rules().join("captain.dat")).unwrap();
    let entities = vec![0; 3 * Program::new(&program).entity_cells()];
    let mut machine =
        Machine::with_entities(program, vec![0; CELLS], vec![0; SAVED_STORE], entities);
    machine
        .load_with(Settings {
            entities: 3,
            ..Settings::default()
        })
        .unwrap();
    let plays = function(&machine, "captain_plays");
    let current = machine.find_definition_by_name("self").unwrap().cell;
    let mut health = machine.field_mut(2, "health").unwrap();
    health.set_float(50.0).unwrap();
    for (captain, answer) in [(1, 0.0), (2, 1.0)] {
        machine.write(current.into(), captain).unwrap();
        let count = machine.call(plays, 99_999, |handover, _| Err(handover));
        // AddF, StoreF, LoadF, Gt, Return
        assert_eq!(count, Ok(5));
        assert_eq!(machine.read_float(1), Ok(answer));
    }
}

/// Two authors' files hold "Reds" at two places, and the points are those of one team.
#[test]
fn one_team_at_two_places() {
    let mut machine = loaded("teams.dat");
    let points = function(&machine, "points");
    let number = |machine: &Machine, name: &str| {
        let definition = machine.find_definition_by_name(name).unwrap();
        machine.read(definition.cell.into()).unwrap()
    };
    let (home, guests) = (
        number(&machine, "home_side"),
        number(&machine, "guest_side"),
    );
    assert_ne!(home, guests);
    for team in [home, guests] {
        assert_eq!(machine.text(team.into()), Some(&b"Reds"[..]));
        machine.write(4, team).unwrap();
        // EqS, IfNot, AddF, StoreF twice; EqS, IfNot; Return
        assert_eq!(
            machine.call(points, 99_999, |handover, _| Err(handover)),
            Ok(11)
        );
        assert_eq!(machine.read_float(1), Ok(4.0));
    }
    // the host finds the first of the two
    assert_eq!(machine.find_text("Reds"), Some(home.into()));
    // a number that isn't in the strings
    let length = machine.context().file.strings.count as u32;
    machine.write(4, length).unwrap();
    assert_eq!(machine.text(length.into()), None);
    let error = machine
        .call(points, 99_999, |handover, _| Err(handover))
        .unwrap_err();
    assert_eq!(error.cause, Cause::Refused(Refusal::new(33)));
    assert_eq!((error.count, machine.depth()), (0, 0));
}

#[test]
fn a_match_ends_after_refused_calls() {
    let mut machine = loaded("referee.dat");
    let goal = function(&machine, "goal");
    let appeal = function(&machine, "appeal");
    let end_of_match = function(&machine, "end_of_match");
    let no_host = |handover: Handover, _: &mut Caller<'_>| Err::<(), Handover>(handover);
    for _ in 0..100 {
        let error = machine.call(goal, 99_999, no_host).unwrap_err();
        assert_eq!(error.cause, Cause::Refused(Refusal::new(16)));
        assert_eq!((error.count, machine.depth()), (2, 0));
    }
    let error = machine.call(appeal, 99_999, no_host).unwrap_err();
    assert_eq!(error.cause, Cause::Refused(Refusal::new(22)));
    assert_eq!((error.count, machine.depth()), (92, 0));
    assert_eq!(machine.call(end_of_match, 99_999, no_host), Ok(4));
    let result: Vec<f32> = (1..4)
        .map(|cell| machine.read_float(cell).unwrap())
        .collect();
    assert_eq!(result, [100.0, 0.0, 31.0]);
}

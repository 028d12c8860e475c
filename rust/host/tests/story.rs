//! What the machine is for: a rule file's calls are refused again and again, and at the end of the match the
//! end-of-match function is still entered, and its result stands.

use host::assemble::{statement, Assembly, Function};
use host::{Caller, Cause, Handover, Machine, Refusal, StackFrame, CELLS, SAVED_STORE};

const RED: i64 = 28;
const BLUE: i64 = 29;
const STRING: u16 = 1;

/// Functions that go wrong, each in its own way, and the end of the match.
fn rules() -> Vec<u8> {
    let mut rules = Assembly {
        statements: vec![
            statement("Done", 0, 0, 0),
            // PlayerPreThink scores for red, then calls itself without end
            statement("AddF", 28, 30, 28),
            statement("Call0", 40, 0, 0),
            statement("Done", 0, 0, 0),
            // weapon_touch: the third cell of its result is a string's
            statement("AddV", 28, 31, 34),
            statement("Done", 0, 0, 0),
            // door_use never comes to its statement; trigger_loop goes round for ever
            statement("Goto", 0, 0, 0),
            // EndOfMatch: the difference of its two arguments, announced by bprint
            statement("SubF", 50, 51, 52),
            statement("StoreF", 52, 4, 0),
            statement("Call1", 42, 0, 0),
            statement("Return", 52, 0, 0),
        ],
        definitions: vec![(STRING, 36, 0)],
        cells: vec![(30, 1.0_f32.to_bits()), (40, 1), (42, 6)],
        ..Assembly::default()
    };
    let mut function = |name: &str, first, local, locals, sizes: &[u8]| {
        let mut all = [0; 8];
        all[..sizes.len()].copy_from_slice(sizes);
        let name = rules.text(name);
        rules.functions.push(Function {
            first,
            local,
            locals,
            name,
            source: 0,
            arguments: sizes.len() as i32,
            sizes: all,
        });
    };
    function("", 0, 0, 0, &[]);
    function("PlayerPreThink", 1, 44, 4, &[]);
    function("weapon_touch", 4, 44, 4, &[]);
    function("door_use", 6, 44, 2_049, &[]);
    function("trigger_loop", 6, 44, 1, &[]);
    function("EndOfMatch", 7, 50, 3, &[1, 1]);
    function("bprint", -23, 0, 0, &[]);
    rules.bytes()
}

fn machine() -> Machine {
    let mut machine = Machine::new(rules(), vec![0; CELLS], vec![0; SAVED_STORE]);
    machine.load().unwrap();
    machine
}

fn no_builtins(handover: Handover, _: &mut Caller<'_>) -> Result<(), Handover> {
    Err(handover)
}

fn end_of_match(machine: &mut Machine) -> f32 {
    let function = machine.find_function_by_name("EndOfMatch").unwrap();
    machine.write(4, machine.read(RED).unwrap()).unwrap();
    machine.write(7, machine.read(BLUE).unwrap()).unwrap();
    let mut announced = Vec::new();
    let called = machine.call(function, 1_000, |handover, machine| {
        assert_eq!(handover, Handover::Builtin(23));
        announced.push(machine.read_float(4).unwrap());
        Ok::<(), Refusal>(())
    });
    assert_eq!(called, Ok(4));
    let result = machine.read_float(1).unwrap();
    assert_eq!(announced, [result]);
    result
}

#[test]
fn the_league_table_has_the_result() {
    let mut machine = machine();
    let number = |name| machine.find_function_by_name(name).unwrap();
    let calls = [
        (number("PlayerPreThink"), Cause::Refused(Refusal::new(22))),
        (number("weapon_touch"), Cause::Refused(Refusal::new(16))),
        (number("door_use"), Cause::Refused(Refusal::new(23))),
        (number("trigger_loop"), Cause::Spent),
    ];
    machine.write_float(BLUE, 40.0).unwrap();
    for _ in 0..100 {
        for (function, cause) in calls {
            let error = machine.call(function, 2_000, no_builtins).unwrap_err();
            assert_eq!(error.cause, cause);
            assert_eq!((machine.depth(), machine.saved_count()), (0, 0));
            assert_eq!((machine.position(), machine.function()), (0, 0));
            assert_eq!(machine.frames(), [StackFrame::default(); 31]);
        }
    }
    // each PlayerPreThink scores once at each of the 31 depths before it is refused
    assert_eq!(machine.read_float(RED), Ok(3_100.0));
    assert_eq!(end_of_match(&mut machine), 3_060.0);
}

/// A host that only enters, and never abandons what was refused: a refused entry leaves no frame behind.
#[test]
fn refused_entries_leave_nothing() {
    let mut machine = machine();
    let before = machine.clone();
    let door = machine.find_function_by_name("door_use").unwrap();
    for _ in 0..1_000 {
        assert_eq!(machine.enter(door), Err(Refusal::new(23)));
        assert_eq!(machine.enter(99), Err(Refusal::new(20)));
    }
    assert_eq!(machine.context(), before.context());
    assert_eq!(machine.cells(), before.cells());
    assert_eq!(machine.saved(), before.saved());
    machine.write_float(RED, 12.0).unwrap();
    assert_eq!(end_of_match(&mut machine), 12.0);
}

/// A host that calls the end of the match from within another function, and that function goes on afterwards.
#[test]
fn a_call_within_a_call() {
    let mut machine = machine();
    machine.write_float(RED, 5.0).unwrap();
    machine.enter(2).unwrap();
    let before = *machine.context();
    assert_eq!(end_of_match(&mut machine), 5.0);
    assert_eq!(machine.context(), &before);
    machine.abandon(0).unwrap();
    assert_eq!(machine.depth(), 0);
}

#[test]
fn a_limit_is_the_whole_calls() {
    let mut machine = machine();
    let function = machine.find_function_by_name("EndOfMatch").unwrap();
    let bprint = |_: Handover, _: &mut Caller<'_>| Ok::<(), Refusal>(());
    assert_eq!(machine.call(function, 4, bprint), Ok(4));
    for (limit, position) in [(3, 10), (2, 9)] {
        let error = machine.call(function, limit, bprint).unwrap_err();
        assert_eq!((error.cause, error.count), (Cause::Spent, limit as u32));
        assert_eq!((error.position, error.function), (position, 5));
    }
    for limit in [0, -1, 100_000] {
        let error = machine.call(function, limit, bprint).unwrap_err();
        assert_eq!(error.cause, Cause::Refused(Refusal::new(28)));
    }
    assert_eq!(machine.depth(), 0);
}

/// Nothing was entered, so there is nothing that could not be left.
#[test]
fn a_call_before_a_load() {
    let mut machine = Machine::new(rules(), vec![0; CELLS], vec![0; SAVED_STORE]);
    let error = machine.call(1, 2_000, no_builtins).unwrap_err();
    assert_eq!(error.cause, Cause::Refused(Refusal::STATE));
    assert_eq!(error.count, 0);
}

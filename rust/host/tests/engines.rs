//! The two engines of a machine: the second runs without being asked, from statements that are always those of the program's bytes, and
//! whatever a host does, the first answers and leaves the same.

mod common;

use common::{random_machine, Chance};
use host::assemble::{Assembly, Function};
use host::{
    Context, Engine, Handover, Machine, Outcome, Refusal, Run, RunOutcome, Settings, CELLS,
    SAVED_STORE,
};

/// Function 1 returns cell 28, function 2 adds cells 28 and 29 and returns the sum.
fn assembly() -> Assembly {
    let function = |first| Function {
        first,
        ..Function::default()
    };
    Assembly {
        statements: vec![
            [0, 0, 0, 0],
            [43, 28, 0, 0],
            [6, 28, 29, 30],
            [43, 30, 0, 0],
        ],
        functions: vec![Function::default(), function(1), function(2)],
        cells: vec![(28, 1.5_f32.to_bits()), (29, 2.5_f32.to_bits())],
        ..Assembly::default()
    }
}

fn loaded() -> Machine {
    let mut machine = Machine::new(assembly().bytes(), vec![0; CELLS], vec![0; SAVED_STORE]);
    machine.load().unwrap();
    machine
}

/// The place of a number of a statement in the program's bytes.
fn place(machine: &Machine, statement: usize, number: usize) -> usize {
    machine.context().file.statements.offset + 8 * statement + 2 * number
}

fn called(machine: &mut Machine, function: i64) -> f32 {
    machine.call(function, 100, |_, _| Err("none")).unwrap();
    machine.read_float(1).unwrap()
}

#[test]
fn the_second_is_the_default() {
    assert_eq!(Engine::default(), Engine::Second);
    let mut machine = loaded();
    assert_eq!(machine.engine(), Engine::Second);
    assert_eq!(called(&mut machine, 2), 4.0);
    // A load keeps the engine that was asked for.
    machine.set_engine(Engine::First);
    machine.load().unwrap();
    assert_eq!(machine.engine(), Engine::First);
    assert_eq!(called(&mut machine, 2), 4.0);
}

/// Through `program_mut`, a byte or all of them, before a run and within one.
#[test]
fn changed_bytes_are_unpacked_again() {
    for engine in [Engine::First, Engine::Second] {
        let mut machine = loaded();
        machine.set_engine(engine);
        assert_eq!(called(&mut machine, 1), 1.5);
        let operand = place(&machine, 1, 1);
        machine.program_mut()[operand] = 29;
        assert_eq!(called(&mut machine, 1), 2.5);

        machine.enter(2).unwrap();
        assert_eq!(machine.run(0, 1).outcome, RunOutcome::Spent);
        let operand = place(&machine, 3, 1);
        machine.program_mut()[operand] = 29;
        assert_eq!(machine.run(0, 1).outcome, RunOutcome::Ended);
        assert_eq!(machine.read_float(1), Ok(2.5));

        let mut other = assembly();
        other.statements[2][0] = 8;
        *machine.program_mut() = other.bytes();
        assert_eq!(called(&mut machine, 2), -1.0);
        // An opcode that is none.
        let opcode = place(&machine, 1, 0);
        machine.program_mut()[opcode] = 66;
        machine.enter(1).unwrap();
        let refused = RunOutcome::Refused(Refusal::new(7));
        assert_eq!(machine.run(0, 1).outcome, refused);
    }
}

/// A load that is refused leaves the state, and the bytes as they are hold for it.
#[test]
fn a_refused_load() {
    for engine in [Engine::First, Engine::Second] {
        let mut machine = loaded();
        machine.set_engine(engine);
        let operand = place(&machine, 1, 1);
        machine.program_mut()[operand] = 29;
        machine.program_mut()[0] = 7;
        assert!(machine.load().is_err());
        machine.enter(1).unwrap();
        assert_eq!(machine.run(0, 9).outcome, RunOutcome::Ended);
        assert_eq!(machine.read_float(1), Ok(2.5));
    }
}

/// Another file with as many bytes, and more statements in them, under the state that its own load made.
#[test]
fn another_context() {
    let mut longer = assembly();
    longer.statements.push([43, 29, 0, 0]);
    longer.functions.push(Function {
        first: 4,
        ..Function::default()
    });
    let mut other = Machine::new(longer.bytes(), vec![0; CELLS], vec![0; SAVED_STORE]);
    other.load().unwrap();
    let mut machine = loaded();
    *machine.program_mut() = longer.bytes();
    machine.set_context(*other.context());
    assert_eq!(called(&mut machine, 3), 2.5);

    // A machine that has loaded nothing.
    let mut fresh = Machine::new(longer.bytes(), other.cells().to_vec(), vec![0; SAVED_STORE]);
    assert_eq!(fresh.unpack(), Err(Refusal::STATE));
    fresh.set_context(*other.context());
    assert_eq!(called(&mut fresh, 3), 2.5);
}

/// Counts of statements that no file has: refused 13, and no buffer of so many numbers is asked for.
#[test]
fn made_up_counts() {
    for count in [0, 3, 5, 1 << 31, usize::MAX / 4, usize::MAX] {
        let mut machine = loaded();
        machine.enter(1).unwrap();
        let mut context: Context = *machine.context();
        context.file.statements.count = count;
        machine.set_context(context);
        assert_eq!(machine.unpack(), Err(Refusal::STATE));
        let run = machine.run(0, 5);
        assert_eq!(run.outcome, RunOutcome::Refused(Refusal::STATE));
        assert_eq!(run.count, 0);
    }
}

#[test]
fn refusals_of_a_run() {
    for engine in [Engine::First, Engine::Second] {
        let mut machine = Machine::new(assembly().bytes(), vec![0; CELLS], vec![0; SAVED_STORE]);
        machine.set_engine(engine);
        let refused = |run: Run| (run.outcome, run.count);
        let number = |number| (RunOutcome::Refused(Refusal::new(number)), 0);
        assert_eq!(refused(machine.run(0, 0)), number(13));
        machine.load().unwrap();
        assert_eq!(refused(machine.run(0, 0)), number(28));
        assert_eq!(refused(machine.run(0, 1)), number(29));
        machine.enter(1).unwrap();
        assert_eq!(refused(machine.run(1, 100_000)), number(28));
        assert_eq!(refused(machine.run(1, 1)), number(29));
        assert_eq!(machine.run(0, 1).outcome, RunOutcome::Ended);
    }
}

/// What one engine left, the other goes on with, through a hand-over too.
#[test]
fn engines_in_turn() {
    let program = Assembly {
        statements: vec![
            [0, 0, 0, 0],
            [6, 28, 29, 30],
            [51, 40, 0, 0],
            [6, 30, 1, 30],
            [43, 30, 0, 0],
        ],
        functions: vec![
            Function::default(),
            Function {
                first: 1,
                ..Function::default()
            },
            Function {
                first: -7,
                arguments: -1,
                ..Function::default()
            },
        ],
        cells: vec![(28, 1.5_f32.to_bits()), (29, 2.5_f32.to_bits()), (40, 2)],
        ..Assembly::default()
    };
    let turns = [Engine::First, Engine::Second];
    for start in 0..2 {
        let mut machine = Machine::new(program.bytes(), vec![0; CELLS], vec![0; SAVED_STORE]);
        machine.load().unwrap();
        machine.enter(1).unwrap();
        machine.set_engine(turns[start]);
        let handed = RunOutcome::HandedOver(Handover::Builtin(7));
        assert_eq!(machine.run(0, 9).outcome, handed);
        machine.carry_on().unwrap();
        machine.write_float(1, 8.0).unwrap();
        machine.set_engine(turns[1 - start]);
        assert_eq!(machine.run(0, 1).outcome, RunOutcome::Spent);
        machine.set_engine(turns[start]);
        assert_eq!(machine.run(0, 1).outcome, RunOutcome::Ended);
        assert_eq!(machine.read_float(1), Ok(12.0));
    }
}

/// All that an operation answers, in numbers.
fn step(machine: &mut Machine, kind: u64, a: i64, b: i64) -> String {
    match kind {
        0 => {
            let settings = Settings {
                entities: a.rem_euclid(4),
                ..Settings::default()
            };
            format!("{:?}", machine.load_with(settings))
        }
        1 => format!("{:?}", machine.enter(a.rem_euclid(9))),
        2 => {
            let outcome: Outcome = machine.statement();
            format!("{outcome:?}")
        }
        3 => format!("{:?}", machine.carry_on()),
        4 => format!("{:?}", machine.abandon(a)),
        5 => format!("{:?}", machine.write(a, b as u32)),
        6 => {
            // One of the statements': elsewhere it would soon end all that the list can do.
            let statements = machine.context().file.statements;
            let at = statements.offset + (b.unsigned_abs() as usize) % (8 * statements.count + 1);
            if let Some(byte) = machine.program_mut().get_mut(at) {
                *byte = a as u8;
            }
            String::new()
        }
        _ => format!("{:?}", machine.run(a, b)),
    }
}

/// What an operation of a list is, as [`step`] counts them: entries and runs above all.
const KINDS: [u64; 16] = [0, 1, 1, 1, 1, 2, 3, 3, 4, 5, 6, 7, 7, 7, 7, 7];

/// Lists of operations made by chance, bytes changed among them, on two machines: one of the first engine, one of the second, and a
/// third one that changes its engine at each step.
#[test]
fn made_by_chance() {
    let (mut completed, mut changed) = (0, 0);
    for seed in 1..6_000 {
        let mut chance = Chance::new(seed);
        let mut first = random_machine(&mut chance);
        let mut second = first.clone();
        let mut either = first.clone();
        first.set_engine(Engine::First);
        for turn in 0..40 {
            let kind = if turn == 0 { 0 } else { chance.pick(&KINDS) };
            let (a, b) = (chance.number(), chance.number());
            either.set_engine(chance.pick(&[Engine::First, Engine::Second]));
            let limited = if kind > 6 { chance.between(0, 300) } else { b };
            let target = if kind > 6 { chance.between(-1, 2) } else { a };
            let before = first.position();
            let answer = step(&mut first, kind, target, limited);
            assert_eq!(step(&mut second, kind, target, limited), answer, "{seed}");
            assert_eq!(step(&mut either, kind, target, limited), answer, "{seed}");
            for other in [&second, &either] {
                assert_eq!(other.context(), first.context(), "{seed}");
                assert_eq!(other.cells(), first.cells(), "{seed}");
                assert_eq!(other.saved(), first.saved(), "{seed}");
                assert_eq!(other.entities(), first.entities(), "{seed}");
            }
            completed += u32::from(kind > 6 && first.position() != before);
            changed += u32::from(kind == 6);
        }
    }
    assert!(completed > 2_000, "{completed} runs that went on");
    assert!(changed > 2_000, "{changed} bytes");
}

//! A longer limit never changes a verdict: document 02's R-13, on programs and states made by chance. Seeds are fixed.

mod common;

use common::{random_machine, Chance};
use host::{
    load_file, Context, Engine, Machine, Outcome, Refusal, Run, RunOutcome, Settings, CELLS,
    SAVED_STORE,
};

/// The state and the buffers, all that a run may change.
fn everything(machine: &Machine) -> (Context, Vec<u32>, Vec<u32>, Vec<u32>) {
    (
        *machine.context(),
        machine.cells().to_vec(),
        machine.saved().to_vec(),
        machine.entities().to_vec(),
    )
}

/// A loaded machine somewhere in its program: functions are entered, some statements done, and now and then the position is made up.
fn underway(chance: &mut Chance) -> Option<Machine> {
    let mut machine = random_machine(chance);
    machine.load().ok()?;
    for _ in 0..chance.between(1, 6) {
        machine.enter(chance.between(0, 7)).ok();
        for _ in 0..chance.below(4) {
            if let Outcome::HandedOver(_) = machine.statement() {
                machine.carry_on().unwrap();
            }
        }
    }
    if chance.one_in(4) {
        let mut context = *machine.context();
        context.pc = chance.between(-1, 40);
        machine.set_context(context);
    }
    Some(machine)
}

/// A run from the same state and buffers, and what it leaves: by both engines, which agree, so that what holds of one does of the other.
fn run(machine: &Machine, target: i64, limit: i64) -> (Run, Machine) {
    let mut first = machine.clone();
    first.set_engine(Engine::First);
    let mut second = machine.clone();
    second.set_engine(Engine::Second);
    let ran = first.run(target, limit);
    assert_eq!(second.run(target, limit), ran);
    assert_eq!(everything(&second), everything(&first));
    (ran, second)
}

/// How often each outcome was met, so that a test that meets nothing doesn't pass.
#[derive(Default)]
struct Seen {
    ended: u32,
    refused: u32,
    handed: u32,
    checks: u32,
    /// Spent runs, and those of them that a run of more statements ends.
    spent: u32,
    ends_later: u32,
}

impl Seen {
    fn note(&mut self, short: &Run, long: &Run) {
        match short.outcome {
            RunOutcome::Ended => self.ended += 1,
            RunOutcome::HandedOver(_) => self.handed += 1,
            RunOutcome::Refused(refusal) if [13, 29].contains(&refusal.number()) => {
                self.checks += 1;
            }
            RunOutcome::Refused(_) => self.refused += 1,
            RunOutcome::Spent => {
                self.spent += 1;
                self.ends_later += u32::from(long.outcome != RunOutcome::Spent);
            }
        }
    }
}

/// Both sentences of R-13, from one state: a run of `n` beside one of `n + m`.
fn check(machine: &Machine, target: i64, n: i64, m: i64, seen: &mut Seen) {
    let (short, mut after) = run(machine, target, n);
    let (long, reached) = run(machine, target, n + m);
    seen.note(&short, &long);
    if short.outcome == RunOutcome::Spent {
        assert_eq!(i64::from(short.count), n);
        let second = after.run(target, m);
        let whole = Run {
            count: short.count + second.count,
            ..second
        };
        assert_eq!(whole, long, "{n} and {m} to {target}");
        assert!(everything(&after) == everything(&reached), "{n} and {m}");
    } else {
        assert_eq!(short, long, "{n} and {m} to {target}");
        assert!(everything(&after) == everything(&reached), "{n} and {m}");
    }
}

/// A limit, and what is added to it: small ones mostly, and up to the greatest.
fn limits(chance: &mut Chance) -> (i64, i64) {
    match chance.below(12) {
        0 => {
            let both = 99_999;
            let n = chance.between(1, both - 1);
            (n, both - n)
        }
        1 => (chance.between(1, 900), chance.between(1, 900)),
        2..=4 => (1, chance.between(1, 3)),
        _ => (chance.between(1, 30), chance.between(1, 30)),
    }
}

#[test]
fn a_longer_limit_changes_no_verdict() {
    let mut seen = Seen::default();
    for seed in 0..6_000 {
        let mut chance = Chance::new(7_000_000 + seed);
        let Some(machine) = underway(&mut chance) else {
            continue;
        };
        let depth = machine.depth() as i64;
        for _ in 0..6 {
            let target = if chance.one_in(20) {
                chance.between(-1, 33)
            } else {
                chance.between(0, depth.max(1) - 1)
            };
            let (n, m) = limits(&mut chance);
            check(&machine, target, n, m, &mut seen);
        }
    }
    assert!(seen.ended > 300, "{}", seen.ended);
    assert!(seen.refused > 300, "{}", seen.refused);
    assert!(seen.handed > 300, "{}", seen.handed);
    assert!(seen.checks > 300, "{}", seen.checks);
    assert!(seen.spent > 1_000, "{}", seen.spent);
    assert!(seen.ends_later > 300, "{}", seen.ends_later);
}

/// The load files of R-10 end after so many statements, whatever is drawn: runs that go long, in two parts.
#[test]
fn load_files_in_two_parts() {
    let mut seen = Seen::default();
    for seed in 1..=60_u32 {
        let mut chance = Chance::new(10_000_000 + u64::from(seed));
        let drawn = chance.between(1, 1_000);
        let program = load_file(seed, drawn).unwrap();
        let mut machine = Machine::new(program, vec![0; CELLS], vec![0; SAVED_STORE]);
        machine.load().unwrap();
        machine.enter(1).unwrap();
        for _ in 0..20 {
            let n = chance.between(1, drawn + 2);
            let m = chance.between(1, drawn + 2);
            check(&machine, 0, n, m, &mut seen);
        }
    }
    assert!(seen.spent > 500, "{}", seen.spent);
    assert!(seen.ends_later > 200, "{}", seen.ends_later);
}

/// Permitted is what the venue's settings permit: up to its greatest limit both sentences hold, and past it 28 refuses.
#[test]
fn permitted_by_the_settings() {
    let mut seen = Seen::default();
    for seed in 1..=40_u32 {
        let mut chance = Chance::new(11_000_000 + u64::from(seed));
        let limit = chance.between(2, 400);
        let program = load_file(seed, 300).unwrap();
        let mut machine = Machine::new(program, vec![0; CELLS], vec![0; SAVED_STORE]);
        let settings = Settings {
            limit,
            ..Settings::default()
        };
        machine.load_with(settings).unwrap();
        machine.enter(1).unwrap();
        for _ in 0..10 {
            let both = chance.between(2, limit);
            let n = chance.between(1, both - 1);
            check(&machine, 0, n, both - n, &mut seen);
        }
        let (over, _) = run(&machine, 0, limit + 1);
        assert_eq!(over.outcome, RunOutcome::Refused(Refusal::new(28)));
    }
    assert!(seen.spent > 200, "{}", seen.spent);
}

/// What a spent run leaves is what the longer run passes through: as many single statements lead there.
#[test]
fn a_spent_run_stands_on_the_way() {
    let mut spent = 0;
    for seed in 0..6_000 {
        let mut chance = Chance::new(8_000_000 + seed);
        let Some(machine) = underway(&mut chance) else {
            continue;
        };
        let n = chance.pick(&[1, 1, 2, 2, 3, 5, 8, 40]);
        let (short, after) = run(&machine, 0, n);
        if short.outcome != RunOutcome::Spent {
            continue;
        }
        let mut by_statements = machine.clone();
        for _ in 0..n {
            assert_eq!(by_statements.statement(), Outcome::Completed);
        }
        assert!(everything(&by_statements) == everything(&after), "{n}");
        spent += 1;
    }
    assert!(spent > 200, "{spent}");
}

/// In a state that a host made up, both limits are refused 13 or neither is.
#[test]
fn states_that_a_host_makes_up() {
    let mut refused = 0;
    for seed in 0..2_000 {
        let mut chance = Chance::new(9_000_000 + seed);
        let Some(mut machine) = underway(&mut chance) else {
            continue;
        };
        let mut context = *machine.context();
        match chance.below(4) {
            0 => context.depth = chance.below(34) as usize,
            1 => context.saved = chance.below(30) as usize,
            2 => context.current_function = chance.below(9) as usize,
            _ => context.frames[chance.below(31) as usize].func_id = chance.below(9) as usize,
        }
        machine.set_context(context);
        let mut seen = Seen::default();
        let (n, m) = limits(&mut chance);
        check(&machine, 0, n, m, &mut seen);
        let (answer, _) = run(&machine, 0, n);
        refused += u32::from(answer.outcome == RunOutcome::Refused(Refusal::STATE));
    }
    assert!(refused > 300, "{refused}");
}

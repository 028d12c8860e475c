//! What holds for program files, states and call lists made by chance. Seeds are fixed: a failure comes back.

mod common;

use std::collections::BTreeSet;
use std::panic::{catch_unwind, resume_unwind, AssertUnwindSafe};

use common::{random_assembly, random_file, random_machine, Chance};
use host::{
    Caller, Context, Definition, Machine, Outcome, Program, Refusal, RunOutcome, Settings,
    SAVED_STORE,
};

#[derive(Clone, Copy, Debug)]
enum Call {
    Load(Settings),
    Enter(i64),
    Statement,
    Run(i64, i64),
    CarryOn,
    Abandon(i64),
    Read(i64),
    Write(i64, u32),
    /// Pairs that are made of a seed.
    Pairs(u64),
    Image(usize),
}

/// A number of entities that a load might be given: mostly one for which cells are lent.
fn random_entities(chance: &mut Chance) -> i64 {
    match chance.below(40) {
        0 => chance.number(),
        1 => chance.pick(&[4, 600, 601, -1]),
        _ => chance.between(0, 3),
    }
}

/// Settings that a load might be given: mostly 01's, often narrower ones, now and then one out of range.
fn random_settings(chance: &mut Chance) -> Settings {
    let mut settings = Settings {
        entities: random_entities(chance),
        ..Settings::default()
    };
    match chance.below(8) {
        0..=2 => {
            settings.depth = chance.pick(&[1, 2, 3, 5]);
            settings.saved = chance.pick(&[0, 2, 5, 9, 2_048]);
            settings.limit = chance.pick(&[1, 5, 20, 99_999]);
        }
        3 if chance.one_in(4) => match chance.below(4) {
            0 => settings.check_number = chance.pick(&[-1, 65_536, 5_926, 0]),
            1 => settings.depth = chance.pick(&[i64::MIN, 0, 32]),
            2 => settings.saved = chance.pick(&[-1, 2_049, i64::MAX]),
            _ => settings.limit = chance.pick(&[-1, 0, 100_000]),
        },
        _ => {}
    }
    settings
}

fn random_call(chance: &mut Chance) -> Call {
    match chance.below(40) {
        0 => Call::Load(random_settings(chance)),
        1..=9 => Call::Enter(chance.number() % 9),
        10..=17 => Call::Statement,
        18..=22 => Call::Run(chance.between(-1, 3), chance.between(-1, 40)),
        23 => Call::Run(chance.number(), chance.number()),
        24..=27 => Call::CarryOn,
        28..=31 => Call::Abandon(chance.number() % 5),
        32..=33 => Call::Read(chance.number()),
        34 => Call::Pairs(chance.draw()),
        35 => Call::Image(chance.below(1_500) as usize),
        _ => Call::Write(chance.number(), chance.draw() as u32),
    }
}

/// Writes the program file to a buffer of a length. Bytes that aren't of the file stay.
fn write_image(machine: &Machine, length: usize) -> Result<(), Refusal> {
    let mut output = vec![238; length];
    let answer = machine.write_image(&mut output);
    let kept = answer.unwrap_or(0);
    assert!(output[kept..].iter().all(|byte| *byte == 238));
    answer.map(drop)
}

/// Writes pairs together, some of them with one address. What is accepted leaves what raw writes leave, one after the other.
fn write_pairs(machine: &mut Machine, seed: u64) -> Result<(), Refusal> {
    let mut chance = Chance::new(seed);
    let count = chance.pick(&[0, 1, 2, 3, 8, 64, 65]);
    let mut pair = || {
        let address = if chance.one_in(60) {
            chance.number()
        } else {
            chance.between(0, 35)
        };
        (address, chance.draw() as u32)
    };
    let pairs: Vec<_> = (0..count).map(|_| pair()).collect();
    let mut other = machine.clone();
    machine.write_all(&pairs)?;
    for (address, value) in pairs {
        other.write(address, value).unwrap();
    }
    assert_eq!(machine.cells(), other.cells());
    Ok(())
}

/// Does a call; a refusal is given, with the completed statements of a run.
fn perform(machine: &mut Machine, call: Call) -> Result<(), (Refusal, u32)> {
    let alone = |refusal| (refusal, 0);
    match call {
        Call::Load(settings) => machine
            .load_with(settings)
            .map_err(|error| alone(error.refusal().unwrap())),
        Call::Enter(function) => machine.enter(function).map_err(alone),
        Call::CarryOn => machine.carry_on().map_err(alone),
        Call::Abandon(depth) => machine.abandon(depth).map_err(alone),
        Call::Read(address) => machine.read(address).map(drop).map_err(alone),
        Call::Write(address, value) => machine.write(address, value).map_err(alone),
        Call::Pairs(seed) => write_pairs(machine, seed).map_err(alone),
        Call::Image(length) => write_image(machine, length).map_err(alone),
        Call::Statement => match machine.statement() {
            Outcome::Refused(refusal) => Err(alone(refusal)),
            _ => Ok(()),
        },
        Call::Run(target, limit) => {
            let run = machine.run(target, limit);
            match run.outcome {
                RunOutcome::Refused(refusal) => Err((refusal, run.count)),
                _ => Ok(()),
            }
        }
    }
}

/// What must hold of one call, whatever the machine's buffers and context are.
fn check(machine: &mut Machine, call: Call) -> Result<(), (Refusal, u32)> {
    let before = machine.clone();
    let answer = perform(machine, call);
    assert_eq!(machine.program(), before.program());
    let most = before
        .context()
        .file
        .globals
        .count
        .max(declared_cells(&before));
    let kept = most.min(before.cells().len());
    assert_eq!(machine.cells()[kept..], before.cells()[kept..], "{call:?}");
    let store = SAVED_STORE.min(before.saved().len());
    assert_eq!(machine.saved()[store..], before.saved()[store..]);
    assert_entities(machine, &before, call);
    if let Err((refusal, count)) = answer {
        let number = refusal.number();
        assert!(
            (1..=34).contains(&number) || number == 36,
            "{call:?} {refusal}"
        );
        assert!(refusal.to_string().len() > 20);
        if count == 0 {
            assert_unchanged(machine, &before, call);
        }
    }
    if let Call::Read(_) | Call::Image(_) = call {
        assert_unchanged(machine, &before, call);
    }
    match call {
        Call::Load(settings) if answer.is_ok() => assert_eq!(machine.settings(), settings),
        _ => assert_eq!(machine.settings(), before.settings(), "{call:?}"),
    }
    answer
}

/// Statements alone write entity cells, and none past the last entity.
fn assert_entities(machine: &Machine, before: &Machine, call: Call) {
    let kept = match call {
        Call::Statement | Call::Run(..) => {
            let context = before.context();
            let cells = context
                .entity_count
                .saturating_mul(context.file.entityfields);
            cells.min(before.entities().len())
        }
        _ => 0,
    };
    let (now, then) = (machine.entities(), before.entities());
    assert_eq!(now[kept..], then[kept..], "{call:?}");
}

fn assert_unchanged(machine: &Machine, before: &Machine, call: Call) {
    assert_eq!(machine.context(), before.context(), "{call:?}");
    assert_eq!(machine.cells(), before.cells(), "{call:?}");
    assert_eq!(machine.saved(), before.saved(), "{call:?}");
    assert_eq!(machine.entities(), before.entities(), "{call:?}");
    assert_eq!(machine.loaded(), before.loaded());
}

/// The file's count of cells, which a load that is accepted may fill.
fn declared_cells(machine: &Machine) -> usize {
    let four = machine.program().get(52..56);
    let count = four.map_or(0, |four| i32::from_le_bytes(four.try_into().unwrap()));
    usize::try_from(count).unwrap_or(0)
}

/// How often something was seen, so that a test that meets nothing doesn't pass.
#[derive(Default)]
struct Seen {
    loads: u32,
    accepted: u32,
    /// Calls that changed entity cells.
    entities: u32,
    refused: BTreeSet<u32>,
}

impl Seen {
    fn note(&mut self, answer: Result<(), (Refusal, u32)>) {
        match answer {
            Ok(()) => self.accepted += 1,
            Err((refusal, _)) => {
                self.refused.insert(refusal.number());
            }
        }
    }
}

#[test]
fn random_programs_and_calls() {
    let mut seen = Seen::default();
    for seed in 0..3_000 {
        let mut chance = Chance::new(seed);
        let mut machine = random_machine(&mut chance);
        let load = Call::Load(random_settings(&mut chance));
        seen.loads += u32::from(check(&mut machine, load).is_ok());
        for _ in 0..60 {
            let before = machine.entities().to_vec();
            seen.note(check(&mut machine, random_call(&mut chance)));
            seen.entities += u32::from(machine.entities() != before);
            let Settings { depth, saved, .. } = machine.settings();
            assert!(machine.depth() as i64 <= depth && machine.saved_count() as i64 <= saved);
        }
    }
    assert!(seen.loads > 1_400, "{}", seen.loads);
    assert!(seen.accepted > 30_000, "{}", seen.accepted);
    assert!(seen.entities > 200, "{}", seen.entities);
    let met = [
        13, 14, 15, 16, 17, 18, 19, 20, 21, 22, 23, 24, 25, 27, 28, 29, 30, 31, 32, 34, 36,
    ];
    for number in met {
        assert!(seen.refused.contains(&number), "{number} was never met");
    }
}

/// A number that a state might be given.
fn made_up(chance: &mut Chance, now: usize) -> usize {
    match chance.below(8) {
        0 => now.wrapping_add(1),
        1 => now.wrapping_sub(1),
        2 => chance.pick(&[0, 31, 32, 2_048, 2_049, 1 << 31, 1 << 32, usize::MAX]),
        3 => chance.draw() as usize,
        _ => chance.below(40) as usize,
    }
}

/// A state with some of its numbers changed.
fn made_up_context(chance: &mut Chance, now: &Context) -> Context {
    let mut context = *now;
    for _ in 0..chance.between(1, 4) {
        let frame = chance.below(31) as usize;
        match chance.below(17) {
            0 => context.file.length = made_up(chance, now.file.length),
            1 => context.file.functions.count = made_up(chance, now.file.functions.count),
            2 => context.file.globals.count = made_up(chance, now.file.globals.count),
            3 => context.file.statements.offset = made_up(chance, now.file.statements.offset),
            4 => context.file.entityfields = made_up(chance, now.file.entityfields),
            5 => context.pc = chance.number(),
            6 => context.current_function = made_up(chance, now.current_function),
            7 => context.depth = made_up(chance, now.depth),
            8 => context.saved = made_up(chance, now.saved),
            9 => context.frames[frame].instr_id = chance.number(),
            10 => context.frames[0].func_id = made_up(chance, 0),
            11 => context.entity_count = made_up(chance, now.entity_count),
            12 => context.settings.check_number = made_up(chance, 65_535),
            13 => context.settings.depth = made_up(chance, now.depth),
            14 => context.settings.saved = made_up(chance, now.saved),
            15 => context.settings.limit = made_up(chance, 99_999),
            _ => context.frames[frame].func_id = made_up(chance, 0),
        }
    }
    context
}

/// A state of chance numbers altogether.
fn random_context(chance: &mut Chance) -> Context {
    let mut context = made_up_context(chance, &Context::default());
    context.file.length = chance.draw() as usize;
    context.depth = made_up(chance, 3);
    context.entity_count = made_up(chance, 2);
    for frame in &mut context.frames {
        frame.instr_id = chance.draw() as i64;
        frame.func_id = made_up(chance, 2);
    }
    context
}

/// A state of chance numbers, or more often one with some of its numbers changed.
fn any_context(chance: &mut Chance, now: &Context) -> Context {
    if chance.one_in(5) {
        random_context(chance)
    } else {
        made_up_context(chance, now)
    }
}

/// Check 13 on a program file that was loaded, read again from document 01's row and 02's R-11, with records read by this crate.
fn sound(machine: &Machine, loaded: &Context) -> bool {
    let context = machine.context();
    let settings = &context.settings;
    let in_range = settings.check_number <= 65_535
        && (1..=31).contains(&settings.depth)
        && settings.saved <= 2_048
        && (1..=99_999).contains(&settings.limit);
    if context.file != loaded.file || !in_range {
        return false;
    }
    if context.depth > settings.depth || context.saved > settings.saved {
        return false;
    }
    let cells = context.entity_count.checked_mul(context.file.entityfields);
    if context.entity_count > 600 || cells.is_none_or(|cells| cells > machine.entities().len()) {
        return false;
    }
    let mut entered = vec![context.current_function];
    entered.extend(
        context.frames[..context.depth]
            .iter()
            .skip(1)
            .map(|frame| frame.func_id),
    );
    if context.depth == 0 {
        entered.clear();
    }
    let program = machine.records();
    let locals: Option<Vec<u64>> = entered
        .into_iter()
        .map(|number| {
            let function = program.function(i64::try_from(number).ok()?)?;
            u64::try_from(function.locals).ok()
        })
        .collect();
    locals.is_some_and(|locals| locals.iter().sum::<u64>() == context.saved as u64)
}

/// How many of the states that were made up are sound, and of these, how many differ from a loaded one.
#[derive(Debug, Default)]
struct Contexts {
    sound: u32,
    others: u32,
    below_zero: u32,
    other_entities: u32,
    other_settings: u32,
}

#[test]
fn states_that_a_host_makes_up() {
    let mut seen = Contexts::default();
    for seed in 0..3_000 {
        let mut chance = Chance::new(1_000_000 + seed);
        let mut machine = random_machine(&mut chance);
        if machine.load_with(random_settings(&mut chance)).is_err() {
            continue;
        }
        let loaded = *machine.context();
        for _ in 0..40 {
            perform(&mut machine, random_call(&mut chance)).ok();
            let kept = *machine.context();
            let made = any_context(&mut chance, &kept);
            machine.set_context(made);
            let is_sound = sound(&machine, &loaded);
            let answer = check(&mut machine, Call::Read(0));
            assert_eq!(answer.is_ok(), is_sound, "{made:?}");
            let call = random_call(&mut chance);
            let answer = check(&mut machine, call);
            if !is_sound && !matches!(call, Call::Load(_)) {
                assert_eq!(answer, Err((Refusal::STATE, 0)));
            }
            seen.sound += u32::from(is_sound);
            seen.others += u32::from(!is_sound);
            seen.below_zero += u32::from(is_sound && made.pc < 0);
            seen.other_entities += u32::from(is_sound && made.entity_count != loaded.entity_count);
            seen.other_settings += u32::from(is_sound && made.settings != kept.settings);
            if !is_sound {
                machine.set_context(kept);
            }
        }
    }
    assert!(seen.sound > 5_000 && seen.others > 5_000, "{seen:?}");
    assert!(seen.below_zero > 50, "{seen:?}");
    assert!(seen.other_entities > 50, "{seen:?}");
    assert!(seen.other_settings > 500, "{seen:?}");
}

#[test]
fn buffers_that_a_host_changes() {
    let (mut refused, mut accepted) = (0, 0);
    for seed in 0..1_500 {
        let mut chance = Chance::new(2_000_000 + seed);
        let mut machine = random_machine(&mut chance);
        let settings = random_settings(&mut chance);
        machine.load_with(settings).ok();
        for _ in 0..30 {
            match chance.below(10) {
                0 => {
                    let length = machine.program().len() as u64;
                    if length > 0 {
                        let at = chance.below(length) as usize;
                        machine.program_mut()[at] = chance.draw() as u8;
                    }
                }
                1 => machine
                    .cells_mut()
                    .truncate(chance.between(30, 90) as usize),
                2 => machine.cells_mut().resize(80, 5),
                3 => machine
                    .saved_mut()
                    .truncate(chance.between(2_040, 2_060) as usize),
                4 => machine.saved_mut().resize(SAVED_STORE + 8, 6),
                5 => machine
                    .entities_mut()
                    .truncate(chance.between(90, 330) as usize),
                6 => *machine.entities_mut() = vec![chance.draw() as u32; 330],
                _ => {}
            }
            match check(&mut machine, random_call(&mut chance)) {
                Ok(()) => accepted += 1,
                Err(_) => refused += 1,
            }
        }
    }
    assert!(accepted > 2_000 && refused > 2_000, "{accepted} {refused}");
}

/// What a host does with what is handed over: its result, calls of its own, giving up, a panic.
fn answer(
    chance: &mut Chance,
    machine: &mut Caller<'_>,
    seen: &mut Answers,
) -> Result<(), &'static str> {
    seen.handed += 1;
    for cell in 1..=3 {
        machine.write(cell, chance.below(8) as u32).unwrap();
    }
    match chance.below(12) {
        0 => {
            seen.panics += 1;
            // As a panic, without its message.
            resume_unwind(Box::new("a builtin fails"))
        }
        1 | 2 => Err("given up"),
        3..=5 if seen.nested < 3 => {
            seen.nested += 1;
            let (function, limit) = (chance.between(0, 7), chance.between(1, 30));
            let called = machine.call(function, limit, |_, machine| answer(chance, machine, seen));
            seen.nested -= 1;
            seen.nested_calls += u32::from(called.is_ok_and(|count| count > 0));
            Ok(())
        }
        _ => Ok(()),
    }
}

#[derive(Debug, Default)]
struct Answers {
    handed: u32,
    panics: u32,
    /// How deep the calls of hosts are at present.
    nested: u32,
    nested_calls: u32,
    ended: u32,
    failed: u32,
    caught: u32,
}

/// One call on the machine, which is then as it was, however the call ended.
fn call_and_compare(chance: &mut Chance, machine: &mut Machine, seen: &mut Answers) {
    let before = *machine.context();
    let (function, limit) = (chance.between(-1, 8), chance.between(1, 200));
    seen.nested = 0;
    let called = catch_unwind(AssertUnwindSafe(|| {
        machine.call(function, limit, |_, machine| answer(chance, machine, seen))
    }));
    match called {
        Ok(Ok(count)) => seen.ended += u32::from(count > 0),
        Ok(Err(error)) => {
            seen.failed += 1;
            assert!(i64::from(error.count) <= limit);
        }
        Err(_panic) => seen.caught += 1,
    }
    assert_eq!(machine.context(), &before);
}

/// Calls leave the depth where it was, and the position, however they end.
#[test]
fn calls_leave_the_depth() {
    let mut seen = Answers::default();
    for seed in 0..3_000 {
        let mut chance = Chance::new(3_000_000 + seed);
        let mut machine = random_machine(&mut chance);
        let settings = random_settings(&mut chance);
        if machine.load_with(settings).is_err() {
            continue;
        }
        for _ in 0..10 {
            if chance.one_in(3) {
                machine.enter(chance.between(0, 7)).ok();
            }
            call_and_compare(&mut chance, &mut machine, &mut seen);
        }
    }
    assert!(seen.ended > 300 && seen.failed > 3_000, "{seen:?}");
    assert!(seen.caught > 100 && seen.handed > 1_000, "{seen:?}");
    assert!(seen.panics > 100 && seen.nested_calls > 50, "{seen:?}");
}

/// Fields by name, in files, states and entity cells by chance: what is set is read again, the entity's other cells and all other
/// entities stay, and what isn't there is an error.
#[test]
fn fields_by_chance() {
    let (mut set, mut errors) = (0, 0);
    for seed in 0..3_000 {
        let mut chance = Chance::new(6_000_000 + seed);
        let mut machine = random_machine(&mut chance);
        let settings = random_settings(&mut chance);
        machine.load_with(settings).ok();
        if chance.one_in(4) {
            let context = made_up_context(&mut chance, machine.context());
            machine.set_context(context);
        }
        for _ in 0..10 {
            let before = machine.clone();
            let (entity, value) = (chance.between(-1, 3), chance.draw() as f32);
            let written = machine
                .field_mut(entity, "")
                .and_then(|mut field| field.set_float(value));
            let read = machine.field(entity, "").and_then(|field| field.float());
            assert_eq!(written, read.map(drop));
            if read.is_err() {
                assert_eq!(machine.entities(), before.entities());
                errors += 1;
                continue;
            }
            assert_eq!(read, Ok(value));
            let place = usize::from(machine.find_field_by_name("").unwrap().cell);
            let mut expected = before.entities().to_vec();
            expected[entity as usize * machine.entity_cells() + place] = value.to_bits();
            assert_eq!(machine.entities(), expected);
            set += 1;
        }
    }
    assert!(set > 500 && errors > 500, "{set} {errors}");
}

/// What the assembler put in comes out again.
#[test]
fn records_of_assembled_files() {
    for seed in 0..500 {
        let mut assembly = random_assembly(&mut Chance::new(5_000_000 + seed));
        assembly.fields = vec![(0x8007, 65_535, -1), (2, 0, 9)];
        let file = assembly.bytes();
        let program = Program::new(&file);
        let numbers = || 0..;
        let functions = numbers().map_while(|number| program.function(number));
        assert!(functions.eq(assembly.functions.iter().copied()));
        let statements = numbers().map_while(|number| program.statement(number));
        assert!(statements.eq(assembly.statements.iter().copied()));
        let plain = |found: Definition| {
            let save = if found.save { 0x8000 } else { 0 };
            (found.kind | save, found.cell, found.name)
        };
        let definitions = numbers().map_while(|number| program.definition(number).map(plain));
        assert!(definitions.eq(assembly.definitions.iter().copied()));
        let fields = numbers().map_while(|number| program.field(number).map(plain));
        assert!(fields.eq(assembly.fields.iter().copied()));
        assert_eq!(program.function_count(), assembly.functions.len());
        assert_eq!(program.definition_count(), assembly.definitions.len());
        assert_eq!(program.field_count(), 2);
    }
}

#[test]
fn records_of_any_bytes() {
    for seed in 0..4_000 {
        let mut chance = Chance::new(4_000_000 + seed);
        let mut file = random_file(&mut chance);
        for _ in 0..chance.below(4) {
            if file.len() >= 60 {
                let at = chance.below(60) as usize;
                file[at] = chance.draw() as u8;
            }
        }
        let program = Program::new(&file);
        for _ in 0..20 {
            let number = chance.number();
            program.function(number);
            program.function_name(number);
            program.definition(number);
            program.field(number);
            if let Some(text) = program.text(number) {
                assert!(!text.contains(&0));
            }
        }
        program.find_function_by_name("main");
        program.find_definition_by_name("");
        program.find_field_by_name("health");
        program.find_definition_of_cell(30);
        let last = program.function_count() as i64;
        assert_eq!(program.function(last), None);
        assert_eq!(program.function(-1), None);
    }
}

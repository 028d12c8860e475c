//! Check number, greatest depth, greatest saved count and greatest run limit as a load is given them (02, R-11).

use std::panic::{catch_unwind, resume_unwind, AssertUnwindSafe};

use host::assemble::{statement, Assembly, Function};
use host::{
    load_file, Caller, Cause, Context, FieldError, Handover, HeldSettings, Machine, Outcome,
    Refusal, RunOutcome, Setting, Settings, CELLS, CHECK_NUMBER, ENTITIES, FRAMES,
    GREATEST_CHECK_NUMBER, GREATEST_LIMIT, SAVED_STORE,
};

/// The functions of [`rules`].
const RECURSION: i64 = 1;
const LOOP: i64 = 2;
const PAIR: i64 = 3;
const NOTHING: i64 = 4;
const CALLER: i64 = 5;

/// How many local cells a [`RECURSION`] has, and a [`PAIR`].
const LOCALS: i64 = 3;
const TWO: i64 = 2;

fn function(first: i32, local: i32, locals: i64) -> Function {
    Function {
        first,
        local,
        locals: locals as i32,
        ..Function::default()
    }
}

/// RECURSION calls itself by cell 40; LOOP jumps to itself; PAIR and NOTHING return; CALLER calls builtin 7 by cell 41, and
/// RECURSION after it.
fn rules() -> Assembly {
    let builtin = Function {
        first: -7,
        arguments: -1,
        ..Function::default()
    };
    Assembly {
        statements: vec![
            statement("Done", 0, 0, 0),
            statement("Call0", 40, 0, 0),
            statement("Done", 0, 0, 0),
            statement("Goto", 0, 0, 0),
            statement("Done", 0, 0, 0),
            statement("Call0", 41, 0, 0),
            statement("Call0", 40, 0, 0),
            statement("Done", 0, 0, 0),
        ],
        functions: vec![
            Function::default(),
            function(1, 44, LOCALS),
            function(3, 0, 0),
            function(4, 50, TWO),
            function(4, 0, 0),
            function(5, 48, TWO),
            builtin,
        ],
        cells: vec![(40, 1), (41, 6), (44, 7), (46, 8), (48, 9), (51, 10)],
        ..Assembly::default()
    }
}

/// A machine that isn't loaded. Every lent cell is another number than 0.
fn lent() -> Machine {
    let entities = vec![5; 2 * 105];
    Machine::with_entities(rules().bytes(), vec![3; 66], vec![4; 2_050], entities)
}

fn loaded(settings: Settings) -> Machine {
    let mut machine = lent();
    machine.load_with(settings).unwrap();
    machine
}

/// A load's answer: 0 where it is accepted.
fn load(machine: &mut Machine, settings: Settings) -> u32 {
    match machine.load_with(settings) {
        Ok(()) => 0,
        Err(error) => error.refusal().unwrap().number(),
    }
}

fn with(setting: Setting, value: i64) -> Settings {
    let mut settings = Settings::default();
    match setting {
        Setting::CheckNumber => settings.check_number = value,
        Setting::Depth => settings.depth = value,
        Setting::Saved => settings.saved = value,
        Setting::Limit => settings.limit = value,
        Setting::Entities => settings.entities = value,
    }
    settings
}

/// The four of which 36 speaks, and 02's ranges.
const RANGES: [(Setting, i64, i64); 4] = [
    (Setting::CheckNumber, 0, 65_535),
    (Setting::Depth, 1, 31),
    (Setting::Saved, 0, 2_048),
    (Setting::Limit, 1, 99_999),
];

/// Numbers that are far outside each range, among them such whose lower bits are within.
const FAR: [i64; 9] = [
    -1,
    i64::MIN,
    i64::MIN + 1,
    i64::MAX,
    1 << 32 | 1,
    1 << 31,
    -(1 << 32) + 1,
    100_000,
    1 << 20,
];

/// The context and the buffers, all that an operation may change.
fn everything(machine: &Machine) -> (Context, Vec<u32>, Vec<u32>, Vec<u32>) {
    (
        *machine.context(),
        machine.cells().to_vec(),
        machine.saved().to_vec(),
        machine.entities().to_vec(),
    )
}

#[track_caller]
fn assert_same(machine: &Machine, before: &Machine) {
    assert!(
        everything(machine) == everything(before),
        "something changed"
    );
}

fn no_host(handover: Handover, _: &mut Caller<'_>) -> Result<(), Handover> {
    Err(handover)
}

fn with_check_number(mut file: Vec<u8>, number: u32) -> Vec<u8> {
    file[4..8].copy_from_slice(&number.to_le_bytes());
    file
}

// ---- what a load is given

#[test]
fn the_default_is_01s() {
    let default = Settings {
        check_number: 5_927,
        depth: 31,
        saved: 2_048,
        limit: 99_999,
        entities: 0,
    };
    assert_eq!(Settings::default(), default);
    let (mut one, other) = (lent(), loaded(default));
    one.load().unwrap();
    assert_same(&one, &other);
    assert_eq!(one.settings(), default);
    assert_eq!(
        (CHECK_NUMBER, GREATEST_CHECK_NUMBER, GREATEST_LIMIT),
        (5_927, 65_535, 99_999)
    );
}

/// A load without a byte is refused 1, and 36 comes before it.
#[test]
fn both_ends_and_one_past() {
    let mut nothing = Machine::new(Vec::new(), Vec::new(), Vec::new());
    for (setting, least, greatest) in RANGES {
        for value in [least, least + 1, greatest - 1, greatest] {
            let settings = with(setting, value);
            assert_eq!(settings.check(), Ok(()), "{settings}");
            assert_eq!(load(&mut nothing, settings), 1, "{settings}");
            let file = with_check_number(rules().bytes(), settings.check_number as u32);
            let mut machine = Machine::new(file, vec![0; CELLS], vec![0; SAVED_STORE]);
            assert_eq!(load(&mut machine, settings), 0, "{settings}");
            assert_eq!(machine.settings(), settings);
        }
        let past = [least - 1, greatest + 1];
        for value in past.into_iter().chain(FAR) {
            let settings = with(setting, value);
            assert!(settings.check().is_err(), "{settings}");
            assert_eq!(load(&mut nothing, settings), 36, "{settings}");
            assert_eq!(load(&mut lent(), settings), 36, "{settings}");
        }
    }
}

/// 36 is before every other refusal of a load, and what was loaded before stands.
#[test]
fn what_36_leaves() {
    let mut machine = loaded(Settings::default().with_entities(2).unwrap());
    machine.enter(PAIR).unwrap();
    let before = machine.clone();
    for (setting, least, greatest) in RANGES {
        for value in [least - 1, greatest + 1] {
            let settings = with(setting, value);
            assert_eq!(load(&mut machine, settings), 36);
            assert_same(&machine, &before);
            let entities = Settings {
                entities: 601,
                ..settings
            };
            assert_eq!(load(&mut machine, entities), 36);
            let mut short = Machine::new(rules().bytes(), vec![0; 63], vec![0; 2_047]);
            assert_eq!(load(&mut short, settings), 36);
            assert!(!short.loaded());
            let mut other = Machine::new(vec![0xff; 60], vec![0; CELLS], vec![0; SAVED_STORE]);
            assert_eq!(load(&mut other, settings), 36);
        }
    }
    assert_eq!(load(&mut machine, with(Setting::Entities, 601)), 13);
    assert_same(&machine, &before);
}

#[test]
fn checked_settings() {
    let settings = Settings::default()
        .with_check_number(77)
        .and_then(|settings| settings.with_depth(3))
        .and_then(|settings| settings.with_saved(40))
        .and_then(|settings| settings.with_limit(500))
        .and_then(|settings| settings.with_entities(33))
        .unwrap();
    let given = Settings {
        check_number: 77,
        depth: 3,
        saved: 40,
        limit: 500,
        entities: 33,
    };
    assert_eq!(settings, given);
    assert_eq!(
        settings.to_string(),
        "check number 77, greatest depth 3, greatest saved count 40, greatest run limit 500, number of entities 33"
    );
}

#[rustfmt::skip]
#[test]
fn errors_name_the_range() {
    let settings = Settings::default();
    let errors = [
        (settings.with_check_number(65_536), "the check number is 65536, which isn't 0 to 65535"),
        (settings.with_check_number(-1), "the check number is -1, which isn't 0 to 65535"),
        (settings.with_depth(0), "the greatest depth is 0, which isn't 1 to 31"),
        (settings.with_depth(32), "the greatest depth is 32, which isn't 1 to 31"),
        (settings.with_saved(-1), "the greatest saved count is -1, which isn't 0 to 2048"),
        (settings.with_saved(2_049), "the greatest saved count is 2049, which isn't 0 to 2048"),
        (settings.with_limit(0), "the greatest run limit is 0, which isn't 1 to 99999"),
        (settings.with_limit(100_000), "the greatest run limit is 100000, which isn't 1 to 99999"),
        (settings.with_entities(-1), "the number of entities is -1, which isn't 0 to 600"),
        (settings.with_entities(601), "the number of entities is 601, which isn't 0 to 600"),
    ];
    for (given, message) in errors {
        assert_eq!(given.unwrap_err().to_string(), message);
    }
}

/// The ranges of the methods are those of a load.
#[test]
fn ranges() {
    for (setting, least, greatest) in RANGES {
        assert_eq!(setting.range(), least..=greatest);
    }
    assert_eq!(Setting::Entities.range(), 0..=ENTITIES as i64);
    let first = Settings {
        limit: 0,
        depth: 99,
        ..Settings::default()
    };
    let error = first.check().unwrap_err();
    assert_eq!((error.setting, error.value), (Setting::Depth, 99));
}

/// They are held until the next accepted load, whatever is done.
#[test]
fn what_is_held() {
    let given = Settings {
        check_number: CHECK_NUMBER,
        depth: 4,
        saved: 7,
        limit: 9,
        entities: 2,
    };
    let mut machine = lent();
    let zeros = HeldSettings::default();
    assert_eq!(machine.context().settings, zeros);
    assert_eq!(load(&mut machine, given), 0);
    let held = machine.context().settings;
    assert_eq!(
        (held.check_number, held.depth, held.saved, held.limit),
        (5_927, 4, 7, 9)
    );
    machine.enter(RECURSION).unwrap();
    machine.run(0, 9);
    machine.run(0, 10);
    machine.write(40, 2).unwrap();
    machine.statement();
    machine.run(0, 9);
    machine.enter(99).unwrap_err();
    machine.carry_on().unwrap_err();
    machine.abandon(0).unwrap();
    machine.load_with(with(Setting::Depth, 0)).unwrap_err();
    assert_eq!(machine.settings(), given);
    machine.load().unwrap();
    assert_eq!(machine.settings(), Settings::default());
}

/// The lent saved store stays 2,048 at least.
#[test]
fn the_saved_store_stays() {
    for saved in [0, 1, 2_047, 2_048] {
        let settings = with(Setting::Saved, saved);
        let mut machine = Machine::new(rules().bytes(), vec![0; CELLS], vec![0; 2_047]);
        assert_eq!(load(&mut machine, settings), 12);
        machine.saved_mut().push(0);
        assert_eq!(load(&mut machine, settings), 0);
        machine.saved_mut().pop();
        assert_eq!(machine.read(0), Err(Refusal::STATE));
    }
}

// ---- runs

#[test]
fn a_run_stops_at_a_lower_limit() {
    for greatest in [1, 2, 50, 99_998, 99_999] {
        let mut machine = loaded(with(Setting::Limit, greatest));
        machine.enter(LOOP).unwrap();
        let before = machine.clone();
        for limit in [greatest + 1, 100_000, 0, -1, i64::MAX, i64::MIN] {
            let run = machine.run(0, limit);
            let refused = RunOutcome::Refused(Refusal::new(28));
            assert_eq!((run.outcome, run.count), (refused, 0), "{limit}");
            assert_same(&machine, &before);
        }
        for _ in 0..2 {
            let run = machine.run(0, greatest);
            assert_eq!(
                (run.outcome, i64::from(run.count)),
                (RunOutcome::Spent, greatest)
            );
        }
        assert_eq!(machine.statement(), Outcome::Completed);
    }
}

/// Whatever the limit of a call would allow, no more is run than the settings' limit: the call is refused, and nothing is run.
#[test]
fn a_call_goes_by_the_limit() {
    let mut machine = loaded(with(Setting::Limit, 20));
    let before = machine.clone();
    for limit in [21, 99_999, 100_000, 0, -1, i64::MAX, i64::MIN] {
        let error = machine.call(LOOP, limit, no_host).unwrap_err();
        assert_eq!(error.cause, Cause::Refused(Refusal::new(28)));
        assert_eq!((error.count, error.position, error.function), (0, 3, 2));
        let error = machine.call(RECURSION, limit, no_host).unwrap_err();
        assert_eq!(error.cause, Cause::Refused(Refusal::new(28)));
        assert_eq!(machine.context(), before.context());
        assert_eq!(machine.cells(), before.cells());
    }
    let error = machine
        .call(LOOP, machine.settings().limit, no_host)
        .unwrap_err();
    assert_eq!((error.cause, error.count), (Cause::Spent, 20));
    assert_eq!(machine.call(NOTHING, 20, no_host), Ok(1));
}

/// What is handed over counts for the limit too, and a builtin's own calls have the same greatest limit.
#[test]
fn handovers_under_a_limit() {
    let mut machine = loaded(Settings {
        depth: 2,
        limit: 3,
        ..Settings::default()
    });
    machine.write(40, NOTHING as u32).unwrap();
    let mut nested = Vec::new();
    let mut host = |_: Handover, machine: &mut Caller<'_>| {
        let limit = machine.settings().limit;
        for limit in [limit + 1, limit] {
            nested.push(machine.call(LOOP, limit, no_host).unwrap_err());
        }
        Ok::<(), Refusal>(())
    };
    // builtin, Call0, Done: spent before CALLER's own Done
    let error = machine.call(CALLER, 3, &mut host).unwrap_err();
    assert_eq!((error.cause, error.count), (Cause::Spent, 3));
    assert_eq!((error.position, error.function), (7, CALLER as usize));
    let causes: Vec<_> = nested
        .iter()
        .map(|error| (error.cause, error.count))
        .collect();
    let refused = Cause::Refused(Refusal::new(28));
    assert_eq!(causes, [(refused, 0), (Cause::Spent, 3)]);
    assert_eq!(machine.depth(), 0);
}

// ---- entries

#[test]
fn the_host_enters_up_to_the_depth() {
    for greatest in [1, 2, 5, 30, 31] {
        let mut machine = loaded(with(Setting::Depth, greatest));
        for depth in 0..greatest {
            assert_eq!(machine.depth() as i64, depth);
            machine.enter(NOTHING).unwrap();
        }
        let before = machine.clone();
        for function in [NOTHING, PAIR, RECURSION, 0] {
            assert_eq!(machine.enter(function), Err(Refusal::new(22)));
        }
        // There is no such function: 20 is before 22.
        assert_eq!(machine.enter(99), Err(Refusal::new(20)));
        assert_same(&machine, &before);
        machine.abandon(greatest - 1).unwrap();
        machine.enter(NOTHING).unwrap();
    }
}

#[test]
fn a_run_enters_up_to_the_depth() {
    for greatest in [1, 2, 5, 31] {
        let mut machine = loaded(with(Setting::Depth, greatest));
        machine.enter(RECURSION).unwrap();
        let run = machine.run(0, 1_000);
        assert_eq!(run.outcome, RunOutcome::Refused(Refusal::new(22)));
        assert_eq!(i64::from(run.count), greatest - 1);
        assert_eq!(machine.depth() as i64, greatest);
        assert_eq!(machine.saved_count() as i64, LOCALS * greatest);
        assert_eq!(machine.statement(), Outcome::Refused(Refusal::new(22)));
        // A builtin needs no depth.
        machine.write(40, 6).unwrap();
        assert_eq!(
            machine.run(0, 1_000).outcome,
            RunOutcome::HandedOver(Handover::Builtin(7))
        );
        machine.carry_on().unwrap();
        let run = machine.run(0, 1_000);
        assert_eq!(
            (run.outcome, i64::from(run.count)),
            (RunOutcome::Ended, greatest)
        );
        assert_eq!(machine.saved_count(), 0);
    }
}

#[test]
fn the_host_enters_up_to_the_saved_count() {
    for greatest in [0, 1, 2, 3, 4, 5, 6, 7, 61, 62] {
        let mut machine = loaded(with(Setting::Saved, greatest));
        let mut saved = 0;
        while saved + TWO <= greatest {
            machine.enter(PAIR).unwrap();
            saved += TWO;
            assert_eq!(machine.saved_count() as i64, saved);
        }
        if machine.depth() < FRAMES {
            let before = machine.clone();
            assert_eq!(machine.enter(PAIR), Err(Refusal::new(23)), "{greatest}");
            assert_same(&machine, &before);
            // One without local cells saves none.
            machine.enter(NOTHING).unwrap();
        } else {
            assert_eq!(machine.enter(PAIR), Err(Refusal::new(22)));
        }
    }
}

#[test]
fn a_run_enters_up_to_the_saved_count() {
    for greatest in [3, 4, 5, 6, 8, 9] {
        let mut machine = loaded(with(Setting::Saved, greatest));
        machine.enter(RECURSION).unwrap();
        let run = machine.run(0, 1_000);
        assert_eq!(run.outcome, RunOutcome::Refused(Refusal::new(23)));
        assert_eq!(i64::from(run.count), greatest / LOCALS - 1);
        assert_eq!(machine.depth() as i64, greatest / LOCALS);
        assert_eq!(machine.statement(), Outcome::Refused(Refusal::new(23)));
        machine.abandon(0).unwrap();
        assert_eq!(machine.cells()[44..47], [7, 0, 8]);
    }
}

// ---- states that a host makes up

/// What each operation answers on a context: its refusal, or 0.
fn operations(machine: &Machine, context: Context) -> Vec<u32> {
    let fresh = || {
        let mut other = machine.clone();
        other.set_context(context);
        other
    };
    let number =
        |answer: Result<(), Refusal>| answer.map_or_else(|refusal| refusal.number(), |()| 0);
    let statement = match fresh().statement() {
        Outcome::Refused(refusal) => refusal.number(),
        _ => 0,
    };
    let run = match fresh().run(0, 1).outcome {
        RunOutcome::Refused(refusal) => refusal.number(),
        _ => 0,
    };
    let field = match fresh().field(0, "frags") {
        Err(FieldError::Refused(refusal)) => refusal.number(),
        _ => 0,
    };
    let mut output = [0; 1_000];
    vec![
        number(fresh().enter(NOTHING)),
        statement,
        run,
        number(fresh().carry_on()),
        number(fresh().abandon(0)),
        number(fresh().read(30).map(drop)),
        number(fresh().write(30, 1)),
        number(fresh().write_all(&[(30, 1)])),
        number(fresh().write_image(&mut output).map(drop)),
        field,
    ]
}

/// A file with a field that has a name.
fn with_field() -> Machine {
    let mut assembly = rules();
    let name = assembly.text("frags");
    assembly.fields = vec![(2, 49, name)];
    let entities = vec![0; 105];
    let mut machine = Machine::with_entities(
        assembly.bytes(),
        vec![0; CELLS],
        vec![0; SAVED_STORE],
        entities,
    );
    machine
        .load_with(Settings::default().with_entities(1).unwrap())
        .unwrap();
    machine
}

fn holding(context: Context, settings: HeldSettings) -> Context {
    Context {
        settings,
        ..context
    }
}

/// Settings, and whether a state with them is sound where two functions are entered, with four local cells.
#[rustfmt::skip]
fn other_settings(good: HeldSettings) -> Vec<(HeldSettings, bool)> {
    vec![
        (HeldSettings { depth: 3, ..good }, true),
        (HeldSettings { saved: 4, ..good }, true),
        (HeldSettings { saved: 3, ..good }, false),
        (HeldSettings { saved: 0, ..good }, false),
        (HeldSettings { depth: 1, ..good }, false),
        (HeldSettings { depth: 0, ..good }, false),
        (HeldSettings { depth: 32, ..good }, false),
        (HeldSettings { depth: usize::MAX, ..good }, false),
        (HeldSettings { saved: 2_049, ..good }, false),
        (HeldSettings { saved: usize::MAX, ..good }, false),
        (HeldSettings { limit: 1, ..good }, true),
        (HeldSettings { limit: 0, ..good }, false),
        (HeldSettings { limit: 100_000, ..good }, false),
        (HeldSettings { limit: usize::MAX, ..good }, false),
        (HeldSettings { check_number: 0, ..good }, true),
        (HeldSettings { check_number: 65_535, ..good }, true),
        (HeldSettings { check_number: 65_536, ..good }, false),
        (HeldSettings { check_number: usize::MAX, ..good }, false),
        (HeldSettings::default(), false),
    ]
}

#[test]
fn states_with_other_settings() {
    let mut machine = with_field();
    machine.enter(PAIR).unwrap();
    machine.enter(PAIR).unwrap();
    let loaded = *machine.context();
    let as_loaded = [0, 0, 0, 27, 0, 0, 0, 0, 0, 0];
    let good = loaded.settings;
    assert_eq!(operations(&machine, loaded), as_loaded);
    for (settings, sound) in other_settings(good) {
        let expected = if sound { as_loaded } else { [13; 10] };
        let found = operations(&machine, holding(loaded, settings));
        assert_eq!(found, expected, "{settings:?}");
    }
    // At the depth that is held, and no deeper.
    let mut expected = as_loaded;
    expected[0] = 22;
    let at_depth = HeldSettings { depth: 2, ..good };
    let found = operations(&machine, holding(loaded, at_depth));
    assert_eq!(found, expected);
}

/// Settings out of range are refused where nothing is entered too, as is a state of zeros with good settings.
#[test]
fn states_at_depth_0() {
    let machine = with_field();
    let loaded = *machine.context();
    for setting in [Setting::Depth, Setting::Limit] {
        let mut context = loaded;
        match setting {
            Setting::Depth => context.settings.depth = 0,
            _ => context.settings.limit = 0,
        }
        assert_eq!(operations(&machine, context), [13; 10]);
    }
    let zeros = Context {
        settings: loaded.settings,
        ..Context::default()
    };
    assert_eq!(operations(&machine, zeros), [13; 10]);
}

/// A state that is set back goes on under its own settings, and is seen with them.
#[test]
fn a_kept_state_keeps_its_settings() {
    let mut machine = loaded(with(Setting::Depth, 1));
    let kept = *machine.context();
    machine.load().unwrap();
    machine.enter(NOTHING).unwrap();
    machine.enter(NOTHING).unwrap();
    machine.set_context(kept);
    assert_eq!(machine.settings(), with(Setting::Depth, 1));
    machine.enter(NOTHING).unwrap();
    assert_eq!(machine.enter(NOTHING), Err(Refusal::new(22)));
    let mut made_up = kept;
    made_up.settings.limit = usize::MAX;
    machine.set_context(made_up);
    assert_eq!(machine.settings().limit, -1);
}

// ---- the check number

#[test]
fn a_file_with_another_check_number() {
    for number in [0, 1, 255, 256, 5_926, 5_928, 65_535] {
        let file = with_check_number(rules().bytes(), number);
        let mut machine = Machine::new(file.clone(), vec![0; CELLS], vec![0; SAVED_STORE]);
        assert_eq!(load(&mut machine, Settings::default()), 3);
        let settings = Settings::default()
            .with_check_number(number.into())
            .unwrap();
        assert_eq!(load(&mut machine, settings), 0);
        assert_eq!(machine.image().as_ref(), Ok(&file));
        // The one held is written, also where the bytes have another by now; they aren't compared again.
        *machine.program_mut() = with_check_number(file.clone(), 77);
        machine.enter(NOTHING).unwrap();
        assert_eq!(machine.run(0, 9).outcome, RunOutcome::Ended);
        let image = machine.image().unwrap();
        assert_eq!(image, file);
        assert_eq!(load(&mut machine, settings), 3);

        let mut again = Machine::new(image, vec![0; CELLS], vec![0; SAVED_STORE]);
        assert_eq!(load(&mut again, Settings::default()), 3);
        assert_eq!(load(&mut again, settings), 0);
        assert_eq!(again.image(), Ok(file));
    }
}

/// All four bytes of the header's number count.
#[test]
fn numbers_that_no_setting_has() {
    for number in [65_536, 65_536 + 5_927, 1 << 24 | 5_927, u32::MAX, 1 << 31] {
        let file = with_check_number(rules().bytes(), number);
        let mut machine = Machine::new(file, vec![0; CELLS], vec![0; SAVED_STORE]);
        assert_eq!(load(&mut machine, Settings::default()), 3);
        for low in [number & 0xffff, 0, 65_535] {
            assert_eq!(
                load(&mut machine, with(Setting::CheckNumber, low.into())),
                3
            );
        }
        assert_eq!(
            load(&mut machine, with(Setting::CheckNumber, number.into())),
            36
        );
    }
    let mut machine = lent();
    assert_eq!(load(&mut machine, with(Setting::CheckNumber, 5_926)), 3);
}

/// A state with another check number, made up by a host, writes that one.
#[test]
fn a_made_up_check_number_is_written() {
    let mut machine = loaded(Settings::default());
    let mut context = *machine.context();
    context.settings.check_number = 4_660;
    machine.set_context(context);
    let expected = with_check_number(rules().bytes(), 4_660);
    assert_eq!(machine.image(), Ok(expected));
}

// ---- load files

/// They keep R-10's promise under check number 5927 and a run limit above n, whatever depth and saved count are.
#[test]
fn load_files_under_settings() {
    for (seed, n) in [(1, 1), (2_463_534_242, 7), (u32::MAX, 1_000)] {
        let file = load_file(seed, n).unwrap();
        let mut machine = Machine::new(file.clone(), vec![7; 64], vec![9; SAVED_STORE]);
        for (depth, saved, limit) in [(1, 0, n + 1), (31, 2_048, n + 1), (1, 0, 99_999)] {
            let settings = Settings {
                depth,
                saved,
                limit,
                ..Settings::default()
            };
            assert_eq!(load(&mut machine, settings), 0);
            assert_eq!(machine.image().as_ref(), Ok(&file));
            machine.enter(1).unwrap();
            let run = machine.run(0, limit);
            assert_eq!(
                (run.outcome, i64::from(run.count)),
                (RunOutcome::Ended, n + 1)
            );
        }
        assert_eq!(load(&mut machine, with(Setting::Limit, n)), 0);
        machine.enter(1).unwrap();
        assert_eq!(
            machine.run(0, n + 1).outcome,
            RunOutcome::Refused(Refusal::new(28))
        );
        assert_eq!(machine.run(0, n).outcome, RunOutcome::Spent);
        assert_eq!(load(&mut machine, with(Setting::CheckNumber, 5_928)), 3);
    }
}

// ---- calls

/// A builtin that calls itself again through the rules, as deep as it may.
fn nest(machine: &mut Caller<'_>, depths: &mut Vec<usize>) -> Result<(), Refusal> {
    depths.push(machine.depth());
    let limit = machine.settings().limit;
    let called = machine.call(CALLER, limit, |_, machine| nest(machine, depths));
    called.map(drop).map_err(|error| match error.cause {
        Cause::Refused(refusal) | Cause::Host(refusal) => refusal,
        Cause::Spent => panic!("{error:?}"),
    })
}

/// The entries of a closure's own calls count for the depth: the last is refused 22, and nothing stays entered.
#[test]
fn calls_within_calls_under_a_depth() {
    for greatest in 1..=6 {
        let mut machine = loaded(with(Setting::Depth, greatest));
        let before = machine.clone();
        let mut depths = Vec::new();
        let error = machine
            .call(CALLER, 100, |_, machine| nest(machine, &mut depths))
            .unwrap_err();
        assert!(depths.iter().copied().eq(1..=greatest as usize));
        assert_eq!(error.cause, Cause::Host(Refusal::new(22)));
        assert_eq!(machine.context(), before.context());
        assert_eq!(machine.cells(), before.cells());
    }
}

/// The same of the saved count: CALLER saves two cells at each entry.
#[test]
fn calls_within_calls_under_a_saved_count() {
    for greatest in [2, 3, 4, 5] {
        let mut machine = loaded(with(Setting::Saved, greatest));
        let before = *machine.context();
        let mut refused = Vec::new();
        let called = machine.call(CALLER, 100, |_, machine| {
            let inner = machine.call(CALLER, 100, |_, machine| {
                let third = machine.call(PAIR, 100, no_host);
                refused.extend(third.err().map(|error| error.cause));
                Err(())
            });
            refused.extend(inner.err().and_then(|error| match error.cause {
                Cause::Refused(refusal) => Some(Cause::Refused(refusal)),
                _ => None,
            }));
            Err::<(), ()>(())
        });
        assert!(called.is_err());
        assert_eq!(refused, [Cause::Refused(Refusal::new(23))], "{greatest}");
        assert_eq!(machine.context(), &before);
    }
}

/// How a call of CALLER goes wrong: the builtin panics, or gives up, or RECURSION goes too deep or saves too much, or the limit is
/// too high or too low.
#[test]
fn the_depth_is_as_it_was() {
    let settings = [
        (1, 2_048, 50),
        (2, 2_048, 50),
        (3, 6, 50),
        (3, 4, 50),
        (31, 2_048, 4),
    ];
    for (depth, saved, limit) in settings {
        let mut machine = loaded(Settings {
            depth,
            saved,
            limit,
            ..Settings::default()
        });
        let before = machine.clone();
        for turn in 0..100 {
            let limit = if turn % 5 == 4 { limit + 1 } else { limit };
            let called = catch_unwind(AssertUnwindSafe(|| {
                machine.call(CALLER, limit, |_, machine| match turn % 3 {
                    // As a panic, without its message.
                    0 => resume_unwind(Box::new("a builtin fails")),
                    1 => Err(()),
                    _ => machine.write(1, turn).map_err(drop),
                })
            }));
            assert!(!matches!(called, Ok(Ok(_))));
            assert_eq!(machine.context(), before.context());
            assert_eq!(machine.cells()[44..52], before.cells()[44..52]);
        }
        // As many can be entered as before.
        for _ in 0..depth {
            machine.enter(NOTHING).unwrap();
        }
        assert_eq!(machine.enter(NOTHING), Err(Refusal::new(22)));
    }
}

/// A call at the greatest depth isn't entered, and one below it is.
#[test]
fn a_call_at_the_depth() {
    let mut machine = loaded(with(Setting::Depth, 2));
    machine.enter(PAIR).unwrap();
    assert_eq!(machine.call(NOTHING, 9, no_host), Ok(1));
    machine.enter(PAIR).unwrap();
    let before = machine.clone();
    let error = machine.call(NOTHING, 9, no_host).unwrap_err();
    assert_eq!(error.cause, Cause::Refused(Refusal::new(22)));
    assert_same(&machine, &before);
}

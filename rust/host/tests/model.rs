//! The cases of tests/model, answered by the Python model, run through this crate: whole files, single statements and
//! lists of calls, with the states and the entity cells that the lists make up, and with the settings that loads are given.
//! What has runs is gone through with each engine. tests/model/README.md has the formats.

use std::fs;
use std::path::Path;

use host::{
    Context, Engine, Handover, Lump, Machine, Outcome, Refusal, Run, RunOutcome, Settings, CELLS,
    SAVED_STORE,
};

#[path = "common/lent.rs"]
mod lent;

fn cases(name: &str) -> String {
    let folder = Path::new(env!("CARGO_MANIFEST_DIR")).join("../../tests/model/cases");
    fs::read_to_string(folder.join(name)).unwrap()
}

/// A file's bytes: its length, and its first bytes in hexadecimal digits.
fn bytes_of(length: &str, digits: &str) -> Vec<u8> {
    let digits = if digits == "-" { "" } else { digits };
    let pairs = digits.as_bytes().chunks(2);
    let mut bytes: Vec<u8> = pairs
        .map(|pair| u8::from_str_radix(std::str::from_utf8(pair).unwrap(), 16).unwrap())
        .collect();
    bytes.resize(length.parse().unwrap(), 0);
    bytes
}

fn numbers<'a>(words: &mut impl Iterator<Item = &'a str>, count: usize) -> Vec<i64> {
    words
        .take(count)
        .map(|word| word.parse().unwrap())
        .collect()
}

/// A count, and so many pairs.
fn pairs<'a>(words: &mut impl Iterator<Item = &'a str>) -> Vec<(usize, u32)> {
    let count = numbers(words, 1)[0] as usize;
    let flat = numbers(words, 2 * count);
    flat.chunks(2)
        .map(|pair| (pair[0] as usize, pair[1] as u32))
        .collect()
}

/// An answer as the case files have it: word, number and count.
type Answer = (&'static str, u32, u32);

fn accepted(answer: Result<u32, Refusal>) -> Answer {
    match answer {
        Ok(value) => ("accepted", value, 0),
        Err(refusal) => ("refused", refusal.number(), 0),
    }
}

fn handed_over(handover: Handover, count: u32) -> Answer {
    match handover {
        Handover::Builtin(number) => ("builtin", number, count),
        Handover::Opcode(number) => ("opcode", number, count),
    }
}

fn statement(machine: &mut Machine) -> Answer {
    match machine.statement() {
        Outcome::Completed => ("accepted", 0, 0),
        Outcome::Refused(refusal) => ("refused", refusal.number(), 0),
        Outcome::HandedOver(handover) => handed_over(handover, 0),
    }
}

fn run(machine: &mut Machine, target: i64, limit: i64) -> Answer {
    answer_of(machine.run(target, limit))
}

fn answer_of(run: Run) -> Answer {
    match run.outcome {
        RunOutcome::Ended => ("ended", 0, run.count),
        RunOutcome::Spent => ("spent", 0, run.count),
        RunOutcome::Refused(refusal) => ("refused", refusal.number(), run.count),
        RunOutcome::HandedOver(handover) => handed_over(handover, run.count),
    }
}

fn state(machine: &Machine) -> String {
    format!(
        "{} {} {} {}",
        machine.position(),
        machine.function(),
        machine.depth(),
        machine.saved_count()
    )
}

/// What stands for a list's last run before there is one.
const NO_RUN: Run = Run {
    outcome: RunOutcome::Ended,
    count: 0,
    position: 0,
    function: 0,
};

const ENGINES: [Engine; 2] = [Engine::First, Engine::Second];

/// The show program's line, by this crate.
fn shown(engine: Engine, file: Vec<u8>) -> String {
    if file.len() > 65_536 {
        return "refused,1".to_string();
    }
    let mut machine = Machine::new(file, vec![0; CELLS], vec![0; SAVED_STORE]);
    machine.set_engine(engine);
    if let Err(error) = machine.load() {
        return format!("refused,{}", error.refusal().unwrap().number());
    }
    let (word, detail, count) = match machine.enter(1) {
        Ok(()) => run(&mut machine, 0, 99_999),
        Err(refusal) => ("refused", refusal.number(), 0),
    };
    let cells: Vec<String> = (1..4)
        .map(|cell| format!("{:08x}", machine.cells()[cell]))
        .collect();
    let state = state(&machine).replace(' ', ",");
    format!("{word},{detail},{count},{state},{}", cells.join(","))
}

#[test]
fn whole_files() {
    let mut count = 0;
    for line in cases("files.txt")
        .lines()
        .filter(|line| !line.starts_with('#'))
    {
        let words: Vec<&str> = line.split(' ').collect();
        for engine in ENGINES {
            let found = shown(engine, bytes_of(words[1], words[2]));
            assert_eq!(found, words[3], "{} {engine:?}", words[0]);
        }
        count += 1;
    }
    assert_eq!(count, 432);
}

/// The numbers that differ, in rising order: how many, then place and value of each.
fn changes(before: &[u32], after: &[u32]) -> String {
    assert_eq!(before.len(), after.len());
    let pairs = before.iter().zip(after).enumerate();
    let changed: Vec<String> = pairs
        .filter(|(_, (before, after))| before != after)
        .map(|(place, (_, after))| format!(" {place} {after}"))
        .collect();
    format!("{}{}", changed.len(), changed.concat())
}

/// What a vector sets before its statement.
struct Given {
    function: i64,
    statement: Vec<i64>,
    bytes: Vec<(usize, u32)>,
    cells: Vec<(usize, u32)>,
    entities: i64,
    lent_entities: usize,
    entity_cells: Vec<(usize, u32)>,
}

impl Given {
    fn read<'a>(words: &mut impl Iterator<Item = &'a str>) -> Given {
        let function = numbers(words, 1)[0];
        let statement = numbers(words, 4);
        let (bytes, cells) = (pairs(words), pairs(words));
        let entities = numbers(words, 2);
        Given {
            function,
            statement,
            bytes,
            cells,
            entities: entities[0],
            lent_entities: entities[1] as usize,
            entity_cells: pairs(words),
        }
    }

    /// The machine just before the statement.
    fn machine(&self, offset: usize, cells: usize, file: &[u8]) -> Machine {
        let (cells, entities) = (vec![0; cells], vec![0; self.lent_entities]);
        let mut machine =
            Machine::with_entities(file.to_vec(), cells, vec![0; SAVED_STORE], entities);
        let entities = self.entities;
        machine
            .load_with(Settings {
                entities,
                ..Settings::default()
            })
            .unwrap();
        if self.function >= 0 {
            machine.enter(self.function).unwrap();
        }
        for (place, byte) in &self.bytes {
            machine.program_mut()[*place] = *byte as u8;
        }
        for (i, number) in self.statement.iter().enumerate() {
            let place = offset + 2 * i;
            let bytes = (*number as i16).to_le_bytes();
            machine.program_mut()[place..place + 2].copy_from_slice(&bytes);
        }
        for (cell, value) in &self.cells {
            machine.cells_mut()[*cell] = *value;
        }
        for (cell, value) in &self.entity_cells {
            machine.entities_mut()[*cell] = *value;
        }
        machine
    }
}

/// One vector of statements.txt on the file that holds.
fn vector(line: &str, offset: usize, cells: usize, file: &[u8]) {
    let (given, expected) = line.split_once(" = ").unwrap();
    let given = Given::read(&mut given.split(' ').skip(1));
    let mut machine = given.machine(offset, cells, file);
    let before = machine.clone();
    let (word, detail, _) = statement(&mut machine);
    for engine in ENGINES {
        runs_one(engine, &before, &machine, (word, detail));
    }
    let found = format!(
        "{word} {detail} {} {} {}",
        state(&machine),
        changes(before.cells(), machine.cells()),
        changes(before.entities(), machine.entities())
    );
    assert_eq!(found, expected, "{line}");
}

/// A run of one statement answers and leaves what the statement does, where a function is entered.
fn runs_one(engine: Engine, before: &Machine, after: &Machine, answer: (&str, u32)) {
    if before.depth() == 0 {
        return;
    }
    let mut machine = before.clone();
    machine.set_engine(engine);
    let (word, detail, count) = run(&mut machine, 0, 1);
    let completed = match word {
        "ended" | "spent" => ("accepted", 0),
        _ => (word, detail),
    };
    assert_eq!(completed, answer, "{engine:?}");
    assert_eq!(count, u32::from(answer.0 == "accepted"));
    assert_eq!(machine.context(), after.context());
    assert_eq!(machine.cells(), after.cells());
    assert_eq!(machine.saved(), after.saved());
    assert_eq!(machine.entities(), after.entities());
}

#[test]
fn single_statements() {
    let (mut offset, mut cells, mut file, mut count) = (0, 0, Vec::new(), 0);
    for line in cases("statements.txt")
        .lines()
        .filter(|line| !line.starts_with('#'))
    {
        let words: Vec<&str> = line.split(' ').collect();
        if words[0] == "file" {
            offset = words[1].parse().unwrap();
            cells = words[2].parse().unwrap();
            file = bytes_of(words[3], words[4]);
            continue;
        }
        vector(line, offset, cells, &file);
        count += 1;
    }
    assert_eq!(count, 4_837);
}

/// FNV-1a of 64 bits.
fn digest_of(bytes: impl Iterator<Item = u8>) -> String {
    let digest = bytes.fold(0xcbf2_9ce4_8422_2325_u64, |digest, byte| {
        (digest ^ u64::from(byte)).wrapping_mul(0x100_0000_01b3)
    });
    format!("{digest:016x}")
}

fn digest(machine: &Machine) -> String {
    let frames = machine.frames().iter();
    let text: String = frames
        .map(|frame| format!("{},{};", frame.instr_id, frame.func_id))
        .collect();
    let buffers = [machine.cells(), machine.saved(), machine.entities()];
    let numbers = buffers.into_iter().flatten();
    let bytes = numbers.flat_map(|number| number.to_le_bytes());
    digest_of(text.bytes().chain(bytes))
}

/// Changes a number of the state, counted as tests/model/README.md counts them.
fn set_number(context: &mut Context, field: usize, value: i64) {
    let natural = usize::try_from(value).unwrap_or(usize::MAX);
    let file = &mut context.file;
    let lump = |lump: &mut Lump| {
        if field % 2 == 1 {
            lump.offset = natural;
        } else {
            lump.count = natural;
        }
    };
    match field {
        0 => file.length = natural,
        1 | 2 => lump(&mut file.statements),
        3 | 4 => lump(&mut file.globaldefs),
        5 | 6 => lump(&mut file.fielddefs),
        7 | 8 => lump(&mut file.functions),
        9 | 10 => lump(&mut file.strings),
        11 | 12 => lump(&mut file.globals),
        13 => file.entityfields = natural,
        14 => context.pc = value,
        15 => context.current_function = natural,
        16 => context.depth = natural,
        17 => context.saved = natural,
        80 => context.entity_count = natural,
        81 => context.settings.check_number = natural,
        82 => context.settings.depth = natural,
        83 => context.settings.saved = natural,
        84 => context.settings.limit = natural,
        _ if field % 2 == 0 => context.frames[(field - 18) / 2].instr_id = value,
        _ => context.frames[(field - 18) / 2].func_id = natural,
    }
}

/// What a load is given: the number of entities alone, or the four settings after it.
fn settings(given: &[i64]) -> Settings {
    match *given {
        [entities] => Settings {
            entities,
            ..Settings::default()
        },
        [entities, check_number, depth, saved, limit] => Settings {
            check_number,
            depth,
            saved,
            limit,
            entities,
        },
        _ => panic!("load {given:?}"),
    }
}

fn perform(machine: &mut Machine, name: &str, given: &[i64]) -> Answer {
    let alone = |answer: Result<(), Refusal>| accepted(answer.map(|()| 0));
    match (name, given) {
        ("load", _) => {
            let loaded = machine.load_with(settings(given));
            alone(loaded.map_err(|error| error.refusal().unwrap()))
        }
        ("enter", [function]) => alone(machine.enter(*function)),
        ("statement", []) => statement(machine),
        ("carry", []) => alone(machine.carry_on()),
        ("abandon", [depth]) => alone(machine.abandon(*depth)),
        ("get", [address]) => accepted(machine.read(*address)),
        ("pairs", numbers) => alone(machine.write_numbers(numbers)),
        ("put", [address, value]) => alone(machine.write(*address, *value as u32)),
        ("byte", [place, byte]) => {
            machine.program_mut()[*place as usize] = *byte as u8;
            accepted(Ok(0))
        }
        ("lend", [count, first]) => {
            *machine.entities_mut() = numbered(*first as u32, *count as u32);
            accepted(Ok(0))
        }
        ("eput", [cell, value]) => {
            machine.entities_mut()[*cell as usize] = *value as u32;
            accepted(Ok(0))
        }
        ("field", [field, value]) => {
            let mut context = *machine.context();
            set_number(&mut context, *field as usize, *value);
            machine.set_context(context);
            accepted(Ok(0))
        }
        _ => panic!("{name} {given:?}"),
    }
}

/// So many numbers, one after the other.
fn numbered(first: u32, count: u32) -> Vec<u32> {
    (0..count).map(|i| first.wrapping_add(i)).collect()
}

/// What a list is played on.
struct Played {
    machine: Machine,
    /// The unpack buffer of unpacked.txt.
    buffer: Vec<u16>,
    last: Run,
}

impl Played {
    fn new(engine: Engine, mut machine: Machine) -> Played {
        machine.set_engine(engine);
        Played {
            machine,
            buffer: Vec::new(),
            last: NO_RUN,
        }
    }

    /// What a call answers, and the digest that stands last in its line, if it has one.
    fn perform(&mut self, name: &str, given: &[i64]) -> (Answer, Option<String>) {
        match (name, given) {
            ("image", [length]) => written(*length, |output| self.machine.write_image(output)),
            ("sentence", [length]) => written(*length, |display| self.last.write_sentence(display)),
            ("buffer", [count, first]) => {
                let numbers = numbered(*first as u32, *count as u32);
                self.buffer = numbers.into_iter().map(|number| number as u16).collect();
                (accepted(Ok(0)), None)
            }
            ("set", [place, number]) => {
                self.buffer[*place as usize] = *number as u16;
                (accepted(Ok(0)), None)
            }
            ("unpack", []) => {
                let answer = lent::unpack(&mut self.machine, &mut self.buffer);
                (answer, Some(self.buffer_digest()))
            }
            ("runs2", [target, limit]) => {
                let answer = lent::run(&mut self.machine, &self.buffer, *target, *limit);
                (answer, Some(self.buffer_digest()))
            }
            ("run" | "run2", [target, limit]) => (self.run(name, *target, *limit), None),
            _ => (perform(&mut self.machine, name, given), None),
        }
    }

    /// `run` is of the engine that is set, `run2` of the second.
    fn run(&mut self, name: &str, target: i64, limit: i64) -> Answer {
        let engine = self.machine.engine();
        if name == "run2" {
            self.machine.set_engine(Engine::Second);
        }
        self.last = self.machine.run(target, limit);
        self.machine.set_engine(engine);
        answer_of(self.last)
    }

    fn buffer_digest(&self) -> String {
        digest_of(self.buffer.iter().flat_map(|number| number.to_le_bytes()))
    }

    /// What a call answers and leaves, as the case files have it.
    fn answered(&mut self, name: &str, given: &[i64]) -> String {
        let ((word, detail, completed), last) = self.perform(name, given);
        let (state, digest) = (state(&self.machine), digest(&self.machine));
        let last = last.map_or(String::new(), |last| format!(" {last}"));
        format!("{word} {detail} {completed} {state} {digest}{last}")
    }
}

/// What is written into a fresh buffer, and the digest of the whole buffer.
fn written(
    length: i64,
    write: impl FnOnce(&mut [u8]) -> Result<usize, Refusal>,
) -> (Answer, Option<String>) {
    let mut output = vec![238; length as usize];
    let answer = accepted(write(&mut output).map(|written| written as u32));
    (answer, Some(digest_of(output.into_iter())))
}

/// Plays the lists of a case file, every `run` by an engine, and gives how many calls they have.
fn play(file: &str, engine: Engine) -> u32 {
    let mut played = Played::new(engine, Machine::new(Vec::new(), Vec::new(), Vec::new()));
    let mut count = 0;
    for line in cases(file).lines().filter(|line| !line.starts_with('#')) {
        if let Some(lent) = line.strip_prefix("new ") {
            let words: Vec<&str> = lent.split(' ').collect();
            let fresh = |first, count: &str| numbered(first, count.parse().unwrap());
            let machine = Machine::with_entities(
                bytes_of(words[3], words[4]),
                fresh(0xdead_0000, words[0]),
                fresh(0xbeef_0000, words[1]),
                fresh(0xcafe_0000, words[2]),
            );
            played = Played::new(engine, machine);
            continue;
        }
        let (call, expected) = line.split_once(" = ").unwrap();
        let mut words = call.split(' ');
        let name = words.next().unwrap();
        let given = numbers(&mut words, usize::MAX);
        assert_eq!(played.answered(name, &given), expected, "{call} {engine:?}");
        count += 1;
    }
    count
}

/// By both engines: every list of calls that there is.
fn play_by_both(file: &str, count: u32) {
    for engine in ENGINES {
        assert_eq!(play(file, engine), count, "{engine:?}");
    }
}

#[test]
fn lists_of_calls() {
    play_by_both("calls.txt", 5_681);
}

/// Loads under settings, and what they allow.
#[test]
fn lists_with_settings() {
    play_by_both("settings.txt", 4_454);
}

/// Written files, sentences and pairs, whose lists have runs too.
#[test]
fn lists_with_images() {
    play_by_both("images.txt", 1_199);
}

#[test]
fn lists_with_sentences() {
    play_by_both("outcomes.txt", 1_074);
}

#[test]
fn lists_with_pairs() {
    play_by_both("pairs.txt", 1_416);
}

/// Lists that mix both engines.
#[test]
fn lists_of_both_engines() {
    play_by_both("engines.txt", 2_532);
}

/// Buffers of every length and content, as a host in C may lend them.
#[test]
fn lists_with_an_unpack_buffer() {
    play_by_both("unpacked.txt", 3_246);
}

//! Replays a recorded list of calls on a program file: `replay PROGRAM`, with the calls on standard input, a call to a
//! line, and a line of output for each call of the machine. `docs/EMBEDDING.md` describes both.

use std::env;
use std::ffi::OsString;
use std::fs;
use std::io::{self, BufRead, BufWriter, Write};
use std::num::{IntErrorKind, ParseIntError};
use std::process::ExitCode;

use host::{
    write_load_file, Engine, Handover, LoadError, Machine, Outcome, Refusal, Run, RunOutcome,
    Settings,
};

/// The cells and the saved store that are lent before any `lend`, and no entity cells.
const CELLS: u32 = 64;
const SAVED: u32 = 2048;

/// Where the numbers in fresh buffers start.
const FIRST_CELL: u32 = 3_221_225_472;
const FIRST_SAVED: u32 = 2_684_354_560;

/// Each byte of a fresh output or display buffer.
const OUTPUT: u8 = 238;

/// What stands for the last run before there is one.
const NO_RUN: Run = Run {
    outcome: RunOutcome::Ended,
    count: 0,
    position: 0,
    function: 0,
};

/// A longer file is answered by its length alone, as this one is: refused 1 or 13.
const TOO_LONG: usize = 1_048_577;

/// A line of the input.
enum Line {
    Change(Change),
    Call(Call),
}

/// A change of what is lent.
enum Change {
    Lend(u32, u32, u32),
    Poke(i64, u8),
    File(usize),
}

/// A call of the machine.
enum Call {
    Load(Settings),
    Enter(i64),
    Statement,
    Run(Engine, i64, i64),
    Carry,
    Abandon(i64),
    Read(i64),
    Write(i64, u32),
    Pairs(Vec<i64>),
    Image(u32),
    Sentence(u32),
    LoadFile(u32, i64, u32),
}

/// What is lent, and the machine over it.
struct Replay {
    machine: Machine,
    last: Run,
    /// All the program's bytes, of which the machine is lent the first ones.
    program: Vec<u8>,
}

fn fresh(count: u32, number: impl Fn(u32) -> u32) -> Vec<u32> {
    (0..count).map(number).collect()
}

fn fresh_cells(count: u32) -> Vec<u32> {
    fresh(count, |i| FIRST_CELL.wrapping_add(i))
}

fn fresh_saved(count: u32) -> Vec<u32> {
    fresh(count, |i| FIRST_SAVED.wrapping_add(i))
}

impl Replay {
    fn new(program: Vec<u8>) -> Replay {
        Replay {
            machine: Machine::new(program.clone(), fresh_cells(CELLS), fresh_saved(SAVED)),
            last: NO_RUN,
            program,
        }
    }

    fn change(&mut self, change: Change) {
        match change {
            Change::Lend(cells, saved, entity_cells) => {
                *self.machine.cells_mut() = fresh_cells(cells);
                *self.machine.saved_mut() = fresh_saved(saved);
                *self.machine.entities_mut() = fresh(entity_cells, |i| i.wrapping_mul(7));
            }
            Change::Poke(offset, byte) => self.poke(offset, byte),
            Change::File(length) => {
                let length = length.min(TOO_LONG);
                if self.program.len() < length {
                    self.program.resize(length, 0);
                }
                *self.machine.program_mut() = self.program[..length].to_vec();
            }
        }
    }

    fn poke(&mut self, offset: i64, byte: u8) {
        let Ok(offset) = usize::try_from(offset) else {
            return;
        };
        if let Some(place) = self.machine.program_mut().get_mut(offset) {
            *place = byte;
            self.program[offset] = byte;
        }
    }

    /// What a call answers and leaves, in words.
    fn call(&mut self, call: Call) -> Result<String, LoadError> {
        let stateless = matches!(call, Call::Load(_) | Call::Sentence(_) | Call::LoadFile(..));
        if !self.machine.loaded() && !stateless {
            return Ok("no state".to_string());
        }
        let answer = operate(&mut self.machine, &mut self.last, call)?;
        Ok(format!("{answer} | {}", self.state()))
    }

    /// Position, function, depth, saved and the four digests.
    fn state(&self) -> String {
        let machine = &self.machine;
        let first = if machine.loaded() {
            let frames = machine.frames().iter();
            let text: String = frames
                .map(|frame| format!("{},{};", frame.instr_id, frame.func_id))
                .collect();
            format!(
                "{} {} {} {} {}",
                machine.position(),
                machine.function(),
                machine.depth(),
                machine.saved_count(),
                digest(text.bytes())
            )
        } else {
            "-".to_string()
        };
        format!(
            "{first} {} {} {}",
            digest_of(machine.cells()),
            digest_of(machine.saved()),
            digest_of(machine.entities())
        )
    }
}

/// One of the machine's own operations, and its answer in words. A load that isn't refused and yet not accepted is an
/// error: no list of calls has an answer for it.
fn operate(machine: &mut Machine, last: &mut Run, call: Call) -> Result<String, LoadError> {
    let accepted = |answer: Result<(), Refusal>| match answer {
        Ok(()) => "ok 0".to_string(),
        Err(refusal) => refused(refusal),
    };
    Ok(match call {
        Call::Load(settings) => match machine.load_with(settings) {
            Ok(()) => "ok".to_string(),
            Err(LoadError::Refused(refusal)) => refused(refusal),
            Err(error) => return Err(error),
        },
        Call::Enter(function) => accepted(machine.enter(function)),
        Call::Carry => accepted(machine.carry_on()),
        Call::Abandon(depth) => accepted(machine.abandon(depth)),
        Call::Write(address, value) => accepted(machine.write(address, value)),
        Call::Pairs(numbers) => accepted(machine.write_numbers(&numbers)),
        Call::Read(address) => match machine.read(address) {
            Ok(value) => format!("ok {value}"),
            Err(refusal) => refused(refusal),
        },
        Call::Image(length) => written(length, |output| machine.write_image(output)),
        Call::Sentence(length) => written(length, |display| last.write_sentence(display)),
        Call::LoadFile(seed, n, length) => {
            written(length, |output| write_load_file(seed, n, output))
        }
        Call::Statement => match machine.statement() {
            Outcome::Completed => "completed 0".to_string(),
            Outcome::Refused(refusal) => refused(refusal),
            Outcome::HandedOver(handover) => handed_over(handover),
        },
        Call::Run(engine, target, limit) => {
            let run = run_by(engine, machine, target, limit);
            *last = run;
            let word = match run.outcome {
                RunOutcome::Ended => "ended 0".to_string(),
                RunOutcome::Spent => "spent 0".to_string(),
                RunOutcome::Refused(refusal) => refused(refusal),
                RunOutcome::HandedOver(handover) => handed_over(handover),
            };
            format!("{word} {}", run.count)
        }
    })
}

/// A run of one of the engines. The second's statements are unpacked just before, into zeros; where that is refused, the zeros stay, and the
/// run is refused as well.
fn run_by(engine: Engine, machine: &mut Machine, target: i64, limit: i64) -> Run {
    if engine == Engine::Second {
        machine.unpack().ok();
    }
    machine.set_engine(engine);
    machine.run(target, limit)
}

/// What is written into a fresh buffer: its length, and the digest of the whole buffer.
fn written(length: u32, write: impl FnOnce(&mut [u8]) -> Result<usize, Refusal>) -> String {
    let mut buffer = vec![OUTPUT; length as usize];
    let answer = match write(&mut buffer) {
        Ok(written) => format!("ok {written}"),
        Err(refusal) => refused(refusal),
    };
    format!("{answer} {}", digest(buffer.into_iter()))
}

fn refused(refusal: Refusal) -> String {
    format!("refused {}", refusal.number())
}

fn handed_over(handover: Handover) -> String {
    match handover {
        Handover::Builtin(number) => format!("builtin {number}"),
        Handover::Opcode(number) => format!("opcode {number}"),
    }
}

/// FNV-1a of 64 bits, in 16 hexadecimal digits.
fn digest(bytes: impl Iterator<Item = u8>) -> String {
    let digest = bytes.fold(14_695_981_039_346_656_037_u64, |digest, byte| {
        (digest ^ u64::from(byte)).wrapping_mul(1_099_511_628_211)
    });
    format!("{digest:016x}")
}

fn digest_of(numbers: &[u32]) -> String {
    digest(numbers.iter().flat_map(|number| number.to_le_bytes()))
}

/// What a line says, or nothing where it is no call.
fn parse(line: &str) -> Option<Line> {
    let words: Vec<&str> = line.split_whitespace().collect();
    let change = match words[..] {
        ["lend", cells, saved, entity_cells] => Change::Lend(
            cells.parse().ok()?,
            saved.parse().ok()?,
            entity_cells.parse().ok()?,
        ),
        ["poke", offset, byte] => Change::Poke(number(offset)?, low_bits(byte)? as u8),
        ["file", length] => Change::File(number(length)?.try_into().ok()?),
        _ => return parse_call(&words).map(Line::Call),
    };
    Some(Line::Change(change))
}

fn parse_call(words: &[&str]) -> Option<Call> {
    if let ["pairs", numbers @ ..] = words {
        return pairs(numbers).map(Call::Pairs);
    }
    Some(match *words {
        ["load", entities] => Call::Load(Settings {
            entities: number(entities)?,
            ..Settings::default()
        }),
        ["load", entities, check_number, depth, saved, limit] => Call::Load(Settings {
            entities: number(entities)?,
            check_number: number(check_number)?,
            depth: number(depth)?,
            saved: number(saved)?,
            limit: number(limit)?,
        }),
        ["enter", function] => Call::Enter(number(function)?),
        ["statement"] => Call::Statement,
        ["run", target, limit] => Call::Run(Engine::First, number(target)?, number(limit)?),
        ["run2", target, limit] => Call::Run(Engine::Second, number(target)?, number(limit)?),
        ["carry"] => Call::Carry,
        ["abandon", depth] => Call::Abandon(number(depth)?),
        ["read", address] => Call::Read(number(address)?),
        ["write", address, value] => Call::Write(number(address)?, low_bits(value)?),
        ["image", length] => Call::Image(length.parse().ok()?),
        ["sentence", length] => Call::Sentence(length.parse().ok()?),
        ["loadfile", seed, n, length] => {
            Call::LoadFile(seed.parse().ok()?, number(n)?, length.parse().ok()?)
        }
        _ => return None,
    })
}

/// An address and a value in turn, the value as that of a `write`. Any number of words is a call: the machine refuses what
/// isn't paired.
fn pairs(words: &[&str]) -> Option<Vec<i64>> {
    let numbers = words.iter().enumerate().map(|(i, word)| {
        if i % 2 == 0 {
            number(word)
        } else {
            low_bits(word).map(i64::from)
        }
    });
    numbers.collect()
}

/// A signed number. One that 64 bits can't hold is outside every range, and so is the nearest one that they can.
fn number(word: &str) -> Option<i64> {
    word.parse()
        .or_else(|error: ParseIntError| match error.kind() {
            IntErrorKind::PosOverflow => Ok(i64::MAX),
            IntErrorKind::NegOverflow => Ok(i64::MIN),
            _ => Err(error),
        })
        .ok()
}

/// A number modulo 2^32.
fn low_bits(word: &str) -> Option<u32> {
    let number: i128 = word.parse().ok()?;
    Some(number as u32)
}

/// A line that is none. Of a load it says what may be left out, since that is either all four settings or none.
fn no_call(number: usize, line: &str) -> io::Error {
    let mut message = format!("line {number} is no call: {line}");
    if line.split_whitespace().next() == Some("load") {
        message += " (a load takes a number E, or five: E CHECK DEPTH SAVED LIMIT)";
    }
    io::Error::new(io::ErrorKind::InvalidData, message)
}

/// Performs all calls of the input; an error names the line that is none. Empty lines and lines that begin with `#`
/// are passed over.
pub fn replay(program: Vec<u8>, input: impl BufRead, mut output: impl Write) -> io::Result<()> {
    let mut replay = Replay::new(program);
    for (number, line) in input.lines().enumerate() {
        let line = line?;
        let line = line.trim();
        if line.is_empty() || line.starts_with('#') {
            continue;
        }
        match parse(line) {
            Some(Line::Change(change)) => replay.change(change),
            Some(Line::Call(call)) => {
                let answer = replay.call(call).map_err(io::Error::other)?;
                writeln!(output, "{line} => {answer}")?;
            }
            None => return Err(no_call(number + 1, line)),
        }
    }
    output.flush()
}

fn replay_file(path: OsString) -> io::Result<()> {
    let program = fs::read(path)?;
    replay(program, io::stdin().lock(), BufWriter::new(io::stdout()))
}

fn main() -> ExitCode {
    let Some(path) = env::args_os().nth(1) else {
        eprintln!("usage: replay PROGRAM < CALLS");
        return ExitCode::from(2);
    };
    match replay_file(path) {
        Ok(()) => ExitCode::SUCCESS,
        Err(error) => {
            eprintln!("replay: {error}");
            ExitCode::FAILURE
        }
    }
}

//! What `bench/run` measures of this crate: `bench WHAT PROGRAM TIMES [ENTITIES]` does one thing so many times on a program
//! file, loaded with so many entities of zeros (none if not said), and prints what was answered.
//!
//! | what | does | prints |
//! |---|---|---|
//! | `run` | a call of function 1, once, by the second engine | the line of the show program |
//! | `first_run` | the same by the first engine | the same |
//! | `call` | a call of function 1; the builtin that it calls answers 1.0 | all statements |
//! | `read` | a raw read of cell 28 | the sum |
//! | `write` | a raw write of cell 28 | what stands there |
//! | `field` | a read of `frags` of entity 1, by its definition; it is 1.0 | the sum |
//! | `set_field` | a write of it | what stands there |
//! | `named_field` | a read of it by its name | the sum |
//! | `image` | the program file written to a buffer, the same each time | the sum of the lengths |
//! | `make` | the load file of [`SEED`] with 1,000 drawn statements written to a buffer, the same each time | the sum of the lengths |
//! | `load` | a load without entities, and a call of function 1 | all statements |
//! | `unpack` | the statements unpacked again | how many times |

use std::env;
use std::error::Error;
use std::fs;
use std::hint::black_box;
use std::process::ExitCode;

use host::{
    write_load_file, Engine, Machine, Program, Settings, CELLS, GREATEST_LIMIT, IMAGE, LOAD_FILE,
    SAVED_STORE,
};

const FUNCTION: i64 = 1;
const CELL: i64 = 28;
const PLAYER: i64 = 1;
const FRAGS: &str = "frags";

/// Of the load file that is made.
const SEED: u32 = 2_463_534_242;
const MOST_DRAWN: i64 = 1_000;

fn run(machine: &mut Machine) -> Result<String, Box<dyn Error>> {
    let count = machine.call(FUNCTION, GREATEST_LIMIT, |_, _| Err("no builtins here"))?;
    let cells = [1, 2, 3].map(|cell| format!("{:08x}", machine.cells()[cell]));
    Ok(format!(
        "ended,0,{count},{},{},{},{},{}",
        machine.position(),
        machine.function(),
        machine.depth(),
        machine.saved_count(),
        cells.join(",")
    ))
}

/// A call whose builtins answer 1.0, and how many statements it took.
fn call(machine: &mut Machine) -> Result<u32, Box<dyn Error>> {
    Ok(machine.call(FUNCTION, GREATEST_LIMIT, |_, machine| {
        machine.write_float(1, 1.0)
    })?)
}

/// Reads or writes of a field, and what the last column says.
fn fields(what: &str, machine: &mut Machine, times: u32) -> Result<f32, Box<dyn Error>> {
    let frags = machine.find_field_by_name(FRAGS).ok_or("no frags")?;
    machine.field_mut_of(PLAYER, frags)?.set_float(1.0)?;
    let mut total = 0.0;
    for turn in 0..times {
        let player = black_box(PLAYER);
        match what {
            "field" => total += machine.field_of(player, frags)?.float()?,
            "named_field" => total += machine.field(player, FRAGS)?.float()?,
            _ => {
                machine
                    .field_mut_of(player, frags)?
                    .set_float(turn as f32)?;
                total = turn as f32;
            }
        }
    }
    Ok(total)
}

fn measured(what: &str, machine: &mut Machine, times: u32) -> Result<String, Box<dyn Error>> {
    let mut total: u64 = 0;
    match what {
        "run" => return run(machine),
        "first_run" => {
            machine.set_engine(Engine::First);
            return run(machine);
        }
        "call" => {
            for _ in 0..times {
                total += u64::from(call(machine)?);
            }
        }
        "read" => {
            for _ in 0..times {
                total += u64::from(machine.read(black_box(CELL))?);
            }
        }
        "write" => {
            for value in 0..times {
                machine.write(black_box(CELL), value)?;
            }
            total = machine.read(CELL)?.into();
        }
        "image" => {
            let mut output = vec![0; IMAGE];
            for _ in 0..times {
                total += machine.write_image(black_box(&mut output))? as u64;
            }
        }
        "make" => {
            let mut output = vec![0; LOAD_FILE];
            for _ in 0..times {
                total += write_load_file(SEED, MOST_DRAWN, black_box(&mut output))? as u64;
            }
        }
        "load" => {
            for _ in 0..times {
                machine.load()?;
                total += u64::from(call(machine)?);
            }
        }
        "unpack" => {
            for _ in 0..times {
                black_box(&mut *machine).unpack()?;
                total += 1;
            }
        }
        "field" | "set_field" | "named_field" => {
            return Ok(fields(what, machine, times)?.to_string())
        }
        _ => return Err(format!("nothing is called {what}").into()),
    }
    Ok(total.to_string())
}

fn bench(words: &[String]) -> Result<String, Box<dyn Error>> {
    let (what, program, times, entities) = match words {
        [what, program, times] => (what, program, times, 0),
        [what, program, times, entities] => (what, program, times, entities.parse()?),
        _ => return Err("usage: bench WHAT PROGRAM TIMES [ENTITIES]".into()),
    };
    let program = fs::read(program)?;
    let entity_cells = vec![0; usize::try_from(entities)? * Program::new(&program).entity_cells()];
    let mut machine =
        Machine::with_entities(program, vec![0; CELLS], vec![0; SAVED_STORE], entity_cells);
    machine.load_with(Settings {
        entities,
        ..Settings::default()
    })?;
    measured(what, &mut machine, times.parse()?)
}

fn main() -> ExitCode {
    let words: Vec<String> = env::args().skip(1).collect();
    match bench(&words) {
        Ok(answer) => {
            println!("{answer}");
            ExitCode::SUCCESS
        }
        Err(error) => {
            eprintln!("bench: {error}");
            ExitCode::FAILURE
        }
    }
}

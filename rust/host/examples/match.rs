//! A match on the proved machine, from the load to the scoreboard. The rules are a program file; the players are entities,
//! whose fields the rules and the host both read and set; the world and the builtins are this host's.

use std::error::Error;
use std::process::ExitCode;

use host::assemble::{statement, Assembly, Function};
use host::{Caller, Definition, Handover, Machine, Program, Refusal, Settings, CELLS, SAVED_STORE};

/// Types of definitions.
const STRING: u16 = 1;
const FLOAT: u16 = 2;
const ENTITY: u16 = 4;
const FIELD: u16 = 5;
const FUNCTION: u16 = 6;

/// The venue's greatest run limit: the most statements that one call may take.
const LIMIT: i64 = 10_000;

/// The match: how many rounds it has, how many points end it before, and where it is played.
const ROUNDS: f32 = 10.0;
const FRAGS: f32 = 20.0;
const MAP: &str = "dm3";

/// Names of the players, and the sides that they play for: red counts for, blue against.
const PLAYERS: [(&str, f32); 4] = [("Ann", 1.0), ("Bert", -1.0), ("Cem", 1.0), ("Dora", -1.0)];

fn statements() -> Vec<[i16; 4]> {
    vec![
        statement("Done", 0, 0, 0),
        // PlayerPreThink: if (random() < 0.5) { self.frags = self.frags + 1; bprint(self.netname); bprint(message); }
        statement("Call0", 40, 0, 0),
        statement("Lt", 1, 43, 50),
        statement("IfNot", 50, 9, 0),
        statement("LoadF", 28, 30, 51),
        statement("AddF", 51, 44, 51),
        statement("Address", 28, 30, 52),
        statement("StorePF", 51, 52, 0),
        statement("LoadS", 28, 31, 4),
        statement("Call1", 41, 0, 0),
        statement("StoreS", 42, 4, 0),
        statement("Call1", 41, 0, 0),
        statement("Done", 0, 0, 0),
        // BrokenRule adds a text to a number
        statement("AddF", 51, 42, 51),
        statement("Done", 0, 0, 0),
        // EndMatch(first): for (; first; first = first.chain) ahead = ahead + first.frags * first.team; return ahead;
        statement("StoreF", 0, 54, 0),
        statement("LoadF", 53, 30, 55),
        statement("LoadF", 53, 32, 56),
        statement("MulF", 55, 56, 55),
        statement("AddF", 54, 55, 54),
        statement("LoadEnt", 53, 33, 53),
        statement("NotEnt", 53, 0, 57),
        statement("IfNot", 57, -6, 0),
        statement("Return", 54, 0, 0),
    ]
}

fn functions(rules: &mut Assembly) -> Vec<Function> {
    let mut named = |name: &str, first, local, locals| Function {
        first,
        local,
        locals,
        name: rules.text(name),
        ..Function::default()
    };
    let builtin = |function: Function| Function {
        arguments: -1,
        ..function
    };
    vec![
        Function::default(),
        builtin(named("random", -7, 0, 0)),
        builtin(named("bprint", -23, 0, 0)),
        named("PlayerPreThink", 1, 50, 3),
        named("BrokenRule", 13, 0, 0),
        Function {
            arguments: 1,
            sizes: [1, 0, 0, 0, 0, 0, 0, 0],
            ..named("EndMatch", 15, 53, 5)
        },
    ]
}

/// The rules: `PlayerPreThink` throws a coin for a point of the player `self`, `EndMatch` returns by how much red is ahead.
fn rules() -> Vec<u8> {
    let mut rules = Assembly {
        statements: statements(),
        ..Assembly::default()
    };
    rules.functions = functions(&mut rules);
    // The fields' cells hold the fields' places in an entity, as version 6 has them.
    let fields = [
        (FLOAT, 49, "frags", 30),
        (STRING, 74, "netname", 31),
        (FLOAT, 78, "team", 32),
        (ENTITY, 60, "chain", 33),
    ];
    for (kind, place, name, cell) in fields {
        let name = rules.text(name);
        rules.fields.push((kind, place, name));
        rules.definitions.push((FIELD, cell, name));
        rules.cells.push((cell.into(), place.into()));
    }
    for (name, _) in PLAYERS {
        rules.text(name);
    }
    rules.text(MAP);
    let mut define = |kind, cell: u16, name: &str, content| {
        let name = rules.text(name);
        rules.definitions.push((kind, cell, name));
        rules.cells.push((cell.into(), content));
    };
    define(ENTITY, 28, "self", 0);
    define(FLOAT, 34, "timelimit", 0);
    define(FLOAT, 35, "fraglimit", 0);
    define(STRING, 36, "mapname", 0);
    define(FUNCTION, 40, "random", 1);
    define(FUNCTION, 41, "bprint", 2);
    define(FLOAT, 43, "half", 0.5_f32.to_bits());
    define(FLOAT, 44, "one", 1.0_f32.to_bits());
    let point = rules.text(" scores\n");
    let message = rules.text("message");
    rules.definitions.push((STRING, 42, message));
    rules.cells.push((42, point as u32));
    rules.bytes()
}

/// The host's world: here only its chance numbers.
struct World {
    seed: u32,
}

impl World {
    fn random(&mut self) -> f32 {
        self.seed = self
            .seed
            .wrapping_mul(1_664_525)
            .wrapping_add(1_013_904_223);
        (self.seed >> 8) as f32 / 16_777_216.0
    }

    /// Carries out what the machine hands over: arguments are in the cells from 4 on, results go to cell 1.
    fn answer(&mut self, handover: Handover, machine: &mut Caller<'_>) -> Result<(), String> {
        let done = match handover {
            Handover::Builtin(7) => machine.write_float(1, self.random()),
            Handover::Builtin(23) => machine.read(4).map(|number| {
                let text = machine.text(number.into()).unwrap_or_default();
                print!("{}", String::from_utf8_lossy(text));
            }),
            other => return Err(format!("this host has no {other:?}")),
        };
        done.map_err(|refusal: Refusal| refusal.to_string())
    }
}

/// Calls a function of the rules. One that goes wrong is reported, and the match goes on.
fn call(machine: &mut Machine, world: &mut World, name: &str) -> bool {
    let Some(function) = machine.find_function_by_name(name) else {
        println!("the rules have no {name}");
        return false;
    };
    let called = machine.call(function, machine.settings().limit, |handover, machine| {
        world.answer(handover, machine)
    });
    if let Err(error) = &called {
        println!("{name}: {error}");
    }
    called.is_ok()
}

/// The cell of a definition of the rules.
fn cell(machine: &Machine, name: &str) -> Result<i64, String> {
    let definition = machine.find_definition_by_name(name);
    definition
        .map(|definition| definition.cell.into())
        .ok_or(format!("the rules have no {name}"))
}

/// Sets time limit, frag limit and map in one operation: where one of them is refused, no half of a setting stands.
fn settle(machine: &mut Machine) -> Result<(), Box<dyn Error>> {
    let map = machine
        .find_text(MAP)
        .ok_or("the rules don't know the map")?;
    let settings = [
        (cell(machine, "timelimit")?, ROUNDS.to_bits()),
        (cell(machine, "fraglimit")?, FRAGS.to_bits()),
        (cell(machine, "mapname")?, map.try_into()?),
    ];
    Ok(machine.write_all(&settings)?)
}

/// A loaded machine with the players as entities 1 and on; entity 0 is the world.
fn kick_off() -> Result<Machine, Box<dyn Error>> {
    let program = rules();
    let entities = PLAYERS.len() + 1;
    let entity_cells = vec![0; entities * Program::new(&program).entity_cells()];
    let mut machine =
        Machine::with_entities(program, vec![0; CELLS], vec![0; SAVED_STORE], entity_cells);
    let settings = Settings::default().with_limit(LIMIT)?;
    machine.load_with(settings.with_entities(entities as i64)?)?;
    for (player, (name, team)) in (1..).zip(PLAYERS) {
        let netname = machine.find_text(name).ok_or("a player without a name")?;
        machine.field_mut(player, "netname")?.set_text(netname)?;
        machine.field_mut(player, "team")?.set_float(team)?;
        // The last one's chain names entity 0, which ends it.
        let next = (player + 1) % entities as i64;
        machine.field_mut(player, "chain")?.set_entity(next)?;
    }
    settle(&mut machine)?;
    Ok(machine)
}

/// Whether a player has as many points as end the match.
fn decided(machine: &Machine) -> Result<bool, Box<dyn Error>> {
    let most = machine.read_float(cell(machine, "fraglimit")?)?;
    for player in 1..machine.entity_count() as i64 {
        if most <= machine.field(player, "frags")?.float()? {
            return Ok(true);
        }
    }
    Ok(false)
}

/// Prints each player's points.
fn scoreboard(machine: &Machine) -> Result<(), Box<dyn Error>> {
    let frags: Definition = machine.find_field_by_name("frags").ok_or("no frags")?;
    for player in 1..machine.entity_count() as i64 {
        let name = machine.field(player, "netname")?.text()?;
        let name = String::from_utf8_lossy(machine.text(name).unwrap_or_default());
        println!("{name} {}", machine.field_of(player, frags)?.float()?);
    }
    Ok(())
}

/// By how much red is ahead at the end.
pub fn play() -> Result<f32, Box<dyn Error>> {
    let mut machine = kick_off()?;
    let mut world = World { seed: 3 };
    let current = cell(&machine, "self")?;
    let mut rounds = machine.read_float(cell(&machine, "timelimit")?)?;
    while 0.0 < rounds && !decided(&machine)? {
        for player in 1..machine.entity_count() as u32 {
            machine.write(current, player)?;
            call(&mut machine, &mut world, "PlayerPreThink");
        }
        call(&mut machine, &mut world, "BrokenRule");
        rounds -= 1.0;
    }
    scoreboard(&machine)?;
    // The first argument is in cell 4: the first player.
    machine.write(4, 1)?;
    if !call(&mut machine, &mut world, "EndMatch") {
        return Err("the match has no result".into());
    }
    Ok(machine.read_float(1)?)
}

fn main() -> ExitCode {
    match play() {
        Ok(ahead) => {
            println!("red is ahead by {ahead}");
            ExitCode::SUCCESS
        }
        Err(error) => {
            eprintln!("match: {error}");
            ExitCode::FAILURE
        }
    }
}

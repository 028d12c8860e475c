//! `oracle_run PROGRAM FUNCTION [ENTITIES]`: loads the file, runs the function by richter's `execute_program` to its end, with so many
//! entities of zeros (0 if not said), and prints `ended`, or `error` and the text. `oracle_run --count ..` prints `ended` and the number of
//! statements. Counting goes through the log and costs many times the statement, so instructions are to be counted without it. A panic
//! ends the process as it would a server.

use richter::server::{
    progs::{load, FunctionId},
    LevelState,
};
use richter::{count, SERVER_SOURCE};
use std::io::Cursor;

fn run(path: &str, function: usize, entities: usize) -> Result<(), String> {
    let bytes = std::fs::read(path).map_err(|e| e.to_string())?;
    let progs = load(Cursor::new(bytes)).map_err(|e| e.to_string())?;
    let mut level = LevelState::new(progs, entities);
    (level.execute_program(FunctionId(function))).map_err(|e| e.to_string())
}

fn main() {
    let mut arguments: Vec<String> = std::env::args().skip(1).collect();
    let counted = arguments.first().map(String::as_str) == Some("--count");
    if counted {
        arguments.remove(0);
        count::install(&[("richter::server", SERVER_SOURCE)]);
        count::start(true);
    }
    let function = arguments.get(1).and_then(|f| f.parse().ok());
    let entities = arguments.get(2).and_then(|n| n.parse().ok()).unwrap_or(0);
    let (path, function) = match (arguments.first(), function) {
        (Some(path), Some(function)) => (path, function),
        _ => {
            eprintln!("oracle_run [--count] PROGRAM FUNCTION [ENTITIES]");
            std::process::exit(2)
        }
    };
    match run(path, function, entities) {
        Ok(()) if counted => println!("ended {}", count::fetched()),
        Ok(()) => println!("ended"),
        Err(text) => {
            println!("error {}", text);
            std::process::exit(1)
        }
    }
}

//! Compares the proved machine with richter's program machine. See ../README.md.

mod alone;
mod altered;
mod classes;
mod compare;
mod entities;
mod facts;
mod generate;
mod oracle;
mod ours;
mod program;
mod programs;
mod random;
mod report;
mod runs;
mod sample;
mod story;
mod strings;

/// Decides all random programs.
const SEED: u64 = 0x746f_7368_7765_6761;

const USAGE: &str = "differential programs COUNT [FIRST] | functions COUNT | altered COUNT | story | facts | load FILE | sample FILE | show NUMBER | folder FOLDER | cases FILE | file FILE FUNCTION..";

fn number(arguments: &[String], index: usize) -> Option<u64> {
    arguments.get(index).and_then(|text| text.parse().ok())
}

fn main() {
    oracle::install();
    let arguments: Vec<String> = std::env::args().skip(1).collect();
    let word = arguments.first().map(String::as_str).unwrap_or("");
    let good = match (word, number(&arguments, 1)) {
        ("programs", Some(count)) => programs::run(SEED, number(&arguments, 2).unwrap_or(0), count),
        ("functions", Some(count)) => alone::run(SEED, count),
        ("altered", Some(count)) => altered::run(SEED, count),
        ("story", _) => story::run(),
        ("facts", _) => facts::run(),
        ("load", _) if arguments.len() == 2 => facts::load(&arguments[1]),
        ("sample", _) if arguments.len() == 2 => sample::write(SEED, &arguments[1]),
        ("show", Some(number)) => programs::show(&generate::case(SEED, number)),
        ("folder", _) if arguments.len() == 2 => programs::run_folder(&arguments[1]),
        ("cases", _) if arguments.len() == 2 => programs::run_cases(&arguments[1]),
        ("file", _) if arguments.len() > 2 => programs::show_file(&arguments[1], &arguments[2..]),
        _ => {
            eprintln!("{}", USAGE);
            std::process::exit(2)
        }
    };
    std::process::exit(!good as i32)
}

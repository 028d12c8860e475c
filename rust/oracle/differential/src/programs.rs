//! Whole programs: load, then the functions that the host enters, by `execute_program`.

use crate::classes::Class;
use crate::compare::Verdict;
use crate::generate::{self, Case, KINDS};
use crate::ours::Answer;
use crate::program::{without_void_globals, Lump, View};
use crate::report::{grouped, Counts, Tally};
use crate::runs::{self, Performed, Verdicts};

#[derive(Default)]
struct Totals {
    kinds: [u64; KINDS.len()],
    reserves: u64,
    /// Programs by what came of them with the unchanged Rust, the changed one, and either.
    programs: [Counts; 3],
    unchanged: Tally,
    changed: Tally,
    statements: u64,
    /// Programs that only the changed Rust covers.
    covered_by_changed: Counts,
    copies_compared: u64,
}

/// Whether nothing was unexplained.
pub fn run(seed: u64, first: u64, count: u64) -> bool {
    let mut totals = Totals::default();
    for number in first..first + count {
        let case = generate::case(seed, number);
        totals.kinds[case.kind as usize] += 1;
        let performed = runs::perform(&case);
        if runs::reserves_too_much(&case.bytes) {
            totals.reserves += 1;
            if !matches!(performed.load, Err(1..=4)) {
                totals.unchanged.unexplained += 1;
                unexplained(number, "whole", "more records than a file can have", &case);
            }
            continue;
        }
        one(&mut totals, number, &case, &performed);
    }
    print(&totals, count);
    totals.unchanged.unexplained + totals.changed.unexplained == 0
}

fn one(totals: &mut Totals, number: u64, case: &Case, performed: &Performed) {
    let unchanged = runs::unchanged(case, performed);
    let changed = runs::changed(case, performed);
    summarise(totals, &unchanged, &changed, performed);
    add(&mut totals.changed, &changed, performed);
    if let Some(text) = difference(&changed) {
        unexplained(number, "changed", text, case);
    }
    if let Some(text) = difference(&unchanged) {
        explain(totals, number, text, case, performed, &changed);
        let equal = &unchanged[..unchanged.len() - 1];
        add(&mut totals.unchanged, equal, performed);
    } else {
        add(&mut totals.unchanged, &unchanged, performed);
    }
    if number.is_multiple_of(8) {
        totals.copies_compared += 1;
        if !runs::copy_is_faithful(case, performed, &unchanged) {
            totals.changed.unexplained += 1;
            unexplained(number, "copy", "the changed Rust with all switches off differs from the unchanged", case);
        }
    }
}

/// What came of a program: of the last of its load and calls that was compared.
fn outcome(verdicts: &Verdicts) -> &'static str {
    match verdicts.last() {
        Some(Verdict::Same { .. }) => "compared in full, equal",
        Some(Verdict::OtherNumber(..)) => "compared in full, refused by both by another number",
        Some(Verdict::LeftOut(Class::HandedOver)) => "left out: handed over to the host",
        Some(Verdict::LeftOut(Class::Runaway)) => "left out: the Rust panics at the 100,000th statement; up to there compared, equal",
        Some(Verdict::LeftOut(_)) => "left out: the Rust panics",
        Some(Verdict::VoidGlobals) => "left out: void global definitions; the load compared, equal",
        Some(Verdict::Outside(_)) => "left out: outside R-4's limit; up to there compared, equal",
        Some(Verdict::ByDesign(_)) => "differs by design",
        Some(Verdict::Differs(_)) | None => "differs, see below",
    }
}

fn summarise(totals: &mut Totals, unchanged: &Verdicts, changed: &Verdicts, performed: &Performed) {
    let (first, second) = (outcome(unchanged), outcome(changed));
    let compared = |outcome: &str| outcome.starts_with("compared");
    totals.programs[0].add(first);
    totals.programs[1].add(second);
    totals.programs[2].add(match (compared(first), compared(second)) {
        (true, _) => first,
        (false, true) => "compared in full with the changed Rust alone, equal",
        (false, false) => second,
    });
    if compared(first) || compared(second) {
        totals.statements += performed.calls.iter().map(|left| left.count).sum::<u64>();
    }
}

fn difference(verdicts: &[Verdict]) -> Option<&str> {
    match verdicts.last() {
        Some(Verdict::Differs(text)) => Some(text),
        _ => None,
    }
}

/// Puts a difference of the unchanged Rust to the named ones, by the changed Rust.
fn explain(totals: &mut Totals, number: u64, text: &str, case: &Case, performed: &Performed, changed: &Verdicts) {
    let causes = match difference(changed) {
        Some(_) => None,
        None => runs::causes(case, performed, changed),
    };
    let Some(causes) = causes else {
        totals.unchanged.unexplained += 1;
        unexplained(number, "unchanged", text, case);
        return;
    };
    totals.unchanged.named.add(causes);
    let covered = match changed.last() {
        Some(Verdict::Same { .. }) => "compared with the changed Rust, equal",
        _ => "left out or by design with the changed Rust",
    };
    totals.covered_by_changed.add(covered);
}

/// What this machine answered in each of load and calls.
fn answer(performed: &Performed, index: usize) -> Answer {
    match (&performed.load, index) {
        (Err(number), _) => Answer::Refused(*number),
        (Ok(_), 0) => Answer::Completed,
        (Ok(_), i) => performed.calls[i - 1].answer,
    }
}

fn add(tally: &mut Tally, verdicts: &[Verdict], performed: &Performed) {
    for (i, verdict) in verdicts.iter().enumerate() {
        let what = if i == 0 { "load " } else { "run " };
        tally.add(verdict, answer(performed, i), what);
    }
}

/// Prints the case, writes it out, and writes a smaller one that still differs.
fn unexplained(number: u64, which: &str, text: &str, case: &Case) {
    println!("UNEXPLAINED program {} ({:?}, {}): {}", number, case.kind, which, text);
    let folder = std::env::temp_dir().join("differential");
    let _ = std::fs::create_dir_all(&folder);
    let smaller = shrink(case);
    for (name, bytes) in [("whole", &case.bytes), ("smaller", &smaller)] {
        let path = folder.join(format!("{}-{}-{}.dat", number, which, name));
        if std::fs::write(&path, bytes).is_ok() {
            println!("  {} ({} bytes), calls {:?}", path.display(), bytes.len(), case.calls);
        }
    }
}

/// Sets parts to zero while something unexplained stays.
fn shrink(case: &Case) -> Vec<u8> {
    let mut smaller = case.bytes.clone();
    for size in [36, 8, 4] {
        for at in (60..smaller.len()).step_by(size) {
            let mut tried = smaller.clone();
            let end = (at + size).min(tried.len());
            tried[at..end].fill(0);
            let case = Case { bytes: tried, calls: case.calls.clone(), ..*case };
            if smaller != case.bytes && is_unexplained(&case) {
                smaller = case.bytes;
            }
        }
    }
    smaller
}

fn is_unexplained(case: &Case) -> bool {
    if runs::reserves_too_much(&case.bytes) {
        return false;
    }
    let performed = runs::perform(case);
    let changed = runs::changed(case, &performed);
    let unchanged = runs::unchanged(case, &performed);
    difference(&changed).is_some() || (difference(&unchanged).is_some() && runs::causes(case, &performed, &changed).is_none())
}

fn print(totals: &Totals, count: u64) {
    println!("{} programs", grouped(count));
    for (kind, count) in KINDS.iter().zip(totals.kinds) {
        println!("  {:>9}  {:?}", grouped(count), kind);
    }
    println!(
        "  {} left out whole: the Rust would reserve memory for over 1,048,576 records; here load refused 1 to 4",
        grouped(totals.reserves)
    );
    print_totals(totals);
}

fn print_totals(totals: &Totals) {
    let [unchanged, changed, either] = &totals.programs;
    unchanged.print("programs and richter unchanged:");
    changed.print("programs and richter changed:");
    either.print("programs and either:");
    println!("    {} statements completed in the programs compared in full", grouped(totals.statements));
    println!("    of the runs by richter changed:");
    for (count, what) in runs::tallies() {
        println!("      {:>9}  {}", grouped(count), what);
    }
    totals.unchanged.print("loads and runs, richter unchanged");
    totals.covered_by_changed.print("programs with such a difference, and the changed Rust:");
    totals.changed.print("loads and runs, richter with the named differences changed, NaN canonical");
    println!(
        "  {} programs also through the changed copy with all changes off: same verdicts as unchanged",
        grouped(totals.copies_compared)
    );
    let unexplained = totals.unchanged.unexplained + totals.changed.unexplained;
    println!("  unexplained {}", grouped(unexplained));
}

/// Everything about one program. Whether nothing is unexplained.
pub fn show(case: &Case) -> bool {
    let performed = runs::perform(case);
    println!("{} bytes, calls {:?}, {} entities", case.bytes.len(), case.calls, performed.lent.number);
    if let Err(number) = performed.load {
        println!("here load refused {}", number);
    }
    for left in &performed.calls {
        println!(
            "here {} after {}, position {}, function {}, depth {}, saved {}, cells 1 to 3 {:08x?}",
            left.answer,
            left.count,
            left.position,
            left.function,
            left.depth,
            left.saved.len(),
            &left.cells[1..4]
        );
    }
    let (unchanged, changed) = (runs::unchanged(case, &performed), runs::changed(case, &performed));
    println!("richter unchanged: {:?}", unchanged);
    println!("richter changed: {:?}", changed);
    println!("named differences that play a part: {:?}", runs::causes(case, &performed, &changed));
    !is_unexplained(case)
}

/// How many entities the rule files of a folder get.
const PLAYERS: usize = 33;

/// Every function of every program file in a folder, entered by the host right after the load. The compiler writes void definitions, which
/// R-5 keeps the runs from: they are taken out.
pub fn run_folder(folder: &str) -> bool {
    let mut files: Vec<_> = (std::fs::read_dir(folder).into_iter().flatten().flatten())
        .map(|entry| entry.path())
        .filter(|path| path.extension().is_some_and(|e| e == "dat"))
        .collect();
    files.sort();
    let functions = files.iter().flat_map(|path| {
        let bytes = without_void_globals(&std::fs::read(path).unwrap_or_default());
        let functions = View(&bytes).count(Lump::Functions).max(0) as usize;
        (0..functions).map(move |function| (bytes.clone(), function))
    });
    run_files("functions of compiled rule files, their void global definitions taken out", PLAYERS, functions)
}

/// The files of tests/model: `NAME LENGTH HEX LINE`, bytes not given are zeros. The host enters function 1.
pub fn run_cases(path: &str) -> bool {
    let text = std::fs::read_to_string(path).unwrap_or_default();
    let files = text.lines().filter(|line| !line.starts_with('#')).map(|line| {
        let words: Vec<&str> = line.split(' ').collect();
        let hex = words[2].trim_matches('-').as_bytes();
        let digit = |d: u8| (d as char).to_digit(16).expect("a hexadecimal digit") as u8;
        let mut bytes: Vec<u8> = hex.chunks(2).map(|d| 16 * digit(d[0]) + digit(d[1])).collect();
        bytes.resize(words[1].parse().expect("a length"), 0);
        (bytes, 1)
    });
    run_files("files of the model's cases", 0, files)
}

/// Files, each with the function that the host enters, and with so many entities.
fn run_files(what: &str, entities: usize, files: impl Iterator<Item = (Vec<u8>, usize)>) -> bool {
    let mut totals = Totals::default();
    let mut count = 0;
    for (bytes, function) in files {
        let case = Case { kind: generate::Kind::Random, bytes, calls: vec![function], entities, content: count };
        let performed = runs::perform(&case);
        count += 1;
        if runs::reserves_too_much(&case.bytes) {
            totals.reserves += 1;
        } else {
            one(&mut totals, count, &case, &performed);
        }
    }
    println!("{} {}", grouped(count), what);
    println!("  {} left out whole: the Rust would reserve memory for over 1,048,576 records", totals.reserves);
    print_totals(&totals);
    count > 0 && totals.unchanged.unexplained + totals.changed.unexplained == 0
}

/// A file, and the functions that the host enters one after the other.
pub fn show_file(path: &str, functions: &[String]) -> bool {
    let Ok(bytes) = std::fs::read(path) else {
        println!("{} can't be read", path);
        return false;
    };
    let calls = functions.iter().filter_map(|f| f.parse().ok()).collect();
    let kind = generate::Kind::Random;
    show(&Case { kind, bytes, calls, entities: PLAYERS, content: 1 })
}

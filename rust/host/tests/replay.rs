//! The replay example prints what the model of tests/model prints for a fixed list of calls. `tests/run_replay.py --write`
//! makes the three files, and `tests/run_replay.py` replays the model's own lists as well.

#[allow(dead_code)]
#[path = "../examples/replay.rs"]
mod replay;

use host::assemble::{Assembly, Function};

const PROGRAM: &[u8] = include_bytes!("replay/program.dat");
const CALLS: &str = include_str!("replay/calls");
const EXPECTED: &str = include_str!("replay/expected");

fn printed_on(program: &[u8], calls: &str) -> Result<String, String> {
    let mut output = Vec::new();
    replay::replay(program.to_vec(), calls.as_bytes(), &mut output)
        .map_err(|error| error.to_string())?;
    Ok(String::from_utf8(output).unwrap())
}

fn printed(calls: &str) -> Result<String, String> {
    printed_on(PROGRAM, calls)
}

#[test]
fn the_fixed_list() {
    let printed = printed(CALLS).unwrap();
    for (line, expected) in printed.lines().zip(EXPECTED.lines()) {
        assert_eq!(line, expected);
    }
    assert_eq!(printed, EXPECTED);
}

/// Worked out by hand: FNV-1a of nothing is its start, 14695981039346656037.
#[test]
fn before_a_load() {
    for call in ["enter 1", "image 9"] {
        assert_eq!(printed(call).unwrap(), format!("{call} => no state\n"));
    }
    let refused = printed("lend 0 0 0\nload 0\n").unwrap();
    let nothing = "cbf29ce484222325";
    assert_eq!(
        refused,
        format!("load 0 => refused 12 | - {nothing} {nothing} {nothing}\n")
    );
}

/// FNV-1a once more, as the offset basis and the prime give it.
fn fnv(bytes: &[u8]) -> String {
    let mut hash: u64 = 0xcbf2_9ce4_8422_2325;
    for byte in bytes {
        hash = (hash ^ u64::from(*byte)).wrapping_mul(0x0000_0100_0000_01b3);
    }
    format!("{hash:016x}")
}

/// The program is in the form that is written, so that its own bytes stand in the output buffer.
#[test]
fn written_files() {
    let program = Assembly::default().bytes();
    let length = program.len();
    let answer = |count: usize| {
        let printed = printed_on(&program, &format!("load 0\nimage {count}\n")).unwrap();
        let line = printed.lines().last().unwrap().to_string();
        let (answer, _) = line.split_once(" | ").unwrap();
        let (_, answer) = answer.split_once(" => ").unwrap();
        answer.to_string()
    };
    assert_eq!(answer(0), "refused 34 cbf29ce484222325");
    assert_eq!(answer(1), "refused 34 af64634c8602d1f1");
    let short = fnv(&vec![238; length - 1]);
    assert_eq!(answer(length - 1), format!("refused 34 {short}"));
    assert_eq!(answer(length), format!("ok {length} {}", fnv(&program)));
    let long = fnv(&[&program[..], &[238; 3]].concat());
    assert_eq!(answer(length + 3), format!("ok {length} {long}"));
}

/// What each `sentence` of the calls answers, without the state.
fn sentences(program: &[u8], calls: &str) -> Vec<String> {
    let printed = printed_on(program, calls).unwrap();
    let lines = printed.lines().filter(|line| line.starts_with("sentence"));
    let answers = lines.map(|line| line.split_once(" | ").unwrap().0);
    answers
        .map(|line| line.split_once(" => ").unwrap().1.to_string())
        .collect()
}

/// The sentence is that of the last run, with the position and the function that it left, whatever came after it.
#[test]
fn the_last_run() {
    let program = Assembly {
        statements: vec![[0, 0, 0, 0], [61, -3, 0, 0]],
        functions: vec![
            Function::default(),
            Function {
                first: 1,
                ..Function::default()
            },
        ],
        ..Assembly::default()
    };
    let calls = "sentence 120\nload 0\nsentence 119\nenter 1\nsentence 120\nrun 0 9\nsentence 128\nabandon 0\nsentence 128\n";
    let none = "Run ended, detail 0, statements 0, position 0, function 0.";
    let refused = "Run refused, detail 14, statements 1, position -2, function 1.";
    let answer = |line: &str, length: usize| {
        let mut display = vec![238; length];
        display[..line.len()].copy_from_slice(line.as_bytes());
        format!("ok {} {}", line.len(), fnv(&display))
    };
    assert_eq!(
        sentences(&program.bytes(), calls),
        [
            answer(none, 120),
            format!("refused 12 {}", fnv(&[238; 119])),
            answer(none, 120),
            answer(refused, 128),
            answer(refused, 128),
        ]
    );
}

/// What the calls answer, each without itself and without the state.
fn answers(program: &[u8], calls: &str) -> Vec<String> {
    let printed = printed_on(program, calls).unwrap();
    let answer = |line: &str| {
        let (answer, _) = line.split_once(" | ").unwrap();
        answer.split_once(" => ").unwrap().1.to_string()
    };
    printed.lines().map(answer).collect()
}

/// The file has 64 cells. A value is taken modulo 2^32, an address that 64 bits can't hold is no cell's.
#[test]
fn pairs() {
    let program = Assembly::default().bytes();
    let answers = |calls: &str| answers(&program, &format!("load 0\n{calls}"))[1..].to_vec();
    assert_eq!(
        answers("pairs\npairs 40 7 41 8 40 9\nread 40\nread 41\n"),
        ["ok 0", "ok 0", "ok 9", "ok 8"]
    );
    assert_eq!(
        answers(
            "pairs 40 7 64 8\nread 40\npairs 40 7 41\npairs -1 0\npairs 99999999999999999999 0\n"
        ),
        [
            "refused 15",
            "ok 0",
            "refused 15",
            "refused 15",
            "refused 15"
        ]
    );
    assert_eq!(
        answers("pairs 40 -1 41 4294967303\nread 40\nread 41\n"),
        ["ok 0", "ok 4294967295", "ok 7"]
    );
    let (most, more) = ("pairs".to_string() + &" 40 7".repeat(64), " 40 8");
    assert_eq!(answers(&most), ["ok 0"]);
    assert_eq!(answers(&(most.clone() + more)), ["refused 15"]);
}

#[test]
fn lines_that_are_no_calls() {
    for line in [
        "jump 1",
        "enter",
        "enter x",
        "run 1",
        "write 1 x",
        "pairs x",
        "pairs 1 x",
        "file -1",
        "image",
        "image -1",
        "image 4294967296",
        "image 1 2",
        "sentence",
        "sentence -1",
        "sentence 4294967296",
        "sentence 1 2",
    ] {
        assert_eq!(
            printed(line).unwrap_err(),
            format!("line 1 is no call: {line}")
        );
    }
    assert_eq!(printed("\n# a note\n").unwrap(), "");
}

/// The four settings are given together, or left out together.
#[test]
fn loads_that_are_no_calls() {
    for line in [
        "load",
        "load x",
        "load 0 5927",
        "load 0 5927 31",
        "load 0 5927 31 2048",
        "load 0 5927 31 2048 x",
        "load 0 5927 31 2048 99999 1",
    ] {
        let error = printed(&format!("load 0\n{line}\n")).unwrap_err();
        assert_eq!(
            error,
            format!("line 2 is no call: {line} (a load takes a number E, or five: E CHECK DEPTH SAVED LIMIT)")
        );
    }
}

/// Function 1 jumps to itself, and has two local cells.
fn jumping() -> Vec<u8> {
    let function = Function {
        first: 1,
        local: 30,
        locals: 2,
        ..Function::default()
    };
    let program = Assembly {
        statements: vec![[0, 0, 0, 0], [61, 0, 0, 0]],
        functions: vec![Function::default(), function],
        ..Assembly::default()
    };
    program.bytes()
}

#[rustfmt::skip]
#[test]
fn settings() {
    assert_eq!(
        answers(&jumping(), "load 0 5927 1 2 3\nenter 1\nenter 1\nrun 0 4\nrun 0 3\n"),
        ["ok", "ok 0", "refused 22", "refused 28 0", "spent 0 3"]
    );
    assert_eq!(
        answers(&jumping(), "load 0\nenter 1\nenter 1\nrun 0 4\nload 0 5927 31 1 9\nenter 1\nload 1 5927 31 2048 9\n"),
        ["ok", "ok 0", "ok 0", "spent 0 4", "ok", "refused 23", "refused 13"]
    );
}

/// What 64 bits can't hold is as far outside.
#[test]
fn settings_out_of_range() {
    for bad in [
        "-1",
        "18446744073709551616",
        "-18446744073709551616",
        "100000",
    ] {
        for at in 1..5 {
            let mut words = ["0", "5927", "31", "2048", "99999"];
            words[at] = bad;
            let load = format!("load {}", words.join(" "));
            assert_eq!(answers(&jumping(), &load), ["refused 36"], "{load}");
        }
    }
}

#[test]
fn another_check_number() {
    let mut program = jumping();
    program[4..6].copy_from_slice(&77_u16.to_le_bytes());
    let length = program.len();
    let loads = "load 0\nload 0 78 31 2048 99999\nload 0 77 31 2048 99999";
    let written = format!("ok {length} {}", fnv(&program));
    assert_eq!(
        answers(&program, &format!("{loads}\nimage {length}\n")),
        ["refused 3", "refused 3", "ok", &written]
    );
}

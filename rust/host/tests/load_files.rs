//! Load files (02, R-10): those that tests/model knows, byte for byte or by length and digest; what is refused; and that each loads, is
//! written again alike, and ends.

mod common;

use std::fs;
use std::path::Path;

use common::Chance;
use host::{
    load_file, write_load_file, Machine, Refusal, RunOutcome, Settings, CELLS, LOAD_FILE,
    SAVED_STORE,
};

/// What stands in an output buffer before.
const FILL: u8 = 238;

const NO_SUCH_FILE: Refusal = Refusal::new(35);

/// The model's lines of a kind: what is asked for, and the answer.
fn lines(kind: &str) -> Vec<(Vec<i64>, Vec<String>)> {
    let path = Path::new(env!("CARGO_MANIFEST_DIR")).join("../../tests/model/cases/load_files.txt");
    let text = fs::read_to_string(path).unwrap();
    let lines = text.lines().filter_map(|line| {
        let (given, answer) = line.strip_prefix(kind)?.split_once(" = ")?;
        let numbers = given
            .split_whitespace()
            .map(|word| word.parse().unwrap())
            .collect();
        Some((numbers, answer.split(' ').map(str::to_string).collect()))
    });
    lines.collect()
}

/// FNV-1a of 64 bits, in 16 hexadecimal digits.
fn digest(bytes: &[u8]) -> String {
    let digest = bytes
        .iter()
        .fold(14_695_981_039_346_656_037_u64, |digest, byte| {
            (digest ^ u64::from(*byte)).wrapping_mul(1_099_511_628_211)
        });
    format!("{digest:016x}")
}

fn hex(bytes: &[u8]) -> String {
    bytes.iter().map(|byte| format!("{byte:02x}")).collect()
}

fn lent(program: Vec<u8>) -> Machine {
    Machine::new(program, vec![0; CELLS], vec![0; SAVED_STORE])
}

/// The line of the show program for a file that ends.
fn shown(file: &[u8]) -> String {
    let mut machine = lent(file.to_vec());
    machine.load().unwrap();
    machine.enter(1).unwrap();
    let run = machine.run(0, 99_999);
    assert_eq!(run.outcome, RunOutcome::Ended);
    let cells = [1, 2, 3].map(|cell| format!("{:08x}", machine.cells()[cell]));
    format!(
        "ended,0,{},{},{},{},{},{}",
        run.count,
        machine.position(),
        machine.function(),
        machine.depth(),
        machine.saved_count(),
        cells.join(",")
    )
}

#[test]
fn byte_for_byte() {
    let known = lines("bytes ");
    assert_eq!(known.len(), 4);
    for (given, answer) in known {
        let file = load_file(given[0] as u32, given[1]).unwrap();
        assert_eq!(file.len().to_string(), answer[0]);
        // without the zeros at the end
        let text = hex(&file);
        let text = text.trim_end_matches("00");
        assert_eq!(text, answer[1].trim_end_matches("00"));
    }
}

#[test]
fn by_digest_with_the_show_programs_line() {
    let known = lines("file ");
    assert!(known.len() >= 9);
    for (given, answer) in known {
        let file = load_file(given[0] as u32, given[1]).unwrap();
        let told = [file.len().to_string(), digest(&file), shown(&file)];
        assert_eq!(told[..], answer[..], "{given:?}");
    }
}

#[test]
fn in_buffers_of_every_length_that_the_model_has() {
    let known = lines("buffer ");
    assert!(known.len() >= 100);
    for (given, answer) in known {
        let mut output = vec![FILL; given[2] as usize];
        let told = match write_load_file(given[0] as u32, given[1], &mut output) {
            Ok(length) => ["accepted".to_string(), length.to_string(), digest(&output)],
            Err(refusal) => [
                "refused".to_string(),
                refusal.number().to_string(),
                digest(&output),
            ],
        };
        assert_eq!(told[..], answer[..], "{given:?}");
    }
}

#[test]
fn any_other_n_is_refused_35() {
    for n in [
        i64::MIN,
        -(1 << 32),
        -1000,
        -1,
        0,
        1001,
        65_537,
        (1 << 32) + 1,
        i64::MAX,
    ] {
        assert_eq!(load_file(1, n), Err(NO_SUCH_FILE));
        assert_eq!(write_load_file(0, n, &mut []), Err(NO_SUCH_FILE));
    }
    assert_eq!(load_file(0, 1), Err(NO_SUCH_FILE));
    assert_eq!(
        NO_SUCH_FILE.to_string(),
        "refused 35: the seed of a load file is 0, or its number of drawn statements isn't 1 to 1,000"
    );
}

#[test]
fn the_bytes_behind_it_stay() {
    let mut output = vec![FILL; LOAD_FILE + 9];
    let length = write_load_file(77, 12, &mut output).unwrap();
    assert_eq!(output[..length], load_file(77, 12).unwrap()[..]);
    assert!(output[length..].iter().all(|byte| *byte == FILL));
}

/// Of seeds and n by chance, and with entities: it loads, is written again alike, ends after n + 1 statements with every limit above n, and
/// is spent by n.
#[test]
fn loads_is_written_alike_and_ends() {
    let mut chance = Chance::new(10);
    for turn in 0..300 {
        let seed = (chance.draw() as u32).max(1);
        let n = match turn {
            0..=2 => [1, 2, 1000][turn],
            _ => chance.between(1, 1000),
        };
        let entities = chance.between(0, 600);
        let file = load_file(seed, n).unwrap();
        let mut machine = Machine::with_entities(
            file.clone(),
            vec![7; 64],
            vec![9; SAVED_STORE],
            vec![3; entities as usize * 105],
        );
        for (limit, outcome, count) in [
            (n + 1, RunOutcome::Ended, n + 1),
            (99_999, RunOutcome::Ended, n + 1),
            (chance.between(n + 1, 99_999), RunOutcome::Ended, n + 1),
            (n, RunOutcome::Spent, n),
        ] {
            machine
                .load_with(Settings {
                    entities,
                    ..Settings::default()
                })
                .unwrap();
            assert_eq!(machine.image(), Ok(file.clone()));
            machine.enter(1).unwrap();
            let run = machine.run(0, limit);
            assert_eq!((run.outcome, i64::from(run.count)), (outcome, count));
        }
    }
}

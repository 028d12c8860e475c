//! The crate's text of a string number is the one that EqS, NeS and NotS go by: every pair of numbers in many small string lumps.

use host::assemble::{statement, Assembly};
use host::{Context, Machine, Outcome, Refusal, SAVED_STORE};

const ONE: u32 = 0x3f80_0000;
const REFUSED: Outcome = Outcome::Refused(Refusal::new(33));

/// The machine before its first statement, one of `FIRST`, `SECOND` and the result's cell. There are no functions: their names would
/// have to be in the strings, which may be empty.
struct Compared {
    machine: Machine,
    loaded: Context,
}

const FIRST: i64 = 28;
const SECOND: i64 = 29;
const RESULT: i64 = 30;

impl Compared {
    fn new(strings: &[u8], opcode: &str, second: i16) -> Compared {
        let file = Assembly {
            statements: vec![statement(opcode, 28, second, 30)],
            strings: strings.to_vec(),
            ..Assembly::default()
        };
        let mut machine = Machine::new(file.bytes(), vec![0; 64], vec![0; SAVED_STORE]);
        machine.load().unwrap();
        let loaded = *machine.context();
        Compared { machine, loaded }
    }

    /// The result of the statement on these numbers, or how it ended otherwise.
    fn result(&mut self, first: i32, second: i32) -> Result<u32, Outcome> {
        self.machine.set_context(self.loaded);
        self.machine.write(FIRST, first as u32).unwrap();
        self.machine.write(SECOND, second as u32).unwrap();
        self.machine.write(RESULT, 7).unwrap();
        match self.machine.statement() {
            Outcome::Completed => Ok(self.machine.read(RESULT).unwrap()),
            other => {
                assert_eq!(self.machine.read(RESULT), Ok(7));
                Err(other)
            }
        }
    }
}

fn bits(truth: bool) -> u32 {
    if truth {
        ONE
    } else {
        0
    }
}

/// Numbers in the strings, beside them and far from them.
fn numbers(strings: &[u8]) -> Vec<i32> {
    let mut numbers: Vec<i32> = (-2..strings.len() as i32 + 3).collect();
    numbers.extend([i32::MIN, i32::MAX, 1_000_000]);
    numbers
}

fn check_comparisons(strings: &[u8]) {
    let mut equal = Compared::new(strings, "EqS", 29);
    let mut different = Compared::new(strings, "NeS", 29);
    for first in numbers(strings) {
        for second in numbers(strings) {
            let text = |number: i32| equal.machine.text(number.into());
            let same = match (text(first), text(second)) {
                (Some(one), Some(other)) => Ok(one == other),
                _ => Err(REFUSED),
            };
            let case = format!("{strings:?} {first} {second}");
            assert_eq!(equal.result(first, second), same.map(bits), "EqS {case}");
            let other = same.map(|same| bits(!same));
            assert_eq!(different.result(first, second), other, "NeS {case}");
        }
    }
}

fn check_tests(strings: &[u8]) {
    let mut not = Compared::new(strings, "NotS", 0);
    for number in numbers(strings) {
        let text = not.machine.text(number.into());
        let none = text.map(|text| bits(number == 0 || text.is_empty()));
        let expected = none.ok_or(REFUSED);
        assert_eq!(not.result(number, 0), expected, "{strings:?} {number}");
    }
}

/// All lumps of up to four bytes of these, and those with a longer text at two places.
fn lumps() -> Vec<Vec<u8>> {
    let mut all = vec![Vec::new()];
    let mut longest = all.clone();
    for _ in 0..4 {
        let longer = longest.iter().flat_map(|lump| {
            [0, b'a', 0xff].map(|byte| {
                let mut lump: Vec<u8> = lump.clone();
                lump.push(byte);
                lump
            })
        });
        longest = longer.collect();
        all.extend(longest.clone());
    }
    for lump in [
        &b"\0Reds\0Blues\0Reds\0"[..],
        b"\0Reds\0Reds",
        b"Reds\0Redshirts",
        b"caf\xe9\0caf\xe8\0caf\xe9",
        b"\x80\0\x00\0\x80",
    ] {
        all.push(lump.to_vec());
    }
    all
}

#[test]
fn comparisons_go_by_the_crates_texts() {
    for strings in lumps() {
        check_comparisons(&strings);
        check_tests(&strings);
    }
}

/// The text is read again at each statement, from the bytes that are lent then.
#[test]
fn texts_are_those_of_the_lent_bytes() {
    let mut compared = Compared::new(b"\0Reds\0Reds\0", "EqS", 29);
    assert_eq!(compared.result(1, 6), Ok(ONE));
    let at = compared.loaded.file.strings.offset;
    compared.machine.program_mut()[at + 9] = b'x';
    assert_eq!(compared.machine.text(6), Some(&b"Redx"[..]));
    assert_eq!(compared.result(1, 6), Ok(0));
}

/// Equal operands are answered unread, whatever the number; operand 0 of NotS is 1.0, but its number must be in the strings.
#[test]
fn operands_that_are_not_compared() {
    let mut equal = Compared::new(b"\0", "EqS", 28);
    let mut different = Compared::new(b"\0", "NeS", 28);
    for number in [0, 1, -1, i32::MAX] {
        assert_eq!(equal.result(number, 0), Ok(ONE));
        assert_eq!(different.result(number, 0), Ok(0));
    }
    let file = Assembly {
        statements: vec![statement("NotS", 0, 0, 30)],
        strings: b"\0Reds\0".to_vec(),
        ..Assembly::default()
    };
    for (number, expected) in [
        (0, Outcome::Completed),
        (1, Outcome::Completed),
        (6, REFUSED),
        (u32::MAX, REFUSED),
    ] {
        let mut machine = Machine::new(file.bytes(), vec![0; 64], vec![0; SAVED_STORE]);
        machine.load().unwrap();
        machine.write(0, number).unwrap();
        assert_eq!(machine.statement(), expected, "{number}");
        let result = if expected == REFUSED { 0 } else { ONE };
        assert_eq!(machine.read(RESULT), Ok(result));
    }
}

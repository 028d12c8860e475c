//! The sentence of a run, for a display.

use std::fmt;

use crate::library::{self, Answer};
use crate::machine::{Handover, Run, RunOutcome};
use crate::refusal::Refusal;

/// The least length of a display buffer. No sentence has more bytes.
pub const DISPLAY: usize = 120;

impl Run {
    /// The run in a line of words and numbers, without a line end: its word, the number of the refusal, builtin or opcode
    /// (else 0), the completed statements, and the position and the function where it stopped.
    ///
    /// All five can be worked out from the line, so where one of them differs the lines do.
    ///
    /// ```
    /// use host::assemble::{Assembly, Function};
    /// use host::{Machine, CELLS, SAVED_STORE};
    ///
    /// // Function 1 jumps three statements back, where there is none.
    /// let program = Assembly {
    ///     statements: vec![[0, 0, 0, 0], [61, -3, 0, 0]],
    ///     functions: vec![Function::default(), Function { first: 1, ..Function::default() }],
    ///     ..Assembly::default()
    /// };
    /// let mut machine = Machine::new(program.bytes(), vec![0; CELLS], vec![0; SAVED_STORE]);
    /// machine.load()?;
    /// machine.enter(1)?;
    /// let run = machine.run(0, 10);
    /// let line = "Run refused, detail 14, statements 1, position -2, function 1.";
    /// assert_eq!(run.sentence(), line.as_bytes());
    /// assert_eq!(run.to_string(), line);
    /// # Ok::<(), Box<dyn std::error::Error>>(())
    /// ```
    pub fn sentence(&self) -> Vec<u8> {
        let mut display = [0; DISPLAY];
        let length = self
            .write_sentence(&mut display)
            .expect("the buffer is long enough");
        display[..length].to_vec()
    }

    /// Writes what [`Run::sentence`] gives to the front of a display buffer, and gives its length. The bytes after it stay.
    ///
    /// A buffer of fewer than [`DISPLAY`] bytes is refused 12, however long the sentence is, and nothing is written.
    ///
    /// ```
    /// use host::{Refusal, Run, RunOutcome};
    ///
    /// let run = Run { outcome: RunOutcome::Ended, count: 2, position: 0, function: 0 };
    /// let mut display = [b'#'; 130];
    /// assert_eq!(run.write_sentence(&mut display[..119]), Err(Refusal::new(12)));
    /// assert_eq!(display, [b'#'; 130]);
    /// assert_eq!(run.write_sentence(&mut display), Ok(58));
    /// assert_eq!(display[..58], *b"Run ended, detail 0, statements 2, position 0, function 0.");
    /// assert_eq!(display[58..], [b'#'; 72]);
    /// ```
    pub fn write_sentence(&self, display: &mut [u8]) -> Result<usize, Refusal> {
        library::sentence(self.answer(), self.position, self.function, display).written()
    }

    /// The answer in the library's numbers.
    fn answer(&self) -> Answer {
        let (word, detail) = match self.outcome {
            RunOutcome::Ended => (library::ENDED, 0),
            RunOutcome::Spent => (library::SPENT, 0),
            RunOutcome::Refused(refusal) => (library::REFUSED, refusal.number()),
            RunOutcome::HandedOver(Handover::Builtin(number)) => (library::BUILTIN, number),
            RunOutcome::HandedOver(Handover::Opcode(number)) => (library::OPCODE, number),
        };
        Answer {
            word,
            detail,
            count: self.count,
        }
    }
}

impl fmt::Display for Run {
    fn fmt(&self, f: &mut fmt::Formatter<'_>) -> fmt::Result {
        f.pad(&String::from_utf8_lossy(&self.sentence()))
    }
}

#[cfg(test)]
mod tests {
    use super::*;

    fn line(word: u32, detail: u32) -> String {
        let answer = Answer {
            word,
            detail,
            count: 7,
        };
        let mut display = [0; DISPLAY];
        let written = library::sentence(answer, -1, 2, &mut display);
        assert_eq!(written.refusal, 0);
        String::from_utf8(display[..written.length].to_vec()).unwrap()
    }

    /// Words that no run answers are taken for 3, and a detail that none has is told as it is.
    #[test]
    fn any_numbers() {
        let words = [
            (0, "refused"),
            (1, "ended"),
            (2, "spent"),
            (3, "refused"),
            (4, "builtin"),
            (5, "opcode"),
            (6, "refused"),
            (260, "refused"),
            (u32::MAX, "refused"),
        ];
        for (word, name) in words {
            for detail in [0, 12, 256, u32::MAX] {
                let told =
                    format!("Run {name}, detail {detail}, statements 7, position -1, function 2.");
                assert_eq!(line(word, detail), told);
            }
        }
    }

    #[test]
    fn a_refused_buffer_has_no_length() {
        let written = library::sentence(Answer::default(), 0, 0, &mut [0; DISPLAY - 1]);
        assert_eq!((written.length, written.refusal), (0, 12));
    }

    /// An outcome's five as the model writes them, in the library's numbers.
    fn given(words: &[&str]) -> (Answer, i64, usize) {
        let names = ["ended", "spent", "refused", "builtin", "opcode"];
        let word = names.iter().position(|name| *name == words[0]).unwrap() as u32 + 1;
        let [detail, count] = [1, 2].map(|i| words[i].parse().unwrap());
        let answer = Answer {
            word,
            detail,
            count,
        };
        (answer, words[3].parse().unwrap(), words[4].parse().unwrap())
    }

    /// The model's lines, and what it leaves in display buffers.
    #[test]
    fn the_models_sentences() {
        let cases = include_str!("../../../tests/model/cases/sentences.txt");
        let lines = cases.lines().filter(|line| !line.starts_with('#'));
        for line in lines.clone() {
            let (five, expected) = line.split_once(" = ").unwrap();
            let words: Vec<&str> = five.split(' ').collect();
            let Some(("display", [length, words @ ..])) = words.split_first().map(|(w, r)| (*w, r))
            else {
                let (answer, position, function) = given(&words);
                let mut display = [0; DISPLAY];
                let written = library::sentence(answer, position, function, &mut display);
                assert_eq!(display[..written.length], *expected.as_bytes(), "{line}");
                continue;
            };
            let (answer, position, function) = given(words);
            let mut display = vec![238; length.parse().unwrap()];
            let written = library::sentence(answer, position, function, &mut display);
            let hash = display
                .iter()
                .fold(0xcbf2_9ce4_8422_2325_u64, |hash, byte| {
                    (hash ^ u64::from(*byte)).wrapping_mul(0x0100_0000_01b3)
                });
            let said = match written.refusal {
                0 => format!("accepted {} {hash:016x}", written.length),
                number => format!("refused {number} {hash:016x}"),
            };
            assert_eq!(said, expected, "{line}");
        }
        assert_eq!(lines.count(), 373);
    }
}

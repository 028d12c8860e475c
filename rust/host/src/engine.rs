//! The two engines, and the statements that the second one runs from.

/// What carries out the statements of a run.
///
/// Both give the same: outcome, count, context, cells, saved store and entity cells. That is proved of a buffer that holds what was
/// unpacked from the program's bytes, as a [`Machine`](crate::Machine)'s always does when the second runs.
#[derive(Clone, Copy, Debug, Default, PartialEq, Eq, Hash)]
pub enum Engine {
    /// Reads each statement from the program's bytes.
    First,
    /// Reads the statements that were unpacked from them. It is the faster one.
    #[default]
    Second,
}

/// The bytes of a statement in the program file, and its 16-bit numbers when it is unpacked.
const STATEMENT_SIZE: usize = 8;
const NUMBERS: usize = 4;

/// The buffer that the statements are unpacked into.
#[derive(Clone, Debug, Default)]
pub struct Unpacked {
    numbers: Vec<u16>,
    /// Whether they were unpacked from the program's bytes as they are.
    current: bool,
}

impl Unpacked {
    pub fn numbers(&self) -> &[u16] {
        &self.numbers
    }

    pub fn is_current(&self) -> bool {
        self.current
    }

    /// The program's bytes may be others from now on.
    pub fn set_outdated(&mut self) {
        self.current = false;
    }

    /// Unpacks into zeros, four for each statement that a context records, by a function that says whether it was accepted.
    ///
    /// A context may say anything. One that has more statements than the file has room for is refused 13, whatever the buffer is.
    pub fn unpack<E>(
        &mut self,
        statements: usize,
        program: &[u8],
        unpack: impl FnOnce(&mut [u16]) -> Result<(), E>,
    ) -> Result<(), E> {
        let statements = statements.min(program.len() / STATEMENT_SIZE);
        self.numbers.clear();
        self.numbers.resize(NUMBERS * statements, 0);
        let unpacked = unpack(&mut self.numbers);
        self.current = unpacked.is_ok();
        unpacked
    }
}

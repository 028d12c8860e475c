//! Refusals in words.

use std::error::Error;
use std::fmt;

use crate::float_mode::FloatModeError;
use crate::layout::LayoutError;

/// The sentences of the numbers 1 to 37.
const SENTENCES: [&str; 37] = [
    "the file is shorter than 60 bytes or longer than 1,048,576",
    "the version isn't 6",
    "the check number isn't the one that is set (5927, unless a venue sets another)",
    "a lump has a negative offset or count, or ends past the end of the file",
    "a function's first statement is negative and names no builtin",
    "the name of a function or definition, or a source file, is outside the strings",
    "the opcode isn't 0 to 65",
    "a definition's type is over 7, the save flag apart",
    "a field definition has the save flag",
    "there are fewer than 64 cells or more than 32,768 (a file of 36 to 63 cells can be padded)",
    "there are fewer than 105 cells per entity",
    "fewer cells are lent than the file has, or the saved store is shorter than 2,048; for a sentence, the display buffer is shorter than 120",
    "the file, what is lent and the state do not belong together; or a setting that the state holds is out of range; at load, the entities are negative, over 600 or more than the lent entity cells hold",
    "there is no statement at the position",
    "a cell number is negative or not below the file's count of cells; of pairs written together, there are over 64, one is incomplete, or a value isn't of 32 bits",
    "a cell's or a field's definition has another type",
    "a negative entity or field is read, or a negative string, entity or field is moved",
    "the third operand of a Store, through a pointer too, or the second of a Not isn't 0",
    "the function is number 0",
    "there is no function with that number",
    "the function is a builtin",
    "the call depth is already the greatest that is set (31, unless a venue sets less)",
    "the local count is negative, or more cells would be saved than the greatest saved count that is set (2,048, unless a venue sets less)",
    "the argument count isn't 0 to 8",
    "the call depth is 0: there is nothing to return from",
    "fewer cells are saved than the function has locals",
    "the statement at the position would not be handed over",
    "the limit isn't 1 to the greatest run limit that is set (99,999, unless a venue sets less)",
    "the target depth is negative or not below the depth; for abandon, above it",
    "the entity isn't below the number of entities",
    "a field's cell isn't below the cells per entity",
    "a pointer is negative, no multiple of 4 or past the last entity, or one to be made is over 2,147,483,647",
    "EqS, NeS or NotS reads a string number that is negative or not below the length of the strings",
    "the output buffer is shorter than the file to be written, or that is longer than 1,048,576 bytes",
    "the seed of a load file is 0, or its number of drawn statements isn't 1 to 1,000",
    "a setting is out of range: check number 0 to 65,535, greatest depth 1 to 31, greatest saved count 0 to 2,048, greatest run limit 1 to 99,999",
    "the unpack buffer is shorter than four numbers a statement",
];

/// Why an operation was refused: document 01's number, and its sentence.
///
/// What is refused leaves context and buffers as they were; a run, as they were after the last completed statement.
///
/// ```
/// use host::Refusal;
/// let refusal = Refusal::new(14);
/// assert_eq!(refusal.number(), 14);
/// assert_eq!(
///     refusal.to_string(),
///     "refused 14: there is no statement at the position"
/// );
/// ```
#[derive(Clone, Copy, Debug, PartialEq, Eq, PartialOrd, Ord, Hash)]
pub struct Refusal(u32);

impl Refusal {
    /// The file, the lent buffers or the context do not belong together: what every operation answers before a load.
    pub const STATE: Refusal = Refusal(13);

    /// The refusal of a number.
    pub const fn new(number: u32) -> Refusal {
        Refusal(number)
    }

    /// Document 01's number.
    pub const fn number(self) -> u32 {
        self.0
    }

    /// The sentence of the number, in the words of the repository's table of refusals.
    pub fn sentence(self) -> &'static str {
        let index = (self.0 as usize).wrapping_sub(1);
        SENTENCES
            .get(index)
            .copied()
            .unwrap_or("no such refusal is listed")
    }
}

impl fmt::Display for Refusal {
    fn fmt(&self, f: &mut fmt::Formatter<'_>) -> fmt::Result {
        write!(f, "refused {}: {}", self.0, self.sentence())
    }
}

impl Error for Refusal {}

/// Why a load isn't accepted. Whatever it is, nothing has changed.
#[derive(Clone, Debug, PartialEq, Eq)]
pub enum LoadError {
    /// The library that is linked isn't this crate's.
    Library(LayoutError),
    /// The processor doesn't compute floats as the machine needs it.
    FloatMode(FloatModeError),
    /// The file, or what is lent, is refused.
    Refused(Refusal),
}

impl LoadError {
    /// The refusal, if it is one.
    pub fn refusal(&self) -> Option<Refusal> {
        match self {
            LoadError::Refused(refusal) => Some(*refusal),
            LoadError::Library(_) | LoadError::FloatMode(_) => None,
        }
    }
}

impl fmt::Display for LoadError {
    fn fmt(&self, f: &mut fmt::Formatter<'_>) -> fmt::Result {
        match self {
            LoadError::Library(error) => error.fmt(f),
            LoadError::FloatMode(error) => error.fmt(f),
            LoadError::Refused(refusal) => refusal.fmt(f),
        }
    }
}

impl Error for LoadError {}

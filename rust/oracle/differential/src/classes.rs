//! What an error or a panic of the Rust is called here: the number of the refusal it stands for, or the class of the panic.

use crate::oracle::Panic;
use crate::ours::Answer;
use std::sync::LazyLock;

/// The refusal that an error's text stands for.
pub fn number_of(error: &str) -> Option<u32> {
    const TEXTS: [(&str, u32); 22] = [
        ("Entity error: Invalid address", 31),
        ("Invalid entity ID", 32),
        ("No entity at list entry", 32),
        ("Invalid address", 15),
        ("type check failed", 16),
        ("Negative entity ID", 17),
        ("Nonzero arg", 18),
        (": nonzero arg3", 18),
        ("negative string offset", 15),
        ("No function with ID", 20),
        ("Call stack overflow", 22),
        ("Local stack overflow", 23),
        ("call stack underflow", 25),
        ("Invalid built-in function ID", 5),
        ("id < 0", 6),
        ("no string with ID", 6),
        ("Bad opcode", 7),
        ("Save flag not allowed", 9),
        ("Global count lower", 10),
        ("addr_count (", 11),
        ("I/O error", 4),
        ("failed to fill whole buffer", 4),
    ];
    let found = TEXTS.iter().find(|(text, _)| error.contains(text));
    found.map(|&(_, number)| number)
}

/// Classes of panics. The numbers are what this machine may answer there; none for those where it need not refuse.
#[derive(Clone, Copy, Debug, PartialEq, Eq, PartialOrd, Ord)]
pub enum Class {
    Version,
    CheckNumber,
    LumpEnds,
    Capacity,
    TypeOver7,
    NotUtf8,
    NameWithoutZero,
    NameNotAtCharacter,
    NoStatement,
    CellEqualToCount,
    ArgumentCount,
    FunctionZero,
    NegativeString,
    NegativeFunction,
    EntryOfBuiltin,
    EmptyLocalStack,
    Overflow,
    Runaway,
    AbsentEntity,
    FieldCellEqualToCount,
    PointerMade,
    PointerRead,
    FieldOpcode,
    HandedOver,
    Unknown,
}

impl Class {
    pub fn of(panic: &Panic) -> Class {
        let m = panic.message.as_str();
        let has = |text: &str| m.contains(text);
        if has("load_fld not implemented") || has("storep_fld not implemented") {
            Class::FieldOpcode
        } else if has("handed over") || has("not implemented") || has("stub: ") {
            Class::HandedOver
        } else if has("runaway program") {
            Class::Runaway
        } else if has("NULL function") {
            Class::FunctionZero
        } else if has("built-in functions should not") {
            Class::EntryOfBuiltin
        } else if has("== VERSION") {
            Class::Version
        } else if has("== CRC") {
            Class::CheckNumber
        } else if has("assertion `left == right` failed") {
            Class::LumpEnds
        } else if has("capacity overflow") {
            Class::Capacity
        } else if has("with overflow") {
            Class::Overflow
        } else {
            Class::of_access(panic)
        }
    }

    fn of_access(panic: &Panic) -> Class {
        let m = panic.message.as_str();
        let has = |text: &str| m.contains(text);
        let at = |file: &str| panic.place.starts_with(file);
        if has("Utf8Error") {
            Class::NotUtf8
        } else if has("string data not NUL-terminated") {
            Class::NameWithoutZero
        } else if has("char boundary") {
            Class::NameNotAtCharacter
        } else if has("string id out of i32 range") {
            Class::NegativeString
        } else if has("function ID out of range") {
            Class::NegativeFunction
        } else if has("index out of bounds") && at("progs/mod.rs") {
            if line_of(&panic.place) > *LOAD_STATEMENT {
                Class::NoStatement
            } else {
                Class::ArgumentCount
            }
        } else if has("index out of bounds") && at("progs/globals.rs") {
            Class::CellEqualToCount
        } else if has("no such entity") || (has("index out of bounds") && at("world/mod.rs")) {
            Class::AbsentEntity
        } else if has("index out of bounds") && at("world/entity.rs") {
            Class::FieldCellEqualToCount
        } else if has("ent_fld_addr_to_i32: total_addr overflow") {
            Class::PointerMade
        } else if has("ent_fld_addr_from_i32: ") {
            Class::PointerRead
        } else if has("called `Option::unwrap()` on a `None` value") {
            if LOAD_LINES.contains(&line_of(&panic.place)) {
                Class::TypeOver7
            } else {
                Class::EmptyLocalStack
            }
        } else {
            Class::Unknown
        }
    }

    pub fn name(self) -> &'static str {
        match self {
            Class::Version => "load: the version isn't 6",
            Class::CheckNumber => "load: the check number isn't 5927",
            Class::LumpEnds => "load: a lump ends past the end of the file",
            Class::Capacity => "load: a negative count, memory for it is asked",
            Class::TypeOver7 => "load: a definition's type is over 7",
            Class::NotUtf8 => "load: the strings aren't UTF-8",
            Class::NameWithoutZero => "a name without a zero byte after it is converted",
            Class::NameNotAtCharacter => "a name that begins or ends within a character is converted",
            Class::NoStatement => "no statement at the position",
            Class::CellEqualToCount => "a cell number equal to the count",
            Class::ArgumentCount => "argument count outside 0 to 8",
            Class::FunctionZero => "Call of function 0",
            Class::NegativeString => "a negative string number is stored",
            Class::NegativeFunction => "a negative function number is stored",
            Class::EntryOfBuiltin => "host entry of a builtin",
            Class::EmptyLocalStack => "leaving with too few saved cells",
            Class::Overflow => "a sum over the type's range (debug build)",
            Class::Runaway => "the 100,000th statement",
            Class::AbsentEntity => "an entity that isn't there is read, or written by number 600",
            Class::FieldCellEqualToCount => "a field cell equal to the cells per entity",
            Class::PointerMade => "a pointer to be made is over 2,147,483,647",
            Class::PointerRead => "a pointer is negative or no multiple of 4",
            Class::FieldOpcode => "LoadFld or StorePFld",
            Class::HandedOver => "handed over to the host",
            Class::Unknown => "UNKNOWN",
        }
    }

    /// Whether this machine completes the statement at which the Rust panics so in a run.
    pub fn goes_on(self) -> bool {
        matches!(self, Class::NameWithoutZero | Class::NameNotAtCharacter | Class::NegativeFunction | Class::FieldOpcode)
    }

    /// Whether this machine may answer so where the Rust panics so. `compare` looks at the statement as well.
    pub fn allows(self, answer: Answer) -> bool {
        let refused = |numbers: &[u32]| matches!(answer, Answer::Refused(n) if numbers.contains(&n));
        match self {
            Class::Version => refused(&[2, 1]),
            Class::CheckNumber => refused(&[3, 1]),
            Class::LumpEnds | Class::Capacity => refused(&[4, 1]),
            Class::TypeOver7 => refused(&[8, 4, 1]),
            // Strings are bytes here, functions are moved as bits, and fields are moved: whatever comes after gives the answer.
            Class::NotUtf8 | Class::NameWithoutZero | Class::NameNotAtCharacter | Class::NegativeFunction | Class::FieldOpcode => true,
            Class::NoStatement => refused(&[14]),
            // An entry of the Rust stops at a cell; here a wrong count of arguments or locals is found before.
            Class::CellEqualToCount => refused(&[15, 23, 24]),
            Class::ArgumentCount => refused(&[24]),
            Class::FunctionZero => refused(&[19]),
            Class::NegativeString => refused(&[17]),
            Class::EntryOfBuiltin => refused(&[21]),
            Class::EmptyLocalStack => refused(&[25]),
            Class::Overflow => refused(&[1, 4, 5, 15, 16, 23, 31]),
            Class::Runaway => answer == Answer::Spent,
            Class::AbsentEntity => refused(&[30, 32]),
            Class::FieldCellEqualToCount => refused(&[31]),
            // The destination, the entity and the field are checked before the pointer is made.
            Class::PointerMade => refused(&[15, 16, 30, 31, 32]),
            Class::PointerRead => refused(&[32]),
            Class::HandedOver => matches!(answer, Answer::Builtin(_) | Answer::Opcode(_)),
            Class::Unknown => false,
        }
    }
}

const PROGS: &str = include_str!("../../richter/src/server/progs/mod.rs");

/// The lines of `progs/mod.rs` that have a text. In the changed copy those of a load are the same, the later ones a few further.
fn lines_with(text: &str) -> Vec<u32> {
    (PROGS.lines().enumerate()).filter(|(_, line)| line.contains(text)).map(|(i, _)| i as u32 + 1).collect()
}

/// Where a load unwraps a type.
static LOAD_LINES: LazyLock<Vec<u32>> = LazyLock::new(|| lines_with("Type::from_u16("));
/// A statement is fetched after this line; arguments are copied well before it.
static LOAD_STATEMENT: LazyLock<u32> = LazyLock::new(|| lines_with("pub fn load_statement(&self)")[0]);

fn line_of(place: &str) -> u32 {
    (place.rsplit(':').next()).and_then(|line| line.parse().ok()).unwrap_or(0)
}

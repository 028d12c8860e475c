//! EqS, NeS and NotS go by the texts here and by the numbers in the Rust. 02, R-4: "differential runs for these three are limited to runs
//! whose compared numbers are in range and, if different, have different texts, and whose NotS meets no number out of range and no empty
//! text but number 0's". So each run is looked at: what its statements of these three opcodes met.

use crate::program::View;

const EQ_S: i16 = 12;
const NE_S: i16 = 17;
const NOT_S: i16 = 46;

/// Whether the file has a statement of the three at all.
pub fn in_file(view: &View) -> bool {
    let mut statements = (0..).map_while(|position| view.statement(position));
    statements.any(|[opcode, ..]| matches!(opcode, EQ_S | NE_S | NOT_S))
}

/// What puts a run outside the limit.
#[derive(Clone, Copy, Debug, PartialEq, Eq, PartialOrd, Ord)]
pub enum Outside {
    ComparedOutOfRange,
    SameText,
    NotSOutOfRange,
    NotSEmpty,
}

impl Outside {
    pub fn name(self) -> &'static str {
        match self {
            Outside::ComparedOutOfRange => "EqS or NeS of a number that is out of range",
            Outside::SameText => "EqS or NeS of different numbers with the same text",
            Outside::NotSOutOfRange => "NotS of a number that is out of range",
            Outside::NotSEmpty => "NotS of an empty text that isn't number 0's",
        }
    }
}

/// What a statement meets that is about to be executed on these cells.
#[derive(Clone, Copy, Debug, PartialEq, Eq)]
pub enum Met {
    /// No number is compared or tested: another opcode, equal operands, which are answered unread, or an operand that is refused.
    Nothing,
    Within(i16),
    Outside(Outside),
}

pub fn met(view: &View, cells: &[u32], [opcode, a, b, _]: [i16; 4]) -> Met {
    let number = |cell: i16| number_in(view, cells, cell);
    match opcode {
        EQ_S | NE_S if a != b => match (number(a), number(b)) {
            (Some(first), Some(second)) => compared(view, opcode, first, second),
            _ => Met::Nothing,
        },
        NOT_S if b == 0 => number(a).map_or(Met::Nothing, |number| tested(view, number)),
        _ => Met::Nothing,
    }
}

/// Whether EqS or NeS is refused 33 for its first number here. Where its second operand can't be read nothing is compared, and the Rust, which
/// doesn't look at the number's range, refuses the statement too, for that operand.
pub fn first_out_of_range(view: &View, cells: &[u32], [opcode, a, b, _]: [i16; 4]) -> bool {
    let compares = matches!(opcode, EQ_S | NE_S) && a != b && b >= 0;
    compares && number_in(view, cells, a).is_some_and(|number| text(view, number).is_none())
}

/// The number in a cell, where the cell is there and may be read as a string.
fn number_in(view: &View, cells: &[u32], cell: i16) -> Option<i32> {
    const STRING: u16 = 1;
    let found = usize::try_from(cell).ok().and_then(|cell| cells.get(cell))?;
    let fits = view.global_type(cell).is_none_or(|type_| type_ == STRING);
    fits.then_some(*found as i32)
}

fn compared(view: &View, opcode: i16, first: i32, second: i32) -> Met {
    match (text(view, first), text(view, second)) {
        (None, _) | (_, None) => Met::Outside(Outside::ComparedOutOfRange),
        (Some(one), Some(other)) if first != second && one == other => Met::Outside(Outside::SameText),
        _ => Met::Within(opcode),
    }
}

fn tested(view: &View, number: i32) -> Met {
    match text(view, number) {
        None => Met::Outside(Outside::NotSOutOfRange),
        Some(text) if number != 0 && text.is_empty() => Met::Outside(Outside::NotSEmpty),
        Some(_) => Met::Within(NOT_S),
    }
}

/// The bytes from a number up to a zero byte or the end of the strings; none where the number is out of range.
fn text<'a>(view: &'a View, number: i32) -> Option<&'a [u8]> {
    let strings = view.strings()?;
    let at = usize::try_from(number).ok().filter(|&at| at < strings.len())?;
    strings[at..].split(|&byte| byte == 0).next()
}

/// What the statements of a run met, up to the first that puts it outside.
#[derive(Clone, Copy, Debug, Default, PartialEq, Eq)]
pub struct Trace {
    pub eq_s: bool,
    pub ne_s: bool,
    pub not_s: bool,
    pub outside: Option<Outside>,
}

impl Trace {
    pub fn add(&mut self, met: Met) {
        match met {
            Met::Nothing => {}
            Met::Within(EQ_S) => self.eq_s = true,
            Met::Within(NE_S) => self.ne_s = true,
            Met::Within(_) => self.not_s = true,
            Met::Outside(outside) => self.outside = Some(outside),
        }
    }

    /// The opcodes that compared or tested within the limit.
    pub fn names(&self) -> impl Iterator<Item = &'static str> {
        let met = [(self.eq_s, "EqS"), (self.ne_s, "NeS"), (self.not_s, "NotS")];
        met.into_iter().filter(|(met, _)| *met).map(|(_, name)| name)
    }

    /// Whether a number was compared or tested at all.
    pub fn any(&self) -> bool {
        *self != Trace::default()
    }
}

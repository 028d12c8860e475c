//! Whether the library lays its structs out as this crate does. Rattle tells neither sizes nor offsets; but the exported
//! `host_layout` hands back its structs with a number of its own in each field, 1 and on in the order of the declarations, and
//! each number is looked for at the place that Rust gives the field.

use std::error::Error;
use std::fmt;
use std::mem::{offset_of, size_of};

use crate::context::{Context, FileRecord, StackFrame, FRAMES};
use crate::library::{Found, FunctionRecord, Structs};

/// The room for the structs with numbers in their fields: more than any library's will need.
pub const ROOM: usize = 1 << 16;

/// What stands in the room where nothing was written. No field has this number.
pub const FILL: u8 = 0xa5;

/// The static library that is linked isn't the one that this crate was written for: it lays its structs out in another
/// way.
#[derive(Clone, Debug, PartialEq, Eq)]
pub struct LayoutError(String);

impl fmt::Display for LayoutError {
    fn fmt(&self, f: &mut fmt::Formatter<'_>) -> fmt::Result {
        write!(
            f,
            "the library that is linked, libhost.a, isn't this crate's: {}; `tools/libraries` in the crate's own \
             repository makes the right one",
            self.0
        )
    }
}

impl Error for LayoutError {}

/// A field that is a number.
struct Field {
    name: String,
    offset: usize,
    size: usize,
}

/// The fields of a struct by name, of one size.
macro_rules! fields {
    ($type:ty, $size:expr, $($($name:ident).+),+) => {
        [$((stringify!($($name).+), offset_of!($type, $($name).+), $size)),+]
            .map(|(name, offset, size)| Field { name: name.replace(' ', ""), offset, size })
    };
}

/// The fields of a struct that is itself a field.
fn within(name: &str, offset: usize, fields: impl IntoIterator<Item = Field>) -> Vec<Field> {
    let placed = |field: Field| Field {
        name: format!("{name}.{}", field.name),
        offset: offset + field.offset,
        size: field.size,
    };
    fields.into_iter().map(placed).collect()
}

fn file_fields() -> impl IntoIterator<Item = Field> {
    fields!(
        FileRecord,
        8,
        length,
        statements.offset,
        statements.count,
        globaldefs.offset,
        globaldefs.count,
        fielddefs.offset,
        fielddefs.count,
        functions.offset,
        functions.count,
        strings.offset,
        strings.count,
        globals.offset,
        globals.count,
        entityfields
    )
}

fn context_fields() -> Vec<Field> {
    let mut all = within("file", offset_of!(Context, file), file_fields());
    all.extend(fields!(
        Context,
        8,
        settings.check_number,
        settings.depth,
        settings.saved,
        settings.limit,
        pc,
        current_function,
        depth,
        saved,
        entity_count
    ));
    for i in 0..FRAMES {
        let offset = offset_of!(Context, frames) + i * size_of::<StackFrame>();
        let frame = fields!(StackFrame, 8, instr_id, func_id);
        all.extend(within(&format!("frames[{i}]"), offset, frame));
    }
    all
}

#[rustfmt::skip]
fn function_fields() -> Vec<Field> {
    let mut all = Vec::from(fields!(Found<FunctionRecord>, 4, found, refusal));
    all.extend(fields!(Found<FunctionRecord>, 4, record.first, record.start, record.locals, record.name, record.srcfile, record.argc));
    all.extend((0..8).map(|i| Field {
        name: format!("record.argsz[{i}]"),
        offset: offset_of!(Found<FunctionRecord>, record.argsz) + i,
        size: 1,
    }));
    all
}

/// All fields in the order of their numbers, of which the first is 1.
#[rustfmt::skip]
fn fields() -> Vec<Field> {
    let mut all = within("context", offset_of!(Structs, reply.context), context_fields());
    all.extend(fields!(Structs, 4, reply.answer.word, reply.answer.detail, reply.answer.count));
    all.extend(fields!(Structs, 4, header.found, header.refusal));
    all.extend(within("header", offset_of!(Structs, header.record), file_fields()));
    all.extend(fields!(Structs, 4, statement.found, statement.refusal));
    all.extend(fields!(Structs, 2, statement.record.opcode, statement.record.arg1, statement.record.arg2, statement.record.arg3));
    all.extend(within("function", offset_of!(Structs, function), function_fields()));
    all.extend(fields!(Structs, 4, definition.found, definition.refusal));
    all.extend(fields!(Structs, 2, definition.record.kind, definition.record.offset));
    all.extend(fields!(Structs, 4, definition.record.name));
    all.extend(fields!(Structs, 8, written.length));
    all.extend(fields!(Structs, 4, written.refusal));
    all
}

/// Compares what `host_layout` wrote into room that was filled with [`FILL`]: each number at its field's place, and
/// nothing past the end.
pub fn compare(bytes: &[u8]) -> Result<(), LayoutError> {
    for (field, number) in fields().iter().zip(1_u64..) {
        let Field { name, offset, size } = field;
        if bytes.get(*offset..offset + size) != Some(&number.to_le_bytes()[..*size]) {
            let message = format!("its {name} isn't the {size} bytes at {offset}");
            return Err(LayoutError(message));
        }
    }
    let size = size_of::<Structs>();
    if bytes[size..].iter().any(|byte| *byte != FILL) {
        let message = format!("its structs take more than {size} bytes");
        return Err(LayoutError(message));
    }
    Ok(())
}

#[cfg(test)]
mod tests {
    use super::*;
    use crate::context::{HeldSettings, Lump};
    use crate::library::{self, Reply};

    #[test]
    fn the_library_has_this_layout() {
        assert_eq!(fields().len(), 133);
        assert_eq!(compare(&library::numbered()), Ok(()));
        assert_eq!(library::layout(), Ok(()));
    }

    #[test]
    fn sizes() {
        assert_eq!(size_of::<Lump>(), 16);
        assert_eq!(size_of::<FileRecord>(), 112);
        assert_eq!(size_of::<HeldSettings>(), 32);
        assert_eq!(size_of::<StackFrame>(), 16);
        assert_eq!(size_of::<Context>(), 680);
        assert_eq!(size_of::<Reply>(), 696);
        assert_eq!(size_of::<Structs>(), 904);
    }

    /// A library in which a field lies where another is, or has another size.
    #[test]
    fn a_field_that_lies_elsewhere() {
        let right = library::numbered();
        for field in fields() {
            let mut bytes = right.clone();
            bytes[field.offset] ^= 1;
            let error = compare(&bytes).unwrap_err().to_string();
            let size = field.size;
            let place = format!(
                "its {} isn't the {size} bytes at {};",
                field.name, field.offset
            );
            assert!(error.contains(&place), "{error}");
            bytes[field.offset] ^= 1;
            bytes[field.offset + size - 1] = FILL;
            assert!(compare(&bytes).is_err(), "{}", field.name);
        }
    }

    /// A field more at the front, in the middle and at the end; a field less; nothing written at all.
    #[test]
    fn structs_of_another_length() {
        let right = library::numbered();
        let middle = offset_of!(Structs, reply.context.pc);
        let (front, end) = (0, size_of::<Structs>());
        for place in [front, middle, end] {
            let mut longer = right.clone();
            longer.splice(place..place, [0; 8]);
            assert!(compare(&longer).is_err(), "{place}");
        }
        let mut shorter = right.clone();
        shorter.drain(middle..middle + 8);
        let error = compare(&shorter).unwrap_err().to_string();
        assert_eq!(
            error,
            "the library that is linked, libhost.a, isn't this crate's: its context.pc isn't the 8 bytes at 144; \
             `tools/libraries` in the crate's own repository makes the right one"
        );
        assert!(compare(&[FILL; ROOM]).is_err());
    }
}

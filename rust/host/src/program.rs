//! What a host looks up in a program file: functions, definitions and texts, by number or by name.

use crate::context::{FileRecord, Lump};
use crate::library::{self, DefinitionRecord, FunctionRecord};
use crate::machine::Machine;

/// A function record.
#[derive(Clone, Copy, Debug, Default, PartialEq, Eq, Hash)]
pub struct Function {
    /// The first statement; a builtin's number with a minus.
    pub first: i32,
    /// The first local cell.
    pub local: i32,
    /// The number of local cells.
    pub locals: i32,
    /// The string number of the name.
    pub name: i32,
    /// The string number of the source file.
    pub source: i32,
    /// The number of arguments. Compilers write -1 for builtins.
    pub arguments: i32,
    /// The number of cells of each argument.
    pub sizes: [u8; 8],
}

/// A definition of a cell or of a field.
#[derive(Clone, Copy, Debug, PartialEq, Eq, Hash)]
pub struct Definition {
    /// 0 void, 1 string, 2 float, 3 vector, 4 entity, 5 field, 6 function, 7 pointer.
    pub kind: u16,
    /// Whether it is to be saved with a game.
    pub save: bool,
    /// The cell; of a field, its place in an entity.
    pub cell: u16,
    /// The string number of the name.
    pub name: i32,
}

impl From<FunctionRecord> for Function {
    fn from(record: FunctionRecord) -> Function {
        Function {
            first: record.first as i32,
            local: record.start as i32,
            locals: record.locals as i32,
            name: record.name as i32,
            source: record.srcfile as i32,
            arguments: record.argc as i32,
            sizes: record.argsz,
        }
    }
}

impl From<DefinitionRecord> for Definition {
    fn from(record: DefinitionRecord) -> Definition {
        Definition {
            kind: record.kind & 0x7fff,
            save: record.kind & 0x8000 != 0,
            cell: record.offset,
            name: record.name as i32,
        }
    }
}

/// The type of a marker, which gives a cell no type.
const VOID: u16 = 0;

/// A reader of the library, for definitions of cells or of fields.
type ReadDefinition = fn(&[u8], &FileRecord, i64) -> Option<DefinitionRecord>;

/// The records of a program file, read from its bytes by the library.
///
/// Any bytes will do: what isn't there is `None`. A part that doesn't lie in the file has no records. Names and texts
/// are bytes, up to a zero byte or the end of the strings, as they stand in the file.
///
/// ```
/// use host::assemble::{Assembly, Function};
/// use host::Program;
///
/// let mut file = Assembly::default();
/// let name = file.text("worldspawn");
/// let text = file.text(b"caf\xe9");
/// file.functions = vec![Function::default(), Function { first: 3, name, ..Function::default() }];
/// file.definitions = vec![(0x8002, 40, name)];
/// let bytes = file.bytes();
/// let program = Program::new(&bytes);
/// assert_eq!(program.find_function_by_name("worldspawn"), Some(1));
/// assert_eq!(program.function(1).map(|function| function.first), Some(3));
/// assert_eq!(program.find_definition_by_name("worldspawn").map(|def| (def.kind, def.cell)), Some((2, 40)));
/// assert_eq!(program.text(i64::from(text)), Some(&b"caf\xe9"[..]));
/// assert_eq!(program.find_text(b"caf\xe9"), Some(i64::from(text)));
/// assert_eq!(program.text(-1), None);
/// ```
#[derive(Clone, Copy, Debug)]
pub struct Program<'a> {
    bytes: &'a [u8],
    /// What the header says; nothing but zeros where there is none.
    recorded: FileRecord,
}

impl<'a> Program<'a> {
    /// The records in these bytes.
    pub fn new(bytes: &'a [u8]) -> Program<'a> {
        let recorded = library::read_header(bytes).unwrap_or_default();
        Program { bytes, recorded }
    }

    /// The number of functions that the header names.
    pub fn function_count(&self) -> usize {
        count(&self.recorded.functions)
    }

    /// The function of a number.
    pub fn function(&self, number: i64) -> Option<Function> {
        library::read_function(self.bytes, &self.recorded, number).map(Function::from)
    }

    /// The number of the first function with a name, as `ExecutionContext::find_function_by_name` of the Rust.
    pub fn find_function_by_name(&self, name: impl AsRef<[u8]>) -> Option<i64> {
        let functions = (0..).map_while(|number| self.function(number));
        let names = functions.map(|function| self.text(function.name.into()));
        let mut numbered = (0..).zip(names);
        let found = numbered.find(|(_, found)| *found == Some(name.as_ref()));
        found.map(|(number, _)| number)
    }

    /// The name of a function.
    pub fn function_name(&self, number: i64) -> Option<&'a [u8]> {
        self.text(self.function(number)?.name.into())
    }

    /// The number of definitions of cells that the header names.
    pub fn definition_count(&self) -> usize {
        count(&self.recorded.globaldefs)
    }

    /// The definition of a cell, by its number in the file.
    pub fn definition(&self, number: i64) -> Option<Definition> {
        library::read_definition(self.bytes, &self.recorded, number).map(Definition::from)
    }

    /// The first definition of a cell with a name.
    pub fn find_definition_by_name(&self, name: impl AsRef<[u8]>) -> Option<Definition> {
        self.find_by_name(library::read_definition, name.as_ref())
    }

    /// The definition that gives a cell its type: the first of the cell that isn't void.
    ///
    /// ```
    /// # use host::{assemble::Assembly, Program};
    /// let file = Assembly { definitions: vec![(0, 40, 0), (2, 40, 0), (0, 41, 0)], ..Assembly::default() }.bytes();
    /// let program = Program::new(&file);
    /// assert_eq!(program.find_definition_of_cell(40).map(|found| found.kind), Some(2));
    /// assert_eq!(program.find_definition_of_cell(41), None);
    /// ```
    pub fn find_definition_of_cell(&self, cell: u16) -> Option<Definition> {
        let mut all = self.all(library::read_definition);
        all.find(|definition| definition.cell == cell && definition.kind != VOID)
    }

    /// The number of definitions of fields that the header names.
    pub fn field_count(&self) -> usize {
        count(&self.recorded.fielddefs)
    }

    /// The definition of a field, by its number in the file.
    pub fn field(&self, number: i64) -> Option<Definition> {
        library::read_field(self.bytes, &self.recorded, number).map(Definition::from)
    }

    /// The first definition of a field with a name.
    pub fn find_field_by_name(&self, name: impl AsRef<[u8]>) -> Option<Definition> {
        self.find_by_name(library::read_field, name.as_ref())
    }

    /// The number of cells per entity that the header names.
    pub fn entity_cells(&self) -> usize {
        natural(self.recorded.entityfields)
    }

    /// The statement at a position: its opcode and three operands. There is none where the opcode isn't one.
    ///
    /// ```
    /// # use host::{assemble::Assembly, Program};
    /// let file = Assembly { statements: vec![[61, -3, 0, 0]], ..Assembly::default() }.bytes();
    /// assert_eq!(Program::new(&file).statement(0), Some([61, -3, 0, 0]));
    /// assert_eq!(Program::new(&file).statement(1), None);
    /// ```
    pub fn statement(&self, position: i64) -> Option<[i16; 4]> {
        let record = library::read_statement(self.bytes, &self.recorded, position)?;
        let numbers = [record.opcode, record.arg1, record.arg2, record.arg3];
        Some(numbers.map(|number| number as i16))
    }

    /// The text of a string number: the bytes from there to a zero byte or to the end of the strings.
    ///
    /// EqS, NeS and NotS go by these texts, and are refused 33 for a number that has none.
    ///
    /// ```
    /// # use host::{assemble::Assembly, Program};
    /// let file = Assembly { strings: b"\0Reds\0Reds".to_vec(), ..Assembly::default() }.bytes();
    /// let program = Program::new(&file);
    /// assert_eq!(program.text(1), Some(&b"Reds"[..]));
    /// assert_eq!(program.text(6), program.text(1));
    /// assert_eq!(program.text(5), Some(&b""[..]));
    /// assert_eq!((program.text(-1), program.text(10)), (None, None));
    /// ```
    pub fn text(&self, number: i64) -> Option<&'a [u8]> {
        let rest = self.strings()?.get(usize::try_from(number).ok()?..)?;
        if rest.is_empty() {
            return None;
        }
        rest.split(|byte| *byte == 0).next()
    }

    /// The first string number with a text, the end of a longer text included, as `StringTable::find` of the Rust means
    /// it. The text may be there more than once; a program that compares strings can't tell which of them it is given.
    ///
    /// One that isn't there can't be added: a file of another length is refused 13.
    pub fn find_text(&self, text: impl AsRef<[u8]>) -> Option<i64> {
        let (strings, text) = (self.strings()?, text.as_ref());
        let ends = |end: usize| strings.get(end).is_none_or(|byte| *byte == 0);
        if text.contains(&0) {
            return None;
        }
        let mut places = 0..strings.len();
        let found = places.find(|at| strings[*at..].starts_with(text) && ends(at + text.len()));
        found.map(|at| at as i64)
    }

    /// All strings, one after the other.
    fn strings(&self) -> Option<&'a [u8]> {
        let Lump { offset, count } = self.recorded.strings;
        self.bytes.get(offset..offset.checked_add(count)?)
    }

    /// All definitions that a reader gives, in the file's order.
    fn all(self, read: ReadDefinition) -> impl Iterator<Item = Definition> + 'a {
        let records = (0..).map_while(move |number| read(self.bytes, &self.recorded, number));
        records.map(Definition::from)
    }

    fn find_by_name(&self, read: ReadDefinition, name: &[u8]) -> Option<Definition> {
        let mut all = self.all(read);
        all.find(|definition| self.text(definition.name.into()) == Some(name))
    }
}

/// The number of records of a part; 0 where the header has a negative one.
fn count(lump: &Lump) -> usize {
    natural(lump.count)
}

/// A number of the header; 0 where it is negative there.
fn natural(number: usize) -> usize {
    i32::try_from(number).map_or(0, |_| number)
}

impl Machine {
    /// The records of the program file.
    pub fn records(&self) -> Program<'_> {
        Program::new(self.program())
    }

    /// The number of the first function with a name.
    pub fn find_function_by_name(&self, name: impl AsRef<[u8]>) -> Option<i64> {
        self.records().find_function_by_name(name)
    }

    /// The first definition of a cell with a name.
    pub fn find_definition_by_name(&self, name: impl AsRef<[u8]>) -> Option<Definition> {
        self.records().find_definition_by_name(name)
    }

    /// The first definition of a field with a name.
    pub fn find_field_by_name(&self, name: impl AsRef<[u8]>) -> Option<Definition> {
        self.records().find_field_by_name(name)
    }

    /// The first string number with a text.
    pub fn find_text(&self, text: impl AsRef<[u8]>) -> Option<i64> {
        self.records().find_text(text)
    }

    /// The text of a string number, as bytes: as [`Program::text`].
    pub fn text(&self, number: i64) -> Option<&[u8]> {
        self.records().text(number)
    }
}

//! Program files: a builder, and a view of what a file's bytes say.

/// A function's record.
#[derive(Clone, Default, Debug)]
pub struct Function {
    pub first: i32,
    pub local: i32,
    pub locals: i32,
    pub name: i32,
    pub source: i32,
    pub argc: i32,
    pub sizes: [u8; 8],
}

impl Function {
    /// How many cells the arguments fill.
    pub fn components(&self) -> usize {
        let argc = self.argc.clamp(0, 8) as usize;
        self.sizes[..argc].iter().map(|&n| n as usize).sum()
    }
}

/// A global or field definition: type, cell, name.
pub type Definition = (u16, u16, i32);

#[derive(Clone, Debug)]
pub struct Program {
    pub statements: Vec<[i16; 4]>,
    pub globaldefs: Vec<Definition>,
    pub fielddefs: Vec<Definition>,
    pub functions: Vec<Function>,
    pub strings: Vec<u8>,
    pub cells: Vec<u32>,
    pub entity_cells: i32,
}

impl Program {
    /// Function 0 of zeros, `Done 0 0 0` as statement 0, one empty string.
    pub fn new(cells: usize) -> Program {
        Program {
            statements: vec![[0; 4]],
            globaldefs: Vec::new(),
            fielddefs: Vec::new(),
            functions: vec![Function::default()],
            strings: vec![0],
            cells: vec![0; cells],
            entity_cells: 105,
        }
    }

    pub fn bytes(&self) -> Vec<u8> {
        let lumps = [
            bytes_of_statements(&self.statements),
            bytes_of_definitions(&self.globaldefs),
            bytes_of_definitions(&self.fielddefs),
            bytes_of_functions(&self.functions),
            self.strings.clone(),
            self.cells.iter().flat_map(|c| c.to_le_bytes()).collect(),
        ];
        let counts = [
            self.statements.len(),
            self.globaldefs.len(),
            self.fielddefs.len(),
            self.functions.len(),
            self.strings.len(),
            self.cells.len(),
        ];
        let mut header = vec![6, 5927];
        let mut at = HEADER;
        for (lump, count) in lumps.iter().zip(counts) {
            header.extend([at as i32, count as i32]);
            at += lump.len();
        }
        header.push(self.entity_cells);
        let mut bytes: Vec<u8> = header.iter().flat_map(|n| n.to_le_bytes()).collect();
        bytes.extend(lumps.concat());
        bytes
    }
}

fn bytes_of_statements(statements: &[[i16; 4]]) -> Vec<u8> {
    (statements.iter().flatten().flat_map(|n| n.to_le_bytes())).collect()
}

fn bytes_of_definitions(definitions: &[Definition]) -> Vec<u8> {
    let record = |&(type_, cell, name): &Definition| {
        let mut record = type_.to_le_bytes().to_vec();
        record.extend(cell.to_le_bytes());
        record.extend(name.to_le_bytes());
        record
    };
    definitions.iter().flat_map(record).collect()
}

fn bytes_of_functions(functions: &[Function]) -> Vec<u8> {
    let record = |f: &Function| {
        let numbers = [f.first, f.local, f.locals, 0, f.name, f.source, f.argc];
        let mut record: Vec<u8> = numbers.iter().flat_map(|n| n.to_le_bytes()).collect();
        record.extend(f.sizes);
        record
    };
    functions.iter().flat_map(record).collect()
}

fn is_void(type_: u16) -> bool {
    type_ & 0x7fff == 0
}

/// A whole file without its void global definitions: those after them move up, and their number is lower.
pub fn without_void_globals(bytes: &[u8]) -> Vec<u8> {
    let view = View(bytes);
    let first = view.offset(Lump::GlobalDefs) as usize;
    let records = bytes[first..].chunks(8).zip(view.definitions(Lump::GlobalDefs));
    let kept: Vec<&[u8]> = records.filter(|(_, (type_, _))| !is_void(*type_)).map(|(record, _)| record).collect();
    let mut without = bytes.to_vec();
    for (i, record) in kept.iter().enumerate() {
        without[first + 8 * i..][..8].copy_from_slice(record);
    }
    let count = 12 + 8 * Lump::GlobalDefs as usize;
    without[count..count + 4].copy_from_slice(&(kept.len() as i32).to_le_bytes());
    without
}

/// So many cells a file has at least: fewer are refused 10 (02, R-7).
pub const LEAST_CELLS: usize = 64;
/// So many are enough for the Rust.
const LEAST_IN_THE_RUST: usize = 36;

/// The header's length.
pub const HEADER: usize = 60;

/// The parts of a file, in the header's order.
#[derive(Clone, Copy)]
pub enum Lump {
    Statements = 0,
    GlobalDefs = 1,
    FieldDefs = 2,
    Functions = 3,
    Strings = 4,
    Cells = 5,
}

/// What a file's bytes say. Bytes past the end read as 0.
pub struct View<'a>(pub &'a [u8]);

impl View<'_> {
    fn i32_at(&self, at: usize) -> i32 {
        i32::from_le_bytes(std::array::from_fn(|i| self.byte(at + i)))
    }

    fn i16_at(&self, at: usize) -> i16 {
        i16::from_le_bytes([self.byte(at), self.byte(at + 1)])
    }

    fn byte(&self, at: usize) -> u8 {
        self.0.get(at).copied().unwrap_or(0)
    }

    pub fn offset(&self, lump: Lump) -> i32 {
        self.i32_at(8 + 8 * lump as usize)
    }

    pub fn count(&self, lump: Lump) -> i32 {
        self.i32_at(12 + 8 * lump as usize)
    }

    pub fn entity_cells(&self) -> i32 {
        self.i32_at(56)
    }

    /// The count of cells, 0 for a negative one.
    pub fn cells(&self) -> usize {
        self.count(Lump::Cells).max(0) as usize
    }

    /// Whether the count of cells is one that the Rust takes and R-7 refuses.
    pub fn has_cells_for_the_rust_alone(&self) -> bool {
        (LEAST_IN_THE_RUST..LEAST_CELLS).contains(&self.cells())
    }

    pub fn statement(&self, position: i64) -> Option<[i16; 4]> {
        if position < 0 || position >= self.count(Lump::Statements) as i64 {
            return None;
        }
        let at = self.offset(Lump::Statements) as usize + 8 * position as usize;
        Some(std::array::from_fn(|i| self.i16_at(at + 2 * i)))
    }

    pub fn function(&self, number: usize) -> Option<Function> {
        if number >= self.count(Lump::Functions).max(0) as usize {
            return None;
        }
        let at = self.offset(Lump::Functions) as usize + 36 * number;
        Some(Function {
            first: self.i32_at(at),
            local: self.i32_at(at + 4),
            locals: self.i32_at(at + 8),
            name: self.i32_at(at + 16),
            source: self.i32_at(at + 20),
            argc: self.i32_at(at + 24),
            sizes: std::array::from_fn(|i| self.byte(at + 28 + i)),
        })
    }

    /// Type and cell of each field definition.
    pub fn field_definitions(&self) -> Vec<(u16, u16)> {
        self.definitions(Lump::FieldDefs)
    }

    /// The type that the first definition of a cell gives it.
    pub fn global_type(&self, cell: i16) -> Option<u16> {
        let found = self.definitions(Lump::GlobalDefs).into_iter().find(|&(_, c)| c as i32 == cell as i32);
        found.map(|(type_, _)| type_ & 0x7fff)
    }

    /// Whether a global definition is void, its save flag apart.
    pub fn has_void_globals(&self) -> bool {
        self.definitions(Lump::GlobalDefs).iter().any(|&(type_, _)| is_void(type_))
    }

    fn definitions(&self, lump: Lump) -> Vec<(u16, u16)> {
        let (at, count) = (self.offset(lump).max(0) as usize, self.count(lump).max(0) as usize);
        let inside = count.min(self.0.len() / 8);
        (0..inside).map(|i| (self.i16_at(at + 8 * i) as u16, self.i16_at(at + 8 * i + 2) as u16)).collect()
    }

    /// The strings, where the file has them whole.
    pub fn strings(&self) -> Option<&[u8]> {
        let (at, count) = (self.offset(Lump::Strings), self.count(Lump::Strings));
        let end = at.checked_add(count)?;
        self.0.get(usize::try_from(at).ok()?..usize::try_from(end).ok()?)
    }
}

//! Program files made in Rust, for tests and examples.

pub use crate::program::Function;

/// The opcodes' names, by number.
#[rustfmt::skip]
pub const OPCODES: [&str; 66] = [
    "Done", "MulF", "MulV", "MulFV", "MulVF", "Div", "AddF", "AddV", "SubF", "SubV", "EqF", "EqV",
    "EqS", "EqEnt", "EqFnc", "NeF", "NeV", "NeS", "NeEnt", "NeFnc", "Le", "Ge", "Lt", "Gt",
    "LoadF", "LoadV", "LoadS", "LoadEnt", "LoadFld", "LoadFnc", "Address", "StoreF", "StoreV",
    "StoreS", "StoreEnt", "StoreFld", "StoreFnc", "StorePF", "StorePV", "StorePS", "StorePEnt",
    "StorePFld", "StorePFnc", "Return", "NotF", "NotV", "NotS", "NotEnt", "NotFnc", "If", "IfNot",
    "Call0", "Call1", "Call2", "Call3", "Call4", "Call5", "Call6", "Call7", "Call8", "State",
    "Goto", "And", "Or", "BitAnd", "BitOr",
];

/// A statement by its opcode's name.
///
/// ```
/// assert_eq!(host::assemble::statement("AddF", 28, 29, 30), [6, 28, 29, 30]);
/// ```
///
/// # Panics
///
/// Where there is no opcode of that name.
pub fn statement(name: &str, a: i16, b: i16, c: i16) -> [i16; 4] {
    let number = OPCODES.iter().position(|known| *known == name);
    let number = number.unwrap_or_else(|| panic!("there is no opcode {name}"));
    [number as i16, a, b, c]
}

/// A file in the making.
///
/// ```
/// use host::assemble::Assembly;
/// let file = Assembly { statements: vec![[0, 0, 0, 0]], ..Assembly::default() }.bytes();
/// assert_eq!(file.len(), 60 + 8 + 1 + 4 * 64);
/// ```
#[derive(Clone, Debug, PartialEq, Eq)]
pub struct Assembly {
    /// Opcode and three operands each.
    pub statements: Vec<[i16; 4]>,
    /// Type, cell and name of each.
    pub definitions: Vec<(u16, u16, i32)>,
    /// Type, place and name of each.
    pub fields: Vec<(u16, u16, i32)>,
    /// The functions.
    pub functions: Vec<Function>,
    /// The texts, each with a zero byte after it.
    pub strings: Vec<u8>,
    /// Starting cells that aren't 0: number and content. Those past the count are left out.
    pub cells: Vec<(usize, u32)>,
    /// The number of cells.
    pub cell_count: usize,
    /// The number of cells per entity.
    pub entity_cells: i32,
}

impl Default for Assembly {
    /// Nothing but 64 cells of 0, 105 cells per entity and the empty text.
    fn default() -> Assembly {
        Assembly {
            statements: Vec::new(),
            definitions: Vec::new(),
            fields: Vec::new(),
            functions: Vec::new(),
            strings: vec![0],
            cells: Vec::new(),
            cell_count: 64,
            entity_cells: 105,
        }
    }
}

impl Assembly {
    /// Adds a text to the strings, and gives its number.
    pub fn text(&mut self, text: impl AsRef<[u8]>) -> i32 {
        let number = self.strings.len() as i32;
        self.strings.extend_from_slice(text.as_ref());
        self.strings.push(0);
        number
    }

    /// The file: the header, then its six parts in the header's order, without gaps.
    pub fn bytes(&self) -> Vec<u8> {
        let parts = [
            (self.statements.len(), self.statement_bytes()),
            (self.definitions.len(), definition_bytes(&self.definitions)),
            (self.fields.len(), definition_bytes(&self.fields)),
            (self.functions.len(), self.function_bytes()),
            (self.strings.len(), self.strings.clone()),
            (self.cell_count, self.cell_bytes()),
        ];
        let mut file = Vec::new();
        put(&mut file, 6);
        put(&mut file, 5927);
        let mut offset = 60;
        for (count, bytes) in &parts {
            put(&mut file, offset);
            put(&mut file, *count as i32);
            offset += bytes.len() as i32;
        }
        put(&mut file, self.entity_cells);
        for (_, bytes) in parts {
            file.extend(bytes);
        }
        file
    }

    fn statement_bytes(&self) -> Vec<u8> {
        let numbers = self.statements.iter().flatten();
        numbers.flat_map(|number| number.to_le_bytes()).collect()
    }

    fn function_bytes(&self) -> Vec<u8> {
        let mut bytes = Vec::new();
        for function in &self.functions {
            let Function {
                first,
                local,
                locals,
                name,
                source,
                arguments,
                sizes,
            } = *function;
            let profile = 0;
            for number in [first, local, locals, profile, name, source, arguments] {
                put(&mut bytes, number);
            }
            bytes.extend(sizes);
        }
        bytes
    }

    fn cell_bytes(&self) -> Vec<u8> {
        let mut cells = vec![0; self.cell_count];
        for (cell, content) in &self.cells {
            if let Some(place) = cells.get_mut(*cell) {
                *place = *content;
            }
        }
        cells.into_iter().flat_map(u32::to_le_bytes).collect()
    }
}

fn put(bytes: &mut Vec<u8>, number: i32) {
    bytes.extend(number.to_le_bytes());
}

fn definition_bytes(definitions: &[(u16, u16, i32)]) -> Vec<u8> {
    let mut bytes = Vec::new();
    for (kind, cell, name) in definitions {
        bytes.extend(kind.to_le_bytes());
        bytes.extend(cell.to_le_bytes());
        put(&mut bytes, *name);
    }
    bytes
}

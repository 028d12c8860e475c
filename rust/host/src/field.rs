//! Fields of entities, for a host: by name and by type.

use std::error::Error;
use std::fmt;

use crate::machine::Machine;
use crate::program::Definition;
use crate::refusal::Refusal;

/// The types of definitions, by number.
const KINDS: [&str; 8] = [
    "void", "string", "float", "vector", "entity", "field", "function", "pointer",
];
const STRING: u16 = 1;
const FLOAT: u16 = 2;
const VECTOR: u16 = 3;
const ENTITY: u16 = 4;
const FUNCTION: u16 = 6;

/// Why a field of an entity can't be read or set. Nothing has changed.
#[derive(Clone, Copy, Debug, PartialEq, Eq, Hash)]
pub enum FieldError {
    /// The state and what is lent don't belong together, as before a load: 13.
    Refused(Refusal),
    /// The file has no field definition with that name.
    NoField,
    /// The entity is negative or not below the number of entities.
    NoEntity {
        /// The entity that was asked for.
        entity: i64,
        /// The number of entities.
        count: usize,
    },
    /// The field's definition has another type.
    OtherType {
        /// The type that was asked for, as in [`Definition::kind`].
        asked: u16,
        /// The definition's.
        defined: u16,
    },
    /// A cell of the field isn't below the file's cells per entity.
    OutsideEntity {
        /// The last cell of the field.
        cell: usize,
        /// The cells per entity.
        cells: usize,
    },
    /// The number of a text, an entity or a function is negative or over 2,147,483,647.
    Number(i64),
}

impl fmt::Display for FieldError {
    fn fmt(&self, f: &mut fmt::Formatter<'_>) -> fmt::Result {
        let name = |kind: u16| {
            KINDS
                .get(usize::from(kind))
                .unwrap_or(&"type that isn't listed")
        };
        match *self {
            FieldError::Refused(refusal) => refusal.fmt(f),
            FieldError::NoField => write!(f, "the file has no field definition with that name"),
            FieldError::NoEntity { entity, count } => {
                write!(f, "there is no entity {entity}: the entities are {count}")
            }
            FieldError::OtherType { asked, defined } => {
                write!(
                    f,
                    "the field's type is {}, not {}",
                    name(defined),
                    name(asked)
                )
            }
            FieldError::OutsideEntity { cell, cells } => {
                write!(f, "the field has cell {cell} of an entity of {cells} cells")
            }
            FieldError::Number(number) => {
                write!(
                    f,
                    "{number} is no number of a text, an entity or a function"
                )
            }
        }
    }
}

impl Error for FieldError {}

impl From<Refusal> for FieldError {
    fn from(refusal: Refusal) -> FieldError {
        FieldError::Refused(refusal)
    }
}

/// Whether a definition is of the type that is asked for, and the field's `count` cells lie in an entity of `cells`.
fn check(
    definition: &Definition,
    asked: u16,
    count: usize,
    cells: usize,
) -> Result<(), FieldError> {
    let defined = definition.kind;
    if defined != asked {
        return Err(FieldError::OtherType { asked, defined });
    }
    let cell = usize::from(definition.cell) + count - 1;
    if cell >= cells {
        return Err(FieldError::OutsideEntity { cell, cells });
    }
    Ok(())
}

/// A field of one entity, to be read: what [`Machine::field`] gives.
///
/// The type that is asked for must be the definition's: here float and vector don't pass for each other.
#[derive(Clone, Copy, Debug)]
pub struct Field<'a> {
    /// The cells of the entity, and of no other.
    cells: &'a [u32],
    definition: Definition,
}

impl Field<'_> {
    fn read<const N: usize>(&self, asked: u16) -> Result<[u32; N], FieldError> {
        check(&self.definition, asked, N, self.cells.len())?;
        let first = usize::from(self.definition.cell);
        Ok(std::array::from_fn(|i| self.cells[first + i]))
    }

    fn number(&self, asked: u16) -> Result<i64, FieldError> {
        let [bits] = self.read(asked)?;
        Ok(i64::from(bits as i32))
    }

    /// The definition that was found.
    pub fn definition(&self) -> Definition {
        self.definition
    }

    /// The float.
    pub fn float(&self) -> Result<f32, FieldError> {
        let [bits] = self.read(FLOAT)?;
        Ok(f32::from_bits(bits))
    }

    /// The vector.
    pub fn vector(&self) -> Result<[f32; 3], FieldError> {
        Ok(self.read(VECTOR)?.map(f32::from_bits))
    }

    /// The string number, of which [`Machine::text`] gives the text.
    pub fn text(&self) -> Result<i64, FieldError> {
        self.number(STRING)
    }

    /// The number of the entity that the field names.
    pub fn entity(&self) -> Result<i64, FieldError> {
        self.number(ENTITY)
    }

    /// The number of the function, which may be entered or called by it.
    pub fn function(&self) -> Result<i64, FieldError> {
        self.number(FUNCTION)
    }
}

/// A field of one entity, to be set: what [`Machine::field_mut`] gives. The types are as in [`Field`].
#[derive(Debug)]
pub struct FieldMut<'a> {
    /// The cells of the entity, and of no other.
    cells: &'a mut [u32],
    definition: Definition,
}

impl FieldMut<'_> {
    fn set<const N: usize>(&mut self, asked: u16, values: [u32; N]) -> Result<(), FieldError> {
        check(&self.definition, asked, N, self.cells.len())?;
        let first = usize::from(self.definition.cell);
        self.cells[first..first + N].copy_from_slice(&values);
        Ok(())
    }

    fn set_number(&mut self, asked: u16, number: i64) -> Result<(), FieldError> {
        let bits = i32::try_from(number)
            .ok()
            .and_then(|n| u32::try_from(n).ok());
        self.set(asked, [bits.ok_or(FieldError::Number(number))?])
    }

    /// Sets the float.
    pub fn set_float(&mut self, value: f32) -> Result<(), FieldError> {
        self.set(FLOAT, [value.to_bits()])
    }

    /// Sets the vector, all of it or, where a cell of it isn't in the entity, nothing.
    pub fn set_vector(&mut self, value: [f32; 3]) -> Result<(), FieldError> {
        self.set(VECTOR, value.map(f32::to_bits))
    }

    /// Sets the string number, as [`Machine::find_text`] finds it. Whether it is in the strings isn't looked at; a
    /// statement that compares or tests one that isn't is refused 33.
    pub fn set_text(&mut self, number: i64) -> Result<(), FieldError> {
        self.set_number(STRING, number)
    }

    /// Sets the number of the entity that the field names.
    pub fn set_entity(&mut self, number: i64) -> Result<(), FieldError> {
        self.set_number(ENTITY, number)
    }

    /// Sets the number of the function, as [`Machine::find_function_by_name`] finds it.
    pub fn set_function(&mut self, number: i64) -> Result<(), FieldError> {
        self.set_number(FUNCTION, number)
    }
}

impl Machine {
    /// A field of an entity, by the name of its definition, to be read.
    ///
    /// ```
    /// use host::assemble::Assembly;
    /// use host::{FieldError, Machine, Settings, CELLS, SAVED_STORE};
    ///
    /// let mut file = Assembly::default();
    /// let (frags, netname, flag) = (file.text("frags"), file.text("netname"), file.text("red flag"));
    /// file.fields = vec![(2, 49, frags), (1, 74, netname)];
    /// let entities = vec![0; 3 * 105];
    /// let mut machine = Machine::with_entities(file.bytes(), vec![0; CELLS], vec![0; SAVED_STORE], entities);
    /// machine.load_with(Settings { entities: 3, ..Settings::default() })?;
    ///
    /// machine.field_mut(2, "frags")?.set_float(7.0)?;
    /// machine.field_mut(2, "netname")?.set_text(flag.into())?;
    /// assert_eq!(machine.field(2, "frags")?.float()?, 7.0);
    /// assert_eq!(machine.entities()[2 * 105 + 49], 7.0_f32.to_bits());
    /// assert_eq!(machine.text(machine.field(2, "netname")?.text()?), Some(&b"red flag"[..]));
    ///
    /// assert_eq!(machine.field(2, "goals").err(), Some(FieldError::NoField));
    /// assert_eq!(machine.field(3, "frags").err(), Some(FieldError::NoEntity { entity: 3, count: 3 }));
    /// let error = machine.field(2, "frags")?.vector().unwrap_err();
    /// assert_eq!(error.to_string(), "the field's type is float, not vector");
    /// # Ok::<(), Box<dyn std::error::Error>>(())
    /// ```
    pub fn field(&self, entity: i64, name: impl AsRef<[u8]>) -> Result<Field<'_>, FieldError> {
        self.field_of(entity, self.field_definition(name)?)
    }

    /// A field of an entity, by the name of its definition, to be set.
    pub fn field_mut(
        &mut self,
        entity: i64,
        name: impl AsRef<[u8]>,
    ) -> Result<FieldMut<'_>, FieldError> {
        self.field_mut_of(entity, self.field_definition(name)?)
    }

    /// As [`Machine::field`], by a definition that was found before ([`Machine::find_field_by_name`]): for a host that
    /// reads a field of many entities.
    pub fn field_of(&self, entity: i64, definition: Definition) -> Result<Field<'_>, FieldError> {
        let first = self.first_cell(entity)?;
        let cells = &self.entities()[first..first + self.entity_cells()];
        Ok(Field { cells, definition })
    }

    /// As [`Machine::field_mut`], by a definition that was found before.
    pub fn field_mut_of(
        &mut self,
        entity: i64,
        definition: Definition,
    ) -> Result<FieldMut<'_>, FieldError> {
        let first = self.first_cell(entity)?;
        let end = first + self.entity_cells();
        let cells = &mut self.entities_mut()[first..end];
        Ok(FieldMut { cells, definition })
    }

    fn field_definition(&self, name: impl AsRef<[u8]>) -> Result<Definition, FieldError> {
        self.find_field_by_name(name).ok_or(FieldError::NoField)
    }

    /// Where an entity's cells begin among the lent ones, after check 13.
    fn first_cell(&self, entity: i64) -> Result<usize, FieldError> {
        // Check 13, which every operation makes first: it says that the entities' cells are lent.
        self.read(0)?;
        let count = self.entity_count();
        let found = usize::try_from(entity)
            .ok()
            .filter(|number| *number < count);
        let number = found.ok_or(FieldError::NoEntity { entity, count })?;
        Ok(number * self.entity_cells())
    }
}

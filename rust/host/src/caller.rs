//! What a host may do while it carries out what a call handed over.

use crate::call::{CallError, Place};
use crate::field::{Field, FieldError, FieldMut};
use crate::machine::{Handover, Machine};
use crate::program::{Definition, Program};
use crate::refusal::Refusal;
use crate::settings::Settings;

/// The machine as the closure of a [`Machine::call`] has it: cells, fields of entities, names and texts, and calls of its
/// own.
///
/// It has no access to the program's bytes, the buffers as a whole, the frames or the context, and can neither enter
/// a function without leaving it nor leave one that it hasn't entered. So no closure keeps a call from ending at the
/// depth where it began.
///
/// ```
/// fn builtin(machine: &mut host::Caller<'_>) -> Result<(), host::Refusal> {
///     let [x, y, z] = machine.read_vector(4)?;
///     machine.write_float(1, (x * x + y * y + z * z).sqrt())
/// }
///
/// /// `setorigin(entity, vector)`: a field of the entity is set.
/// fn setorigin(machine: &mut host::Caller<'_>) -> Result<(), host::FieldError> {
///     let (entity, origin) = (machine.read(4)?, machine.read_vector(7)?);
///     machine.field_mut(entity.into(), "origin")?.set_vector(origin)
/// }
/// ```
#[derive(Debug)]
pub struct Caller<'a> {
    machine: &'a mut Machine,
    place: Place,
}

impl<'a> Caller<'a> {
    pub(crate) fn new(machine: &'a mut Machine, place: Place) -> Caller<'a> {
        Caller { machine, place }
    }

    /// The position of the statement that was handed over. The machine is already at the one after it.
    pub fn position(&self) -> i64 {
        self.place.position
    }

    /// The number of the function that the statement is in.
    pub fn function(&self) -> usize {
        self.place.function
    }

    /// The call depth.
    pub fn depth(&self) -> usize {
        self.machine.depth()
    }

    /// The settings that the load was given. A call within the call goes by the same depth and saved count, and its limit is at
    /// most the same [`Settings::limit`].
    pub fn settings(&self) -> Settings {
        self.machine.settings()
    }

    /// The 32 bits of a cell.
    pub fn read(&self, address: i64) -> Result<u32, Refusal> {
        self.machine.read(address)
    }

    /// Sets the 32 bits of a cell, whatever its type.
    pub fn write(&mut self, address: i64, value: u32) -> Result<(), Refusal> {
        self.machine.write(address, value)
    }

    /// Sets the 32 bits of cells in one operation, all or none: as [`Machine::write_all`].
    pub fn write_all(&mut self, pairs: &[(i64, u32)]) -> Result<(), Refusal> {
        self.machine.write_all(pairs)
    }

    /// The cell as a float.
    pub fn read_float(&self, address: i64) -> Result<f32, Refusal> {
        self.machine.read_float(address)
    }

    /// Sets the cell to a float.
    pub fn write_float(&mut self, address: i64, value: f32) -> Result<(), Refusal> {
        self.machine.write_float(address, value)
    }

    /// The vector in a cell and the two after it.
    pub fn read_vector(&self, address: i64) -> Result<[f32; 3], Refusal> {
        self.machine.read_vector(address)
    }

    /// Sets a cell and the two after it to a vector. Where one of them isn't there, nothing is set.
    pub fn write_vector(&mut self, address: i64, value: [f32; 3]) -> Result<(), Refusal> {
        self.machine.write_vector(address, value)
    }

    /// The number of entities.
    pub fn entity_count(&self) -> usize {
        self.machine.entity_count()
    }

    /// The number of cells per entity.
    pub fn entity_cells(&self) -> usize {
        self.machine.entity_cells()
    }

    /// A field of an entity, by name, to be read: as [`Machine::field`].
    pub fn field(&self, entity: i64, name: impl AsRef<[u8]>) -> Result<Field<'_>, FieldError> {
        self.machine.field(entity, name)
    }

    /// A field of an entity, by name, to be set: as [`Machine::field_mut`].
    pub fn field_mut(
        &mut self,
        entity: i64,
        name: impl AsRef<[u8]>,
    ) -> Result<FieldMut<'_>, FieldError> {
        self.machine.field_mut(entity, name)
    }

    /// A field of an entity, by a definition that was found before: as [`Machine::field_of`].
    pub fn field_of(&self, entity: i64, definition: Definition) -> Result<Field<'_>, FieldError> {
        self.machine.field_of(entity, definition)
    }

    /// A field of an entity, by a definition that was found before: as [`Machine::field_mut_of`].
    pub fn field_mut_of(
        &mut self,
        entity: i64,
        definition: Definition,
    ) -> Result<FieldMut<'_>, FieldError> {
        self.machine.field_mut_of(entity, definition)
    }

    /// The records of the program file.
    pub fn records(&self) -> Program<'_> {
        self.machine.records()
    }

    /// The number of the first function with a name.
    pub fn find_function_by_name(&self, name: impl AsRef<[u8]>) -> Option<i64> {
        self.machine.find_function_by_name(name)
    }

    /// The first definition of a cell with a name.
    pub fn find_definition_by_name(&self, name: impl AsRef<[u8]>) -> Option<Definition> {
        self.machine.find_definition_by_name(name)
    }

    /// The first definition of a field with a name.
    pub fn find_field_by_name(&self, name: impl AsRef<[u8]>) -> Option<Definition> {
        self.machine.find_field_by_name(name)
    }

    /// The first string number with a text.
    pub fn find_text(&self, text: impl AsRef<[u8]>) -> Option<i64> {
        self.machine.find_text(text)
    }

    /// The text of a string number, as bytes.
    pub fn text(&self, number: i64) -> Option<&[u8]> {
        self.machine.text(number)
    }

    /// A call within the call, as [`Machine::call`]. Its statements count for its own limit alone.
    pub fn call<E>(
        &mut self,
        function: i64,
        limit: i64,
        host: impl FnMut(Handover, &mut Caller<'_>) -> Result<(), E>,
    ) -> Result<u32, CallError<E>> {
        self.machine.call(function, limit, host)
    }
}

/// What a [`Caller`] hasn't: none of these compiles, but the first and the last one.
///
/// ```
/// fn builtin(machine: &mut host::Caller<'_>) { machine.write(1, 0).ok(); }
/// ```
/// ```compile_fail
/// fn builtin(machine: &mut host::Caller<'_>) { machine.program_mut().clear(); }
/// ```
/// ```compile_fail
/// fn builtin(machine: &mut host::Caller<'_>) { machine.cells_mut().clear(); }
/// ```
/// ```compile_fail
/// fn builtin(machine: &mut host::Caller<'_>) { machine.saved_mut().clear(); }
/// ```
/// ```compile_fail
/// fn builtin(machine: &mut host::Caller<'_>) { machine.entities_mut().clear(); }
/// ```
/// ```compile_fail
/// fn builtin(machine: &mut host::Caller<'_>) { machine.set_context(host::Context::default()); }
/// ```
/// ```compile_fail
/// fn builtin(machine: &mut host::Caller<'_>) { machine.load().ok(); }
/// ```
/// ```compile_fail
/// fn builtin(machine: &mut host::Caller<'_>) { machine.enter(1).ok(); }
/// ```
/// ```compile_fail
/// fn builtin(machine: &mut host::Caller<'_>) { machine.abandon(0).ok(); }
/// ```
/// ```compile_fail
/// fn builtin(machine: &mut host::Caller<'_>) { machine.carry_on().ok(); }
/// ```
/// ```compile_fail
/// fn builtin(machine: &mut host::Caller<'_>) { machine.statement(); }
/// ```
/// ```compile_fail
/// fn builtin(machine: &mut host::Caller<'_>) { machine.run(0, 10); }
/// ```
/// ```compile_fail
/// fn builtin(machine: &mut host::Caller<'_>) { machine.unpack().ok(); }
/// ```
/// ```compile_fail
/// fn builtin(machine: &mut host::Caller<'_>) { machine.set_engine(host::Engine::First); }
/// ```
/// ```compile_fail
/// fn builtins_of_two(one: &mut host::Machine, other: &mut host::Machine) {
///     let _ = one.call(1, 10, |_, a| {
///         let _ = other.call(1, 10, |_, b| Ok::<(), ()>(std::mem::swap(a, b)));
///         Ok::<(), ()>(())
///     });
/// }
/// ```
/// ```
/// fn builtins_of_two(one: &mut host::Machine, other: &mut host::Machine) {
///     let _ = one.call(1, 10, |_, a| {
///         let _ = other.call(1, 10, |_, b| b.write(1, a.read(1)?));
///         Ok::<(), ()>(())
///     });
/// }
/// ```
#[cfg(doctest)]
struct Missing;

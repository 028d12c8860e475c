//! The context as the library lays it out.

/// The number of frames in a context, and the greatest call depth that a load may be given.
pub const FRAMES: usize = 31;

/// Where the records of a part of the file begin, and how many there are.
#[repr(C)]
#[derive(Clone, Copy, Debug, Default, PartialEq, Eq)]
pub struct Lump {
    /// The offset in bytes.
    pub offset: usize,
    /// The number of records.
    pub count: usize,
}

/// What a load recorded of the file. Every operation is refused 13 where the file isn't so any more.
#[repr(C)]
#[derive(Clone, Copy, Debug, Default, PartialEq, Eq)]
pub struct FileRecord {
    /// The length in bytes.
    pub length: usize,
    /// The statements.
    pub statements: Lump,
    /// The global definitions.
    pub globaldefs: Lump,
    /// The field definitions.
    pub fielddefs: Lump,
    /// The functions.
    pub functions: Lump,
    /// The strings.
    pub strings: Lump,
    /// The cells.
    pub globals: Lump,
    /// The number of cells per entity.
    pub entityfields: usize,
}

/// The settings that the load was given, [`Settings`](crate::Settings) without the number of entities. Every operation is
/// refused 13 where one of them is out of its range; the check number isn't compared with the file's again.
#[repr(C)]
#[derive(Clone, Copy, Debug, Default, PartialEq, Eq)]
pub struct HeldSettings {
    /// The check number, at most 65,535.
    pub check_number: usize,
    /// The greatest call depth, 1 to [`FRAMES`].
    pub depth: usize,
    /// The greatest number of saved cells, at most 2,048.
    pub saved: usize,
    /// The greatest limit of a run, 1 to 99,999.
    pub limit: usize,
}

/// A call that waits.
#[repr(C)]
#[derive(Clone, Copy, Debug, Default, PartialEq, Eq)]
pub struct StackFrame {
    /// The position to go back to.
    pub instr_id: i64,
    /// The function to go back into.
    pub func_id: usize,
}

/// All that an operation leaves for the next one, beside the lent buffers.
///
/// A host has no need to look into it. One that keeps and restores states, or makes them up, may: whatever stands in
/// a context, the operations are defined on it, and where it can't be a loaded program's state they are refused 13.
#[repr(C)]
#[derive(Clone, Copy, Debug, Default, PartialEq, Eq)]
pub struct Context {
    /// What the load recorded of the file.
    pub file: FileRecord,
    /// The settings that the load was given.
    pub settings: HeldSettings,
    /// The number of the statement that is next.
    pub pc: i64,
    /// The number of the function that is being executed.
    pub current_function: usize,
    /// How many frames are in use: the call depth, at most the settings'.
    pub depth: usize,
    /// How many cells of the saved store are in use, at most as many as the settings say.
    pub saved: usize,
    /// The number of entities, as given at load.
    pub entity_count: usize,
    /// The frames, the lowest first. Those at the depth and above are zeros.
    pub frames: [StackFrame; FRAMES],
}

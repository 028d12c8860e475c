//! The static library's functions, and the processor's floating-point mode. This is the only module with `unsafe` in
//! it.
//!
//! Why each call is sound: a slice is handed over as its pointer and its length, and the pointer of a Rust slice is
//! never null and is valid for that length. The borrows of one call are of different buffers, and `&mut` where the
//! library writes, so that nothing else reads or writes them meanwhile; the library keeps no pointer after the call.
//! The functions have no precondition (`crates/host/src/lib.rt`: no `requires`), every number is a value of its
//! type, and the structs have C's layout on both sides, which [`layout`] has compared field by field before the first
//! call.
//!
//! A struct of more than 16 bytes is returned through a pointer that the caller gives as the first parameter (System V
//! ABI for x86-64). The operations are declared so here: each then writes its answer where the machine keeps it, and the
//! 680 bytes of a context aren't copied once more.

use std::arch::asm;
use std::mem::MaybeUninit;
use std::sync::OnceLock;

use crate::context::{Context, FileRecord, HeldSettings};
use crate::layout::{self, LayoutError};
use crate::refusal::Refusal;

/// The context after an operation, and its answer.
#[repr(C)]
#[derive(Clone, Copy, Debug, Default, PartialEq, Eq)]
pub struct Reply {
    pub context: Context,
    pub answer: Answer,
}

/// An answer in three numbers.
#[repr(C)]
#[derive(Clone, Copy, Debug, Default, PartialEq, Eq)]
pub struct Answer {
    /// One of the words below.
    pub word: u32,
    /// The refusal's, builtin's or opcode's number, the cell that was read, or the length that was written; else 0.
    pub detail: u32,
    /// How many statements a run completed; else 0.
    pub count: u32,
}

/// A record of the file, and whether it is there.
#[repr(C)]
#[derive(Clone, Copy, Debug)]
pub struct Found<T> {
    /// 1 where the record is there. Where it is 0, the record is of zeros.
    pub found: u32,
    /// Why it isn't there: document 01's number. 0 where it is, and for a definition that isn't, which has none.
    pub refusal: u32,
    pub record: T,
}

impl<T> Found<T> {
    fn record(self) -> Option<T> {
        (self.found == 1).then_some(self.record)
    }
}

/// A statement. All numbers of records are unsigned here, whatever they mean.
#[repr(C)]
#[derive(Clone, Copy, Debug)]
pub struct StatementRecord {
    pub opcode: u16,
    pub arg1: u16,
    pub arg2: u16,
    pub arg3: u16,
}

/// A function, without its profile number.
#[repr(C)]
#[derive(Clone, Copy, Debug)]
pub struct FunctionRecord {
    pub first: u32,
    pub start: u32,
    pub locals: u32,
    pub name: u32,
    pub srcfile: u32,
    pub argc: u32,
    pub argsz: [u8; 8],
}

/// A definition of a cell or of a field; bit 15 of the kind is the save flag.
#[repr(C)]
#[derive(Clone, Copy, Debug)]
pub struct DefinitionRecord {
    pub kind: u16,
    pub offset: u16,
    pub name: u32,
}

/// What was written into a buffer, by a function that takes no context.
#[repr(C)]
#[derive(Clone, Copy, Debug)]
pub struct WriteReply {
    /// How many bytes were written; 0 where it was refused.
    pub length: usize,
    /// The refusal's number; 0 where there is none.
    pub refusal: u32,
}

impl WriteReply {
    /// The length, or why nothing was written.
    pub fn written(self) -> Result<usize, Refusal> {
        match self.refusal {
            0 => Ok(self.length),
            number => Err(Refusal::new(number)),
        }
    }
}

/// All structs that the library answers, as `host_layout` gives them.
#[repr(C)]
pub struct Structs {
    pub reply: Reply,
    pub header: Found<FileRecord>,
    pub statement: Found<StatementRecord>,
    pub function: Found<FunctionRecord>,
    pub definition: Found<DefinitionRecord>,
    pub written: WriteReply,
}

/// The word of what is accepted or completed.
pub const ACCEPTED: u32 = 0;
/// The word of a run that reached its target depth.
pub const ENDED: u32 = 1;
/// The word of a run that completed as many statements as its limit.
pub const SPENT: u32 = 2;
/// The word of what is refused.
pub const REFUSED: u32 = 3;
/// The word of what is handed over as a builtin.
pub const BUILTIN: u32 = 4;
/// The word of what is handed over as an opcode.
pub const OPCODE: u32 = 5;

#[rustfmt::skip]
extern "C" {
    fn host_layout(out: *mut u8) -> *mut u8;
    fn host_load(out: *mut Reply, settings: HeldSettings, file: *const u8, file_len: usize, number: i64, cells: *mut u32, cells_len: usize, saved: *const u32, saved_len: usize, entities: *const u32, entities_len: usize) -> *mut Reply;
    fn host_enter(out: *mut Reply, context: Context, file: *const u8, file_len: usize, function: i64, cells: *mut u32, cells_len: usize, saved: *mut u32, saved_len: usize, entities: *const u32, entities_len: usize) -> *mut Reply;
    fn host_statement(out: *mut Reply, context: Context, file: *const u8, file_len: usize, cells: *mut u32, cells_len: usize, saved: *mut u32, saved_len: usize, entities: *mut u32, entities_len: usize) -> *mut Reply;
    fn host_run(out: *mut Reply, context: Context, file: *const u8, file_len: usize, target: i64, limit: i64, cells: *mut u32, cells_len: usize, saved: *mut u32, saved_len: usize, entities: *mut u32, entities_len: usize) -> *mut Reply;
    fn host_run_unpacked(out: *mut Reply, context: Context, file: *const u8, file_len: usize, buffer: *const u16, buffer_len: usize, target: i64, limit: i64, cells: *mut u32, cells_len: usize, saved: *mut u32, saved_len: usize, entities: *mut u32, entities_len: usize) -> *mut Reply;
    fn host_carry_on(out: *mut Reply, context: Context, file: *const u8, file_len: usize, cells: *const u32, cells_len: usize, saved: *const u32, saved_len: usize, entities: *const u32, entities_len: usize) -> *mut Reply;
    fn host_abandon(out: *mut Reply, context: Context, file: *const u8, file_len: usize, target: i64, cells: *mut u32, cells_len: usize, saved: *const u32, saved_len: usize, entities: *const u32, entities_len: usize) -> *mut Reply;
    fn host_read(out: *mut Reply, context: Context, file: *const u8, file_len: usize, address: i64, cells: *const u32, cells_len: usize, saved: *const u32, saved_len: usize, entities: *const u32, entities_len: usize) -> *mut Reply;
    fn host_write(out: *mut Reply, context: Context, file: *const u8, file_len: usize, address: i64, value: u32, cells: *mut u32, cells_len: usize, saved: *const u32, saved_len: usize, entities: *const u32, entities_len: usize) -> *mut Reply;
    fn host_write_all(out: *mut Reply, context: Context, file: *const u8, file_len: usize, numbers: *const i64, numbers_len: usize, cells: *mut u32, cells_len: usize, saved: *const u32, saved_len: usize, entities: *const u32, entities_len: usize) -> *mut Reply;
    fn host_write_file(out: *mut Reply, context: Context, file: *const u8, file_len: usize, cells: *const u32, cells_len: usize, saved: *const u32, saved_len: usize, entities: *const u32, entities_len: usize, output: *mut u8, output_len: usize) -> *mut Reply;
    fn host_unpack(out: *mut Reply, context: Context, file: *const u8, file_len: usize, buffer: *mut u16, buffer_len: usize, cells: *const u32, cells_len: usize, saved: *const u32, saved_len: usize, entities: *const u32, entities_len: usize) -> *mut Reply;
    fn host_sentence(word: u32, detail: u32, count: u32, position: i64, function: usize, display: *mut u8, display_len: usize) -> WriteReply;
    fn host_make_file(seed: u32, n: i64, output: *mut u8, output_len: usize) -> WriteReply;
    fn host_read_header(file: *const u8, file_len: usize) -> Found<FileRecord>;
    fn host_read_statement(file: *const u8, file_len: usize, recorded: FileRecord, pc: i64) -> Found<StatementRecord>;
    fn host_read_function(file: *const u8, file_len: usize, recorded: FileRecord, id: i64) -> Found<FunctionRecord>;
    fn host_read_definition(file: *const u8, file_len: usize, recorded: FileRecord, index: i64) -> Found<DefinitionRecord>;
    fn host_read_field(file: *const u8, file_len: usize, recorded: FileRecord, index: i64) -> Found<DefinitionRecord>;
}

/// Whether the library that is linked lays its structs out as this crate does. It is compared once.
pub fn layout() -> Result<(), &'static LayoutError> {
    static COMPARED: OnceLock<Result<(), LayoutError>> = OnceLock::new();
    let compared = COMPARED.get_or_init(|| layout::compare(&numbered()));
    compared.as_ref().copied()
}

/// The bytes that `host_layout` writes, in room that it doesn't fill, each byte of the rest being [`layout::FILL`].
pub fn numbered() -> Vec<u8> {
    // 64-bit numbers, for their alignment.
    let mut room = vec![u64::from_ne_bytes([layout::FILL; 8]); layout::ROOM / 8];
    // SAFETY: `room` is aligned for the struct, and many times longer than it.
    unsafe { host_layout(room.as_mut_ptr().cast()) };
    room.into_iter().flat_map(u64::to_ne_bytes).collect()
}

/// No function of a library with another layout is called.
fn assert_layout() {
    if let Err(error) = layout() {
        panic!("{error}");
    }
}

/// The processor's control and status register for floats, of this thread.
pub fn mxcsr() -> u32 {
    let mut bits: u32 = 0;
    // SAFETY: the instruction writes the register's four bytes to the address, and does nothing else.
    unsafe { asm!("stmxcsr [{}]", in(reg) &mut bits, options(nostack, preserves_flags)) };
    bits
}

pub fn load(
    settings: HeldSettings,
    file: &[u8],
    number: i64,
    cells: &mut [u32],
    saved: &[u32],
    entities: &[u32],
) -> Reply {
    assert_layout();
    let mut reply = MaybeUninit::uninit();
    // SAFETY: see the module's text. The function writes the whole answer.
    unsafe {
        host_load(
            reply.as_mut_ptr(),
            settings,
            file.as_ptr(),
            file.len(),
            number,
            cells.as_mut_ptr(),
            cells.len(),
            saved.as_ptr(),
            saved.len(),
            entities.as_ptr(),
            entities.len(),
        );
        reply.assume_init()
    }
}

pub fn enter(
    reply: &mut Reply,
    file: &[u8],
    function: i64,
    cells: &mut [u32],
    saved: &mut [u32],
    entities: &[u32],
) {
    assert_layout();
    let context = reply.context;
    // SAFETY: see the module's text.
    unsafe {
        host_enter(
            reply,
            context,
            file.as_ptr(),
            file.len(),
            function,
            cells.as_mut_ptr(),
            cells.len(),
            saved.as_mut_ptr(),
            saved.len(),
            entities.as_ptr(),
            entities.len(),
        );
    }
}

pub fn statement(
    reply: &mut Reply,
    file: &[u8],
    cells: &mut [u32],
    saved: &mut [u32],
    entities: &mut [u32],
) {
    assert_layout();
    let context = reply.context;
    // SAFETY: see the module's text.
    unsafe {
        host_statement(
            reply,
            context,
            file.as_ptr(),
            file.len(),
            cells.as_mut_ptr(),
            cells.len(),
            saved.as_mut_ptr(),
            saved.len(),
            entities.as_mut_ptr(),
            entities.len(),
        );
    }
}

pub fn run(
    reply: &mut Reply,
    file: &[u8],
    target: i64,
    limit: i64,
    cells: &mut [u32],
    saved: &mut [u32],
    entities: &mut [u32],
) {
    assert_layout();
    let context = reply.context;
    // SAFETY: see the module's text.
    unsafe {
        host_run(
            reply,
            context,
            file.as_ptr(),
            file.len(),
            target,
            limit,
            cells.as_mut_ptr(),
            cells.len(),
            saved.as_mut_ptr(),
            saved.len(),
            entities.as_mut_ptr(),
            entities.len(),
        );
    }
}

/// A run of the second engine, from the buffer.
#[allow(clippy::too_many_arguments)]
pub fn run_unpacked(
    reply: &mut Reply,
    file: &[u8],
    buffer: &[u16],
    target: i64,
    limit: i64,
    cells: &mut [u32],
    saved: &mut [u32],
    entities: &mut [u32],
) {
    assert_layout();
    let context = reply.context;
    // SAFETY: see the module's text.
    unsafe {
        host_run_unpacked(
            reply,
            context,
            file.as_ptr(),
            file.len(),
            buffer.as_ptr(),
            buffer.len(),
            target,
            limit,
            cells.as_mut_ptr(),
            cells.len(),
            saved.as_mut_ptr(),
            saved.len(),
            entities.as_mut_ptr(),
            entities.len(),
        );
    }
}

pub fn carry_on(reply: &mut Reply, file: &[u8], cells: &[u32], saved: &[u32], entities: &[u32]) {
    assert_layout();
    let context = reply.context;
    // SAFETY: see the module's text.
    unsafe {
        host_carry_on(
            reply,
            context,
            file.as_ptr(),
            file.len(),
            cells.as_ptr(),
            cells.len(),
            saved.as_ptr(),
            saved.len(),
            entities.as_ptr(),
            entities.len(),
        );
    }
}

pub fn abandon(
    reply: &mut Reply,
    file: &[u8],
    target: i64,
    cells: &mut [u32],
    saved: &[u32],
    entities: &[u32],
) {
    assert_layout();
    let context = reply.context;
    // SAFETY: see the module's text.
    unsafe {
        host_abandon(
            reply,
            context,
            file.as_ptr(),
            file.len(),
            target,
            cells.as_mut_ptr(),
            cells.len(),
            saved.as_ptr(),
            saved.len(),
            entities.as_ptr(),
            entities.len(),
        );
    }
}

/// The context after a read is the one before it, and isn't given back.
pub fn read(
    context: &Context,
    file: &[u8],
    address: i64,
    cells: &[u32],
    saved: &[u32],
    entities: &[u32],
) -> Answer {
    assert_layout();
    let mut reply = MaybeUninit::<Reply>::uninit();
    // SAFETY: see the module's text. The function writes the whole answer.
    unsafe {
        host_read(
            reply.as_mut_ptr(),
            *context,
            file.as_ptr(),
            file.len(),
            address,
            cells.as_ptr(),
            cells.len(),
            saved.as_ptr(),
            saved.len(),
            entities.as_ptr(),
            entities.len(),
        );
        reply.assume_init_ref().answer
    }
}

/// The context after a write is the one before it, and isn't given back.
pub fn write(
    context: &Context,
    file: &[u8],
    address: i64,
    value: u32,
    cells: &mut [u32],
    saved: &[u32],
    entities: &[u32],
) -> Answer {
    assert_layout();
    let mut reply = MaybeUninit::<Reply>::uninit();
    // SAFETY: see the module's text. The function writes the whole answer.
    unsafe {
        host_write(
            reply.as_mut_ptr(),
            *context,
            file.as_ptr(),
            file.len(),
            address,
            value,
            cells.as_mut_ptr(),
            cells.len(),
            saved.as_ptr(),
            saved.len(),
            entities.as_ptr(),
            entities.len(),
        );
        reply.assume_init_ref().answer
    }
}

/// The context after it is the one before it, and isn't given back.
pub fn write_all(
    context: &Context,
    file: &[u8],
    numbers: &[i64],
    cells: &mut [u32],
    saved: &[u32],
    entities: &[u32],
) -> Answer {
    assert_layout();
    let mut reply = MaybeUninit::<Reply>::uninit();
    // SAFETY: see the module's text. The function writes the whole answer.
    unsafe {
        host_write_all(
            reply.as_mut_ptr(),
            *context,
            file.as_ptr(),
            file.len(),
            numbers.as_ptr(),
            numbers.len(),
            cells.as_mut_ptr(),
            cells.len(),
            saved.as_ptr(),
            saved.len(),
            entities.as_ptr(),
            entities.len(),
        );
        reply.assume_init_ref().answer
    }
}

/// The context after it is the one before it, and isn't given back.
pub fn write_file(
    context: &Context,
    file: &[u8],
    cells: &[u32],
    saved: &[u32],
    entities: &[u32],
    output: &mut [u8],
) -> Answer {
    assert_layout();
    let mut reply = MaybeUninit::<Reply>::uninit();
    // SAFETY: see the module's text. The function writes the whole answer.
    unsafe {
        host_write_file(
            reply.as_mut_ptr(),
            *context,
            file.as_ptr(),
            file.len(),
            cells.as_ptr(),
            cells.len(),
            saved.as_ptr(),
            saved.len(),
            entities.as_ptr(),
            entities.len(),
            output.as_mut_ptr(),
            output.len(),
        );
        reply.assume_init_ref().answer
    }
}

/// The context after it is the one before it, and isn't given back.
pub fn unpack(
    context: &Context,
    file: &[u8],
    buffer: &mut [u16],
    cells: &[u32],
    saved: &[u32],
    entities: &[u32],
) -> Answer {
    assert_layout();
    let mut reply = MaybeUninit::<Reply>::uninit();
    // SAFETY: see the module's text. The function writes the whole answer.
    unsafe {
        host_unpack(
            reply.as_mut_ptr(),
            *context,
            file.as_ptr(),
            file.len(),
            buffer.as_mut_ptr(),
            buffer.len(),
            cells.as_ptr(),
            cells.len(),
            saved.as_ptr(),
            saved.len(),
            entities.as_ptr(),
            entities.len(),
        );
        reply.assume_init_ref().answer
    }
}

/// The sentence of a run's answer at the front of the display buffer.
pub fn sentence(answer: Answer, position: i64, function: usize, display: &mut [u8]) -> WriteReply {
    assert_layout();
    // SAFETY: see the module's text.
    unsafe {
        host_sentence(
            answer.word,
            answer.detail,
            answer.count,
            position,
            function,
            display.as_mut_ptr(),
            display.len(),
        )
    }
}

/// The load file of a seed and n drawn statements at the front of the output buffer.
pub fn make_file(seed: u32, n: i64, output: &mut [u8]) -> WriteReply {
    assert_layout();
    // SAFETY: see the module's text.
    unsafe { host_make_file(seed, n, output.as_mut_ptr(), output.len()) }
}

/// What the header says of the file; nothing where the length isn't one that a file may have.
pub fn read_header(file: &[u8]) -> Option<FileRecord> {
    assert_layout();
    // SAFETY: see the module's text.
    unsafe { host_read_header(file.as_ptr(), file.len()) }.record()
}

pub fn read_statement(file: &[u8], recorded: &FileRecord, pc: i64) -> Option<StatementRecord> {
    assert_layout();
    // SAFETY: see the module's text.
    unsafe { host_read_statement(file.as_ptr(), file.len(), *recorded, pc) }.record()
}

pub fn read_function(file: &[u8], recorded: &FileRecord, id: i64) -> Option<FunctionRecord> {
    assert_layout();
    // SAFETY: see the module's text.
    unsafe { host_read_function(file.as_ptr(), file.len(), *recorded, id) }.record()
}

pub fn read_definition(file: &[u8], recorded: &FileRecord, index: i64) -> Option<DefinitionRecord> {
    assert_layout();
    // SAFETY: see the module's text.
    unsafe { host_read_definition(file.as_ptr(), file.len(), *recorded, index) }.record()
}

pub fn read_field(file: &[u8], recorded: &FileRecord, index: i64) -> Option<DefinitionRecord> {
    assert_layout();
    // SAFETY: see the module's text.
    unsafe { host_read_field(file.as_ptr(), file.len(), *recorded, index) }.record()
}

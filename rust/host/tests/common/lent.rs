//! The library's two functions that take an unpack buffer, declared as docs/EMBEDDING.md has them, for buffers that no [`Machine`] would
//! lend: too short, with numbers of another program, or of none.

use host::{Context, Machine};

/// An answer as the case files have it.
type Answer = (&'static str, u32, u32);

#[repr(C)]
struct Reply {
    context: Context,
    word: u32,
    detail: u32,
    count: u32,
}

#[rustfmt::skip]
extern "C" {
    fn host_unpack(context: Context, file: *const u8, file_len: usize, buffer: *mut u16, buffer_len: usize, cells: *const u32, cells_len: usize, saved: *const u32, saved_len: usize, entities: *const u32, entities_len: usize) -> Reply;
    fn host_run_unpacked(context: Context, file: *const u8, file_len: usize, buffer: *const u16, buffer_len: usize, target: i64, limit: i64, cells: *mut u32, cells_len: usize, saved: *mut u32, saved_len: usize, entities: *mut u32, entities_len: usize) -> Reply;
}

/// The answer, whose word is the one of so many that the library's number says; the context goes to the machine.
fn answered(machine: &mut Machine, reply: Reply) -> Answer {
    let words = ["accepted", "ended", "spent", "refused", "builtin", "opcode"];
    machine.set_context(reply.context);
    (words[reply.word as usize], reply.detail, reply.count)
}

/// Unpacks a machine's statements into a buffer.
pub fn unpack(machine: &mut Machine, buffer: &mut [u16]) -> Answer {
    let (program, cells) = (machine.program(), machine.cells());
    let (saved, entities) = (machine.saved(), machine.entities());
    // SAFETY: each pointer is a slice's, with its length, and the buffer is no other's.
    let reply = unsafe {
        host_unpack(
            *machine.context(),
            program.as_ptr(),
            program.len(),
            buffer.as_mut_ptr(),
            buffer.len(),
            cells.as_ptr(),
            cells.len(),
            saved.as_ptr(),
            saved.len(),
            entities.as_ptr(),
            entities.len(),
        )
    };
    answered(machine, reply)
}

/// A run of the second engine on a machine's state, from a buffer.
pub fn run(machine: &mut Machine, buffer: &[u16], target: i64, limit: i64) -> Answer {
    let mut cells = std::mem::take(machine.cells_mut());
    let mut saved = std::mem::take(machine.saved_mut());
    let mut entities = std::mem::take(machine.entities_mut());
    let program = machine.program();
    // SAFETY: each pointer is a slice's, with its length, and they are of different buffers.
    let reply = unsafe {
        host_run_unpacked(
            *machine.context(),
            program.as_ptr(),
            program.len(),
            buffer.as_ptr(),
            buffer.len(),
            target,
            limit,
            cells.as_mut_ptr(),
            cells.len(),
            saved.as_mut_ptr(),
            saved.len(),
            entities.as_mut_ptr(),
            entities.len(),
        )
    };
    *machine.cells_mut() = cells;
    *machine.saved_mut() = saved;
    *machine.entities_mut() = entities;
    answered(machine, reply)
}

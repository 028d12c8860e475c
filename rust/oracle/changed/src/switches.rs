//! Which changes are on, in this thread.

use std::cell::Cell;

/// A named difference of document 01 that is changed to `pr_exec.c`'s way, and NaN made canonical.
#[derive(Clone, Copy, Debug, PartialEq, Eq, PartialOrd, Ord)]
#[repr(u8)]
pub enum Switch {
    Arguments = 1,
    Return = 2,
    NotV = 4,
    Position = 8,
    NaN = 16,
    /// Opcodes 28 and 41, which panic in the Rust.
    Field = 32,
}

pub const ALL: [Switch; 6] = [
    Switch::Arguments,
    Switch::Return,
    Switch::NotV,
    Switch::Position,
    Switch::NaN,
    Switch::Field,
];

thread_local! {
    static SWITCHES: Cell<u8> = const { Cell::new(0) };
}

pub fn set(switches: &[Switch]) {
    SWITCHES.with(|s| s.set(switches.iter().map(|&s| s as u8).sum()));
}

pub fn on(switch: Switch) -> bool {
    SWITCHES.with(|s| s.get() & switch as u8 != 0)
}

/// A NaN that arithmetic made, as 7fc00000.
pub fn canonical(result: f32) -> f32 {
    if on(Switch::NaN) && result.is_nan() {
        f32::from_bits(0x7fc0_0000)
    } else {
        result
    }
}

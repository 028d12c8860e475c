//! The processor's floating-point mode.

use std::error::Error;
use std::fmt;

use crate::library;

const DENORMALS_ARE_ZERO: u32 = 1 << 6;
const MASKS: u32 = 0x3f << 7;
const ROUNDING: u32 = 3 << 13;
const FLUSH_TO_ZERO: u32 = 1 << 15;

/// The processor doesn't compute floats as IEEE 754 has it: this thread's register MXCSR isn't as a process starts
/// with it.
///
/// The machine's arithmetic is the processor's. It must round to nearest, keep numbers below the smallest normal one
/// as they are, in results and operands, and raise no signal. A thread has this mode unless something sets another: a
/// library for audio or graphics that was told to, code built with `-ffast-math`.
#[derive(Clone, Copy, Debug, PartialEq, Eq, Hash)]
pub struct FloatModeError {
    mxcsr: u32,
}

/// Whether this thread's floating-point mode is the one that the machine needs.
///
/// [`Machine::load`](crate::Machine::load) asks this. Where a machine is used on another thread than the one that
/// loaded it, or where something sets the mode later, a host asks for itself.
///
/// ```
/// assert_eq!(host::check_float_mode(), Ok(()));
/// ```
pub fn check_float_mode() -> Result<(), FloatModeError> {
    check(library::mxcsr())
}

fn check(mxcsr: u32) -> Result<(), FloatModeError> {
    let mode = DENORMALS_ARE_ZERO | MASKS | ROUNDING | FLUSH_TO_ZERO;
    if mxcsr & mode == MASKS {
        Ok(())
    } else {
        Err(FloatModeError { mxcsr })
    }
}

impl FloatModeError {
    /// The register's 32 bits.
    pub fn mxcsr(self) -> u32 {
        self.mxcsr
    }
}

impl fmt::Display for FloatModeError {
    fn fmt(&self, f: &mut fmt::Formatter<'_>) -> fmt::Result {
        write!(
            f,
            "the floating-point mode of this thread isn't the one that the machine needs (MXCSR is {:08x}):",
            self.mxcsr
        )?;
        let faults = [
            (self.mxcsr & ROUNDING != 0, " it doesn't round to nearest"),
            (
                self.mxcsr & FLUSH_TO_ZERO != 0,
                " it flushes results to zero",
            ),
            (
                self.mxcsr & DENORMALS_ARE_ZERO != 0,
                " it takes denormal operands for zero",
            ),
            (self.mxcsr & MASKS != MASKS, " it raises signals"),
        ];
        let mut separator = "";
        for (_, fault) in faults.iter().filter(|(present, _)| *present) {
            write!(f, "{separator}{fault}")?;
            separator = ";";
        }
        Ok(())
    }
}

impl Error for FloatModeError {}

#[cfg(test)]
mod tests {
    use super::*;

    /// The register's flags, its lowest six bits, say what happened, and are no mode.
    #[test]
    fn modes() {
        for flags in [0, 1, 0x20, 0x3f] {
            assert_eq!(check(0x1f80 | flags), Ok(()));
        }
        for (mxcsr, fault) in [
            (0x3f80, "it doesn't round to nearest"),
            (0x5f80, "it doesn't round to nearest"),
            (0x7f80, "it doesn't round to nearest"),
            (0x9f80, "it flushes results to zero"),
            (0x1fc0, "it takes denormal operands for zero"),
            (0x1d80, "it raises signals"),
            (0x1f00, "it raises signals"),
            (
                0x9fc0,
                "it flushes results to zero; it takes denormal operands for zero",
            ),
        ] {
            let error = check(mxcsr).unwrap_err();
            assert_eq!(error.mxcsr(), mxcsr);
            assert_eq!(
                error.to_string(),
                format!(
                    "the floating-point mode of this thread isn't the one that the machine needs (MXCSR is \
                     {mxcsr:08x}): {fault}"
                )
            );
        }
    }
}

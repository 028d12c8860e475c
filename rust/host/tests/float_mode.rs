//! A load on a thread whose floating-point mode isn't the one that the machine needs.

use std::arch::asm;
use std::thread;

use host::assemble::Assembly;
use host::{check_float_mode, LoadError, Machine, CELLS, SAVED_STORE};

/// MXCSR as a thread starts with it, its flags apart.
const START: u32 = 0x1f80;
const FLUSH_TO_ZERO: u32 = 0x8000;
const DENORMALS_ARE_ZERO: u32 = 0x40;
const ROUND_DOWN: u32 = 0x2000;

fn set_mxcsr(bits: u32) {
    // SAFETY: the instruction reads the address and sets this thread's mode. No float is computed before it is set back.
    unsafe { asm!("ldmxcsr [{}]", in(reg) &bits, options(nostack, readonly)) };
}

/// What a load and the check answer in a mode, on a thread of its own.
fn loaded_in(mode: u32) -> (Result<(), LoadError>, bool) {
    let thread = thread::spawn(move || {
        let program = Assembly::default().bytes();
        let mut machine = Machine::new(program, vec![0; CELLS], vec![0; SAVED_STORE]);
        set_mxcsr(mode);
        let loaded = machine.load();
        let checked = check_float_mode().is_ok();
        set_mxcsr(START);
        assert_eq!(machine.loaded(), loaded.is_ok());
        (loaded, checked)
    });
    thread.join().unwrap()
}

#[test]
fn a_load_in_another_mode() {
    assert_eq!(loaded_in(START), (Ok(()), true));
    for mode in [FLUSH_TO_ZERO, DENORMALS_ARE_ZERO, ROUND_DOWN] {
        let (loaded, checked) = loaded_in(START | mode);
        let Err(LoadError::FloatMode(error)) = loaded else {
            panic!("{loaded:?}");
        };
        assert_eq!(error.mxcsr(), START | mode);
        assert!(!checked);
    }
}

//! A host's side of the QuakeC program machine: the safe Rust over the proved static library.
//!
//! A [`Machine`] owns a program file's bytes, the cells, the saved store and the entity cells that it lends to the
//! library, and the context that the library hands back. Every operation of the library is a method:
//! [`Machine::load`], or [`Machine::load_with`] [`Settings`], [`Machine::enter`], [`Machine::statement`], [`Machine::run`], [`Machine::carry_on`], [`Machine::abandon`],
//! [`Machine::read`], [`Machine::write`] and [`Machine::image`]. What is refused changes nothing and gives a [`Refusal`], the
//! number of document 01 or 02 with its sentence. [`Machine::call`] does what a server does with a function: it enters, runs, has
//! the host answer what is handed over, and leaves the machine at the depth where it was, however the call went.
//! [`Machine::field`] and [`Machine::field_mut`] read and set the fields of entities, by name and type. What a run answers,
//! [`Run`], prints as a sentence for a display. [`load_file`] makes heavy files for benches.
//!
//! A run goes by the second [`Engine`], from statements that the machine unpacks at a load and again where the program's bytes were changed; the
//! first can be asked for, and gives the same.
//!
//! What the library promises is proved. What this crate does around it is not: it is Rust, tested. A load checks what
//! both stand on: that the library is the crate's own, and the processor's floating-point mode ([`LoadError`]).
//!
//! ```
//! use host::assemble::{Assembly, Function};
//! use host::{Machine, CELLS, SAVED_STORE};
//!
//! // Function 1 adds cells 28 and 29 and returns the sum.
//! let program = Assembly {
//!     statements: vec![[0, 0, 0, 0], [6, 28, 29, 30], [43, 30, 0, 0]],
//!     functions: vec![
//!         Function::default(),
//!         Function { first: 1, local: 30, locals: 1, ..Function::default() },
//!     ],
//!     cells: vec![(28, 1.5_f32.to_bits()), (29, 2.25_f32.to_bits())],
//!     ..Assembly::default()
//! };
//! let mut machine = Machine::new(program.bytes(), vec![0; CELLS], vec![0; SAVED_STORE]);
//! machine.load()?;
//! machine.enter(1)?;
//! let run = machine.run(0, 99_999);
//! assert_eq!(run.outcome, host::RunOutcome::Ended);
//! assert_eq!(run.count, 2);
//! assert_eq!(f32::from_bits(machine.read(1)?), 3.75);
//! # Ok::<(), Box<dyn std::error::Error>>(())
//! ```

#![deny(missing_docs)]
#![deny(unsafe_code)]
#![warn(rust_2018_idioms)]

#[cfg(not(all(target_arch = "x86_64", target_os = "linux")))]
compile_error!("the static library is compiled for x86-64 Linux");

pub mod assemble;
mod call;
mod caller;
mod context;
mod engine;
mod field;
mod float_mode;
mod layout;
#[allow(unsafe_code)]
mod library;
mod load_file;
mod machine;
mod program;
mod refusal;
mod sentence;
mod settings;

pub use call::{CallError, Cause};
pub use caller::Caller;
pub use context::{Context, FileRecord, HeldSettings, Lump, StackFrame, FRAMES};
pub use engine::Engine;
pub use field::{Field, FieldError, FieldMut};
pub use float_mode::{check_float_mode, FloatModeError};
pub use layout::LayoutError;
pub use load_file::{load_file, write_load_file, LOAD_FILE};
pub use machine::{
    Handover, Machine, Outcome, Run, RunOutcome, CELLS, ENTITIES, IMAGE, PAIRS, SAVED_STORE,
};
pub use program::{Definition, Function, Program};
pub use refusal::{LoadError, Refusal};
pub use sentence::DISPLAY;
pub use settings::{
    Setting, Settings, SettingsError, CHECK_NUMBER, GREATEST_CHECK_NUMBER, GREATEST_LIMIT,
};

/// The Rust of docs/EMBEDDING.md, compiled and run with the tests.
#[cfg(doctest)]
#[doc = include_str!("../../../docs/EMBEDDING.md")]
struct Embedding;

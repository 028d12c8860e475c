//! The program machine of richter (cormac-obrien/richter, 506504d5f9, MIT, see ../LICENSE) as an oracle.
//!
//! `server/progs` is byte for byte richter's. `server/mod.rs` holds `execute_program`, `op_return` and the loads and stores of fields byte
//! for byte, and stubs for what they call beside the machine. `server/world` is a stub around richter's accessors of entities and its
//! pointers. `check_carried_over.py` compares with the committed checksums, or with a checkout of richter.

#![allow(dead_code)]
#![allow(unused_imports)]
#![allow(deprecated)]
#![allow(unexpected_cfgs)]
#![allow(non_local_definitions)]

#[macro_use]
extern crate log;
#[macro_use]
extern crate num_derive;

pub mod count;
pub mod observe;
#[allow(clippy::all)]
pub mod server;

/// The source of `server`, for the places of its log messages.
pub const SERVER_SOURCE: &str = include_str!("server/mod.rs");

//! richter's program machine, copied from `../richter` at build time with the changes that `build.rs` lists. Each change has a switch;
//! with all of them off this is richter unchanged.

#![allow(dead_code)]
#![allow(unused_imports)]
#![allow(deprecated)]
#![allow(unexpected_cfgs)]
#![allow(non_local_definitions)]
#![allow(clippy::all)]

#[macro_use]
extern crate log;
#[macro_use]
extern crate num_derive;

pub mod switches;

include!(concat!(env!("OUT_DIR"), "/copy.rs"));

/// The source of `server`, for the places of its log messages.
pub const SERVER_SOURCE: &str = include_str!(concat!(env!("OUT_DIR"), "/server/mod.rs"));

//! An independent engine for Interpress 3.0 masters: the comparison oracle and
//! speed baseline. `engine` has the five calls; the modules under it are the
//! reading of tokens, the skeleton check, the machine and the writer.
#![cfg_attr(not(feature = "host"), forbid(unsafe_code))]

pub mod builder;
pub mod compare;
pub mod engine;
pub mod gen;
#[cfg(feature = "host")]
pub mod host;
pub mod json;
pub mod listing;
pub mod machine;
pub mod number;
pub mod ops;
pub mod program;
pub mod rng;
pub mod skeleton;
pub mod speed;
pub mod tokens;
pub mod write;

//! The given picture unit as a library, with what the build appends to its files to set and read every field.

#![allow(dead_code, unused_macros)]

#[macro_use]
mod surroundings;
pub use surroundings::{memory, GameBoyConfig};

pub mod captures;
pub mod cases;
pub mod leaves;
pub mod list;
pub mod machine;
pub mod machine_lists;
pub mod ppu;
pub mod sweep;

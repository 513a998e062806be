//! The oracle's parts, for the driver and for programs that hold the Rust and the compiled library in one process.

pub mod file;
pub mod records;
pub mod states;
pub mod text;

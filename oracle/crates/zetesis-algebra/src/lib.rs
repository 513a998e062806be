//! Crate root for the copied `words.rs` and `cancellation.rs`.
#![allow(dead_code)]

mod cancellation;
pub mod region;
pub mod words;

pub use cancellation::*;

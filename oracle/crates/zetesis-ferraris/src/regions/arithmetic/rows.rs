//! One row: its atoms as 2·ceil(n/128) words, and its constant.

#[derive(Clone, Debug)]
pub(super) struct Equation {
    pub(super) words: Vec<u64>,
    pub(super) constant: bool,
}

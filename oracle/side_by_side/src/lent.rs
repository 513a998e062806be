//! Lent buffers between canaries, and what a prepared system lends.

use worzubil::raw::{Forced, Region, Snapshot, System};

const GUARD: usize = 4;

/// What a buffer holds.
pub trait Cell: Copy + PartialEq {
    /// A value that differs from those beside it.
    fn canary(at: usize) -> Self;
}

impl Cell for u64 {
    fn canary(at: usize) -> Self {
        0x5a5a_a5a5_0f0f_f0f0 ^ (at as u64).wrapping_mul(0x9e37_79b9_7f4a_7c15)
    }
}

impl Cell for usize {
    fn canary(at: usize) -> Self {
        u64::canary(at) as usize
    }
}

impl Cell for u8 {
    fn canary(at: usize) -> Self {
        0x5a ^ (at as u8).wrapping_mul(37)
    }
}

impl Cell for Forced {
    fn canary(at: usize) -> Self {
        Forced { atom: usize::canary(at), value: u8::canary(at) }
    }
}

/// A buffer of so many cells, with canaries before and after it, and all of them as they were lent.
pub struct Lent<T> {
    cells: Vec<T>,
    copy: Vec<T>,
}

impl<T: Cell> Lent<T> {
    /// These values, and then canaries up to the length.
    pub fn of(values: &[T], length: usize) -> Self {
        let mut cells: Vec<T> = (0..length + 2 * GUARD).map(T::canary).collect();
        let shared = values.len().min(length);
        cells[GUARD..GUARD + shared].copy_from_slice(&values[..shared]);
        Self { copy: cells.clone(), cells }
    }

    pub fn len(&self) -> usize {
        self.cells.len() - 2 * GUARD
    }

    pub fn values(&self) -> &[T] {
        &self.cells[GUARD..GUARD + self.len()]
    }

    pub fn pointer(&self) -> *const T {
        self.values().as_ptr()
    }

    pub fn pointer_mut(&mut self) -> *mut T {
        self.cells[GUARD..].as_mut_ptr()
    }

    /// An error unless all but the first `named` cells hold what they held.
    pub fn stands(&self, name: &str, named: usize) -> Result<(), String> {
        let past = GUARD + named;
        let good = named <= self.len() && self.cells[..GUARD] == self.copy[..GUARD] && self.cells[past..] == self.copy[past..];
        if good { Ok(()) } else { Err(format!("{name}: a cell touched that is not named")) }
    }
}

/// A system as it is lent to a call, fit or not, with the region, the knowledge, and the lengths of the two forced lists.
#[derive(Clone, Debug)]
pub struct State {
    pub system: System,
    pub rows: Vec<u64>,
    pub constants: Vec<u8>,
    pub basis: Vec<usize>,
    pub index: Vec<u64>,
    pub region: Region,
    pub known: Snapshot,
    pub room: [usize; 2],
}

/// The words of a row.
pub fn width(atoms: usize) -> usize {
    atoms.div_ceil(64)
}

/// The words of a column.
pub fn column_width(rank: usize) -> usize {
    2 * rank.div_ceil(128)
}

/// The entries that a basis is lent.
pub fn places(atoms: usize, rows: usize) -> usize {
    atoms.min(rows)
}

/// The buffers of a state.
pub struct Filled {
    pub rows: Lent<u64>,
    pub constants: Lent<u8>,
    pub basis: Lent<usize>,
    pub index: Lent<u64>,
}

impl Filled {
    pub fn of(state: &State) -> Self {
        Self {
            rows: Lent::of(&state.rows, state.rows.len()),
            constants: Lent::of(&state.constants, state.constants.len()),
            basis: Lent::of(&state.basis, state.basis.len()),
            index: Lent::of(&state.index, state.index.len()),
        }
    }

    /// An error unless every cell holds what it held.
    pub fn stands(&self) -> Result<(), String> {
        self.rows.stands("rows", 0)?;
        self.constants.stands("constants", 0)?;
        self.basis.stands("basis", 0)?;
        self.index.stands("index", 0)
    }
}

//! Rows, one after the other in one slice: row r of width w is the words r * w to r * w + w - 1, and its constant is byte r of the constants.
//!
//! And tables: [`propose`] gives the equations of one, [`write()`] makes rows of them.
use crate::raw;
use crate::refusal::{unknown, Refusal, Unfit};
use crate::sets::{answered, value};

pub use crate::raw::{Equation, Hull};

/// The words that a span names.
pub(crate) fn part(words: &[u64], span: raw::Span) -> Option<&[u64]> {
    match span.kind {
        raw::ANSWERED => Some(&words[span.start..][..span.length]),
        raw::UNFIT => None,
        kind => unknown(kind),
    }
}

/// The words of a row of so many atoms.
pub fn width(atoms: usize) -> usize {
    // SAFETY: no buffer is lent, and any number is taken.
    unsafe { raw::worzubil_width(atoms) }
}

/// The row that a place of the basis names, if the basis has that place.
pub fn source_at(basis: &[usize], place: usize) -> Option<usize> {
    // SAFETY: a slice is not null, is aligned and has its length.
    let answer = unsafe { raw::worzubil_source_at(basis.as_ptr(), basis.len(), place) };
    answered(answer).unwrap_or_else(|_| unknown(answer.kind))
}

/// A row's words, if they lie within the rows.
pub fn row(rows: &[u64], width: usize, number: usize) -> Option<&[u64]> {
    // SAFETY: a slice is not null, is aligned and has its length.
    part(rows, unsafe { raw::worzubil_row(rows.as_ptr(), rows.len(), width, number) })
}

/// A row's lowest atom, if it has one. Unfit where the row does not lie within the rows, or of a width of 2^58 or more.
pub fn lowest_atom(rows: &[u64], width: usize, number: usize) -> Result<Option<usize>, Unfit> {
    // SAFETY: a slice is not null, is aligned and has its length.
    answered(unsafe { raw::worzubil_lowest_atom(rows.as_ptr(), rows.len(), width, number) })
}

/// Whether the row has an odd number of the mask's atoms. Unfit where the row does not lie within the rows, or the mask is shorter than it.
pub fn overlap_parity(rows: &[u64], width: usize, number: usize, mask: &[u64]) -> Result<bool, Unfit> {
    // SAFETY: slices are not null, are aligned and have their lengths; none is changed.
    value(unsafe { raw::worzubil_overlap_parity(rows.as_ptr(), rows.len(), width, number, mask.as_ptr(), mask.len()) }).map(|odd| odd != 0)
}

/// How many of the mask's atoms the row has. Unfit as [`overlap_parity`], and of a width of 2^58 or more.
pub fn overlap_count(rows: &[u64], width: usize, number: usize, mask: &[u64]) -> Result<usize, Unfit> {
    // SAFETY: slices are not null, are aligned and have their lengths; none is changed.
    value(unsafe { raw::worzubil_overlap_count(rows.as_ptr(), rows.len(), width, number, mask.as_ptr(), mask.len()) })
}

/// Adds row `source` to the later row `target`, words and constants, by exclusive or. Unfit where the target does not lie within what is
/// lent, or the source is not below it.
pub fn add(rows: &mut [u64], constants: &mut [u8], width: usize, target: usize, source: usize) -> Result<(), Unfit> {
    // SAFETY: slices are not null, are aligned and have their lengths; both are lent by `&mut`, so they do not overlap.
    Unfit::unless(unsafe {
        raw::worzubil_add(rows.as_mut_ptr(), rows.len(), constants.as_mut_ptr(), constants.len(), width, target, source)
    })
}

/// The equations of a table of k atoms, 0 to 8. Bit p of the words is set where pattern p is forbidden; bit i of p is the i-th atom named.
/// There are 2 words, or 4 where k is 8; else 17, as for k above 8.
pub fn propose(k: usize, forbidden: &[u64]) -> Result<Hull, Refusal> {
    // SAFETY: a slice is not null, is aligned and has its length.
    let proposal = unsafe { raw::worzubil_propose(k, forbidden.as_ptr(), forbidden.len()) };
    Refusal::unless_zero(proposal.number).map(|()| proposal.hull)
}

/// Writes a hull's equations as rows of `width` words over the atoms named, from row `first` on, with their constants. Unfit unless all of
/// them lie within what is lent, every name is below width * 64 and the count is at most 8.
/// The rows say what the table says only where the names are as many as its atoms and all differ, which is not asked;
/// [`Rows::push_table`](crate::Rows::push_table) asks it.
pub fn write(hull: &Hull, names: &[usize], width: usize, rows: &mut [u64], constants: &mut [u8], first: usize) -> Result<(), Unfit> {
    // SAFETY: slices are not null, are aligned and have their lengths; the changed ones are lent by `&mut`, so they overlap no other.
    Unfit::unless(unsafe {
        raw::worzubil_write(
            *hull,
            names.as_ptr(),
            names.len(),
            width,
            rows.as_mut_ptr(),
            rows.len(),
            constants.as_mut_ptr(),
            constants.len(),
            first,
        )
    })
}

impl Hull {
    /// The equations; none where the count is above 8, which [`propose`] never says.
    pub fn listed(&self) -> &[Equation] {
        self.equations.get(..self.count).unwrap_or(&[])
    }
}

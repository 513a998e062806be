//! Sets of atoms in words of 64: atom a is bit a % 64 of word a / 64.
use crate::raw;
use crate::refusal::{unknown, Unfit};

pub use crate::raw::Located;

/// The value of an answer, nothing, or why there is none.
pub(crate) fn answered(answer: raw::Answer) -> Result<Option<usize>, Unfit> {
    match answer.kind {
        raw::ANSWERED => Ok(Some(answer.value)),
        raw::NOTHING => Ok(None),
        raw::UNFIT => Err(Unfit::Lengths),
        raw::TOO_WIDE => Err(Unfit::TooWide),
        kind => unknown(kind),
    }
}

/// The same of a call that never answers with nothing.
pub(crate) fn value(answer: raw::Answer) -> Result<usize, Unfit> {
    answered(answer)?.ok_or_else(|| unknown(answer.kind))
}

/// The word of an atom, and its bit there.
pub fn locate(atom: usize) -> Located {
    // SAFETY: no buffer is lent, and any number is taken.
    unsafe { raw::worzubil_locate(atom) }
}

/// The number of set bits of a word.
pub fn popcount(word: u64) -> u32 {
    // SAFETY: no buffer is lent, and any number is taken.
    unsafe { raw::worzubil_popcount(word) }
}

/// The place of the lowest set bit of a word, and the word without it; nothing of 0.
pub fn next(word: u64) -> Option<(usize, u64)> {
    // SAFETY: no buffer is lent, and any number is taken.
    let step = unsafe { raw::worzubil_next(word) };
    match step.kind {
        raw::ANSWERED => Some((step.bit, step.remaining)),
        raw::NOTHING => None,
        kind => unknown(kind),
    }
}

/// The atoms of a set, rising.
pub fn atoms(words: &[u64]) -> impl Iterator<Item = usize> + '_ {
    words.iter().enumerate().flat_map(|(place, &word)| {
        let mut left = word;
        std::iter::from_fn(move || {
            let (bit, remaining) = next(left)?;
            left = remaining;
            Some(place * 64 + bit)
        })
    })
}

/// Whether the set has the atom; past its end it has none.
pub fn contains(words: &[u64], atom: usize) -> bool {
    // SAFETY: a slice is not null, is aligned and has its length.
    unsafe { raw::worzubil_contains(words.as_ptr(), words.len(), atom) }
}

/// Adds the atom. Unfit where the set does not reach it.
pub fn insert(words: &mut [u64], atom: usize) -> Result<(), Unfit> {
    // SAFETY: a slice is not null, is aligned and has its length; it is lent alone.
    Unfit::unless(unsafe { raw::worzubil_insert(words.as_mut_ptr(), words.len(), atom) })
}

/// Takes every atom out.
pub fn clear(words: &mut [u64]) {
    // SAFETY: a slice is not null, is aligned and has its length; it is lent alone.
    unsafe { raw::worzubil_clear(words.as_mut_ptr(), words.len()) }
}

/// Adds the atoms of right to left. Unfit where the lengths differ.
pub fn union_assign(left: &mut [u64], right: &[u64]) -> Result<(), Unfit> {
    // SAFETY: slices are not null, are aligned and have their lengths; the changed one is lent by `&mut`, so it overlaps no other.
    Unfit::unless(unsafe { raw::worzubil_union_assign(left.as_mut_ptr(), left.len(), right.as_ptr(), right.len()) })
}

/// Leaves in left the atoms that are in just one of the two. Unfit where the lengths differ.
pub fn xor_assign(left: &mut [u64], right: &[u64]) -> Result<(), Unfit> {
    // SAFETY: slices are not null, are aligned and have their lengths; the changed one is lent by `&mut`, so it overlaps no other.
    Unfit::unless(unsafe { raw::worzubil_xor_assign(left.as_mut_ptr(), left.len(), right.as_ptr(), right.len()) })
}

/// Whether every atom of left is in right. Unfit where the lengths differ.
pub fn is_subset_of(left: &[u64], right: &[u64]) -> Result<bool, Unfit> {
    // SAFETY: slices are not null, are aligned and have their lengths; none is changed.
    value(unsafe { raw::worzubil_is_subset_of(left.as_ptr(), left.len(), right.as_ptr(), right.len()) }).map(|yes| yes != 0)
}

/// Whether an odd number of atoms is in both. Unfit where the lengths differ.
pub fn intersection_parity(left: &[u64], right: &[u64]) -> Result<bool, Unfit> {
    // SAFETY: slices are not null, are aligned and have their lengths; none is changed.
    value(unsafe { raw::worzubil_intersection_parity(left.as_ptr(), left.len(), right.as_ptr(), right.len()) }).map(|odd| odd != 0)
}

/// How many atoms are in both. Unfit where the lengths differ, or of 2^58 words or more.
pub fn intersection_count(left: &[u64], right: &[u64]) -> Result<usize, Unfit> {
    // SAFETY: slices are not null, are aligned and have their lengths; none is changed.
    value(unsafe { raw::worzubil_intersection_count(left.as_ptr(), left.len(), right.as_ptr(), right.len()) })
}

/// How many atoms the set has. Unfit of 2^58 words or more.
pub fn count(words: &[u64]) -> Result<usize, Unfit> {
    // SAFETY: a slice is not null, is aligned and has its length.
    value(unsafe { raw::worzubil_count(words.as_ptr(), words.len()) })
}

/// The lowest atom, if there is one. Unfit of 2^58 words or more.
pub fn first(words: &[u64]) -> Result<Option<usize>, Unfit> {
    // SAFETY: a slice is not null, is aligned and has its length.
    answered(unsafe { raw::worzubil_first(words.as_ptr(), words.len()) })
}

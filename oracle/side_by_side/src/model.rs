//! Document 01's refusals, decisions and probe, worked out atom by atom: the judge where the Rust has no answer.

use worzubil::raw::{AGAINST, Region, SAME, Snapshot, TAKEN};

use crate::lent::{State, column_width, places, width};

pub const LIMIT: usize = 512;

pub fn has(words: &[u64], atom: usize) -> bool {
    words[atom / 64] >> (atom % 64) & 1 == 1
}

pub fn put(words: &mut [u64], atom: usize, value: bool) {
    words[atom / 64] &= !(1 << (atom % 64));
    words[atom / 64] |= u64::from(value) << (atom % 64);
}

/// Whether the words have an atom from `count` on.
fn strays(words: &[u64], count: usize) -> bool {
    (count..64 * words.len()).any(|atom| has(words, atom))
}

/// 10, 11, 12 or 0.
pub fn region_number(region: &Region) -> usize {
    if region.atoms > LIMIT {
        10
    } else if strays(&region.held, region.atoms) || strays(&region.cut, region.atoms) {
        11
    } else if (0..region.atoms).any(|atom| has(&region.held, atom) && has(&region.cut, atom)) {
        12
    } else {
        0
    }
}

pub fn decide_number(region: &Region, atom: usize) -> usize {
    match region_number(region) {
        0 if atom >= region.atoms => 18,
        number => number,
    }
}

/// The kind of a fit decision, and the region after it.
pub fn decided(region: &Region, atom: usize, value: bool) -> (usize, Region) {
    let mut after = *region;
    let (same, other) = if value { (&mut after.held, &after.cut) } else { (&mut after.cut, &after.held) };
    let kind = if has(same, atom) {
        SAME
    } else if has(other, atom) {
        AGAINST
    } else {
        put(same, atom, true);
        TAKEN
    };
    (kind, after)
}

/// What is lent to a preparation; `room` is the lengths of basis, unit atoms, unit values and index.
#[derive(Clone, Debug)]
pub struct Handed {
    pub atoms: usize,
    pub count: usize,
    pub rows: Vec<u64>,
    pub constants: Vec<u8>,
    pub room: [usize; 4],
}

fn rows_short(atoms: usize, count: usize, rows: &[u64], constants: &[u8]) -> bool {
    rows.len() < count * width(atoms) || constants.len() < count
}

/// Whether one of the rows has an atom from n on, or a constant above 1.
fn rows_stray(atoms: usize, count: usize, rows: &[u64], constants: &[u8]) -> bool {
    let width = width(atoms);
    let row = |number: usize| strays(&rows[number * width..][..width], atoms);
    (0..count).any(row) || constants[..count].iter().any(|&constant| constant > 1)
}

pub fn prepare_number(handed: &Handed) -> usize {
    let Handed { atoms, count, rows, constants, room } = handed;
    let (atoms, count) = (*atoms, *count);
    if atoms > LIMIT || count > LIMIT {
        return 10;
    }
    let places = places(atoms, count);
    let wanted = [places, places, places, atoms * column_width(places)];
    if rows_short(atoms, count, rows, constants) || room.iter().zip(wanted).any(|(room, wanted)| *room < wanted) {
        9
    } else if rows_stray(atoms, count, rows, constants) {
        11
    } else {
        0
    }
}

/// Whether a column has a bit from the rank on.
fn index_strays(atoms: usize, rank: usize, index: &[u64]) -> bool {
    let width = column_width(rank);
    (0..atoms).any(|atom| strays(&index[atom * width..][..width], rank))
}

pub fn column_number(atoms: usize, rank: usize, index: &[u64], atom: usize) -> usize {
    if atoms > LIMIT || rank > LIMIT {
        10
    } else if index.len() < atoms * column_width(rank) {
        9
    } else if index_strays(atoms, rank, index) {
        14
    } else if atom >= atoms {
        18
    } else {
        0
    }
}

/// The calls on a prepared system, by what they are lent.
#[derive(Clone, Copy, Debug, PartialEq, Eq)]
pub enum Call {
    Touched,
    Inspect,
    Probe,
}

/// 15 and 16 of knowledge.
fn known_number(known: &Snapshot, region: &Region) -> usize {
    let lost = |old: &[u64], new: &[u64]| (0..LIMIT).any(|atom| has(old, atom) && !has(new, atom));
    if !known.initialized {
        0
    } else if known.atoms != region.atoms {
        15
    } else if lost(&known.held, &region.held) || lost(&known.cut, &region.cut) {
        16
    } else {
        0
    }
}

/// The number under which a call on a prepared system is refused, or 0.
pub fn number(call: Call, state: &State) -> usize {
    let State { system, rows, constants, basis, index, region, known, room } = state;
    let (atoms, count, rank) = (system.atoms, system.rows, system.rank);
    let (lent_rows, lent_index) = (call != Call::Touched, call != Call::Probe);
    let known_atoms = if lent_index && known.initialized { known.atoms } else { 0 };
    if [atoms, count, region.atoms, known_atoms].iter().any(|&size| size > LIMIT) {
        return 10;
    }
    if rank > places(atoms, count) {
        return 13;
    }
    let short_rows = lent_rows && (rows_short(atoms, count, rows, constants) || basis.len() < places(atoms, count));
    let short_index = lent_index && index.len() < atoms * column_width(rank);
    let short_list = call == Call::Inspect && room.iter().any(|&room| room < rank);
    let of_region = region_number(region);
    if short_rows || short_index || short_list {
        9
    } else if lent_rows && rows_stray(atoms, count, rows, constants) || of_region == 11 {
        11
    } else if of_region == 12 {
        12
    } else if lent_rows && basis[..rank].iter().any(|&row| row >= count) {
        13
    } else if lent_index && !system.refuted && index_strays(atoms, rank, index) {
        14
    } else if atoms != region.atoms {
        15
    } else if lent_index {
        known_number(known, region)
    } else {
        0
    }
}

/// Yes or no, u and k of a fit probe. A row is one byte an atom, and its constant after them.
pub fn probed(state: &State) -> (bool, usize, usize) {
    let (atoms, region) = (state.system.atoms, &state.region);
    let open: Vec<bool> = (0..atoms).map(|atom| !has(&region.held, atom) && !has(&region.cut, atom)).collect();
    let undecided = open.iter().filter(|&&open| open).count();
    if state.system.refuted {
        return (false, undecided, 0);
    }
    let mut kept: Vec<(usize, Vec<u8>)> = Vec::new();
    for &source in &state.basis[..state.system.rank] {
        let words = &state.rows[source * width(atoms)..][..width(atoms)];
        let mut row: Vec<u8> = (0..atoms).map(|atom| u8::from(open[atom] && has(words, atom))).collect();
        let flips = (0..atoms).filter(|&atom| has(&region.held, atom) && has(words, atom)).count();
        row.push(state.constants[source] ^ (flips % 2) as u8);
        for (lowest, other) in &kept {
            if row[*lowest] == 1 {
                row.iter_mut().zip(other).for_each(|(bit, other)| *bit ^= other);
            }
        }
        match row[..atoms].iter().position(|&bit| bit == 1) {
            Some(lowest) => kept.push((lowest, row)),
            None if row[atoms] == 1 => return (false, undecided, kept.len()),
            None => {}
        }
    }
    (true, undecided, kept.len())
}

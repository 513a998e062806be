//! The bounds of what is lent: each at its last fit value, and one past it, which has a number.

use worzubil::raw::{Region, Snapshot};

use crate::lent::{State, column_width, places, width};
use crate::model::{Handed, LIMIT, has, put};
use crate::random::Random;

#[derive(Clone, Copy, Debug)]
pub enum Edge {
    Atoms,
    Rows,
    RegionAtoms,
    KnownAtoms,
    Rank,
    RowsLength,
    ConstantsLength,
    BasisLength,
    IndexLength,
    ForcedAtoms,
    ForcedValues,
    RowBit,
    Constant,
    HeldBit,
    CutBit,
    HeldAndCut,
    BasisEntry,
    IndexBit,
    OldHeld,
    OldCut,
}

use Edge::*;

pub const EDGES: [Edge; 20] = [
    Atoms,
    Rows,
    RegionAtoms,
    KnownAtoms,
    Rank,
    RowsLength,
    ConstantsLength,
    BasisLength,
    IndexLength,
    ForcedAtoms,
    ForcedValues,
    RowBit,
    Constant,
    HeldBit,
    CutBit,
    HeldAndCut,
    BasisEntry,
    IndexBit,
    OldHeld,
    OldCut,
];

/// Puts a state at a bound, or past it. The number under which an inspection is refused if the state was fit, or none where it has no such
/// bound.
pub fn place(edge: Edge, state: &mut State, past: bool, random: &mut Random) -> Option<usize> {
    let system = &mut state.system;
    let (atoms, count, rank, beyond) = (system.atoms, system.rows, system.rank, usize::from(past));
    let entries = places(atoms, count);
    let number = match edge {
        Atoms if past || atoms == LIMIT => {
            system.atoms = LIMIT + beyond;
            10
        }
        Rows if past || count == LIMIT => {
            system.rows = LIMIT + beyond;
            10
        }
        RegionAtoms => {
            state.region.atoms = atoms + beyond;
            if atoms == LIMIT { 10 } else { 15 }
        }
        KnownAtoms => {
            let Region { held, cut, .. } = state.region;
            state.known = Snapshot { initialized: true, atoms: atoms + beyond, held, cut };
            if atoms == LIMIT { 10 } else { 15 }
        }
        Rank if state.basis.len() >= entries => {
            system.rank = entries + beyond;
            state.room = [system.rank; 2];
            for place in rank..entries {
                state.basis[place] = random.below(count);
            }
            state.index = vec![0; atoms * column_width(system.rank)];
            for _ in 0..if entries > 0 { 8 } else { 0 } {
                let at = random.below(atoms) * column_width(system.rank);
                put(&mut state.index[at..], random.below(entries), true);
            }
            13
        }
        RowsLength if count * width(atoms) > 0 => {
            state.rows.truncate(count * width(atoms) - beyond);
            9
        }
        ConstantsLength if count > 0 => {
            state.constants.truncate(count - beyond);
            9
        }
        BasisLength if entries > 0 => {
            state.basis.truncate(entries - beyond);
            9
        }
        IndexLength if atoms * column_width(rank) > 0 => {
            state.index.truncate(atoms * column_width(rank) - beyond);
            9
        }
        ForcedAtoms | ForcedValues if rank > 0 => {
            state.room[usize::from(matches!(edge, ForcedValues))] = rank - beyond;
            9
        }
        RowBit if count > 0 && atoms % 64 != 0 && state.rows.len() >= count * width(atoms) => {
            let at = random.below(count) * width(atoms);
            put(&mut state.rows[at..], atoms - 1 + beyond, true);
            11
        }
        Constant if count > 0 && state.constants.len() >= count => {
            state.constants[random.below(count)] = 1 + beyond as u8;
            11
        }
        HeldBit | CutBit if atoms > 0 && atoms - 1 + beyond < LIMIT => {
            let held = matches!(edge, HeldBit);
            settle(&mut state.region, &mut state.known, atoms - 1 + beyond, held);
            11
        }
        HeldAndCut if (2..=LIMIT).contains(&atoms) => {
            let atom = random.below(atoms - 1);
            settle(&mut state.region, &mut state.known, atom, true);
            settle(&mut state.region, &mut state.known, atom + 1, false);
            put(&mut state.region.cut, atom, past);
            12
        }
        BasisEntry if rank > 0 && state.basis.len() >= rank => {
            state.basis[random.below(rank)] = count - 1 + beyond;
            if let Some(entry) = state.basis.get_mut(rank) {
                *entry = count;
            }
            13
        }
        IndexBit if rank % 128 != 0 && atoms > 0 && state.index.len() >= atoms * column_width(rank) => {
            let at = random.below(atoms) * column_width(rank);
            put(&mut state.index[at..], rank - 1 + beyond, true);
            if system.refuted { 0 } else { 14 }
        }
        OldHeld | OldCut if (1..=LIMIT).contains(&atoms) => {
            let (atom, held) = (random.below(atoms), matches!(edge, OldHeld));
            settle(&mut state.region, &mut state.known, atom, held);
            let Region { held: old_held, cut: old_cut, .. } = state.region;
            state.known = Snapshot { initialized: true, atoms, held: old_held, cut: old_cut };
            let (same, other) =
                if held { (&mut state.region.held, &mut state.region.cut) } else { (&mut state.region.cut, &mut state.region.held) };
            if past {
                put(same, atom, false);
                put(other, atom, random.once_in(2));
            }
            16
        }
        _ => return None,
    };
    Some(if past { number } else { 0 })
}

/// Settles an atom so in the region, whatever it was; the knowledge knows nothing of it.
fn settle(region: &mut Region, known: &mut Snapshot, atom: usize, held: bool) {
    put(&mut region.held, atom, held);
    put(&mut region.cut, atom, !held);
    put(&mut known.held, atom, false);
    put(&mut known.cut, atom, false);
}

#[derive(Clone, Copy, Debug)]
pub enum Offer {
    Atoms,
    Rows,
    RowsLength,
    ConstantsLength,
    Room(usize),
    RowBit,
    Constant,
}

pub const OFFERS: [Offer; 10] = [
    Offer::Atoms,
    Offer::Rows,
    Offer::RowsLength,
    Offer::ConstantsLength,
    Offer::Room(0),
    Offer::Room(1),
    Offer::Room(2),
    Offer::Room(3),
    Offer::RowBit,
    Offer::Constant,
];

/// The same for what is handed to a preparation, with just the room that is wanted.
pub fn offer(edge: Offer, handed: &mut Handed, past: bool, random: &mut Random) -> Option<usize> {
    let Handed { atoms, count, .. } = *handed;
    let beyond = usize::from(past);
    let number = match edge {
        Offer::Atoms if past || atoms == LIMIT => {
            handed.atoms = LIMIT + beyond;
            handed.rows = vec![0; count * width(handed.atoms)];
            handed.room = crate::calls::wanted(handed.atoms, count);
            10
        }
        Offer::Rows if past || count == LIMIT => {
            handed.count = LIMIT + beyond;
            handed.rows.resize(handed.count * width(atoms), 0);
            handed.constants.resize(handed.count, 0);
            handed.room = crate::calls::wanted(atoms, handed.count);
            10
        }
        Offer::RowsLength if count * width(atoms) > 0 => {
            handed.rows.truncate(count * width(atoms) - beyond);
            9
        }
        Offer::ConstantsLength if count > 0 => {
            handed.constants.truncate(count - beyond);
            9
        }
        Offer::Room(at) if handed.room[at] > 0 => {
            handed.room[at] -= beyond;
            9
        }
        Offer::RowBit if count > 0 && atoms % 64 != 0 && handed.rows.len() >= count * width(atoms) => {
            let at = random.below(count) * width(atoms);
            put(&mut handed.rows[at..], atoms - 1 + beyond, true);
            11
        }
        Offer::Constant if count > 0 && handed.constants.len() >= count => {
            handed.constants[random.below(count)] = 1 + beyond as u8;
            11
        }
        _ => return None,
    };
    Some(if past { number } else { 0 })
}

/// An open atom of the region, or any.
pub fn any_atom(region: &Region, random: &mut Random) -> usize {
    let atom = random.below(region.atoms);
    let open = |atom: &usize| !has(&region.held, *atom) && !has(&region.cut, *atom);
    (atom..region.atoms).find(open).unwrap_or(atom)
}

//! Prepared systems: over lent slices ([`prepare`] and [`Lent`]), and with memory of their own ([`Prepared`]).
use crate::raw;
use crate::refusal::{unknown, Refusal};
use crate::regions::{Region, Snapshot};
use crate::rows::{self, part};

pub use crate::raw::{Forced, Ordinals, System};

/// The most atoms, and the most rows, that a system has.
pub const LIMIT: usize = 512;

/// What preparation tells beside the system.
#[derive(Clone, Copy, Debug, PartialEq, Eq)]
pub struct Tally {
    /// How often one row was added to another.
    pub additions: usize,
    /// The basis rows of one atom.
    pub units: usize,
    /// The bits set in the index.
    pub incidences: usize,
}

/// What [`prepare`] writes beside the rows. For m rows over n atoms: basis, unit atoms and unit values have min(m, n) elements, the index
/// has n * 2 * ceil(min(m, n) / 128) words.
#[derive(Debug)]
pub struct Outputs<'a> {
    /// The numbers of the rows in the basis.
    pub basis: &'a mut [usize],
    /// The atoms of the basis rows of one atom.
    pub unit_atoms: &'a mut [usize],
    /// And the values that they must have.
    pub unit_values: &'a mut [u8],
    /// A column for each atom: bit j is set where the basis row at place j has the atom.
    pub index: &'a mut [u64],
}

/// Prepares m rows over n atoms in place, in slices that the caller lends. Refused, and nothing touched: 10 where n or m is above 512, 9
/// where a slice is shorter than it must be, 11 where a row has a bit at n or above or a constant above 1.
pub fn prepare(n: usize, m: usize, rows: &mut [u64], constants: &mut [u8], outputs: Outputs<'_>) -> Result<(System, Tally), Refusal> {
    let Outputs { basis, unit_atoms, unit_values, index } = outputs;
    // SAFETY: slices are not null, are aligned and have their lengths; all are lent by `&mut`, so none overlaps another.
    let prepared = unsafe {
        raw::worzubil_prepare(
            n,
            m,
            rows.as_mut_ptr(),
            rows.len(),
            constants.as_mut_ptr(),
            constants.len(),
            basis.as_mut_ptr(),
            basis.len(),
            unit_atoms.as_mut_ptr(),
            unit_atoms.len(),
            unit_values.as_mut_ptr(),
            unit_values.len(),
            index.as_mut_ptr(),
            index.len(),
        )
    };
    let raw::Prepared { number, system, additions, units, incidences } = prepared;
    Refusal::unless_zero(number).map(|()| (system, Tally { additions, units, incidences }))
}

/// What an inspection came to.
#[derive(Clone, Copy, Debug, PartialEq, Eq, Hash)]
pub enum Outcome {
    /// Nothing was settled.
    Unchanged,
    /// An atom was settled, or more.
    Changed,
    /// No assignment meets the rows and agrees with the region.
    Refuted,
}

/// An inspection that was not refused.
#[derive(Clone, Copy, Debug, PartialEq, Eq)]
pub struct Inspection {
    /// What it came to.
    pub outcome: Outcome,
    /// How many atoms it settled as true.
    pub held: usize,
    /// And as false.
    pub cut: usize,
    /// The entries of the forced list that were written; after a refutation none of them, or only the first few, are settled.
    pub forced: usize,
}

/// The kind of an inspection, or its refusal.
fn outcome(kind: usize, number: usize) -> Result<Outcome, Refusal> {
    match kind {
        raw::UNCHANGED => Ok(Outcome::Unchanged),
        raw::CHANGED => Ok(Outcome::Changed),
        raw::REFUTED => Ok(Outcome::Refuted),
        raw::REFUSED => Err(Refusal(number)),
        kind => unknown(kind),
    }
}

/// A probe that was not refused.
#[derive(Clone, Copy, Debug, PartialEq, Eq)]
#[non_exhaustive]
pub struct Probe {
    /// Whether the open atoms can come out so that every row is met.
    pub yes: bool,
    /// How many atoms are open.
    pub undecided: usize,
    /// How many independent rows were kept.
    pub kept: usize,
}

impl Probe {
    /// The e for which there are exactly 2^e ways to settle the open atoms, or nothing where there is no way.
    pub fn ways(&self) -> Option<usize> {
        self.yes.then(|| self.undecided.saturating_sub(self.kept))
    }
}

/// A prepared system in slices that the caller lends, of the lengths that [`prepare`] asks; the index may end with the columns of the rank.
#[derive(Clone, Copy, Debug)]
pub struct Lent<'a> {
    /// The system.
    pub system: System,
    /// Its rows.
    pub rows: &'a [u64],
    /// Their constants.
    pub constants: &'a [u8],
    /// The numbers of the rows in the basis.
    pub basis: &'a [usize],
    /// The columns.
    pub index: &'a [u64],
}

impl<'a> Lent<'a> {
    /// The column of an atom: bit j is set where the basis row at place j has it. Refused: 10 where atoms or rank are above 512, 9 where the
    /// index is shorter, 14 where one of the columns has a bit at the rank or above, 18 where the atom is not below the atom count.
    pub fn column(&self, atom: usize) -> Result<&'a [u64], Refusal> {
        let (index, System { atoms, rank, .. }) = (self.index, self.system);
        // SAFETY: a slice is not null, is aligned and has its length.
        let span = unsafe { raw::worzubil_column(index.as_ptr(), index.len(), atoms, rank, atom) };
        part(index, span).ok_or_else(|| {
            // SAFETY: a slice is not null, is aligned and has its length.
            Refusal(unsafe { raw::worzubil_column_number(index.as_ptr(), index.len(), atoms, rank, atom) })
        })
    }

    /// The basis rows that have an atom settled since the knowledge was published, by their places; all of them where no knowledge was published.
    /// [`sets::atoms`](crate::sets::atoms) of its words lists them. Refused: 9 to 16, as the header has them.
    pub fn touched(&self, region: &Region, known: &Snapshot) -> Result<Ordinals, Refusal> {
        // SAFETY: a slice is not null, is aligned and has its length.
        let selected = unsafe { raw::worzubil_touched(self.system, self.index.as_ptr(), self.index.len(), *region, *known) };
        Refusal::unless_zero(selected.number).map(|()| selected.rows)
    }

    /// Inspects the touched basis rows once: settles in the region what they force, and publishes the region as it was before that. The
    /// forced list is written into two slices of rank entries each. Refused, and nothing touched: 9 to 16, as the header has them.
    pub fn inspect(
        &self,
        region: &mut Region,
        known: &mut Snapshot,
        forced_atoms: &mut [usize],
        forced_values: &mut [u8],
    ) -> Result<Inspection, Refusal> {
        // SAFETY: slices are not null, are aligned and have their lengths; the changed ones are lent by `&mut`, so they overlap no other.
        let seen = unsafe {
            raw::worzubil_inspect(
                self.system,
                self.rows.as_ptr(),
                self.rows.len(),
                self.constants.as_ptr(),
                self.constants.len(),
                self.basis.as_ptr(),
                self.basis.len(),
                self.index.as_ptr(),
                self.index.len(),
                *region,
                *known,
                forced_atoms.as_mut_ptr(),
                forced_atoms.len(),
                forced_values.as_mut_ptr(),
                forced_values.len(),
            )
        };
        (*region, *known) = (seen.region, seen.known);
        Ok(Inspection { outcome: outcome(seen.kind, seen.number)?, held: seen.held, cut: seen.cut, forced: seen.forced })
    }

    /// [`inspect`](Lent::inspect) by the call that writes the knowledge in the very record that it is passed.
    pub fn inspect_in(
        &self,
        region: &mut Region,
        known: &mut Snapshot,
        forced_atoms: &mut [usize],
        forced_values: &mut [u8],
    ) -> Result<Inspection, Refusal> {
        // SAFETY: slices and record are not null, are aligned and have their lengths; the changed ones are lent by `&mut`, so they overlap
        // no other.
        let seen = unsafe {
            raw::worzubil_inspect_in(
                self.system,
                self.rows.as_ptr(),
                self.rows.len(),
                self.constants.as_ptr(),
                self.constants.len(),
                self.basis.as_ptr(),
                self.basis.len(),
                self.index.as_ptr(),
                self.index.len(),
                *region,
                known,
                forced_atoms.as_mut_ptr(),
                forced_atoms.len(),
                forced_values.as_mut_ptr(),
                forced_values.len(),
            )
        };
        *region = seen.region;
        Ok(Inspection { outcome: outcome(seen.kind, seen.number)?, held: seen.held, cut: seen.cut, forced: seen.forced })
    }

    /// [`inspect`](Lent::inspect) with the forced list as one slice of rank entries.
    pub fn inspect_list(&self, region: &mut Region, known: &mut Snapshot, list: &mut [Forced]) -> Result<Inspection, Refusal> {
        // SAFETY: slices are not null, are aligned and have their lengths; the changed one is lent by `&mut`, so it overlaps no other.
        let seen = unsafe {
            raw::worzubil_inspect_list(
                self.system,
                self.rows.as_ptr(),
                self.rows.len(),
                self.constants.as_ptr(),
                self.constants.len(),
                self.basis.as_ptr(),
                self.basis.len(),
                self.index.as_ptr(),
                self.index.len(),
                *region,
                *known,
                list.as_mut_ptr(),
                list.len(),
            )
        };
        (*region, *known) = (seen.region, seen.known);
        Ok(Inspection { outcome: outcome(seen.kind, seen.number)?, held: seen.held, cut: seen.cut, forced: seen.forced })
    }

    /// Whether the atoms that the region leaves open can come out so that every row is met, and in how many ways.
    /// Refused: 9 to 13 and 15, as the header has them.
    pub fn probe(&self, region: &Region) -> Result<Probe, Refusal> {
        // SAFETY: slices are not null, are aligned and have their lengths; none is changed.
        let probed = unsafe {
            raw::worzubil_probe(
                self.system,
                self.rows.as_ptr(),
                self.rows.len(),
                self.constants.as_ptr(),
                self.constants.len(),
                self.basis.as_ptr(),
                self.basis.len(),
                *region,
            )
        };
        let raw::Probed { number, yes, undecided, kept } = probed;
        Refusal::unless_zero(number).map(|()| Probe { yes, undecided, kept })
    }
}

/// A prepared system with memory of its own, of the right lengths.
#[derive(Clone, Debug, PartialEq, Eq)]
pub struct Prepared {
    system: System,
    tally: Tally,
    rows: Vec<u64>,
    constants: Vec<u8>,
    basis: Vec<usize>,
    units: Vec<Forced>,
    index: Vec<u64>,
}

impl Prepared {
    /// Prepares rows over n atoms, one for each of the constants: [`rows::width`] of n words each, atom a as bit a % 64 of word a / 64.
    /// Refused: 10 where there are more than 512 atoms or rows, 9 where words are missing, 11 where a row has a bit at n or above or a
    /// constant is above 1.
    pub fn new(n: usize, mut rows: Vec<u64>, mut constants: Vec<u8>) -> Result<Prepared, Refusal> {
        let m = constants.len();
        // Above the limit the call is refused with 10, whatever is lent.
        let most = n.min(m).min(LIMIT);
        let (mut basis, mut unit_atoms, mut unit_values) = (vec![0; most], vec![0; most], vec![0; most]);
        let mut index = vec![0; n.min(LIMIT) * 2 * most.div_ceil(128)];
        let outputs = Outputs { basis: &mut basis, unit_atoms: &mut unit_atoms, unit_values: &mut unit_values, index: &mut index };
        let (system, tally) = prepare(n, m, &mut rows, &mut constants, outputs)?;
        let units = unit_atoms.into_iter().zip(unit_values).map(|(atom, value)| Forced { atom, value }).take(tally.units).collect();
        Ok(Prepared { system, tally, rows, constants, basis, units, index })
    }

    /// The system: its atoms, rows and rank, and whether it is refuted.
    pub fn system(&self) -> System {
        self.system
    }

    /// What preparation tells beside the system.
    pub fn tally(&self) -> Tally {
        self.tally
    }

    /// The basis rows of one atom: the atoms, and the values that they must have.
    pub fn units(&self) -> &[Forced] {
        &self.units
    }

    /// The words of the basis row at a place, and whether it asks for an odd number; nothing from the rank on.
    pub fn basis_row(&self, place: usize) -> Option<(&[u64], bool)> {
        let number = rows::source_at(&self.basis[..self.system.rank], place)?;
        let words = rows::row(&self.rows, rows::width(self.system.atoms), number)?;
        Some((words, self.constants[number] == 1))
    }

    /// The same system in lent slices.
    pub fn lent(&self) -> Lent<'_> {
        Lent { system: self.system, rows: &self.rows, constants: &self.constants, basis: &self.basis, index: &self.index }
    }

    /// [`Lent::touched`].
    pub fn touched(&self, region: &Region, known: &Snapshot) -> Result<Ordinals, Refusal> {
        self.lent().touched(region, known)
    }

    /// [`Lent::inspect`], with the forced list in memory of its own.
    pub fn inspect(&self, region: &mut Region, known: &mut Snapshot) -> Result<(Inspection, Vec<Forced>), Refusal> {
        let mut list = vec![Forced::default(); self.system.rank];
        let inspection = self.lent().inspect_list(region, known, &mut list)?;
        list.truncate(inspection.forced);
        Ok((inspection, list))
    }

    /// [`Lent::probe`].
    pub fn probe(&self, region: &Region) -> Result<Probe, Refusal> {
        self.lent().probe(region)
    }
}

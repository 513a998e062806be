//! The same work by the Rust, by the library and by C, plain and with the library's checks, as batches of calls. What a call changes is
//! restored before a batch.

use std::hint::black_box;

use worzubil::raw;
use zetesis_algebra::region::{Region, SubjectStep};
use zetesis_algebra::{Cancellation, Meter};
use zetesis_ferraris::regions::NarrowingScratch;
use zetesis_ferraris::regions::arithmetic::{self, ParityKnowledge, ParitySystem, Row};

use crate::inputs::{Input, rust_region};

pub trait Side {
    /// Not timed.
    fn restore(&mut self) {}
    /// Timed.
    fn run(&mut self);
}

impl<F: FnMut()> Side for F {
    fn run(&mut self) {
        self();
    }
}

/// The buffers of a preparation.
#[derive(Clone, PartialEq)]
pub struct Flat {
    pub rows: Vec<u64>,
    pub constants: Vec<u8>,
    pub basis: Vec<usize>,
    pub unit_atoms: Vec<usize>,
    pub unit_values: Vec<u8>,
    pub index: Vec<u64>,
}

impl Flat {
    pub fn of(input: &Input) -> Self {
        let places = input.atoms.min(input.count());
        Self {
            rows: input.rows.clone(),
            constants: input.constants.clone(),
            basis: vec![0; places],
            unit_atoms: vec![0; places],
            unit_values: vec![0; places],
            index: vec![0; input.atoms * 2 * places.div_ceil(128)],
        }
    }

    fn restore(&mut self, input: &Input) {
        self.rows.copy_from_slice(&input.rows);
        self.constants.copy_from_slice(&input.constants);
    }
}

#[repr(C)]
pub struct PlainPrepared {
    pub number: usize,
    pub rank: usize,
    pub additions: usize,
    pub units: usize,
    pub incidences: usize,
    pub refuted: usize,
}

#[repr(C)]
#[derive(Debug, PartialEq)]
pub struct PlainProbed {
    pub number: usize,
    pub yes: usize,
    pub undecided: usize,
    pub kept: usize,
}

impl From<raw::Probed> for PlainProbed {
    fn from(said: raw::Probed) -> Self {
        Self { number: said.number, yes: said.yes.into(), undecided: said.undecided, kept: said.kept }
    }
}

unsafe extern "C" {
    fn plain_prepare(
        n: usize,
        m: usize,
        rows: *mut u64,
        constants: *mut u8,
        basis: *mut usize,
        unit_atoms: *mut usize,
        unit_values: *mut u8,
        index: *mut u64,
    ) -> PlainPrepared;
    fn checked_prepare(
        n: usize,
        m: usize,
        rows: *mut u64,
        rows_length: usize,
        constants: *mut u8,
        constants_length: usize,
        basis: *mut usize,
        basis_length: usize,
        unit_atoms: *mut usize,
        unit_atoms_length: usize,
        unit_values: *mut u8,
        unit_values_length: usize,
        index: *mut u64,
        index_length: usize,
    ) -> PlainPrepared;
    fn plain_probe(
        n: usize,
        rank: usize,
        rows: *const u64,
        constants: *const u8,
        basis: *const usize,
        held: *const u64,
        cut: *const u64,
    ) -> PlainProbed;
    fn checked_probe(
        n: usize,
        m: usize,
        rank: usize,
        rows: *const u64,
        rows_length: usize,
        constants: *const u8,
        constants_length: usize,
        basis: *const usize,
        basis_length: usize,
        atoms: usize,
        held: *const u64,
        cut: *const u64,
    ) -> PlainProbed;
    fn call_probe(
        system: *const raw::System,
        rows: *const u64,
        rows_length: usize,
        constants: *const u8,
        constants_length: usize,
        basis: *const usize,
        basis_length: usize,
        region: *const raw::Region,
    ) -> raw::Probed;
    fn call_inspect(
        call: *const (),
        told: *mut raw::Inspection,
        system: *const raw::System,
        rows: *const u64,
        rows_length: usize,
        constants: *const u8,
        constants_length: usize,
        basis: *const usize,
        basis_length: usize,
        index: *const u64,
        index_length: usize,
        region: *const raw::Region,
        known: *const raw::Snapshot,
        forced_atoms: *mut usize,
        forced_atoms_length: usize,
        forced_values: *mut u8,
        forced_values_length: usize,
    );
    fn plain_inspect();
    fn checked_inspect();
    fn once_inspect(
        system: raw::System,
        rows: *const u64,
        rows_length: usize,
        constants: *const u8,
        constants_length: usize,
        basis: *const usize,
        basis_length: usize,
        index: *const u64,
        index_length: usize,
        regions: *const raw::Region,
        regions_length: usize,
        known: raw::Snapshot,
        forced_atoms: *mut usize,
        forced_atoms_length: usize,
        forced_values: *mut u8,
        forced_values_length: usize,
    ) -> usize;
}

/// Preparation over lent buffers, by the library or by C.
pub struct FlatPrepare<'a> {
    input: &'a Input,
    pool: Vec<Flat>,
    call: fn(&Input, &mut Flat) -> raw::Prepared,
    pub told: raw::Prepared,
}

impl<'a> FlatPrepare<'a> {
    pub fn new(input: &'a Input, calls: usize, call: fn(&Input, &mut Flat) -> raw::Prepared) -> Self {
        Self { input, pool: vec![Flat::of(input); calls], call, told: raw::Prepared::default() }
    }

    pub fn left(&self) -> &Flat {
        &self.pool[0]
    }
}

impl Side for FlatPrepare<'_> {
    fn restore(&mut self) {
        self.pool.iter_mut().for_each(|flat| flat.restore(self.input));
    }

    fn run(&mut self) {
        for flat in &mut self.pool {
            self.told = (self.call)(self.input, flat);
        }
    }
}

pub fn prepare(input: &Input, flat: &mut Flat) -> raw::Prepared {
    unsafe {
        raw::worzubil_prepare(
            input.atoms,
            input.count(),
            flat.rows.as_mut_ptr(),
            flat.rows.len(),
            flat.constants.as_mut_ptr(),
            flat.constants.len(),
            flat.basis.as_mut_ptr(),
            flat.basis.len(),
            flat.unit_atoms.as_mut_ptr(),
            flat.unit_atoms.len(),
            flat.unit_values.as_mut_ptr(),
            flat.unit_values.len(),
            flat.index.as_mut_ptr(),
            flat.index.len(),
        )
    }
}

/// What C tells, as the library tells it.
fn told(input: &Input, told: PlainPrepared) -> raw::Prepared {
    if told.number != 0 {
        return raw::Prepared { number: told.number, ..Default::default() };
    }
    let system = raw::System { atoms: input.atoms, rows: input.count(), rank: told.rank, refuted: told.refuted != 0 };
    raw::Prepared { number: 0, system, additions: told.additions, units: told.units, incidences: told.incidences }
}

pub fn prepare_plainly(input: &Input, flat: &mut Flat) -> raw::Prepared {
    told(input, unsafe {
        plain_prepare(
            input.atoms,
            input.count(),
            flat.rows.as_mut_ptr(),
            flat.constants.as_mut_ptr(),
            flat.basis.as_mut_ptr(),
            flat.unit_atoms.as_mut_ptr(),
            flat.unit_values.as_mut_ptr(),
            flat.index.as_mut_ptr(),
        )
    })
}

pub fn prepare_checking(input: &Input, flat: &mut Flat) -> raw::Prepared {
    told(input, unsafe {
        checked_prepare(
            input.atoms,
            input.count(),
            flat.rows.as_mut_ptr(),
            flat.rows.len(),
            flat.constants.as_mut_ptr(),
            flat.constants.len(),
            flat.basis.as_mut_ptr(),
            flat.basis.len(),
            flat.unit_atoms.as_mut_ptr(),
            flat.unit_atoms.len(),
            flat.unit_values.as_mut_ptr(),
            flat.unit_values.len(),
            flat.index.as_mut_ptr(),
            flat.index.len(),
        )
    })
}

/// Preparation by the Rust; its rows are handed over in the width that it has, and its own vectors are allocated in the time.
pub struct RustPrepare {
    atoms: usize,
    original: Vec<Row>,
    pool: Vec<Vec<Row>>,
    pub made: Vec<ParitySystem>,
}

impl RustPrepare {
    pub fn new(input: &Input, calls: usize) -> Self {
        let mut original = input.rust();
        original.iter_mut().for_each(|(words, _)| words.resize(2 * input.atoms.div_ceil(128), 0));
        Self { atoms: input.atoms, original, pool: vec![Vec::new(); calls], made: Vec::with_capacity(calls) }
    }
}

impl Side for RustPrepare {
    fn restore(&mut self) {
        self.made.clear();
        self.pool.iter_mut().for_each(|rows| *rows = self.original.clone());
    }

    fn run(&mut self) {
        for rows in &mut self.pool {
            self.made.push(ParitySystem::prepare(self.atoms, std::mem::take(rows)));
        }
    }
}

#[cfg(m4ri)]
mod m4ri {
    pub enum Matrix {}

    unsafe extern "C" {
        pub fn m4ri_made(n: usize, m: usize, rows: *const u64) -> *mut Matrix;
        pub fn m4ri_restore(matrix: *mut Matrix, original: *const Matrix);
        pub fn m4ri_rank(matrix: *mut Matrix) -> usize;
    }
}

/// M4RI's echelon form of the same rows, the pivots alone.
#[cfg(m4ri)]
pub struct Echelonize {
    original: *mut m4ri::Matrix,
    pool: Vec<*mut m4ri::Matrix>,
    pub rank: usize,
}

#[cfg(m4ri)]
impl Echelonize {
    pub fn new(input: &Input, calls: usize) -> Self {
        let made = || unsafe { m4ri::m4ri_made(input.atoms, input.count(), input.rows.as_ptr()) };
        Self { original: made(), pool: (0..calls).map(|_| made()).collect(), rank: 0 }
    }
}

#[cfg(m4ri)]
impl Side for Echelonize {
    fn restore(&mut self) {
        self.pool.iter().for_each(|&matrix| unsafe { m4ri::m4ri_restore(matrix, self.original) });
    }

    fn run(&mut self) {
        for &matrix in &self.pool {
            self.rank = unsafe { m4ri::m4ri_rank(matrix) };
        }
    }
}

/// Inspection by the Rust, over one scratch; region and knowledge are changed in place.
pub struct RustInspect<'a> {
    system: &'a ParitySystem,
    region: Region,
    known: ParityKnowledge,
    pool: Vec<(Region, ParityKnowledge)>,
    scratch: NarrowingScratch,
    pub told: (usize, u64, u64),
}

impl<'a> RustInspect<'a> {
    pub fn new(system: &'a ParitySystem, region: &raw::Region, known: Option<&raw::Region>, calls: usize) -> Self {
        let known = known.map_or(system.knowledge(), |old| arithmetic::published(&rust_region(old)));
        let region = rust_region(region);
        let pool = vec![(region.clone(), known.clone()); calls];
        Self { system, region, known, pool, scratch: NarrowingScratch::default(), told: (0, 0, 0) }
    }

    pub fn after(&self) -> (&Region, (bool, Vec<u64>)) {
        (&self.pool[0].0, arithmetic::known_words(&self.pool[0].1))
    }
}

impl Side for RustInspect<'_> {
    fn restore(&mut self) {
        self.pool.iter_mut().for_each(|pair| *pair = (self.region.clone(), self.known.clone()));
    }

    fn run(&mut self) {
        let (mut meter, cancellation) = (Meter::local(u64::MAX), Cancellation::default());
        for (region, known) in &mut self.pool {
            let attempt = self.system.inspect_reserved(region, known, &mut self.scratch, &cancellation, &mut meter);
            let kind = match attempt.result.expect("fit") {
                SubjectStep::Unchanged => raw::UNCHANGED,
                SubjectStep::Changed => raw::CHANGED,
                SubjectStep::Refuted => raw::REFUTED,
            };
            self.told = (kind, attempt.statistics.held, attempt.statistics.cut);
        }
    }
}

/// What inspections and probes are lent.
pub struct Lent<'a> {
    pub system: raw::System,
    pub flat: &'a Flat,
}

/// An inspection by value: `worzubil_inspect`, or one of plain.c of the same type.
#[derive(Clone, Copy)]
pub struct Inspect(*const ());

pub fn inspect() -> Inspect {
    Inspect(raw::worzubil_inspect as *const ())
}

pub fn inspect_plainly() -> Inspect {
    Inspect(plain_inspect as *const ())
}

pub fn inspect_checking() -> Inspect {
    Inspect(checked_inspect as *const ())
}

/// Inspection by the library or by C; region and knowledge are taken and given back, so nothing is restored.
pub struct FlatInspect<'a> {
    call: Inspect,
    lent: &'a Lent<'a>,
    region: raw::Region,
    known: raw::Snapshot,
    pub atoms: Vec<usize>,
    pub values: Vec<u8>,
    calls: usize,
    pub told: raw::Inspection,
}

impl<'a> FlatInspect<'a> {
    pub fn new(call: Inspect, lent: &'a Lent, region: &raw::Region, known: &raw::Snapshot, calls: usize) -> Self {
        let (atoms, values) = (vec![0; lent.system.rank], vec![0; lent.system.rank]);
        Self { call, lent, region: *region, known: *known, atoms, values, calls, told: raw::Inspection::default() }
    }

    /// What it told, and the forced list.
    pub fn left(&self) -> (&raw::Inspection, &[usize], &[u8]) {
        (&self.told, &self.atoms[..self.told.forced], &self.values[..self.told.forced])
    }
}

impl Side for FlatInspect<'_> {
    fn run(&mut self) {
        let Lent { system, flat } = self.lent;
        for _ in 0..self.calls {
            unsafe {
                call_inspect(
                    self.call.0,
                    &mut self.told,
                    system,
                    flat.rows.as_ptr(),
                    flat.rows.len(),
                    flat.constants.as_ptr(),
                    flat.constants.len(),
                    flat.basis.as_ptr(),
                    flat.basis.len(),
                    flat.index.as_ptr(),
                    flat.index.len(),
                    black_box(&self.region),
                    &self.known,
                    self.atoms.as_mut_ptr(),
                    self.atoms.len(),
                    self.values.as_mut_ptr(),
                    self.values.len(),
                );
            }
        }
    }
}

/// An inspection of each region, over a system looked at once, by crates/once_c; how many atoms were decided in all.
pub fn inspect_once(lent: &Lent, regions: &[raw::Region], known: &raw::Snapshot, atoms: &mut [usize], values: &mut [u8]) -> usize {
    let Lent { system, flat } = lent;
    unsafe {
        once_inspect(
            *system,
            flat.rows.as_ptr(),
            flat.rows.len(),
            flat.constants.as_ptr(),
            flat.constants.len(),
            flat.basis.as_ptr(),
            flat.basis.len(),
            flat.index.as_ptr(),
            flat.index.len(),
            regions.as_ptr(),
            regions.len(),
            *known,
            atoms.as_mut_ptr(),
            atoms.len(),
            values.as_mut_ptr(),
            values.len(),
        )
    }
}

/// The knowledge that a region leaves, or none.
pub fn known_of(old: Option<&raw::Region>) -> raw::Snapshot {
    old.map_or(raw::Snapshot::default(), |old| raw::Snapshot { initialized: true, atoms: old.atoms, held: old.held, cut: old.cut })
}

/// The probes change nothing.
pub fn our_probe(lent: &Lent, region: &raw::Region) -> raw::Probed {
    let Lent { system, flat } = lent;
    unsafe {
        call_probe(
            system,
            flat.rows.as_ptr(),
            flat.rows.len(),
            flat.constants.as_ptr(),
            flat.constants.len(),
            flat.basis.as_ptr(),
            flat.basis.len(),
            region,
        )
    }
}

pub fn rust_probe(system: &ParitySystem, region: &Region) -> bool {
    system.consistent_in_reserved(region, &mut Meter::local(u64::MAX)).expect("never declined")
}

pub fn probe_plainly(lent: &Lent, region: &raw::Region) -> PlainProbed {
    let Lent { system, flat } = lent;
    let (held, cut) = (region.held.as_ptr(), region.cut.as_ptr());
    unsafe { plain_probe(system.atoms, system.rank, flat.rows.as_ptr(), flat.constants.as_ptr(), flat.basis.as_ptr(), held, cut) }
}

pub fn probe_checking(lent: &Lent, region: &raw::Region) -> PlainProbed {
    let Lent { system, flat } = lent;
    unsafe {
        checked_probe(
            system.atoms,
            system.rows,
            system.rank,
            flat.rows.as_ptr(),
            flat.rows.len(),
            flat.constants.as_ptr(),
            flat.constants.len(),
            flat.basis.as_ptr(),
            flat.basis.len(),
            region.atoms,
            region.held.as_ptr(),
            region.cut.as_ptr(),
        )
    }
}

//! The parent of the copied files: the parity system they share, and a window on it for the driver.
//!
//! Each function below runs the Rust with a meter that never declines and hands back what it left.

mod budget;
mod hull;
mod parity;
mod rows;
pub(super) mod runtime;
mod snapshot;
mod storage;
mod work;

pub use parity::ParityKnowledge;

use budget::Budget;
use parity::{Counts, Index, Prepared};
use rows::Equation;
use snapshot::Snapshot;
use storage::Storage;
use zetesis_algebra::{
    Cancellation, Meter, Stop, region::Region, region::SubjectStep, words::Words,
};

use super::NarrowingScratch;

pub struct ParitySystem {
    recognized: Recognized,
    prepared: Prepared,
}

struct Recognized {
    facts: Facts,
    equations: Vec<Equation>,
}

struct Facts {
    atoms: usize,
}

impl Facts {
    fn owner(&self) -> &Self {
        self
    }

    fn atom_count(&self) -> usize {
        self.atoms
    }
}

/// A row: its atoms as words, and its constant.
pub type Row = (Vec<u64>, bool);

pub struct Inspected {
    pub result: Result<SubjectStep, Stop>,
    pub held: u64,
    pub cut: u64,
    pub forced: Vec<(usize, bool)>,
}

fn meter() -> Meter<'static> {
    Meter::local(u64::MAX)
}

/// Equations (coefficients, constant) and whether they are exact.
pub fn propose(k: usize, forbidden: &[u64]) -> (Vec<(u8, bool)>, bool) {
    let (equations, count, exact) = proposed(k, forbidden);
    (equations[..count].to_vec(), exact)
}

/// The same without a vector: eight places, how many of them count, and whether they are exact.
pub fn proposed(k: usize, forbidden: &[u64]) -> ([(u8, bool); 8], usize, bool) {
    let hull = hull::propose(k, forbidden, &mut |_| Ok::<_, Stop>(())).expect("never declined");
    let mut equations = [(0, false); 8];
    for (place, equation) in equations.iter_mut().zip(hull.equations()) {
        *place = (equation.coefficients, equation.constant);
    }
    (equations, hull.equations().len(), hull.exact)
}

impl ParitySystem {
    pub fn prepare(atoms: usize, rows: Vec<Row>) -> Self {
        let mut equations = padded(atoms, rows);
        let mut meter = meter();
        let mut budget = Budget::new(&mut meter, 0, 0, &Cancellation::default());
        let prepared = parity::prepare(&mut equations, atoms, &mut Storage::default(), &mut budget)
            .expect("never declined");
        Self {
            recognized: Recognized {
                facts: Facts { atoms },
                equations,
            },
            prepared,
        }
    }

    /// A system that preparation need not have made.
    pub fn lent(
        atoms: usize,
        rows: Vec<Row>,
        basis: Vec<usize>,
        index: Vec<u64>,
        refuted: bool,
    ) -> Self {
        let index = Some(lent_index(index, basis.len()));
        let (units, counts) = (Vec::new(), Counts::default());
        Self {
            recognized: Recognized {
                facts: Facts { atoms },
                equations: padded(atoms, rows),
            },
            prepared: Prepared {
                basis,
                units,
                index,
                root_refuted: refuted,
                counts,
            },
        }
    }

    pub fn atoms(&self) -> usize {
        self.recognized.facts.atoms
    }

    /// The rows as they are now, in as many words as the Rust has.
    pub fn rows(&self) -> Vec<Row> {
        self.recognized
            .equations
            .iter()
            .map(|e| (e.words.clone(), e.constant))
            .collect()
    }

    pub fn basis(&self) -> &[usize] {
        &self.prepared.basis
    }

    pub fn units(&self) -> Vec<(usize, bool)> {
        self.prepared
            .units
            .iter()
            .map(|unit| (unit.atom, unit.value))
            .collect()
    }

    pub fn index(&self) -> &[u64] {
        self.prepared
            .index
            .as_ref()
            .map_or(&[], |index| &index.words[..])
    }

    pub fn refuted(&self) -> bool {
        self.prepared.root_refuted
    }

    /// Rank, additions, units and incidences, as the Rust counted them.
    pub fn counts(&self) -> [u64; 4] {
        let Counts {
            rank,
            additions,
            units,
            incidences,
        } = self.prepared.counts;
        [rank, additions, units, incidences]
    }

    pub fn inspect(&self, region: &mut Region, known: &mut ParityKnowledge) -> Inspected {
        let mut scratch = NarrowingScratch::default();
        let attempt = self.inspect_reserved(
            region,
            known,
            &mut scratch,
            &Cancellation::default(),
            &mut meter(),
        );
        Inspected {
            result: attempt.result.map_err(|failure| failure.into_stop()),
            held: attempt.statistics.held,
            cut: attempt.statistics.cut,
            forced: scratch.arithmetic.consequences,
        }
    }

    pub fn probe(&self, region: &Region) -> bool {
        self.consistent_in_reserved(region, &mut meter())
            .expect("never declined")
    }

    /// The ordinals that the Rust selects; `old` is the region last published.
    pub fn touched(&self, region: &Region, old: Option<&Region>) -> Vec<usize> {
        let mut snapshot = Snapshot::default();
        if let Some(old) = old {
            snapshot
                .prepare(old.mask_words(), &mut meter())
                .expect("never declined");
            snapshot.publish(old, &mut meter()).expect("never declined");
        }
        let mut scratch = NarrowingScratch::default().arithmetic;
        let index = self.prepared.index.as_ref().expect("a lent index");
        snapshot
            .select(region, index, &mut scratch, &mut meter())
            .expect("never declined");
        scratch
            .touched
            .positions()
            .filter(|&ordinal| ordinal < index.rows)
            .collect()
    }
}

/// Knowledge that holds these decisions. A system whose one basis row has no index bit touches no row, and so publishes.
pub fn published(old: &Region) -> ParityKnowledge {
    let mut system = ParitySystem::lent(old.len(), Vec::new(), vec![0], Vec::new(), false);
    system.prepared.index = Some(lent_index(Vec::new(), 0));
    let mut known = system.knowledge();
    let step = system.inspect(&mut old.clone(), &mut known).result;
    assert_eq!(step, Ok(SubjectStep::Unchanged));
    known
}

/// Whether knowledge is initialised, and its words, held before cut. They are private there, so the Debug text is read.
pub fn known_words(known: &ParityKnowledge) -> (bool, Vec<u64>) {
    let text = format!("{known:?}");
    let (_, list) = text.split_once('[').expect("a list of words");
    let (list, rest) = list.split_once(']').expect("a list of words");
    let word = |word: &str| word.trim().parse().expect("a word");
    let words = list.split(',').filter(|word| !word.is_empty()).map(word);
    (rest.contains("initialized: true"), words.collect())
}

fn lent_index(words: Vec<u64>, rows: usize) -> Index {
    Index {
        words: Words::new(words),
        row_words: 2 * rows.div_ceil(128),
        rows,
        insertions: 0,
    }
}

/// Rows as the Rust has them: 2·ceil(n/128) words, the last one possibly padding.
fn padded(atoms: usize, rows: Vec<Row>) -> Vec<Equation> {
    let equation = |(mut words, constant): Row| {
        words.resize(2 * atoms.div_ceil(128), 0);
        Equation { words, constant }
    };
    rows.into_iter().map(equation).collect()
}

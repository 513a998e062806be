//! One call put to both sides and compared: with the Rust, and with the model where the Rust has no answer.

use std::fmt::Debug;

use worzubil::raw::{self, ANSWERED, CHANGED, Forced, REFUSED, REFUTED, Snapshot, UNCHANGED, UNFIT};
use zetesis_algebra::region::{Decided, Region, SubjectStep};
use zetesis_ferraris::regions::arithmetic::{self, ParityKnowledge, ParitySystem, Row};

use crate::lent::{Cell, Filled, Lent, State, column_width, places, width};
use crate::model::{self, Call, Handed};
use crate::tally::Tally;

pub type Check<T = ()> = Result<T, String>;

pub fn same<T: PartialEq + Debug>(what: &str, ours: T, theirs: T) -> Check {
    if ours == theirs { Ok(()) } else { Err(format!("{what}: ours {ours:x?}, judged {theirs:x?}")) }
}

impl Cell for Snapshot {
    fn canary(at: usize) -> Self {
        Snapshot { initialized: at % 2 == 0, atoms: at, held: [u64::canary(at); 8], cut: [u64::canary(at + 1); 8] }
    }
}

/// The Rust's side of a state.
pub struct Rust {
    pub system: ParitySystem,
    pub region: Region,
    pub known: ParityKnowledge,
}

fn mask(words: &[u64], atoms: usize) -> Vec<u64> {
    words[..width(atoms)].to_vec()
}

pub fn rows(atoms: usize, count: usize, words: &[u64], constants: &[u8]) -> Vec<Row> {
    let row = |number: usize| (words[number * width(atoms)..][..width(atoms)].to_vec(), constants[number] == 1);
    (0..count).map(row).collect()
}

fn old_region(known: &Snapshot) -> Option<Region> {
    let old = || Region::lent(known.atoms, mask(&known.held, known.atoms), mask(&known.cut, known.atoms));
    known.initialized.then(old)
}

impl Rust {
    /// The same, lent to the Rust: fit for an inspection.
    pub fn of(state: &State) -> Self {
        let (atoms, region) = (state.system.atoms, &state.region);
        let system = ParitySystem::lent(
            atoms,
            rows(atoms, state.system.rows, &state.rows, &state.constants),
            state.basis[..state.system.rank].to_vec(),
            state.index[..atoms * column_width(state.system.rank)].to_vec(),
            state.system.refuted,
        );
        let known = old_region(&state.known).map_or(system.knowledge(), |old| arithmetic::published(&old));
        Self { system, region: Region::lent(region.atoms, mask(&region.held, atoms), mask(&region.cut, atoms)), known }
    }

    /// Region and knowledge, word for word.
    fn compare(&self, state: &State) -> Check {
        let atoms = state.region.atoms;
        let (held, cut) = self.region.decision_words();
        same("atoms of the region", atoms, self.region.len())?;
        same_mask("held", &state.region.held, held)?;
        same_mask("cut", &state.region.cut, cut)?;
        let (initialized, words) = arithmetic::known_words(&self.known);
        same("knowledge", state.known.initialized, initialized)?;
        if initialized {
            let (held, cut) = words.split_at(words.len() / 2);
            same("atoms of the knowledge", state.known.atoms, atoms)?;
            same_mask("old held", &state.known.held, held)?;
            same_mask("old cut", &state.known.cut, cut)?;
        }
        Ok(())
    }
}

/// Eight words are those of the Rust, and then 0.
fn same_mask(what: &str, ours: &[u64; 8], theirs: &[u64]) -> Check {
    let mut words = [0; 8];
    words[..theirs.len()].copy_from_slice(theirs);
    same(what, *ours, words)
}

pub fn propose(k: usize, table: &[u64], tally: &mut Tally) -> Check {
    let lent = Lent::of(table, table.len());
    let said = unsafe { raw::worzubil_propose(k, lent.pointer(), lent.len()) };
    lent.stands("table", 0)?;
    let fit = k <= 8 && table.len() == 2 * (1usize << k).div_ceil(128);
    let number = if fit { 0 } else { 17 };
    tally.called("propose", number);
    let mut judged = raw::Proposal { number, ..Default::default() };
    if fit {
        let (equations, exact) = arithmetic::propose(k, table);
        judged.hull.count = equations.len();
        judged.hull.exact = exact;
        for (place, (coefficients, constant)) in judged.hull.equations.iter_mut().zip(equations) {
            *place = raw::Equation { coefficients, constant };
        }
    }
    same("hull", said, judged)
}

/// The number is the model's; a fit preparation is the Rust's, word for word. Gives back what it left, and the Rust's system.
pub fn prepare(handed: &Handed, number: usize, tally: &mut Tally) -> Check<Option<(State, ParitySystem)>> {
    let Handed { atoms, count, room, .. } = *handed;
    let mut rows_lent = Lent::of(&handed.rows, handed.rows.len());
    let mut constants = Lent::of(&handed.constants, handed.constants.len());
    let (mut basis, mut unit_atoms) = (Lent::<usize>::of(&[], room[0]), Lent::<usize>::of(&[], room[1]));
    let (mut unit_values, mut index) = (Lent::<u8>::of(&[], room[2]), Lent::<u64>::of(&[], room[3]));
    tally.called("prepare", number);
    let said = unsafe {
        raw::worzubil_prepare(
            atoms,
            count,
            rows_lent.pointer_mut(),
            rows_lent.len(),
            constants.pointer_mut(),
            constants.len(),
            basis.pointer_mut(),
            basis.len(),
            unit_atoms.pointer_mut(),
            unit_atoms.len(),
            unit_values.pointer_mut(),
            unit_values.len(),
            index.pointer_mut(),
            index.len(),
        )
    };
    let fit = |named: usize| if said.number == 0 { named } else { 0 };
    let columns = if said.system.refuted { 0 } else { atoms.wrapping_mul(column_width(said.system.rank)) };
    rows_lent.stands("rows", fit(count.wrapping_mul(width(atoms))))?;
    constants.stands("constants", fit(count))?;
    basis.stands("basis", said.system.rank)?;
    unit_atoms.stands("unit atoms", said.units)?;
    unit_values.stands("unit values", said.units)?;
    index.stands("index", fit(columns))?;
    if number != 0 {
        same("refused preparation", said, raw::Prepared { number, ..Default::default() })?;
        return Ok(None);
    }
    let rust = ParitySystem::prepare(atoms, rows(atoms, count, &handed.rows, &handed.constants));
    let [rank, additions, units, incidences] = rust.counts().map(|count| count as usize);
    let system = raw::System { atoms, rows: count, rank, refuted: rust.refuted() };
    same("prepared", said, raw::Prepared { number, system, additions, units, incidences })?;
    for (at, (words, constant)) in rust.rows().iter().enumerate() {
        same("row", &rows_lent.values()[at * width(atoms)..][..width(atoms)], &words[..width(atoms)])?;
        same("constant", constants.values()[at], u8::from(*constant))?;
    }
    same("basis", &basis.values()[..rank], rust.basis())?;
    let pairs = unit_atoms.values()[..units].iter().zip(&unit_values.values()[..units]);
    same("units", pairs.map(|(&atom, &value)| (atom, value == 1)).collect(), rust.units())?;
    same("unit values", unit_values.values()[..units].iter().all(|&value| value <= 1), true)?;
    same("index", &index.values()[..columns], rust.index())?;
    let state = State {
        system,
        rows: rows_lent.values().to_vec(),
        constants: constants.values().to_vec(),
        basis: basis.values().to_vec(),
        index: index.values().to_vec(),
        region: raw::Region { atoms, ..Default::default() },
        known: Snapshot::default(),
        room: [rank, rank],
    };
    Ok(Some((state, rust)))
}

pub fn column(atoms: usize, rank: usize, index: &[u64], atom: usize, tally: &mut Tally) -> Check {
    let lent = Lent::of(index, index.len());
    let number = model::column_number(atoms, rank, index, atom);
    tally.called("column", number);
    let said = unsafe { raw::worzubil_column_number(lent.pointer(), lent.len(), atoms, rank, atom) };
    let span = unsafe { raw::worzubil_column(lent.pointer(), lent.len(), atoms, rank, atom) };
    lent.stands("index", 0)?;
    same("number of a column", said, number)?;
    let judged = if number == 0 {
        raw::Span { kind: ANSWERED, start: atom * column_width(rank), length: column_width(rank) }
    } else {
        raw::Span { kind: UNFIT, start: 0, length: 0 }
    };
    same("column", span, judged)
}

pub fn undecided(atoms: usize, tally: &mut Tally) -> Check {
    let number = if atoms > model::LIMIT { 10 } else { 0 };
    tally.called("undecided", number);
    let region = raw::Region { atoms: if number == 0 { atoms } else { 0 }, ..Default::default() };
    same("undecided", unsafe { raw::worzubil_undecided(atoms) }, raw::NewRegion { number, region })
}

/// Judged by the model, and where it is fit also by the Region of the oracle.
pub fn decide(state: &mut State, rust: Option<&mut Rust>, atom: usize, value: bool, tally: &mut Tally) -> Check {
    let number = model::decide_number(&state.region, atom);
    tally.called(if value { "hold" } else { "cut" }, number);
    let call = if value { raw::worzubil_hold } else { raw::worzubil_cut };
    let said = unsafe { call(state.region, atom) };
    let (kind, region) = match number {
        0 => model::decided(&state.region, atom, value),
        _ => (REFUSED, state.region),
    };
    same("decision", said, raw::Decision { kind, number, region })?;
    state.region = said.region;
    if let Some(rust) = rust.filter(|_| number == 0) {
        let told = [Decided::Taken, Decided::Same, Decided::Against][kind];
        same("decision of the Rust", told, rust.region.decide(atom, value))?;
        rust.compare(state)?;
    }
    Ok(())
}

pub fn publish(state: &State, tally: &mut Tally) -> Check {
    let (number, region) = (model::region_number(&state.region), state.region);
    tally.called("publish", number);
    let known = match number {
        0 => Snapshot { initialized: true, atoms: region.atoms, held: region.held, cut: region.cut },
        _ => state.known,
    };
    let said = unsafe { raw::worzubil_publish(state.known, region) };
    same("published", said, raw::Published { number, known })?;
    let mut lent = Lent::of(&[state.known], 1);
    let said = unsafe { raw::worzubil_publish_in(lent.pointer_mut(), region) };
    lent.stands("knowledge", 1)?;
    same("published in place", (said, lent.values()[0]), (number, known))
}

/// The set is the Rust's; of a refuted preparation, which has no index there, that of the same state lent.
pub fn touched(filled: &Filled, state: &State, rust: Option<&Rust>, number: usize, tally: &mut Tally) -> Check {
    tally.called("touched", number);
    let said = unsafe { raw::worzubil_touched(state.system, filled.index.pointer(), filled.index.len(), state.region, state.known) };
    filled.stands()?;
    let mut rows = raw::Ordinals::default();
    if let Some(rust) = rust.filter(|_| number == 0) {
        for ordinal in rust.system.touched(&rust.region, old_region(&state.known).as_ref()) {
            model::put(&mut rows.words, ordinal, true);
        }
    }
    same("touched rows", said, raw::Selected { number, rows })
}

fn forced(list: impl Iterator<Item = (usize, u8)>) -> Vec<Forced> {
    list.map(|(atom, value)| Forced { atom, value }).collect()
}

/// The three calls that inspect, which must say and leave the same.
fn inspections(filled: &Filled, state: &State) -> Check<(raw::Inspection, Vec<Forced>)> {
    let Filled { rows, constants, basis, index } = filled;
    let State { system, region, known, room, .. } = *state;
    let (mut atoms, mut values) = (Lent::<usize>::of(&[], room[0]), Lent::<u8>::of(&[], room[1]));
    let said = unsafe {
        raw::worzubil_inspect(
            system,
            rows.pointer(),
            rows.len(),
            constants.pointer(),
            constants.len(),
            basis.pointer(),
            basis.len(),
            index.pointer(),
            index.len(),
            region,
            known,
            atoms.pointer_mut(),
            atoms.len(),
            values.pointer_mut(),
            values.len(),
        )
    };
    filled.stands()?;
    atoms.stands("forced atoms", said.forced)?;
    values.stands("forced values", said.forced)?;
    let list = forced(atoms.values()[..said.forced].iter().copied().zip(values.values().iter().copied()));

    let (mut atoms, mut values) = (Lent::<usize>::of(&[], room[0]), Lent::<u8>::of(&[], room[1]));
    let mut record = Lent::of(&[known], 1);
    let seen = unsafe {
        raw::worzubil_inspect_in(
            system,
            rows.pointer(),
            rows.len(),
            constants.pointer(),
            constants.len(),
            basis.pointer(),
            basis.len(),
            index.pointer(),
            index.len(),
            region,
            record.pointer_mut(),
            atoms.pointer_mut(),
            atoms.len(),
            values.pointer_mut(),
            values.len(),
        )
    };
    filled.stands()?;
    record.stands("knowledge", 1)?;
    atoms.stands("forced atoms", seen.forced)?;
    values.stands("forced values", seen.forced)?;
    let raw::Inspection { kind, number, held, cut, forced: count, region: left, .. } = said;
    same("inspection in place", seen, raw::Seen { kind, number, held, cut, forced: count, region: left })?;
    same("knowledge in place", record.values()[0], said.known)?;
    let other = forced(atoms.values()[..count].iter().copied().zip(values.values().iter().copied()));
    same("forced list of the inspection in place", &other, &list)?;

    let mut entries = Lent::<Forced>::of(&[], room[0].min(room[1]));
    let listed = unsafe {
        raw::worzubil_inspect_list(
            system,
            rows.pointer(),
            rows.len(),
            constants.pointer(),
            constants.len(),
            basis.pointer(),
            basis.len(),
            index.pointer(),
            index.len(),
            region,
            known,
            entries.pointer_mut(),
            entries.len(),
        )
    };
    filled.stands()?;
    entries.stands("forced list", listed.forced)?;
    same("inspection with a list", listed, said)?;
    same("forced list", &entries.values()[..count], &list[..])?;
    Ok((said, list))
}

/// The number is the caller's; a fit inspection is the Rust's. Region and knowledge are carried on.
pub fn inspect(filled: &Filled, state: &mut State, rust: Option<&mut Rust>, number: usize, tally: &mut Tally) -> Check {
    tally.called("inspect", number);
    let (said, list) = inspections(filled, state)?;
    let Some(rust) = rust.filter(|_| number == 0) else {
        let (region, known) = (state.region, state.known);
        return same("refused inspection", said, raw::Inspection { kind: REFUSED, number, region, known, ..Default::default() });
    };
    let told = rust.system.inspect(&mut rust.region, &mut rust.known);
    let kind = match told.result {
        Ok(SubjectStep::Unchanged) => UNCHANGED,
        Ok(SubjectStep::Changed) => CHANGED,
        Ok(SubjectStep::Refuted) => REFUTED,
        Err(stop) => return Err(format!("the Rust stopped: {stop:?}")),
    };
    tally.seen(["unchanged", "changed", "refuted"][kind]);
    let counts = (kind, 0, told.held as usize, told.cut as usize, told.forced.len());
    same("inspection", (said.kind, said.number, said.held, said.cut, said.forced), counts)?;
    same("forced list", list, forced(told.forced.iter().map(|&(atom, value)| (atom, u8::from(value)))))?;
    if !said.known.initialized {
        same("knowledge that was not published", said.known, state.known)?;
    }
    state.region = said.region;
    state.known = said.known;
    rust.compare(state)
}

/// u, k and a refuted system by the model, yes or no also by the Rust.
pub fn probe(filled: &Filled, state: &State, rust: Option<&Rust>, number: usize, tally: &mut Tally) -> Check {
    tally.called("probe", number);
    let Filled { rows, constants, basis, .. } = filled;
    let said = unsafe {
        raw::worzubil_probe(
            state.system,
            rows.pointer(),
            rows.len(),
            constants.pointer(),
            constants.len(),
            basis.pointer(),
            basis.len(),
            state.region,
        )
    };
    filled.stands()?;
    if number != 0 {
        return same("refused probe", said, raw::Probed { number, ..Default::default() });
    }
    let (yes, undecided, kept) = model::probed(state);
    tally.seen(if yes { "yes" } else { "no" });
    same("probe", said, raw::Probed { number, yes, undecided, kept })?;
    match rust {
        Some(rust) if !state.system.refuted => same("probe of the Rust", said.yes, rust.system.probe(&rust.region)),
        _ => Ok(()),
    }
}

/// Each call on a state that need not come from a preparation, by the model's number, and by the Rust where it is fit.
pub fn all(state: &State, tally: &mut Tally) -> Check {
    let filled = Filled::of(state);
    let numbers = [Call::Touched, Call::Probe, Call::Inspect].map(|call| model::number(call, state));
    let mut rust = (numbers[2] == 0).then(|| Rust::of(state));
    if numbers[0] != 0 || rust.is_some() {
        touched(&filled, state, rust.as_ref(), numbers[0], tally)?;
    }
    probe(&filled, state, rust.as_ref(), numbers[1], tally)?;
    inspect(&filled, &mut state.clone(), rust.as_mut(), numbers[2], tally)
}

/// The lengths that a preparation wants for basis, unit atoms, unit values and index.
pub fn wanted(atoms: usize, count: usize) -> [usize; 4] {
    let places = places(atoms, count);
    [places, places, places, atoms * column_width(places)]
}

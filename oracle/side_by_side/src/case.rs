//! One system: prepared by both, then a list of calls on it, and calls past every bound.

use worzubil::raw::Snapshot;

use crate::calls::{self, Check, Rust, same};
use crate::edges::{self, EDGES, OFFERS};
use crate::lent::{Filled, State, column_width};
use crate::model::{self, Call, Handed};
use crate::random::Random;
use crate::systems::{Made, make};
use crate::tally::Tally;

/// The size of the system, and what is apart, with the system where it is small.
pub fn run(random: &mut Random, tally: &mut Tally) -> (usize, Check) {
    let made = make(random);
    let size = made.atoms + made.count;
    let outcome = judge(&made, random, tally);
    (
        size,
        outcome.map_err(
            |text| if size <= 24 { format!("{text}\n  {made:x?}") } else { format!("{text}\n  n {} m {}", made.atoms, made.count) },
        ),
    )
}

fn judge(made: &Made, random: &mut Random, tally: &mut Tally) -> Check {
    let exact = Handed {
        atoms: made.atoms,
        count: made.count,
        rows: made.rows.clone(),
        constants: made.constants.clone(),
        room: calls::wanted(made.atoms, made.count),
    };
    offers(&exact, random, tally)?;
    let mut handed = exact;
    if random.once_in(2) {
        handed.room.iter_mut().for_each(|room| *room += random.below(4));
        (0..random.below(3)).for_each(|_| handed.rows.push(random.word()));
        (0..random.below(3)).for_each(|_| handed.constants.push(random.word() as u8));
    }
    let (mut state, system) = calls::prepare(&handed, 0, tally)?.ok_or("no state")?;
    let mut rust = Rust { region: zetesis_algebra::region::Region::undecided(made.atoms), known: system.knowledge(), system };
    same("fresh", unsafe { worzubil::raw::worzubil_fresh() }, Snapshot::default())?;
    calls::undecided(made.atoms, tally)?;
    list(made, &mut state, &mut rust, random, tally)?;
    bounds(&state, random, tally)?;
    columns(&state, random, tally)
}

/// Preparations at their bounds and past them, one at a time and two at once.
fn offers(exact: &Handed, random: &mut Random, tally: &mut Tally) -> Check {
    for _ in 0..if exact.atoms + exact.count > 200 { 1 } else { 3 } {
        let edge = random.pick(&OFFERS);
        for past in [false, true] {
            let mut handed = exact.clone();
            let Some(number) = edges::offer(edge, &mut handed, past, random) else { continue };
            tally.edge(format!("prepare {edge:?}"), past);
            same("number of the model", model::prepare_number(&handed), number)?;
            calls::prepare(&handed, number, tally).map_err(|text| format!("{edge:?} past {past}: {text}"))?;
            let second = random.pick(&OFFERS);
            if past && edges::offer(second, &mut handed, true, random).is_some() {
                calls::prepare(&handed, model::prepare_number(&handed), tally).map_err(|text| format!("{edge:?}, {second:?}: {text}"))?;
            }
        }
    }
    Ok(())
}

/// Calls over one region and one knowledge, which are carried on; at times an older knowledge is lent again.
fn list(made: &Made, state: &mut State, rust: &mut Rust, random: &mut Random, tally: &mut Tally) -> Check {
    let filled = Filled::of(state);
    let mut older = (state.known, rust.known.clone());
    let faithful = random.pick(&[1, 8, 40]);
    for at in 0..random.below(if made.atoms > 200 { 16 } else { 24 }) {
        let call = random.below(16);
        let outcome = match call {
            0..7 if made.atoms > 0 => {
                let mut done = Ok(());
                for _ in 0..if random.once_in(4) { 1 + made.atoms / 4 } else { 1 } {
                    let atom = edges::any_atom(&state.region, random);
                    let value = made.truth[atom] != random.once_in(faithful + 1);
                    done = done.and_then(|()| calls::decide(state, Some(rust), atom, value, tally));
                }
                done
            }
            0..8 => {
                let atom = made.atoms.saturating_add(random.pick(&[0, 1, 63, 511, usize::MAX]));
                calls::decide(state, None, atom, random.once_in(2), tally)
            }
            8..11 => {
                state.room = [0, 1].map(|_| state.system.rank + random.below(3));
                calls::inspect(&filled, state, Some(rust), 0, tally)
            }
            11 if state.system.rank > 0 => {
                state.room = [state.system.rank - random.below(2), random.below(state.system.rank)];
                calls::inspect(&filled, state, None, 9, tally)
            }
            12 if !state.system.refuted => calls::touched(&filled, state, Some(rust), 0, tally),
            13 => {
                let now = (state.known, rust.known.clone());
                (state.known, rust.known) = std::mem::replace(&mut older, now);
                let fit = model::number(Call::Touched, state) == 0;
                let known = if fit { None } else { Some(older.clone()) };
                known.into_iter().for_each(|known| (state.known, rust.known) = known);
                Ok(())
            }
            _ => calls::probe(&filled, state, Some(rust), 0, tally),
        };
        outcome.map_err(|text| format!("call {at}, kind {call}: {text}"))?;
    }
    Ok(())
}

/// All calls on a prepared system at the bounds of what is lent and past them, one at a time and two at once.
fn bounds(state: &State, random: &mut Random, tally: &mut Tally) -> Check {
    let mut exact = state.clone();
    exact.room = [state.system.rank; 2];
    if !exact.known.initialized && random.once_in(2) {
        exact.known = Snapshot { initialized: false, atoms: random.below(700), held: [random.word(); 8], cut: [random.word(); 8] };
    }
    calls::all(&exact, tally)?;
    for _ in 0..if exact.rows.len() > 1000 { 2 } else { 5 } {
        let edge = random.pick(&EDGES);
        for past in [false, true] {
            let mut state = exact.clone();
            let Some(number) = edges::place(edge, &mut state, past, random) else { continue };
            let blame = |text| format!("{edge:?} past {past}: {text}");
            tally.edge(format!("{edge:?}"), past);
            same("number of the model", model::number(Call::Inspect, &state), number).map_err(blame)?;
            every(&state, random, tally).map_err(blame)?;
            let second = random.pick(&EDGES);
            if past && edges::place(second, &mut state, true, random).is_some() {
                every(&state, random, tally).map_err(|text| format!("{edge:?}, {second:?}: {text}"))?;
            }
        }
    }
    Ok(())
}

/// Each call that is lent a part of the state.
fn every(state: &State, random: &mut Random, tally: &mut Tally) -> Check {
    calls::all(state, tally)?;
    calls::publish(state, tally)?;
    let atoms = state.region.atoms;
    for atom in [atoms.wrapping_sub(1), atoms, atoms + random.below(70)] {
        tally.edge("decided atom".into(), atom >= atoms);
        calls::decide(&mut state.clone(), None, atom, random.once_in(2), tally)?;
    }
    calls::undecided(model::LIMIT + random.below(2), tally)
}

/// Columns of the index at their bounds and past them.
fn columns(state: &State, random: &mut Random, tally: &mut Tally) -> Check {
    if state.system.refuted {
        return Ok(());
    }
    let (atoms, rank) = (state.system.atoms, state.system.rank);
    let length = atoms * column_width(rank);
    let index = &state.index[..length];
    for (name, past, asked) in [
        ("column atom", false, (atoms, rank, length, atoms.wrapping_sub(1))),
        ("column atom", true, (atoms, rank, length, atoms)),
        ("column index", true, (atoms, rank, length.saturating_sub(1), 0)),
        ("column index", false, (atoms, rank, length, 0)),
        ("column atoms", true, (model::LIMIT + 1, rank, length, 0)),
        ("column rank", true, (atoms, model::LIMIT + 1, length, 0)),
    ] {
        let (atoms, rank, length, atom) = asked;
        if name == "column index" && index.is_empty() {
            continue;
        }
        tally.edge(name.into(), past);
        calls::column(atoms, rank, &index[..length], atom, tally)?;
    }
    let full = vec![random.word(); atoms * column_width(model::LIMIT)];
    tally.edge("column rank".into(), false);
    calls::column(atoms, model::LIMIT, &full, random.below(atoms + 1), tally)?;
    if random.once_in(50) {
        tally.edge("column atoms".into(), false);
        calls::column(model::LIMIT, 1, &vec![random.word() & 1; 2 * model::LIMIT], random.below(514), tally)?;
    }
    if atoms > 0 && rank % 128 != 0 {
        for past in [false, true] {
            let (mut index, atom) = (index.to_vec(), random.below(atoms));
            model::put(&mut index[atom * column_width(rank)..], rank - 1 + usize::from(past), true);
            tally.edge("column bit".into(), past);
            calls::column(atoms, rank, &index, random.below(atoms), tally)?;
        }
    }
    Ok(())
}

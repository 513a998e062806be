//! The lines of a file, with internals if they are wanted.

use zetesis_algebra::region::{Decided, Region, SubjectStep};
use zetesis_ferraris::regions::arithmetic::{ParityKnowledge, ParitySystem};

use crate::records::{self, Call};
use crate::text;

pub fn answer(file: &[u8], internals: bool) -> String {
    let records = match records::check(file) {
        Ok(records) => records,
        Err((number, offset)) => return format!("refused {number} at {offset}\n"),
    };
    let system = ParitySystem::prepare(records.atoms, records.rows);
    let mut region = Region::undecided(records.atoms);
    let mut known = system.knowledge();
    let (line, details) = prepared(&system, false);
    let mut answer = line + "\n";
    if internals {
        answer += &format!("prepared{details}\n");
    }
    for call in records.calls {
        let (line, forced) = run(&system, &mut region, &mut known, call);
        answer += &(line + "\n");
        if internals {
            answer += &format!("after{}\n", state(&region, &forced, &known, false));
        }
    }
    answer
}

/// Region, forced list and knowledge.
pub fn state(
    region: &Region,
    forced: &[(usize, bool)],
    known: &ParityKnowledge,
    raw: bool,
) -> String {
    text::region(region) + &text::pairs("forced", forced) + &text::known(region, known, raw)
}

/// The system line, and what preparation left in the buffers; rows in ceil(n/64) words unless they are wanted raw.
pub fn prepared(system: &ParitySystem, raw: bool) -> (String, String) {
    let (mut rows, atoms) = (system.rows(), system.atoms());
    if !raw {
        rows.iter_mut()
            .for_each(|(words, _)| words.truncate(atoms.div_ceil(64)));
    }
    let [rank, additions, units, incidences] = system.counts();
    let sound = if system.refuted() { "refuted" } else { "sound" };
    let line = format!(
        "system {atoms} {} {rank} {additions} {units} {incidences} {sound}",
        rows.len()
    );
    let (words, constants): (Vec<_>, Vec<_>) = rows.into_iter().unzip();
    let details = text::words("rows", &words.concat())
        + &text::list("constants", constants, |constant| {
            u8::from(constant).to_string()
        })
        + &text::list("basis", system.basis(), |row| row.to_string())
        + &text::pairs("units", &system.units())
        + &text::words("index", system.index());
    (line, details)
}

/// A call's line, and the forced list if it is an inspection.
pub fn run(
    system: &ParitySystem,
    region: &mut Region,
    known: &mut ParityKnowledge,
    call: Call,
) -> (String, Vec<(usize, bool)>) {
    match call {
        Call::Decide(atom, value) => {
            let answer = match region.decide(atom, value) {
                Decided::Taken => "taken",
                Decided::Same => "same",
                Decided::Against => "against",
            };
            (
                format!("decide {atom} {} {answer}", u8::from(value)),
                Vec::new(),
            )
        }
        Call::Inspect => {
            let inspected = system.inspect(region, known);
            let step = step(inspected.result.expect("a file makes fit calls"));
            (
                format!("inspect {step} {} {}", inspected.held, inspected.cut),
                inspected.forced,
            )
        }
        Call::Probe => (probe(system, region, false), Vec::new()),
    }
}

pub fn step(step: SubjectStep) -> &'static str {
    match step {
        SubjectStep::Unchanged => "unchanged",
        SubjectStep::Changed => "changed",
        SubjectStep::Refuted => "refuted",
    }
}

/// Yes or no from the Rust; after a refuted preparation document 01's rule, unless the answer is wanted raw.
pub fn probe(system: &ParitySystem, region: &Region, raw: bool) -> String {
    let (held, cut) = region.decision_words();
    let decided: u32 = held
        .iter()
        .zip(cut)
        .map(|(held, cut)| (held | cut).count_ones())
        .sum();
    let open = region.len().saturating_sub(decided as usize);
    if system.refuted() && !raw {
        return format!("probe no {open} 0");
    }
    let yes = if system.probe(region) { "yes" } else { "no" };
    format!("probe {yes} {open} {}", kept(system, region))
}

/// Document 01's k: the independent rows over open atoms before the first that is left empty with constant 1.
/// Elimination goes by the highest atom, unlike the Rust's.
fn kept(system: &ParitySystem, region: &Region) -> usize {
    let rows = system.rows();
    let (held, cut) = region.decision_words();
    let mut pivots: Vec<Option<(Vec<u64>, bool)>> = vec![None; 64 * held.len()];
    let mut count = 0;
    for &source in system.basis() {
        let (mut words, mut constant) = rows[source].clone();
        words.resize(held.len(), 0);
        for ((word, held), cut) in words.iter_mut().zip(held).zip(cut) {
            constant ^= (*word & held).count_ones() % 2 == 1;
            *word &= !(held | cut);
        }
        loop {
            let Some(top) = highest(&words) else {
                if constant {
                    return count;
                }
                break;
            };
            match &pivots[top] {
                Some((pivot, flip)) => {
                    words
                        .iter_mut()
                        .zip(pivot)
                        .for_each(|(word, other)| *word ^= other);
                    constant ^= flip;
                }
                None => {
                    pivots[top] = Some((words, constant));
                    count += 1;
                    break;
                }
            }
        }
    }
    count
}

fn highest(words: &[u64]) -> Option<usize> {
    let at = words.iter().rposition(|&word| word != 0)?;
    Some(64 * at + 63 - words[at].leading_zeros() as usize)
}

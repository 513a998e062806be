//! Times the original Rust, the compiled library and C, plain and with the library's checks, on the same inputs, in turn in one process,
//! and writes tables in Markdown.
//!
//! A time is that of one call, the best of many batches. What a call changes is restored between batches, outside of the time. Each pair's
//! results are compared once before they are timed.

mod inputs;
mod sides;

use std::hint::black_box;
use std::time::{Duration, Instant};

use inputs::{Input, Random, file, rust_region, system};
use sides::*;
use worzubil::raw;
use zetesis_algebra::region::Region;
use zetesis_ferraris::regions::NarrowingScratch;
use zetesis_ferraris::regions::arithmetic::{self, ParitySystem};

/// The best time of one call of each side, in nanoseconds: batches in turn, for a second and a half at least. Sides that share code are not
/// neighbours: the second would find its branches predicted.
fn best<const N: usize>(calls: usize, mut sides: [&mut dyn Side; N]) -> [f64; N] {
    let mut times = [Duration::MAX; N];
    let begin = Instant::now();
    for round in 0.. {
        if round >= 12 && begin.elapsed() > Duration::from_millis(1500) {
            break;
        }
        for (side, time) in sides.iter_mut().zip(&mut times) {
            side.restore();
            let start = Instant::now();
            side.run();
            *time = start.elapsed().min(*time);
        }
    }
    times.map(|time| time.as_nanos() as f64 / calls as f64)
}

/// Keeps a result from being optimised away.
fn spend<T>(result: T) {
    black_box(result);
}

fn shown(time: f64) -> String {
    match time {
        ..1e4 => format!("{time:.0} ns"),
        ..1e7 => format!("{:.1} µs", time / 1e3),
        _ => format!("{:.1} ms", time / 1e6),
    }
}

/// The times of a row, in nanoseconds; the last three are of sides that do not have every call.
#[derive(Default)]
struct Times {
    rust: f64,
    ours: f64,
    plain: Option<f64>,
    checking: Option<f64>,
    m4ri: Option<f64>,
}

fn line(name: &str, times: Times) {
    let time = |side: Option<f64>| side.map_or(String::new(), shown);
    let ratio = |side: Option<f64>| side.map_or(String::new(), |side| format!("{:.2}", times.ours / side));
    let Times { plain, checking, m4ri, .. } = times;
    let (rust, ours) = (Some(times.rust), Some(times.ours));
    let cells = [time(rust), time(ours), ratio(rust), time(plain), ratio(plain), time(checking), ratio(checking), time(m4ri)];
    println!("| {name} | {} |", cells.join(" | "));
}

fn head(title: &str) {
    let columns = ["what", "Rust", "ours", "ours/Rust", "plain C", "ours/plain C", "checking C", "ours/checking C", "M4RI"];
    println!("\n{title}\n\n| {} |\n|{}", columns.join(" | "), "---|".repeat(columns.len()));
}

fn hulls(k: usize) {
    let mut random = Random(k as u64);
    let tables: Vec<Vec<u64>> = (0..256)
        .map(|at| {
            let (mask, odd) = (random.below(1 << k), at % 2);
            let mut words = vec![0u64; 2 * (1usize << k).div_ceil(128)];
            for pattern in (0..1usize << k).filter(|pattern| (pattern & mask).count_ones() % 2 != odd) {
                words[pattern / 64] |= 1 << (pattern % 64);
            }
            words
        })
        .collect();
    let ours = |table: &Vec<u64>| unsafe { raw::worzubil_propose(k, table.as_ptr(), table.len()) };
    for table in &tables {
        let said = ours(table).hull;
        assert_eq!((said.equations.map(|e| (e.coefficients, e.constant)), said.count, said.exact), arithmetic::proposed(k, table));
    }
    let mut rust = || tables.iter().for_each(|table| spend(arithmetic::proposed(k, black_box(table))));
    let mut mine = || tables.iter().for_each(|table| spend(ours(black_box(table))));
    let [rust, ours] = best(tables.len(), [&mut rust, &mut mine]);
    line(&format!("propose, k = {k}"), Times { rust, ours, ..Default::default() });
}

fn prepares(name: &str, input: &Input, calls: usize) {
    let mut rust = RustPrepare::new(input, calls);
    let [mut ours, mut plain, mut checking] = [prepare, prepare_plainly, prepare_checking].map(|call| FlatPrepare::new(input, calls, call));
    let sides: [&mut dyn Side; 4] = [&mut rust, &mut ours, &mut plain, &mut checking];
    sides.into_iter().for_each(|side| {
        side.restore();
        side.run();
    });
    let [rank, additions, units, incidences] = rust.made[0].counts().map(|count| count as usize);
    let told = ours.told;
    assert_eq!((told.system.rank, told.additions, told.units, told.incidences), (rank, additions, units, incidences));
    assert_eq!((told, told), (plain.told, checking.told));
    let words: Vec<u64> = rust.made[0].rows().iter().flat_map(|(words, _)| words[..input.width()].to_vec()).collect();
    assert!(ours.left().rows == words, "rows differ");
    assert!(ours.left().basis[..rank] == *rust.made[0].basis(), "bases differ");
    assert!(rust.made[0].rows().iter().zip(&ours.left().constants).all(|((_, odd), byte)| u8::from(*odd) == *byte), "constants differ");
    assert!(ours.left().index[..rust.made[0].index().len()] == *rust.made[0].index(), "indexes differ");
    assert!(ours.left() == plain.left(), "plain C differs");
    assert!(ours.left() == checking.left(), "checking C differs");
    #[cfg(m4ri)]
    let mut other = Echelonize::new(input, calls);
    let [rust, plain, ours, checking, m4ri @ ..] = best(
        calls,
        [
            &mut rust,
            &mut plain,
            &mut ours,
            &mut checking,
            #[cfg(m4ri)]
            &mut other,
        ],
    );
    #[cfg(m4ri)]
    assert_eq!(other.rank, rank);
    let times = Times { rust, ours, plain: Some(plain), checking: Some(checking), m4ri: m4ri.first().copied() };
    line(&format!("{name} ({additions} additions)"), times);
}

/// What both sides lend: prepared once.
fn prepared(input: &Input) -> (ParitySystem, Flat, raw::System) {
    let mut flat = Flat::of(input);
    let told = prepare(input, &mut flat);
    assert_eq!(told.number, 0);
    (ParitySystem::prepare(input.atoms, input.rust()), flat, told.system)
}

fn same_region(ours: &raw::Region, rust: &Region) {
    let (held, cut) = rust.decision_words();
    assert!(ours.held[..held.len()] == *held && ours.cut[..cut.len()] == *cut, "regions differ");
}

fn inspects(name: &str, input: &Input, region: &raw::Region, known: Option<&raw::Region>, calls: usize) {
    let (rust_system, flat, system) = prepared(input);
    let lent = Lent { system, flat: &flat };
    let mut rust = RustInspect::new(&rust_system, region, known, calls);
    let before = known_of(known);
    let [mut ours, mut plain, mut checking] =
        [inspect(), inspect_plainly(), inspect_checking()].map(|call| FlatInspect::new(call, &lent, region, &before, calls));
    let sides: [&mut dyn Side; 4] = [&mut rust, &mut ours, &mut plain, &mut checking];
    sides.into_iter().for_each(|side| side.run());
    assert!(ours.left() == plain.left(), "plain C differs");
    assert!(ours.left() == checking.left(), "checking C differs");
    let told = ours.told;
    assert_eq!(rust.told, (told.kind, told.held as u64, told.cut as u64));
    let (after, (initialized, words)) = rust.after();
    same_region(&told.region, after);
    let (held, cut) = words.split_at(words.len() / 2);
    assert!(initialized == told.known.initialized && told.known.held[..held.len()] == *held, "knowledge differs");
    assert!(told.known.cut[..cut.len()] == *cut, "knowledge differs");
    let touched = rust_system.touched(&rust_region(region), known.map(rust_region).as_ref()).len();
    let [rust, plain, ours, checking] = best(calls, [&mut rust, &mut plain, &mut ours, &mut checking]);
    let times = Times { rust, ours, plain: Some(plain), checking: Some(checking), m4ri: None };
    let name = format!("{name} ({touched} of {} rows touched)", system.rank);
    line(&name, times);
    let (regions, mut atoms, mut values) = ([*region; 512], vec![0; system.rank], vec![0; system.rank]);
    let mut once = || spend(inspect_once(&lent, black_box(&regions), &before, &mut atoms, &mut values));
    let [once] = best(regions.len(), [&mut once]);
    line(&format!("{name}, looked at once"), Times { rust, ours: once, ..Default::default() });
    assert_eq!(inspect_once(&lent, &regions, &before, &mut atoms, &mut values), (told.held + told.cut) * regions.len());
}

fn probes(name: &str, input: &Input, region: &raw::Region, calls: usize) {
    let (rust_system, flat, system) = prepared(input);
    let (lent, rust_region) = (Lent { system, flat: &flat }, rust_region(region));
    let said = our_probe(&lent, region);
    assert_eq!(said.yes, rust_probe(&rust_system, &rust_region));
    assert_eq!(PlainProbed::from(said), probe_plainly(&lent, region));
    assert_eq!(PlainProbed::from(said), probe_checking(&lent, region));
    let mut rust = || (0..calls).for_each(|_| spend(rust_probe(&rust_system, black_box(&rust_region))));
    let mut ours = || (0..calls).for_each(|_| spend(our_probe(&lent, black_box(region))));
    let mut plain = || (0..calls).for_each(|_| spend(probe_plainly(&lent, black_box(region))));
    let mut checking = || (0..calls).for_each(|_| spend(probe_checking(&lent, black_box(region))));
    let [rust, plain, ours, checking] = best(calls, [&mut rust, &mut plain, &mut ours, &mut checking]);
    let times = Times { rust, ours, plain: Some(plain), checking: Some(checking), m4ri: None };
    line(&format!("{name} (u {}, k {})", said.undecided, said.kept), times);
}

/// Unfit input is refused under the same number by ours and by the C that checks.
fn refusals() {
    let input = system(8, 6, None);
    let (_, flat, system) = prepared(&input);
    let open = input.settled(0..0);
    let probe = |flat: &Flat, region: &raw::Region, number: usize| {
        let (lent, refused) = (Lent { system, flat }, PlainProbed::from(raw::Probed { number, ..Default::default() }));
        assert_eq!(PlainProbed::from(our_probe(&lent, region)), refused);
        assert_eq!(probe_checking(&lent, region), refused);
    };
    let mut unnamed = flat.clone();
    unnamed.basis[0] = system.rows;
    probe(&unnamed, &open, 13);
    let mut clash = open;
    (clash.held[0], clash.cut[0]) = (1, 1);
    probe(&flat, &clash, 12);
    let mut above = open;
    above.cut[7] = 1;
    probe(&flat, &above, 11);
    let mut stray = flat.clone();
    stray.rows[0] |= 1 << input.atoms;
    probe(&stray, &open, 11);
    let inspected = |flat: &Flat, system: raw::System, region: &raw::Region, known: &raw::Snapshot, number: usize| {
        for call in [inspect(), inspect_checking()] {
            let lent = Lent { system, flat };
            let mut side = FlatInspect::new(call, &lent, region, known, 1);
            side.run();
            assert_eq!(side.told, raw::Inspection { kind: raw::REFUSED, number, region: *region, known: *known, ..Default::default() });
        }
    };
    let fresh = raw::Snapshot::default();
    let (mut short, mut over, mut other) = (flat.clone(), flat.clone(), open);
    short.index.truncate(1);
    over.index[0] |= 1 << system.rank;
    other.atoms += 1;
    inspected(&flat, raw::System { rows: 513, ..system }, &open, &fresh, 10);
    inspected(&flat, raw::System { rank: system.rows.min(system.atoms) + 1, ..system }, &open, &fresh, 13);
    inspected(&short, system, &open, &fresh, 9);
    inspected(&stray, system, &open, &fresh, 11);
    inspected(&flat, system, &above, &fresh, 11);
    inspected(&flat, system, &clash, &fresh, 12);
    inspected(&unnamed, system, &open, &fresh, 13);
    inspected(&over, system, &open, &fresh, 14);
    inspected(&flat, system, &other, &fresh, 15);
    inspected(&flat, system, &open, &known_of(Some(&input.settled(0..1))), 16);
    for call in [prepare, prepare_checking] {
        let mut left = stray.clone();
        assert_eq!(call(&input, &mut left), raw::Prepared { number: 11, ..Default::default() });
        assert!(left == stray, "a refused call wrote");
    }
}

/// The lines of a file by the Rust's calls, the probes without the driver's k.
fn rust_lines(bytes: &[u8]) -> String {
    let records = oracle::records::check(bytes).ok().expect("a fit file");
    let system = ParitySystem::prepare(records.atoms, records.rows);
    let (mut region, mut known) = (Region::undecided(records.atoms), system.knowledge());
    let [rank, additions, units, incidences] = system.counts();
    let sound = if system.refuted() { "refuted" } else { "sound" };
    let mut text = format!("system {} {} {rank} {additions} {units} {incidences} {sound}\n", records.atoms, system.rows().len());
    let (mut scratch, mut meter) = (NarrowingScratch::default(), zetesis_algebra::Meter::local(u64::MAX));
    let cancellation = zetesis_algebra::Cancellation::default();
    for call in records.calls {
        text += &match call {
            oracle::records::Call::Decide(..) => oracle::file::run(&system, &mut region, &mut known, call).0,
            oracle::records::Call::Inspect => {
                let attempt = system.inspect_reserved(&mut region, &mut known, &mut scratch, &cancellation, &mut meter);
                let step = oracle::file::step(attempt.result.expect("fit"));
                format!("inspect {step} {} {}", attempt.statistics.held, attempt.statistics.cut)
            }
            oracle::records::Call::Probe => {
                let (held, cut) = region.decision_words();
                let decided: u32 = held.iter().zip(cut).map(|(held, cut)| (held | cut).count_ones()).sum();
                format!("probe {} {}", if rust_probe(&system, &region) { "yes" } else { "no" }, region.len() - decided as usize)
            }
        };
        text.push('\n');
    }
    text
}

fn files(name: &str, weights: [usize; 3]) {
    let bytes = file(weights);
    let mut out = vec![0u8; raw::room(bytes.len())];
    let mut answer = || {
        let said = unsafe { raw::worzubil_answer_file(bytes.as_ptr(), bytes.len(), out.as_mut_ptr(), out.len()) };
        assert_eq!(said.number, 0);
        String::from_utf8_lossy(&out[..said.length]).into_owned()
    };
    let text = answer();
    assert_eq!(text, oracle::file::answer(&bytes, false));
    let without = |line: &str| if line.starts_with("probe") { line.rsplit_once(' ').expect("k").0.to_string() } else { line.to_string() };
    assert_eq!(text.lines().map(without).collect::<Vec<_>>(), rust_lines(&bytes).lines().collect::<Vec<_>>());
    let calls = text.lines().count() - 1;
    let mut ours = || spend(unsafe { raw::worzubil_answer_file(bytes.as_ptr(), bytes.len(), out.as_mut_ptr(), out.len()) });
    let mut bare = || spend(rust_lines(&bytes));
    let mut driver = || spend(oracle::file::answer(&bytes, false));
    let [rust, ours, driver] = best(1, [&mut bare, &mut ours, &mut driver]);
    line(&format!("{name}, {calls} calls"), Times { rust, ours, ..Default::default() });
    line(&format!("{name}, the driver with its own k"), Times { rust: driver, ours, ..Default::default() });
}

fn main() {
    refusals();
    head("### The calls");
    hulls(3);
    hulls(8);
    let (dense, sparse) = (system(512, 512, None), system(512, 512, Some(4)));
    prepares("prepare 512 by 512, dense", &dense, 1);
    prepares("prepare 512 by 512, 4 atoms a row", &sparse, 1);
    prepares("prepare 64 by 64, dense", &system(64, 64, None), 64);

    let (open, half) = (dense.settled(0..0), dense.settled((0..512).step_by(2)));
    inspects("inspect 512 by 512, dense, fresh knowledge", &dense, &half, None, 4);
    inspects("inspect 512 by 512, dense, 256 atoms decided since", &dense, &half, Some(&open), 4);
    let (before, after) = one_row(&sparse);
    inspects("inspect 512 by 512, 4 atoms a row, one decided since", &sparse, &after, Some(&before), 16);
    inspects("inspect 512 by 512, dense, nothing decided since", &dense, &half, Some(&half), 16);

    probes("probe 512 by 512, dense, all open", &dense, &open, 1);
    probes("probe 512 by 512, dense, half decided", &dense, &half, 1);
    let small = [system(64, 64, None), system(8, 6, None), system(3, 3, None)];
    probes("probe 64 by 64, dense, all open", &small[0], &small[0].settled(0..0), 16);
    probes("probe 8 by 6, all open", &small[1], &small[1].settled(0..0), 256);
    probes("probe 3 by 3, all open", &small[2], &small[2].settled(0..0), 256);

    files("a file of 64 KiB, a third each", [1, 1, 1]);
    files("a file of 64 KiB, 70 of 100 inspections", [15, 70, 15]);
    files("a file of 64 KiB, 98 of 100 inspections, no probe", [2, 98, 0]);

    head("### Growth");
    for size in [64, 128, 256, 512] {
        prepares(&format!("prepare, n = m = {size}, dense"), &system(size, size, None), 4096 / size / size + 1);
    }
    for count in [64, 128, 256] {
        prepares(&format!("prepare, n = 512, m = {count}, dense"), &system(512, count, None), 2);
        prepares(&format!("prepare, n = {count}, m = 512, dense"), &system(count, 512, None), 2);
    }
    for (n, m) in [(64, 64), (128, 128), (256, 256), (512, 512), (512, 64), (512, 128), (512, 256)] {
        let input = system(n, m, None);
        probes(&format!("probe, n = {n}, m = {m}, dense, all open"), &input, &input.settled(0..0), 512 / m);
        probes(&format!("probe, n = {n}, m = {m}, dense, one decided"), &input, &input.settled(0..1), 512 / m);
        probes(&format!("probe, n = {n}, m = {m}, dense, half decided"), &input, &input.settled((0..n).step_by(2)), 1);
    }
}

/// Two regions that differ in one atom, which just one basis row has.
fn one_row(input: &Input) -> (raw::Region, raw::Region) {
    let (rust, _, _) = prepared(input);
    let before = input.settled(0..0);
    let alone = |atom: &usize| rust.touched(&rust_region(&input.settled(*atom..*atom + 1)), Some(&rust_region(&before))).len() == 1;
    let atom = (0..input.atoms).find(alone).expect("an atom of one row");
    (before, input.settled(atom..atom + 1))
}

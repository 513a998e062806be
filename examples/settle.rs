//! A reducer of double star measures at work, in Rust. The same story as settle.c, line by line.
//!
//! A group of six measures, numbered from 0, of which some may be swapped. True, or held, means swapped; false, or cut, means not swapped.
use worzubil::{answer, Decision, Outcome, Prepared, Refusal, Region, Rows, Snapshot};

const ATOMS: usize = 6;

/// What the centres report: rows, and tables of which combinations cannot be.
fn hand_in() -> Result<Rows, Refusal> {
    let mut rows = Rows::new(ATOMS)?;
    rows.push(&[0, 1], true)?; // of 0 and 1 an odd number is swapped
    rows.push(&[1, 2, 3], false)?; // of 1, 2 and 3 an even number
    rows.push(&[0, 2, 3], true)?; // this follows from the two above
    add_table(&mut rows, [2, 4], 0b1001)?; // neither and both cannot be
    add_table(&mut rows, [4, 5], 0b1000)?; // both cannot be
    Ok(rows)
}

/// Hands a table of two measures in, if parity equations can say it. Bit p is set where pattern p is forbidden.
fn add_table(rows: &mut Rows, names: [usize; 2], forbidden: u64) -> Result<(), Refusal> {
    print!("table {} {}: ", names[0], names[1]);
    match rows.push_table(&names, &[forbidden, 0]) {
        Ok(hull) => println!("exact, equations: {}", hull.count),
        Err(Refusal(6)) => println!("not exact, left out"),
        Err(refusal) => return Err(refusal),
    }
    Ok(())
}

fn tell_decision(what: &str, atom: usize, decision: Result<Decision, Refusal>) {
    match decision {
        Ok(Decision::Taken) => println!("{what} {atom}: taken"),
        Ok(Decision::Same) => println!("{what} {atom}: same"),
        Ok(Decision::Against) => println!("{what} {atom}: against"),
        Err(refusal) => println!("{what} {atom}: {refusal}"),
    }
}

fn tell_ways(system: &Prepared, region: &Region) -> Result<(), Refusal> {
    match system.probe(region)?.ways() {
        Some(exponent) => println!("probe: 2^{exponent} ways"),
        None => println!("probe: no way"),
    }
    Ok(())
}

/// Inspects until nothing more is forced. The knowledge spares an inspection the rows in which nothing was settled since the last.
fn force(system: &Prepared, region: &mut Region) -> Result<(), Refusal> {
    let mut known = Snapshot::fresh();
    loop {
        let (inspection, forced) = system.inspect(region, &mut known)?;
        match inspection.outcome {
            Outcome::Unchanged => println!("inspect: unchanged"),
            Outcome::Changed => println!("inspect: changed"),
            Outcome::Refuted => println!("inspect: refuted"),
        }
        for entry in forced {
            println!(
                "  {} must be {}",
                entry.atom,
                if entry.value == 1 { "swapped" } else { "right" }
            );
        }
        if inspection.outcome != Outcome::Changed {
            return Ok(());
        }
    }
}

fn settle(system: &Prepared) -> Result<(), Refusal> {
    let mut region = Region::undecided(ATOMS)?;
    tell_ways(system, &region)?;
    tell_decision("hold", 0, region.hold(0));
    tell_decision("cut", 3, region.cut(3));
    tell_decision("cut", 0, region.cut(0));

    let mut trial = region; // a trial on a copy
    tell_decision("trial: hold", 1, trial.hold(1));
    tell_ways(system, &trial)?;

    force(system, &mut region)?;
    tell_ways(system, &region)?;
    tell_decision("hold", ATOMS, region.hold(ATOMS)); // there is no such measure
    Ok(())
}

/// Four constants, but words for three rows.
fn lend_too_little() {
    match Prepared::new(ATOMS, vec![0; 3], vec![0; 4]) {
        Ok(_) => println!("prepare: done"),
        Err(refusal) => println!("prepare: {refusal}"),
    }
}

fn main() -> Result<(), Refusal> {
    let system = hand_in()?.prepare()?;
    let told = system.system();
    println!(
        "system: {} rows, rank {}, {}",
        told.rows,
        told.rank,
        if told.refuted { "refuted" } else { "sound" }
    );
    settle(&system)?;
    lend_too_little();

    // atoms 2, row 1: 0 1, decide 0 1, inspect, probe
    let mut file = [
        4, 0, 1, 0, 2, 0, 7, 0, 2, 0, 1, 0, 0, 1, 0, 5, 0, 4, 0, 0, 0, 1, 2, 0, 5, 0, 2, 0, 6, 0,
    ];
    print!("a file:\n{}", answer(&file));
    file[13] = 2; // its row names atom 2, which is not there
    print!("a file with a fault:\n{}", answer(&file));
    Ok(())
}

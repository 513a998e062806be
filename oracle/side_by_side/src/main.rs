//! The original Rust and the compiled library in one process, on the same inputs.
//!
//!     side_by_side SYSTEMS [SEED [FIRST]]    systems of SEED (1) from number FIRST (0) on, as many tables, a third as many files

mod calls;
mod case;
mod edges;
mod files;
mod lent;
mod model;
mod random;
mod systems;
mod tally;

use random::Random;
use tally::Tally;

fn main() {
    let mut arguments = std::env::args().skip(1).map(|number| number.parse::<u64>().expect("a number"));
    let mut next = |otherwise| arguments.next().unwrap_or(otherwise);
    let (count, seed, first) = (next(0), next(1), next(0));
    let mut tally = Tally::default();
    for (size, outcome) in files::bounds(&mut tally) {
        tally.case(size, outcome);
    }
    for number in first..first + count {
        let named = |text| format!("number {number}: {text}");
        let (size, outcome) = case::run(&mut Random::of(seed, number), &mut tally);
        tally.case(size, outcome.map_err(named));
        let outcome = files::tables(&mut Random::of(seed ^ 1 << 32, number), &mut tally);
        tally.case(8, outcome.map_err(named));
        if number % 3 == 0 {
            let (size, outcome) = files::any_file(&mut Random::of(seed ^ 1 << 33, number), &mut tally);
            tally.case(size, outcome.map_err(named));
        }
    }
    let good = tally.report(count >= 20000);
    println!("{count} systems of seed {seed}: {}", if good { "agreed" } else { "NOT agreed" });
    std::process::exit(if good { 0 } else { 1 });
}

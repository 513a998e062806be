//! The probe's number of ways beside a count of all assignments, on small systems drawn at random from a fixed seed: rows and exact tables
//! are handed in, measures are settled one by one, and after each decision come an inspection and a probe.
//!
//! Up to nine measures are numbered one after the other, or 56 apart, so that rows have up to eight words; the atoms between stay open.
use worzubil::{Decision, Outcome, Prepared, Region, Rows, Snapshot};

const SYSTEMS: usize = 400;
const MOST: usize = 9;
const APART: [usize; 2] = [1, 56];

struct Dice(u64);

impl Dice {
    fn below(&mut self, limit: usize) -> usize {
        self.0 ^= self.0 << 13;
        self.0 ^= self.0 >> 7;
        self.0 ^= self.0 << 17;
        (self.0 >> 11) as usize % limit
    }

    /// Some of n measures, rising.
    fn some(&mut self, n: usize) -> Vec<usize> {
        (0..n).filter(|_| self.below(3) == 0).collect()
    }
}

fn bit(word: usize, place: usize) -> usize {
    word >> place & 1
}

/// Measure i is atom i * apart; `left` has the assignments, measure i as bit i, that agree with all that was handed in and decided.
struct Group {
    n: usize,
    apart: usize,
    left: Vec<usize>,
}

impl Group {
    fn new(dice: &mut Dice) -> Group {
        let (n, apart) = (1 + dice.below(MOST), APART[dice.below(2)]);
        Group { n, apart, left: (0..1 << n).collect() }
    }

    fn atoms(&self, measures: &[usize]) -> Vec<usize> {
        measures.iter().map(|i| i * self.apart).collect()
    }

    fn row(&mut self, dice: &mut Dice, rows: &mut Rows) {
        let (measures, odd) = (dice.some(self.n), dice.below(2) == 1);
        rows.push(&self.atoms(&measures), odd).unwrap();
        self.left.retain(|&x| (measures.iter().map(|&i| bit(x, i)).sum::<usize>() % 2 == 1) == odd);
    }

    /// A table of up to three measures that allows one or two patterns or, now and then, none; such a table is exact.
    fn table(&mut self, dice: &mut Dice, rows: &mut Rows) {
        let measures: Vec<usize> = dice.some(self.n).into_iter().take(3).collect();
        let patterns = 1 << measures.len();
        let allowed = 1 << dice.below(patterns) | 1 << dice.below(patterns);
        let forbidden: u64 = if dice.below(9) == 0 { u64::MAX } else { !allowed };
        rows.push_table(&self.atoms(&measures), &[forbidden, 0]).unwrap();
        let pattern = |x: usize| measures.iter().enumerate().map(|(place, &i)| bit(x, i) << place).sum::<usize>();
        self.left.retain(|&x| forbidden >> pattern(x) & 1 == 0);
    }

    fn hand_in(&mut self, dice: &mut Dice) -> Prepared {
        let mut rows = Rows::new(self.n * self.apart).unwrap();
        for _ in 0..dice.below(self.n + 1) {
            match dice.below(4) {
                0 => self.table(dice, &mut rows),
                _ => self.row(dice, &mut rows),
            }
        }
        rows.prepare().unwrap()
    }

    fn decide(&mut self, dice: &mut Dice, region: &mut Region) {
        let (i, value) = (dice.below(self.n), dice.below(2));
        let atom = i * self.apart;
        let decision = if value == 1 { region.hold(atom) } else { region.cut(atom) };
        if decision.unwrap() != Decision::Against {
            self.left.retain(|&x| bit(x, i) == value);
        }
    }

    /// Refuted only where nothing is left, and forced only what all that is left agrees on.
    fn inspect(&self, prepared: &Prepared, region: &mut Region, known: &mut Snapshot) {
        let (inspection, forced) = prepared.inspect(region, known).unwrap();
        assert!(inspection.outcome != Outcome::Refuted || self.left.is_empty());
        for entry in forced {
            assert!(self.left.iter().all(|&x| bit(x, entry.atom / self.apart) == entry.value.into()));
        }
    }

    /// The probe's exponent is that of what is left, and one more for each atom between.
    fn probe(&self, prepared: &Prepared, region: &Region) {
        let between = self.n * (self.apart - 1);
        let ways = prepared.probe(region).unwrap().ways();
        assert_eq!(ways.map_or(0, |exponent| 1 << (exponent - between)), self.left.len());
    }
}

#[test]
fn ways() {
    let mut dice = Dice(0x9e37_79b9_7f4a_7c15);
    for _ in 0..SYSTEMS {
        let mut group = Group::new(&mut dice);
        let prepared = group.hand_in(&mut dice);
        let (mut region, mut known) = (Region::undecided(prepared.system().atoms).unwrap(), Snapshot::fresh());
        group.probe(&prepared, &region);
        for _ in 0..group.n {
            group.decide(&mut dice, &mut region);
            group.probe(&prepared, &region);
            group.inspect(&prepared, &mut region, &mut known);
            group.probe(&prepared, &region);
        }
    }
}

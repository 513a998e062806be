//! What is timed: systems by seed, regions, and a file.

use worzubil::raw;
use zetesis_algebra::region::Region;
use zetesis_ferraris::regions::arithmetic::Row;

/// Random words by seed (splitmix64).
pub struct Random(pub u64);

impl Random {
    pub fn word(&mut self) -> u64 {
        self.0 = self.0.wrapping_add(0x9e37_79b9_7f4a_7c15);
        let mut z = self.0;
        z = (z ^ (z >> 30)).wrapping_mul(0xbf58_476d_1ce4_e5b9);
        z = (z ^ (z >> 27)).wrapping_mul(0x94d0_49bb_1331_11eb);
        z ^ (z >> 31)
    }

    pub fn below(&mut self, bound: usize) -> usize {
        (self.word() % bound as u64) as usize
    }
}

/// Rows that an assignment meets.
pub struct Input {
    pub atoms: usize,
    pub rows: Vec<u64>,
    pub constants: Vec<u8>,
    pub truth: Vec<u64>,
}

/// So many rows; each has about half of the atoms, or `few` of them.
pub fn system(atoms: usize, count: usize, few: Option<usize>) -> Input {
    let (mut random, width) = (Random((atoms * 1000 + count) as u64), atoms.div_ceil(64));
    let last = u64::MAX >> ((64 - atoms % 64) % 64);
    let mask = |random: &mut Random| {
        let mut words: Vec<u64> = (0..width).map(|_| random.word()).collect();
        words[width - 1] &= last;
        words
    };
    let truth = mask(&mut random);
    let (mut rows, mut constants) = (Vec::new(), Vec::new());
    for _ in 0..count {
        let words = match few {
            None => mask(&mut random),
            Some(few) => (0..few).fold(vec![0; width], |mut words, _| {
                let atom = random.below(atoms);
                words[atom / 64] |= 1 << (atom % 64);
                words
            }),
        };
        let odd = words.iter().zip(&truth).fold(0, |odd, (word, truth)| odd ^ (word & truth).count_ones());
        constants.push((odd % 2) as u8);
        rows.extend(words);
    }
    Input { atoms, rows, constants, truth }
}

impl Input {
    pub fn count(&self) -> usize {
        self.constants.len()
    }

    pub fn width(&self) -> usize {
        self.atoms.div_ceil(64)
    }

    /// The same as the Rust takes it.
    pub fn rust(&self) -> Vec<Row> {
        let row = |at: usize| (self.rows[at * self.width()..][..self.width()].to_vec(), self.constants[at] == 1);
        (0..self.count()).map(row).collect()
    }

    /// A region in which these atoms are settled as the assignment has it.
    pub fn settled(&self, atoms: impl Iterator<Item = usize>) -> raw::Region {
        let mut region = raw::Region { atoms: self.atoms, ..Default::default() };
        for atom in atoms {
            let held = self.truth[atom / 64] >> (atom % 64) & 1 == 1;
            (if held { &mut region.held } else { &mut region.cut })[atom / 64] |= 1 << (atom % 64);
        }
        region
    }
}

/// A region as the Rust takes it.
pub fn rust_region(region: &raw::Region) -> Region {
    let width = region.atoms.div_ceil(64);
    Region::lent(region.atoms, region.held[..width].to_vec(), region.cut[..width].to_vec())
}

/// A file of 64 KiB: 512 rows of 20 atoms, then calls by the weights of decisions, inspections and probes.
pub fn file(weights: [usize; 3]) -> Vec<u8> {
    let (mut random, input) = (Random(7), system(512, 512, Some(20)));
    let record = |kind: u16, body: &[u8]| [&(body.len() as u16 + 2).to_le_bytes()[..], &kind.to_le_bytes(), body].concat();
    let mut file = record(1, &512u16.to_le_bytes());
    for (words, constant) in input.rust() {
        let named = (0..512u16).filter(|&atom| words[usize::from(atom / 64)] >> (atom % 64) & 1 == 1);
        let body: Vec<u8> = [u8::from(constant)].into_iter().chain(named.flat_map(u16::to_le_bytes)).collect();
        file.extend(record(2, &body));
    }
    while file.len() + 7 <= 65536 {
        let drawn = random.below(weights.iter().sum());
        file.extend(if drawn < weights[0] {
            let atom = random.below(512);
            let value = (input.truth[atom / 64] >> (atom % 64) & 1) as u8;
            record(4, &[&(atom as u16).to_le_bytes()[..], &[value]].concat())
        } else {
            record(if drawn < weights[0] + weights[1] { 5 } else { 6 }, &[])
        });
    }
    file
}

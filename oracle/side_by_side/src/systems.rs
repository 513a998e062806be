//! Random systems: sizes on both sides of each word, and rows that are sparse, dense, dependent, units, empty or against each other.

use crate::lent::width;
use crate::model::{has, put};
use crate::random::Random;

/// Rows as they are handed in, and an assignment that meets them unless a constant was turned.
#[derive(Debug)]
pub struct Made {
    pub atoms: usize,
    pub count: usize,
    pub rows: Vec<u64>,
    pub constants: Vec<u8>,
    pub truth: Vec<bool>,
}

const BOUNDS: [usize; 12] = [0, 1, 2, 5, 62, 63, 64, 65, 66, 127, 128, 129];
const LARGE: [usize; 14] = [512, 512, 511, 449, 448, 385, 384, 321, 320, 257, 256, 193, 65, 3];

fn sizes(random: &mut Random) -> (usize, usize) {
    match random.below(100) {
        0..76 => (random.between(0, 12), random.between(0, 14)),
        76..88 => (random.pick(&BOUNDS), random.pick(&BOUNDS)),
        88..94 => (random.between(0, 200), random.between(0, 200)),
        _ => (random.pick(&LARGE), random.pick(&LARGE)),
    }
}

/// The atoms of a row by the style of the system.
fn fill(row: &mut [u64], atoms: usize, style: usize, random: &mut Random) {
    let few = match style {
        0 => random.between(1, 4),
        1 => 1,
        2 => random.pick(&[0, 1, 2, 3, 20]),
        _ => 0,
    };
    for _ in 0..few {
        put(row, random.below(atoms), true);
    }
    match style {
        3 => (0..atoms).for_each(|atom| put(row, atom, random.once_in(2))),
        4 => (0..atoms).for_each(|atom| put(row, atom, random.once_in(8))),
        5 => (0..atoms).for_each(|atom| put(row, atom, !random.once_in(16))),
        6 => (atoms.saturating_sub(3)..atoms).for_each(|atom| put(row, atom, random.once_in(2))),
        _ => {}
    }
}

pub fn make(random: &mut Random) -> Made {
    let (atoms, count) = sizes(random);
    let width = width(atoms);
    let truth: Vec<bool> = (0..atoms).map(|_| random.once_in(2)).collect();
    let (style, dependent) = (random.below(8), random.pick(&[0, 0, 2, 4, 20]));
    let mut made = Made { atoms, count, rows: vec![0; count * width], constants: vec![0; count], truth };
    for number in 0..count {
        let (earlier, row) = made.rows.split_at_mut(number * width);
        let row = &mut row[..width];
        if number > 0 && dependent > 0 && random.once_in(dependent) {
            for _ in 0..random.between(1, 3) {
                let other = &earlier[random.below(number) * width..][..width];
                row.iter_mut().zip(other).for_each(|(word, other)| *word ^= other);
            }
        } else if atoms > 0 {
            let style = if style == 7 { random.below(7) } else { style };
            fill(row, atoms, style, random);
        }
        let odd = (0..atoms).filter(|&atom| made.truth[atom] && has(row, atom)).count() % 2;
        made.constants[number] = odd as u8;
    }
    match random.below(6) {
        0 if count > 0 => made.constants[random.below(count)] ^= 1,
        1 => made.constants.iter_mut().for_each(|constant| *constant = random.below(2) as u8),
        _ => {}
    }
    made
}

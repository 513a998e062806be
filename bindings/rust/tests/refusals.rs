//! Every number under which a call or a file is refused, with what is just fit beside it where that is cheap. A refused call changes nothing.
use worzubil::{
    answer, answer_into, check, load, prepare, room, Forced, Lent, Outputs, Prepared, Refusal, RefusedAt, Region, Rows, Size, Snapshot,
    System,
};

/// A number of the refusal, or 0.
fn number<T>(answer: Result<T, Refusal>) -> usize {
    answer.err().map_or(0, |refusal| refusal.0)
}

// ---- files

fn record(kind: u8, body: &[u8]) -> Vec<u8> {
    let length = u16::try_from(body.len() + 2).expect("short").to_le_bytes();
    [&length, &[kind, 0][..], body].concat()
}

fn atoms(n: u16) -> Vec<u8> {
    record(1, &n.to_le_bytes())
}

/// A table of two atoms, with its first byte of bits.
fn table(first: u8, second: u8, bits: u8) -> Vec<u8> {
    record(3, &[&[2, first, 0, second, 0, bits][..], &[0; 15]].concat())
}

fn assert_refused(file: &[u8], number: usize, offset: usize) {
    assert_eq!(check(file), Err(RefusedAt { refusal: Refusal(number), offset }));
    assert_eq!(answer(file), format!("refused {number} at {offset}\n"));
    let (mut rows, mut constants) = ([7; 600], [7; 600]);
    assert_eq!(load(file, &mut rows, &mut constants), check(file));
    assert_eq!((rows, constants), ([7; 600], [7; 600]));
    assert_eq!(Rows::of_file(file).unwrap_err().offset, offset);
}

#[test]
fn faults_of_one_record() {
    let file = |last: Vec<u8>| [atoms(3), last].concat();
    assert_refused(&file(vec![7, 0, 2, 0, 1, 0, 0]), 1, 6);
    assert_refused(&file(record(7, &[])), 2, 6);
    assert_refused(&[], 2, 0);
    assert_refused(&file(record(4, &[1, 0])), 3, 6);
    assert_refused(&file(record(2, &[1, 3, 0])), 4, 6);
    assert_refused(&file(table(2, 0, 0b1001)), 5, 6);
    assert_refused(&file(table(0, 2, 0b1000)), 6, 6);
    assert_eq!(check(&file(record(2, &[1, 2, 0]))), Ok(Size { atoms: 3, rows: 1 }));
}

#[test]
fn rows_of_a_file() {
    let file = |count| [atoms(0), record(2, &[0]).repeat(count)].concat();
    assert_eq!(check(&file(512)), Ok(Size { atoms: 0, rows: 512 }));
    assert_refused(&file(513), 7, 2566);
}

#[test]
fn bytes_of_a_file() {
    let mut file = [atoms(1), record(4, &[0, 0, 1]).repeat(2), record(5, &[]).repeat(16379)].concat();
    assert_eq!((file.len(), check(&file)), (65536, Ok(Size { atoms: 1, rows: 0 })));
    assert_eq!(answer(&file).lines().count(), 1 + 2 + 16379);
    file.push(0);
    assert_refused(&file, 8, 65536);
}

#[test]
fn room_for_a_file() {
    let file = [atoms(65), record(2, &[1, 64, 0])].concat();
    let short = Err(RefusedAt { refusal: Refusal(9), offset: 0 });
    let (mut rows, mut constants) = ([7; 2], [7; 1]);
    assert_eq!(load(&file, &mut rows[..1], &mut constants), short);
    assert_eq!(load(&file, &mut rows, &mut []), short);
    assert_eq!((rows, constants), ([7; 2], [7; 1]));
    assert_eq!(load(&file, &mut rows, &mut constants), Ok(Size { atoms: 65, rows: 1 }));
    assert_eq!((rows, constants), ([0, 1], [1]));

    let mut out = vec![7; room(file.len())];
    let last = out.len() - 1;
    assert_eq!(answer_into(&file, &mut out[..last]), Err(Refusal(9)));
    assert!(out.iter().all(|&byte| byte == 7));
    assert_eq!(answer_into(&file, &mut out), Ok(&b"system 65 1 1 0 1 1 sound\n"[..]));
}

// ---- preparation

/// Prepares two rows over three atoms, each buffer shorter by so much: rows, constants, basis, unit atoms, unit values, index.
fn prepared(short: [usize; 6]) -> usize {
    let (mut rows, mut constants) = ([0b011, 0b110], [1, 0]);
    let (mut basis, mut unit_atoms, mut unit_values, mut index) = ([7; 2], [7; 2], [7; 2], [7; 6]);
    let outputs = Outputs {
        basis: &mut basis[short[2]..],
        unit_atoms: &mut unit_atoms[short[3]..],
        unit_values: &mut unit_values[short[4]..],
        index: &mut index[short[5]..],
    };
    let number = number(prepare(3, 2, &mut rows[short[0]..], &mut constants[short[1]..], outputs));
    assert_eq!(number != 0, (rows, constants, basis, index) == ([0b011, 0b110], [1, 0], [7; 2], [7; 6]));
    number
}

#[test]
fn short_buffers_of_preparation() {
    assert_eq!(prepared([0; 6]), 0);
    for buffer in 0..6 {
        let mut short = [0; 6];
        short[buffer] = 1;
        assert_eq!(prepared(short), 9, "buffer {buffer}");
    }
}

#[test]
fn atoms_and_rows_of_preparation() {
    let with = |n: usize, words, m| number(Prepared::new(n, vec![0; words], vec![0; m]));
    assert_eq!([with(512, 512 * 8, 512), with(0, 0, 0), with(0, 0, 512)], [0; 3]);
    assert_eq!([with(513, 9, 1), with(usize::MAX, 0, 0), with(1, 513, 513)], [10; 3]);
    assert_eq!(with(512, 512 * 8 - 1, 512), 9);
}

#[test]
fn bits_and_constants_of_preparation() {
    let with = |row, constant| number(Prepared::new(3, vec![row], vec![constant]));
    assert_eq!([with(0b0111, 1), with(0b1000, 1), with(0b0111, 2)], [0, 11, 11]);
}

#[test]
fn rows_handed_in() {
    assert_eq!(number(Rows::new(512)), 0);
    assert_eq!(number(Rows::new(513)), 10);
    let mut rows = Rows::new(3).unwrap();
    assert_eq!(number(rows.push(&[0, 3], true)), 18);
    assert_eq!(number(rows.push_table(&[0, 3], &[0b1001, 0])), 18);
    assert_eq!(number(rows.push_table(&[2, 0], &[0b1001, 0])), 5);
    assert_eq!(number(rows.push_table(&[1, 1], &[0b1001, 0])), 5);
    assert_eq!(number(rows.push_table(&[0, 2], &[0b1000, 0])), 6);
    assert_eq!(number(rows.push_table(&[0, 2], &[0b1001])), 17);
    assert_eq!(rows, Rows::new(3).unwrap());
}

// ---- regions and knowledge

#[test]
fn regions() {
    assert_eq!([512, 513, usize::MAX].map(|n| number(Region::undecided(n))), [0, 10, 10]);
    let fit = Region::undecided(512).unwrap();
    let decided = |region: Region, atom| {
        let (mut held, mut cut, mut known) = (region, region, Snapshot::fresh());
        let numbers = [number(held.hold(atom)), number(cut.cut(atom)), number(known.publish_in(&region)), number(known.publish(&region))];
        assert_eq!([held != region, cut != region, known != Snapshot::fresh()], [numbers[0], numbers[1], numbers[2]].map(|n| n == 0));
        numbers
    };
    assert_eq!(decided(fit, 511), [0; 4]);
    assert_eq!(decided(fit, 512), [18, 18, 0, 0]);
    assert_eq!(decided(Region { atoms: 513, ..fit }, 0), [10; 4]);
    assert_eq!(decided(Region { atoms: 511, cut: [0, 0, 0, 0, 0, 0, 0, 1 << 63], ..fit }, 0), [11; 4]);
    assert_eq!(decided(Region { held: [2, 0, 0, 0, 0, 0, 0, 0], cut: [2, 0, 0, 0, 0, 0, 0, 0], ..fit }, 0), [12; 4]);
}

// ---- prepared systems

const FIT: System = System { atoms: 3, rows: 2, rank: 2, refuted: false };
const LENT: Lent = Lent { system: FIT, rows: &[0b011, 0b110], constants: &[1, 0], basis: &[0, 1], index: &[0b01, 0, 0b11, 0, 0b10, 0] };

fn region(n: usize, held: u64, cut: u64) -> Region {
    Region { atoms: n, held: [held, 0, 0, 0, 0, 0, 0, 0], cut: [cut, 0, 0, 0, 0, 0, 0, 0] }
}

fn known(n: usize, held: u64) -> Snapshot {
    Snapshot { initialized: true, atoms: n, held: [held, 0, 0, 0, 0, 0, 0, 0], cut: [0; 8] }
}

/// The numbers of touched, of the three inspections with lists of so many entries, and of probe.
fn numbers(lent: Lent, region: Region, known: Snapshot, entries: usize) -> [usize; 5] {
    let (mut regions, mut knowns) = ([region; 3], [known; 3]);
    let (mut atoms, mut values, mut list) = ([7; 2], [7; 2], [Forced { atom: 7, value: 7 }; 2]);
    let answers = [
        number(lent.touched(&region, &known)),
        number(lent.inspect(&mut regions[0], &mut knowns[0], &mut atoms[..entries], &mut values[..entries])),
        number(lent.inspect_in(&mut regions[1], &mut knowns[1], &mut atoms[..entries], &mut values[..entries])),
        number(lent.inspect_list(&mut regions[2], &mut knowns[2], &mut list[..entries])),
        number(lent.probe(&region)),
    ];
    if answers[1] != 0 {
        assert_eq!((regions, knowns), ([region; 3], [known; 3]));
        assert_eq!((atoms, values, list), ([7; 2], [7; 2], [Forced { atom: 7, value: 7 }; 2]));
    }
    answers
}

/// The same of a system with knowledge of nothing and one atom held.
fn of(lent: Lent) -> [usize; 5] {
    numbers(lent, region(3, 1, 0), Snapshot::fresh(), 2)
}

/// The same of the fit system.
fn with(region: Region, known: Snapshot) -> [usize; 5] {
    numbers(LENT, region, known, 2)
}

#[test]
fn lent_systems() {
    assert_eq!(of(LENT), [0; 5]);
    assert_eq!(of(Lent { rows: &[0b011], ..LENT }), [0, 9, 9, 9, 9]);
    assert_eq!(of(Lent { constants: &[1], ..LENT }), [0, 9, 9, 9, 9]);
    assert_eq!(of(Lent { basis: &[0], ..LENT }), [0, 9, 9, 9, 9]);
    assert_eq!(of(Lent { index: &[0; 5], ..LENT }), [9, 9, 9, 9, 0]);
    assert_eq!(of(Lent { system: System { atoms: 513, ..FIT }, ..LENT }), [10; 5]);
    assert_eq!(of(Lent { system: System { rows: 513, ..FIT }, ..LENT }), [10; 5]);
    assert_eq!(of(Lent { rows: &[0b011, 0b1000], ..LENT }), [0, 11, 11, 11, 11]);
    assert_eq!(of(Lent { constants: &[1, 2], ..LENT }), [0, 11, 11, 11, 11]);
    assert_eq!(of(Lent { system: System { rank: 3, ..FIT }, ..LENT }), [13; 5]);
    assert_eq!(of(Lent { basis: &[0, 2], ..LENT }), [0, 13, 13, 13, 13]);
    assert_eq!(of(Lent { index: &[0b101, 0, 0b11, 0, 0b10, 0], ..LENT }), [14, 14, 14, 14, 0]);
    assert_eq!(numbers(LENT, region(3, 1, 0), Snapshot::fresh(), 1), [0, 9, 9, 9, 0]);
}

#[test]
fn lent_regions_and_knowledge() {
    assert_eq!(with(region(3, 0b011, 0b100), known(3, 0b010)), [0; 5]);
    assert_eq!(with(region(513, 0, 0), Snapshot::fresh()), [10; 5]);
    assert_eq!(with(region(3, 0, 0), known(513, 0)), [10, 10, 10, 10, 0]);
    assert_eq!(with(region(3, 0b1000, 0), Snapshot::fresh()), [11; 5]);
    assert_eq!(with(region(3, 1, 1), Snapshot::fresh()), [12; 5]);
    assert_eq!(with(region(2, 0, 0), Snapshot::fresh()), [15; 5]);
    assert_eq!(with(region(3, 0, 0), known(2, 0)), [15, 15, 15, 15, 0]);
    assert_eq!(with(region(3, 0, 1), known(3, 1)), [16, 16, 16, 16, 0]);
}

#[test]
fn columns() {
    let column = |lent: Lent, atom| number(lent.column(atom));
    assert_eq!([column(LENT, 2), column(LENT, 3), column(LENT, usize::MAX)], [0, 18, 18]);
    assert_eq!(column(Lent { index: &[0; 5], ..LENT }, 2), 9);
    assert_eq!(column(Lent { system: System { rank: 513, ..FIT }, ..LENT }, 2), 10);
    assert_eq!(column(Lent { system: System { rank: 1, ..FIT }, ..LENT }, 2), 14);
}

// ---- words

#[test]
fn every_number_has_its_words() {
    let mut words: Vec<&str> = (0..=18).map(|n| Refusal(n).meaning()).collect();
    words.sort_unstable();
    words.dedup();
    assert_eq!(words.len(), 19);
    assert_eq!(Refusal(18).to_string(), "refused 18: the atom is not below the atom count");
    assert_eq!(check(&[]).unwrap_err().to_string(), "refused 2 at 0: the kind of a record is unknown, or out of order");
}

//! The worked example of document 01: as a file, and call by call.
use worzubil::{answer, check, Decision, Forced, Outcome, Region, Rows, Size, Snapshot, Tally};

const FILE: &[u8] = include_bytes!("../../../crates/swaps/stdin");
const LINES: &str = include_str!("../../../crates/swaps/stdout");

#[test]
fn the_file() {
    assert_eq!(answer(FILE), LINES);
    assert_eq!(check(FILE), Ok(Size { atoms: 3, rows: 3 }));
}

fn handed_in() -> Rows {
    let mut rows = Rows::new(3).unwrap();
    rows.push(&[0, 1], true).unwrap();
    rows.push(&[2, 1, 2], false).unwrap();
    assert_eq!(rows.push_table(&[0, 2], &[0b1001, 0]).unwrap().listed().len(), 1);
    rows
}

#[test]
fn the_rows() {
    assert_eq!(Rows::of_file(FILE), Ok(handed_in()));
}

#[test]
fn the_calls() {
    let prepared = handed_in().prepare().unwrap();
    let system = prepared.system();
    assert_eq!((system.atoms, system.rows, system.rank, system.refuted), (3, 3, 2, false));
    assert_eq!(prepared.tally(), Tally { additions: 2, units: 0, incidences: 4 });
    assert_eq!(prepared.basis_row(1), Some((&[0b110][..], false)));
    assert_eq!(prepared.basis_row(2), None);
    assert_eq!(prepared.lent().column(1), Ok(&[0b11, 0][..]));

    let (mut region, mut known) = (Region::undecided(3).unwrap(), Snapshot::fresh());
    assert_eq!(prepared.probe(&region).unwrap().ways(), Some(1));
    assert_eq!(region.hold(1), Ok(Decision::Taken));
    assert_eq!(prepared.touched(&region, &known).unwrap().words[0], 0b11);
    let (inspection, forced) = prepared.inspect(&mut region, &mut known).unwrap();
    assert_eq!((inspection.outcome, inspection.held, inspection.cut), (Outcome::Changed, 1, 1));
    assert_eq!(forced, [Forced { atom: 0, value: 0 }, Forced { atom: 2, value: 1 }]);
    assert_eq!([0, 1, 2, 3].map(|atom| region.value(atom)), [Some(false), Some(true), Some(true), None]);
    assert_eq!(prepared.probe(&region).unwrap().ways(), Some(0));
    assert_eq!(region.hold(0), Ok(Decision::Against));
    assert_eq!(region.hold(1), Ok(Decision::Same));
    assert_eq!((known.initialized, known.atoms, known.held, known.cut), (true, 3, first_word(0b10), [0; 8]));
}

#[test]
fn no_way() {
    let prepared = handed_in().prepare().unwrap();
    let (mut region, mut known) = (Region::undecided(3).unwrap(), Snapshot::fresh());
    region.hold(0).unwrap();
    region.hold(1).unwrap();
    assert_eq!(prepared.probe(&region).unwrap().ways(), None);
    assert_eq!(prepared.inspect(&mut region, &mut known).unwrap().0.outcome, Outcome::Refuted);
}

/// The three forms of an inspection say the same.
#[test]
fn three_forms() {
    let prepared = handed_in().prepare().unwrap();
    let lent = prepared.lent();
    let mut start = Region::undecided(3).unwrap();
    start.cut(1).unwrap();
    let (mut region, mut known) = ([start; 3], [Snapshot::fresh(); 3]);
    let (mut atoms, mut values, mut list) = ([[9; 2]; 2], [[9; 2]; 2], [Forced { atom: 9, value: 9 }; 2]);
    let seen = [
        lent.inspect(&mut region[0], &mut known[0], &mut atoms[0], &mut values[0]).unwrap(),
        lent.inspect_in(&mut region[1], &mut known[1], &mut atoms[1], &mut values[1]).unwrap(),
        lent.inspect_list(&mut region[2], &mut known[2], &mut list).unwrap(),
    ];
    assert_eq!([seen[0]; 3], seen);
    assert_eq!([region[0]; 3], region);
    assert_eq!([known[0]; 3], known);
    assert_eq!((atoms, values), ([[0, 2]; 2], [[1, 0]; 2]));
    assert_eq!(list.map(|entry| (entry.atom, entry.value)), [(0, 1), (2, 0)]);
}

#[test]
fn published_in_place() {
    let mut region = Region::undecided(3).unwrap();
    region.hold(2).unwrap();
    let mut known = Snapshot::fresh();
    known.publish_in(&region).unwrap();
    assert_eq!(Snapshot::fresh().publish(&region), Ok(known));
    assert!(known.initialized && known.held == first_word(0b100));
}

fn first_word(word: u64) -> [u64; 8] {
    [word, 0, 0, 0, 0, 0, 0, 0]
}

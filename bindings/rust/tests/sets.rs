//! Sets, rows and tables on small values, fit and unfit.
use worzubil::{propose, rows, sets, width, write, Equation, Refusal, Unfit};

#[test]
fn words() {
    let located = sets::locate(130);
    assert_eq!((located.word, located.bit), (2, 1 << 2));
    assert_eq!(sets::popcount(u64::MAX), 64);
    assert_eq!(sets::next(0b1010), Some((1, 0b1000)));
    assert_eq!(sets::next(0), None);
}

#[test]
fn one_set() {
    let mut set = [0; 2];
    assert_eq!(sets::first(&set), Ok(None));
    for atom in [127, 5, 64] {
        assert_eq!(sets::insert(&mut set, atom), Ok(()));
    }
    assert_eq!(sets::insert(&mut set, 128), Err(Unfit::Lengths));
    assert_eq!(sets::atoms(&set).collect::<Vec<_>>(), [5, 64, 127]);
    assert_eq!((sets::count(&set), sets::first(&set)), (Ok(3), Ok(Some(5))));
    assert!(sets::contains(&set, 127) && !sets::contains(&set, 126) && !sets::contains(&set, usize::MAX));
    sets::clear(&mut set);
    assert_eq!(set, [0; 2]);
}

#[test]
fn two_sets() {
    let (mut left, right) = ([0b0110], [0b0011]);
    assert_eq!(sets::is_subset_of(&left, &right), Ok(false));
    assert_eq!(sets::intersection_parity(&left, &right), Ok(true));
    assert_eq!(sets::intersection_count(&left, &right), Ok(1));
    sets::xor_assign(&mut left, &right).unwrap();
    assert_eq!(left, [0b0101]);
    sets::union_assign(&mut left, &right).unwrap();
    assert_eq!(left, [0b0111]);
    assert_eq!(sets::is_subset_of(&right, &left), Ok(true));
}

#[test]
fn lengths_that_differ() {
    let (mut left, right) = ([7], [1, 2]);
    assert_eq!(sets::xor_assign(&mut left, &right), Err(Unfit::Lengths));
    assert_eq!(sets::union_assign(&mut left, &right), Err(Unfit::Lengths));
    assert_eq!(left, [7]);
    assert_eq!(sets::is_subset_of(&left, &right), Err(Unfit::Lengths));
    assert_eq!(sets::intersection_parity(&left, &right), Err(Unfit::Lengths));
    assert_eq!(sets::intersection_count(&left, &right), Err(Unfit::Lengths));
}

/// An empty slice is lent by a pointer to nothing.
#[test]
fn empty_sets() {
    assert_eq!((sets::count(&[]), sets::first(&[])), (Ok(0), Ok(None)));
    assert_eq!(sets::union_assign(&mut [], &[]), Ok(()));
    assert_eq!(sets::is_subset_of(&[], &[]), Ok(true));
    sets::clear(&mut []);
    assert!(!sets::contains(&[], 0));
    assert_eq!(rows::source_at(&[], 0), None);
}

#[test]
fn one_row() {
    assert_eq!([0, 1, 64, 65, 512].map(width), [0, 1, 1, 2, 8]);
    let (mut two, mut constants) = ([0b1100, 1, 0b0100, 1], [1, 1]);
    assert_eq!(rows::row(&two, 2, 1), Some(&[0b0100, 1][..]));
    assert_eq!(rows::row(&two, 2, 2), None);
    assert_eq!(rows::lowest_atom(&two, 2, 1), Ok(Some(2)));
    assert_eq!(rows::overlap_count(&two, 2, 0, &[0b0100, 1]), Ok(2));
    assert_eq!(rows::overlap_parity(&two, 2, 0, &[0b0100, 1]), Ok(false));
    assert_eq!(rows::overlap_parity(&two, 2, 0, &[0b0100]), Err(Unfit::Lengths));
    assert_eq!(rows::add(&mut two, &mut constants, 2, 0, 1), Err(Unfit::Lengths));
    assert_eq!(rows::add(&mut two, &mut constants, 2, 1, 0), Ok(()));
    assert_eq!((two, constants), ([0b1100, 1, 0b1000, 0], [1, 0]));
    assert_eq!(rows::source_at(&[4, 2], 1), Some(2));
}

#[test]
fn tables() {
    let hull = propose(2, &[0b1001, 0]).unwrap();
    assert!(hull.exact);
    assert_eq!(hull.listed(), [Equation { coefficients: 0b11, constant: true }]);
    let (mut two, mut constants) = ([9; 2], [9; 2]);
    assert_eq!(write(&hull, &[1, 5], 1, &mut two, &mut constants, 1), Ok(()));
    assert_eq!((two, constants), ([9, 0b100010], [9, 1]));
    assert_eq!(write(&hull, &[1, 5], 1, &mut two, &mut constants, 2), Err(Unfit::Lengths));
    assert_eq!(write(&hull, &[1, 64], 1, &mut two, &mut constants, 0), Err(Unfit::Lengths));
    assert!(!propose(2, &[0b1000, 0]).unwrap().exact);
}

/// 2 words for up to 7 atoms, 4 for 8.
#[test]
fn words_of_a_table() {
    assert!(propose(7, &[0; 2]).is_ok() && propose(8, &[0; 4]).is_ok());
    assert_eq!([propose(7, &[0; 4]), propose(8, &[0; 2]), propose(9, &[0; 8]), propose(0, &[])], [Err(Refusal(17)); 4]);
}

//! The smallest calls at which the Rust's words panic and the port has an answer (docs/DIFFERENCES.md).

use std::convert::Infallible;
use std::panic::{AssertUnwindSafe, catch_unwind};

use zetesis_algebra::words::{self, Words};

fn panics<T>(call: impl FnOnce() -> T) -> bool {
    catch_unwind(AssertUnwindSafe(call)).is_err()
}

fn free<T>(_: T) -> Result<(), Infallible> {
    Ok(())
}

#[test]
fn an_atom_past_the_end() {
    let empty: [u64; 0] = [];
    assert!(panics(|| Words::<u64, _>::new(empty).contains(0)));
    assert!(panics(|| Words::<u64, _>::new(empty).insert(0)));
}

#[test]
fn unequal_lengths() {
    let (mut none, one) = ([], [0]);
    assert!(panics(|| words::union_assign(&mut none, &one, &mut free)));
    assert!(panics(|| words::xor_assign(&mut none, &one, &mut || free(()))));
    assert!(panics(|| words::intersection_count(&none, &one, &mut || free(()))));
    assert!(panics(|| Words::<u64, _>::new(none).is_subset_of(Words::new(&one[..]), &mut || free(()))));
}

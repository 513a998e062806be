//! A safe wrapper of the calls that include/worzubil.h declares: the parity core of a double star catalogue.
//!
//! Atoms are the measures of a group, numbered from 0; true means swapped. Rows say of some atoms that an odd or an even number is true.
//! [`Rows`] takes them as they are handed in, [`Prepared`] holds them reduced, [`Region`] which atoms are settled, [`Snapshot`] what was
//! known of that at the last inspection. [`Prepared::inspect`] forces what follows from single rows, and [`Prepared::probe`] says in how
//! many ways the rest can come out. [`answer`] does it all for a file of records.
//!
//! Any number is taken for any parameter, and every call ends. What is unfit changes nothing, and comes back as a [`Refusal`], whose number
//! is the header's, or as [`Unfit`]. A call panics only where the archive that is linked is not that of the header, or where
//! memory runs out.
//!
//! ```
//! use worzubil::{Decision, Refusal, Region, Rows, Snapshot};
//!
//! let mut rows = Rows::new(3)?;
//! rows.push(&[0, 1], true)?; // of 0 and 1 an odd number is swapped
//! rows.push(&[1, 2], false)?; // of 1 and 2 an even number
//! let system = rows.prepare()?;
//!
//! let (mut region, mut known) = (Region::undecided(3)?, Snapshot::fresh());
//! assert_eq!(system.probe(&region)?.ways(), Some(1)); // 2^1 ways
//!
//! assert_eq!(region.hold(1)?, Decision::Taken);
//! let (_, forced) = system.inspect(&mut region, &mut known)?;
//! assert_eq!(forced.iter().map(|entry| (entry.atom, entry.value)).collect::<Vec<_>>(), [(0, 0), (2, 1)]);
//! assert_eq!(region.hold(3), Err(Refusal(18)));
//! # Ok::<(), Refusal>(())
//! ```
#![deny(missing_docs)]
#![deny(unsafe_op_in_unsafe_fn)]

pub mod raw;
pub mod rows;
pub mod sets;

mod files;
mod handed;
mod refusal;
mod regions;
mod systems;

pub use files::{answer, answer_into, check, load, room, Size};
pub use handed::Rows;
pub use refusal::{Refusal, RefusedAt, Unfit};
pub use regions::{Decision, Region, Snapshot};
pub use rows::{propose, width, write, Equation, Hull};
pub use systems::{prepare, Forced, Inspection, Lent, Ordinals, Outcome, Outputs, Prepared, Probe, System, Tally, LIMIT};

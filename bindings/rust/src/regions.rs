//! What is settled, and what was known of it at the last inspection.
use crate::raw;
use crate::refusal::{unknown, Refusal};
use crate::sets;

pub use crate::raw::{Region, Snapshot};

/// What became of a decision that was not refused.
#[derive(Clone, Copy, Debug, PartialEq, Eq, Hash)]
pub enum Decision {
    /// The atom was open, and is settled so.
    Taken,
    /// It was settled so before.
    Same,
    /// It is settled otherwise, and stays so.
    Against,
}

impl Region {
    /// A region of n atoms, all open. Refused: 10 where n is above 512.
    pub fn undecided(n: usize) -> Result<Region, Refusal> {
        // SAFETY: no buffer is lent, and any number is taken.
        let new = unsafe { raw::worzubil_undecided(n) };
        Refusal::unless_zero(new.number).map(|()| new.region)
    }

    /// Settles an atom as true. Refused: 10 where the region has more than 512 atoms, 11 where a bit of its masks is set at its atom count
    /// or above, 12 where an atom is held and cut, 18 where the atom is not below the atom count.
    pub fn hold(&mut self, atom: usize) -> Result<Decision, Refusal> {
        // SAFETY: no buffer is lent, and any number is taken.
        self.take(unsafe { raw::worzubil_hold(*self, atom) })
    }

    /// Settles an atom as false. Refused as [`hold`](Region::hold).
    pub fn cut(&mut self, atom: usize) -> Result<Decision, Refusal> {
        // SAFETY: no buffer is lent, and any number is taken.
        self.take(unsafe { raw::worzubil_cut(*self, atom) })
    }

    fn take(&mut self, decision: raw::Decision) -> Result<Decision, Refusal> {
        *self = decision.region;
        match decision.kind {
            raw::TAKEN => Ok(Decision::Taken),
            raw::SAME => Ok(Decision::Same),
            raw::AGAINST => Ok(Decision::Against),
            raw::REFUSED => Err(Refusal(decision.number)),
            kind => unknown(kind),
        }
    }

    /// The value of an atom that is settled; nothing of an open one and of one that is not there.
    pub fn value(&self, atom: usize) -> Option<bool> {
        if sets::contains(&self.held, atom) {
            Some(true)
        } else {
            sets::contains(&self.cut, atom).then_some(false)
        }
    }
}

impl Snapshot {
    /// Knowledge of nothing.
    pub fn fresh() -> Snapshot {
        // SAFETY: no buffer is lent.
        unsafe { raw::worzubil_fresh() }
    }

    /// Knowledge of this region in the place of what was known. Refused: 10, 11 and 12 as by [`Region::hold`].
    pub fn publish(self, region: &Region) -> Result<Snapshot, Refusal> {
        // SAFETY: no buffer is lent, and any number is taken.
        let published = unsafe { raw::worzubil_publish(self, *region) };
        Refusal::unless_zero(published.number).map(|()| published.known)
    }

    /// [`publish`](Snapshot::publish) in this very record; refused, it stays as it is.
    pub fn publish_in(&mut self, region: &Region) -> Result<(), Refusal> {
        // SAFETY: one record, not null and aligned, lent by `&mut`, and the region is passed by value: nothing else of it is lent.
        Refusal::unless_zero(unsafe { raw::worzubil_publish_in(self, *region) })
    }
}

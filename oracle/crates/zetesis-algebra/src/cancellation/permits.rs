//! The count of permits behind a meter: charged so far, and admitted.

pub struct PermitLease;
pub struct PermitSettlement;

pub(super) struct Counted<'a> {
    pub(super) charged: &'a mut u64,
    pub(super) admitted: &'a mut u64,
}

pub(super) trait State {
    fn unused(&self) -> u64;
    fn consume(&mut self, count: u64);
}

impl State for Counted<'_> {
    fn unused(&self) -> u64 {
        *self.admitted - *self.charged
    }

    fn consume(&mut self, count: u64) {
        *self.charged += count;
    }
}

/// Take one permit, asking for more when none is left.
pub(super) fn tick<E>(
    state: &mut Counted<'_>,
    refill: impl FnOnce(&mut Counted<'_>) -> Result<(), E>,
) -> Result<(), E> {
    if state.unused() == 0 {
        refill(state)?;
    }
    state.consume(1);
    Ok(())
}

pub(super) fn take_available(state: &mut Counted<'_>, wanted: u64) -> u64 {
    let taken = wanted.min(state.unused());
    state.consume(taken);
    taken
}

/// Give back what is unused.
pub(super) fn settle(state: &mut Counted<'_>, give_back: impl FnOnce(&Counted<'_>)) {
    give_back(state);
    *state.admitted = *state.charged;
}

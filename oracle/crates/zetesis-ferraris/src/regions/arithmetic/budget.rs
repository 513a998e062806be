//! A budget that admits everything.

use zetesis_algebra::{Cancellation, Failure, Meter, Quota, Stop};

use super::work::Phase;

pub(super) struct Budget<'a, 'b, Q: Quota + ?Sized> {
    meter: &'a mut Meter<'b, Q>,
}

#[derive(Debug)]
pub(super) enum BudgetError<E> {
    Refused(E),
    Stopped(Stop),
    StorageDeclined {},
    WorkDeclined,
    Source(()),
}

impl<E> From<Stop> for BudgetError<E> {
    fn from(stop: Stop) -> Self {
        Self::Stopped(stop)
    }
}

impl<E> From<Failure<E>> for BudgetError<E> {
    fn from(failure: Failure<E>) -> Self {
        match failure {
            Failure::Refused(error) => Self::Refused(error),
            Failure::Stopped(stop) => Self::Stopped(stop),
        }
    }
}

impl<'a, 'b, Q: Quota + ?Sized> Budget<'a, 'b, Q> {
    pub(super) fn new(meter: &'a mut Meter<'b, Q>, _: u64, _: usize, _: &Cancellation) -> Self {
        Self { meter }
    }

    pub(super) fn meter_mut(&mut self) -> &mut Meter<'b, Q> {
        self.meter
    }

    pub(super) fn charge(&mut self, _: u64) -> Result<(), BudgetError<Q::Error>> {
        Ok(())
    }

    pub(super) fn admit_bytes(&mut self, _: u128) -> Result<(), BudgetError<Q::Error>> {
        Ok(())
    }

    pub(super) fn bounded<T>(
        &mut self,
        _: u64,
        operation: impl FnOnce() -> (T, u64),
    ) -> Result<T, BudgetError<Q::Error>> {
        Ok(operation().0)
    }

    pub(super) fn in_phase<T>(
        &mut self,
        _: Phase,
        operation: impl FnOnce(&mut Self) -> Result<T, BudgetError<Q::Error>>,
    ) -> Result<T, BudgetError<Q::Error>> {
        operation(self)
    }
}

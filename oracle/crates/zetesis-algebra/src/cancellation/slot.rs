//! Runs that can be cancelled from outside: there are none, so nothing is ever cancelled.

pub struct CancellationRun;
pub struct CancellationSlot;
pub struct CancellationSlotError;

#[derive(Clone, Debug)]
pub(super) struct Membership;

#[derive(Clone, Copy, Debug)]
pub(super) struct MembershipPoll<'a>(&'a Membership);

impl Membership {
    pub(super) fn polling(slot: Option<&Self>) -> Option<MembershipPoll<'_>> {
        slot.map(MembershipPoll)
    }
}

impl MembershipPoll<'_> {
    pub(super) fn is_cancelled(_: Option<Self>) -> bool {
        false
    }
}

//! Hart states, the sleep note and addresses.

use crate::hart::{Hart, SleepNote, State};
use crate::numbers::{SUSPEND_NON_RETENTIVE, SUSPEND_RETENTIVE};
use crate::platform::Platform;

/// What a hart may do in which state, and what it keeps for the wake.
pub trait StateRules {
    /// "hart enabled (-3)", where the number is that of all 64 bits of a0
    fn hart_number(&self, a0: u64) -> u64 {
        a0
    }

    /// "Done: 2 to 0, 3 to 1, 5 to 4, 6 to 0."
    fn done(&self, state: State) -> Option<State> {
        match state {
            State::StartPending => Some(State::Started),
            State::StopPending => Some(State::Stopped),
            State::SuspendPending => Some(State::Suspended),
            State::ResumePending => Some(State::Started),
            State::Started | State::Stopped | State::Suspended => None,
        }
    }

    /// "Wake: 4 to 6 only."
    fn wake(&self, state: State) -> Option<State> {
        (state == State::Suspended).then_some(State::ResumePending)
    }

    /// "No change of state alters a counter (house)."
    fn in_state(&self, hart: Hart, state: State) -> Hart {
        Hart { state, ..hart }
    }

    /// "start of a hart not STOPPED"
    fn may_be_started(&self, state: State) -> bool {
        state == State::Stopped
    }

    /// "Only the low 32 bits of a0 are read. Type 0 is retentive [...]; type 0x80000000 is not."
    fn retentive(&self, a0: u64) -> Option<bool> {
        match a0 as u32 {
            SUSPEND_RETENTIVE => Some(true),
            SUSPEND_NON_RETENTIVE => Some(false),
            _ => None,
        }
    }

    /// "An accepted suspend writes the sleep note (retentive, 0, 0 for type 0)"
    fn sleep_note(&self, _kept: SleepNote, asked: SleepNote) -> SleepNote {
        if asked.retentive {
            SleepNote::RETENTIVE
        } else {
            asked
        }
    }

    /// "a wake from non-retentive sleep gives one"
    fn wake_enters(&self, note: &SleepNote) -> bool {
        !note.retentive
    }

    /// "An address is valid if it is even and lies in a range"
    fn address_valid(&self, platform: &Platform, address: u64) -> bool {
        let mut ranges = platform.ranges().iter();
        address.is_multiple_of(2) && ranges.any(|range| range.holds(address))
    }
}

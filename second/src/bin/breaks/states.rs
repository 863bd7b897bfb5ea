//! Breaks of hart states, of the sleep note and of addresses.

use second::hart::{Counter, Hart, SleepNote, State};
use second::numbers::COUNTERS;
use second::platform::Platform;
use second::rules::AsItStands;

known_breaks! { states StateRules:
    HartOver32Bits "a hart number in a0 is read over 32 bits" {
        fn hart_number(&self, a0: u64) -> u64 {
            a0 & 0xFFFF_FFFF
        }
    }
    ResumeDoneSleeps "the done of a wake goes back to SUSPENDED" {
        fn done(&self, state: State) -> Option<State> {
            match state {
                State::ResumePending => Some(State::Suspended),
                _ => AsItStands.done(state),
            }
        }
    }
    SuspendDoneStarts "the done of a suspend goes to STARTED" {
        fn done(&self, state: State) -> Option<State> {
            match state {
                State::SuspendPending => Some(State::Started),
                _ => AsItStands.done(state),
            }
        }
    }
    StopDoneStays "the done of a stop stays in STOP_PENDING" {
        fn done(&self, state: State) -> Option<State> {
            match state {
                State::StopPending => Some(State::StopPending),
                _ => AsItStands.done(state),
            }
        }
    }
    DoneOfStarted "done is allowed in STARTED" {
        fn done(&self, state: State) -> Option<State> {
            AsItStands.done(state).or((state == State::Started).then_some(state))
        }
    }
    EarlyWake "wake is allowed in SUSPEND_PENDING" {
        fn wake(&self, state: State) -> Option<State> {
            matches!(state, State::Suspended | State::SuspendPending)
                .then_some(State::ResumePending)
        }
    }
    WakeStarts "wake goes to STARTED" {
        fn wake(&self, state: State) -> Option<State> {
            (state == State::Suspended).then_some(State::Started)
        }
    }
    StopClearsCounters "a stop clears the counters" {
        fn in_state(&self, hart: Hart, state: State) -> Hart {
            let counters = match state {
                State::Stopped => [Counter::FRESH; COUNTERS],
                _ => hart.counters,
            };
            Hart { state, counters, ..hart }
        }
    }
    SleepHaltsCounters "a suspend halts the counters" {
        fn in_state(&self, hart: Hart, state: State) -> Hart {
            let halted = |counter| Counter { running: false, ..counter };
            let counters = match state {
                State::SuspendPending => hart.counters.map(halted),
                _ => hart.counters,
            };
            Hart { state, counters, ..hart }
        }
    }
    StartOfStopPending "a hart in STOP_PENDING can be started" {
        fn may_be_started(&self, state: State) -> bool {
            matches!(state, State::Stopped | State::StopPending)
        }
    }
    TypeOver64Bits "the suspend type is read over 64 bits" {
        fn retentive(&self, a0: u64) -> Option<bool> {
            AsItStands.retentive(a0).filter(|_| a0 <= 0xFFFF_FFFF)
        }
    }
    PlatformTypes "platform suspend types are accepted" {
        fn retentive(&self, a0: u64) -> Option<bool> {
            match a0 as u32 {
                0x1000_0000..=0x7FFF_FFFF => Some(true),
                0x9000_0000..=0xFFFF_FFFF => Some(false),
                _ => AsItStands.retentive(a0),
            }
        }
    }
    NoteStays "a retentive suspend leaves the sleep note" {
        fn sleep_note(&self, kept: SleepNote, asked: SleepNote) -> SleepNote {
            if asked.retentive { kept } else { asked }
        }
    }
    EveryWakeEnters "a wake from retentive sleep gives an action" {
        fn wake_enters(&self, _note: &SleepNote) -> bool {
            true
        }
    }
    NoWakeEnters "a wake from non-retentive sleep gives no action" {
        fn wake_enters(&self, _note: &SleepNote) -> bool {
            false
        }
    }
    OddAddress "an odd address is valid" {
        fn address_valid(&self, platform: &Platform, address: u64) -> bool {
            AsItStands.address_valid(platform, address & !1)
        }
    }
    AddressAtEnd "the end of a range is valid" {
        fn address_valid(&self, platform: &Platform, address: u64) -> bool {
            let at_end = |end| u128::from(address) == end;
            AsItStands.address_valid(platform, address)
                || platform.ranges().iter().any(|range| at_end(range.end()))
        }
    }
    AddressAtBase "the base of a range is not valid" {
        fn address_valid(&self, platform: &Platform, address: u64) -> bool {
            AsItStands.address_valid(platform, address)
                && platform.ranges().iter().all(|range| range.base() != address)
        }
    }
}

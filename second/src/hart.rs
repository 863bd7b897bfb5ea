//! A hart record: its state, its sleep note and its eight counters.

use crate::numbers::COUNTERS;

/// The seven hart states.
#[derive(Clone, Copy, Debug, PartialEq, Eq, PartialOrd, Ord)]
pub enum State {
    Started,
    Stopped,
    StartPending,
    StopPending,
    Suspended,
    SuspendPending,
    ResumePending,
}

impl State {
    /// Every state, at the place of its number.
    pub const ALL: [State; 7] = [
        State::Started,
        State::Stopped,
        State::StartPending,
        State::StopPending,
        State::Suspended,
        State::SuspendPending,
        State::ResumePending,
    ];

    /// The number that status answers.
    pub fn number(self) -> u64 {
        match self {
            State::Started => 0,
            State::Stopped => 1,
            State::StartPending => 2,
            State::StopPending => 3,
            State::Suspended => 4,
            State::SuspendPending => 5,
            State::ResumePending => 6,
        }
    }

    /// The state with that number, if there is one.
    pub fn of(number: u64) -> Option<State> {
        State::ALL.into_iter().find(|s| s.number() == number)
    }
}

/// What an accepted suspend keeps for the wake.
#[derive(Clone, Copy, Debug, PartialEq, Eq)]
pub struct SleepNote {
    pub retentive: bool,
    pub address: u64,
    pub opaque: u64,
}

impl SleepNote {
    /// The note of a fresh hart and of retentive sleep.
    pub const RETENTIVE: SleepNote = SleepNote {
        retentive: true,
        address: 0,
        opaque: 0,
    };
}

/// One firmware counter.
#[derive(Clone, Copy, Debug, PartialEq, Eq)]
pub struct Counter {
    /// Code of the event it is mapped to, 0 to 21; none while it is unmapped.
    pub event: Option<u8>,
    /// Only a mapped counter runs.
    pub running: bool,
    pub value: u64,
}

impl Counter {
    pub const FRESH: Counter = Counter {
        event: None,
        running: false,
        value: 0,
    };
}

/// One hart's row of the tables.
#[derive(Clone, Copy, Debug, PartialEq, Eq)]
pub struct Hart {
    pub state: State,
    pub sleep: SleepNote,
    pub counters: [Counter; COUNTERS],
}

impl Hart {
    /// A fresh record in the given state.
    pub fn fresh(state: State) -> Hart {
        Hart {
            state,
            sleep: SleepNote::RETENTIVE,
            counters: [Counter::FRESH; COUNTERS],
        }
    }
}

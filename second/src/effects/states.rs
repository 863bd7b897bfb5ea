//! HSM: start, stop, status and suspend; and the entry that a wake gives.

use crate::action::Action;
use crate::call::{Accepted, Call};
use crate::hart::{Hart, SleepNote, State};
use crate::rules::Rules;

/// The target goes to START_PENDING and is entered at the address.
pub fn start(call: &Call) -> Accepted {
    let mut accepted = Accepted::tables(call.tables.clone());
    if let Some((hart, record)) = call.named_hart() {
        let pending = call.rules.states.in_state(*record, State::StartPending);
        accepted.tables.alter(hart, |_| pending);
        accepted.actions = vec![Action::enter(hart, call.a(1), call.a(2))];
    }
    accepted
}

/// The caller goes to STOP_PENDING.
pub fn stop(call: &Call) -> Accepted {
    let mut tables = call.tables.clone();
    tables.alter(call.caller, |h| {
        call.rules.states.in_state(h, State::StopPending)
    });
    Accepted {
        parked: true,
        ..Accepted::tables(tables)
    }
}

/// The state of the hart that a0 names.
pub fn status(call: &Call) -> Accepted {
    let state = call.named_hart().map(|(_, hart)| hart.state);
    call.value(state.map_or(0, State::number))
}

/// The caller goes to SUSPEND_PENDING with a sleep note.
pub fn suspend(call: &Call) -> Accepted {
    let asked = SleepNote {
        retentive: call.rules.states.retentive(call.a(0)) == Some(true),
        address: call.a(1),
        opaque: call.a(2),
    };
    let asleep = |h: Hart| {
        let sleep = call.rules.states.sleep_note(h.sleep, asked);
        call.rules
            .states
            .in_state(Hart { sleep, ..h }, State::SuspendPending)
    };
    let mut tables = call.tables.clone();
    tables.alter(call.caller, asleep);
    Accepted {
        parked: true,
        ..Accepted::tables(tables)
    }
}

/// The entry of a hart that wakes from non-retentive sleep.
pub fn enter_on_wake(rules: Rules, hart: u8, note: &SleepNote) -> Vec<Action> {
    if rules.states.wake_enters(note) {
        vec![Action::enter(hart, note.address, note.opaque)]
    } else {
        Vec::new()
    }
}

//! PMU: configure, start, stop and read the caller's own counters.

use crate::call::{Accepted, Call};
use crate::hart::{Counter, Hart};
use crate::numbers::{COUNTERS, FIRMWARE_COUNTER};

/// The number of counters.
pub const NUMBER: u64 = COUNTERS as u64;
/// The details of counters 0 to 7.
pub const DETAILS: u64 = FIRMWARE_COUNTER;

/// Maps the chosen counter and gives its number.
pub fn configure(call: &Call) -> Accepted {
    let chosen = call.chosen().unwrap_or_default();
    let code = call
        .rules
        .counters
        .event_code(call.a(3))
        .unwrap_or_default();
    let configured = |counter| call.rules.counters.configured(counter, code, call.a(2));
    Accepted {
        value: chosen as u64,
        ..change(call, &[chosen], configured)
    }
}

/// Sets every counter of the set running.
pub fn start(call: &Call) -> Accepted {
    let started = |counter| call.rules.counters.started(counter, call.a(2), call.a(3));
    change(call, &set(call), started)
}

/// Stops every counter of the set.
pub fn stop(call: &Call) -> Accepted {
    let stopped = |counter| call.rules.counters.stopped(counter, call.a(2));
    change(call, &set(call), stopped)
}

/// The value of the counter that a0 names.
pub fn read(call: &Call) -> Accepted {
    call.value(call.named_counter().map_or(0, |counter| counter.value))
}

fn set(call: &Call) -> Vec<usize> {
    let set = call.counter_set().unwrap_or_default();
    set.into_iter().collect()
}

/// Changes some of the caller's counters alike.
fn change(call: &Call, places: &[usize], change: impl Fn(Counter) -> Counter) -> Accepted {
    let changed = |mut h: Hart| {
        for &place in places {
            h.counters[place] = change(h.counters[place]);
        }
        h
    };
    let mut tables = call.tables.clone();
    tables.alter(call.caller, changed);
    Accepted::tables(tables)
}

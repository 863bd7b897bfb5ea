//! IPI and RFENCE: an action for each reached hart, and the events that the traffic counts.

use crate::action::{Action, Kind};
use crate::call::{Accepted, Call};
use crate::function::Fence;
use crate::hart::Hart;
use crate::rules::Rules;
use crate::tables::Tables;

/// Interrupts the reached harts.
pub fn interrupt(call: &Call) -> Accepted {
    let action = |target| Action {
        target,
        kind: Kind::Interrupt,
        start: 0,
        size: 0,
        id: 0,
    };
    traffic(call, call.rules.traffic.interrupt_sent(), action)
}

/// Has the reached harts fence. Arguments are passed on unaltered, absent words are 0.
pub fn fence(call: &Call, fence: Fence) -> Accepted {
    let present = |has: bool, register: usize| if has { call.a(register) } else { 0 };
    let action = |target| Action {
        target,
        kind: Kind::Fence(fence),
        start: present(fence.has_range(), 2),
        size: present(fence.has_range(), 3),
        id: present(fence.has_id(), 4),
    };
    traffic(call, call.rules.traffic.fence_sent(fence), action)
}

fn traffic(call: &Call, sent: u8, action: impl Fn(u8) -> Action) -> Accepted {
    let rules = call.rules;
    let reached = reached(call);
    let mut tables = call.tables.clone();
    for _ in 0..rules.traffic.sent_events(call.caller, &reached) {
        count(rules, &mut tables, call.caller, sent);
    }
    for &target in &reached {
        if rules.traffic.receives(call.caller, target) {
            count(rules, &mut tables, target, rules.traffic.received(sent));
        }
        tables.alter(target, |h| Hart {
            state: rules.traffic.state_after_traffic(h.state),
            ..h
        });
    }
    Accepted {
        actions: reached.into_iter().map(action).collect(),
        ..Accepted::tables(tables)
    }
}

/// The selected harts that are reached, ascending.
fn reached(call: &Call) -> Vec<u8> {
    let selected = call.selected().unwrap_or_default();
    let is_reached = |hart: &u8| {
        let record = call.tables.hart(*hart);
        record.is_some_and(|h| call.rules.traffic.reached(h.state))
    };
    selected.into_iter().filter(is_reached).collect()
}

/// Counts one event with that code on a hart.
pub fn count(rules: Rules, tables: &mut Tables, hart: u8, code: u8) {
    tables.alter(hart, |h| Hart {
        counters: rules.counters.counted(h.counters, code),
        ..h
    });
}

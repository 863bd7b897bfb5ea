//! "Hart states": done and wake, the sleep note, and the states that a row's places name.

use super::world::*;
use second::numbers::*;
use second::{Answer, Operation, SleepNote, State};
use State::*;

const NON_RETENTIVE: u64 = 0x8000_0000;

fn plain(answer: &Answer) -> bool {
    answer.error == 0 && answer.value == 0 && !answer.parked
}

#[test]
fn the_states_have_their_numbers() {
    let named = [
        Started,
        Stopped,
        StartPending,
        StopPending,
        Suspended,
        SuspendPending,
        ResumePending,
    ];
    for (number, state) in (0..).zip(named) {
        let mut w = World::fresh().with_state(1, state);
        assert_eq!(w.hsm(0, 2, &[1]), (0, number));
    }
}

#[test]
fn done_goes_2_to_0_3_to_1_5_to_4_6_to_0() {
    let turns = [
        (StartPending, Started),
        (StopPending, Stopped),
        (SuspendPending, Suspended),
        (ResumePending, Started),
    ];
    for (before, after) in turns {
        let mut w = World::fresh().with_state(1, before);
        let answer = w.done(1);
        assert!(plain(&answer) && answer.actions.is_empty());
        assert_eq!(w.state(1), Some(after));
    }
}

#[test]
fn wake_goes_4_to_6_only() {
    for state in State::ALL {
        let mut w = World::fresh().with_state(1, state);
        let answer = w.ask(Operation::Wake { hart: 1 });
        let after = if state == Suspended {
            ResumePending
        } else {
            state
        };
        assert_eq!(answer.is_ok(), state == Suspended);
        assert_eq!(w.state(1), Some(after));
    }
}

#[test]
fn a_completion_alters_the_one_harts_state_alone() {
    let mut w = World::running().with_state(2, SuspendPending);
    w.run_counter(2, 1, 4, 8);
    w.tables.harts[2].sleep = SleepNote {
        retentive: false,
        address: GOOD,
        opaque: 3,
    };
    let mut expected = w.tables.clone();
    expected.harts[2].state = Suspended.number();
    w.done(2);
    assert_eq!(w.tables, expected);
}

#[test]
fn an_accepted_suspend_writes_the_sleep_note() {
    let mut w = World::fresh();
    w.hsm(0, 3, &[NON_RETENTIVE, GOOD, TOP]);
    let note = SleepNote {
        retentive: false,
        address: GOOD,
        opaque: TOP,
    };
    assert_eq!(w.sleep(0), note);
}

#[test]
fn the_note_of_type_0_is_retentive_0_0() {
    let mut w = World::fresh();
    w.tables.harts[0].sleep = SleepNote {
        retentive: false,
        address: GOOD,
        opaque: 9,
    };
    assert_eq!(w.hsm(0, 3, &[0, GOOD, 7]), (0, 0));
    assert_eq!(w.sleep(0), SleepNote::RETENTIVE);
}

#[test]
fn nothing_else_alters_the_note() {
    let note = SleepNote {
        retentive: false,
        address: GOOD,
        opaque: 9,
    };
    let mut w = World::fresh().with_state(1, Stopped);
    w.tables.harts[1].sleep = note;
    w.hsm(0, 0, &[1, GOOD + 2, 5]);
    w.done(1);
    assert_eq!(w.hsm(1, 3, &[1, GOOD + 4, 6]), (-3, 0));
    assert_eq!(w.hsm(1, 3, &[NON_RETENTIVE, 1, 6]), (-5, 0));
    w.interrupt(TOP, TOP).unwrap();
    w.event(1, 3);
    w.hsm(1, 1, &[]);
    w.done(1);
    assert_eq!(w.sleep(1), note);
    let mut w = World::fresh().with_state(1, SuspendPending);
    w.tables.harts[1].sleep = note;
    w.done(1);
    w.wake(1);
    w.done(1);
    assert_eq!(w.sleep(1), note);
}

#[test]
fn a_wake_from_non_retentive_sleep_enters_at_the_stored_address() {
    let mut w = World::running();
    w.hsm(2, 3, &[NON_RETENTIVE, GOOD, 0xFEED]);
    w.done(2);
    let answer = w.wake(2);
    assert!(plain(&answer));
    assert_eq!(answer.actions.len(), 1);
    assert_eq!(answer.actions[0].words(), [2, 1, GOOD, 0xFEED, 0]);
}

#[test]
fn a_retentive_wake_gives_no_action() {
    let mut w = World::running();
    w.hsm(2, 3, &[0, GOOD, 0xFEED]);
    w.done(2);
    let answer = w.wake(2);
    assert!(plain(&answer) && answer.actions.is_empty());
}

#[test]
fn the_note_of_the_last_sleep_counts() {
    let mut w = World::fresh();
    for (kind, actions) in [(NON_RETENTIVE, 1), (0, 0), (NON_RETENTIVE, 1), (0, 0)] {
        w.hsm(0, 3, &[kind, GOOD, 1]);
        w.done(0);
        assert_eq!(w.wake(0).actions.len(), actions);
        w.done(0);
    }
}

#[test]
fn a_stored_address_is_entered_as_it_is() {
    let mut w = World::fresh().with_state(1, Suspended);
    w.tables.harts[1].sleep = SleepNote {
        retentive: false,
        address: 1,
        opaque: 2,
    };
    assert_eq!(w.wake(1).actions[0].words(), [1, 1, 1, 2, 0]);
}

#[test]
fn no_change_of_state_alters_a_counter() {
    let mut w = World::running();
    w.run_counter(1, 0, 6, 10);
    w.set_counter(1, 1, Some(7), false, 11);
    w.set_counter(1, 2, None, false, 12);
    let counters = w.tables.harts[1].counters;
    w.hsm(1, 3, &[NON_RETENTIVE, GOOD, 0]);
    w.done(1);
    w.wake(1);
    w.done(1);
    w.hsm(1, 1, &[]);
    w.done(1);
    w.hsm(0, 0, &[1, GOOD, 0]);
    w.done(1);
    assert_eq!(w.tables.harts[1].counters, counters);
}

#[test]
fn the_places_in_a_row_name_their_states() {
    let mut w = World::fresh();
    assert_eq!(w.state(1), Some(Stopped), "before the first start");
    w.hsm(0, 0, &[1, GOOD, 0]);
    assert_eq!(w.state(1), Some(StartPending), "after start");
    w.done(1);
    assert_eq!(w.state(1), Some(Started), "after the done of a start");
    w.hsm(1, 3, &[0, 0, 0]);
    assert_eq!(w.state(1), Some(SuspendPending), "after suspend");
    w.done(1);
    assert_eq!(w.state(1), Some(Suspended), "after its done");
    w.wake(1);
    assert_eq!(w.state(1), Some(ResumePending), "after wake");
    w.done(1);
    assert_eq!(w.state(1), Some(Started), "after the done of a wake");
    w.hsm(1, 1, &[]);
    assert_eq!(w.state(1), Some(StopPending), "after stop");
    w.done(1);
    assert_eq!(w.state(1), Some(Stopped), "after the done of a stop");
    w.hsm(0, 0, &[1, GOOD, 0]);
    assert_eq!(w.state(1), Some(StartPending), "after start again");
}

#[test]
fn every_other_call_stands_in_no_row() {
    let mut w = World::running();
    w.set_counter(0, 0, Some(6), false, 0);
    let others: [(u64, u64, &[u64]); 8] = [
        (EID_BASE, 0, &[]),
        (EID_IPI, 0, &[15, 0]),
        (EID_RFENCE, 6, &[15, 0, 0, 0]),
        (EID_HSM, 2, &[1]),
        (EID_PMU, 2, &[0, 2, 4, EVENTS, 0]),
        (EID_PMU, 3, &[0, 1, 0, 0]),
        (EID_PMU, 4, &[0, 1, 0]),
        (EID_PMU, 5, &[0]),
    ];
    for (eid, fid, arguments) in others {
        assert_eq!(w.call(0, eid, fid, arguments).error, 0);
        for hart in 0..4 {
            assert_eq!(w.state(hart), Some(Started));
        }
    }
}

#[test]
fn only_stop_and_suspend_are_marked_parked() {
    let mut w = World::running().with_state(3, Stopped);
    let calls: [(u64, u64, u64, &[u64], bool); 8] = [
        (0, EID_BASE, 0, &[], false),
        (0, EID_HSM, 0, &[3, GOOD, 0], false),
        (0, EID_HSM, 2, &[3], false),
        (0, EID_IPI, 0, &[15, 0], false),
        (0, EID_RFENCE, 0, &[15, 0], false),
        (0, EID_PMU, 0, &[], false),
        (1, EID_HSM, 1, &[], true),
        (2, EID_HSM, 3, &[0, 0, 0], true),
    ];
    for (hart, eid, fid, arguments, parked) in calls {
        let answer = w.call(hart, eid, fid, arguments);
        assert_eq!((answer.error, answer.parked), (0, parked));
    }
}

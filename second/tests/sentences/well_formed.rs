//! "Well formed": every way in which tables can fail it, and what passes.

use super::world::*;
use second::answer::answer;
use second::{Ground, Operation, Platform, RawCounter, Refusal, SleepNote, State, Tables};

/// Every kind of operation meets the same ground.
fn assert_ground(w: &World, ground: Ground) {
    let operations = [
        status_call(0),
        Operation::Done { hart: 0 },
        Operation::Wake { hart: 0 },
        Operation::Event { hart: 0, code: 0 },
    ];
    for operation in operations {
        let refusal = w.clone().ask(operation);
        assert_eq!(refusal, Err(Refusal::NotWellFormed(ground)));
    }
}

fn assert_well_formed(w: &World) {
    assert!(w.clone().ask(status_call(0)).is_ok());
}

#[test]
fn each_state_is_0_to_6() {
    for state in 0..7 {
        let mut w = World::fresh();
        w.tables.harts[1].state = state;
        assert_well_formed(&w);
    }
    for state in [7, 8, 256, 1 << 32, TOP] {
        for hart in [0, 1, 4, 127] {
            let mut w = World::fresh();
            w.tables.harts[hart].state = state;
            assert_ground(&w, Ground::StateOverSix);
        }
    }
}

#[test]
fn a_hart_not_enabled_is_stopped() {
    for hart in [4, 100, 127] {
        for state in State::ALL {
            let w = World::fresh().with_state(hart, state);
            match state {
                State::Stopped => assert_well_formed(&w),
                _ => assert_ground(&w, Ground::DisabledHartNotFresh),
            }
        }
    }
}

#[test]
fn a_cleared_state_word_is_not_taken_as_a_hart() {
    let mut w = World::fresh();
    for hart in 4..128 {
        w.tables.harts[hart].state = 0;
    }
    assert_ground(&w, Ground::DisabledHartNotFresh);
}

#[test]
fn a_hart_not_enabled_has_a_fresh_sleep_note() {
    let fresh = SleepNote::RETENTIVE;
    let notes = [
        SleepNote {
            retentive: false,
            ..fresh
        },
        SleepNote {
            address: 2,
            ..fresh
        },
        SleepNote { opaque: 1, ..fresh },
    ];
    for note in notes {
        let mut w = World::fresh();
        w.tables.harts[4].sleep = note;
        assert_ground(&w, Ground::DisabledHartNotFresh);
    }
}

#[test]
fn a_hart_not_enabled_has_unmapped_stopped_zero_counters() {
    for (event, running, value) in [(Some(0), false, 0), (Some(0), true, 0), (None, false, 1)] {
        for counter in [0, 7] {
            let mut w = World::fresh();
            w.set_counter(127, counter, event, running, value);
            assert_ground(&w, Ground::DisabledHartNotFresh);
        }
    }
}

#[test]
fn a_mapped_code_is_0_to_21() {
    for code in 0..22 {
        let mut w = World::fresh();
        w.set_counter(1, 7, Some(code), false, 0);
        assert_well_formed(&w);
    }
    for code in [22, 255, 256, 1 << 32, TOP] {
        for running in [false, true] {
            let mut w = World::fresh();
            w.set_counter(1, 7, Some(code), running, 0);
            assert_ground(&w, Ground::CodeOverTwentyOne);
        }
    }
}

#[test]
fn a_running_counter_is_mapped() {
    let mut w = World::fresh();
    w.set_counter(3, 0, None, true, 0);
    assert_ground(&w, Ground::RunningCounterUnmapped);
}

#[test]
fn an_enabled_hart_may_keep_any_retentive_note() {
    let mut w = World::fresh();
    w.tables.harts[1].sleep = SleepNote {
        retentive: true,
        address: 1,
        opaque: TOP,
    };
    assert_well_formed(&w);
}

#[test]
fn an_enabled_hart_may_keep_a_note_with_an_address_that_is_not_valid() {
    let mut w = World::fresh();
    w.tables.harts[1].sleep = SleepNote {
        retentive: false,
        address: 1,
        opaque: 0,
    };
    assert_well_formed(&w);
}

#[test]
fn an_unmapped_counter_may_keep_a_value() {
    let mut w = World::fresh();
    w.set_counter(1, 0, None, false, TOP);
    assert_well_formed(&w);
}

#[test]
fn no_hart_need_be_started() {
    let w = World::fresh().with_state(0, State::Stopped);
    let refusal = w.clone().ask(status_call(0));
    assert_eq!(refusal, Err(Refusal::CallerNotStarted));
}

#[test]
fn typed_tables_of_another_platform_are_not_well_formed() {
    let other = harts(&[0, 1]).checked().expect("accepted");
    let tables = Tables::fresh(&other);
    let asked = answer(&Platform::program(), &tables, 640, &status_call(0));
    let refusal = asked.map(|_| ()).expect_err("refused");
    assert_eq!(refusal, Ground::TablesOfAnotherPlatform.into());
}

#[test]
fn plain_numbers_and_typed_tables_say_the_same() {
    let mut w = World::running();
    w.set_counter(2, 3, Some(21), true, TOP);
    w.set_counter(2, 4, None, false, 9);
    let typed = w.tables.checked(&w.platform.checked().unwrap()).unwrap();
    assert_eq!(second::RawTables::from(&typed), w.tables);
    let unmapped = RawCounter {
        event: None,
        running: false,
        value: 9,
    };
    assert_eq!(w.counter(2, 4), unmapped);
}

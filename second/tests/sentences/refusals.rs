//! The table of host refusals: each row, the order, and what a refusal leaves unaltered.

use super::world::*;
use second::answer::answer_raw;
use second::lent::answer_in_place;
use second::numbers::*;
use second::{Operation, Refusal, State};

/// The refusal with so many words of action memory, or 0.
fn refusal(w: &World, words: usize, operation: Operation) -> u8 {
    let answer = answer_raw(&w.platform, &w.tables, words, &operation);
    answer.map_or_else(Refusal::number, |_| 0)
}

fn not_well_formed() -> World {
    let mut w = World::fresh();
    w.tables.harts[0].state = 7;
    w
}

#[test]
fn h1_comes_before_h4() {
    assert_eq!(refusal(&not_well_formed(), 0, status_call(0)), 1);
}

#[test]
fn h1_comes_before_h2_h3_h5_and_h6() {
    let w = not_well_formed();
    assert_eq!(refusal(&w, 640, status_call(200)), 1);
    assert_eq!(refusal(&w, 640, status_call(1)), 1);
    assert_eq!(refusal(&w, 640, Operation::Done { hart: 1 }), 1);
    assert_eq!(refusal(&w, 0, Operation::Event { hart: 0, code: 6 }), 1);
}

#[test]
fn h4_for_calls_completions_and_wakes_under_640_words() {
    let mut w = World::fresh();
    w.set_state(1, State::StartPending);
    w.set_state(2, State::Suspended);
    for words in [0, 5, 639] {
        assert_eq!(refusal(&w, words, status_call(0)), 4);
        assert_eq!(refusal(&w, words, call(0, EID_BASE, 0, &[])), 4);
        assert_eq!(refusal(&w, words, call(0, 0, 0, &[])), 4);
        assert_eq!(refusal(&w, words, Operation::Done { hart: 1 }), 4);
        assert_eq!(refusal(&w, words, Operation::Wake { hart: 2 }), 4);
    }
    for words in [640, 641, 100_000] {
        assert_eq!(refusal(&w, words, status_call(0)), 0);
        assert_eq!(refusal(&w, words, Operation::Done { hart: 1 }), 0);
        assert_eq!(refusal(&w, words, Operation::Wake { hart: 2 }), 0);
    }
}

#[test]
fn h4_comes_before_h2_h3_and_h5() {
    let w = World::fresh();
    assert_eq!(refusal(&w, 639, status_call(4)), 4);
    assert_eq!(refusal(&w, 639, status_call(1)), 4);
    assert_eq!(refusal(&w, 639, Operation::Done { hart: 0 }), 4);
    assert_eq!(refusal(&w, 639, Operation::Wake { hart: 128 }), 4);
}

#[test]
fn an_event_has_no_h4() {
    let w = World::fresh();
    assert_eq!(refusal(&w, 0, Operation::Event { hart: 0, code: 0 }), 0);
    assert_eq!(refusal(&w, 0, Operation::Event { hart: 4, code: 0 }), 2);
    assert_eq!(refusal(&w, 0, Operation::Event { hart: 0, code: 6 }), 6);
}

#[test]
fn h2_if_the_hart_number_is_not_enabled_or_is_over_127() {
    for hart in [4, 5, 127, 128, 255, 256, 1 << 32, 1 << 63, TOP] {
        let mut w = World::fresh();
        assert_eq!(w.refusal(status_call(hart)), 2);
        assert_eq!(w.refusal(Operation::Done { hart }), 2);
        assert_eq!(w.refusal(Operation::Wake { hart }), 2);
        assert_eq!(w.refusal(Operation::Event { hart, code: 0 }), 2);
    }
}

#[test]
fn h2_comes_before_h3_h5_and_h6() {
    let mut w = World::fresh();
    assert_eq!(w.refusal(Operation::Event { hart: 4, code: 6 }), 2);
    assert_eq!(w.refusal(Operation::Done { hart: 4 }), 2);
    assert_eq!(w.refusal(status_call(4)), 2);
}

#[test]
fn h3_for_a_call_from_a_hart_not_started() {
    for state in State::ALL {
        let mut w = World::fresh().with_state(1, state);
        let expected = if state == State::Started { 0 } else { 3 };
        assert_eq!(w.refusal(status_call(1)), expected, "{state:?}");
    }
}

#[test]
fn h3_comes_before_every_error_pair() {
    let mut w = World::fresh();
    assert_eq!(w.refusal(call(1, 0, 0, &[])), 3);
    assert_eq!(w.refusal(call(1, EID_HSM, 2, &[99])), 3);
}

#[test]
fn h5_for_a_completion_that_the_state_does_not_allow() {
    for state in [State::Started, State::Stopped, State::Suspended] {
        let mut w = World::fresh().with_state(1, state);
        assert_eq!(w.refusal(Operation::Done { hart: 1 }), 5, "{state:?}");
    }
}

#[test]
fn h5_for_a_wake_that_the_state_does_not_allow() {
    for state in State::ALL {
        let mut w = World::fresh().with_state(1, state);
        let expected = if state == State::Suspended { 0 } else { 5 };
        assert_eq!(w.refusal(Operation::Wake { hart: 1 }), expected);
    }
}

#[test]
fn h6_for_a_reported_code_over_5() {
    for code in 0..6 {
        let mut w = World::fresh();
        assert_eq!(w.refusal(Operation::Event { hart: 0, code }), 0);
    }
    for code in [6, 7, 21, 22, 0xF0000, 1 << 32, 1 << 63, TOP] {
        let mut w = World::fresh();
        assert_eq!(w.refusal(Operation::Event { hart: 0, code }), 6);
    }
}

#[test]
fn an_event_is_counted_in_every_state() {
    for state in State::ALL {
        let mut w = World::fresh().with_state(1, state);
        w.run_counter(1, 0, 5, 7);
        w.event(1, 5);
        assert_eq!(w.value(1, 0), 8);
        assert_eq!(w.state(1), Some(state));
    }
}

#[test]
fn every_host_refusal_leaves_tables_and_action_memory_unaltered() {
    let operations = [
        status_call(4),
        call(1, EID_HSM, 1, &[]),
        Operation::Done { hart: 0 },
        Operation::Wake { hart: 0 },
        Operation::Event { hart: 0, code: 6 },
    ];
    for operation in operations {
        let mut w = World::fresh();
        w.run_counter(0, 0, 6, 5);
        let before = w.tables.clone();
        let mut memory = vec![0xAA; 700];
        let (answer, front) = answer_in_place(&w.platform, &mut w.tables, &mut memory, &operation);
        assert!(answer.is_err() && front.is_empty());
        assert!(w.tables == before && memory == vec![0xAA; 700]);
    }
}

#[test]
fn every_error_pair_leaves_tables_and_action_memory_unaltered() {
    let mut w = World::running();
    w.run_counter(0, 0, 6, 5);
    w.set_counter(0, 1, Some(6), false, 5);
    let refused = [
        call(0, EID_PMU, 7, &[]),
        call(0, EID_IPI, 0, &[0x1F, 0]),
        call(0, EID_RFENCE, 1, &[1, 0, TOP, 2]),
        call(0, EID_HSM, 0, &[1, GOOD, 0]),
        call(0, EID_HSM, 3, &[0x8000_0000, 1, 0]),
        call(0, EID_PMU, 2, &[0, 0, 6, EVENTS, 0]),
        call(0, EID_PMU, 3, &[0, 3, 1, 9]),
        call(0, EID_PMU, 4, &[0, 3, 1]),
        call(0, EID_PMU, 4, &[0, 1, 2]),
    ];
    for operation in refused {
        let before = w.tables.clone();
        let mut memory = vec![0xAA; 640];
        let (answer, front) = answer_in_place(&w.platform, &mut w.tables, &mut memory, &operation);
        assert!(front.is_empty());
        let answer = answer.expect("the host is not refused");
        assert!(answer.error < 0 && answer.value == 0 && !answer.parked);
        assert!(w.tables == before && memory == vec![0xAA; 640]);
    }
}

#[test]
fn the_filled_front_part_comes_back_and_words_after_it_keep_their_contents() {
    let mut w = World::running();
    let mut memory: Vec<u64> = (1000..1700).collect();
    let interrupt = call(0, EID_IPI, 0, &[0b1010, 0]);
    let (_, front) = answer_in_place(&w.platform, &mut w.tables, &mut memory, &interrupt);
    assert_eq!(front, [1, 2, 0, 0, 0, 3, 2, 0, 0, 0]);
    let after: Vec<u64> = (1010..1700).collect();
    assert_eq!(memory[10..], after);
}

#[test]
fn all_128_harts_fill_640_words() {
    let all: Vec<u64> = (0..128).collect();
    let mut w = World::of(harts(&all)).all_running();
    let mut memory = vec![7; 640];
    let interrupt = call(5, EID_IPI, 0, &[0, TOP]);
    let (_, front) = answer_in_place(&w.platform, &mut w.tables, &mut memory, &interrupt);
    assert_eq!(front.len(), 640);
    assert_eq!(front[635..], [127, 2, 0, 0, 0]);
}

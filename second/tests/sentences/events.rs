//! "An event adds one": reported events, sent and received ones, and whose counters matter.

use super::world::*;
use second::generate::Rng;
use second::numbers::*;
use second::{Operation, State};

/// Sent codes of fences FID 0 to 6.
const SENT: [u64; 7] = [8, 10, 12, 16, 14, 20, 18];

/// Every hart STARTED with counters 0 and 1 running on two codes.
fn counting(first: u64, second: u64) -> World {
    let mut w = World::running();
    for hart in 0..4 {
        w.run_counter(hart, 0, first, 0);
        w.run_counter(hart, 1, second, 0);
    }
    w
}

/// The values of a counter on harts 0 to 3.
fn values(w: &World, counter: usize) -> [u64; 4] {
    [0, 1, 2, 3].map(|hart| w.value(hart, counter))
}

#[test]
fn a_reported_event_adds_one_on_that_hart() {
    for code in 0..6 {
        let mut w = counting(code, (code + 1) % 6);
        w.event(2, code);
        assert_eq!(values(&w, 0), [0, 0, 1, 0]);
        assert_eq!(values(&w, 1), [0, 0, 0, 0]);
    }
}

#[test]
fn an_event_adds_one_to_every_running_counter_mapped_to_its_code() {
    let mut w = World::fresh();
    for counter in 0..8 {
        w.run_counter(0, counter, 3, counter as u64);
    }
    w.set_counter(0, 5, Some(3), false, 5);
    w.set_counter(0, 6, None, false, 6);
    w.event(0, 3);
    let values: Vec<u64> = (0..8).map(|c| w.value(0, c)).collect();
    assert_eq!(values, [1, 2, 3, 4, 5, 5, 6, 8]);
}

#[test]
fn an_event_goes_from_2_to_64_minus_1_to_0() {
    let mut w = World::fresh();
    w.run_counter(0, 0, 3, TOP);
    w.event(0, 3);
    assert_eq!(w.pmu(5, &[0]), (0, 0));
}

#[test]
fn an_interrupt_is_sent_code_6_and_received_code_7() {
    let mut w = counting(6, 7);
    assert_eq!(w.interrupt(0b1110, 0), Ok(vec![1, 2, 3]));
    assert_eq!(values(&w, 0), [3, 0, 0, 0]);
    assert_eq!(values(&w, 1), [0, 1, 1, 1]);
}

#[test]
fn fences_are_sent_codes_8_10_12_16_14_20_18_and_received_plus_1() {
    for (fid, sent) in (0..).zip(SENT) {
        for code in 0..22 {
            let mut w = counting(code, code);
            w.fence(fid, &[0b0110, 0, 0, 0, 0]).expect("accepted");
            let mut expected = [0; 4];
            if code == sent {
                expected = [2, 0, 0, 0];
            } else if code == sent + 1 {
                expected = [0, 1, 1, 0];
            }
            assert_eq!(values(&w, 0), expected, "FID {fid}, code {code}");
            assert_eq!(values(&w, 1), expected);
        }
    }
}

#[test]
fn sent_codes_are_not_counted_in_fid_order() {
    let mut w = counting(14, 16);
    w.fence(3, &[0b10, 0, 0, 0, 0]).expect("accepted");
    assert_eq!((w.value(0, 0), w.value(0, 1)), (0, 1));
}

#[test]
fn the_caller_in_its_own_selection_has_no_event() {
    let mut w = counting(6, 7);
    assert_eq!(w.interrupt(0b0001, 0), Ok(vec![0]));
    assert_eq!(values(&w, 0), [0; 4]);
    assert_eq!(values(&w, 1), [0; 4]);
}

#[test]
fn a_hart_that_is_not_reached_has_no_event_and_is_none() {
    for state in [State::Stopped, State::StopPending] {
        let mut w = counting(6, 7).with_state(2, state);
        w.interrupt(0b1111, 0).expect("accepted");
        assert_eq!(values(&w, 0), [2, 0, 0, 0]);
        assert_eq!(values(&w, 1), [0, 1, 0, 1]);
    }
}

#[test]
fn a_sleeper_and_a_pending_hart_have_their_received_event() {
    for state in [
        State::StartPending,
        State::Suspended,
        State::SuspendPending,
        State::ResumePending,
    ] {
        let mut w = counting(6, 7).with_state(2, state);
        w.interrupt(0b0100, 0).expect("accepted");
        assert_eq!(values(&w, 0), [1, 0, 0, 0]);
        assert_eq!(values(&w, 1), [0, 0, 1, 0]);
    }
}

#[test]
fn sent_events_of_one_call_go_over_the_top() {
    let mut w = World::running();
    w.run_counter(0, 0, 6, TOP - 1);
    w.interrupt(0b1110, 0).expect("accepted");
    assert_eq!(w.value(0, 0), 1);
}

#[test]
fn a_refused_call_has_no_event() {
    let mut w = counting(10, 11);
    assert_eq!(w.fence(1, &[0b1110, 0, TOP, 2]), Err(-5));
    assert_eq!(w.fence(1, &[0b11110, 0, 0, 0]), Err(-3));
    assert_eq!(values(&w, 0), [0; 4]);
    assert_eq!(values(&w, 1), [0; 4]);
}

#[test]
fn nobody_selected_is_no_event() {
    let mut w = counting(6, 7);
    assert_eq!(w.interrupt(0, 0), Ok(vec![]));
    assert_eq!(values(&w, 0), [0; 4]);
}

#[test]
fn no_other_call_completion_or_wake_counts() {
    let mut w = World::running();
    for code in 0..22 {
        w.set_state(3, State::Stopped);
        w.set_state(2, State::Suspended);
        w.run_counter(0, 0, code, 5);
        w.run_counter(2, 0, code, 5);
        w.run_counter(3, 0, code, 5);
        w.hsm(0, 0, &[3, GOOD, 0]);
        w.done(3);
        w.wake(2);
        w.done(2);
        w.pmu(5, &[0]);
        assert_eq!(values(&w, 0), [5, 0, 5, 5], "code {code}");
    }
}

#[test]
fn other_harts_counters_change_neither_pair_nor_states_nor_actions() {
    let mut rng = Rng::new(7);
    for _ in 0..400 {
        let mut one = World::running();
        let mut other = World::running();
        for hart in 0..4 {
            let state = rng.pick(&State::ALL);
            if hart > 0 {
                one.set_state(hart, state);
                other.set_state(hart, state);
                let counter = rng.below(8);
                one.run_counter(hart, counter, rng.below(22) as u64, rng.bits());
                other.set_counter(hart, counter, None, false, rng.bits());
            }
        }
        let (eid, fid) = rng.pick(&[
            (EID_IPI, 0),
            (EID_RFENCE, 1),
            (EID_RFENCE, 5),
            (EID_HSM, 0),
            (EID_HSM, 3),
            (EID_PMU, 2),
        ]);
        let arguments = [rng.below(16) as u64, 0, 0, EVENTS, 0];
        let operation = call(0, eid, fid, &arguments);
        assert_eq!(one.ask(operation), other.ask(operation));
        for hart in 0..4 {
            assert_eq!(one.state(hart), other.state(hart));
        }
    }
}

#[test]
fn an_event_answers_0_0_and_no_action() {
    let mut w = World::fresh();
    let answer = w.ask(Operation::Event { hart: 1, code: 5 }).unwrap();
    assert_eq!((answer.error, answer.value), (0, 0));
    assert!(answer.actions.is_empty() && !answer.parked);
}

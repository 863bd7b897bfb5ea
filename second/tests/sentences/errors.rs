//! The table of errors: each row and its register value.

use super::world::*;
use second::numbers::*;
use second::{Answer, Error, State};

#[test]
fn minus_3_stands_in_the_register_as_18446744073709551613() {
    let mut w = World::fresh();
    let answer = w.call(0, EID_HSM, 2, &[4]);
    assert_eq!(answer.error, -3);
    assert_eq!(answer.a0(), 18446744073709551613);
}

#[test]
fn every_error_has_its_number_and_register_value() {
    let numbers = [
        (Error::NotSupported, -2, 18446744073709551614),
        (Error::InvalidParam, -3, 18446744073709551613),
        (Error::InvalidAddress, -5, 18446744073709551611),
        (Error::AlreadyAvailable, -6, 18446744073709551610),
        (Error::AlreadyStarted, -7, 18446744073709551609),
        (Error::AlreadyStopped, -8, 18446744073709551608),
        (Error::NoSharedMemory, -9, 18446744073709551607),
    ];
    for (error, number, register) in numbers {
        assert_eq!(error.number(), number);
        let answer = Answer {
            error: error.number(),
            value: 0,
            parked: false,
            actions: Vec::new(),
        };
        assert_eq!(answer.a0(), register);
    }
}

#[test]
fn error_0_accepted() {
    assert_eq!(World::fresh().hsm(0, 2, &[0]), (0, 0));
}

#[test]
fn minus_2_unknown_eid_or_fid() {
    assert_eq!(World::fresh().pair(0, 9, 0, &[]), (-2, 0));
    assert_eq!(World::fresh().pair(0, EID_HSM, 4, &[]), (-2, 0));
}

#[test]
fn minus_2_event_not_to_be_had() {
    assert_eq!(World::fresh().pmu(2, &[0, 1, 0, 1, 0]), (-2, 0));
}

#[test]
fn minus_2_counter_match_not_to_be_had() {
    let mut w = World::fresh();
    w.run_counter(0, 3, 0, 0);
    assert_eq!(w.pmu(2, &[3, 1, 0, EVENTS, 0]), (-2, 0));
}

#[test]
fn minus_2_hfence_to_a_hart_without_the_hypervisor_extension() {
    let mut w = World::fresh();
    w.platform.hypervisor = 0b1011;
    for fid in 3..7 {
        assert_eq!(w.fence(fid, &[4, 0, 0, 0, 0]), Err(-2));
    }
}

#[test]
fn minus_3_invalid_hart() {
    assert_eq!(World::fresh().hsm(0, 0, &[4, GOOD, 0]), (-3, 0));
    assert_eq!(World::fresh().hsm(0, 2, &[4]), (-3, 0));
    assert_eq!(World::fresh().interrupt(0x10, 0), Err(-3));
}

#[test]
fn minus_3_invalid_counter() {
    assert_eq!(World::fresh().pmu(1, &[8]), (-3, 0));
    assert_eq!(World::fresh().pmu(2, &[8, 1, 0, EVENTS, 0]), (-3, 0));
    assert_eq!(World::fresh().pmu(5, &[8]), (-3, 0));
}

#[test]
fn minus_3_invalid_flag() {
    assert_eq!(World::fresh().pmu(2, &[0, 1, 256, EVENTS, 0]), (-3, 0));
    assert_eq!(World::fresh().pmu(3, &[0, 0, 4, 0]), (-3, 0));
    assert_eq!(World::fresh().pmu(4, &[0, 0, 4]), (-3, 0));
}

#[test]
fn minus_3_invalid_suspend_type() {
    assert_eq!(World::fresh().hsm(0, 3, &[1, GOOD, 0]), (-3, 0));
}

#[test]
fn minus_3_invalid_asid_or_vmid() {
    assert_eq!(World::fresh().fence(2, &[1, 0, 0, 0, 65536]), Err(-3));
    assert_eq!(World::fresh().fence(3, &[1, 0, 0, 0, 16384]), Err(-3));
    assert_eq!(World::fresh().fence(5, &[1, 0, 0, 0, 65536]), Err(-3));
}

#[test]
fn minus_3_event_data_not_zero() {
    assert_eq!(World::fresh().pmu(2, &[0, 1, 0, EVENTS, 1]), (-3, 0));
}

#[test]
fn minus_5_address_or_range_not_valid() {
    assert_eq!(World::fresh().hsm(0, 0, &[1, 0, 0]), (-5, 0));
    assert_eq!(World::fresh().hsm(0, 3, &[0x8000_0000, 0, 0]), (-5, 0));
    assert_eq!(World::fresh().fence(1, &[1, 0, 4096, TOP - 1]), Err(-5));
}

#[test]
fn minus_6_start_of_a_hart_not_stopped() {
    for state in State::ALL {
        let mut w = World::fresh().with_state(1, state);
        let expected = if state == State::Stopped { 0 } else { -6 };
        assert_eq!(w.hsm(0, 0, &[1, GOOD, 0]), (expected, 0), "{state:?}");
    }
}

#[test]
fn minus_7_start_set_holds_a_running_counter() {
    let mut w = World::fresh();
    w.run_counter(0, 0, 0, 0);
    w.set_counter(0, 1, Some(0), false, 0);
    assert_eq!(w.pmu(3, &[0, 3, 0, 0]), (-7, 0));
}

#[test]
fn minus_8_stop_set_holds_a_counter_not_running() {
    let mut w = World::fresh();
    w.run_counter(0, 0, 0, 0);
    w.set_counter(0, 1, Some(0), false, 0);
    assert_eq!(w.pmu(4, &[0, 3, 0]), (-8, 0));
}

#[test]
fn minus_9_snapshot_flag_with_no_shared_memory() {
    let mut w = World::fresh();
    w.set_counter(0, 0, Some(0), false, 0);
    assert_eq!(w.pmu(3, &[0, 1, 2, 0]), (-9, 0));
    assert_eq!(w.pmu(4, &[0, 1, 2]), (-9, 0));
}

#[test]
fn a1_is_0_on_success_where_no_value_is_named() {
    let mut w = World::running();
    w.set_state(3, State::Stopped);
    w.set_counter(0, 0, Some(0), false, 9);
    assert_eq!(w.hsm(0, 0, &[3, GOOD, 77]), (0, 0));
    assert_eq!(w.pair(0, EID_IPI, 0, &[1, 0, 77]), (0, 0));
    assert_eq!(w.pair(0, EID_RFENCE, 2, &[1, 0, 4096, 4096, 5]), (0, 0));
    assert_eq!(w.pmu(3, &[0, 1, 1, 77]), (0, 0));
    assert_eq!(w.pmu(4, &[0, 1, 0]), (0, 0));
    assert_eq!(w.hsm(2, 1, &[77, 77]), (0, 0));
    assert_eq!(w.hsm(1, 3, &[0, 77, 77]), (0, 0));
}

//! "Counters": start, stop and read.

use super::world::*;
use second::numbers::*;
use second::{RawCounter, State};

fn counter(event: Option<u64>, running: bool, value: u64) -> RawCounter {
    RawCounter {
        event,
        running,
        value,
    }
}

#[test]
fn start_checks_flags_counters_unmapped_snapshot_running_in_order() {
    let mut w = World::fresh();
    w.run_counter(0, 0, 0, 0);
    assert_eq!(w.pmu(3, &[8, 1, 4, 0]), (-3, 0));
    assert_eq!(w.pmu(3, &[8, 1, 2, 0]), (-3, 0));
    assert_eq!(w.pmu(3, &[0, 0b11, 2, 0]), (-3, 0));
    assert_eq!(w.pmu(3, &[0, 0b11, 0, 0]), (-3, 0));
    assert_eq!(w.pmu(3, &[0, 0b01, 2, 0]), (-9, 0));
    assert_eq!(w.pmu(3, &[0, 0b01, 3, 0]), (-9, 0));
    assert_eq!(w.pmu(3, &[0, 0b01, 0, 0]), (-7, 0));
}

#[test]
fn start_refuses_flags_above_bit_1() {
    for bit in 2..64 {
        assert_eq!(World::fresh().pmu(3, &[0, 0, 1 << bit, 0]), (-3, 0));
        assert_eq!(World::fresh().pmu(4, &[0, 0, 1 << bit]), (-3, 0));
    }
}

#[test]
fn start_is_all_or_none() {
    let mut w = World::fresh();
    w.set_counter(0, 0, Some(0), false, 1);
    w.run_counter(0, 1, 0, 2);
    let before = w.tables.clone();
    assert_eq!(w.pmu(3, &[0, 3, 1, 99]), (-7, 0));
    assert_eq!(w.tables, before);
    w.set_counter(0, 2, None, false, 3);
    let before = w.tables.clone();
    assert_eq!(w.pmu(3, &[0, 5, 1, 99]), (-3, 0));
    assert_eq!(w.tables, before);
}

#[test]
fn bit_0_of_start_loads_a3_into_every_counter_of_the_set() {
    let mut w = World::fresh();
    w.set_counter(0, 0, Some(0), false, 1);
    w.set_counter(0, 5, Some(1), false, 2);
    assert_eq!(w.pmu(3, &[0, 0b100001, 1, 99]), (0, 0));
    assert_eq!(w.counter(0, 0), counter(Some(0), true, 99));
    assert_eq!(w.counter(0, 5), counter(Some(1), true, 99));
}

#[test]
fn start_without_bit_0_keeps_the_value() {
    let mut w = World::fresh();
    w.set_counter(0, 0, Some(0), false, 1);
    assert_eq!(w.pmu(3, &[0, 1, 0, 99]), (0, 0));
    assert_eq!(w.counter(0, 0), counter(Some(0), true, 1));
}

#[test]
fn stop_checks_flags_counters_snapshot_not_running_in_order() {
    let mut w = World::fresh();
    assert_eq!(w.pmu(4, &[8, 1, 4]), (-3, 0));
    assert_eq!(w.pmu(4, &[8, 1, 2]), (-3, 0));
    assert_eq!(w.pmu(4, &[0, 1, 2]), (-9, 0));
    assert_eq!(w.pmu(4, &[0, 1, 3]), (-9, 0));
    assert_eq!(w.pmu(4, &[0, 1, 1]), (-8, 0));
}

#[test]
fn stopping_an_unmapped_counter_is_minus_8_never_minus_3() {
    assert_eq!(World::fresh().pmu(4, &[0, 0xFF, 0]), (-8, 0));
}

#[test]
fn stop_is_all_or_none() {
    let mut w = World::fresh();
    w.run_counter(0, 0, 0, 1);
    w.set_counter(0, 1, Some(0), false, 2);
    let before = w.tables.clone();
    assert_eq!(w.pmu(4, &[0, 3, 0]), (-8, 0));
    assert_eq!(w.pmu(4, &[0, 3, 1]), (-8, 0));
    assert_eq!(w.tables, before);
}

#[test]
fn bit_0_of_stop_also_unmaps_and_the_value_stays() {
    let mut w = World::fresh();
    w.run_counter(0, 0, 4, 17);
    w.run_counter(0, 7, 4, 18);
    assert_eq!(w.pmu(4, &[0, 0x81, 1]), (0, 0));
    assert_eq!(w.counter(0, 0), counter(None, false, 17));
    assert_eq!(w.counter(0, 7), counter(None, false, 18));
}

#[test]
fn stop_without_bit_0_keeps_the_mapping() {
    let mut w = World::fresh();
    w.run_counter(0, 0, 4, 17);
    assert_eq!(w.pmu(4, &[0, 1, 0]), (0, 0));
    assert_eq!(w.counter(0, 0), counter(Some(4), false, 17));
}

#[test]
fn a_value_kept_by_an_unmapping_stop_shows_again_when_mapped() {
    let mut w = World::fresh();
    w.run_counter(0, 0, 4, 17);
    assert_eq!(w.pmu(4, &[0, 1, 1]), (0, 0));
    assert_eq!(w.pmu(5, &[0]), (-3, 0));
    assert_eq!(w.pmu(2, &[0, 1, 0, EVENTS, 0]), (0, 0));
    assert_eq!(w.pmu(5, &[0]), (0, 17));
}

#[test]
fn start_and_stop_of_an_empty_set_succeed_unless_an_earlier_check_refuses() {
    let mut w = World::fresh();
    for flags in [0, 1] {
        assert_eq!(w.pmu(3, &[0, 0, flags, 5]), (0, 0));
        assert_eq!(w.pmu(4, &[0, 0, flags]), (0, 0));
    }
    for flags in [2, 3] {
        assert_eq!(w.pmu(3, &[0, 0, flags, 5]), (-9, 0));
        assert_eq!(w.pmu(4, &[0, 0, flags]), (-9, 0));
    }
}

#[test]
fn read_gives_the_value_of_a_mapped_counter() {
    let mut w = World::fresh();
    w.set_counter(0, 3, Some(0), false, TOP);
    w.run_counter(0, 4, 0, 5);
    assert_eq!(w.pmu(5, &[3]), (0, TOP));
    assert_eq!(w.pmu(5, &[4]), (0, 5));
}

#[test]
fn read_over_7_or_unmapped_is_minus_3_never_a_zero() {
    let mut w = World::fresh();
    for number in [0, 7, 8, 9, 1 << 32, 1 << 63, TOP] {
        assert_eq!(w.pmu(5, &[number]), (-3, 0));
        assert_eq!(w.pmu(6, &[number]), (-3, 0));
    }
}

#[test]
fn high_read_gives_0() {
    let mut w = World::fresh();
    w.set_counter(0, 3, Some(0), false, TOP);
    assert_eq!(w.pmu(6, &[3]), (0, 0));
    assert_eq!(w.pmu(6, &[3 | 1 << 32]), (-3, 0));
}

#[test]
fn counter_calls_give_no_action_and_alter_no_state() {
    let mut w = World::running();
    for (fid, arguments) in [
        (2, vec![0, 1, 0, EVENTS + 6, 0]),
        (3, vec![0, 1, 1, 5]),
        (5, vec![0]),
        (6, vec![0]),
        (4, vec![0, 1, 1]),
    ] {
        let answer = w.call(0, EID_PMU, fid, &arguments);
        assert!(answer.error == 0 && answer.actions.is_empty() && !answer.parked);
        assert_eq!(w.state(0), Some(State::Started));
    }
}

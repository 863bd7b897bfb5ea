//! "Counters": their number, sets of them, and configure.

use super::world::*;
use second::numbers::*;
use second::RawCounter;

const SKIP: u64 = 1;
const CLEAR: u64 = 2;
const RUN: u64 = 4;

fn counter(event: Option<u64>, running: bool, value: u64) -> RawCounter {
    RawCounter {
        event,
        running,
        value,
    }
}

#[test]
fn number_of_counters_is_8() {
    assert_eq!(World::fresh().pmu(0, &[TOP; 6]), (0, 8));
}

#[test]
fn details_are_2_to_63_for_counters_0_to_7_else_minus_3() {
    let mut w = World::fresh();
    for number in 0..8 {
        assert_eq!(w.pmu(1, &[number]), (0, 9223372036854775808));
    }
    for number in [8, 64, 1 << 32, TOP] {
        assert_eq!(w.pmu(1, &[number]), (-3, 0));
    }
}

#[test]
fn bit_i_is_counter_base_plus_i() {
    for base in 0..8u64 {
        for bit in 0..8 - base {
            let mut w = World::fresh();
            let chosen = w.pmu(2, &[base, 1 << bit, 0, EVENTS, 0]);
            assert_eq!(chosen, (0, base + bit));
        }
    }
}

#[test]
fn numbers_over_7_are_minus_3() {
    for (base, mask) in [
        (8, 1),
        (0, 0x100),
        (7, 3),
        (1, 0x80),
        (0, TOP),
        (1 << 32, 1),
    ] {
        let mut w = World::fresh();
        assert_eq!(w.pmu(2, &[base, mask, 0, EVENTS, 0]), (-3, 0));
        assert_eq!(w.pmu(3, &[base, mask, 0, 0]), (-3, 0));
        assert_eq!(w.pmu(4, &[base, mask, 0]), (-3, 0));
    }
}

#[test]
fn a_sum_of_base_and_bit_does_not_wrap_to_counter_0() {
    for below in 1..64u64 {
        let base = 0u64.wrapping_sub(below);
        assert_eq!(World::fresh().pmu(3, &[base, 1 << below, 0, 0]), (-3, 0));
    }
}

#[test]
fn base_2_to_64_minus_1_has_no_special_meaning() {
    let mut w = World::fresh();
    assert_eq!(w.pmu(2, &[TOP, 1, 0, EVENTS, 0]), (-3, 0));
    assert_eq!(w.pmu(2, &[TOP, 0, 0, EVENTS, 0]), (-2, 0));
    assert_eq!(w.pmu(3, &[TOP, 0, 0, 0]), (0, 0));
    assert_eq!(w.pmu(4, &[TOP, 0, 0]), (0, 0));
}

#[test]
fn a_counter_base_is_not_refused_if_the_mask_is_0() {
    for base in [8, 500, 1 << 63, TOP] {
        assert_eq!(World::fresh().pmu(3, &[base, 0, 0, 0]), (0, 0));
    }
}

#[test]
fn counter_calls_act_on_the_callers_own_eight() {
    let mut w = World::running();
    let before = w.tables.clone();
    assert_eq!(w.pair(2, EID_PMU, 2, &[0, 1, RUN, EVENTS + 3, 0]), (0, 0));
    assert_eq!(w.counter(2, 0), counter(Some(3), true, 0));
    assert_eq!(w.pair(1, EID_PMU, 5, &[0]), (-3, 0));
    assert_eq!(w.pair(1, EID_PMU, 4, &[0, 1, 0]), (-8, 0));
    for hart in [0, 1, 3] {
        assert_eq!(w.tables.harts[hart], before.harts[hart]);
    }
}

#[test]
fn configure_flags_above_bit_7_come_first() {
    for bit in 8..64 {
        let mut w = World::fresh();
        let refused = w.pmu(2, &[8, 1, 1 << bit, 0, 1]);
        assert_eq!(refused, (-3, 0));
        assert_eq!(w.pmu(2, &[0, 1, 1 << bit, EVENTS, 0]), (-3, 0));
    }
}

#[test]
fn configure_checks_counters_before_the_event() {
    assert_eq!(World::fresh().pmu(2, &[8, 1, 0, 0, 0]), (-3, 0));
}

#[test]
fn configure_checks_the_event_before_its_data() {
    assert_eq!(World::fresh().pmu(2, &[0, 1, 0, 0, 1]), (-2, 0));
}

#[test]
fn configure_checks_event_data_before_the_match() {
    assert_eq!(World::fresh().pmu(2, &[0, 0, 0, EVENTS, 1]), (-3, 0));
    assert_eq!(World::fresh().pmu(2, &[0, 0, 0, EVENTS, 1 << 63]), (-3, 0));
    assert_eq!(World::fresh().pmu(2, &[0, 0, 0, EVENTS, 0]), (-2, 0));
}

#[test]
fn events_0xf0000_to_0xf0015_only() {
    for code in 0..22 {
        let mut w = World::fresh();
        assert_eq!(w.pmu(2, &[0, 1, 0, EVENTS + code, 0]), (0, 0));
        assert_eq!(w.counter(0, 0).event, Some(code));
    }
    let others = [
        0,
        1,
        6,
        0x10000,
        0x20000,
        0x30000,
        0xEFFFF,
        0xF0016,
        0xF00FF,
        0xF0100,
        0xFFFFF,
        0x1F0000,
        0xF0000 | 1 << 32,
        0xF0006 | 1 << 63,
        TOP,
    ];
    for index in others {
        assert_eq!(World::fresh().pmu(2, &[0, 1, 0, index, 0]), (-2, 0));
        assert_eq!(World::fresh().pmu(2, &[0, 1, SKIP, index, 0]), (-2, 0));
    }
}

#[test]
fn chosen_is_the_lowest_of_the_set_that_is_not_running() {
    let mut w = World::fresh();
    w.run_counter(0, 1, 0, 0);
    w.set_counter(0, 3, Some(5), false, 8);
    assert_eq!(w.pmu(2, &[0, 0b11010, 0, EVENTS + 9, 0]), (0, 3));
    assert_eq!(w.counter(0, 3), counter(Some(9), false, 8));
    assert_eq!(w.pmu(2, &[1, 0b1, 0, EVENTS, 0]), (-2, 0));
}

#[test]
fn with_skip_the_lowest_of_the_set_is_chosen_running_or_not() {
    let mut w = World::fresh();
    w.run_counter(0, 1, 0, 40);
    assert_eq!(w.pmu(2, &[1, 0b11, SKIP, EVENTS + 9, 0]), (0, 1));
    assert_eq!(w.counter(0, 1), counter(Some(9), true, 40));
    assert_eq!(w.pmu(2, &[1, 0b11, SKIP | CLEAR, EVENTS + 8, 0]), (0, 1));
    assert_eq!(w.counter(0, 1), counter(Some(8), true, 0));
    assert_eq!(w.pmu(2, &[1, 0b11, SKIP | RUN, EVENTS + 7, 0]), (0, 1));
    assert_eq!(w.counter(0, 1), counter(Some(7), true, 0));
}

#[test]
fn bit_1_clears_the_value_and_bit_2_sets_running() {
    for flags in 0..8 {
        let mut w = World::fresh();
        w.set_counter(0, 2, Some(1), false, 33);
        assert_eq!(w.pmu(2, &[2, 1, flags, EVENTS + 4, 0]), (0, 2));
        let value = if flags & CLEAR != 0 { 0 } else { 33 };
        let expected = counter(Some(4), flags & RUN != 0, value);
        assert_eq!(w.counter(0, 2), expected, "flags {flags}");
    }
}

#[test]
fn bits_3_to_7_are_hints_ignored() {
    for hints in (8..256).step_by(8) {
        for flags in 0..8 {
            let (mut with, mut without) = (World::fresh(), World::fresh());
            let a = with.pmu(2, &[0, 3, flags | hints, EVENTS + 4, 0]);
            let b = without.pmu(2, &[0, 3, flags, EVENTS + 4, 0]);
            assert!(a == b && with.tables == without.tables);
        }
    }
}

#[test]
fn configure_of_an_empty_set_gives_minus_2() {
    for flags in [0, SKIP, SKIP | RUN, 0xFF] {
        assert_eq!(World::fresh().pmu(2, &[0, 0, flags, EVENTS, 0]), (-2, 0));
    }
}

#[test]
fn configure_without_a_counter_that_is_not_running_gives_minus_2() {
    let mut w = World::fresh();
    for c in 0..8 {
        w.run_counter(0, c, 0, 0);
    }
    assert_eq!(w.pmu(2, &[0, 0xFF, 0, EVENTS, 0]), (-2, 0));
    assert_eq!(w.pmu(2, &[0, 0xFF, SKIP, EVENTS, 0]), (0, 0));
}

//! Start, stop, status and suspend: their checks in order, and what an address must be.

use super::world::*;
use second::numbers::*;
use second::{RawPlatform, State};

const NON_RETENTIVE: u64 = 0x8000_0000;

fn with_ranges(ranges: &[(u64, u64)]) -> World {
    let mut platform = four_harts();
    platform.range_count = ranges.len() as u64;
    platform.ranges[..ranges.len()].copy_from_slice(ranges);
    World::of(platform)
}

/// The error of a start of hart 1 at the address.
fn start_at(w: &World, address: u64) -> i64 {
    w.clone().hsm(0, 0, &[1, address, 0]).0
}

#[test]
fn an_accepted_start_gives_one_action_of_kind_1_for_its_target() {
    let mut w = World::fresh();
    let actions = w.actions(EID_HSM, 0, &[3, GOOD, 0xABCD]);
    assert_eq!(actions, [[3, 1, GOOD, 0xABCD, 0]]);
    assert_eq!(w.state(3), Some(State::StartPending));
}

#[test]
fn start_checks_the_hart_before_its_state_and_the_address() {
    let mut w = World::fresh();
    assert_eq!(w.hsm(0, 0, &[4, 1, 0]), (-3, 0));
    assert_eq!(w.hsm(0, 0, &[TOP, 1, 0]), (-3, 0));
}

#[test]
fn start_checks_the_state_before_the_address() {
    let mut w = World::fresh();
    assert_eq!(w.hsm(0, 0, &[0, 1, 0]), (-6, 0));
    assert_eq!(w.hsm(0, 0, &[1, 1, 0]), (-5, 0));
}

#[test]
fn start_compares_the_hart_over_64_bits() {
    let mut w = World::fresh();
    for high in [8, 32, 63] {
        assert_eq!(w.hsm(0, 0, &[1 | 1 << high, GOOD, 0]), (-3, 0));
    }
}

#[test]
fn start_ignores_registers_after_the_opaque() {
    let mut w = World::fresh();
    let actions = w.actions(EID_HSM, 0, &[1, GOOD, 7, TOP, TOP, TOP]);
    assert_eq!(actions, [[1, 1, GOOD, 7, 0]]);
}

#[test]
fn stop_answers_0_0_parked_and_gives_no_action() {
    let mut w = World::running();
    let answer = w.call(2, EID_HSM, 1, &[TOP; 6]);
    assert_eq!((answer.error, answer.value, answer.parked), (0, 0, true));
    assert!(answer.actions.is_empty());
    assert_eq!(w.state(2), Some(State::StopPending));
}

#[test]
fn the_last_running_hart_may_stop_itself_and_then_every_call_is_h3() {
    let mut w = World::fresh();
    assert_eq!(w.hsm(0, 1, &[]), (0, 0));
    w.done(0);
    for hart in 0..4 {
        assert_eq!(w.refusal(status_call(hart)), 3);
    }
}

#[test]
fn status_gives_minus_3_for_a_hart_not_enabled() {
    let mut w = World::fresh();
    for hart in [4, 127, 128, 256, 1 << 32, (1 << 32) + 1, TOP] {
        assert_eq!(w.hsm(0, 2, &[hart]), (-3, 0));
    }
}

#[test]
fn a_hart_may_ask_for_its_own_status() {
    assert_eq!(World::running().hsm(3, 2, &[3]), (0, 0));
}

#[test]
fn suspend_goes_to_suspend_pending_and_answers_0_0_parked() {
    for kind in [0, NON_RETENTIVE] {
        let mut w = World::fresh();
        let answer = w.call(0, EID_HSM, 3, &[kind, GOOD, 1]);
        assert_eq!((answer.error, answer.value, answer.parked), (0, 0, true));
        assert!(answer.actions.is_empty());
        assert_eq!(w.state(0), Some(State::SuspendPending));
    }
}

#[test]
fn every_other_type_is_minus_3() {
    let mut w = World::fresh();
    let bits = (0..31).map(|bit| 1 << bit);
    let others = [
        0x0FFF_FFFF,
        0x1000_0000,
        0x7FFF_FFFF,
        0x8000_0001,
        0x8FFF_FFFF,
        0x9000_0000,
        0xFFFF_FFFF,
        TOP,
    ];
    for kind in bits.chain(others) {
        assert_eq!(w.hsm(0, 3, &[kind, GOOD, 0]), (-3, 0), "type {kind:#x}");
    }
}

#[test]
fn only_the_low_32_bits_of_the_type_are_read() {
    for high in [1, 0x8000_0000, 0xFFFF_FFFF] {
        let mut w = World::fresh();
        assert_eq!(w.hsm(0, 3, &[high << 32, 1, 9]), (0, 0));
        assert!(w.sleep(0).retentive);
        let mut w = World::fresh();
        assert_eq!(w.hsm(0, 3, &[high << 32 | NON_RETENTIVE, GOOD, 9]), (0, 0));
        assert!(!w.sleep(0).retentive);
        assert_eq!(
            World::fresh().hsm(0, 3, &[high << 32 | 1, GOOD, 9]),
            (-3, 0)
        );
    }
}

#[test]
fn suspend_checks_the_type_before_the_address() {
    assert_eq!(World::fresh().hsm(0, 3, &[1, 1, 0]), (-3, 0));
    assert_eq!(World::fresh().hsm(0, 3, &[0x9000_0000, 1, 0]), (-3, 0));
}

#[test]
fn an_address_is_valid_if_even_and_in_a_range() {
    let w = World::fresh();
    assert_eq!(start_at(&w, 0x8000_0000), 0);
    assert_eq!(start_at(&w, 0x8000_0001), -5);
    assert_eq!(start_at(&w, 0x8000_0002), 0);
    assert_eq!(start_at(&w, 0x7FFF_FFFE), -5);
    assert_eq!(start_at(&w, 0x87FF_FFFE), 0);
    assert_eq!(start_at(&w, 0x87FF_FFFF), -5);
    assert_eq!(start_at(&w, 0x8800_0000), -5);
    assert_eq!(start_at(&w, 0x8000_0000 | 1 << 32), -5);
    assert_eq!(start_at(&w, 0), -5);
    assert_eq!(start_at(&w, TOP - 1), -5);
}

#[test]
fn a_suspend_address_meets_the_same_test() {
    for address in [0x8000_0000, 0x8000_0001, 0x87FF_FFFE, 0x8800_0000, 0] {
        let expected = start_at(&World::fresh(), address);
        let mut w = World::fresh();
        assert_eq!(w.hsm(0, 3, &[NON_RETENTIVE, address, 0]), (expected, 0));
    }
}

#[test]
fn an_address_may_lie_in_any_of_the_ranges() {
    let w = with_ranges(&[(0x1000, 2), (0x1002, 2), (TOP - 3, 4), (0, 1)]);
    for (address, expected) in [
        (0, 0),
        (1, -5),
        (2, -5),
        (0xFFE, -5),
        (0x1000, 0),
        (0x1002, 0),
        (0x1004, -5),
        (TOP - 5, -5),
        (TOP - 3, 0),
        (TOP - 1, 0),
        (TOP, -5),
    ] {
        assert_eq!(start_at(&w, address), expected, "address {address:#x}");
    }
}

#[test]
fn a_range_with_an_odd_base_or_end_holds_its_even_addresses() {
    let w = with_ranges(&[(0x1001, 4)]);
    assert_eq!(start_at(&w, 0x1000), -5);
    assert_eq!(start_at(&w, 0x1002), 0);
    assert_eq!(start_at(&w, 0x1004), 0);
    assert_eq!(start_at(&w, 0x1006), -5);
}

#[test]
fn without_ranges_no_address_is_valid() {
    let w = with_ranges(&[]);
    for address in [0, GOOD, TOP - 1] {
        assert_eq!(start_at(&w, address), -5);
    }
    assert_eq!(w.clone().hsm(0, 3, &[0, 0, 0]), (0, 0));
}

#[test]
fn a_start_reaches_hart_127() {
    let mut w = World::of(RawPlatform {
        boot: 0,
        ..harts(&[0, 127])
    });
    assert_eq!(w.hsm(0, 0, &[127, GOOD, 0]), (0, 0));
    assert_eq!(w.state(127), Some(State::StartPending));
    assert_eq!(w.hsm(0, 0, &[126, GOOD, 0]), (-3, 0));
}

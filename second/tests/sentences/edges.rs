//! "Edges worked through": the twelve with P, the others, and the mistakes to shut out.

use super::world::*;
use second::numbers::*;
use second::State;

#[test]
fn p1_mask_5_base_2_is_harts_2_and_4_minus_3() {
    assert_eq!(World::running().interrupt(5, 2), Err(-3));
}

#[test]
fn p2_mask_0_base_500_is_accepted_nobody() {
    assert_eq!(World::running().interrupt(0, 500), Ok(vec![]));
}

#[test]
fn p3_base_2_to_64_minus_1_mask_0_is_harts_0_to_3() {
    assert_eq!(World::running().interrupt(0, TOP), Ok(vec![0, 1, 2, 3]));
}

#[test]
fn p4_base_2_to_64_minus_2_mask_2_is_minus_3() {
    assert_eq!(World::running().interrupt(2, TOP - 1), Err(-3));
}

#[test]
fn p5_harts_0_1_4_base_3_mask_2_is_hart_4() {
    let mut w = World::of(harts(&[0, 1, 4])).all_running();
    assert_eq!(w.interrupt(2, 3), Ok(vec![4]));
}

#[test]
fn p6_harts_0_and_127_base_126_mask_2_is_hart_127_and_mask_4_is_minus_3() {
    let mut w = World::of(harts(&[0, 127])).all_running();
    assert_eq!(w.interrupt(2, 126), Ok(vec![127]));
    assert_eq!(w.interrupt(4, 126), Err(-3));
}

#[test]
fn p7_suspend_type_1_is_minus_3() {
    assert_eq!(World::fresh().hsm(0, 3, &[1, GOOD, 0]), (-3, 0));
}

#[test]
fn p8_hart_0_starts_itself_is_minus_6() {
    assert_eq!(World::fresh().hsm(0, 0, &[0, GOOD, 0]), (-6, 0));
}

#[test]
fn p9_start_2_to_64_minus_4096_size_4096_is_accepted_and_4097_is_minus_5() {
    let start = 0u64.wrapping_sub(4096);
    for fid in 1..7 {
        assert_eq!(
            World::running().fence(fid, &[1, 0, start, 4096]),
            Ok(vec![0])
        );
        assert_eq!(World::running().fence(fid, &[1, 0, start, 4097]), Err(-5));
    }
}

#[test]
fn p10_event_983046_maps_and_983062_is_minus_2() {
    let mut w = World::fresh();
    assert_eq!(w.pmu(2, &[0, 1, 0, 983046, 0]), (0, 0));
    assert_eq!(w.counter(0, 0).event, Some(6));
    assert_eq!(w.pmu(2, &[0, 1, 0, 983062, 0]), (-2, 0));
}

#[test]
fn p11_counter_at_2_to_64_minus_1_three_events_is_2() {
    let mut w = World::fresh();
    w.run_counter(0, 0, 1, TOP);
    for _ in 0..3 {
        w.event(0, 1);
    }
    assert_eq!(w.pmu(5, &[0]), (0, 2));
}

#[test]
fn p12_hart_0_interrupts_0_and_1_both_started_is_one_sent_event() {
    let mut w = World::running();
    w.run_counter(0, 0, 6, 0);
    w.run_counter(0, 1, 7, 0);
    w.run_counter(1, 0, 6, 0);
    w.run_counter(1, 1, 7, 0);
    assert_eq!(w.interrupt(3, 0), Ok(vec![0, 1]));
    assert_eq!((w.value(0, 0), w.value(0, 1)), (1, 0));
    assert_eq!((w.value(1, 0), w.value(1, 1)), (0, 1));
}

#[test]
fn type_0_with_address_1_is_accepted() {
    assert_eq!(World::fresh().hsm(0, 3, &[0, 1, 0]), (0, 0));
}

#[test]
fn type_0x80000000_with_address_1_is_minus_5() {
    assert_eq!(World::fresh().hsm(0, 3, &[0x8000_0000, 1, 0]), (-5, 0));
}

#[test]
fn type_0xffffffff80000000_reads_as_0x80000000() {
    let mut w = World::fresh();
    assert_eq!(w.hsm(0, 3, &[0xFFFF_FFFF_8000_0000, 1, 0]), (-5, 0));
    assert_eq!(w.hsm(0, 3, &[0xFFFF_FFFF_8000_0000, GOOD, 0]), (0, 0));
    assert!(!w.sleep(0).retentive);
}

#[test]
fn mistake_a_cleared_state_word_taken_as_a_hart() {
    // A hart number that is not enabled is no STARTED hart, whatever its place would hold.
    let mut w = World::fresh();
    assert_eq!(w.refusal(status_call(4)), 2);
    assert_eq!(w.hsm(0, 2, &[4]), (-3, 0));
    assert_eq!(w.interrupt(0x10, 0), Err(-3));
    assert_eq!(w.interrupt(0, TOP), Ok(vec![0]));
}

#[test]
fn mistake_sent_codes_counted_in_fid_order() {
    let mut w = World::running();
    w.run_counter(0, 0, 16, 0);
    w.run_counter(0, 1, 14, 0);
    w.fence(3, &[2, 0, 0, 0, 0]).expect("accepted");
    assert_eq!((w.value(0, 0), w.value(0, 1)), (1, 0));
    w.fence(4, &[2, 0, 0, 0, 0]).expect("accepted");
    assert_eq!((w.value(0, 0), w.value(0, 1)), (1, 1));
}

#[test]
fn mistake_minus_1_read_as_all_for_counters() {
    let mut w = World::fresh();
    w.set_counter(0, 0, Some(0), false, 0);
    assert_eq!(w.pmu(3, &[TOP, 1, 0, 0]), (-3, 0));
    assert_eq!(w.pmu(3, &[TOP, 0, 0, 0]), (0, 0));
    assert!(!w.counter(0, 0).running);
}

#[test]
fn mistake_a_base_refused_though_bit_0_is_clear() {
    let mut w = World::of(harts(&[0, 1, 4])).all_running();
    assert_eq!(w.interrupt(0b100, 2), Ok(vec![4]));
}

#[test]
fn mistake_a_sum_of_base_and_bit_that_wraps_to_hart_0() {
    assert_eq!(World::running().interrupt(4, TOP - 3), Err(-3));
    assert_eq!(World::running().interrupt(1 << 4, TOP - 3), Err(-3));
}

#[test]
fn mistake_an_interrupt_that_wakes_a_sleeper_in_the_table() {
    let mut w = World::running().with_state(1, State::Suspended);
    let actions = w.actions(EID_IPI, 0, &[2, 0]);
    assert_eq!(actions, [[1, 2, 0, 0, 0]]);
    assert_eq!(w.state(1), Some(State::Suspended));
}

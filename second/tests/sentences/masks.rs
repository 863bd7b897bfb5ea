//! "Masks": which harts are selected and which of them are reached.

use super::world::*;
use second::numbers::*;
use second::State;

#[test]
fn bit_i_selects_hart_base_plus_i() {
    for base in 0..4 {
        for bit in 0..4 - base {
            let mut w = World::running();
            assert_eq!(w.interrupt(1 << bit, base), Ok(vec![base + bit]));
        }
    }
}

#[test]
fn bit_63_selects_hart_base_plus_63() {
    let all: Vec<u64> = (0..128).collect();
    let mut w = World::of(harts(&all)).all_running();
    assert_eq!(w.interrupt(1 << 63, 0), Ok(vec![63]));
    assert_eq!(w.interrupt(1 << 63 | 1, 64), Ok(vec![64, 127]));
    assert_eq!(w.interrupt(1 << 63, 65), Err(-3));
    assert_eq!(w.interrupt(TOP, 64), Ok((64..128).collect()));
}

#[test]
fn base_2_to_64_minus_1_ignores_the_mask() {
    for mask in [0, 1, 5, 0x10, 1 << 63, TOP] {
        let mut w = World::running();
        assert_eq!(w.interrupt(mask, TOP), Ok(vec![0, 1, 2, 3]));
    }
}

#[test]
fn a_sum_of_base_and_bit_does_not_wrap_to_hart_0() {
    let mut w = World::running();
    for below in 2..64 {
        let base = 0u64.wrapping_sub(below);
        assert_eq!(w.interrupt(1 << below, base), Err(-3));
    }
}

#[test]
fn any_selected_number_not_enabled_gives_minus_3() {
    let mut w = World::running();
    for (mask, base) in [
        (0x1F, 0),
        (0x10, 0),
        (1, 4),
        (1, 128),
        (1, 1 << 32),
        (TOP, 0),
    ] {
        assert_eq!(w.interrupt(mask, base), Err(-3));
    }
}

#[test]
fn a_base_is_not_refused_though_it_is_not_enabled_if_bit_0_is_clear() {
    let mut w = World::of(harts(&[0, 2, 5])).all_running();
    assert_eq!(w.interrupt(2, 1), Ok(vec![2]));
    assert_eq!(w.interrupt(0b100, 3), Ok(vec![5]));
    assert_eq!(w.interrupt(0b101, 3), Err(-3));
}

#[test]
fn mask_0_selects_nobody_and_succeeds() {
    for base in [0, 3, 4, 127, 128, 500, 1 << 63, TOP - 1] {
        assert_eq!(World::running().interrupt(0, base), Ok(vec![]));
    }
}

#[test]
fn a_selected_hart_is_reached_unless_stopped_or_stop_pending() {
    for state in State::ALL {
        let mut w = World::running().with_state(2, state);
        let reached = !matches!(state, State::Stopped | State::StopPending);
        let expected = if reached { vec![1, 2] } else { vec![1] };
        assert_eq!(w.interrupt(0b110, 0), Ok(expected), "{state:?}");
        assert_eq!(w.state(2), Some(state), "the state is kept");
    }
}

#[test]
fn a_stopped_hart_may_be_selected() {
    assert_eq!(World::fresh().interrupt(0b1110, 0), Ok(vec![]));
    assert_eq!(World::fresh().interrupt(0, TOP), Ok(vec![0]));
}

#[test]
fn the_caller_may_reach_itself() {
    let mut w = World::running();
    let answer = w.call(2, EID_IPI, 0, &[0b100, 0]);
    assert_eq!(answer.actions.len(), 1);
    assert_eq!(answer.actions[0].words(), [2, 2, 0, 0, 0]);
}

#[test]
fn one_action_a_reached_hart_ascending() {
    let mut w = World::of(harts(&[90, 3, 64, 127, 0])).all_running();
    let answer = w.call(90, EID_IPI, 0, &[0, TOP]);
    let targets: Vec<u8> = answer.actions.iter().map(|a| a.target).collect();
    assert_eq!(targets, [0, 3, 64, 90, 127]);
}

#[test]
fn an_interrupt_does_not_wake_a_sleeper_in_the_table() {
    let mut w = World::running().with_state(1, State::Suspended);
    let before = w.tables.clone();
    assert_eq!(w.interrupt(2, 0), Ok(vec![1]));
    assert_eq!(w.tables, before);
}

#[test]
fn an_interrupt_has_three_zeros() {
    let mut w = World::running();
    let actions = w.actions(EID_IPI, 0, &[2, 0, 7, 8, 9, 10]);
    assert_eq!(actions, [[1, 2, 0, 0, 0]]);
}

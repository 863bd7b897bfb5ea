//! "Fences": kinds, words, the order of their checks, ids and ranges.

use super::world::*;
use second::numbers::*;
use second::State;

const PAGE: u64 = 4096;

fn widths(asid_width: u64, vmid_width: u64) -> World {
    let mut w = World::running();
    w.platform.asid_width = asid_width;
    w.platform.vmid_width = vmid_width;
    w
}

#[test]
fn kinds_3_to_9_are_fences_fid_0_to_6_with_their_words() {
    let words = [
        [1, 3, 0, 0, 0],
        [1, 4, PAGE, 2 * PAGE, 0],
        [1, 5, PAGE, 2 * PAGE, 77],
        [1, 6, PAGE, 2 * PAGE, 77],
        [1, 7, PAGE, 2 * PAGE, 0],
        [1, 8, PAGE, 2 * PAGE, 77],
        [1, 9, PAGE, 2 * PAGE, 0],
    ];
    for (fid, words) in (0..).zip(words) {
        let mut w = World::running();
        let arguments = [2, 0, PAGE, 2 * PAGE, 77, TOP];
        assert_eq!(w.actions(EID_RFENCE, fid, &arguments), [words]);
    }
}

#[test]
fn fence_i_has_no_range_and_no_id() {
    let mut w = World::running();
    assert_eq!(w.fence(0, &[2, 0, TOP, 2, TOP, TOP]), Ok(vec![1]));
}

#[test]
fn fids_1_4_and_6_ignore_a4() {
    for fid in [1, 4, 6] {
        let mut w = widths(0, 0);
        assert_eq!(w.fence(fid, &[2, 0, 0, 0, TOP]), Ok(vec![1]));
    }
}

#[test]
fn fids_2_and_5_test_a4_by_the_asid_width() {
    for fid in [2, 5] {
        for width in 0..17 {
            let mut w = widths(width, 0);
            let limit = 1 << width;
            assert_eq!(w.fence(fid, &[2, 0, 0, 0, limit - 1]), Ok(vec![1]));
            assert_eq!(w.fence(fid, &[2, 0, 0, 0, limit]), Err(-3));
        }
    }
}

#[test]
fn fid_3_tests_a4_by_the_vmid_width() {
    for width in 0..15 {
        let mut w = widths(0, width);
        let limit = 1 << width;
        assert_eq!(w.fence(3, &[2, 0, 0, 0, limit - 1]), Ok(vec![1]));
        assert_eq!(w.fence(3, &[2, 0, 0, 0, limit]), Err(-3));
    }
}

#[test]
fn an_id_is_tested_over_64_bits() {
    for fid in [2, 3, 5] {
        for high in [16, 32, 63] {
            assert_eq!(
                World::running().fence(fid, &[2, 0, 0, 0, 1 << high]),
                Err(-3)
            );
        }
    }
}

#[test]
fn harts_come_before_the_id() {
    for fid in 0..7 {
        let mut w = World::running();
        w.platform.hypervisor = 0;
        assert_eq!(w.fence(fid, &[0x10, 0, TOP, 2, TOP]), Err(-3));
    }
}

#[test]
fn the_id_comes_before_the_hypervisor_extension() {
    for fid in [3, 5] {
        let mut w = World::running();
        w.platform.hypervisor = 0;
        assert_eq!(w.fence(fid, &[2, 0, 0, 0, TOP]), Err(-3));
        assert_eq!(w.fence(fid, &[2, 0, 0, 0, 0]), Err(-2));
    }
}

#[test]
fn the_hypervisor_extension_comes_before_the_range() {
    for fid in 3..7 {
        let mut w = World::running();
        w.platform.hypervisor = 0;
        assert_eq!(w.fence(fid, &[2, 0, TOP, 2, 0]), Err(-2));
    }
}

#[test]
fn the_id_comes_before_the_range() {
    for fid in [2, 3, 5] {
        assert_eq!(World::running().fence(fid, &[2, 0, TOP, 2, TOP]), Err(-3));
        assert_eq!(World::running().fence(fid, &[2, 0, TOP, 2, 0]), Err(-5));
    }
}

#[test]
fn the_hypervisor_extension_is_asked_of_every_selected_hart_for_fids_3_to_6() {
    for fid in 0..7 {
        let mut w = World::running();
        w.platform.hypervisor = 0b0111;
        let refused = if fid >= 3 { Err(-2) } else { Ok(vec![2, 3]) };
        assert_eq!(w.fence(fid, &[0b1100, 0, 0, 0, 0]), refused);
        assert_eq!(w.fence(fid, &[0b0110, 0, 0, 0, 0]), Ok(vec![1, 2]));
    }
}

#[test]
fn the_hypervisor_extension_is_asked_of_stopped_harts_too() {
    for state in [State::Stopped, State::StopPending] {
        let mut w = World::running().with_state(3, state);
        w.platform.hypervisor = 0b0111;
        assert_eq!(w.fence(4, &[0b1000, 0, 0, 0]), Err(-2));
        assert_eq!(w.fence(4, &[0, TOP, 0, 0]), Err(-2));
    }
}

#[test]
fn the_hypervisor_extension_is_not_asked_of_a_caller_that_is_not_selected() {
    let mut w = World::running();
    w.platform.hypervisor = 0b0010;
    assert_eq!(w.fence(6, &[0b10, 0, 0, 0]), Ok(vec![1]));
    assert_eq!(w.fence(6, &[0b11, 0, 0, 0]), Err(-2));
}

#[test]
fn mask_0_still_meets_the_id_and_the_range() {
    for fid in [2, 3, 5] {
        assert_eq!(World::running().fence(fid, &[0, 0, 0, 0, TOP]), Err(-3));
    }
    for fid in 1..7 {
        assert_eq!(World::running().fence(fid, &[0, 0, TOP, 2, 0]), Err(-5));
    }
    let mut w = World::running();
    w.platform.hypervisor = 0;
    assert_eq!(w.fence(3, &[0, 500, 0, 0, 0]), Ok(vec![]));
}

#[test]
fn start_and_size_0_are_the_whole_space() {
    for fid in 1..7 {
        assert_eq!(World::running().fence(fid, &[1, 0, 0, 0]), Ok(vec![0]));
    }
}

#[test]
fn size_2_to_64_minus_1_is_the_whole_space_with_any_start() {
    for fid in 1..7 {
        for start in [0, 1, 2, PAGE, TOP] {
            assert_eq!(
                World::running().fence(fid, &[1, 0, start, TOP]),
                Ok(vec![0])
            );
        }
    }
}

#[test]
fn otherwise_start_plus_size_may_be_at_most_2_to_64() {
    let ranges = [
        (2, TOP - 1, true),
        (3, TOP - 1, false),
        (TOP, 1, true),
        (TOP, 2, false),
        (1 << 63, 1 << 63, true),
        (1 << 63, (1 << 63) + 1, false),
        (0, TOP - 1, true),
    ];
    for fid in 1..7 {
        for (start, size, good) in ranges {
            let expected = if good { Ok(vec![0]) } else { Err(-5) };
            assert_eq!(World::running().fence(fid, &[1, 0, start, size]), expected);
        }
    }
}

#[test]
fn size_0_with_another_start_is_accepted_as_it_stands() {
    for start in [1, PAGE, TOP] {
        let mut w = World::running();
        let actions = w.actions(EID_RFENCE, 1, &[1, 0, start, 0]);
        assert_eq!(actions, [[0, 4, start, 0, 0]]);
    }
}

#[test]
fn words_are_unaltered_also_for_the_whole_space() {
    let mut w = World::running();
    let actions = w.actions(EID_RFENCE, 5, &[1, 0, 12345, TOP, 6]);
    assert_eq!(actions, [[0, 8, 12345, TOP, 6]]);
}

#[test]
fn a_range_need_be_neither_aligned_nor_in_memory() {
    assert_eq!(World::running().fence(1, &[1, 0, 1, 1]), Ok(vec![0]));
}

#[test]
fn fences_reach_like_interrupts() {
    for fid in 0..7 {
        for state in State::ALL {
            let mut w = World::running().with_state(2, state);
            let reached = w.clone().interrupt(0b110, 0);
            assert_eq!(w.fence(fid, &[0b110, 0, 0, 0, 0]), reached);
            assert_eq!(w.state(2), Some(state));
        }
    }
}

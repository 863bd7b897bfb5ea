//! "What the module dispatches", and Base.

use super::world::*;
use second::numbers::*;

#[test]
fn pmu_functions_7_and_8_answer_minus_2() {
    let mut w = World::fresh();
    assert_eq!(w.pmu(7, &[GOOD, 0, 0]), (-2, 0));
    assert_eq!(w.pmu(8, &[GOOD, 0, 0, 0]), (-2, 0));
}

#[test]
fn any_other_eid_answers_minus_2() {
    let mut w = World::fresh();
    let left_out = [0x54494D45, 0x4442434E, 0x53525354, 0x4E41434C, 0x53555350];
    for eid in (0..0x10).chain(0x11..0x20).chain(left_out) {
        assert_eq!(w.pair(0, eid, 0, &[]), (-2, 0), "EID {eid:#x}");
    }
    for eid in EXTENSIONS {
        assert_eq!(w.pair(0, eid + 1, 0, &[]), (-2, 0));
        assert_eq!(w.pair(0, eid - 1, 0, &[]), (-2, 0));
    }
}

#[test]
fn any_other_fid_answers_minus_2() {
    let mut w = World::fresh();
    let first_unknown = [
        (EID_BASE, 7),
        (EID_IPI, 1),
        (EID_RFENCE, 7),
        (EID_HSM, 4),
        (EID_PMU, 7),
    ];
    for (eid, first) in first_unknown {
        for fid in [first, first + 1, first + 2, 1 << 31, TOP, TOP - 1] {
            assert_eq!(w.pair(0, eid, fid, &[]), (-2, 0), "EID {eid:#x}, FID {fid}");
        }
    }
}

#[test]
fn a7_is_compared_over_all_64_bits() {
    let mut w = World::fresh();
    for eid in EXTENSIONS {
        for bit in 32..64 {
            assert_eq!(w.pair(0, eid | 1 << bit, 0, &[]), (-2, 0));
        }
        assert_eq!(w.pair(0, eid | 0xFFFF_FFFF_0000_0000, 0, &[]), (-2, 0));
    }
}

#[test]
fn a6_is_compared_over_all_64_bits() {
    let mut w = World::fresh();
    for eid in EXTENSIONS {
        for bit in 32..64 {
            assert_eq!(w.pair(0, eid, 1 << bit, &[]), (-2, 0));
        }
    }
}

#[test]
fn base_version_3_0_is_50331648() {
    assert_eq!(World::fresh().pair(0, EID_BASE, 0, &[]), (0, 50331648));
}

#[test]
fn probe_gives_1_for_the_five_extensions() {
    let mut w = World::fresh();
    for eid in [0x10, 0x735049, 0x52464E43, 0x48534D, 0x504D55] {
        assert_eq!(w.pair(0, EID_BASE, 3, &[eid]), (0, 1));
    }
}

#[test]
fn probe_gives_0_for_every_other() {
    let mut w = World::fresh();
    for eid in [0, 1, 8, 0xF, 0x11, 0x54494D45, 0x4442434E, 0x53525354, TOP] {
        assert_eq!(w.pair(0, EID_BASE, 3, &[eid]), (0, 0));
    }
}

#[test]
fn probe_reads_all_64_bits_of_a0() {
    let mut w = World::fresh();
    for eid in EXTENSIONS {
        assert_eq!(w.pair(0, EID_BASE, 3, &[eid | 1 << 32]), (0, 0));
        assert_eq!(w.pair(0, EID_BASE, 3, &[eid | 1 << 63]), (0, 0));
    }
}

#[test]
fn the_rest_of_base_comes_from_the_platform() {
    let mut w = World::of(second::RawPlatform {
        base_numbers: base_numbers(),
        ..four_harts()
    });
    assert_eq!(w.pair(0, EID_BASE, 1, &[]), (0, 11));
    assert_eq!(w.pair(0, EID_BASE, 2, &[]), (0, TOP));
    assert_eq!(w.pair(0, EID_BASE, 4, &[]), (0, 33));
    assert_eq!(w.pair(0, EID_BASE, 5, &[]), (0, 1 << 63));
    assert_eq!(w.pair(0, EID_BASE, 6, &[]), (0, 55));
}

#[test]
fn base_ignores_its_other_registers() {
    let mut w = World::fresh();
    assert_eq!(w.pair(0, EID_BASE, 0, &[TOP; 6]), (0, 50331648));
    assert_eq!(w.pair(0, EID_BASE, 3, &[EID_PMU, TOP, TOP]), (0, 1));
}

//! "A platform is refused (H1) if": every ground, and what is accepted.

use super::world::*;
use second::answer::answer_raw;
use second::{Ground, RawPlatform, RawTables, Refusal, SleepNote, State};

/// The ground on which the platform is refused, by fresh tables and by an operation alike.
fn ground(platform: RawPlatform) -> Ground {
    let ground = RawTables::fresh(&platform).expect_err("the platform is refused");
    let tables = World::fresh().tables;
    let refusal = answer_raw(&platform, &tables, 640, &status_call(0)).map(|_| ());
    assert_eq!(refusal, Err(Refusal::NotWellFormed(ground)));
    ground
}

fn accepted(platform: RawPlatform) {
    let mut w = World::of(platform);
    let boot = w.platform.boot;
    assert_eq!(w.hsm(boot, 2, &[boot]), (0, 0));
}

fn with_ranges(ranges: &[(u64, u64)]) -> RawPlatform {
    let mut platform = four_harts();
    platform.range_count = ranges.len() as u64;
    platform.ranges[..ranges.len()].copy_from_slice(ranges);
    platform
}

#[test]
fn refused_if_the_boot_hart_is_not_enabled() {
    for boot in [4, 127, 128, 256, TOP] {
        let platform = RawPlatform {
            boot,
            ..four_harts()
        };
        assert_eq!(ground(platform), Ground::BootHartNotEnabled);
    }
}

#[test]
fn refused_if_no_hart_is_enabled() {
    let platform = RawPlatform {
        enabled: 0,
        hypervisor: 0,
        ..four_harts()
    };
    assert_eq!(ground(platform), Ground::BootHartNotEnabled);
}

#[test]
fn refused_if_a_hart_with_the_hypervisor_extension_is_not_enabled() {
    for hypervisor in [1u128 << 4, 0x1F, 1 << 127, u128::MAX] {
        let platform = RawPlatform {
            hypervisor,
            ..four_harts()
        };
        assert_eq!(ground(platform), Ground::HypervisorHartNotEnabled);
    }
}

#[test]
fn refused_if_the_count_of_ranges_is_over_8() {
    for range_count in [9, 10, 1 << 32, TOP] {
        let platform = RawPlatform {
            range_count,
            ranges: [(0, 1); 8],
            ..four_harts()
        };
        assert_eq!(ground(platform), Ground::RangeCountOverLimit);
    }
}

#[test]
fn refused_if_the_asid_width_is_over_16() {
    for asid_width in [17, 64, TOP] {
        let platform = RawPlatform {
            asid_width,
            ..four_harts()
        };
        assert_eq!(ground(platform), Ground::AsidWidthOverLimit);
    }
}

#[test]
fn refused_if_the_vmid_width_is_over_14() {
    for vmid_width in [15, 16, TOP] {
        let platform = RawPlatform {
            vmid_width,
            ..four_harts()
        };
        assert_eq!(ground(platform), Ground::VmidWidthOverLimit);
    }
}

#[test]
fn refused_if_a_used_range_has_length_zero() {
    assert_eq!(ground(with_ranges(&[(0, 0)])), Ground::RangeLengthZero);
    let last = with_ranges(&[(0, 1), (0, 1), (64, 0)]);
    assert_eq!(ground(last), Ground::RangeLengthZero);
}

#[test]
fn refused_if_a_used_range_runs_past_2_to_64() {
    assert_eq!(ground(with_ranges(&[(TOP, 2)])), Ground::RangePastTop);
    assert_eq!(
        ground(with_ranges(&[(1, TOP), (2, TOP)])),
        Ground::RangePastTop
    );
    assert_eq!(ground(with_ranges(&[(TOP, TOP)])), Ground::RangePastTop);
}

#[test]
fn accepted_with_a_range_that_ends_at_2_to_64() {
    accepted(with_ranges(&[(TOP, 1)]));
    accepted(with_ranges(&[(1, TOP)]));
    accepted(with_ranges(&[(
        0x8000_0000_0000_0000,
        0x8000_0000_0000_0000,
    )]));
}

#[test]
fn accepted_with_0_and_with_8_ranges_that_overlap() {
    accepted(with_ranges(&[]));
    accepted(with_ranges(&[(0, TOP); 8]));
}

#[test]
fn places_past_the_count_are_never_looked_at() {
    let mut platform = with_ranges(&[(0x8000_0000, 2)]);
    platform.ranges[1..].fill((TOP, TOP));
    accepted(platform.clone());
    platform.ranges[1..].fill((0, 0));
    accepted(platform.clone());
    platform.ranges[1] = (0, 4096);
    let mut w = World::of(platform);
    assert_eq!(w.hsm(0, 0, &[1, 0, 0]), (-5, 0));
}

#[test]
fn accepted_with_every_width_up_to_its_limit() {
    for (asid_width, vmid_width) in [(0, 0), (16, 14), (1, 13), (16, 0)] {
        accepted(RawPlatform {
            asid_width,
            vmid_width,
            ..four_harts()
        });
    }
}

#[test]
fn accepted_with_all_harts_and_with_hart_127_alone() {
    let all: Vec<u64> = (0..128).collect();
    accepted(harts(&all));
    accepted(harts(&[127]));
}

#[test]
fn accepted_with_any_base_numbers() {
    accepted(RawPlatform {
        base_numbers: base_numbers(),
        ..four_harts()
    });
}

#[test]
fn fresh_boot_hart_is_started_and_every_other_stopped() {
    let platform = RawPlatform {
        boot: 2,
        ..harts(&[0, 2, 3, 127])
    };
    let w = World::of(platform);
    for hart in 0..128 {
        let expected = if hart == 2 {
            State::Started
        } else {
            State::Stopped
        };
        assert_eq!(w.state(hart), Some(expected));
    }
}

#[test]
fn fresh_sleep_notes_are_retentive_0_0() {
    let w = World::fresh();
    for hart in 0..128 {
        let note = SleepNote {
            retentive: true,
            address: 0,
            opaque: 0,
        };
        assert_eq!(w.sleep(hart), note);
    }
}

#[test]
fn fresh_counters_are_unmapped_stopped_zero() {
    let w = World::fresh();
    for hart in 0..128 {
        for counter in 0..8 {
            let counter = w.counter(hart, counter);
            assert_eq!(
                (counter.event, counter.running, counter.value),
                (None, false, 0)
            );
        }
    }
}

//! "The transcript program": kinds of records, lines and numbers.

use super::blocks::*;

#[test]
fn first_word_0_is_unused_and_its_other_words_are_ignored() {
    let garbage = [0, HSM, 1, u64::MAX, 5, 6, 7, 8, 9];
    let status: &[u64] = &[256, HSM, 2, 0];
    assert_eq!(
        printed(&block(&[&garbage, status, &garbage, status])),
        "1 0 0 0\n2 0 0 0\n"
    );
}

#[test]
fn kinds_256_512_768_and_1024_plus_h_are_known() {
    let input = block(&[
        &[256, HSM, 0, 1, 0x8000_0000, 0],
        &[513],
        &[257, HSM, 3, 0x8000_0000, 0x8000_0000, 9],
        &[513],
        &[769],
        &[513],
        &[1025, 5],
    ]);
    let expected = "1 0 0 1\n2 0 0 0\n3 0 0 0\n4 0 0 0\n5 0 0 1\n6 0 0 0\n7 0 0 0\n";
    assert_eq!(printed(&input), expected);
}

#[test]
fn all_other_first_words_are_h7() {
    let others = [
        1,
        127,
        255,
        384,
        511,
        640,
        767,
        896,
        1023,
        1152,
        1279,
        1280,
        256 | 1 << 16,
        256 | 1 << 32,
        512 | 1 << 63,
        u64::MAX,
    ];
    for first in others {
        assert_eq!(printed(&block(&[&[first, HSM, 2, 0]])), "1 H7\n");
    }
}

#[test]
fn a_known_kind_for_harts_4_to_127_is_h2() {
    for hart in 4..128 {
        for kind in [256, 512, 768, 1024] {
            assert_eq!(printed(&block(&[&[kind + hart, HSM, 2, 0]])), "1 H2\n");
        }
    }
}

#[test]
fn h7_records_are_used_and_take_a_number() {
    let status: &[u64] = &[256, HSM, 2, 0];
    assert_eq!(
        printed(&block(&[&[1], status, &[384], status])),
        "1 H7\n2 0 0 0\n3 H7\n4 0 0 0\n"
    );
}

#[test]
fn h8_comes_before_h7_and_h7_before_the_library() {
    assert_eq!(printed(&wrong_block(&[&[1]], 1)), "H8\n");
    assert_eq!(printed(&block(&[&[256 + 128, HSM, 2, 0]])), "1 H7\n");
}

#[test]
fn refusals_print_number_and_hk() {
    let input = block(&[
        &[257, HSM, 2, 0],
        &[512],
        &[768],
        &[1024, 6],
        &[260, HSM, 2, 0],
        &[1028, 6],
    ]);
    assert_eq!(printed(&input), "1 H3\n2 H5\n3 H5\n4 H6\n5 H2\n6 H2\n");
}

#[test]
fn the_code_of_an_event_is_the_whole_next_word() {
    let input = block(&[&[1024, 1 << 32], &[1024, 0, 9, 9, 9, 9, 9, 9, 9]]);
    assert_eq!(printed(&input), "1 H6\n2 0 0 0\n");
}

#[test]
fn extra_words_of_done_and_wake_are_ignored() {
    let input = block(&[
        &[256, HSM, 3, 0, 0, 0],
        &[512, 1, 2, 3, 4, 5, 6, 7, 8],
        &[768, u64::MAX, 2, 3, 4, 5, 6, 7, 8],
        &[512, 9],
    ]);
    assert_eq!(printed(&input), "1 0 0 0\n2 0 0 0\n3 0 0 0\n4 0 0 0\n");
}

#[test]
fn errors_are_printed_signed_and_values_unsigned() {
    let pmu = 0x504D55;
    let input = block(&[
        &[256, HSM, 2, 4],
        &[256, pmu, 1, 0],
        &[256, pmu, 2, 0, 1, 0, 0xF0000, 0],
        &[256, pmu, 3, 0, 1, 1, u64::MAX],
        &[256, pmu, 5, 0],
    ]);
    let expected = "1 -3 0 0\n2 0 9223372036854775808 0\n3 0 0 0\n4 0 0 0\n\
                    5 0 18446744073709551615 0\n";
    assert_eq!(printed(&input), expected);
}

#[test]
fn a_parked_call_prints_0_0_0() {
    assert_eq!(printed(&block(&[&[256, HSM, 1]])), "1 0 0 0\n");
}

#[test]
fn the_tables_are_carried_from_block_to_block() {
    let mut input = block(&[&[256, HSM, 0, 1, 0x8000_0000, 0]]);
    input.extend(wrong_block(&[&[513]], 1));
    input.extend(block(&[&[256, HSM, 2, 1], &[513]]));
    input.extend(block(&[&[257, HSM, 2, 1], &[257, IPI, 0, 0, u64::MAX]]));
    let expected = "1 0 0 1\nH8\n2 0 2 0\n3 0 0 0\n4 0 0 0\n5 0 0 2\n";
    assert_eq!(printed(&input), expected);
}

#[test]
fn numbers_run_over_the_used_records_of_all_right_blocks() {
    let status: &[u64] = &[256, HSM, 2, 0];
    let mut input = Vec::new();
    for _ in 0..20 {
        input.extend(block(&[status; 7]));
        input.extend(wrong_block(&[status; 7], 1));
    }
    let output = printed(&input);
    let numbers = output.lines().filter(|line| *line != "H8");
    let numbers: Vec<u64> = numbers
        .map(|line| line.split(' ').next().unwrap().parse().unwrap())
        .collect();
    assert_eq!(numbers, (1..=140).collect::<Vec<u64>>());
}

#[test]
fn the_platform_of_the_program_has_its_range_and_widths() {
    let rfence = 0x52464E43;
    let input = block(&[
        &[256, HSM, 0, 1, 0x87FF_FFFE, 0],
        &[256, HSM, 0, 2, 0x8800_0000, 0],
        &[256, rfence, 2, 1, 0, 0, 0, 65535],
        &[256, rfence, 2, 1, 0, 0, 0, 65536],
        &[256, rfence, 3, 1, 0, 0, 0, 16383],
        &[256, rfence, 3, 15, 0, 0, 0, 16384],
        &[256, rfence, 6, 15, 0, 0, 0, 0],
    ]);
    let expected = "1 0 0 1\n2 -5 0 0\n3 0 0 1\n4 -3 0 0\n5 0 0 1\n6 -3 0 0\n7 0 0 2\n";
    assert_eq!(printed(&input), expected);
}

#[test]
fn the_platform_of_the_program_reports_base_numbers_0() {
    let base: Vec<Vec<u64>> = (0..7).map(|fid| vec![256, 0x10, fid, 0x10]).collect();
    let records: Vec<&[u64]> = base.iter().map(|r| &r[..]).collect();
    let expected = "1 0 50331648 0\n2 0 0 0\n3 0 0 0\n4 0 1 0\n5 0 0 0\n6 0 0 0\n7 0 0 0\n";
    assert_eq!(printed(&block(&records)), expected);
}

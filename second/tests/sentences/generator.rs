//! The generator and the programs around it.

use std::process::{Command, Output};

use second::coverage::Coverage;
use second::describe;
use second::generate::transcript;
use second::rules::DOCUMENT_01;
use second::transcript::{lines, Line};

fn run(program: &str, arguments: &[&str]) -> Output {
    Command::new(program)
        .args(arguments)
        .output()
        .expect("it runs")
}

fn text(bytes: &[u8]) -> String {
    String::from_utf8_lossy(bytes).into_owned()
}

#[test]
fn the_same_seed_gives_the_same_input() {
    assert_eq!(transcript(5, 300), transcript(5, 300));
    assert_ne!(transcript(5, 300), transcript(6, 300));
    let written = run(env!("CARGO_BIN_EXE_generate"), &["5", "300"]);
    assert_eq!(written.stdout, transcript(5, 300));
}

#[test]
fn an_input_has_as_many_used_records_as_asked_for() {
    for (seed, records) in [(1, 1), (2, 7), (3, 8), (4, 500)] {
        let lines = lines(DOCUMENT_01, &transcript(seed, records));
        let used = lines.iter().filter(|l| matches!(l, Line::Answered { .. }));
        assert_eq!(used.count(), records);
    }
}

#[test]
fn no_records_give_empty_input_or_a_short_block() {
    let lengths: Vec<usize> = (0..40).map(|seed| transcript(seed, 0).len()).collect();
    assert!(lengths.iter().all(|&length| length < 512));
    assert!(lengths.contains(&0) && lengths.iter().any(|&length| length > 0));
}

#[test]
fn the_generator_reaches_everything_that_can_be_reached() {
    let mut coverage = Coverage::default();
    assert!(!coverage.is_whole());
    for seed in 1..13 {
        for line in lines(DOCUMENT_01, &transcript(seed, 1500)) {
            coverage.take(&line);
        }
    }
    assert!(coverage.is_whole(), "{}", coverage.table());
    let small = ["--coverage", "1", "1", "7"];
    assert_eq!(
        run(env!("CARGO_BIN_EXE_generate"), &small).status.code(),
        Some(1)
    );
}

#[test]
fn compare_passes_the_program_itself() {
    let program = env!("CARGO_BIN_EXE_transcript");
    let output = run(env!("CARGO_BIN_EXE_compare"), &[program, "12", "1", "200"]);
    assert!(output.status.success());
    assert!(text(&output.stdout).ends_with("\n12 passed, 0 failed\n"));
}

#[test]
fn compare_shows_where_another_program_parts() {
    let output = run(env!("CARGO_BIN_EXE_compare"), &["true", "1", "1", "50"]);
    assert_eq!(output.status.code(), Some(1));
    let printed = text(&output.stdout);
    for part in [
        "seed 1, 50 records (generate 1 50):",
        "line 1 differs",
        "other:  no line",
        "record: hart 0 calls ",
        "\n0 passed, 1 failed\n",
    ] {
        assert!(printed.contains(part), "{part:?} in {printed}");
    }
}

#[test]
fn compare_fails_a_program_that_cannot_be_run_or_ends_badly() {
    let compare = env!("CARGO_BIN_EXE_compare");
    assert_eq!(
        run(compare, &["/no/such/program", "1"]).status.code(),
        Some(2)
    );
    let output = run(compare, &["false", "1", "1", "0"]);
    assert!(text(&output.stdout).ends_with("\n0 passed, 1 failed\n"));
    assert_eq!(run(compare, &[]).status.code(), Some(2));
    assert_eq!(run(compare, &["true", "0"]).status.code(), Some(2));
}

#[test]
fn a_record_is_told_in_words() {
    let told = |words: &[u64]| {
        let mut record = [0; 9];
        record[..words.len()].copy_from_slice(words);
        describe::record(&record)
    };
    assert_eq!(
        told(&[256, 0x48534D, 0, 1, 0x8020_0000, 7]),
        "hart 0 calls HSM start (EID 0x48534d, FID 0x0) with hart 1, address 0x80200000, opaque 7"
    );
    assert_eq!(
        told(&[259, 0x52464E43, 3, 2, 0, 0, u64::MAX, 5]),
        "hart 3 calls RFENCE HFENCE.GVMA VMID (EID 0x52464e43, FID 0x3) with \
         mask 2, base 0, start 0, size 0xffffffffffffffff, VMID 5"
    );
    assert_eq!(
        told(&[256, 0x48534D, 1]),
        "hart 0 calls HSM stop (EID 0x48534d, FID 0x1) with no arguments"
    );
    assert!(told(&[256, 1, 2, 3]).contains("an unknown function (EID 0x1, FID 0x2) with a0 3"));
    assert_eq!(told(&[513]), "done of hart 1");
    assert_eq!(told(&[770]), "wake of hart 2");
    assert_eq!(told(&[1027, 4]), "event with code 4 on hart 3");
    assert_eq!(told(&[1]), "unknown kind 1");
    assert_eq!(told(&[0, 5]), "unused");
}

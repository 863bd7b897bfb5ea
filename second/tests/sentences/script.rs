//! Scripts: what each kind of line stands for, and which lines are refused.

use super::blocks::{worked_example, WORKED_OUTPUT};
use second::function::functions;
use second::numbers::*;
use second::rules::DOCUMENT_01;
use second::script::{blocks, function_names, records, Words};
use second::transcript::output;

/// The one record of a script.
fn one(line: &str) -> Words {
    let records = records(line.as_bytes()).expect("a good line");
    assert_eq!(records.len(), 1, "{line}");
    records[0]
}

/// Where and why a script is refused.
fn refused(script: &str) -> String {
    let bad = records(script.as_bytes()).expect_err(script);
    format!("{}: {}", bad.line, bad.reason)
}

#[test]
fn the_worked_example_as_a_script_gives_its_block() {
    let script = "call 0 hsm start 1 0x80200000 7 # hart 1\n\n# a comment\n\
                  CALL 0 HSM Status 1\r\ndone 1\n\tcall 0 ipi send 3 0";
    let bytes = blocks(&records(script.as_bytes()).expect("a good script"));
    assert_eq!(bytes, worked_example());
    assert_eq!(output(DOCUMENT_01, &bytes), WORKED_OUTPUT);
}

#[test]
fn every_kind_of_line() {
    let call = [256 + 127, EID_PMU, 3, 1, 2, 3, 4, 5, 6];
    assert_eq!(one("call 127 pmu start 1 2 3 4 5 6"), call);
    assert_eq!(one("call 0x7F 0x504D55 3 1 2 3 4 5 6"), call);
    assert_eq!(one("call 0 0x99 7"), [256, 0x99, 7, 0, 0, 0, 0, 0, 0]);
    assert_eq!(one("done 3"), [515, 0, 0, 0, 0, 0, 0, 0, 0]);
    assert_eq!(one("wake 2"), [770, 0, 0, 0, 0, 0, 0, 0, 0]);
    assert_eq!(one("event 1 6"), [1025, 6, 0, 0, 0, 0, 0, 0, 0]);
    assert_eq!(one("raw 384 1"), [384, 1, 0, 0, 0, 0, 0, 0, 0]);
    assert_eq!(one("raw 1 2 3 4 5 6 7 8 9"), [1, 2, 3, 4, 5, 6, 7, 8, 9]);
}

#[test]
fn every_function_has_a_name_at_its_number() {
    let extensions = ["base", "ipi", "rfence", "hsm", "pmu"];
    for (extension, eid) in extensions.into_iter().zip(EXTENSIONS) {
        let names = function_names(eid);
        assert_eq!(names.len(), functions(eid).len());
        for (fid, name) in names.iter().enumerate() {
            let record = one(&format!("call 0 {extension} {name}"));
            assert_eq!(record[1..3], [eid, fid as u64]);
        }
    }
    assert_eq!(one("call 0 sPI send"), one("call 0 ipi 0"));
}

#[test]
fn numbers_reach_over_64_bits() {
    assert_eq!(one("raw -1")[0], u64::MAX);
    assert_eq!(one("raw 18446744073709551615")[0], u64::MAX);
    assert_eq!(one("raw 0xFFFF_ffff_FFFF_ffff")[0], u64::MAX);
    assert_eq!(one("raw -9223372036854775808")[0], 1 << 63);
    assert_eq!(one("raw -0x1000")[0], 0u64.wrapping_sub(4096));
    assert_eq!(one("raw 1_000")[0], 1000);
}

#[test]
fn wrong_numbers_are_refused() {
    for wrong in [
        "x", "0x", "1_", "_1", "--1", "-", "1.5", "+1", "0xg", "1__0",
    ] {
        let line = format!("raw {wrong}");
        assert_eq!(refused(&line), format!("1: '{wrong}' is not a number"));
    }
    let over = "raw 18446744073709551616";
    assert_eq!(refused(over), "1: 18446744073709551616 is over 2^64 - 1");
    let below = "raw -9223372036854775809";
    assert_eq!(refused(below), "1: -9223372036854775809 is below -2^63");
}

#[test]
fn wrong_lines_are_refused_with_their_number() {
    assert!(refused("done 0\n\n# c\nstart 1").starts_with("4: unknown kind 'start'"));
    assert!(refused("call 0 hsm").starts_with("1: call needs"));
    assert!(refused("call 0 time 0").starts_with("1: unknown extension 'time'"));
    assert!(refused("call 0 hsm send").starts_with("1: unknown function 'send' of hsm"));
    assert!(refused("call 0 9 send").starts_with("1: extension 9 has no function names"));
    assert!(refused("call 0 hsm start 1 2 3 4 5 6 7").starts_with("1: call takes at most six"));
    assert!(refused("done").starts_with("1: done takes a hart"));
    assert!(refused("wake 1 2").starts_with("1: wake takes a hart"));
    assert!(refused("event 1").starts_with("1: event takes a hart and a code"));
    assert!(refused("raw").starts_with("1: raw takes one to nine"));
    assert!(refused("raw 1 2 3 4 5 6 7 8 9 10").starts_with("1: raw takes one to nine"));
}

#[test]
fn harts_over_127_are_refused() {
    for line in ["call 128 hsm stop", "done 128", "wake -1", "event 4096 0"] {
        assert!(refused(line).contains("is not in 0 to 127"), "{line}");
    }
}

#[test]
fn bytes_that_are_no_text_are_refused() {
    let bad = records(b"done 1\ndone \xFF\n").expect_err("no text");
    assert_eq!((bad.line, bad.reason.as_str()), (2, "not text in UTF-8"));
}

#[test]
fn seven_records_fill_a_block_and_none_gives_none() {
    let sizes = [
        (0, 0),
        (1, 512),
        (7, 512),
        (8, 1024),
        (14, 1024),
        (15, 1536),
    ];
    for (lines, bytes) in sizes {
        let script = "event 0 0\n".repeat(lines);
        let records = records(script.as_bytes()).expect("a good script");
        assert_eq!(blocks(&records).len(), bytes);
        let printed = output(DOCUMENT_01, &blocks(&records));
        assert_eq!(printed.lines().count(), lines);
        assert!(!printed.contains('H'));
    }
}

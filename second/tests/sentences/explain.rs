//! Explained lines: errors, states, refusals and actions in words, and lines that differ.

use super::blocks::{worked_example, WORKED_OUTPUT};
use second::explain::explain;
use second::rules::DOCUMENT_01;
use second::script::{blocks, records};
use second::transcript::output;

/// The explanation of a script with the lines that belong to it.
fn explained(script: &str) -> String {
    let input = blocks(&records(script.as_bytes()).expect("a good script"));
    whole(&input)
}

fn whole(input: &[u8]) -> String {
    let explained = explain(input, &output(DOCUMENT_01, input));
    assert_eq!(explained.difference, None);
    explained.text
}

#[test]
fn the_worked_example_in_words() {
    let expected = "\
1 0 0 1
    hart 0 calls HSM start (EID 0x48534d, FID 0x0) with hart 1, address 0x80200000, opaque 7
    SBI_SUCCESS
    hart 1 goes from STOPPED to START_PENDING
    to do: hart 1 has to enter at 0x80200000 with opaque 0x7
2 0 2 0
    hart 0 calls HSM status (EID 0x48534d, FID 0x2) with hart 1
    SBI_SUCCESS: hart 1 is START_PENDING
3 0 0 0
    done of hart 1
    accepted
    hart 1 goes from START_PENDING to STARTED
4 0 0 2
    hart 0 calls IPI interrupt (EID 0x735049, FID 0x0) with mask 3, base 0
    SBI_SUCCESS
    to do: hart 0 has to take an interrupt
    to do: hart 1 has to take an interrupt
";
    let explained = explain(&worked_example(), WORKED_OUTPUT);
    assert_eq!(explained.difference, None);
    assert_eq!(explained.text, expected);
}

#[test]
fn errors_have_the_standards_names() {
    let lines = [
        ("call 0 0 0", "SBI_ERR_NOT_SUPPORTED (-2)"),
        ("call 0 hsm status 4", "SBI_ERR_INVALID_PARAM (-3)"),
        ("call 0 hsm start 1 0", "SBI_ERR_INVALID_ADDRESS (-5)"),
        ("call 0 hsm start 0", "SBI_ERR_ALREADY_AVAILABLE (-6)"),
        ("call 0 pmu stop 0 1", "SBI_ERR_ALREADY_STOPPED (-8)"),
        ("call 0 pmu stop 0 1 2", "SBI_ERR_NO_SHMEM (-9)"),
    ];
    for (line, name) in lines {
        assert!(explained(line).contains(name), "{line}");
    }
    let twice = "call 0 pmu configure 0 1 4 0xF0000\ncall 0 pmu start 0 1";
    assert!(explained(twice).contains("SBI_ERR_ALREADY_STARTED (-7)"));
}

#[test]
fn refusals_say_why() {
    let lines = [
        ("done 4", "(H2): hart 4 is not enabled"),
        ("call 1 ipi send", "(H3): hart 1 is STOPPED"),
        ("done 0", "(H5): hart 0 is STARTED, which has nothing"),
        ("wake 0", "(H5): hart 0 is STARTED, and only a SUSPENDED"),
        ("event 0 6", "(H6): the host reports firmware events 0 to 5"),
        ("raw 255", "(H7): the first word names no kind"),
    ];
    for (line, why) in lines {
        assert!(explained(line).contains(why), "{line}");
    }
    assert!(whole(&[0; 512]).starts_with("H8\n    a block whose 64 words"));
    assert!(whole(&[0; 511]).starts_with("short\n    the input ends"));
    assert_eq!(whole(&[]), "");
}

#[test]
fn fences_say_what_they_carry() {
    let lines = [
        ("fence.i 1 0 9 9 9", "do FENCE.I\n"),
        (
            "sfence.vma 1 0 4096 8",
            "do SFENCE.VMA from 0x1000 over 0x8 bytes\n",
        ),
        (
            "hfence.gvma 1",
            "do HFENCE.GVMA over the whole address space\n",
        ),
        (
            "hfence.gvma.vmid 1 0 5 -1 3",
            "whole address space for VMID 3\n",
        ),
        (
            "hfence.vvma.asid 1 0 1 1 3",
            "from 0x1 over 0x1 bytes for ASID 3\n",
        ),
    ];
    for (line, work) in lines {
        let text = explained(&format!("call 0 rfence {line}"));
        assert!(text.contains(work), "{text}");
    }
}

#[test]
fn lines_that_differ_are_named() {
    let input = worked_example();
    let tell = |printed| explain(&input, printed).difference.unwrap_or_default();
    let wrong = tell("1 0 0 1\n2 0 3 0\n3 0 0 0\n4 0 0 2\n");
    assert!(wrong.starts_with("line 2 differs: printed is \"2 0 3 0\\n\""));
    assert!(tell("1 0 0 1\n").starts_with("line 2 differs: printed is no line"));
    let more = format!("{WORKED_OUTPUT}5 0 0 0\n");
    assert!(tell(&more).ends_with("the second program says no line"));
    assert!(tell(WORKED_OUTPUT.trim_end()).starts_with("line 4 differs"));
    assert_eq!(tell(WORKED_OUTPUT), "");
}

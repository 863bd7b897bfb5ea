//! "The transcript program": the worked example, pieces, wrong and short blocks, read errors.

use std::fs::File;
use std::io::{self, Read, Write};
use std::process::{Command, Output, Stdio};

use super::blocks::*;
use second::record::{block_of, bytes_of};
use second::transcript::{run, Failure};

/// What the program itself prints for pieces of input.
fn run_program(pieces: &[&[u8]]) -> Output {
    let mut command = Command::new(env!("CARGO_BIN_EXE_transcript"));
    command.stdin(Stdio::piped()).stdout(Stdio::piped());
    let mut child = command.stderr(Stdio::piped()).spawn().expect("it runs");
    let mut pipe = child.stdin.take().expect("a pipe");
    for piece in pieces {
        pipe.write_all(piece).expect("it reads");
        pipe.flush().expect("it reads");
        std::thread::sleep(std::time::Duration::from_millis(2));
    }
    drop(pipe);
    child.wait_with_output().expect("it ends")
}

/// A reader that gives at most so many bytes at a time.
struct Pieces<'a>(&'a [u8], usize);

impl Read for Pieces<'_> {
    fn read(&mut self, buffer: &mut [u8]) -> io::Result<usize> {
        let length = self.1.min(self.0.len()).min(buffer.len());
        let (piece, rest) = self.0.split_at(length);
        buffer[..length].copy_from_slice(piece);
        self.0 = rest;
        Ok(length)
    }
}

/// A reader that is interrupted before every byte and fails after the last.
struct Failing<'a>(&'a [u8], bool);

impl Read for Failing<'_> {
    fn read(&mut self, buffer: &mut [u8]) -> io::Result<usize> {
        self.1 = !self.1;
        if self.1 {
            return Err(io::ErrorKind::Interrupted.into());
        }
        let Some((&first, rest)) = self.0.split_first() else {
            return Err(io::Error::other("the line is cut"));
        };
        buffer[0] = first;
        self.0 = rest;
        Ok(1)
    }
}

#[test]
fn the_worked_example_prints_its_whole_output() {
    assert_eq!(printed(&worked_example()), WORKED_OUTPUT);
    let output = run_program(&[&worked_example()]);
    assert!(output.status.success() && output.stderr.is_empty());
    assert_eq!(output.stdout, WORKED_OUTPUT.as_bytes());
}

#[test]
fn the_worked_example_is_stored_as_files_too() {
    let input = include_bytes!("../example/input");
    let output = include_str!("../example/output");
    assert_eq!(input[..], worked_example());
    assert_eq!(output, WORKED_OUTPUT);
}

#[test]
fn blocks_may_come_in_pieces() {
    let mut input = worked_example();
    input.extend(block(&[&[256, HSM, 2, 1]]));
    input.extend([1, 2, 3]);
    let expected = format!("{WORKED_OUTPUT}5 0 0 0\nshort\n");
    for length in [1, 7, 511, 513, 1000] {
        let mut output = Vec::new();
        let mut pieces = Pieces(&input, length);
        run(&mut pieces, &mut output).expect("no failure");
        assert_eq!(String::from_utf8(output).unwrap(), expected);
    }
    let pieces: Vec<&[u8]> = input.chunks(100).collect();
    assert_eq!(run_program(&pieces).stdout, expected.as_bytes());
}

#[test]
fn a_read_error_ends_with_a_message_after_answering_what_was_read() {
    let mut input = worked_example();
    input.extend([0; 100]);
    let mut output = Vec::new();
    let failure = run(&mut Failing(&input, false), &mut output).expect_err("it fails");
    assert!(matches!(failure, Failure::Read(_)));
    assert_eq!(
        failure.to_string(),
        "cannot read standard input: the line is cut"
    );
    assert_eq!(output, WORKED_OUTPUT.as_bytes());
}

#[test]
fn the_program_fails_clearly_if_it_cannot_read() {
    let directory = File::open(".").expect("a directory");
    let mut command = Command::new(env!("CARGO_BIN_EXE_transcript"));
    let output = command.stdin(directory).output().expect("it runs");
    assert!(!output.status.success() && output.stdout.is_empty());
    let message = String::from_utf8(output.stderr).unwrap();
    assert!(message.starts_with("transcript: cannot read standard input: "));
}

#[test]
fn empty_input_prints_nothing() {
    assert_eq!(printed(&[]), "");
    let output = run_program(&[]);
    assert!(output.status.success() && output.stdout.is_empty() && output.stderr.is_empty());
}

#[test]
fn a_block_of_unused_records_prints_nothing() {
    assert_eq!(printed(&block(&[])), "");
}

#[test]
fn a_short_last_block_prints_short() {
    for length in [1, 8, 72, 144, 511] {
        assert_eq!(printed(&vec![0; length]), "short\n");
        assert_eq!(printed(&worked_example()[..length]), "short\n");
        let mut input = worked_example();
        input.extend(&worked_example()[..length]);
        assert_eq!(printed(&input), format!("{WORKED_OUTPUT}short\n"));
    }
    assert_eq!(run_program(&[&[1]]).stdout, b"short\n");
}

#[test]
fn a_short_block_is_not_filled_up_with_zeros() {
    // The sum is right without the last word, which is 0.
    let mut words = block_of(&[record(&[256, HSM, 2, 0])]);
    words[10] = words[63];
    words[63] = 0;
    let bytes = bytes_of(&words);
    assert_eq!(printed(&bytes), "1 0 0 0\n");
    assert_eq!(printed(&bytes[..511]), "short\n");
    assert_eq!(printed(&bytes[..200]), "short\n");
}

#[test]
fn a_wrong_block_prints_h8_and_adds_no_record() {
    let stop: &[u64] = &[256, HSM, 1];
    let status: &[u64] = &[256, HSM, 2, 0];
    for off in [1, u64::MAX, 1 << 32, 1 << 63] {
        let mut input = block(&[status]);
        input.extend(wrong_block(&[stop], off));
        input.extend(block(&[status]));
        assert_eq!(printed(&input), "1 0 0 0\nH8\n2 0 0 0\n");
    }
}

#[test]
fn a_block_of_zeros_is_wrong() {
    assert_eq!(printed(&[0; 512]), "H8\n");
    assert_eq!(printed(&[0; 1024]), "H8\nH8\n");
}

#[test]
fn words_sum_to_1_modulo_2_to_64() {
    let mut words = [0u64; 64];
    words[1] = u64::MAX;
    words[2] = 2;
    assert_eq!(printed(&bytes_of(&words)), "");
    words[63] = 1;
    assert_eq!(printed(&bytes_of(&words)), "H8\n");
}

#[test]
fn words_are_little_endian() {
    let bytes = block(&[&[256, HSM, 2, 0]]);
    assert_eq!(bytes[..10], [0, 1, 0, 0, 0, 0, 0, 0, 0x4D, 0x53]);
}

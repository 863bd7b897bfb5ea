//! Blocks for the tests of the transcript program, and the worked example.

use second::record::{block_of, bytes_of};
use second::rules::DOCUMENT_01;
use second::transcript::output;

pub const HSM: u64 = 4739917;
pub const IPI: u64 = 7557193;

pub type Words = [u64; 9];

pub fn record(words: &[u64]) -> Words {
    let mut record = [0; 9];
    record[..words.len()].copy_from_slice(words);
    record
}

/// A right block with these records.
pub fn block(records: &[&[u64]]) -> Vec<u8> {
    let records: Vec<Words> = records.iter().map(|r| record(r)).collect();
    bytes_of(&block_of(&records))
}

/// A block whose sum is off by so much.
pub fn wrong_block(records: &[&[u64]], off: u64) -> Vec<u8> {
    let records: Vec<Words> = records.iter().map(|r| record(r)).collect();
    let mut words = block_of(&records);
    words[63] = words[63].wrapping_add(off);
    bytes_of(&words)
}

pub fn printed(input: &[u8]) -> String {
    output(DOCUMENT_01, input)
}

/// The worked example: its last word stands as document 01 gives it.
pub fn worked_example() -> Vec<u8> {
    let records: [&[u64]; 4] = [
        &[256, 4739917, 0, 1, 2149580800, 7],
        &[256, 4739917, 2, 1],
        &[513],
        &[256, 7557193, 0, 3, 0],
    ];
    let mut words = [0; 64];
    for (place, given) in words.chunks_mut(9).zip(records) {
        place[..given.len()].copy_from_slice(given);
    }
    words[63] = 18446744071542932495;
    bytes_of(&words)
}

pub const WORKED_OUTPUT: &str = "1 0 0 1\n2 0 2 0\n3 0 0 0\n4 0 0 2\n";

//! Blocks and records: what the bytes of the transcript program's input say.

use crate::operation::{Operation, Registers};

/// Bytes of a block.
pub const BLOCK_BYTES: usize = 512;
/// Words of a block: seven records of nine, then the check word.
pub const BLOCK_WORDS: usize = 64;
/// Records of a block.
pub const BLOCK_RECORDS: usize = 7;
/// Words of a record: kind and hart, EID, FID, a0 to a5.
pub const RECORD_WORDS: usize = 9;

/// First word of a record for hart 0, by kind.
pub const CALL: u64 = 256;
pub const DONE: u64 = 512;
pub const WAKE: u64 = 768;
pub const EVENT: u64 = 1024;
/// The highest hart that a first word can name.
pub const LAST_HART: u64 = 127;

/// What a record says.
#[derive(Clone, Copy, Debug, PartialEq, Eq)]
pub enum Record {
    Unused,
    Used(Operation),
    UnknownKind,
}

impl Record {
    /// Reads a record. The first word is compared over all its 64 bits.
    pub fn of(words: &[u64; RECORD_WORDS]) -> Record {
        let first = words[0];
        let hart_over = |kind: u64| first.checked_sub(kind).filter(|&hart| hart <= LAST_HART);
        if first == 0 {
            Record::Unused
        } else if let Some(hart) = hart_over(CALL) {
            let registers = Registers::call(words[1], words[2], &words[3..]);
            Record::Used(Operation::Call { hart, registers })
        } else if let Some(hart) = hart_over(DONE) {
            Record::Used(Operation::Done { hart })
        } else if let Some(hart) = hart_over(WAKE) {
            Record::Used(Operation::Wake { hart })
        } else if let Some(hart) = hart_over(EVENT) {
            let code = words[1];
            Record::Used(Operation::Event { hart, code })
        } else {
            Record::UnknownKind
        }
    }
}

/// The 64 little-endian words of a block.
pub fn words_of(block: &[u8; BLOCK_BYTES]) -> [u64; BLOCK_WORDS] {
    let mut words = [0; BLOCK_WORDS];
    for (word, bytes) in words.iter_mut().zip(block.chunks_exact(8)) {
        let parts = bytes.iter().rev();
        *word = parts.fold(0, |sum, &byte| sum << 8 | u64::from(byte));
    }
    words
}

/// The bytes of a block.
pub fn bytes_of(words: &[u64; BLOCK_WORDS]) -> Vec<u8> {
    words.iter().flat_map(|word| word.to_le_bytes()).collect()
}

/// The records of a block, in order; the check word is left out.
pub fn records_of(words: &[u64; BLOCK_WORDS]) -> Vec<[u64; RECORD_WORDS]> {
    let mut records = Vec::new();
    for chunk in words.chunks_exact(RECORD_WORDS) {
        let mut record = [0; RECORD_WORDS];
        record.copy_from_slice(chunk);
        records.push(record);
    }
    records
}

/// A block of up to seven records, the rest unused, with the right check word.
pub fn block_of(records: &[[u64; RECORD_WORDS]]) -> [u64; BLOCK_WORDS] {
    let mut words = [0; BLOCK_WORDS];
    for (place, record) in words.chunks_exact_mut(RECORD_WORDS).zip(records) {
        place.copy_from_slice(record);
    }
    let sum = words.iter().fold(0, |sum: u64, &w| sum.wrapping_add(w));
    words[BLOCK_WORDS - 1] = 1u64.wrapping_sub(sum);
    words
}

//! The transcript program: blocks, records and their numbers.

use crate::platform::Platform;
use crate::record::Record;
use crate::tables::Tables;

/// What the transcript program takes for a right block, a record and a number.
pub trait ProgramRules {
    /// "64 little-endian words, summing to 1 modulo 2^64"
    fn block_right(&self, words: &[u64; 64]) -> bool {
        words.iter().fold(0, |sum: u64, &w| sum.wrapping_add(w)) == 1
    }

    /// "First word: 0 unused, 256 + h call, 512 + h done, 768 + h wake, 1024 + h event"
    fn record(&self, words: &[u64; 9]) -> Record {
        Record::of(words)
    }

    /// "Numbers run from 1 over the used records of all right blocks"
    fn number_after(&self, record: &Record, number: u64) -> u64 {
        match record {
            Record::Unused => number,
            Record::Used(_) | Record::UnknownKind => number + 1,
        }
    }

    /// "A wrong block [...] adds no record."
    fn number_after_wrong_block(&self, number: u64) -> u64 {
        number
    }

    /// "the tables are carried from block to block"
    fn carried(&self, _platform: &Platform, tables: &Tables) -> Tables {
        tables.clone()
    }

    /// "A short last block prints `short`."
    fn prints_short(&self, left_over: usize) -> bool {
        left_over > 0
    }
}
